/* How much stack each call takes at most, by a thread whose stack is painted before it. Ends with 1 where one takes more than wasmloop.h says.
 *
 * usage: stack_test FILE..      FILE: modules */
#include <pthread.h>
#include <stdio.h>
#include <stdlib.h>
#include <string.h>
#include "wasmloop.h"

enum { STACK = 1 << 20, PAINT = 0xa5, MOST = 18 << 10, MOST_OF_SLICES = 40 << 10 };

static uint8_t bytes[1 << 20], *stack;
static size_t length;
static wasmloop_handle module, loop, job, instance;
static char text[70000];

static void nothing(void) { }
static void loads(void) {
    wasmloop_fault fault;
    wasmloop_load(bytes, length, &module, &fault);
}
static void explains(void) {
    uint64_t count;
    wasmloop_explain(bytes, length, text, sizeof text, &count);
}
static void makes_loop(void) {
    wasmloop_limits limits = { 100000, 100000, 0, 128 };
    wasmloop_loop(&module, &limits, &loop);
}
static void makes_none(void) {
    wasmloop_handle none = WASMLOOP_HANDLE_INIT, empty = WASMLOOP_HANDLE_INIT;
    wasmloop_limits limits = { 1, 1, 0, 1 };
    wasmloop_loop(&none, &limits, &empty);
}
static void turns(void) {
    wasmloop_turned turned = { .wait = 0 };
    uint64_t now;
    for (uint64_t i = 0; i < 1000 && turned.did.what < WASMLOOP_OVER; i++) {
        wasmloop_turn(&loop, 100, &turned);
        wasmloop_clock(&loop, i * 100, &now);
    }
}
static void steps_for(void) {
    wasmloop_did did;
    uint32_t over = 1;
    for (int k = 0; k < 100 && over; k++) wasmloop_step_for(&loop, 1, &over, &did);
    wasmloop_step_for(&loop, 1000000, &over, &did);
}
static void turns_for(void) {
    wasmloop_turned turned = { .wait = 0 };
    uint64_t now;
    uint32_t over;
    for (uint64_t i = 0; i < 1000 && turned.did.what < WASMLOOP_OVER; i++) {
        wasmloop_turn_for(&loop, 100, 50 * i + 1, &over, &turned);
        wasmloop_clock(&loop, i * 100, &now);
    }
}
static void hands_out(void) { wasmloop_next_job(&loop, &job); }
static void accepts(void) { wasmloop_accept(&loop, &job); }
static void makes_job(void) {
    wasmloop_task task = { 1000000, 0, 128 };
    wasmloop_job_new(&module, &task, (const uint8_t *)text, 65536, &job);
}
static void runs(void) { wasmloop_job_run(&job); }
static void stops(void) {
    static wasmloop_site sites[130];
    uint64_t count;
    wasmloop_stop(&job, sites, 130, &count);
}
static void asks(void) {
    int32_t answer;
    wasmloop_request(&loop, 0, (const uint8_t *)text, 65536, &answer);
}
static void stops_told(void) {
    uint64_t count;
    wasmloop_stop_told(bytes, length, &job, text, sizeof text, &count);
    wasmloop_stop_told(bytes, length, &loop, text, sizeof text, &count);
}
static void warns(void) {
    uint64_t count;
    for (uint32_t number = 0; number < 3; number++) wasmloop_warning(&module, number, text, sizeof text, &count);
}
static void makes_instance(void) {
    wasmloop_call_limits limits = { 100000, 128, 0 };
    wasmloop_ended ended;
    wasmloop_instance(&module, &limits, &instance, &ended);
}
static void calls(void) {
    wasmloop_call_limits limits = { 100000, 128, 0 };
    wasmloop_ended ended;
    uint64_t args[1] = { 0 }, number = 0;
    wasmloop_call(&instance, "uv_work", args, 1, &limits, &ended);
    wasmloop_call(&instance, "uv_main", NULL, 0, &limits, &ended);
    wasmloop_export_number(&module, "uv_work", &number);
    wasmloop_call_at(&instance, number, args, 1, &limits, &ended);
}
static void calls_bytes(void) {
    wasmloop_call_limits limits = { 100000, 128, 0 };
    wasmloop_ended ended;
    uint64_t args[1] = { 0 }, number = 0, count;
    const uint8_t *at;
    wasmloop_export_number(&module, "uv_work", &number);
    wasmloop_call_bytes(&instance, number, args, 1, (const uint8_t *)text, 65536, &limits, &ended);
    wasmloop_view(&instance, &at, &count);
}
static void first_slice(void) {
    wasmloop_call_limits limits = { 100000, 128, 0 };
    wasmloop_ended ended;
    uint64_t args[1] = { 0 }, number = 0;
    uint32_t over;
    wasmloop_export_number(&module, "uv_work", &number);
    wasmloop_call_for(&instance, number, args, 1, &limits, 100, &over, &ended);
}
static void ends(void) {
    wasmloop_ended ended;
    wasmloop_call_end(&instance, &ended);
}
static void lists(void) {
    wasmloop_listed listed;
    wasmloop_type type;
    for (uint64_t number = 0; wasmloop_export_at(&module, number, text, sizeof text, &listed, &type) == WASMLOOP_OK; number++) { }
}
static void begins(void) {
    wasmloop_call_limits limits = { 100000, 128, 0 };
    uint64_t args[1] = { 0 };
    wasmloop_call_begin(&instance, "uv_work", args, 1, &limits);
}
static void goes_on(void) {
    wasmloop_ended ended;
    uint32_t over;
    wasmloop_call_run_for(&instance, 100, &over, &ended);
}
static void runs_for(void) {
    uint32_t over;
    wasmloop_job_run_for(&job, 1000, &over);
}
static void works(void) {
    wasmloop_handle made = WASMLOOP_HANDLE_INIT;
    wasmloop_task task = { 100000, 0, 128 };
    wasmloop_work(&module, &task, (const uint8_t *)text, 65536, &made);
    wasmloop_drop(&made);
}
static void tells_places(void) {
    static wasmloop_place places[130];
    uint64_t count;
    wasmloop_stop_places(&job, places, 130, &count);
    wasmloop_stop_places(&loop, places, 130, &count);
    wasmloop_stop_places(&instance, places, 130, &count);
}
static void steps(void) {
    wasmloop_did did;
    for (int i = 0; i < 100; i++) wasmloop_step(&loop, &did);
}
static void starts(void) { wasmloop_job_start(&loop, &job); }
static void reads_module(void) {
    wasmloop_handle other = WASMLOOP_HANDLE_INIT;
    wasmloop_type type;
    wasmloop_shape shape;
    wasmloop_function(&module, "uv_work", &type);
    wasmloop_shape_of(&module, &shape);
    wasmloop_share(&module, &other);
    wasmloop_drop(&other);
}
static void reads_loop(void) {
    wasmloop_standing standing;
    static int64_t values[64];
    uint64_t number;
    uint32_t count;
    int32_t answer;
    wasmloop_standing_of(&loop, &standing);
    wasmloop_emits(&loop, values, 64, &count);
    wasmloop_hint(&loop, &number);
    wasmloop_clock(&loop, 1000, &number);
    wasmloop_async_send(&loop, 0);
    wasmloop_cancel(&loop, 1, &answer);
}
static void reads_job(void) {
    wasmloop_about about;
    const uint8_t *at;
    uint64_t count;
    wasmloop_job_about(&job, &about);
    wasmloop_job_input(&job, (uint8_t *)text, sizeof text, &count);
    wasmloop_job_reply(&job, (uint8_t *)text, sizeof text, &count);
    wasmloop_job_view(&job, &at, &count);
}
static void inspects(void) {
    wasmloop_handle *const of[] = { &instance, &loop };
    for (int k = 0; k < 2; k++) {
        wasmloop_number value;
        uint64_t size;
        wasmloop_size(of[k], &size);
        wasmloop_read(of[k], 0, (uint8_t *)text, 65536);
        wasmloop_global(of[k], "g", &value);
    }
    wasmloop_write(&instance, 0, (const uint8_t *)text, 16);
}
static void drops(void) {
    wasmloop_drop(&job);
    wasmloop_drop(&loop);
    wasmloop_drop(&instance);
    wasmloop_drop(&module);
}

static const struct { const char *name; void (*call)(void); } all[] = {
    { "load", loads }, { "explain", explains }, { "loop", makes_loop },
    { "loop of nothing", makes_none }, { "step_for", steps_for }, { "turn_for", turns_for }, { "drop", drops },
    { "load", loads }, { "loop", makes_loop }, { "request", asks }, { "warning", warns }, { "turn", turns }, { "next_job", hands_out }, { "job_run", runs },
    { "accept", accepts }, { "job_new", makes_job }, { "job_run", runs }, { "stop", stops }, { "stop_told", stops_told },
    { "stop_places", tells_places }, { "instance", makes_instance }, { "call", calls }, { "call_bytes", calls_bytes }, { "call_for", first_slice }, { "call_end", ends },
    { "export_at", lists }, { "call_begin", begins }, { "call_run_for", goes_on }, { "call_run_for", goes_on }, { "work", works }, { "step", steps }, { "of a module", reads_module }, { "of a loop", reads_loop }, { "of a job", reads_job },
    { "of an instance", inspects }, { "drop", drops }, { "load", loads }, { "loop", makes_loop }, { "job_new", makes_job }, { "job_start", starts },
    { "job_run_for", runs_for }, { "job_run_for", runs_for }, { "stop_places", tells_places }, { "drop", drops },
};
enum { CALLS = sizeof all / sizeof *all };

static void *in_thread(void *number) {
    all[*(size_t *)number].call();
    return NULL;
}
static void *alone(void *unused) {
    nothing();
    return unused;
}

static size_t stack_of(void *(*what)(void *), size_t number) {
    pthread_attr_t attributes;
    pthread_t thread;
    memset(stack, PAINT, STACK);
    pthread_attr_init(&attributes);
    pthread_attr_setstack(&attributes, stack, STACK);
    if (pthread_create(&thread, &attributes, what, &number)) exit(2);
    pthread_join(thread, NULL);
    pthread_attr_destroy(&attributes);
    size_t left = 0;
    while (left < STACK && stack[left] == PAINT) left++;
    return STACK - left;
}

static size_t limit_of(const char *name) { return strcmp(name, "step_for") && strcmp(name, "turn_for") ? MOST : MOST_OF_SLICES; }

static void measure(const char *path, size_t *most, size_t base) {
    FILE *file = fopen(path, "rb");
    if (!file) { perror(path); exit(2); }
    length = fread(bytes, 1, sizeof bytes, file);
    fclose(file);
    for (size_t i = 0; i < CALLS; i++) {
        size_t took = stack_of(in_thread, i);
        took = took > base ? took - base : 0;
        if (took > most[i]) most[i] = took;
    }
}

int main(int argc, char **argv) {
    size_t most[CALLS] = { 0 };
    int is_over = 0;
    stack = aligned_alloc(4096, STACK);
    size_t base = stack_of(alone, 0);
    for (int i = 1; i < argc; i++) measure(argv[i], most, base);
    printf("stack:");
    for (size_t i = 0; i < CALLS; i++) {
        printf("%s %s %zu", i ? "," : "", all[i].name, most[i]);
        size_t limit = limit_of(all[i].name);
        if (most[i] <= limit) continue;
        printf(" (more than %zu)", limit);
        is_over = 1;
    }
    puts(" bytes at most");
    return is_over;
}
