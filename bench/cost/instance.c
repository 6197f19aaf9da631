/* What a call of a kept instance takes. usage: instance MODULE [CALL COUNT]; the least of 30 turns, ns a call, or so many calls of one kind */
#include "wasmloop.h"
#include <stdio.h>
#include <stdlib.h>
#include <string.h>
#include <time.h>

static const wasmloop_call_limits limits = { 1000000, 64, 0 };
static const uint64_t args[2] = { 2, 3 };
static wasmloop_handle module, it;
static wasmloop_ended ended;
static uint64_t number_of_nothing, number_of_add;
static uint8_t bytes[1 << 20], text[64];

static void must(int is_right) {
    if (!is_right) exit(1);
}

static void load(const char *path) {
    wasmloop_fault fault;
    FILE *file = fopen(path, "rb");
    must(file != NULL);
    size_t length = fread(bytes, 1, sizeof bytes, file);
    fclose(file);
    must(!wasmloop_load(bytes, length, &module, &fault) && !wasmloop_instance(&module, &limits, &it, &ended));
    must(!wasmloop_export_number(&module, "nothing", &number_of_nothing) && !wasmloop_export_number(&module, "add", &number_of_add));
}

static void nothing(void) { must(!wasmloop_call(&it, "nothing", NULL, 0, &limits, &ended)); }
static void nothing_at(void) { must(!wasmloop_call_at(&it, number_of_nothing, NULL, 0, &limits, &ended)); }
static void add(void) { must(!wasmloop_call(&it, "add", args, 2, &limits, &ended) && ended.result[0] == 5); }
static void add_at(void) { must(!wasmloop_call_at(&it, number_of_add, args, 2, &limits, &ended) && ended.result[0] == 5); }
static void add_for(void) {
    uint32_t over = 0;
    must(!wasmloop_call_for(&it, number_of_add, args, 2, &limits, 1000, &over, &ended) && over && ended.result[0] == 5);
}
static void goes_on(void) {
    uint32_t over = 0;
    must(!wasmloop_call_run_for(&it, 1000, &over, &ended) && over && ended.result[0] == 5);
}
static void add_paused(void) {
    uint32_t over = 1;
    must(!wasmloop_call_for(&it, number_of_add, args, 2, &limits, 2, &over, &ended) && !over);
    goes_on();
}
static void add_begun(void) {
    must(!wasmloop_call_begin(&it, "add", args, 2, &limits));
    goes_on();
}
static wasmloop_handle job_of(void) {
    static const wasmloop_task task = { 1000000, 5, 64 };
    wasmloop_handle job = WASMLOOP_HANDLE_INIT;
    must(!wasmloop_job_new(&module, &task, text, sizeof text, &job));
    return job;
}
static void work(void) {
    wasmloop_handle job = job_of();
    must(!wasmloop_job_run(&job) && !wasmloop_drop(&job));
}
static void work_for(void) {
    wasmloop_handle job = job_of();
    uint32_t over = 0;
    must(!wasmloop_job_run_for(&job, 1000, &over) && over && !wasmloop_drop(&job));
}
static void absent(void) { must(wasmloop_call(&it, "absent", NULL, 0, &limits, &ended) == WASMLOOP_NONE); }
static void writes(void) { must(!wasmloop_write(&it, 1024, text, 64)); }
static void reads(void) { must(!wasmloop_read(&it, 1024, text, 64)); }

static void made(void) {
    wasmloop_handle other = WASMLOOP_HANDLE_INIT;
    must(!wasmloop_instance(&module, &limits, &other, &ended) && !wasmloop_drop(&other));
}

static const struct kind {
    const char *name;
    void (*call)(void);
} kinds[] = { { "nothing", nothing }, { "nothing_at", nothing_at }, { "add", add }, { "add_at", add_at }, { "add_for", add_for },
    { "add_paused", add_paused }, { "add_begun", add_begun }, { "absent", absent }, { "write", writes }, { "read", reads }, { "instance", made },
    { "work", work }, { "work_for", work_for } };

static double now(void) {
    struct timespec t;
    clock_gettime(CLOCK_MONOTONIC, &t);
    return (double)t.tv_sec * 1e9 + (double)t.tv_nsec;
}

static void many(const struct kind *kind, long count) {
    for (long k = 0; k < count; k++) kind->call();
}

static void tell(const struct kind *kind) {
    const long count = 2000;
    double least = 1e18;
    for (int turn = 0; turn < 300; turn++) {
        double from = now();
        many(kind, count);
        double took = (now() - from) / (double)count;
        if (took < least) least = took;
    }
    printf("%-10s %8.1f ns\n", kind->name, least);
}

int main(int argc, char **argv) {
    must(argc == 2 || argc == 4);
    load(argv[1]);
    for (size_t k = 0; k < sizeof kinds / sizeof *kinds; k++) {
        if (argc == 2)
            tell(&kinds[k]);
        else if (!strcmp(kinds[k].name, argv[2]))
            many(&kinds[k], atol(argv[3]));
    }
    return wasmloop_drop(&it) || wasmloop_drop(&module);
}
