/* Memory is refused at each place in turn: every call answers, nothing leaks, and what is done again afterwards works.
 * Link with -Wl,--wrap=malloc,--wrap=realloc. */
#include <stdio.h>
#include <stdlib.h>
#include "wasmloop.h"
void *__real_malloc(size_t n);
void *__real_realloc(void *p, size_t n);
static long left = -1, asked;
static int refused(void) { return asked++, left >= 0 && left-- == 0; }
void *__wrap_malloc(size_t n) { return refused() ? NULL : __real_malloc(n); }
void *__wrap_realloc(void *p, size_t n) { return refused() ? NULL : __real_realloc(p, n); }

static uint8_t bytes[1 << 21];
static size_t length;
static long told[12];

/* a second handle, work without a loop, and a refusal's sentence */
static int other_calls(wasmloop_handle *module, int *again) {
    wasmloop_handle other = WASMLOOP_HANDLE_INIT, job = WASMLOOP_HANDLE_INIT;
    wasmloop_task task = { 1000000, 1, 64 };
    char text[100];
    uint64_t count;
    int got;
    while ((got = wasmloop_share(module, &other)) != WASMLOOP_OK) {
        if ((*again)++ > 2 || got != WASMLOOP_MEMORY) return 11;
        told[4]++;
    }
    while ((got = wasmloop_work(&other, &task, bytes, 100, &job)) == WASMLOOP_MEMORY) {
        if ((*again)++ > 2) return 12;
        told[5]++;
    }
    if (got != WASMLOOP_NO_WORK && (got || wasmloop_drop(&job))) return 13;
    while ((got = wasmloop_explain(bytes, length - 1, text, sizeof text, &count)) == WASMLOOP_MEMORY) {
        if ((*again)++ > 2) return 14;
        told[6]++;
    }
    return got || wasmloop_drop(&other) ? 15 : 0;
}

/* a request of the loop's owner */
static int asks(wasmloop_handle *loop, int *again) {
    int32_t answer = 0;
    int got;
    while ((got = wasmloop_request(loop, 1, bytes, 100, &answer)) == WASMLOOP_OK && answer == -12) {
        if ((*again)++ > 2) return 16;
        told[7]++;
    }
    return got || (answer != 1 && answer != -38) ? 17 : 0;
}

/* a step in slices, of which the first takes memory */
static int slices(wasmloop_handle *loop, wasmloop_did *did, int *again) {
    for (uint32_t over = 0; !over;) {
        int got = wasmloop_step_for(loop, 100, &over, did);
        if (got == WASMLOOP_OK) continue;
        if ((*again)++ > 2 || got != WASMLOOP_MEMORY) return 18;
        told[8]++;
    }
    return 0;
}

/* a turn in slices, which goes on where memory is refused after a step */
static int turns(wasmloop_handle *loop, wasmloop_did *did, int *again) {
    wasmloop_turned turned = { .wait = 0 };
    for (uint32_t over = 0; !over;) {
        int got = wasmloop_turn_for(loop, 1, 100, &over, &turned);
        if (got == WASMLOOP_OK) continue;
        if ((*again)++ > 2 || got != WASMLOOP_MEMORY) return 19;
        told[9]++;
    }
    *did = turned.did;
    return 0;
}

/* a call and its slices: of a function of at most 8 parameters and 1 result none takes memory */
static int first_slices(wasmloop_handle *module, wasmloop_handle *instance) {
    static const wasmloop_call_limits limits = { 1000, 64, 0 };
    wasmloop_listed listed;
    wasmloop_type type;
    uint64_t args[256] = { 0 };
    for (uint64_t number = 0; wasmloop_export_at(module, number, NULL, 0, &listed, &type) == WASMLOOP_OK; number++) {
        wasmloop_ended ended;
        uint32_t over = 0;
        long before = asked;
        if (listed.kind || type.params > 8 || type.results > 1) continue;
        if (wasmloop_call_for(instance, number, args, type.params, &limits, 10, &over, &ended)) return 20;
        while (!over)
            if (wasmloop_call_run_for(instance, 100, &over, &ended)) return 21;
        if (asked != before) return 22;
        told[11]++;
    }
    return 0;
}

/* an instance */
static int instances(wasmloop_handle *module, int *again) {
    static const wasmloop_call_limits limits = { 1000000, 64, 0 };
    wasmloop_handle instance = WASMLOOP_HANDLE_INIT;
    wasmloop_ended ended;
    int got;
    while ((got = wasmloop_instance(module, &limits, &instance, &ended)) != WASMLOOP_OK) {
        if ((*again)++ > 2 || got != WASMLOOP_MEMORY) return 23;
        told[10]++;
    }
    if ((got = first_slices(module, &instance))) return got;
    return wasmloop_drop(&instance) ? 25 : 0;
}

/* all that a host does with a guest; what is answered MEMORY is counted and done again */
static int life(void) {
    wasmloop_handle module = WASMLOOP_HANDLE_INIT, loop = WASMLOOP_HANDLE_INIT, job = WASMLOOP_HANDLE_INIT;
    wasmloop_limits limits = { 1000000, 1000000, 0, 64 };
    wasmloop_fault fault;
    wasmloop_did did;
    wasmloop_about about;
    uint64_t moment;
    int got, again = 0;
    while ((got = wasmloop_load(bytes, length, &module, &fault)) != WASMLOOP_OK) {
        if (again++ > 2 || got != WASMLOOP_MEMORY) return 1;
        told[0]++;
    }
    while ((got = wasmloop_loop(&module, &limits, &loop)) != WASMLOOP_OK) {
        if (again++ > 2 || got != WASMLOOP_MEMORY) return 2;
        told[1]++;
    }
    if ((got = other_calls(&module, &again)) || (got = instances(&module, &again))) return got;
    if (wasmloop_drop(&module)) return 3;
    if ((got = asks(&loop, &again))) return got;
    for (int i = 0; i < 400; i++) {
        if ((got = i % 3 == 0 ? wasmloop_step(&loop, &did) : i % 3 == 1 ? slices(&loop, &did, &again) : turns(&loop, &did, &again))) return got;
        if (did.what == WASMLOOP_OVER || did.what == WASMLOOP_FAILED) break;
        while ((got = wasmloop_next_job(&loop, &job)) != WASMLOOP_NONE) {
            if (got == WASMLOOP_MEMORY) {
                if (again++ > 2) return 5;
                told[2]++;
                continue;
            }
            if (got || wasmloop_job_run(&job) || wasmloop_job_about(&job, &about)) return 6;
            if (about.outcome == WASMLOOP_WORK_MEMORY) told[3]++;
            if ((got = wasmloop_accept(&loop, &job)) == WASMLOOP_STRANGER) got = wasmloop_drop(&job);
            if (got) return 7;
        }
        if (wasmloop_clock(&loop, (uint64_t)i * 10, &moment)) return 8;
    }
    return wasmloop_drop(&loop) ? 9 : 0;
}

int main(int argc, char **argv) {
    for (int k = 1; k < argc; k++) {
        FILE *file = fopen(argv[k], "rb");
        length = fread(bytes, 1, sizeof bytes, file);
        fclose(file);
        long n = 0;
        for (;; n++) {
            left = n;
            int got = life();
            if (got) { printf("%s: %d where allocation %ld is refused\n", argv[k], got, n); return 1; }
            if (left >= 0) break; /* fewer allocations than that */
        }
        left = -1;
        printf("%s: each of %ld allocations refused in turn; answered: load %ld, loop %ld, next_job %ld, job_run %ld, share %ld, work %ld, explain %ld, request %ld, "
            "step_for %ld, turn_for %ld, instance %ld; %ld calls in slices took none\n", argv[k], n, told[0], told[1], told[2], told[3], told[4], told[5],
            told[6], told[7], told[8], told[9], told[10], told[11]);
        for (int i = 0; i < 12; i++) told[i] = 0;
    }
    return 0;
}
