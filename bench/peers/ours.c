/* This library, as run.py of ../libraries runs it.

   usage: peer-ours call FILE CALLS            calls `run` CALLS times in one instance
          peer-ours work FILE OP INPUT CALLS   calls `uv_work` CALLS times, each in a fresh instance
          peer-ours load FILE CALLS            loads FILE CALLS times, and keeps each
          peer-ours fuel FILE UNITS            calls `line` with UNITS of fuel, then `count`
          peer-ours late FILE CALLS UNITS      calls `run`, which never ends, and stops it at a deadline, CALLS times, in slices of UNITS

   It prints what it computed and the nanoseconds of the fastest call; `load` prints the resident bytes that a kept module takes, `fuel` the
   result of `count` and the fuel used, `late` by how many nanoseconds it stopped too late, in the mean and at worst. */
#define _POSIX_C_SOURCE 200809L
#include "peer.h"
#include "wasmloop.h"

#define AMPLE (UINT64_C(1) << 50)
#define DEPTH 128

static void must(int status, const char *call)
{
    if (status != WASMLOOP_OK) {
        fprintf(stderr, "%s: %s\n", call, wasmloop_status_name(status));
        exit(1);
    }
}

static void call(wasmloop_handle *module, int calls)
{
    wasmloop_call_limits limits = { .fuel = AMPLE, .depth = DEPTH };
    wasmloop_handle instance = WASMLOOP_HANDLE_INIT;
    wasmloop_ended ended;
    uint64_t fastest = UINT64_MAX;
    must(wasmloop_instance(module, &limits, &instance, &ended), "wasmloop_instance");
    for (int k = 0; k < calls; k++) {
        uint64_t began = now();
        must(wasmloop_call(&instance, "run", NULL, 0, &limits, &ended), "wasmloop_call");
        least(&fastest, began);
    }
    printf("%" PRIu32 " %" PRIu64 "\n", (uint32_t)ended.result[0], fastest);
    wasmloop_drop(&instance);
}

static void work(wasmloop_handle *module, uint32_t op, const char *name, int calls)
{
    static uint8_t input[MOST], reply[65536];
    size_t length = read_file(name, input);
    wasmloop_task task = { .fuel = AMPLE, .op = op, .depth = DEPTH };
    wasmloop_about about;
    uint64_t fastest = UINT64_MAX, count = 0;
    for (int k = 0; k < calls; k++) {
        wasmloop_handle job = WASMLOOP_HANDLE_INIT;
        uint64_t began = now();
        must(wasmloop_work(module, &task, input, length, &job), "wasmloop_work");
        must(wasmloop_job_about(&job, &about), "wasmloop_job_about");
        must(wasmloop_job_reply(&job, reply, sizeof reply, &count), "wasmloop_job_reply");
        wasmloop_drop(&job);
        least(&fastest, began);
    }
    if (about.outcome != WASMLOOP_WORK_DONE)
        exit(4);
    printf("%" PRId32 " %" PRIu64 ":%016" PRIx64 " %" PRIu64 "\n", (int32_t)about.value, count, sum(reply, count), fastest);
}

static void load(const uint8_t *bytes, size_t length, int calls)
{
    wasmloop_handle *kept = calloc((size_t)calls, sizeof *kept);
    wasmloop_fault fault;
    uint64_t fastest = UINT64_MAX;
    long before = resident();
    for (int k = 0; k < calls; k++) {
        uint64_t began = now();
        must(wasmloop_load(bytes, length, &kept[k], &fault), "wasmloop_load");
        least(&fastest, began);
    }
    printf("%ld %" PRIu64 "\n", (resident() - before) / calls, fastest);
    for (int k = 0; k < calls; k++)
        wasmloop_drop(&kept[k]);
    free(kept);
}

static void fuel(wasmloop_handle *module, uint64_t units)
{
    wasmloop_call_limits ample = { .fuel = AMPLE, .depth = DEPTH }, limits = { .fuel = units, .depth = DEPTH };
    wasmloop_handle instance = WASMLOOP_HANDLE_INIT;
    wasmloop_ended line, count;
    must(wasmloop_instance(module, &ample, &instance, &line), "wasmloop_instance");
    must(wasmloop_call(&instance, "line", NULL, 0, &limits, &line), "wasmloop_call");
    must(wasmloop_call(&instance, "count", NULL, 0, &ample, &count), "wasmloop_call");
    printf("%" PRIu32 " %" PRIu64 "\n", (uint32_t)count.result[0], line.used);
    wasmloop_drop(&instance);
}

static void late(wasmloop_handle *module, int calls, uint64_t units)
{
    wasmloop_call_limits limits = { .fuel = AMPLE, .depth = DEPTH };
    lateness all = { 0 };
    for (int k = 0; k < calls; k++) {
        wasmloop_handle instance = WASMLOOP_HANDLE_INIT;
        wasmloop_ended ended;
        uint32_t over = 0;
        must(wasmloop_instance(module, &limits, &instance, &ended), "wasmloop_instance");
        uint64_t deadline = now() + DEADLINE;
        must(wasmloop_call_begin(&instance, "run", NULL, 0, &limits), "wasmloop_call_begin");
        while (now() < deadline)
            must(wasmloop_call_run_for(&instance, units, &over, &ended), "wasmloop_call_run_for");
        stopped(&all, deadline);
        wasmloop_drop(&instance);
    }
    show_lateness(&all, calls);
}

int main(int argc, char **argv)
{
    static uint8_t bytes[MOST];
    if (argc < 4)
        return 2;
    size_t length = read_file(argv[2], bytes);
    wasmloop_handle module = WASMLOOP_HANDLE_INIT;
    wasmloop_fault fault;
    must(wasmloop_load(bytes, length, &module, &fault), "wasmloop_load");
    if (!strcmp(argv[1], "call"))
        call(&module, atoi(argv[3]));
    else if (!strcmp(argv[1], "work") && argc == 6)
        work(&module, (uint32_t)strtoul(argv[3], NULL, 10), argv[4], atoi(argv[5]));
    else if (!strcmp(argv[1], "load"))
        load(bytes, length, atoi(argv[3]));
    else if (!strcmp(argv[1], "fuel"))
        fuel(&module, strtoull(argv[3], NULL, 10));
    else if (!strcmp(argv[1], "late") && argc == 5)
        late(&module, atoi(argv[3]), strtoull(argv[4], NULL, 10));
    else
        return 2;
    wasmloop_drop(&module);
    return 0;
}
