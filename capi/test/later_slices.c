/* What slices behind the first may allocate, and what a failure there does, as wasmloop.h says: a queue_work returns -12 to the guest, a reply is not
 * shortened, and nothing else changes; no status is MEMORY. Link with -Wl,--wrap=malloc,--wrap=realloc.
 *
 * usage: later_slices EXAMPLES */
#include "checks.h"

enum { STEPS = 12, UNITS = 3 };

void *__real_malloc(size_t size);
void *__real_realloc(void *block, size_t size);
static int is_later, refuses, allocations;

static int is_refused(void) {
    if (!is_later) return 0;
    allocations++;
    return refuses;
}
void *__wrap_malloc(size_t size) { return is_refused() ? NULL : __real_malloc(size); }
void *__wrap_realloc(void *block, size_t size) { return is_refused() ? NULL : __real_realloc(block, size); }

/* Runs steps of a loop in slices. Returns the first value that a callback emits, or 99. */
static int64_t steps(const char *name, int with_refusals) {
    wasmloop_handle module = module_of(name), loop = WASMLOOP_HANDLE_INIT;
    wasmloop_limits limits = { 1000000, 1000000, 0, 64 };
    wasmloop_did did = { 0 };
    int64_t emitted[64] = { 99 };
    uint32_t count = 0;
    IS(wasmloop_loop(&module, &limits, &loop), WASMLOOP_OK);
    refuses = with_refusals, allocations = 0;
    for (int step = 0; step < STEPS; step++) {
        uint32_t over = 0;
        int status = WASMLOOP_OK;
        for (int slice = 0; status == WASMLOOP_OK && !over; slice++) {
            is_later = slice > 0;
            status = wasmloop_step_for(&loop, UNITS, &over, &did);
            is_later = 0;
        }
        IS(status, WASMLOOP_OK);
        if (count == 0 && did.emits) IS(wasmloop_emits(&loop, emitted, 64, &count), WASMLOOP_OK);
    }
    wasmloop_drop(&loop);
    wasmloop_drop(&module);
    return emitted[0];
}

/* Runs a job in slices. */
static wasmloop_about work(const char *name, int with_refusals) {
    wasmloop_handle module = module_of(name), job = WASMLOOP_HANDLE_INIT;
    wasmloop_task task = { 1000000, 0, 64 };
    wasmloop_about about = { 0 };
    uint32_t over = 0;
    int status = WASMLOOP_OK;
    IS(wasmloop_job_new(&module, &task, (const uint8_t *)"abc", 3, &job), WASMLOOP_OK);
    refuses = with_refusals, allocations = 0;
    for (int slice = 0; status == WASMLOOP_OK && !over; slice++) {
        is_later = slice > 0;
        status = wasmloop_job_run_for(&job, 100, &over);
        is_later = 0;
    }
    IS(status, WASMLOOP_OK);
    IS(wasmloop_job_about(&job, &about), WASMLOOP_OK);
    wasmloop_drop(&job);
    wasmloop_drop(&module);
    return about;
}

int main(int argc, char **argv) {
    if (argc < 2) return 2;
    folder = argv[1];
    /* digest cancels its third request, and emits what that returns */
    IS(steps("digest.wasm", 0), 0);
    IS(allocations > 0, 1);
    IS(steps("digest.wasm", 1) != 0, 1);
    IS(steps("chatter.wasm", 0), 1);
    IS(allocations, 0);
    wasmloop_about ample = work("sha256.wasm", 0);
    IS(allocations, 1);
    wasmloop_about refused = work("sha256.wasm", 1);
    IS(allocations, 1);
    IS(ample.outcome, WASMLOOP_WORK_DONE);
    IS(refused.outcome, WASMLOOP_WORK_DONE);
    IS(refused.value, ample.value);
    IS(refused.reply, ample.reply);
    IS(refused.used, ample.used);
    return all_hold();
}
