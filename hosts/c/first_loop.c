/* Drives a loop by itself: real time, and work in the same thread. Prints the values that its callbacks emit. host_uv.c does it within libuv.
 * Ends with 4 where a callback did not return; where a call fails, with its status.
 *
 * usage: first_loop FILE
 */
#include <stdio.h>
#include <time.h>
#include "wasmloop.h"

static uint64_t now_ms(void)
{
    struct timespec it;
    clock_gettime(CLOCK_MONOTONIC, &it);
    return (uint64_t)it.tv_sec * 1000 + (uint64_t)it.tv_nsec / 1000000;
}

static void print_emits(wasmloop_handle *loop)
{
    int64_t values[64];
    uint32_t count;
    if (wasmloop_emits(loop, values, 64, &count) == WASMLOOP_OK)
        for (uint32_t i = 0; i < count; i++) printf("%lld\n", (long long)values[i]);
}

static void print_failure(wasmloop_handle *loop, const wasmloop_did *did)
{
    char how[100] = "", where[1000] = "";       /* sentences; the last byte stays 0 */
    uint64_t count;
    wasmloop_ended_text(did->ending, did->trap, did->used, how, sizeof how - 1, &count);
    wasmloop_stop_told(NULL, 0, loop, where, sizeof where - 1, &count);
    fprintf(stderr, "a callback did not return: %s, %s\n", how, where);
}

int main(int argc, char **argv)
{
    static uint8_t bytes[1 << 20];
    wasmloop_handle module = WASMLOOP_HANDLE_INIT, loop = WASMLOOP_HANDLE_INIT, job = WASMLOOP_HANDLE_INIT;
    wasmloop_fault fault;
    wasmloop_limits limits = { .fuel = 1000000, .work_fuel = 1000000, .number = 0, .depth = 64 };
    wasmloop_turned turned = { .wait = 0 };
    uint64_t began = now_ms(), now, count = 0;
    char told[1000];                            /* why the module is rejected, without a NUL */
    int failed = 0;
    FILE *file = argc > 1 ? fopen(argv[1], "rb") : NULL;
    if (!file) return fprintf(stderr, "usage: first_loop FILE\n"), 2;
    int status = wasmloop_load_told(bytes, fread(bytes, 1, sizeof bytes, file), &module, &fault, told, sizeof told, &count);
    if (status == WASMLOOP_OK) status = wasmloop_loop(&module, &limits, &loop);
    while (status == WASMLOOP_OK) {
        wasmloop_clock(&loop, now_ms() - began, &now);
        while (wasmloop_next_job(&loop, &job) == WASMLOOP_OK) {     /* its work, here or in another thread */
            wasmloop_job_run(&job);
            if (wasmloop_accept(&loop, &job) != WASMLOOP_OK) wasmloop_drop(&job);
        }
        status = wasmloop_turn(&loop, UINT32_MAX, &turned);
        const wasmloop_did *did = &turned.did;
        if (did->what == WASMLOOP_RAN) print_emits(&loop);          /* a callback emitted values, or did not return */
        else if (did->what != WASMLOOP_ENTERED || turned.wait == WASMLOOP_FOREVER) break; /* over, failed, or waits for a send */
        else nanosleep(&(struct timespec){ turned.wait / 1000, turned.wait % 1000 * 1000000 }, NULL);
        if (did->what == WASMLOOP_RAN && did->ending != WASMLOOP_RETURN) print_failure(&loop, did), failed = 4;
    }
    if (count) fprintf(stderr, "%.*s\n", (int)(count < sizeof told ? count : sizeof told), told);
    else if (status != WASMLOOP_OK) fprintf(stderr, "%s\n", wasmloop_status_text(status));
    wasmloop_drop(&loop);
    wasmloop_drop(&module);
    return failed ? failed : status;
}
