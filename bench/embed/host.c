/* One loop and its work in one thread. The clock jumps to the next timer. usage: host FILE */
#include <stdio.h>
#include <stdlib.h>
#include "wasmloop.h"

static void must(int told) {
    if (told == WASMLOOP_OK) return;
    fprintf(stderr, "%s\n", wasmloop_status_name(told));
    exit(1);
}

static void work(wasmloop_handle *loop) {
    wasmloop_handle job = WASMLOOP_HANDLE_INIT;
    while (wasmloop_next_job(loop, &job) == WASMLOOP_OK) {
        must(wasmloop_job_run(&job));
        must(wasmloop_accept(loop, &job));
    }
}

int main(int argc, char **argv) {
    static uint8_t bytes[1 << 20];
    wasmloop_handle module = WASMLOOP_HANDLE_INIT, loop = WASMLOOP_HANDLE_INIT;
    wasmloop_limits limits = { 1000000, 1000000, 0, 64 };
    wasmloop_fault fault;
    wasmloop_did did;
    FILE *file = argc > 1 ? fopen(argv[1], "rb") : NULL;
    if (!file) return 2;
    size_t length = fread(bytes, 1, sizeof bytes, file);
    fclose(file);
    must(wasmloop_load(bytes, length, &module, &fault));
    must(wasmloop_loop(&module, &limits, &loop));
    printf("loop 0 over emits");
    for (;;) {
        must(wasmloop_step(&loop, &did));
        if (did.what == WASMLOOP_OVER || did.what == WASMLOOP_FAILED) break;
        if (did.what == WASMLOOP_RAN && did.emits) {
            int64_t emits[64];
            uint32_t count;
            must(wasmloop_emits(&loop, emits, 64, &count));
            for (uint32_t i = 0; i < count; i++) printf(" %lld", (long long)emits[i]);
        }
        if (did.what == WASMLOOP_ENTERED && did.phase == WASMLOOP_TIMERS) {
            uint64_t wait, now;
            work(&loop);
            must(wasmloop_hint(&loop, &wait));
            if (wait != WASMLOOP_FOREVER) must(wasmloop_clock(&loop, did.now + wait, &now));
        }
    }
    printf("\n");
    must(wasmloop_drop(&loop));
    must(wasmloop_drop(&module));
    return 0;
}
