/* LOOPS loops of one guest in one thread, ROW turns of each in turn, for ROUNDS rounds of some 1,000 turns at least.
   usage: many FILE LOOPS ROUNDS ROW
   Prints, of one loop: microseconds to make it, KiB resident once it has run, KiB of address space, nanoseconds of a turn in the
   shortest round, microseconds to drop it. */
#include <stdio.h>
#include <stdlib.h>
#include <string.h>
#include <time.h>
#include "wasmloop.h"

static void must(int told) {
    if (told == WASMLOOP_OK) return;
    fprintf(stderr, "%s\n", wasmloop_status_name(told));
    exit(1);
}

static double now(void) {
    struct timespec at;
    clock_gettime(CLOCK_MONOTONIC, &at);
    return (double)at.tv_sec + (double)at.tv_nsec / 1e9;
}

/* A line of /proc/self/status, in KiB. */
static double status(const char *key) {
    char line[256];
    double found = 0;
    FILE *file = fopen("/proc/self/status", "r");
    while (file && fgets(line, sizeof line, file))
        if (!strncmp(line, key, strlen(key))) found = atof(line + strlen(key));
    if (file) fclose(file);
    return found;
}

static void turn(wasmloop_handle *loop) {
    wasmloop_did did;
    do {
        must(wasmloop_step(loop, &did));
        if (did.what == WASMLOOP_OVER || did.what == WASMLOOP_FAILED) exit(1);
    } while (did.what != WASMLOOP_ENTERED || did.phase != WASMLOOP_TIMERS);
}

int main(int argc, char **argv) {
    static uint8_t bytes[1 << 20];
    wasmloop_handle module = WASMLOOP_HANDLE_INIT;
    wasmloop_limits limits = { 1000000, 1000000, 0, 64 };
    wasmloop_fault fault;
    FILE *file = argc == 5 ? fopen(argv[1], "rb") : NULL;
    if (!file) return 2;
    size_t length = fread(bytes, 1, sizeof bytes, file);
    fclose(file);
    int count = atoi(argv[2]), rounds = atoi(argv[3]), row = atoi(argv[4]), turns = count < 1000 ? 1000 / count : 1;
    wasmloop_handle *loops = calloc((size_t)count, sizeof *loops);
    if (!loops) return 2;
    must(wasmloop_load(bytes, length, &module, &fault));
    double resident = status("VmRSS:"), space = status("VmSize:"), began = now();
    for (int i = 0; i < count; i++) must(wasmloop_loop(&module, &limits, &loops[i]));
    double made = now() - began;
    for (int i = 0; i < count; i++) turn(&loops[i]);
    resident = status("VmRSS:") - resident, space = status("VmSize:") - space;
    double least = 1e9;
    for (int r = 0; r < rounds; r++) {
        began = now();
        for (int k = 0; k < turns; k++)
            for (int i = 0; i < count; i++)
                for (int j = 0; j < row; j++) turn(&loops[i]);
        double took = now() - began;
        if (took < least) least = took;
    }
    began = now();
    for (int i = 0; i < count; i++) must(wasmloop_drop(&loops[i]));
    double dropped = now() - began;
    printf("%f %f %f %f %f\n", made / count * 1e6, resident / count, space / count, least / turns / count / row * 1e9, dropped / count * 1e6);
    must(wasmloop_drop(&module));
    return 0;
}
