/* Makes COUNT instances of a module at once and calls each. Prints how many bytes of resident memory each takes, and how long making one takes,
   in us of the processor. usage: instances MODULE COUNT */
#include <stdio.h>
#include <stdlib.h>
#include <string.h>
#include <time.h>
#include <unistd.h>
#include "wasmloop.h"

static const wasmloop_call_limits limits = { 1000000, 64, 0 };
static uint8_t bytes[1 << 20];

static double resident(void) {
    long all = 0, here = 0;
    FILE *file = fopen("/proc/self/statm", "r");
    if (!file || fscanf(file, "%ld %ld", &all, &here) != 2) exit(1);
    fclose(file);
    return (double)here * (double)sysconf(_SC_PAGESIZE);
}

static double now(void) {
    struct timespec t;
    clock_gettime(CLOCK_THREAD_CPUTIME_ID, &t);
    return (double)t.tv_sec * 1e6 + (double)t.tv_nsec / 1e3;
}

int main(int argc, char **argv) {
    wasmloop_handle module = WASMLOOP_HANDLE_INIT;
    wasmloop_fault fault;
    wasmloop_ended ended;
    FILE *file = argc == 3 ? fopen(argv[1], "rb") : NULL;
    if (!file) return 2;
    size_t length = fread(bytes, 1, sizeof bytes, file);
    fclose(file);
    size_t count = (size_t)atol(argv[2]);
    wasmloop_handle *all = malloc(count * sizeof *all);
    if (!all || wasmloop_load(bytes, length, &module, &fault) != WASMLOOP_OK) return 1;
    memset(all, 0, count * sizeof *all);
    double before = resident(), from = now();
    for (size_t k = 0; k < count; k++)
        if (wasmloop_instance(&module, &limits, &all[k], &ended) != WASMLOOP_OK) return 1;
    double took = now() - from;
    for (size_t k = 0; k < count; k++)
        if (wasmloop_call(&all[k], "nothing", NULL, 0, &limits, &ended) != WASMLOOP_OK) return 1;
    printf("%.0f bytes %.2f us\n", (resident() - before) / (double)count, took / (double)count);
    for (size_t k = 0; k < count; k++)
        if (wasmloop_drop(&all[k]) != WASMLOOP_OK) return 1;
    return wasmloop_drop(&module);
}
