/* Loads a module COUNT times and prints how many bytes each keeps. The first ten are apart: malloc caches what loading them took besides.
   usage: kept FILE COUNT */
#include <malloc.h>
#include <stdio.h>
#include <stdlib.h>
#include "wasmloop.h"

#define FIRST 10

static double taken(void) {
    struct mallinfo2 it = mallinfo2();
    return (double)it.uordblks + (double)it.hblkhd;
}

int main(int argc, char **argv) {
    static uint8_t bytes[1 << 20];
    wasmloop_fault fault;
    FILE *file = argc == 3 ? fopen(argv[1], "rb") : NULL;
    if (!file) return 2;
    size_t length = fread(bytes, 1, sizeof bytes, file);
    fclose(file);
    int count = atoi(argv[2]);
    wasmloop_handle *modules = calloc((size_t)count, sizeof *modules);
    if (!modules || count <= FIRST) return 2;
    double before = 0;
    for (int i = 0; i < count; i++) {
        if (i == FIRST) before = taken();
        if (wasmloop_load(bytes, length, &modules[i], &fault) != WASMLOOP_OK) return 1;
    }
    printf("%f\n", (taken() - before) / (count - FIRST));
    for (int i = 0; i < count; i++)
        if (wasmloop_drop(&modules[i]) != WASMLOOP_OK) return 1;
    return 0;
}
