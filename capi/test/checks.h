/* What the tests in C share: IS counts a check, and prints one that doesn't hold with its line; at 100 of these the test ends, since a loop that
 * waits for an answer would print them for ever. Files are read from `folder`. */
#ifndef CHECKS_H
#define CHECKS_H

#include <stdio.h>
#include <stdlib.h>
#include "wasmloop.h"

static unsigned checks, failed;
static const char *folder;
static uint8_t bytes[1 << 21];

/* The last line of a test, and its status. */
static int all_hold(void) {
    if (failed) printf("%u of %u checks fail\n", failed, checks);
    else printf("all %u checks hold\n", checks);
    return failed != 0;
}

#define IS(got, want) is(__LINE__, #got, (long long)(got), (long long)(want))
static void is(int line, const char *what, long long got, long long want) {
    checks++;
    if (got == want) return;
    failed++;
    printf("line %d: %s is %lld, not %lld\n", line, what, got, want);
    if (failed >= 100) exit(all_hold());
}

/* Reads a file of the folder to `bytes`. */
static size_t read_file(const char *name) {
    char path[4096];
    snprintf(path, sizeof path, "%s/%s", folder, name);
    FILE *file = fopen(path, "rb");
    if (!file) {
        printf("%s can't be read\n", path);
        exit(1);
    }
    size_t length = fread(bytes, 1, sizeof bytes, file);
    fclose(file);
    return length;
}

static wasmloop_handle module_of(const char *name) {
    wasmloop_handle module = WASMLOOP_HANDLE_INIT;
    wasmloop_fault fault;
    IS(wasmloop_load(bytes, read_file(name), &module, &fault), WASMLOOP_OK);
    return module;
}

#endif
