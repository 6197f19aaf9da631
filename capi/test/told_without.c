/* Of modules that are rejected, each allocation of a load and of an explanation is refused in turn: the answer is MEMORY and changes nothing, or
 * the one that ample memory gives. Link with -Wl,--wrap=malloc,--wrap=realloc.
 *
 * usage: told_without COUNT FILE..      COUNT: how many changed modules of each file */
#include <stdio.h>
#include <stdlib.h>
#include <string.h>
#include "wasmloop.h"

enum { MOST = 4096, GUARD = 0x5a };

void *__real_malloc(size_t size);
void *__real_realloc(void *block, size_t size);
static long left = -1, refusals, wrong;
static int was_refused;
static uint8_t bytes[1 << 20], changed[1 << 20];
static char text[MOST], got[MOST];

static int is_refused(void) {
    if (left < 0 || left-- > 0) return 0;
    return was_refused = 1;
}
void *__wrap_malloc(size_t size) { return is_refused() ? NULL : __real_malloc(size); }
void *__wrap_realloc(void *block, size_t size) { return is_refused() ? NULL : __real_realloc(block, size); }

static int fail(const char *what, long at, int status) {
    if (wrong++ < 10) printf("%s: allocation %ld refused: %s\n", what, at, wasmloop_status_name(status));
    return 1;
}

/* Whether the answer of a load is right with allocation `at` refused; 0 behind the last one. */
static int load(size_t length, long at, const wasmloop_fault *right) {
    wasmloop_handle module = WASMLOOP_HANDLE_INIT;
    wasmloop_fault fault, same;
    memset(&fault, GUARD, sizeof fault), same = fault;
    left = at, was_refused = 0;
    int status = wasmloop_load(changed, length, &module, &fault);
    left = -1;
    int is_right = status == WASMLOOP_REFUSED ? !memcmp(&fault, right, sizeof fault) : status == WASMLOOP_MEMORY && !memcmp(&fault, &same, sizeof fault);
    if (!is_right || module.mark) fail("load", at, status);
    return was_refused;
}

static int explain(size_t length, long at, uint64_t right) {
    uint64_t count = GUARD;
    memset(got, GUARD, sizeof got);
    left = at, was_refused = 0;
    int status = wasmloop_explain(changed, length, got, sizeof got, &count);
    left = -1;
    int is_right = status == WASMLOOP_OK ? count == right && !memcmp(got, text, right) : status == WASMLOOP_MEMORY && count == GUARD && got[0] == GUARD;
    if (!is_right) fail("explain", at, status);
    return was_refused;
}

/* A module that is rejected, with each of its allocations refused. */
static void refuse_each(size_t length) {
    wasmloop_handle module = WASMLOOP_HANDLE_INIT;
    wasmloop_fault fault;
    uint64_t count;
    memset(&fault, 0, sizeof fault);
    if (wasmloop_load(changed, length, &module, &fault) != WASMLOOP_REFUSED) { wasmloop_drop(&module); return; }
    if (wasmloop_explain(changed, length, text, sizeof text, &count) != WASMLOOP_OK || !fault.place) { fail("with memory", -1, WASMLOOP_OK); return; }
    for (long at = 0; load(length, at, &fault); at++) refusals++;
    for (long at = 0; explain(length, at, count); at++) refusals++;
}

static void refuse_of(const char *path, long count) {
    FILE *file = fopen(path, "rb");
    if (!file) { perror(path); exit(2); }
    size_t length = fread(bytes, 1, sizeof bytes, file);
    fclose(file);
    while (count--) {
        memcpy(changed, bytes, length);
        for (int more = 1 + rand() % 3; more; more--) changed[8 + (size_t)rand() % (length - 8)] = (uint8_t)rand();
        refuse_each(length);
    }
}

int main(int argc, char **argv) {
    if (argc < 3) return 2;
    srand(7);
    for (int k = 2; k < argc; k++) refuse_of(argv[k], strtol(argv[1], NULL, 10));
    printf("told_without: %ld refused allocations, %ld wrong answers\n", refusals, wrong);
    return wrong != 0;
}
