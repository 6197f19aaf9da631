/* A fuzzer for guests. libFuzzer makes the inputs; the guest, which `python3 -m wasmloop.fuzz` has rewritten, counts its own blocks and keeps
 * its comparisons; each input runs on a fresh instance within a fixed amount of fuel, so that `wasmloop work` repeats every finding.
 *
 * A finding is an input that makes the guest trap, exceed the call depth, use more than FUEL units, or more than PER_BYTE units per byte above
 * what an empty request uses (0: no limit). The environment has these, GUEST, COSTS (a file with the cost of each block), OP and DEPTH. */
#include <stdio.h>
#include <stdlib.h>
#include "wasmloop.h"

#ifndef BLOCKS
#define BLOCKS 65536 /* the most blocks of a guest: libFuzzer looks at so many counters after each run */
#endif
enum { MOST_BYTES = 65536, MOST_COMPARES = 256, SLOWER = 64 };

/* libFuzzer takes these as coverage. */
__attribute__((section("__libfuzzer_extra_counters"), used)) static volatile uint8_t seen[BLOCKS];
void __sanitizer_cov_trace_cmp4(uint32_t, uint32_t);
void __sanitizer_cov_trace_cmp8(uint64_t, uint64_t);
int LLVMFuzzerInitialize(int *argc, char ***argv);
int LLVMFuzzerTestOneInput(const uint8_t *data, size_t size);

static wasmloop_handle module, instance;
static wasmloop_call_limits limits;
static uint64_t op, fuel, per_byte, of_empty;
static uint32_t counts[BLOCKS], costs[BLOCKS];
static uint32_t counters, count, input, input_length, compares, compare_count; /* addresses in the guest, and the number of its blocks */

static void fail(const char *why)
{
    fprintf(stderr, "fuzz: %s\n", why);
    exit(2);
}

static uint64_t number(const char *name) { return getenv(name) ? strtoull(getenv(name), NULL, 10) : 0; }

static uint32_t address(const char *name)
{
    wasmloop_number value;
    if (wasmloop_global(&instance, name, &value) != WASMLOOP_OK) fail("GUEST is not a module that wasmloop.fuzz wrote");
    return (uint32_t)value.number;
}

static int begin(void)
{
    wasmloop_ended ended;
    return wasmloop_instance(&module, &limits, &instance, &ended);
}

/* The units of the unmodified guest: each block's count times its cost. */
static uint64_t units(void)
{
    uint64_t sum = 0;
    for (uint32_t k = 0; k < count; k++) sum += (uint64_t)counts[k] * costs[k];
    return sum;
}

/* Reads the file that a variable names. */
static size_t read_file(const char *name, void *into, size_t room)
{
    FILE *file = getenv(name) ? fopen(getenv(name), "rb") : NULL;
    if (!file) fail("GUEST or COSTS cannot be read");
    size_t length = fread(into, 1, room, file);
    fclose(file);
    return length;
}

int LLVMFuzzerInitialize(int *argc, char ***argv)
{
    static uint8_t code[1 << 20];
    wasmloop_fault fault;
    (void)argc, (void)argv;
    size_t length = read_file("GUEST", code, sizeof code);
    read_file("COSTS", costs, sizeof costs);
    op = number("OP");
    per_byte = number("PER_BYTE");
    fuel = number("FUEL");
    limits.fuel = fuel * SLOWER;
    limits.depth = (uint32_t)number("DEPTH");
    if (wasmloop_load(code, length, &module, &fault) != WASMLOOP_OK || begin() != WASMLOOP_OK) fail("the guest does not load, or does not start");
    counters = address("fuzz counters"), count = address("fuzz count"), input = address("fuzz input"), input_length = address("fuzz input length");
    compares = address("fuzz compares"), compare_count = address("fuzz compare count");
    if (count > BLOCKS) count = BLOCKS;
    wasmloop_drop(&instance);
    LLVMFuzzerTestOneInput(NULL, 0);
    of_empty = units();
    return 0;
}

/* Tells libFuzzer which blocks ran, and what was compared. */
static void report(void)
{
    static uint64_t pairs[MOST_COMPARES][2];
    uint32_t compared = 0;
    wasmloop_read(&instance, counters, (uint8_t *)counts, 4 * (size_t)count);
    for (uint32_t k = 0; k < count; k++) seen[k] = counts[k] > 255 ? 255 : (uint8_t)counts[k];
    wasmloop_read(&instance, compare_count, (uint8_t *)&compared, 4);
    if (compared > MOST_COMPARES) compared = MOST_COMPARES;
    wasmloop_read(&instance, compares, (uint8_t *)pairs, 16 * (size_t)compared);
    for (uint32_t k = 0; k < compared; k++) {
        if ((pairs[k][0] | pairs[k][1]) >> 32) __sanitizer_cov_trace_cmp8(pairs[k][0], pairs[k][1]);
        else __sanitizer_cov_trace_cmp4((uint32_t)pairs[k][0], (uint32_t)pairs[k][1]);
    }
}

int LLVMFuzzerTestOneInput(const uint8_t *data, size_t size)
{
    wasmloop_ended ended = { 0 };
    uint32_t length = (uint32_t)size;
    if (size > MOST_BYTES || begin() != WASMLOOP_OK) return -1;
    wasmloop_write(&instance, input, data, size);
    wasmloop_write(&instance, input_length, (const uint8_t *)&length, 4);
    wasmloop_call(&instance, "uv_work", &op, 1, &limits, &ended);
    report();
    if (ended.ending != WASMLOOP_RETURN || units() > fuel) abort();
    if (per_byte && size && units() > of_empty + per_byte * size) abort();
    wasmloop_drop(&instance);
    return 0;
}
