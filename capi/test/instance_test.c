/* Instances that are kept, right and wrong calls. usage: instance_test FOLDER (kv.wasm, start.wasm, fails.wasm, plain.wasm) */
#include <string.h>
#include "checks.h"

static const wasmloop_call_limits limits = { 1000000, 64, 0 };
static wasmloop_ended ended;

static void blank(void) { memset(&ended, 0xab, sizeof ended); }
static int is_blank(void) {
    for (size_t k = 0; k < sizeof ended; k++) if (((uint8_t *)&ended)[k] != 0xab) return 0;
    return 1;
}

static int call(wasmloop_handle *it, const char *name, size_t count, uint64_t a, uint64_t b) {
    uint64_t args[2] = { a, b };
    blank();
    return wasmloop_call(it, name, args, count, &limits, &ended);
}

static void returns(wasmloop_handle *it, const char *name, size_t count, uint64_t a, uint64_t b, uint64_t wanted) {
    IS(call(it, name, count, a, b), WASMLOOP_OK);
    IS(ended.ending, WASMLOOP_RETURN);
    IS(ended.trap, 0);
    IS(ended.results, 1);
    IS(ended.result[0], wanted);
    for (int k = 1; k < 16; k++) IS(ended.result[k], 0);
}

static void stateful(void) {
    wasmloop_handle module = module_of("kv.wasm"), it = WASMLOOP_HANDLE_INIT, two = WASMLOOP_HANDLE_INIT;
    uint64_t size;
    blank();
    IS(wasmloop_instance(&module, &limits, &it, &ended), WASMLOOP_OK);
    IS(ended.ending, WASMLOOP_RETURN);
    IS(ended.used, 0);
    IS(ended.results, 0);
    IS(wasmloop_instance(&module, &limits, &two, &ended), WASMLOOP_OK);
    IS(wasmloop_drop(&module), WASMLOOP_OK);
    returns(&it, "add", 1, 5, 0, 5);
    returns(&it, "add", 1, 7, 0, 12);
    returns(&two, "add", 1, 1, 0, 1); /* two instances share nothing */
    returns(&it, "add", 1, (uint64_t)-20, 0, (uint64_t)-8);
    returns(&it, "add", 1, 8, 0, 0);
    /* a table in memory */
    IS(call(&it, "buffer", 0, 0, 0), WASMLOOP_OK);
    uint32_t at = (uint32_t)ended.result[0];
    IS(wasmloop_write(&it, at, (const uint8_t *)"applered", 8), WASMLOOP_OK);
    returns(&it, "put", 2, 5, 3, 1);
    IS(wasmloop_write(&it, at, (const uint8_t *)"plumblue", 8), WASMLOOP_OK);
    returns(&it, "put", 2, 4, 4, 1);
    IS(wasmloop_write(&it, at, (const uint8_t *)"applegreen", 10), WASMLOOP_OK);
    returns(&it, "put", 2, 5, 5, 1);
    returns(&it, "count", 0, 0, 0, 2);
    uint8_t text[8] = "........";
    IS(wasmloop_write(&it, at, (const uint8_t *)"apple", 5), WASMLOOP_OK);
    returns(&it, "get", 1, 5, 0, 5);
    IS(wasmloop_read(&it, at, text, 5), WASMLOOP_OK);
    IS(memcmp(text, "green...", 8), 0);
    IS(wasmloop_write(&it, at, (const uint8_t *)"pear", 4), WASMLOOP_OK);
    returns(&it, "get", 1, 4, 0, 0xffffffffu);
    returns(&two, "count", 0, 0, 0, 0);
    /* a trap takes nothing back, and the instance goes on */
    wasmloop_site sites[4];
    uint64_t calls = 77;
    IS(wasmloop_stop(&it, sites, 4, &calls), WASMLOOP_NONE);
    IS(calls, 77);
    IS(call(&it, "divide", 2, 1, 0), WASMLOOP_OK);
    IS(ended.ending, WASMLOOP_TRAP);
    IS(ended.trap, 2);
    IS(ended.results, 0);
    IS(ended.result[0], 0);
    IS(wasmloop_stop(&it, sites, 4, &calls), WASMLOOP_OK);
    IS(calls, 1);
    returns(&it, "add", 1, 0, 0, 1000);
    IS(wasmloop_stop(&it, sites, 4, &calls), WASMLOOP_NONE);
    returns(&it, "divide", 2, 7, 2, 3);
    returns(&it, "divide", 2, (uint32_t)-7, 2, (uint32_t)-3);
    returns(&it, "add", 1, (uint64_t)-3000, 0, 0);
    /* too deep: 64 calls stand open */
    IS(call(&it, "deep", 1, 200, 0), WASMLOOP_OK);
    IS(ended.ending, WASMLOOP_DEPTH);
    IS(wasmloop_stop(&it, sites, 4, &calls), WASMLOOP_OK);
    IS(calls, 64);
    IS(sites[0].function, sites[1].function);
    returns(&it, "add", 1, 0, 0, 64);
    wasmloop_call_limits one = { 1000, 1, 0 };
    uint64_t none = 0;
    IS(wasmloop_call(&it, "deep", &none, 1, &one, &ended), WASMLOOP_OK);
    IS(ended.ending, WASMLOOP_RETURN);
    /* spent fuel: as many units as there were */
    wasmloop_call_limits little = { 777, 64, 0 };
    IS(wasmloop_call(&it, "spin", NULL, 0, &little, &ended), WASMLOOP_OK);
    IS(ended.ending, WASMLOOP_SPENT);
    IS(ended.used <= 777, 1);
    IS(call(&it, "add", 1, 0, 0), WASMLOOP_OK);
    IS(ended.result[0] > 65, 1);
    wasmloop_call_limits zero = { 0, 64, 0 };
    IS(wasmloop_call(&it, "count", NULL, 0, &zero, &ended), WASMLOOP_OK);
    IS(ended.ending, WASMLOOP_SPENT);
    IS(ended.used, 0);
    /* memory */
    IS(wasmloop_size(&it, &size), WASMLOOP_OK);
    uint64_t first = size, held = 0, grown = 0;
    IS(wasmloop_held(&it, &held), WASMLOOP_OK);
    IS(call(&it, "grow", 1, 1, 0), WASMLOOP_OK);
    IS(ended.result[0], first / 65536);
    IS(wasmloop_size(&it, &size), WASMLOOP_OK);
    IS(size, first + 65536);
    IS(wasmloop_held(&it, &grown), WASMLOOP_OK);
    IS(grown, held + 65536);
    memcpy(text, "abcdefgh", 8);
    IS(wasmloop_write(&it, (uint32_t)size - 8, text, 8), WASMLOOP_OK);
    memset(text, 0, 8);
    IS(wasmloop_read(&it, (uint32_t)size - 8, text, 8), WASMLOOP_OK);
    IS(memcmp(text, "abcdefgh", 8), 0);
    memset(text, '.', 8);
    IS(wasmloop_read(&it, (uint32_t)size - 7, text, 8), WASMLOOP_RANGE);
    IS(memcmp(text, "........", 8), 0);
    IS(wasmloop_write(&it, (uint32_t)size - 7, text, 8), WASMLOOP_RANGE);
    IS(wasmloop_read(&it, (uint32_t)size - 8, text, 8), WASMLOOP_OK);
    IS(memcmp(text, "abcdefgh", 8), 0);
    IS(wasmloop_read(&it, (uint32_t)size, NULL, 0), WASMLOOP_OK);
    IS(wasmloop_read(&it, (uint32_t)size + 1, NULL, 0), WASMLOOP_RANGE);
    IS(wasmloop_write(&it, (uint32_t)size, NULL, 0), WASMLOOP_OK);
    IS(wasmloop_read(&it, UINT32_MAX, text, 8), WASMLOOP_RANGE);
    IS(wasmloop_write(&it, UINT32_MAX, text, 8), WASMLOOP_RANGE);
    IS(wasmloop_read(&it, 0, text, SIZE_MAX), WASMLOOP_RANGE);
    IS(wasmloop_read(&two, (uint32_t)first - 8, text, 8), WASMLOOP_OK);
    IS(wasmloop_read(&two, (uint32_t)first, text, 1), WASMLOOP_RANGE);
    /* calls that are not made change nothing */
    uint64_t args[300] = { 0 };
    blank();
    IS(wasmloop_call(&it, "nobody", NULL, 0, &limits, &ended), WASMLOOP_NONE);
    IS(wasmloop_call(&it, "", NULL, 0, &limits, &ended), WASMLOOP_NONE);
    IS(wasmloop_call(&it, "memory", NULL, 0, &limits, &ended), WASMLOOP_NONE); /* exported, and no function */
    IS(wasmloop_call(&it, "add", args, 0, &limits, &ended), WASMLOOP_ARGUMENTS);
    IS(wasmloop_call(&it, "add", args, 2, &limits, &ended), WASMLOOP_ARGUMENTS);
    IS(wasmloop_call(&it, "add", args, 300, &limits, &ended), WASMLOOP_ARGUMENTS);
    IS(wasmloop_call(&it, "add", args, SIZE_MAX, &limits, &ended), WASMLOOP_RANGE);
    args[0] = UINT64_C(1) << 32;
    IS(wasmloop_call(&it, "deep", args, 1, &limits, &ended), WASMLOOP_ARGUMENTS);
    args[0] = (uint64_t)-1;
    IS(wasmloop_call(&it, "deep", args, 1, &limits, &ended), WASMLOOP_ARGUMENTS);
    wasmloop_call_limits flat = { 1000, 0, 0 }, high = { 1000, 129, 0 };
    args[0] = UINT64_C(1) << 32;
    IS(wasmloop_call_begin(&it, "nobody", NULL, 0, &limits), WASMLOOP_NONE);
    IS(wasmloop_call_begin(&it, "memory", NULL, 0, &limits), WASMLOOP_NONE);
    IS(wasmloop_call_begin(&it, "add", args, 0, &limits), WASMLOOP_ARGUMENTS);
    IS(wasmloop_call_begin(&it, "add", args, 300, &limits), WASMLOOP_ARGUMENTS);
    IS(wasmloop_call_begin(&it, "deep", args, 1, &limits), WASMLOOP_ARGUMENTS);
    IS(wasmloop_call_begin(&it, "add", args, SIZE_MAX, &limits), WASMLOOP_RANGE);
    IS(wasmloop_call_begin(&it, "add", args, 1, &flat), WASMLOOP_RANGE);
    IS(wasmloop_call_begin(&it, "add", args, 1, &high), WASMLOOP_RANGE);
    IS(wasmloop_call_begin(NULL, "add", args, 1, &limits), WASMLOOP_NULL);
    IS(wasmloop_call_begin(&it, NULL, args, 1, &limits), WASMLOOP_NULL);
    IS(wasmloop_call_begin(&it, "add", NULL, 1, &limits), WASMLOOP_NULL);
    IS(wasmloop_call_begin(&it, "add", args, 1, NULL), WASMLOOP_NULL);
    IS(wasmloop_call(&it, "add", args, 1, &flat, &ended), WASMLOOP_RANGE);
    IS(wasmloop_call(&it, "add", args, 1, &high, &ended), WASMLOOP_RANGE);
    IS(wasmloop_call(NULL, "add", args, 1, &limits, &ended), WASMLOOP_NULL);
    IS(wasmloop_call(&it, NULL, args, 1, &limits, &ended), WASMLOOP_NULL);
    IS(wasmloop_call(&it, "add", NULL, 1, &limits, &ended), WASMLOOP_NULL);
    IS(wasmloop_call(&it, "add", args, 1, NULL, &ended), WASMLOOP_NULL);
    IS(wasmloop_call(&it, "add", args, 1, &limits, NULL), WASMLOOP_NULL);
    IS(is_blank(), 1);
    IS(call(&it, "count", 0, 0, 0), WASMLOOP_OK);
    IS(ended.result[0], 2);
    /* other calls on an instance, and instance calls on other things */
    uint64_t number;
    int64_t emits[1];
    uint32_t count;
    wasmloop_did did;
    wasmloop_about about;
    wasmloop_handle nothing = WASMLOOP_HANDLE_INIT;
    IS(wasmloop_step(&it, &did), WASMLOOP_KIND);
    IS(wasmloop_emits(&it, emits, 1, &count), WASMLOOP_KIND);
    IS(wasmloop_clock(&it, 5, &number), WASMLOOP_KIND);
    IS(wasmloop_job_run(&it), WASMLOOP_KIND);
    IS(wasmloop_job_about(&it, &about), WASMLOOP_KIND);
    IS(wasmloop_share(&it, &nothing), WASMLOOP_KIND);
    IS(wasmloop_next_job(&it, &nothing), WASMLOOP_KIND);
    IS(wasmloop_instance(&it, &limits, &nothing, &ended), WASMLOOP_KIND);
    IS(wasmloop_instance(&it, &limits, &it, &ended), WASMLOOP_KIND);
    IS(wasmloop_call(&nothing, "add", args, 1, &limits, &ended), WASMLOOP_EMPTY);
    IS(wasmloop_read(&nothing, 0, text, 1), WASMLOOP_EMPTY);
    IS(wasmloop_write(&nothing, 0, text, 1), WASMLOOP_EMPTY);
    IS(wasmloop_size(&nothing, &number), WASMLOOP_EMPTY);
    IS(wasmloop_read(NULL, 0, text, 1), WASMLOOP_NULL);
    IS(wasmloop_read(&it, 0, NULL, 1), WASMLOOP_NULL);
    IS(wasmloop_write(&it, 0, NULL, 1), WASMLOOP_NULL);
    IS(wasmloop_size(&it, NULL), WASMLOOP_NULL);
    wasmloop_handle kv = module_of("kv.wasm");
    blank();
    IS(wasmloop_call(&kv, "add", args, 1, &limits, &ended), WASMLOOP_KIND);
    IS(wasmloop_read(&kv, 0, text, 1), WASMLOOP_KIND);
    IS(wasmloop_write(&kv, 0, text, 1), WASMLOOP_KIND);
    IS(wasmloop_size(&kv, &number), WASMLOOP_KIND);
    IS(wasmloop_instance(&kv, &limits, &it, &ended), WASMLOOP_KIND); /* full */
    IS(wasmloop_instance(&kv, &flat, &nothing, &ended), WASMLOOP_RANGE);
    IS(wasmloop_instance(&kv, &high, &nothing, &ended), WASMLOOP_RANGE);
    IS(wasmloop_instance(&nothing, &limits, &nothing, &ended), WASMLOOP_KIND);
    wasmloop_handle empty = WASMLOOP_HANDLE_INIT;
    IS(wasmloop_instance(&empty, &limits, &nothing, &ended), WASMLOOP_EMPTY);
    IS(wasmloop_instance(NULL, &limits, &nothing, &ended), WASMLOOP_NULL);
    IS(wasmloop_instance(&kv, NULL, &nothing, &ended), WASMLOOP_NULL);
    IS(wasmloop_instance(&kv, &limits, NULL, &ended), WASMLOOP_NULL);
    IS(wasmloop_instance(&kv, &limits, &nothing, NULL), WASMLOOP_NULL);
    IS(is_blank(), 1);
    IS(nothing.mark, 0);
    IS(wasmloop_drop(&kv), WASMLOOP_OK);
    IS(wasmloop_drop(&it), WASMLOOP_OK);
    IS(wasmloop_call(&it, "add", args, 1, &limits, &ended), WASMLOOP_EMPTY);
    IS(wasmloop_drop(&two), WASMLOOP_OK);
}

static void starts(void) {
    wasmloop_handle module = module_of("start.wasm"), it = WASMLOOP_HANDLE_INIT;
    uint64_t calls;
    blank();
    IS(wasmloop_instance(&module, &limits, &it, &ended), WASMLOOP_OK);
    IS(ended.ending, WASMLOOP_RETURN);
    IS(ended.used > 0, 1);
    uint64_t start = ended.used;
    returns(&it, "global", 0, 0, 0, 7);
    IS(call(&it, "bump", 1, 100, 0), WASMLOOP_OK);
    IS(ended.results, 0);
    returns(&it, "global", 0, 0, 0, 107);
    returns(&it, "asks", 0, 0, 0, 0xffffffffu);
    returns(&it, "imported", 1, 9, 0, 0xffffffffu);
    IS(ended.used, 0);
    wasmloop_type type;
    memset(&type, 0xab, sizeof type);
    IS(wasmloop_function(&module, "absent", &type), WASMLOOP_NONE);
    IS(wasmloop_function(&module, "memory", &type), WASMLOOP_NONE);
    IS(wasmloop_function(&it, "pair", &type), WASMLOOP_KIND);
    IS(wasmloop_function(NULL, "pair", &type), WASMLOOP_NULL);
    IS(wasmloop_function(&module, NULL, &type), WASMLOOP_NULL);
    IS(wasmloop_function(&module, "pair", NULL), WASMLOOP_NULL);
    IS(type.param[0], 0xab);
    IS(type.result[15], 0xab);
    IS(wasmloop_function(&module, "pair", &type), WASMLOOP_OK);
    IS(type.params, 2);
    IS(type.results, 2);
    IS(type.param[0] * 1000 + type.param[1] * 100 + type.result[0] * 10 + type.result[1], 1221);
    IS(type.param[2] + type.param[255] + type.result[2] + type.result[15], 0);
    IS(call(&it, "pair", 2, 3, UINT64_C(1) << 40), WASMLOOP_OK);
    IS(ended.results, 2);
    IS(ended.result[0], UINT64_C(1) << 40);
    IS(ended.result[1], 3);
    IS(ended.result[2], 0);
    IS(call(&it, "pair", 2, UINT64_C(1) << 40, 3), WASMLOOP_ARGUMENTS);
    IS(is_blank(), 1);
    uint64_t many[9] = { 0, 1, 2, 3, 4, 5, 6, UINT64_C(1) << 41, UINT64_C(1) << 42 };
    IS(wasmloop_call(&it, "eighth", many, 8, &limits, &ended), WASMLOOP_OK);
    IS(ended.result[0], UINT64_C(1) << 41);
    blank();
    IS(wasmloop_call(&it, "ninth", many, 9, &limits, &ended), WASMLOOP_ARGUMENTS);
    IS(is_blank(), 1);
    many[7] = 7;
    IS(wasmloop_call(&it, "ninth", many, 9, &limits, &ended), WASMLOOP_OK);
    IS(ended.result[0], UINT64_C(1) << 42);
    IS(wasmloop_drop(&it), WASMLOOP_OK);
    /* a start function that spends its fuel */
    wasmloop_call_limits little = { start - 1, 64, 0 };
    blank();
    IS(wasmloop_instance(&module, &little, &it, &ended), WASMLOOP_NOT_STARTED);
    IS(ended.ending, WASMLOOP_SPENT);
    IS(it.mark, 0);
    IS(wasmloop_stop(&it, NULL, 0, &calls), WASMLOOP_EMPTY);
    IS(wasmloop_drop(&it), WASMLOOP_EMPTY);
    IS(wasmloop_drop(&module), WASMLOOP_OK);
    module = module_of("fails.wasm");
    IS(wasmloop_instance(&module, &limits, &it, &ended), WASMLOOP_NOT_STARTED);
    IS(ended.ending, WASMLOOP_TRAP);
    IS(ended.trap, 4);
    IS(wasmloop_drop(&module), WASMLOOP_OK);
    /* no memory at all */
    module = module_of("plain.wasm");
    IS(wasmloop_instance(&module, &limits, &it, &ended), WASMLOOP_OK);
    IS(wasmloop_size(&it, &calls), WASMLOOP_OK);
    IS(calls, 0);
    IS(wasmloop_read(&it, 0, NULL, 0), WASMLOOP_OK);
    uint8_t byte = 1;
    IS(wasmloop_read(&it, 0, &byte, 1), WASMLOOP_RANGE);
    returns(&it, "f", 1, 0xffffffffu, 0, 0xffffffffu);
    IS(wasmloop_drop(&it), WASMLOOP_OK);
    IS(wasmloop_drop(&module), WASMLOOP_OK);
}

/* calls in slices: each ends as one that is made at once, over what those before have left */
static void in_slices(void) {
    static const struct { const char *name; size_t count; uint64_t args[2], fuel; } all[] = {
        { "add", 1, { 5 }, 1000000 }, { "divide", 2, { 1, 0 }, 1000000 }, { "deep", 1, { 200 }, 1000000 }, { "deep", 1, { 9 }, 1000000 },
        { "spin", 0, { 0 }, 777 }, { "spin", 0, { 0 }, 0 }, { "grow", 1, { 1 }, 1000 }, { "count", 0, { 0 }, 1000 }, { "nothing", 0, { 0 }, 1000 },
    };
    static const uint64_t cuts[] = { 1, 2, 5, 100, UINT64_MAX };
    wasmloop_handle module = module_of("kv.wasm");
    for (size_t k = 0; k < sizeof cuts / sizeof *cuts; k++) {
        wasmloop_handle it = WASMLOOP_HANDLE_INIT, once = WASMLOOP_HANDLE_INIT;
        IS(wasmloop_instance(&module, &limits, &it, &ended), WASMLOOP_OK);
        IS(wasmloop_instance(&module, &limits, &once, &ended), WASMLOOP_OK);
        for (size_t i = 0; i < sizeof all / sizeof *all; i++) {
            wasmloop_call_limits few = { all[i].fuel, 64, 0 };
            wasmloop_ended wanted;
            wasmloop_site sites[64] = { { 0, 0 } }, sliced[64] = { { 0, 0 } };
            uint64_t open = 0, open_too = 0;
            uint32_t over = 0;
            IS(wasmloop_call(&once, all[i].name, all[i].args, all[i].count, &few, &wanted), WASMLOOP_OK);
            IS(wasmloop_call_begin(&it, all[i].name, all[i].args, all[i].count, &few), WASMLOOP_OK);
            while (!over) IS(wasmloop_call_run_for(&it, cuts[k], &over, &ended), WASMLOOP_OK);
            IS(memcmp(&wanted, &ended, sizeof ended), 0);
            IS(wasmloop_stop(&it, sites, 64, &open), wasmloop_stop(&once, sliced, 64, &open_too));
            IS(open == open_too && !memcmp(sites, sliced, sizeof sites), 1);
        }
        IS(wasmloop_drop(&it), WASMLOOP_OK);
        IS(wasmloop_drop(&once), WASMLOOP_OK);
    }
    IS(wasmloop_drop(&module), WASMLOOP_OK);
    /* an import is asked in the first slice, and its instance is as it was */
    module = module_of("start.wasm");
    wasmloop_handle it = WASMLOOP_HANDLE_INIT;
    uint64_t wide = 9;
    uint32_t over = 0;
    IS(wasmloop_instance(&module, &limits, &it, &ended), WASMLOOP_OK);
    IS(wasmloop_drop(&module), WASMLOOP_OK);
    IS(wasmloop_call_begin(&it, "imported", &wide, 1, &limits), WASMLOOP_OK);
    IS(wasmloop_call(&it, "global", NULL, 0, &limits, &ended), WASMLOOP_KIND);
    IS(wasmloop_call_run_for(&it, 1, &over, &ended), WASMLOOP_OK);
    IS(over == 1 && ended.ending == WASMLOOP_RETURN && ended.used == 0 && ended.results == 1, 1);
    IS(ended.result[0], 0xffffffffu);
    returns(&it, "global", 0, 0, 0, 7);
    IS(wasmloop_drop(&it), WASMLOOP_OK);
}

/* calls by number: each ends as one by name, over what those before have left */
static void by_number(void) {
    static const struct { const char *name; size_t count; uint64_t args[2], fuel; int wanted; } all[] = {
        { "add", 1, { 5 }, 1000000, 0 }, { "divide", 2, { 7, 2 }, 1000000, 0 }, { "divide", 2, { 1, 0 }, 1000000, 0 },
        { "deep", 1, { 200 }, 1000000, 0 }, { "spin", 0, { 0 }, 777, 0 }, { "nothing", 0, { 0 }, 1000, 0 }, { "add", 1, { 8 }, 1000, 0 },
        { "add", 2, { 0 }, 1000, WASMLOOP_ARGUMENTS }, { "deep", 1, { UINT64_C(1) << 32 }, 1000, WASMLOOP_ARGUMENTS },
    };
    wasmloop_handle module = module_of("kv.wasm"), it = WASMLOOP_HANDLE_INIT, other = WASMLOOP_HANDLE_INIT;
    uint64_t number = 77, args[300] = { 0 };
    IS(wasmloop_instance(&module, &limits, &it, &ended), WASMLOOP_OK);
    IS(wasmloop_instance(&module, &limits, &other, &ended), WASMLOOP_OK);
    for (size_t i = 0; i < sizeof all / sizeof *all; i++) {
        wasmloop_call_limits few = { all[i].fuel, 64, 0 };
        wasmloop_ended wanted;
        memset(&wanted, 0xab, sizeof wanted);
        blank();
        IS(wasmloop_export_number(&module, all[i].name, &number), WASMLOOP_OK);
        IS(wasmloop_call(&other, all[i].name, all[i].args, all[i].count, &few, &wanted), all[i].wanted);
        IS(wasmloop_call_at(&it, number, all[i].args, all[i].count, &few, &ended), all[i].wanted);
        IS(memcmp(&wanted, &ended, sizeof ended), 0);
    }
    /* what has no number, and numbers of no function */
    number = 77;
    IS(wasmloop_export_number(&module, "nobody", &number), WASMLOOP_NONE);
    IS(wasmloop_export_number(&module, "memory", &number), WASMLOOP_NONE);
    IS(wasmloop_export_number(&it, "add", &number), WASMLOOP_KIND);
    IS(wasmloop_export_number(NULL, "add", &number), WASMLOOP_NULL);
    IS(wasmloop_export_number(&module, NULL, &number), WASMLOOP_NULL);
    IS(wasmloop_export_number(&module, "add", NULL), WASMLOOP_NULL);
    IS(number, 77);
    blank();
    size_t functions = 0, others = 0;
    for (uint64_t k = 0; k < 1024; k++) {
        int told = wasmloop_call_at(&it, k, args, 300, &limits, &ended);
        functions += told == WASMLOOP_ARGUMENTS;
        others += told == WASMLOOP_NONE;
    }
    IS(functions > 8 && functions + others == 1024, 1);
    IS(wasmloop_call_at(&it, UINT64_MAX, NULL, 0, &limits, &ended), WASMLOOP_NONE);
    IS(wasmloop_export_number(&module, "add", &number), WASMLOOP_OK);
    wasmloop_call_limits flat = { 1000, 0, 0 }, high = { 1000, 129, 0 };
    wasmloop_handle nothing = WASMLOOP_HANDLE_INIT;
    IS(wasmloop_call_at(&it, number, args, SIZE_MAX, &limits, &ended), WASMLOOP_RANGE);
    IS(wasmloop_call_at(&it, number, args, 1, &flat, &ended), WASMLOOP_RANGE);
    IS(wasmloop_call_at(&it, number, args, 1, &high, &ended), WASMLOOP_RANGE);
    IS(wasmloop_call_at(&nothing, number, args, 1, &limits, &ended), WASMLOOP_EMPTY);
    IS(wasmloop_call_at(&module, number, args, 1, &limits, &ended), WASMLOOP_KIND);
    IS(wasmloop_call_at(NULL, number, args, 1, &limits, &ended), WASMLOOP_NULL);
    IS(wasmloop_call_at(&it, number, NULL, 1, &limits, &ended), WASMLOOP_NULL);
    IS(wasmloop_call_at(&it, number, args, 1, NULL, &ended), WASMLOOP_NULL);
    IS(wasmloop_call_at(&it, number, args, 1, &limits, NULL), WASMLOOP_NULL);
    IS(wasmloop_call_begin(&it, "add", args, 1, &limits), WASMLOOP_OK);
    IS(wasmloop_call_at(&it, number, args, 1, &limits, &ended), WASMLOOP_KIND);
    IS(is_blank(), 1);
    IS(wasmloop_drop(&module), WASMLOOP_OK);
    IS(wasmloop_drop(&it), WASMLOOP_OK);
    IS(wasmloop_drop(&other), WASMLOOP_OK);
}

static void reads_global(wasmloop_handle *it, const char *name, uint32_t type, uint64_t wanted) {
    wasmloop_number value;
    memset(&value, 0xab, sizeof value);
    IS(wasmloop_global(it, name, &value), WASMLOOP_OK);
    IS(value.value_type, type);
    IS(value.zero, 0);
    IS(value.number, wanted);
}

static void globals(void) {
    wasmloop_handle module = module_of("start.wasm"), it = WASMLOOP_HANDLE_INIT, two = WASMLOOP_HANDLE_INIT, none = WASMLOOP_HANDLE_INIT;
    wasmloop_number value;
    IS(wasmloop_instance(&module, &limits, &it, &ended), WASMLOOP_OK);
    IS(wasmloop_instance(&module, &limits, &two, &ended), WASMLOOP_OK);
    reads_global(&it, "count", 1, 7);
    reads_global(&it, "wide", 2, (uint64_t)-2);
    IS(call(&it, "bump", 1, 0xffffffffu, 0), WASMLOOP_OK);
    reads_global(&it, "count", 1, 6);
    reads_global(&two, "count", 1, 7);
    memset(&value, 0xab, sizeof value);
    IS(wasmloop_global(&it, "absent", &value), WASMLOOP_NONE);
    IS(wasmloop_global(&it, "bump", &value), WASMLOOP_NONE);
    IS(wasmloop_global(&it, "memory", &value), WASMLOOP_NONE);
    IS(wasmloop_global(&it, "", &value), WASMLOOP_NONE);
    IS(wasmloop_global(NULL, "count", &value), WASMLOOP_NULL);
    IS(wasmloop_global(&it, NULL, &value), WASMLOOP_NULL);
    IS(wasmloop_global(&it, "count", NULL), WASMLOOP_NULL);
    IS(wasmloop_global(&none, "count", &value), WASMLOOP_EMPTY);
    IS(wasmloop_global(&module, "count", &value), WASMLOOP_KIND);
    IS(value.value_type, 0xabababab);
    IS(wasmloop_drop(&it), WASMLOOP_OK);
    IS(wasmloop_drop(&two), WASMLOOP_OK);
    IS(wasmloop_drop(&module), WASMLOOP_OK);
}

int main(int argc, char **argv) {
    folder = argc > 1 ? argv[1] : ".";
    stateful();
    starts();
    globals();
    in_slices();
    by_number();
    IS(strcmp(wasmloop_status_name(WASMLOOP_NOT_STARTED), "NOT_STARTED"), 0);
    IS(strcmp(wasmloop_status_name(WASMLOOP_ARGUMENTS), "ARGUMENTS"), 0);
    IS(wasmloop_status_name(13) == NULL, 1);
    return all_hold();
}
