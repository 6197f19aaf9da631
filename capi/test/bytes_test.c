/* Calls of an instance with bytes: uv_work of a new instance is the job, on random bytes, fuel and depths; a reply has nothing of the one before;
 * and what is refused changes nothing. Prints "all N checks hold", or the lines that don't. Run it under AddressSanitizer.
 *
 * usage: bytes_test FOLDER      (examples/ of this repository)
 */
#include <string.h>
#include "checks.h"

static const wasmloop_call_limits usual = { 10000000, 64, 0 };
static uint32_t drawn = 1;

static uint32_t below(uint32_t bound) {
    drawn = drawn * 1664525 + 1013904223;
    return (uint32_t)((uint64_t)drawn * bound >> 32);
}

/* bytes in room of their own, so that a read past them is seen */
static uint8_t *some_bytes(size_t length) {
    uint8_t *it = malloc(length ? length : 1);
    for (size_t k = 0; k < length; k++) it[k] = (uint8_t)below(256);
    return it;
}

static wasmloop_handle instance_of(const wasmloop_handle *module, uint64_t *work) {
    wasmloop_handle it = WASMLOOP_HANDLE_INIT;
    wasmloop_ended ended;
    IS(wasmloop_instance(module, &usual, &it, &ended), WASMLOOP_OK);
    IS(wasmloop_export_number(module, "uv_work", work), WASMLOOP_OK);
    return it;
}

/* the same of a job and of a call on a new instance */
static void is_job(const wasmloop_handle *module, uint32_t op, const uint8_t *word, size_t length, uint64_t fuel, uint32_t depth) {
    static const uint32_t endings[] = { 99, WASMLOOP_RETURN, WASMLOOP_TRAP, WASMLOOP_DEPTH, WASMLOOP_SPENT, 99 };
    wasmloop_handle job = WASMLOOP_HANDLE_INIT;
    wasmloop_call_limits limits = { fuel, depth, 0 };
    wasmloop_task task = { fuel, op, depth };
    wasmloop_about about;
    wasmloop_ended ended;
    const uint8_t *reply = NULL, *told = NULL;
    uint64_t count = 7, work, args[1] = { op };
    wasmloop_handle it = instance_of(module, &work);
    IS(wasmloop_work(module, &task, length ? word : NULL, length, &job), WASMLOOP_OK);
    IS(wasmloop_job_about(&job, &about), WASMLOOP_OK);
    IS(wasmloop_call_bytes(&it, work, args, 1, length ? word : NULL, length, &limits, &ended), WASMLOOP_OK);
    IS(ended.ending, endings[about.outcome]);
    IS(ended.used, about.used);
    IS(wasmloop_view(&it, &told, &count), WASMLOOP_OK);
    if (about.outcome == WASMLOOP_WORK_DONE) {
        IS(ended.results == 1 && ended.result[0] == about.value, 1);
        IS(count, about.reply);
        IS(wasmloop_job_view(&job, &reply, &count), WASMLOOP_OK);
        IS(count && memcmp(reply, told, count) != 0, 0);
    } else IS(ended.trap, about.outcome == WASMLOOP_WORK_TRAP ? about.value : 0);
    IS(wasmloop_drop(&job), WASMLOOP_OK);
    IS(wasmloop_drop(&it), WASMLOOP_OK);
}

static void are_jobs(void) {
    static const char *const names[] = { "crc32.wasm", "sha256.wasm", "bucket.wasm", "copies.wasm", "digest.wasm", "asks.wasm" };
    for (size_t k = 0; k < sizeof names / sizeof *names; k++) {
        wasmloop_handle module = module_of(names[k]);
        wasmloop_shape shape;
        IS(wasmloop_shape_of(&module, &shape), WASMLOOP_OK);
        for (int turn = 0; shape.work && turn < 60; turn++) {
            size_t length = turn == 59 ? 65536 : below(turn % 2 ? 20 : 3000);
            uint8_t *word = some_bytes(length);
            is_job(&module, below(8), word, length, turn % 3 ? 10000000 : below(20000), turn % 5 ? 64 : 1 + below(2));
            free(word);
        }
        IS(wasmloop_drop(&module), WASMLOOP_OK);
    }
}

/* one call after another on one instance: each reply is its own, and a call that sets none has none */
static void replies(void) {
    wasmloop_handle module = module_of("sha256.wasm"), job = WASMLOOP_HANDLE_INIT;
    wasmloop_task task = { usual.fuel, 0, usual.depth };
    wasmloop_call_limits few = { 1, 64, 0 };
    wasmloop_ended ended;
    const uint8_t *at = bytes, *wanted;
    uint64_t count = 7, work, args[1] = { 0 };
    wasmloop_handle it = instance_of(&module, &work);
    IS(wasmloop_view(&it, &at, &count), WASMLOOP_OK);
    IS(count, 0);
    for (int turn = 0; turn < 40; turn++) {
        size_t length = below(500);
        uint8_t *word = some_bytes(length);
        IS(wasmloop_call_bytes(&it, work, args, 1, word, length, &usual, &ended), WASMLOOP_OK);
        IS(wasmloop_work(&module, &task, word, length, &job), WASMLOOP_OK);
        free(word);
        IS(wasmloop_job_view(&job, &wanted, &count), WASMLOOP_OK);
        IS(wasmloop_view(&it, &at, &count), WASMLOOP_OK);
        IS(count == 32 && memcmp(at, wanted, 32) == 0, 1);
        IS(wasmloop_drop(&job), WASMLOOP_OK);
    }
    /* what is refused leaves it */
    IS(wasmloop_call_bytes(&it, work, args, 0, NULL, 0, &usual, &ended), WASMLOOP_ARGUMENTS);
    IS(wasmloop_call_bytes(&it, UINT64_MAX, args, 1, NULL, 0, &usual, &ended), WASMLOOP_NONE);
    IS(wasmloop_call_bytes(&it, work, args, 1, bytes, 65537, &usual, &ended), WASMLOOP_RANGE);
    IS(wasmloop_view(&it, &at, &count), WASMLOOP_OK);
    IS(count, 32);
    /* so does a call without bytes, whose imports answer -1 */
    IS(wasmloop_call_at(&it, work, args, 1, &usual, &ended), WASMLOOP_OK);
    IS(wasmloop_view(&it, &at, &count), WASMLOOP_OK);
    IS(count, 32);
    IS(wasmloop_call_bytes(&it, work, args, 1, bytes, 9, &few, &ended), WASMLOOP_OK);
    IS(ended.ending, WASMLOOP_SPENT);
    IS(wasmloop_view(&it, &at, &count), WASMLOOP_OK);
    IS(count, 0);
    IS(wasmloop_drop(&it), WASMLOOP_OK);
    IS(wasmloop_drop(&module), WASMLOOP_OK);
}

/* a call that is not made: nothing is written */
static void no_calls(void) {
    static const wasmloop_call_limits flat = { 1000, 0, 0 }, deep = { 1000, 129, 0 };
    wasmloop_handle module = module_of("crc32.wasm"), none = WASMLOOP_HANDLE_INIT;
    wasmloop_handle *const others[] = { &none, &module };
    wasmloop_ended ended, blank;
    const uint8_t *at = bytes;
    uint64_t count = 7, work, args[1] = { 0 };
    uint32_t over;
    wasmloop_handle it = instance_of(&module, &work);
    memset(&ended, 0xab, sizeof ended);
    blank = ended;
    for (int k = 0; k < 2; k++) {
        int want = k ? WASMLOOP_KIND : WASMLOOP_EMPTY;
        IS(wasmloop_call_bytes(others[k], work, args, 1, bytes, 1, &usual, &ended), want);
        IS(wasmloop_view(others[k], &at, &count), want);
    }
    IS(wasmloop_call_bytes(&it, work, args, 1, bytes, 1, &flat, &ended), WASMLOOP_RANGE);
    IS(wasmloop_call_bytes(&it, work, args, 1, bytes, 1, &deep, &ended), WASMLOOP_RANGE);
    IS(wasmloop_call_bytes(&it, work, args, 1, bytes, (size_t)PTRDIFF_MAX + 1, &usual, &ended), WASMLOOP_RANGE);
    IS(wasmloop_call_bytes(&it, work, args, (size_t)PTRDIFF_MAX / 8 + 1, bytes, 1, &usual, &ended), WASMLOOP_RANGE);
    IS(wasmloop_call_bytes(NULL, work, args, 1, bytes, 1, &usual, &ended), WASMLOOP_NULL);
    IS(wasmloop_call_bytes(&it, work, NULL, 1, bytes, 1, &usual, &ended), WASMLOOP_NULL);
    IS(wasmloop_call_bytes(&it, work, args, 1, NULL, 1, &usual, &ended), WASMLOOP_NULL);
    IS(wasmloop_call_bytes(&it, work, args, 1, bytes, 1, NULL, &ended), WASMLOOP_NULL);
    IS(wasmloop_call_bytes(&it, work, args, 1, bytes, 1, &usual, NULL), WASMLOOP_NULL);
    IS(wasmloop_view(NULL, &at, &count), WASMLOOP_NULL);
    IS(wasmloop_view(&it, NULL, &count), WASMLOOP_NULL);
    IS(wasmloop_view(&it, &at, NULL), WASMLOOP_NULL);
    /* while a call is in progress the last reply can be seen */
    IS(wasmloop_call_for(&it, work, args, 1, &usual, 1, &over, &ended), WASMLOOP_OK);
    IS(over, 0);
    IS(wasmloop_call_bytes(&it, work, args, 1, bytes, 1, &usual, &ended), WASMLOOP_KIND);
    IS(at == bytes && count == 7 && memcmp(&ended, &blank, sizeof ended) == 0, 1);
    IS(wasmloop_view(&it, &at, &count), WASMLOOP_OK);
    IS(count, 0);
    IS(wasmloop_drop(&it), WASMLOOP_OK);
    IS(wasmloop_drop(&module), WASMLOOP_OK);
}

int main(int argc, char **argv) {
    if (argc != 2) {
        fprintf(stderr, "usage: bytes_test FOLDER\n");
        return 2;
    }
    folder = argv[1];
    are_jobs();
    replies();
    no_calls();
    return all_hold();
}
