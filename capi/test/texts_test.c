/* Texts: how a run ended, a status, why a module is rejected as it is loaded, where something stopped by the bytes that its module keeps. And what
 * a handle holds, and how many bytes.
 *
 * usage: texts_test FOLDER      (examples/ of this repository) */
#include <string.h>
#include "checks.h"

static const wasmloop_limits usual = { 1000000, 1000000, 0, 64 };
static const wasmloop_call_limits call_limits = { 1000000, 64, 0 };

/* Whether a text is this one, also where there is room for a part of it alone. */
#define GIVES(call, want) do { \
    char text[200]; \
    uint64_t count = 7; \
    size_t room = sizeof text; \
    IS(call, WASMLOOP_OK); \
    IS(count == strlen(want) && !memcmp(text, want, count), 1); \
    memset(text, '#', sizeof text), room = 3, count = 7; \
    IS(call, WASMLOOP_OK); \
    IS(count == strlen(want) && !memcmp(text, want, 3) && text[3] == '#', 1); \
} while (0)

static void endings(void) {
    char text[200] = "#";
    uint64_t count = 7;
    GIVES(wasmloop_ended_text(WASMLOOP_SPENT, 0, 1000000, text, room, &count), "out of fuel, after 1,000,000 units");
    GIVES(wasmloop_ended_text(WASMLOOP_TRAP, 2, 3, text, room, &count), "division by zero, after 3 units");
    GIVES(wasmloop_ended_text(WASMLOOP_DEPTH, 0, 999, text, room, &count), "call-depth limit exceeded, after 999 units");
    GIVES(wasmloop_ended_text(WASMLOOP_RETURN, 0, 1, text, room, &count), "returned, after 1 unit");
    GIVES(wasmloop_ended_text(WASMLOOP_RETURN, 0, 0, text, room, &count), "returned, after 0 units");
    GIVES(wasmloop_ended_text(WASMLOOP_RETURN, 0, 1000, text, room, &count), "returned, after 1,000 units");
    GIVES(wasmloop_ended_text(WASMLOOP_RETURN, 0, 10203, text, room, &count), "returned, after 10,203 units");
    GIVES(wasmloop_ended_text(WASMLOOP_RETURN, 0, UINT64_MAX, text, room, &count), "returned, after 18,446,744,073,709,551,615 units");
    GIVES(wasmloop_outcome_text(WASMLOOP_NOT_RUN, 9, 7, text, room, &count), "not over yet, after 7 units");
    GIVES(wasmloop_outcome_text(WASMLOOP_WORK_DONE, 9, 7, text, room, &count), "returned, after 7 units");
    GIVES(wasmloop_outcome_text(WASMLOOP_WORK_TRAP, 1, 7, text, room, &count), "unreachable, after 7 units");
    GIVES(wasmloop_outcome_text(WASMLOOP_WORK_DEPTH, 0, 7, text, room, &count), "call-depth limit exceeded, after 7 units");
    GIVES(wasmloop_outcome_text(WASMLOOP_WORK_SPENT, 0, 7, text, room, &count), "out of fuel, after 7 units");
    GIVES(wasmloop_outcome_text(WASMLOOP_WORK_MEMORY, 0, 0, text, room, &count), "an allocation failed, after 0 units");
    /* a number without a name, and rooms */
    IS(wasmloop_ended_text(4, 0, 1, text, 9, &count), WASMLOOP_RANGE);
    IS(wasmloop_ended_text(WASMLOOP_TRAP, 0, 1, text, 9, &count), WASMLOOP_RANGE);
    IS(wasmloop_ended_text(WASMLOOP_TRAP, 8, 1, text, 9, &count), WASMLOOP_RANGE);
    IS(wasmloop_outcome_text(6, 0, 1, text, 9, &count), WASMLOOP_RANGE);
    IS(wasmloop_outcome_text(UINT32_MAX, 0, 1, text, 9, &count), WASMLOOP_RANGE);
    IS(wasmloop_ended_text(0, 0, 1, text, (size_t)PTRDIFF_MAX + 1, &count), WASMLOOP_RANGE);
    IS(wasmloop_ended_text(0, 0, 1, NULL, 1, &count), WASMLOOP_NULL);
    IS(wasmloop_ended_text(0, 0, 1, text, 9, NULL), WASMLOOP_NULL);
    IS(count == 7 && text[0] == '#', 1);
    IS(wasmloop_ended_text(0, 0, 1, NULL, 0, &count), WASMLOOP_OK);
    IS(count, strlen("returned, after 1 unit"));
}

static void statuses(void) {
    for (int status = 0; status < 13; status++) IS(wasmloop_status_text(status) && *wasmloop_status_text(status), 1);
    IS(strcmp(wasmloop_status_text(WASMLOOP_MEMORY), "an allocation failed"), 0);
    IS(strcmp(wasmloop_status_text(WASMLOOP_ARGUMENTS), "wrong number of arguments, or one out of its type's range"), 0);
    IS(!wasmloop_status_text(13) && !wasmloop_status_text(-1), 1);
}

/* Why bytes are rejected, in the numbers of wasmloop_load and the words of wasmloop_explain. */
static void loads(const uint8_t *from, size_t length) {
    wasmloop_handle module = WASMLOOP_HANDLE_INIT;
    wasmloop_fault fault, told;
    char words[300], text[300];
    uint64_t counted = 0, count = 0;
    memset(&fault, 1, sizeof fault), memset(&told, 1, sizeof told);
    int status = wasmloop_load(from, length, &module, &fault);
    IS(wasmloop_drop(&module), status == WASMLOOP_OK ? WASMLOOP_OK : WASMLOOP_EMPTY);
    IS(wasmloop_load_told(from, length, &module, &told, text, sizeof text, &count), status);
    IS(memcmp(&fault, &told, sizeof fault), 0);
    if (status != WASMLOOP_OK) {
        IS(wasmloop_explain(from, length, words, sizeof words, &counted), WASMLOOP_OK);
        IS(count == counted && !memcmp(words, text, count < sizeof text ? count : sizeof text), 1);
        memset(text, '#', sizeof text);
        IS(wasmloop_load_told(from, length, &module, &told, text, 5, &count), status);
        IS(count == counted && !memcmp(words, text, 5) && text[5] == '#', 1);
        IS(module.mark, 0);
    } else {
        IS(count, 0);
        IS(wasmloop_load_told(from, length, &module, &told, text, sizeof text, &count), WASMLOOP_KIND);
        IS(wasmloop_drop(&module), WASMLOOP_OK);
    }
}

static void loads_all(void) {
    wasmloop_handle module = WASMLOOP_HANDLE_INIT;
    wasmloop_fault fault;
    char text;
    uint64_t count = 7;
    size_t length = read_file("crc32.wasm");
    loads(bytes, length);
    loads(bytes, 0);
    for (size_t cut = 1; cut < length; cut += length / 40) loads(bytes, cut);
    for (size_t at = 0; at < length; at += length / 40) {
        bytes[at] ^= 0x55;
        loads(bytes, length);
        bytes[at] ^= 0x55;
    }
    IS(wasmloop_load_told(NULL, 0, &module, &fault, NULL, 0, &count), WASMLOOP_REFUSED);
    IS(count > 7, 1);
    count = 7;
    IS(wasmloop_load_told(NULL, 1, &module, &fault, &text, 1, &count), WASMLOOP_NULL);
    IS(wasmloop_load_told(bytes, length, &module, NULL, &text, 1, &count), WASMLOOP_NULL);
    IS(wasmloop_load_told(bytes, length, NULL, &fault, &text, 1, &count), WASMLOOP_NULL);
    IS(wasmloop_load_told(bytes, length, &module, &fault, NULL, 1, &count), WASMLOOP_NULL);
    IS(wasmloop_load_told(bytes, length, &module, &fault, &text, 1, NULL), WASMLOOP_NULL);
    IS(wasmloop_load_told(bytes, (size_t)PTRDIFF_MAX + 1, &module, &fault, &text, 1, &count), WASMLOOP_RANGE);
    IS(wasmloop_load_told(bytes, length, &module, &fault, &text, (size_t)PTRDIFF_MAX + 1, &count), WASMLOOP_RANGE);
    IS(count == 7 && module.mark == 0, 1);
}

/* The same words by the bytes and by those that the module keeps. */
static void tells(wasmloop_handle *it, size_t length, int status) {
    char words[300], text[300];
    uint64_t counted = 7, count = 7;
    IS(wasmloop_stop_told(bytes, length, it, words, sizeof words, &counted), status);
    IS(wasmloop_stop_told(NULL, 0, it, text, sizeof text, &count), status);
    IS(count, counted);
    if (status != WASMLOOP_OK) return;
    IS(!memcmp(words, text, count), 1);
    IS(wasmloop_stop_told(bytes, 0, it, text, sizeof text, &count), WASMLOOP_REFUSED);
}

static uint32_t kind_of(const wasmloop_handle *handle) {
    wasmloop_handle words = *handle;
    uint32_t kind = 99;
    IS(wasmloop_kind(handle, &kind), WASMLOOP_OK);
    IS(memcmp(&words, handle, sizeof words), 0);
    return kind;
}

/* How many bytes an object has, or why it isn't told. */
static uint64_t held(const wasmloop_handle *handle, int status) {
    wasmloop_handle words = *handle;
    uint64_t bytes = 7;
    IS(wasmloop_held(handle, &bytes), status);
    IS(memcmp(&words, handle, sizeof words), 0);
    if (status != WASMLOOP_OK) IS(bytes, 7);
    return bytes;
}

/* The slots and callers of an instance's calls. */
enum { CALLS = 8 * (65536 + 1 + 128) };

/* A module has its bytes, a job its input and its reply, and an instance, a loop or a paused job its memory, its table and the room of its calls. */
static void bytes_held(void) {
    wasmloop_handle module = module_of("crc32.wasm"), it = WASMLOOP_HANDLE_INIT, job = WASMLOOP_HANDLE_INIT, loop = WASMLOOP_HANDLE_INIT;
    wasmloop_handle none = WASMLOOP_HANDLE_INIT;
    size_t length = read_file("crc32.wasm");
    wasmloop_task task = { 1000000, 0, 64 };
    wasmloop_about about;
    wasmloop_ended ended;
    wasmloop_did did;
    uint32_t over = 7;
    uint64_t size = 0;
    IS(wasmloop_held(NULL, &size), WASMLOOP_NULL);
    IS(wasmloop_held(&module, NULL), WASMLOOP_NULL);
    held(&none, WASMLOOP_EMPTY);
    IS(held(&module, WASMLOOP_OK), length);
    IS(wasmloop_job_new(&module, &task, bytes, 1000, &job), WASMLOOP_OK);
    IS(held(&job, WASMLOOP_OK), 1000);
    IS(wasmloop_job_run_for(&job, 10, &over), WASMLOOP_OK);
    IS(over, 0);
    uint64_t paused = held(&job, WASMLOOP_OK);
    IS(wasmloop_job_run(&job), WASMLOOP_KIND);
    IS(wasmloop_job_run_for(&job, 1000000, &over), WASMLOOP_OK);
    IS(wasmloop_job_about(&job, &about), WASMLOOP_OK);
    IS(about.reply > 0, 1);
    IS(held(&job, WASMLOOP_OK), 1000 + about.reply);
    IS(wasmloop_drop(&job), WASMLOOP_OK);
    held(&job, WASMLOOP_EMPTY);
    IS(wasmloop_instance(&module, &call_limits, &it, &ended), WASMLOOP_OK);
    IS(wasmloop_size(&it, &size), WASMLOOP_OK);
    uint64_t rest = held(&it, WASMLOOP_OK) - size;
    IS(rest >= CALLS && rest < CALLS + 8 * 4096, 1);
    IS(paused, 1000 + 65536 + size + rest);
    IS(wasmloop_call_begin(&it, "uv_work", (uint64_t[]){ 0 }, 1, &call_limits), WASMLOOP_OK);
    IS(held(&it, WASMLOOP_OK), size + rest);
    IS(wasmloop_call_end(&it, &ended), WASMLOOP_OK);
    IS(held(&it, WASMLOOP_OK), size + rest);
    IS(wasmloop_drop(&module), WASMLOOP_OK);
    module = module_of("endless.wasm");
    IS(wasmloop_loop(&module, &usual, &loop), WASMLOOP_OK);
    IS(wasmloop_size(&loop, &size), WASMLOOP_OK);
    rest = held(&loop, WASMLOOP_OK) - size;
    IS(rest >= CALLS && rest < CALLS + 8 * 4096 && rest % 8 == 0, 1);
    while (over) IS(wasmloop_step_for(&loop, 10, &over, &did), WASMLOOP_OK);
    IS(held(&loop, WASMLOOP_OK), size + rest);
    wasmloop_drop(&it), wasmloop_drop(&loop), wasmloop_drop(&module);
    held(&it, WASMLOOP_EMPTY);
}

/* What handles hold, and where their runs stopped, as a module that recurses without end goes on. */
static void kinds(void) {
    wasmloop_handle module = module_of("endless.wasm"), it = WASMLOOP_HANDLE_INIT, job = WASMLOOP_HANDLE_INIT, loop = WASMLOOP_HANDLE_INIT;
    wasmloop_handle none = WASMLOOP_HANDLE_INIT;
    size_t length = read_file("endless.wasm");
    wasmloop_task task = { 1000, 0, 64 };
    wasmloop_ended ended;
    wasmloop_did did;
    uint32_t over = 7;
    char text;
    uint64_t count;
    IS(kind_of(&none), WASMLOOP_HOLDS_NOTHING);
    IS(kind_of(&module), WASMLOOP_HOLDS_MODULE);
    IS(wasmloop_kind(NULL, &over), WASMLOOP_NULL);
    IS(wasmloop_kind(&module, NULL), WASMLOOP_NULL);
    IS(wasmloop_stop_told(NULL, 0, &none, &text, 1, &count), WASMLOOP_EMPTY);
    tells(&module, length, WASMLOOP_KIND);
    IS(wasmloop_loop(&module, &usual, &loop), WASMLOOP_OK);
    IS(kind_of(&loop), WASMLOOP_HOLDS_LOOP);
    tells(&loop, length, WASMLOOP_NONE);
    while (over) IS(wasmloop_step_for(&loop, 10, &over, &did), WASMLOOP_OK);
    IS(kind_of(&loop), WASMLOOP_HOLDS_LOOP + WASMLOOP_HOLDS_PAUSED);
    tells(&loop, length, WASMLOOP_KIND);
    while (!over) IS(wasmloop_step_for(&loop, 1000000, &over, &did), WASMLOOP_OK);
    IS(kind_of(&loop), WASMLOOP_HOLDS_LOOP);
    IS(did.ending, WASMLOOP_DEPTH);
    tells(&loop, length, WASMLOOP_OK);
    IS(wasmloop_drop(&module), WASMLOOP_OK);
    length = read_file("crc32.wasm");
    module = module_of("crc32.wasm");
    IS(wasmloop_job_new(&module, &task, bytes, 1000, &job), WASMLOOP_OK);
    IS(kind_of(&job), WASMLOOP_HOLDS_JOB);
    tells(&job, length, WASMLOOP_NONE);
    IS(wasmloop_job_run_for(&job, 10, &over), WASMLOOP_OK);
    IS(kind_of(&job), WASMLOOP_HOLDS_JOB + WASMLOOP_HOLDS_PAUSED);
    tells(&job, length, WASMLOOP_OK);
    IS(wasmloop_job_run_for(&job, 1000000, &over), WASMLOOP_OK);
    IS(kind_of(&job), WASMLOOP_HOLDS_JOB);
    tells(&job, length, WASMLOOP_OK);
    IS(wasmloop_instance(&module, &call_limits, &it, &ended), WASMLOOP_OK);
    IS(kind_of(&it), WASMLOOP_HOLDS_INSTANCE);
    tells(&it, length, WASMLOOP_NONE);
    IS(wasmloop_call_begin(&it, "uv_work", (uint64_t[]){ 0 }, 1, &call_limits), WASMLOOP_OK);
    IS(kind_of(&it), WASMLOOP_HOLDS_INSTANCE + WASMLOOP_HOLDS_PAUSED);
    IS(wasmloop_call_run_for(&it, 1, &over, &ended), WASMLOOP_OK);
    tells(&it, length, WASMLOOP_OK);
    IS(wasmloop_call_end(&it, &ended), WASMLOOP_OK);
    IS(kind_of(&it), WASMLOOP_HOLDS_INSTANCE);
    tells(&it, length, WASMLOOP_OK);
    wasmloop_drop(&it), wasmloop_drop(&job), wasmloop_drop(&loop), wasmloop_drop(&module);
}

int main(int argc, char **argv) {
    folder = argc > 1 ? argv[1] : "examples";
    endings();
    statuses();
    loads_all();
    kinds();
    bytes_held();
    return all_hold();
}
