/* What lies at an edge: the greatest lengths and rooms, a module of exactly 2^20 bytes, a long name, each name of a number, the callbacks of a
 * turn, and the number of an instruction behind blocks with and without `else`. Prints "all N checks hold", or the lines that don't. Run it
 * under AddressSanitizer, which reports each byte that is read beyond.
 *
 * usage: edges_test FOLDER      (examples/ of this repository) */
#include <string.h>
#include "checks.h"

static const wasmloop_limits usual = { 1000000, 1000000, 0, 64 };
static const wasmloop_call_limits call_limits = { 1000000, 64, 0 };

/* uv_main starts two idle handles, whose callbacks emit nothing */
static const uint8_t two[] = {
    0, 'a', 's', 'm', 1, 0, 0, 0, 1, 0x12, 4, 0x60, 1, 0x7f, 0, 0x60, 0, 1, 0x7f, 0x60, 2, 0x7f, 0x7f, 1, 0x7f, 0x60, 0, 0, 2, 0x20, 2, 2, 'u', 'v', 9,
    'i', 'd', 'l', 'e', '_', 'i', 'n', 'i', 't', 0, 1, 2, 'u', 'v', 10, 'i', 'd', 'l', 'e', '_', 's', 't', 'a', 'r', 't', 0, 2, 3, 3, 2, 0, 3, 4, 5, 1, 0x70, 1,
    1, 1, 7, 11, 1, 7, 'u', 'v', '_', 'm', 'a', 'i', 'n', 0, 3, 9, 7, 1, 0, 0x41, 0, 0x0b, 1, 2, 10, 0x15, 2, 2, 0, 0x0b, 0x10, 0, 0x10, 0, 0x41, 0, 0x10, 1,
    0x1a, 0x10, 0, 0x41, 0, 0x10, 1, 0x1a, 0x0b,
};

/* uv_main starts a timer of 50 ms, whose callback emits nothing, and emits 7 */
static const uint8_t emits[] = {
    0, 'a', 's', 'm', 1, 0, 0, 0, 1, 0x19, 5, 0x60, 0, 1, 0x7f, 0x60, 4, 0x7f, 0x7f, 0x7e, 0x7e, 1, 0x7f, 0x60, 1, 0x7e, 1, 0x7f, 0x60, 1, 0x7f, 0, 0x60, 0,
    0, 2, 0x2c, 3, 2, 'u', 'v', 10, 't', 'i', 'm', 'e', 'r', '_', 'i', 'n', 'i', 't', 0, 0, 2, 'u', 'v', 11, 't', 'i', 'm', 'e', 'r', '_', 's', 't', 'a', 'r',
    't', 0, 1, 2, 'u', 'v', 4, 'e', 'm', 'i', 't', 0, 2, 3, 3, 2, 3, 4, 4, 4, 1, 0x70, 0, 1, 7, 11, 1, 7, 'u', 'v', '_', 'm', 'a', 'i', 'n', 0, 4, 9, 7, 1, 0,
    0x41, 0, 0x0b, 1, 3, 10, 0x17, 2, 2, 0, 0x0b, 0x12, 0, 0x10, 0, 0x41, 0, 0x42, 0x32, 0x42, 0, 0x10, 1, 0x1a, 0x42, 7, 0x10, 2, 0x1a, 0x0b,
};

/* one import, and f: i32.const 0, if, nop, end; i32.const 0, if, nop, else, nop, end; i32.const 0, if, nop, end; unreachable */
static const uint8_t ifs[] = {
    0, 'a', 's', 'm', 1, 0, 0, 0, 1, 8, 2, 0x60, 0, 0, 0x60, 0, 1, 0x7f, 2, 16, 1, 2, 'u', 'v', 9, 'i', 'd', 'l', 'e', '_', 'i', 'n', 'i', 't', 0, 1, 3, 2, 1, 0,
    7, 5, 1, 1, 'f', 0, 1, 10, 25, 1, 23, 0, 0x41, 0, 4, 0x40, 1, 0x0b, 0x41, 0, 4, 0x40, 1, 5, 1, 0x0b, 0x41, 0, 4, 0x40, 1, 0x0b, 0, 0x0b,
};

static wasmloop_handle loaded(const uint8_t *from, size_t length) {
    wasmloop_handle module = WASMLOOP_HANDLE_INIT;
    wasmloop_fault fault;
    IS(wasmloop_load(from, length, &module, &fault), WASMLOOP_OK);
    return module;
}

static wasmloop_handle loop_of(const uint8_t *from, size_t length) {
    wasmloop_handle module = loaded(from, length), loop = WASMLOOP_HANDLE_INIT;
    IS(wasmloop_loop(&module, &usual, &loop), WASMLOOP_OK);
    IS(wasmloop_drop(&module), WASMLOOP_OK);
    return loop;
}

static wasmloop_handle instance_of(const uint8_t *from, size_t length) {
    wasmloop_handle module = loaded(from, length), it = WASMLOOP_HANDLE_INIT;
    wasmloop_ended ended;
    IS(wasmloop_instance(&module, &call_limits, &it, &ended), WASMLOOP_OK);
    IS(wasmloop_drop(&module), WASMLOOP_OK);
    return it;
}

/* RANGE begins behind PTRDIFF_MAX bytes; up to there the handle is looked at */
static void rooms(void) {
    static const struct { size_t room; int status; } cases[] = { { PTRDIFF_MAX, WASMLOOP_EMPTY }, { (size_t)PTRDIFF_MAX + 1, WASMLOOP_RANGE } };
    wasmloop_handle none = WASMLOOP_HANDLE_INIT, into = WASMLOOP_HANDLE_INIT;
    wasmloop_task task = { 1, 0, 1 };
    wasmloop_fault fault;
    wasmloop_ended ended;
    wasmloop_type type;
    static char words[1000];
    uint8_t byte = 0;
    char text;
    uint64_t count;
    int32_t answer;
    for (size_t k = 0; k < sizeof cases / sizeof *cases; k++) {
        size_t most = cases[k].room;
        int wanted = cases[k].status, is_over = wanted == WASMLOOP_RANGE;
        IS(wasmloop_emits(&none, &(int64_t){ 0 }, PTRDIFF_MAX / 8 + is_over, &(uint32_t){ 0 }), wanted);
        IS(wasmloop_stop(&none, &(wasmloop_site){ 0, 0 }, PTRDIFF_MAX / 16 + is_over, &count), wanted);
        IS(wasmloop_stop_places(&none, &(wasmloop_place){ 0, 0, 0 }, PTRDIFF_MAX / 24 + is_over, &count), wanted);
        IS(wasmloop_call(&none, "f", &(uint64_t){ 0 }, PTRDIFF_MAX / 8 + is_over, &call_limits, &ended), wanted);
        IS(wasmloop_call_begin(&none, "f", &(uint64_t){ 0 }, PTRDIFF_MAX / 8 + is_over, &call_limits), wanted);
        IS(wasmloop_call_for(&none, 0, &(uint64_t){ 0 }, PTRDIFF_MAX / 8 + is_over, &call_limits, 1, &(uint32_t){ 0 }, &ended), wanted);
        IS(wasmloop_export_at(&none, 0, &text, most, &(wasmloop_listed){ 0, 0, 0 }, &type), wanted);
        IS(wasmloop_stop_told(&byte, 0, &none, &text, most, &count), wanted);
        IS(wasmloop_stop_told(&byte, most, &none, &text, 0, &count), wanted);
        IS(wasmloop_warning(&none, 0, &text, most, &count), wanted);
        IS(wasmloop_job_input(&none, &byte, most, &count), wanted);
        IS(wasmloop_job_reply(&none, &byte, most, &count), wanted);
        IS(wasmloop_read(&none, 0, &byte, most), wanted);
        IS(wasmloop_write(&none, 0, &byte, most), wanted);
        IS(wasmloop_request(&none, 0, &byte, most, &answer), wanted);
        IS(wasmloop_job_new(&none, &task, &byte, is_over ? most : 65536, &into), wanted);
        IS(wasmloop_load(bytes, most, &into, &fault), is_over ? WASMLOOP_RANGE : WASMLOOP_REFUSED);
        IS(wasmloop_explain(bytes, most, &text, 0, &count), is_over ? WASMLOOP_RANGE : WASMLOOP_OK);
        IS(wasmloop_explain(bytes, 0, words, most, &count), is_over ? WASMLOOP_RANGE : WASMLOOP_OK);
    }
    wasmloop_handle module = module_of("crc32.wasm");
    IS(wasmloop_job_new(&module, &task, bytes, 65537, &into), WASMLOOP_RANGE);
    IS(wasmloop_job_new(&module, &task, bytes, 65536, &into), WASMLOOP_OK);
    IS(wasmloop_drop(&into), WASMLOOP_OK);
    IS(wasmloop_drop(&module), WASMLOOP_OK);
    /* NULL comes before RANGE */
    IS(wasmloop_stop_told(NULL, (size_t)PTRDIFF_MAX + 1, &none, &text, 1, &count), WASMLOOP_NULL);
    IS(wasmloop_stop_told(&byte, 1, &none, NULL, (size_t)PTRDIFF_MAX + 1, &count), WASMLOOP_NULL);
    IS(wasmloop_emits(&none, NULL, (size_t)PTRDIFF_MAX + 1, &(uint32_t){ 0 }), WASMLOOP_NULL);
}

/* NULL is refused where something is to be read or written there, and nowhere else */
static void nulls(void) {
    wasmloop_handle module = module_of("crc32.wasm"), it = WASMLOOP_HANDLE_INIT, loop = loop_of(ifs, sizeof ifs), job = WASMLOOP_HANDLE_INIT;
    wasmloop_task task = { 1000000, 0, 64 };
    wasmloop_ended ended;
    wasmloop_fault fault;
    wasmloop_listed listed;
    wasmloop_type type;
    uint64_t count;
    uint32_t values;
    int32_t answer;
    IS(wasmloop_instance(&module, &call_limits, &it, &ended), WASMLOOP_OK);
    IS(wasmloop_call(&it, "uv_work", NULL, 1, &call_limits, &ended), WASMLOOP_NULL);
    IS(wasmloop_call_begin(&it, "uv_work", NULL, 1, &call_limits), WASMLOOP_NULL);
    IS(wasmloop_call(&it, "uv_work", NULL, 0, &call_limits, &ended), WASMLOOP_ARGUMENTS);
    IS(wasmloop_call_begin(&it, "uv_work", NULL, 0, &call_limits), WASMLOOP_ARGUMENTS);
    IS(wasmloop_call_for(&it, 0, NULL, 1, &call_limits, 1, &values, &ended), WASMLOOP_NULL);
    IS(wasmloop_call_for(&it, 0, NULL, 0, &call_limits, 1, NULL, &ended), WASMLOOP_NULL);
    IS(wasmloop_call_for(&it, 0, NULL, 0, &call_limits, 1, &values, NULL), WASMLOOP_NULL);
    IS(wasmloop_call_for(&it, 0, NULL, 0, NULL, 1, &values, &ended), WASMLOOP_NULL);
    IS(wasmloop_call_for(NULL, 0, NULL, 0, &call_limits, 1, &values, &ended), WASMLOOP_NULL);
    IS(wasmloop_call_end(NULL, &ended), WASMLOOP_NULL);
    IS(wasmloop_call_end(&it, NULL), WASMLOOP_NULL);
    IS(wasmloop_export_at(NULL, 0, NULL, 0, &listed, &type), WASMLOOP_NULL);
    IS(wasmloop_export_at(&module, 0, NULL, 1, &listed, &type), WASMLOOP_NULL);
    IS(wasmloop_export_at(&module, 0, NULL, 0, NULL, &type), WASMLOOP_NULL);
    IS(wasmloop_export_at(&module, 0, NULL, 0, &listed, NULL), WASMLOOP_NULL);
    IS(wasmloop_export_at(&module, 0, NULL, 0, &listed, &type), WASMLOOP_OK);
    IS(listed.length > 0 && listed.kind < 4 && listed.zero == 0, 1);
    IS(wasmloop_write(&it, 0, NULL, 1), WASMLOOP_NULL);
    IS(wasmloop_write(&it, 0, NULL, 0), WASMLOOP_OK);
    IS(wasmloop_read(&it, 0, NULL, 1), WASMLOOP_NULL);
    IS(wasmloop_read(&it, 0, NULL, 0), WASMLOOP_OK);
    IS(wasmloop_load(NULL, 0, &job, &fault), WASMLOOP_REFUSED);
    IS(wasmloop_explain(NULL, 0, NULL, 0, &count), WASMLOOP_OK);
    IS(wasmloop_emits(&loop, NULL, 0, &values), WASMLOOP_OK);
    IS(wasmloop_request(&loop, 0, NULL, 0, &answer), WASMLOOP_OK);
    IS(wasmloop_warning(&module, 0, NULL, 0, &count), WASMLOOP_NONE);
    IS(wasmloop_work(&module, &task, NULL, 1, &job), WASMLOOP_NULL);
    IS(wasmloop_work(&module, &task, NULL, 0, &job), WASMLOOP_OK);
    IS(wasmloop_job_input(&job, NULL, 0, &count), WASMLOOP_OK);
    IS(wasmloop_job_reply(&job, NULL, 0, &count), WASMLOOP_OK);
    IS(wasmloop_stop(&job, NULL, 0, &count), WASMLOOP_NONE);
    IS(wasmloop_stop_places(&job, NULL, 0, &count), WASMLOOP_NONE);
    IS(wasmloop_drop(&job), WASMLOOP_OK);
    IS(wasmloop_drop(&it), WASMLOOP_OK);
    IS(wasmloop_drop(&loop), WASMLOOP_OK);
    IS(wasmloop_drop(&module), WASMLOOP_OK);
}

/* the same module with a custom section that makes it as long */
static uint8_t *lengthened(size_t length) {
    uint8_t *made = malloc(length);
    size_t rest = length - sizeof two - 4;
    memcpy(made, two, sizeof two);
    made[sizeof two] = 0;
    for (int k = 0; k < 3; k++) made[sizeof two + 1 + k] = (uint8_t)((rest >> 7 * k & 127) | (k < 2 ? 128 : 0));
    memset(made + sizeof two + 4, 0, rest);
    return made;
}

static void sizes(void) {
    static const size_t most = (size_t)1 << 20;
    wasmloop_handle module = WASMLOOP_HANDLE_INIT;
    wasmloop_fault fault;
    uint64_t count;
    for (size_t length = most - 1; length <= most + 1; length++) {
        uint8_t *made = lengthened(length);
        int is_over = length > most;
        IS(wasmloop_load(made, length, &module, &fault), is_over ? WASMLOOP_REFUSED : WASMLOOP_OK);
        if (is_over) IS(fault.stage == 1 && fault.code == 12, 1);
        IS(wasmloop_explain(made, length, NULL, 0, &count), is_over ? WASMLOOP_OK : WASMLOOP_NONE);
        IS(wasmloop_drop(&module), is_over ? WASMLOOP_EMPTY : WASMLOOP_OK);
        free(made);
    }
}

/* a function whose name has 300 bytes */
static void long_names(void) {
    static const uint8_t front[] = { 0, 'a', 's', 'm', 1, 0, 0, 0, 1, 4, 1, 0x60, 0, 0, 3, 2, 1, 0, 7, 0xb1, 2, 1, 0xac, 2 };
    static const uint8_t behind[] = { 0, 0, 10, 4, 1, 2, 0, 0x0b };
    static uint8_t made[sizeof front + 300 + sizeof behind];
    char name[302];
    wasmloop_type type;
    wasmloop_ended ended;
    memcpy(made, front, sizeof front), memset(made + sizeof front, 'n', 300), memcpy(made + sizeof front + 300, behind, sizeof behind);
    wasmloop_handle module = loaded(made, sizeof made), it = instance_of(made, sizeof made);
    for (int length = 299; length <= 301; length++) {
        int wanted = length == 300 ? WASMLOOP_OK : WASMLOOP_NONE;
        memset(name, 'n', sizeof name), name[length] = 0;
        IS(wasmloop_function(&module, name, &type), wanted);
        IS(wasmloop_call(&it, name, NULL, 0, &call_limits, &ended), wanted);
    }
    IS(wasmloop_drop(&module), WASMLOOP_OK);
    IS(wasmloop_drop(&it), WASMLOOP_OK);
}

/* whether a call gives these names to the numbers from 0 on, and no more */
static int gives(const char *(*call)(uint32_t), const char *const *names, uint32_t count) {
    for (uint32_t k = 0; k < count; k++) {
        const char *name = call(k);
        if (!names[k] ? name != NULL : !name || strcmp(name, names[k])) return 0;
    }
    return !call(count) && !call(UINT32_MAX);
}

static const char *status_name(uint32_t status) { return wasmloop_status_name((int)status); }
static const char *decode_name(uint32_t code) { return wasmloop_fault_name(1, code); }
static const char *validate_name(uint32_t code) { return wasmloop_fault_name(2, code); }
static const char *link_name(uint32_t code) { return wasmloop_fault_name(3, code); }
static const char *no_name(uint32_t code) { return wasmloop_fault_name(code % 2 ? 0 : 4, code); }

static void names(void) {
    static const char *const statuses[] = { "OK", "NONE", "EMPTY", "KIND", "MEMORY", "REFUSED", "RANGE", "STRANGER", "USED_UP", "NULL", "NO_WORK",
        "NOT_STARTED", "ARGUMENTS" };
    static const char *const endings[] = { "return", "trap", "depth", "spent" };
    static const char *const outcomes[] = { "not run", "done", "trap", "depth", "spent", "nomemory" };
    static const char *const traps[] = { NULL, "unreachable", "division by zero", "a quotient out of range", "an access outside the memory",
        "an index past the table", "an empty element", "a function of another type" };
    static const char *const decode[] = { NULL, "Magic", "Version", "End", "Leb", "Order", "Size", "Kind", "Opcode", "Name", "Counts", "Profile", "Limit" };
    static const char *const validate[] = { NULL, "Type", "Index", "Label", "Align", "Mutability", "Result", "Export", "Start", "Constant", "Height", "Nesting" };
    static const char *const link[] = { NULL, "Module", "Name", "Type", "Kind", "Segments" };
    static const char *const none[] = { NULL };
#define GIVES(call, list) IS(gives(call, list, sizeof list / sizeof *list), 1)
    GIVES(status_name, statuses);
    GIVES(wasmloop_ending_name, endings);
    GIVES(wasmloop_outcome_name, outcomes);
    GIVES(wasmloop_trap_name, traps);
    GIVES(decode_name, decode);
    GIVES(validate_name, validate);
    GIVES(link_name, link);
    GIVES(no_name, none);
    IS(wasmloop_status_name(-1) == NULL, 1);
    IS(strcmp(wasmloop_version(), WASMLOOP_VERSION), 0);
}

/* a call of wasmloop_turn runs no more callbacks than it may, and adds them up until the iteration is over, whatever is in the struct before */
static void callbacks(void) {
    wasmloop_handle loop = loop_of(two, sizeof two);
    for (uint32_t most = 1; most < 4; most++) {
        wasmloop_turned told;
        uint32_t before = 0;
        for (int turn = 0; turn < 8; turn++, before = told.did.what == WASMLOOP_ENTERED ? 0 : told.callbacks) {
            memset(&told, turn % 2 ? 0 : 0xab, sizeof told);
            IS(wasmloop_turn(&loop, most, &told), WASMLOOP_OK);
            IS(told.zero, 0);
            IS(told.callbacks - before <= most, 1);
            IS(told.wait, 0);
            if (told.did.what == WASMLOOP_RAN) IS(told.callbacks - before, most);
            else if (turn > 2) IS(told.callbacks, 2);
        }
    }
    IS(wasmloop_drop(&loop), WASMLOOP_OK);
    /* one that was left for a callback's values still knows of that callback */
    wasmloop_turned told;
    memset(&told, 0, sizeof told);
    loop = loop_of(emits, sizeof emits);
    IS(wasmloop_turn(&loop, 100, &told), WASMLOOP_OK);
    IS(told.did.what == WASMLOOP_RAN && told.did.emits == 1 && told.wait == 0, 1);
    IS(wasmloop_turn(&loop, 100, &told), WASMLOOP_OK);
    IS(told.did.what == WASMLOOP_ENTERED && told.callbacks == 1 && told.wait == 0, 1);
    IS(wasmloop_turn(&loop, 100, &told), WASMLOOP_OK);
    IS(told.did.what == WASMLOOP_ENTERED && told.callbacks == 0 && told.wait == 50, 1);
    /* what the caller wrote is not added */
    told.did.what = WASMLOOP_RAN, told.callbacks = UINT32_MAX;
    uint64_t now;
    IS(wasmloop_clock(&loop, 50, &now), WASMLOOP_OK);
    IS(wasmloop_turn(&loop, 100, &told), WASMLOOP_OK);
    IS(told.did.what == WASMLOOP_ENTERED && told.callbacks == 0, 1);
    told.callbacks = UINT32_MAX;
    IS(wasmloop_turn(&loop, 100, &told), WASMLOOP_OK);
    IS(told.callbacks, 1);
    IS(wasmloop_drop(&loop), WASMLOOP_OK);
    /* a loop that has failed waits for ever, though it is alive and its timer is due */
    wasmloop_handle module = loaded(emits, sizeof emits);
    wasmloop_limits few = { 7, 7, 0, 64 };
    wasmloop_standing standing;
    uint64_t ms = 7;
    IS(wasmloop_loop(&module, &few, &loop), WASMLOOP_OK);
    IS(wasmloop_drop(&module), WASMLOOP_OK);
    for (int turn = 0; turn < 2; turn++) {
        memset(&told, 0, sizeof told);
        IS(wasmloop_turn(&loop, 100, &told), WASMLOOP_OK);
        IS(told.did.what, turn ? WASMLOOP_FAILED : WASMLOOP_RAN);
        IS(told.wait == WASMLOOP_FOREVER, 1);
    }
    IS(wasmloop_standing_of(&loop, &standing), WASMLOOP_OK);
    IS(standing.failed == 1 && standing.alive == 1, 1);
    IS(wasmloop_hint(&loop, &ms), WASMLOOP_OK);
    IS(ms, 50);
    IS(wasmloop_drop(&loop), WASMLOOP_OK);
}

/* whether the words for the innermost instruction have the numbers of these two */
static int is_told(const char *text, const wasmloop_site *site, const wasmloop_place *place) {
    unsigned long long function = 0, instruction = 0, byte = 0;
    const char *at = strstr(text, " at byte ");
    if (sscanf(text, "in function %llu", &function) != 1 || !at) return 0;
    if (sscanf(strstr(text, "instruction "), "instruction %llu", &instruction) != 1 || sscanf(at, " at byte %llu", &byte) != 1) return 0;
    return place->function == function && place->instruction == instruction && place->byte == byte && site->operation == instruction;
}

/* one number for one instruction: the one that the body spells, by each of the three calls */
static void numbers(void) {
    wasmloop_handle it = instance_of(ifs, sizeof ifs);
    wasmloop_ended ended;
    wasmloop_site site;
    wasmloop_place place;
    char text[200] = "";
    uint64_t count;
    IS(wasmloop_call(&it, "f", NULL, 0, &call_limits, &ended), WASMLOOP_OK);
    IS(ended.ending == WASMLOOP_TRAP && ended.trap == 1, 1);
    IS(wasmloop_stop(&it, &site, 1, &count), WASMLOOP_OK);
    IS(count == 1 && site.function == 0 && site.operation == 14, 1);
    IS(wasmloop_stop_places(&it, &place, 1, &count), WASMLOOP_OK);
    IS(count == 1 && place.function == 1 && place.instruction == 14 && place.byte == 72, 1);
    IS(ifs[72], 0);
    IS(wasmloop_stop_told(ifs, sizeof ifs, &it, text, sizeof text, &count), WASMLOOP_OK);
    IS(strncmp(text, "in function 1, instruction 14 (unreachable) at byte 72", count), 0);
    IS(wasmloop_drop(&it), WASMLOOP_OK);
    for (uint64_t fuel = 0; fuel < 20; fuel++) {
        wasmloop_call_limits few = { fuel, 64, 0 };
        it = instance_of(ifs, sizeof ifs);
        IS(wasmloop_call(&it, "f", NULL, 0, &few, &ended), WASMLOOP_OK);
        IS(wasmloop_stop(&it, &site, 1, &count), WASMLOOP_OK);
        IS(wasmloop_stop_places(&it, &place, 1, &count), WASMLOOP_OK);
        IS(wasmloop_stop_told(ifs, sizeof ifs, &it, text, sizeof text - 1, &count), WASMLOOP_OK);
        text[count] = 0;
        IS(is_told(text, &site, &place), 1);
        IS(wasmloop_drop(&it), WASMLOOP_OK);
    }
}

int main(int argc, char **argv) {
    folder = argc > 1 ? argv[1] : "examples";
    rooms();
    nulls();
    sizes();
    long_names();
    names();
    callbacks();
    numbers();
    return all_hold();
}
