/* The numbers of statuses, endings, traps and faults as text, and how a run ended in one sentence. */
#include "wasmloop.h"

#define NAME_OF(names, number) ((number) < sizeof(names) / sizeof *(names) ? (names)[number] : NULL)

const char *wasmloop_version(void) { return WASMLOOP_VERSION; }

const char *wasmloop_status_name(int status) {
    static const char *const names[] = { "OK", "NONE", "EMPTY", "KIND", "MEMORY", "REFUSED", "RANGE", "STRANGER", "USED_UP", "NULL", "NO_WORK",
        "NOT_STARTED", "ARGUMENTS" };
    return status < 0 ? NULL : NAME_OF(names, (unsigned)status);
}

const char *wasmloop_status_text(int status) {
    static const char *const texts[] = { "success", "there is nothing to return", "the handle is empty",
        "the handle holds another kind of object, or is in another state", "an allocation failed", "the bytes are not a valid guest",
        "a number is out of range", "the reply is stale: its request was cancelled, or is another loop's", "the host has sent 2^32 times", "a pointer is NULL",
        "the module exports no uv_work", "the start function did not return", "wrong number of arguments, or one out of its type's range" };
    return status < 0 ? NULL : NAME_OF(texts, (unsigned)status);
}

const char *wasmloop_ending_name(uint32_t ending) {
    static const char *const names[] = { "return", "trap", "depth", "spent" };
    return NAME_OF(names, ending);
}

const char *wasmloop_outcome_name(uint32_t outcome) {
    static const char *const names[] = { "not run", "done", "trap", "depth", "spent", "nomemory" };
    return NAME_OF(names, outcome);
}

const char *wasmloop_trap_name(uint32_t trap) {
    static const char *const names[] = { NULL, "unreachable", "division by zero", "a quotient out of range", "an access outside the memory",
        "an index past the table", "an empty element", "a function of another type" };
    return NAME_OF(names, trap);
}

const char *wasmloop_fault_name(uint32_t stage, uint32_t code) {
    static const char *const decode[] = { NULL, "Magic", "Version", "End", "Leb", "Order", "Size", "Kind", "Opcode", "Name", "Counts", "Profile", "Limit" };
    static const char *const validate[] = { NULL, "Type", "Index", "Label", "Align", "Mutability", "Result", "Export", "Start", "Constant", "Height", "Nesting" };
    static const char *const link[] = { NULL, "Module", "Name", "Type", "Kind", "Segments" };
    return stage == 1 ? NAME_OF(decode, code) : stage == 2 ? NAME_OF(validate, code) : stage == 3 ? NAME_OF(link, code) : NULL;
}

/* A text that is copied as far as there is room, and counted. */
struct text { char *into; uint64_t room, length; };

static void put(struct text *text, char letter) {
    if (text->length < text->room) text->into[text->length] = letter;
    text->length++;
}

static void put_all(struct text *text, const char *from) {
    while (*from) put(text, *from++);
}

/* A number, with a comma before each three digits. */
static void put_number(struct text *text, uint64_t number) {
    uint64_t unit = 1;
    int digits = 1;
    for (; number / unit >= 10; unit *= 10) digits++;
    for (; digits; digits--, unit /= 10) {
        put(text, (char)('0' + number / unit % 10));
        if (digits % 3 == 1 && digits > 1) put(text, ',');
    }
}

static int put_ended(const char *how, uint64_t used, char *into, size_t room, uint64_t *count) {
    if (!count || (!into && room)) return WASMLOOP_NULL;
    if (!how || room > PTRDIFF_MAX) return WASMLOOP_RANGE;
    struct text text = { into, room, 0 };
    put_all(&text, how);
    put_all(&text, ", after ");
    put_number(&text, used);
    put_all(&text, used == 1 ? " unit" : " units");
    *count = text.length;
    return WASMLOOP_OK;
}

/* How a run ended, in words; NULL if the numbers have none. */
static const char *how_it_ended(uint32_t ending, uint32_t trap) {
    static const char *const hows[] = { "returned", NULL, "call-depth limit exceeded", "out of fuel" };
    return ending == WASMLOOP_TRAP ? wasmloop_trap_name(trap) : NAME_OF(hows, ending);
}

int wasmloop_ended_text(uint32_t ending, uint32_t trap, uint64_t used, char *into, size_t room, uint64_t *count) {
    return put_ended(how_it_ended(ending, trap), used, into, room, count);
}

int wasmloop_outcome_text(uint32_t outcome, uint32_t value, uint64_t used, char *into, size_t room, uint64_t *count) {
    const char *how = outcome == WASMLOOP_NOT_RUN ? "not over yet" : outcome == WASMLOOP_WORK_MEMORY ? "an allocation failed"
        : how_it_ended(outcome - WASMLOOP_WORK_DONE, value);
    return put_ended(how, used, into, room, count);
}
