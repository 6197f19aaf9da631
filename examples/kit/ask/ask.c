/* The guest's half of questions: ask.h documents it, README.md the calls of the host. */
#include "ask.h"

/* The bytes for the locals of the calls that wait. If they do not suffice, the function that asks traps: unreachable. */
#ifndef ASK_STACK
#define ASK_STACK 4096
#endif

#define ASYNCIFY(name) __attribute__((import_module("asyncify"), import_name(#name)))
#define EXPORT(name) __attribute__((export_name(#name)))

ASYNCIFY(start_unwind) void start_unwind(void *kept);
ASYNCIFY(stop_unwind) void stop_unwind(void);
ASYNCIFY(start_rewind) void start_rewind(void *kept);
ASYNCIFY(stop_rewind) void stop_rewind(void);

/* As the host reads it. */
typedef struct question {
    const void *bytes;
    uint32_t length;
    void *answer;
    uint32_t room;
} question;

static enum { IDLE, ASKED, WAITING, ANSWERED } state;
static question now;
static int32_t answered;

/* Asyncify's stack, which it fills from `at`. */
static char stack[ASK_STACK];
static struct { char *at, *end; } kept = { stack, stack + sizeof stack };

__attribute__((noinline)) int32_t ask(const void *bytes, uint32_t length, void *answer, uint32_t room)
{
    if (state == ANSWERED) {
        stop_rewind();
        state = IDLE;
        return answered;
    }
    if (state != IDLE)
        return ASK_BUSY;
    now = (question){ bytes, length, answer, room };
    kept.at = stack;
    state = ASKED;
    start_unwind(&kept);
    return 0;
}

/* After each call: the question, if one waits; else NULL, and the call has returned. */
EXPORT(ask_next) const question *ask_next(void)
{
    if (state == ASKED) {
        stop_unwind();
        state = WAITING;
    }
    return state == WAITING ? &now : 0;
}

/* The answer is written, and the same function is called next. Returns 0, or -1 if no question waits. */
EXPORT(ask_answer) int32_t ask_answer(int32_t length)
{
    if (state != WAITING)
        return -1;
    answered = length;
    state = ANSWERED;
    start_rewind(&kept);
    return 0;
}
