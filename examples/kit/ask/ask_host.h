/* The host's half of questions, over wasmloop.h: begin a call, and answer its questions one by one, each when you like.
 *
 *     ask_call call = { .plugin = &plugin, .name = "total", .args = args, .count = 1, .limits = { 1000000, 64, 0 } };
 *     int status = ask_begin(&call);
 *     while (status == WASMLOOP_OK && call.waits) {
 *         size_t known = call.length < sizeof bytes ? call.length : sizeof bytes;     (the plug-in chooses the length)
 *         wasmloop_read(&plugin, call.question, bytes, known);
 *         status = ask_go_on(&call, answer, length);
 *     }
 *
 * If the status is OK and no question waits, the call is over: call.ended says how. After any other end than a return, drop the instance: it
 * stands in the middle of the call. `plugin`, `name` and `args` stay in place until the call is over; meanwhile the instance may be called for
 * functions that do not ask, and moved to another thread.
 */
#ifndef ASK_HOST_H
#define ASK_HOST_H

#include "wasmloop.h"

/* The guest's `ask` returns it where the host has no answer. */
#define ASK_NONE (-2)

typedef struct ask_call {
    wasmloop_handle *plugin;
    const char *name;
    const uint64_t *args;
    size_t count;
    wasmloop_call_limits limits; /* the fuel that is left, for the whole call */
    wasmloop_ended ended;
    uint32_t waits;              /* 1: a question waits; its address and its length, and where the answer goes */
    uint32_t question, length, answer, room;
} ask_call;

/* One call of the instance, with the fuel that is left. */
static inline int ask_part(ask_call *it, const char *name, const uint64_t *args, size_t count, wasmloop_ended *ended)
{
    int status = wasmloop_call(it->plugin, name, args, count, &it->limits, ended);
    if (status == WASMLOOP_OK)
        it->limits.fuel -= ended->used;
    return status;
}

/* Reads where the question and its answer are: four numbers at an address of the guest. */
static inline int ask_read(ask_call *it, uint32_t at)
{
    uint8_t raw[16];
    uint32_t *fields[] = { &it->question, &it->length, &it->answer, &it->room };
    int status = wasmloop_read(it->plugin, at, raw, sizeof raw);
    for (size_t i = 0; status == WASMLOOP_OK && i < 4; i++)
        *fields[i] = raw[4 * i] | raw[4 * i + 1] << 8 | raw[4 * i + 2] << 16 | (uint32_t)raw[4 * i + 3] << 24;
    return status;
}

/* Begins the call, or goes on with it, up to its next question or its end. */
static inline int ask_begin(ask_call *it)
{
    wasmloop_ended next;
    it->waits = 0;
    int status = ask_part(it, it->name, it->args, it->count, &it->ended);
    if (status != WASMLOOP_OK || it->ended.ending != WASMLOOP_RETURN)
        return status;
    status = ask_part(it, "ask_next", NULL, 0, &next);
    if (status != WASMLOOP_OK || next.ending != WASMLOOP_RETURN) {
        it->ended = next;
        return status;
    }
    it->waits = next.result[0] != 0;
    return it->waits ? ask_read(it, (uint32_t)next.result[0]) : WASMLOOP_OK;
}

/* Answers the question with `length` bytes, of which the guest gets as many as it has room for; or with a negative number and no bytes. */
static inline int ask_go_on(ask_call *it, const uint8_t *answer, int32_t length)
{
    uint64_t told = (uint32_t)length;
    size_t held = length < 0 ? 0 : (uint32_t)length < it->room ? (size_t)length : it->room;
    int status = wasmloop_write(it->plugin, it->answer, answer, held);
    if (status == WASMLOOP_OK)
        status = ask_part(it, "ask_answer", &told, 1, &it->ended);
    if (status != WASMLOOP_OK || it->ended.ending != WASMLOOP_RETURN) {
        it->waits = 0;
        return status;
    }
    return it->ended.result[0] ? WASMLOOP_KIND : ask_begin(it);
}
#endif
