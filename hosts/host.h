/* What the hosts of this folder share: calls in slices that the host can end, and why a module is rejected and why and where a guest stopped, as one
 * line of printable ASCII. The names of a guest's functions are its own, so they are not trusted to be fit for a log, a protocol or an encoding. Header
 * only; C99. */
#ifndef HOST_H
#define HOST_H
#include <stdio.h>
#include <string.h>
#include "wasmloop.h"

/* Units between two looks at what may end a call, or of a start function, which runs at once: a millisecond or two. A job may copy 64 bytes a unit. */
#define HOST_SLICE 1000000
#define HOST_JOB_SLICE 100000

/* Makes a line of what the library wrote, `count` bytes of which `room` - 1 are there, and returns its length. */
static inline size_t host_line(char *text, size_t room, uint64_t count)
{
    size_t n = count < room ? (size_t)count : room - 1;
    for (size_t i = 0; i < n; i++)
        if ((unsigned char)text[i] < ' ' || (unsigned char)text[i] > '~') text[i] = '?';
    text[n] = 0;
    return n;
}

/* Loads a module. If that fails, `why` says why (`room` at least 1). */
static inline int host_load(const void *bytes, size_t length, wasmloop_handle *module, char *why, size_t room)
{
    wasmloop_fault fault;
    uint64_t n = 0;
    int status = wasmloop_load_told((const uint8_t *)bytes, length, module, &fault, why, room - 1, &n);
    if (status == WASMLOOP_OK || status == WASMLOOP_REFUSED) host_line(why, room, n);
    else snprintf(why, room, "%s", wasmloop_status_text(status));
    return status;
}

/* Makes an instance for calls with these limits. Its start function has no more than a slice. */
static inline int host_instance(const wasmloop_handle *module, wasmloop_call_limits limits, wasmloop_handle *instance, wasmloop_ended *ended)
{
    if (limits.fuel > HOST_SLICE) limits.fuel = HOST_SLICE;
    return wasmloop_instance(module, &limits, instance, ended);
}

/* Calls an export in slices. Between two it asks whether the host ends the call: then *over is 0, *ended has the fuel that it has used, and the instance
 * keeps its state. A call that is over in its first slice asks nothing; one that has no more fuel is made at once, which costs a third less. */
static inline int host_call(wasmloop_handle *instance, uint64_t number, const uint64_t *args, size_t count, const wasmloop_call_limits *limits,
    int (*ends)(void *), void *data, uint32_t *over, wasmloop_ended *ended)
{
    int at_once = limits->fuel <= HOST_SLICE, status = at_once ? wasmloop_call_at(instance, number, args, count, limits, ended)
        : wasmloop_call_for(instance, number, args, count, limits, HOST_SLICE, over, ended);
    if (at_once) *over = 1;
    while (status == WASMLOOP_OK && !*over) {
        if (ends(data)) return wasmloop_call_end(instance, ended);
        status = wasmloop_call_run_for(instance, HOST_SLICE, over, ended);
    }
    return status;
}

/* Appends where a run stopped to `at` bytes of text, if it is known. */
static inline size_t host_place(wasmloop_handle *of, char *into, size_t room, uint64_t at)
{
    uint64_t n = 0;
    if (at + 3 > room || wasmloop_stop_told(NULL, 0, of, into + at + 2, room - 3 - (size_t)at, &n) != WASMLOOP_OK) return host_line(into, room, at);
    memcpy(into + at, ", ", 2);
    return host_line(into, room, at + 2 + n);
}

/* "out of fuel, after 1,000,000 units, in function 7 (spin), instruction 0 (loop) at byte 358": how a call ended that did not return. */
static inline size_t host_ended(wasmloop_handle *of, const wasmloop_ended *ended, char *into, size_t room)
{
    uint64_t n = 0;
    if (wasmloop_ended_text(ended->ending, ended->trap, ended->used, into, room - 1, &n) != WASMLOOP_OK) n = 0;
    return host_place(of, into, room, n);
}

/* The same of a job, which may be paused: `late` is then what ended it, as "deadline". */
static inline size_t host_job_ended(wasmloop_handle *job, const char *late, char *into, size_t room)
{
    wasmloop_about about;
    char text[120];
    uint64_t n = 0;
    if (wasmloop_job_about(job, &about) != WASMLOOP_OK || wasmloop_outcome_text(about.outcome, about.value, about.used, text, sizeof text - 1, &n) != WASMLOOP_OK) n = 0;
    text[n < sizeof text ? n : sizeof text - 1] = 0;
    snprintf(into, room, "%s%s", late ? late : "", late ? text + strcspn(text, ",") : text);
    return host_place(job, into, room, strlen(into));
}
#endif
