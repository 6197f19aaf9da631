/* The public names: each tests its pointers for NULL and calls the proved function of the same name.
 *
 * The proofs have each call's handles to themselves. What takes a const wasmloop_handle gives the proved function a copy of the handle's two
 * words, in which it takes out what the handle has and puts it back: so the handle itself is not written, and several threads may
 * read one module at once. That what they share is only read, but for atomic counts, is how the functions are written and what
 * threads_test.c shows under ThreadSanitizer and Helgrind; it is not proved. */
#include "wasmloop.h"

uint32_t wasmloop_rt_load(const uint8_t *, size_t, wasmloop_handle *, wasmloop_fault *);
uint32_t wasmloop_rt_load_told(const uint8_t *, size_t, wasmloop_handle *, wasmloop_fault *, char *, size_t, uint64_t *);
uint32_t wasmloop_rt_kind(wasmloop_handle *, uint32_t *);
uint32_t wasmloop_rt_held(wasmloop_handle *, uint64_t *);
uint32_t wasmloop_rt_loop(wasmloop_handle *, const wasmloop_limits *, wasmloop_handle *);
uint32_t wasmloop_rt_drop(wasmloop_handle *);
uint32_t wasmloop_rt_step(wasmloop_handle *, wasmloop_did *);
uint32_t wasmloop_rt_step_for(wasmloop_handle *, uint64_t, uint32_t *, wasmloop_did *);
uint32_t wasmloop_rt_turn(wasmloop_handle *, uint32_t, wasmloop_turned *);
uint32_t wasmloop_rt_turn_for(wasmloop_handle *, uint32_t, uint64_t, uint32_t *, wasmloop_turned *);
uint32_t wasmloop_rt_emits(wasmloop_handle *, int64_t *, size_t, uint32_t *);
uint32_t wasmloop_rt_clock(wasmloop_handle *, uint64_t, uint64_t *);
uint32_t wasmloop_rt_hint(wasmloop_handle *, uint64_t *);
uint32_t wasmloop_rt_async_send(wasmloop_handle *, uint32_t);
uint32_t wasmloop_rt_cancel(wasmloop_handle *, uint32_t, int32_t *);
uint32_t wasmloop_rt_request(wasmloop_handle *, uint32_t, const uint8_t *, size_t, int32_t *);
uint32_t wasmloop_rt_standing(wasmloop_handle *, wasmloop_standing *);
uint32_t wasmloop_rt_next_job(wasmloop_handle *, wasmloop_handle *);
uint32_t wasmloop_rt_job_run(wasmloop_handle *);
uint32_t wasmloop_rt_job_run_for(wasmloop_handle *, uint64_t, uint32_t *);
uint32_t wasmloop_rt_job_about(wasmloop_handle *, wasmloop_about *);
uint32_t wasmloop_rt_accept(wasmloop_handle *, wasmloop_handle *);

uint32_t wasmloop_rt_share(wasmloop_handle *, wasmloop_handle *);
uint32_t wasmloop_rt_shape(wasmloop_handle *, wasmloop_shape *);
uint32_t wasmloop_rt_explain(const uint8_t *, size_t, char *, size_t, uint64_t *);
uint32_t wasmloop_rt_stop(wasmloop_handle *, wasmloop_site *, size_t, uint64_t *);
uint32_t wasmloop_rt_stop_places(wasmloop_handle *, wasmloop_place *, size_t, uint64_t *);
uint32_t wasmloop_rt_stop_told(const uint8_t *, size_t, wasmloop_handle *, char *, size_t, uint64_t *);
uint32_t wasmloop_rt_stop_text(wasmloop_handle *, char *, size_t, uint64_t *);
uint32_t wasmloop_rt_warning(wasmloop_handle *, uint32_t, char *, size_t, uint64_t *);
uint32_t wasmloop_rt_job_new(wasmloop_handle *, const wasmloop_task *, const uint8_t *, size_t, wasmloop_handle *);
uint32_t wasmloop_rt_job_start(wasmloop_handle *, wasmloop_handle *);
uint32_t wasmloop_rt_job_input(wasmloop_handle *, uint8_t *, size_t, uint64_t *);
uint32_t wasmloop_rt_job_reply(wasmloop_handle *, uint8_t *, size_t, uint64_t *);
uint32_t wasmloop_rt_function(wasmloop_handle *, const uint8_t *, size_t, wasmloop_type *);
uint32_t wasmloop_rt_instance(wasmloop_handle *, const wasmloop_call_limits *, wasmloop_handle *, wasmloop_ended *);
uint32_t wasmloop_rt_call(wasmloop_handle *, const uint8_t *, size_t, const uint64_t *, size_t, const wasmloop_call_limits *, wasmloop_ended *);
uint32_t wasmloop_rt_export_number(wasmloop_handle *, const uint8_t *, size_t, uint64_t *);
uint32_t wasmloop_rt_call_at(wasmloop_handle *, uint64_t, const uint64_t *, size_t, const wasmloop_call_limits *, wasmloop_ended *);
uint32_t wasmloop_rt_call_begin(wasmloop_handle *, const uint8_t *, size_t, const uint64_t *, size_t, const wasmloop_call_limits *);
uint32_t wasmloop_rt_call_run_for(wasmloop_handle *, uint64_t, uint32_t *, wasmloop_ended *);
uint32_t wasmloop_rt_call_for(wasmloop_handle *, uint64_t, const uint64_t *, size_t, const wasmloop_call_limits *, uint64_t, uint32_t *, wasmloop_ended *);
uint32_t wasmloop_rt_call_end(wasmloop_handle *, wasmloop_ended *);
uint32_t wasmloop_rt_call_bytes(wasmloop_handle *, uint64_t, const uint64_t *, size_t, const uint8_t *, size_t, const wasmloop_call_limits *,
    wasmloop_ended *);
uint32_t wasmloop_rt_view(wasmloop_handle *, const uint8_t **, uint64_t *);
uint32_t wasmloop_rt_export_at(wasmloop_handle *, uint64_t, char *, size_t, wasmloop_listed *, wasmloop_type *);
uint32_t wasmloop_rt_read(wasmloop_handle *, uint32_t, uint8_t *, size_t);
uint32_t wasmloop_rt_write(wasmloop_handle *, uint32_t, const uint8_t *, size_t);
uint32_t wasmloop_rt_size(wasmloop_handle *, uint64_t *);
uint32_t wasmloop_rt_global(wasmloop_handle *, const uint8_t *, size_t, wasmloop_number *);

uint32_t wasmloop_rt_job_view(wasmloop_handle *, const uint8_t **, uint64_t *);

/* a slice needs an address even where it has no elements */
static uint64_t nothing;

/* (volatile, so that no compiler makes a call of strlen of it: the library asks for malloc and the like alone) */
static size_t length_of(const volatile char *name) {
    size_t length = 0;
    while (name[length]) length++;
    return length;
}

/* A module has 2^20 bytes at most. Of more, one byte tells as much as all: they are refused, and not copied before. */
static size_t looked_at(size_t length) { return length > ((size_t)1 << 20) ? ((size_t)1 << 20) + 1 : length; }

int wasmloop_load(const uint8_t *bytes, size_t length, wasmloop_handle *module, wasmloop_fault *fault) {
    if (!module || !fault || (!bytes && length)) return WASMLOOP_NULL;
    if (length > PTRDIFF_MAX) return WASMLOOP_RANGE;
    return (int)wasmloop_rt_load(length ? bytes : (const uint8_t *)&nothing, looked_at(length), module, fault);
}

int wasmloop_load_told(const uint8_t *bytes, size_t length, wasmloop_handle *module, wasmloop_fault *fault, char *into, size_t room, uint64_t *count) {
    if (!module || !fault || !count || (!bytes && length) || (!into && room)) return WASMLOOP_NULL;
    if (length > PTRDIFF_MAX || room > PTRDIFF_MAX) return WASMLOOP_RANGE;
    return (int)wasmloop_rt_load_told(length ? bytes : (const uint8_t *)&nothing, looked_at(length), module, fault, room ? into : (char *)&nothing, room,
        count);
}

int wasmloop_kind(const wasmloop_handle *handle, uint32_t *kind) {
    if (!handle || !kind) return WASMLOOP_NULL;
    wasmloop_handle shared = *handle;
    return (int)wasmloop_rt_kind(&shared, kind);
}

int wasmloop_held(const wasmloop_handle *handle, uint64_t *bytes) {
    if (!handle || !bytes) return WASMLOOP_NULL;
    wasmloop_handle shared = *handle;
    return (int)wasmloop_rt_held(&shared, bytes);
}

int wasmloop_loop(const wasmloop_handle *module, const wasmloop_limits *limits, wasmloop_handle *loop) {
    if (!module || !limits || !loop) return WASMLOOP_NULL;
    if (module == loop) return WASMLOOP_KIND;
    wasmloop_handle shared = *module;
    return (int)wasmloop_rt_loop(&shared, limits, loop);
}

int wasmloop_drop(wasmloop_handle *handle) { return handle ? (int)wasmloop_rt_drop(handle) : WASMLOOP_NULL; }

int wasmloop_step(wasmloop_handle *loop, wasmloop_did *did) {
    return loop && did ? (int)wasmloop_rt_step(loop, did) : WASMLOOP_NULL;
}

int wasmloop_step_for(wasmloop_handle *loop, uint64_t units, uint32_t *over, wasmloop_did *did) {
    return loop && over && did ? (int)wasmloop_rt_step_for(loop, units, over, did) : WASMLOOP_NULL;
}

int wasmloop_turn(wasmloop_handle *loop, uint32_t most_callbacks, wasmloop_turned *told) {
    return loop && told ? (int)wasmloop_rt_turn(loop, most_callbacks, told) : WASMLOOP_NULL;
}

int wasmloop_turn_for(wasmloop_handle *loop, uint32_t most_callbacks, uint64_t units, uint32_t *over, wasmloop_turned *told) {
    return loop && over && told ? (int)wasmloop_rt_turn_for(loop, most_callbacks, units, over, told) : WASMLOOP_NULL;
}

int wasmloop_emits(wasmloop_handle *loop, int64_t *into, size_t room, uint32_t *count) {
    if (!loop || !count || (!into && room)) return WASMLOOP_NULL;
    if (room > PTRDIFF_MAX / sizeof *into) return WASMLOOP_RANGE;
    return (int)wasmloop_rt_emits(loop, room ? into : (int64_t *)&nothing, room, count);
}

int wasmloop_clock(wasmloop_handle *loop, uint64_t ms, uint64_t *now) {
    return loop && now ? (int)wasmloop_rt_clock(loop, ms, now) : WASMLOOP_NULL;
}

int wasmloop_hint(wasmloop_handle *loop, uint64_t *ms) {
    return loop && ms ? (int)wasmloop_rt_hint(loop, ms) : WASMLOOP_NULL;
}

int wasmloop_async_send(wasmloop_handle *loop, uint32_t number) {
    return loop ? (int)wasmloop_rt_async_send(loop, number) : WASMLOOP_NULL;
}

int wasmloop_cancel(wasmloop_handle *loop, uint32_t request, int32_t *answer) {
    return loop && answer ? (int)wasmloop_rt_cancel(loop, request, answer) : WASMLOOP_NULL;
}

int wasmloop_request(wasmloop_handle *loop, uint32_t op, const uint8_t *bytes, size_t length, int32_t *answer) {
    if (!loop || !answer || (!bytes && length)) return WASMLOOP_NULL;
    if (length > PTRDIFF_MAX) return WASMLOOP_RANGE;
    return (int)wasmloop_rt_request(loop, op, length ? bytes : (const uint8_t *)&nothing, length, answer);
}

int wasmloop_standing_of(wasmloop_handle *loop, wasmloop_standing *standing) {
    return loop && standing ? (int)wasmloop_rt_standing(loop, standing) : WASMLOOP_NULL;
}

int wasmloop_next_job(wasmloop_handle *loop, wasmloop_handle *job) {
    if (!loop || !job) return WASMLOOP_NULL;
    return loop == job ? WASMLOOP_KIND : (int)wasmloop_rt_next_job(loop, job);
}

int wasmloop_job_run(wasmloop_handle *job) { return job ? (int)wasmloop_rt_job_run(job) : WASMLOOP_NULL; }

int wasmloop_job_run_for(wasmloop_handle *job, uint64_t units, uint32_t *over) {
    return job && over ? (int)wasmloop_rt_job_run_for(job, units, over) : WASMLOOP_NULL;
}

int wasmloop_job_about(wasmloop_handle *job, wasmloop_about *about) {
    return job && about ? (int)wasmloop_rt_job_about(job, about) : WASMLOOP_NULL;
}

int wasmloop_accept(wasmloop_handle *loop, wasmloop_handle *job) {
    if (!loop || !job) return WASMLOOP_NULL;
    return loop == job ? WASMLOOP_KIND : (int)wasmloop_rt_accept(loop, job);
}

int wasmloop_share(const wasmloop_handle *module, wasmloop_handle *other) {
    if (!module || !other) return WASMLOOP_NULL;
    if (module == other) return WASMLOOP_KIND;
    wasmloop_handle shared = *module;
    return (int)wasmloop_rt_share(&shared, other);
}

int wasmloop_shape_of(const wasmloop_handle *module, wasmloop_shape *shape) {
    if (!module || !shape) return WASMLOOP_NULL;
    wasmloop_handle shared = *module;
    return (int)wasmloop_rt_shape(&shared, shape);
}

int wasmloop_explain(const uint8_t *bytes, size_t length, char *into, size_t room, uint64_t *count) {
    if (!count || (!bytes && length) || (!into && room)) return WASMLOOP_NULL;
    if (length > PTRDIFF_MAX || room > PTRDIFF_MAX) return WASMLOOP_RANGE;
    return (int)wasmloop_rt_explain(length ? bytes : (const uint8_t *)&nothing, looked_at(length), room ? into : (char *)&nothing, room, count);
}

int wasmloop_stop(wasmloop_handle *handle, wasmloop_site *into, size_t room, uint64_t *count) {
    if (!handle || !count || (!into && room)) return WASMLOOP_NULL;
    if (room > PTRDIFF_MAX / sizeof *into) return WASMLOOP_RANGE;
    return (int)wasmloop_rt_stop(handle, room ? into : (wasmloop_site *)&nothing, room, count);
}

int wasmloop_stop_places(wasmloop_handle *handle, wasmloop_place *into, size_t room, uint64_t *count) {
    if (!handle || !count || (!into && room)) return WASMLOOP_NULL;
    if (room > PTRDIFF_MAX / sizeof *into) return WASMLOOP_RANGE;
    return (int)wasmloop_rt_stop_places(handle, room ? into : (wasmloop_place *)&nothing, room, count);
}

int wasmloop_stop_told(const uint8_t *bytes, size_t length, wasmloop_handle *handle, char *into, size_t room, uint64_t *count) {
    if (!handle || !count || (!bytes && length) || (!into && room)) return WASMLOOP_NULL;
    if (length > PTRDIFF_MAX || room > PTRDIFF_MAX) return WASMLOOP_RANGE;
    if (!bytes) return (int)wasmloop_rt_stop_text(handle, room ? into : (char *)&nothing, room, count);
    return (int)wasmloop_rt_stop_told(length ? bytes : (const uint8_t *)&nothing, length, handle, room ? into : (char *)&nothing, room, count);
}

int wasmloop_warning(const wasmloop_handle *module, uint32_t number, char *into, size_t room, uint64_t *count) {
    if (!module || !count || (!into && room)) return WASMLOOP_NULL;
    if (room > PTRDIFF_MAX) return WASMLOOP_RANGE;
    wasmloop_handle shared = *module;
    return (int)wasmloop_rt_warning(&shared, number, room ? into : (char *)&nothing, room, count);
}

int wasmloop_job_new(const wasmloop_handle *module, const wasmloop_task *task, const uint8_t *bytes, size_t length, wasmloop_handle *job) {
    if (!module || !task || !job || (!bytes && length)) return WASMLOOP_NULL;
    if (module == job) return WASMLOOP_KIND;
    if (length > PTRDIFF_MAX) return WASMLOOP_RANGE;
    wasmloop_handle shared = *module;
    return (int)wasmloop_rt_job_new(&shared, task, length ? bytes : (const uint8_t *)&nothing, length, job);
}

int wasmloop_work(const wasmloop_handle *module, const wasmloop_task *task, const uint8_t *bytes, size_t length, wasmloop_handle *job) {
    int told = wasmloop_job_new(module, task, bytes, length, job);
    return told == WASMLOOP_OK ? (int)wasmloop_rt_job_run(job) : told;
}

int wasmloop_job_start(wasmloop_handle *loop, wasmloop_handle *job) {
    if (!loop || !job) return WASMLOOP_NULL;
    return loop == job ? WASMLOOP_KIND : (int)wasmloop_rt_job_start(loop, job);
}

int wasmloop_job_input(wasmloop_handle *job, uint8_t *into, size_t room, uint64_t *count) {
    if (!job || !count || (!into && room)) return WASMLOOP_NULL;
    if (room > PTRDIFF_MAX) return WASMLOOP_RANGE;
    return (int)wasmloop_rt_job_input(job, room ? into : (uint8_t *)&nothing, room, count);
}

int wasmloop_job_reply(wasmloop_handle *job, uint8_t *into, size_t room, uint64_t *count) {
    if (!job || !count || (!into && room)) return WASMLOOP_NULL;
    if (room > PTRDIFF_MAX) return WASMLOOP_RANGE;
    return (int)wasmloop_rt_job_reply(job, room ? into : (uint8_t *)&nothing, room, count);
}

int wasmloop_job_view(wasmloop_handle *job, const uint8_t **bytes, uint64_t *count) {
    return job && bytes && count ? (int)wasmloop_rt_job_view(job, bytes, count) : WASMLOOP_NULL;
}

int wasmloop_function(const wasmloop_handle *module, const char *name, wasmloop_type *type) {
    if (!module || !name || !type) return WASMLOOP_NULL;
    wasmloop_handle shared = *module;
    return (int)wasmloop_rt_function(&shared, (const uint8_t *)name, length_of(name), type);
}

int wasmloop_export_number(const wasmloop_handle *module, const char *name, uint64_t *number) {
    if (!module || !name || !number) return WASMLOOP_NULL;
    wasmloop_handle shared = *module;
    return (int)wasmloop_rt_export_number(&shared, (const uint8_t *)name, length_of(name), number);
}

int wasmloop_export_at(const wasmloop_handle *module, uint64_t number, char *name, size_t room, wasmloop_listed *listed, wasmloop_type *type) {
    if (!module || (!name && room) || !listed || !type) return WASMLOOP_NULL;
    if (room > PTRDIFF_MAX) return WASMLOOP_RANGE;
    wasmloop_handle shared = *module;
    return (int)wasmloop_rt_export_at(&shared, number, room ? name : (char *)&nothing, room, listed, type);
}

int wasmloop_instance(const wasmloop_handle *module, const wasmloop_call_limits *limits, wasmloop_handle *instance, wasmloop_ended *ended) {
    if (!module || !limits || !instance || !ended) return WASMLOOP_NULL;
    if (module == instance) return WASMLOOP_KIND;
    wasmloop_handle shared = *module;
    return (int)wasmloop_rt_instance(&shared, limits, instance, ended);
}

int wasmloop_call(wasmloop_handle *instance, const char *name, const uint64_t *arguments, size_t count, const wasmloop_call_limits *limits,
    wasmloop_ended *ended) {
    if (!instance || !name || !limits || !ended || (!arguments && count)) return WASMLOOP_NULL;
    if (count > PTRDIFF_MAX / sizeof *arguments) return WASMLOOP_RANGE;
    return (int)wasmloop_rt_call(instance, (const uint8_t *)name, length_of(name), count ? arguments : &nothing, count, limits, ended);
}

int wasmloop_call_at(wasmloop_handle *instance, uint64_t number, const uint64_t *arguments, size_t count, const wasmloop_call_limits *limits,
    wasmloop_ended *ended) {
    if (!instance || !limits || !ended || (!arguments && count)) return WASMLOOP_NULL;
    if (count > PTRDIFF_MAX / sizeof *arguments) return WASMLOOP_RANGE;
    return (int)wasmloop_rt_call_at(instance, number, count ? arguments : &nothing, count, limits, ended);
}

int wasmloop_call_begin(wasmloop_handle *instance, const char *name, const uint64_t *arguments, size_t count, const wasmloop_call_limits *limits) {
    if (!instance || !name || !limits || (!arguments && count)) return WASMLOOP_NULL;
    if (count > PTRDIFF_MAX / sizeof *arguments) return WASMLOOP_RANGE;
    return (int)wasmloop_rt_call_begin(instance, (const uint8_t *)name, length_of(name), count ? arguments : &nothing, count, limits);
}

int wasmloop_call_run_for(wasmloop_handle *instance, uint64_t units, uint32_t *over, wasmloop_ended *ended) {
    return instance && over && ended ? (int)wasmloop_rt_call_run_for(instance, units, over, ended) : WASMLOOP_NULL;
}

int wasmloop_call_for(wasmloop_handle *instance, uint64_t number, const uint64_t *arguments, size_t count, const wasmloop_call_limits *limits,
    uint64_t units, uint32_t *over, wasmloop_ended *ended) {
    if (!instance || !limits || !over || !ended || (!arguments && count)) return WASMLOOP_NULL;
    if (count > PTRDIFF_MAX / sizeof *arguments) return WASMLOOP_RANGE;
    return (int)wasmloop_rt_call_for(instance, number, count ? arguments : &nothing, count, limits, units, over, ended);
}

int wasmloop_call_end(wasmloop_handle *instance, wasmloop_ended *ended) {
    return instance && ended ? (int)wasmloop_rt_call_end(instance, ended) : WASMLOOP_NULL;
}

int wasmloop_call_bytes(wasmloop_handle *instance, uint64_t number, const uint64_t *arguments, size_t count, const uint8_t *bytes, size_t length,
    const wasmloop_call_limits *limits, wasmloop_ended *ended) {
    if (!instance || !limits || !ended || (!arguments && count) || (!bytes && length)) return WASMLOOP_NULL;
    if (count > PTRDIFF_MAX / sizeof *arguments || length > PTRDIFF_MAX) return WASMLOOP_RANGE;
    return (int)wasmloop_rt_call_bytes(instance, number, count ? arguments : &nothing, count, length ? bytes : (const uint8_t *)&nothing, length, limits,
        ended);
}

int wasmloop_view(wasmloop_handle *instance, const uint8_t **bytes, uint64_t *count) {
    return instance && bytes && count ? (int)wasmloop_rt_view(instance, bytes, count) : WASMLOOP_NULL;
}

int wasmloop_size(wasmloop_handle *handle, uint64_t *bytes) {
    return handle && bytes ? (int)wasmloop_rt_size(handle, bytes) : WASMLOOP_NULL;
}

int wasmloop_read(wasmloop_handle *handle, uint32_t at, uint8_t *into, size_t length) {
    if (!handle || (!into && length)) return WASMLOOP_NULL;
    if (length > PTRDIFF_MAX) return WASMLOOP_RANGE;
    return (int)wasmloop_rt_read(handle, at, length ? into : (uint8_t *)&nothing, length);
}

int wasmloop_write(wasmloop_handle *instance, uint32_t at, const uint8_t *from, size_t length) {
    if (!instance || (!from && length)) return WASMLOOP_NULL;
    if (length > PTRDIFF_MAX) return WASMLOOP_RANGE;
    return (int)wasmloop_rt_write(instance, at, length ? from : (const uint8_t *)&nothing, length);
}

int wasmloop_global(wasmloop_handle *handle, const char *name, wasmloop_number *value) {
    return handle && name && value ? (int)wasmloop_rt_global(handle, (const uint8_t *)name, length_of(name), value) : WASMLOOP_NULL;
}
