/* wasmloop.h: run untrusted WebAssembly modules inside your own program.
 *
 * A guest is a WebAssembly module that imports functions of "uv", or none. Load it once, then run it in one of three ways:
 *
 *     job        runs uv_work once, on a fresh instance: bytes in, bytes out; in any thread
 *     instance   calls any export, and keeps its memory between calls; input bytes by wasmloop_call_bytes; no timers
 *     loop       runs callbacks: timers, idles, checks, asyncs and completed work requests
 *
 *     wasmloop_handle module = WASMLOOP_HANDLE_INIT, job = WASMLOOP_HANDLE_INIT;
 *     wasmloop_task task = { 1000000, 0, 64 };
 *     if (wasmloop_load(bytes, length, &module, &fault) == WASMLOOP_OK
 *         && wasmloop_work(&module, &task, input, input_length, &job) == WASMLOOP_OK
 *         && wasmloop_job_about(&job, &about) == WASMLOOP_OK && about.outcome == WASMLOOP_WORK_DONE)
 *         printf("%d\n", (int)(int32_t)about.value);
 *
 * Calls never block, start a thread, print or end the process. Each returns a status. WASMLOOP_OK means that the call was made, not that
 * the guest succeeded: check about.outcome, ended.ending or did.ending too.
 *
 * Handles. A handle is a struct in your own memory; zeroed memory is an empty handle. Calls that create an object (load, share, loop,
 * next_job, job_new, work, instance) require an empty handle and fill it. wasmloop_drop releases the object and empties the handle. Your
 * duties: do not write into a handle; you may move one, but do not use two copies; drop each handle that is not empty; and give each
 * pointer enough space for what is written there, overlapping no other argument. A copy of a handle whose object was dropped or accepted is
 * a dangling pointer, as one after free: Valgrind reports its use, and AddressSanitizer only a second drop.
 *
 * Threads. Handles have no locks. You may pass a handle to another thread, but only one call at a time may use it: synchronise with a
 * mutex, a queue, thread start or join, as uv_queue_work does. Modules are the exception: several threads may make calls that take a const
 * wasmloop_handle on one module at once, as long as none drops it meanwhile. A job and its loop share the module by an atomic reference
 * count, so a job may run beside its loop and beside other jobs. Do not call from a signal handler, and do not longjmp out of a call: that
 * leaks the handle's object, and may leave malloc's lock held. To stop a job sooner, give it less fuel.
 *
 * Memory comes from malloc and free. If an allocation fails, the call returns WASMLOOP_MEMORY and has no effect, with two exceptions, which
 * return WASMLOOP_OK: a job that runs out of memory is over with the outcome WASMLOOP_WORK_MEMORY, and wasmloop_request sets *answer to -12,
 * as queue_work does for the guest.
 *
 * Stack: each call uses at most 18 KiB, whatever the guest's depth and nesting, and wasmloop_step_for and wasmloop_turn_for at most 40 KiB; 16 and
 * 31 KiB were measured.
 *
 * Errors. If several errors apply, a call returns the first in this list:
 *
 *     NULL     a pointer is NULL. `bytes`, `args`, `from` and `into` may be NULL if their length, count or room is 0
 *     KIND     two handle arguments have the same address
 *     RANGE    a length or a capacity (room) is above PTRDIFF_MAX, or an async number is not below 16
 *     KIND     the handle to be filled is not empty
 *     RANGE    another number is out of range
 *     EMPTY    another handle is empty: it was never filled, it was dropped, or its job was accepted
 *     KIND     a handle holds another kind of object, or is in the wrong state
 *     others   as documented for each call. MEMORY may come before each of them
 *
 * Which KIND it is: of a job, wasmloop_job_about says whether it has run, or is paused; an instance returns KIND while a call is in progress, and
 * a loop while a callback is paused; a handle to be filled is empty if it was initialised, or dropped since.
 *
 * A call that does not return WASMLOOP_OK has no effect and writes no output, except as documented for wasmloop_load and wasmloop_instance.
 */
#ifndef WASMLOOP_H
#define WASMLOOP_H

#include <stddef.h>
#include <stdint.h>

/* The version of this header; wasmloop_version returns the library's. */
#define WASMLOOP_VERSION "0.2.0"

#ifdef __cplusplus
extern "C" {
#endif

/* ---- Modules ---- */

/* An owned module, loop, job or instance, or empty. */
typedef struct wasmloop_handle {
    uint64_t mark;
    void *at;
} wasmloop_handle;
#define WASMLOOP_HANDLE_INIT { 0, NULL }

/* Why and where a module was rejected. Fields that do not apply are 0. */
typedef struct wasmloop_fault {
    uint32_t stage;    /* 1 decode, 2 validate, 3 link */
    uint32_t code;     /* the fault's number in its stage, as docs/COMMANDS.md lists them */
    uint32_t place;    /* which fields are set: 0 none, 1 byte, 2 section, 3 function, 4 instruction, 5 import, 6 export */
    uint32_t section;  /* the section's id */
    uint64_t byte;     /* an offset from the start of the module */
    uint64_t function; /* the function's index; imported functions come first */
    uint64_t number;   /* the instruction in its function, from 0; or the import */
} wasmloop_fault;

/* Loads a module of `length` bytes into an empty handle. The bytes are copied; `bytes` may be NULL if `length` is 0. REFUSED: the bytes are
 * not a valid guest, or more than 2^20; *fault says why, and is written in this case only. RANGE: `length` is above PTRDIFF_MAX. */
int wasmloop_load(const uint8_t *bytes, size_t length, wasmloop_handle *module, wasmloop_fault *fault);

/* Writes why bytes are rejected, in the words of `wasmloop check`, to `into`: at most `room` bytes, without a NUL. *count is the length of
 * the whole sentence. NONE: they are not rejected. RANGE: `length` or `room` is above PTRDIFF_MAX. */
int wasmloop_explain(const uint8_t *bytes, size_t length, char *into, size_t room, uint64_t *count);

/* Loads a module as wasmloop_load does, or says why not. REFUSED: it also writes the sentence of wasmloop_explain to `into`: at most `room` bytes,
 * without a NUL, and its whole length to *count; the bytes are not validated again for it. RANGE: `length` or `room` is above PTRDIFF_MAX. */
int wasmloop_load_told(const uint8_t *bytes, size_t length, wasmloop_handle *module, wasmloop_fault *fault, char *into, size_t room, uint64_t *count);

/* Creates a second handle to the same module, for another thread. The module is reference-counted, not copied. */
int wasmloop_share(const wasmloop_handle *module, wasmloop_handle *other);

/* What a module has that a host looks for: 1 if it does. */
typedef struct wasmloop_shape {
    uint32_t main;       /* it exports uv_main: without it a loop runs no callback */
    uint32_t work;       /* it exports uv_work */
    uint32_t after_work; /* it exports uv_after_work */
    uint32_t table;      /* it has a table: without one no callback can be called (link with --export-table) */
    uint32_t pages;      /* the initial size of its memory in pages of 65,536 bytes, at most 64; 0 without a memory */
    uint32_t most_pages; /* the maximum size: the declared one, and at most 64 */
    uint64_t imports;    /* the number of imported functions, which do nothing and return -1 in an instance */
} wasmloop_shape;

/* Writes what a module exports, imports and has to *shape. */
int wasmloop_shape_of(const wasmloop_handle *module, wasmloop_shape *shape);

/* Writes a warning about what a module lacks to run on a loop, in the words of `wasmloop check`, to `into`: at most `room` bytes, without a
 * NUL. *count is the length of the whole sentence. Number 0 is the first warning. NONE: there are no more. A warning changes nothing. RANGE:
 * `room` is above PTRDIFF_MAX. There is a warning if the module
 *     imports a call that takes a callback, and has no table     no callback can be called
 *     exports no uv_main, uv_work or uv_after_work, and no       a loop of it does nothing, and it is no plug-in; names that begin with
 *     function of a plug-in's                                    _ or uv_, and main, are not a plug-in's
 *     imports queue_work, and lacks uv_work or uv_after_work     each request fails with -38 */
int wasmloop_warning(const wasmloop_handle *module, uint32_t number, char *into, size_t room, uint64_t *count);

/* What a handle holds. A job, an instance or a loop that is paused between two slices has WASMLOOP_HOLDS_PAUSED added. */
enum { WASMLOOP_HOLDS_NOTHING, WASMLOOP_HOLDS_MODULE, WASMLOOP_HOLDS_JOB, WASMLOOP_HOLDS_INSTANCE, WASMLOOP_HOLDS_LOOP, WASMLOOP_HOLDS_PAUSED = 16 };

/* Writes what a handle holds to *kind. An instance is paused from the begin of a call to its end. */
int wasmloop_kind(const wasmloop_handle *handle, uint32_t *kind);

/* Writes how many bytes an object has to *bytes. Of a module its own bytes; of a job its input and its reply, for which a paused one has 65,536; of an
 * instance, a loop or a paused job the memory as large as it is now, 8 for each element of the table, 525,320 for the slots and callers of its calls;
 * and an instance's last reply. What is left out: some KiB of small parts, what a module is decoded into, what the requests of a loop have, and the
 * address space up to the memory's maximum size, for which the system gives nothing before the memory grows. */
int wasmloop_held(const wasmloop_handle *handle, uint64_t *bytes);

/* Releases the object of a handle of any kind. EMPTY: there was none. Afterwards you may free or reuse the struct. */
int wasmloop_drop(wasmloop_handle *handle);

/* ---- Jobs: one run of uv_work ---- */

/* What a job runs, and its limits. */
typedef struct wasmloop_task {
    uint64_t fuel;  /* the units of fuel of the start function and uv_work together */
    uint32_t op;    /* the argument of uv_work */
    uint32_t depth; /* the call-depth limit, 1 to 128 */
} wasmloop_task;

/* Runs a module's uv_work in this thread, without a loop. It leaves the completed job in an empty handle; read it with wasmloop_job_about and
 * wasmloop_job_reply. It is wasmloop_job_new followed by wasmloop_job_run. `length` is at most 65,536, and the bytes are copied; `bytes` may be
 * NULL if it is 0. RANGE: the length or the depth is out of range. NO_WORK: the module exports no uv_work. */
int wasmloop_work(const wasmloop_handle *module, const wasmloop_task *task, const uint8_t *bytes, size_t length, wasmloop_handle *job);

/* Creates a job that runs uv_work, in this thread or another. The arguments and the statuses are those of wasmloop_work. */
int wasmloop_job_new(const wasmloop_handle *module, const wasmloop_task *task, const uint8_t *bytes, size_t length, wasmloop_handle *job);

/* Runs a job, in any thread. It touches no other handle. KIND: the job has already run. */
int wasmloop_job_run(wasmloop_handle *job);

/* Runs a slice of a job, in any thread: at most `units` units of fuel, at least 1. Sets *over to 1 if the job is over: its outcome, reply
 * and fuel are those of wasmloop_job_run. Sets *over to 0 if the job is paused: it has fuel left, and may continue, in this thread or another.
 * A slice that pauses uses all its units, or fewer, at least one in 1,025, once in_copy and out_set have copied more than 64 bytes per unit.
 * A paused job may be dropped; wasmloop_job_about reports the fuel that it has used; wasmloop_stop, wasmloop_stop_places and
 * wasmloop_stop_told report where it stands; wasmloop_kind and wasmloop_held answer as ever; every other call on it returns KIND.
 * If an allocation of the first slice fails, the job is over with the outcome WASMLOOP_WORK_MEMORY; the last slice may allocate to shorten the
 * reply, and a failure there has no effect. RANGE: `units` is 0. KIND: the job is over. */
int wasmloop_job_run_for(wasmloop_handle *job, uint64_t units, uint32_t *over);

/* about.outcome */
enum { WASMLOOP_NOT_RUN, WASMLOOP_WORK_DONE, WASMLOOP_WORK_TRAP, WASMLOOP_WORK_DEPTH, WASMLOOP_WORK_SPENT, WASMLOOP_WORK_MEMORY };

/* A job's request, and its outcome. */
typedef struct wasmloop_about {
    uint32_t loop;    /* the number of its loop */
    uint32_t request; /* from 1; 0 for a job without a loop */
    uint32_t slot;    /* below 32 */
    uint32_t op;      /* the argument of uv_work */
    uint32_t outcome; /* NOT_RUN: it is not over. DONE: uv_work returned; DEPTH: it exceeded the call depth; SPENT: out of fuel; MEMORY: an allocation failed */
    uint32_t value;   /* DONE: the result. TRAP: the trap's number */
    uint64_t bytes;   /* the length of its input, at most 65,536 */
    uint64_t reply;   /* DONE: the length of its reply, at most 65,536 */
    uint64_t used;    /* the fuel that the start function and uv_work have used so far, together, at most the job's; 0 before it runs */
} wasmloop_about;

/* Describes a job, before, between or after its slices. A paused job is one that is not over and has used fuel. */
int wasmloop_job_about(wasmloop_handle *job, wasmloop_about *about);

/* Copies a job's input to `into`: at most `room` bytes. *count is the whole length. RANGE: `room` is above PTRDIFF_MAX. */
int wasmloop_job_input(wasmloop_handle *job, uint8_t *into, size_t room, uint64_t *count);

/* Copies a job's reply to `into`: at most `room` bytes. *count is the whole length. NONE: the outcome is not WASMLOOP_WORK_DONE. RANGE: `room` is
 * above PTRDIFF_MAX. */
int wasmloop_job_reply(wasmloop_handle *job, uint8_t *into, size_t room, uint64_t *count);

/* Returns the reply in place, without a copy. The bytes stay readable until the job is dropped or accepted; if *count is 0, do not read
 * *bytes. NONE: as for wasmloop_job_reply. */
int wasmloop_job_view(wasmloop_handle *job, const uint8_t **bytes, uint64_t *count);

/* ---- Instances: calls that share one memory ---- */

/* The type of a function. Each parameter and each result is 1 for i32, 2 for i64; unused entries are 0. */
typedef struct wasmloop_type {
    uint64_t params;  /* the number of parameters, at most 256 */
    uint64_t results; /* the number of results, at most 16 */
    uint8_t param[256];
    uint8_t result[16];
} wasmloop_type;

/* Writes the type of the function exported as `name` to *type. NONE: no function has that name. */
int wasmloop_function(const wasmloop_handle *module, const char *name, wasmloop_type *type);

/* Writes the number of the function exported as `name` to *number, for wasmloop_call_at: exports are counted from 0, in the module's order.
 * NONE: no function has that name. */
int wasmloop_export_number(const wasmloop_handle *module, const char *name, uint64_t *number);

/* An export: how many bytes its name has, and what it is. */
typedef struct wasmloop_listed {
    uint64_t length;
    uint32_t kind; /* 0 a function, 1 a table, 2 a memory, 3 a global */
    uint32_t zero; /* 0 */
} wasmloop_listed;

/* Lists the exports in the module's order, from 0 on: copies the name of export `number`, in UTF-8 and without a NUL, to `name`, at most `room` bytes
 * of it, and writes its length and kind to *listed, and the type of a function to *type. NONE: the module has no more exports. */
int wasmloop_export_at(const wasmloop_handle *module, uint64_t number, char *name, size_t room, wasmloop_listed *listed, wasmloop_type *type);

/* The limits of a call. */
typedef struct wasmloop_call_limits {
    uint64_t fuel;  /* in units */
    uint32_t depth; /* the call-depth limit, 1 to 128 */
    uint32_t zero;
} wasmloop_call_limits;

#define WASMLOOP_RESULTS 16 /* the most results of a function */

/* ended.ending, did.ending */
enum { WASMLOOP_RETURN, WASMLOOP_TRAP, WASMLOOP_DEPTH, WASMLOOP_SPENT };

/* How a call ended. */
typedef struct wasmloop_ended {
    uint32_t ending;  /* RETURN, TRAP, DEPTH: it exceeded the call depth, or SPENT: it ran out of fuel */
    uint32_t trap;    /* TRAP: its number, as in wasmloop_did; else 0 */
    uint64_t results; /* the number of results; 0 unless it returned */
    uint64_t used;    /* the units of fuel used, at most the call's */
    uint64_t result[WASMLOOP_RESULTS]; /* the results, an i32 in the low half; then 0 */
} wasmloop_ended;

/* Creates an instance of a module and runs its start function, if any. Its memory, globals and table persist from call to call until you
 * drop it; the module may be dropped first. "uv" imports do nothing and return -1, as in `wasmloop invoke`, but for those of wasmloop_call_bytes: a
 * module that has any (wasmloop_shape's imports) may need a loop or a job instead. OK: *ended describes the start function.
 * NOT_STARTED: the start function did not return; *ended says how it ended, and no instance is created. RANGE: the depth is not 1 to 128.
 * In no other case is *ended written. */
int wasmloop_instance(const wasmloop_handle *module, const wasmloop_call_limits *limits, wasmloop_handle *instance, wasmloop_ended *ended);

/* Calls the function exported as `name`. It gets `count` arguments, an i32 as a number below 2^32 (pass -1 as (uint32_t)-1); `args` may be NULL
 * if `count` is 0. OK: it was called, and *ended says how it ended. A trap, the depth limit or running out of fuel does not roll anything
 * back, and you may call the instance again. NONE: no function has that name. ARGUMENTS: it takes another number of arguments, or one is out
 * of its type's range. RANGE: the depth is not 1 to 128. Otherwise nothing changes, and *ended is not written. */
int wasmloop_call(wasmloop_handle *instance, const char *name, const uint64_t *args, size_t count, const wasmloop_call_limits *limits, wasmloop_ended *ended);

/* Calls the function that is export `number` of the module: as wasmloop_call does, but no name is looked up. NONE: it is no function, or there is
 * no such export. */
int wasmloop_call_at(wasmloop_handle *instance, uint64_t number, const uint64_t *args, size_t count, const wasmloop_call_limits *limits, wasmloop_ended *ended);

/* Begins a call by name, to be run in slices. It runs nothing yet, and allocates only for more than 8 arguments. NONE, ARGUMENTS, RANGE: as for
 * wasmloop_call. Until the call is over you may drop the instance and inspect it: wasmloop_size, wasmloop_read, wasmloop_global, wasmloop_view,
 * wasmloop_kind, wasmloop_held, and wasmloop_stop, wasmloop_stop_places and wasmloop_stop_told, which report where it stands. Every other call on it
 * but wasmloop_call_run_for and wasmloop_call_end returns KIND. */
int wasmloop_call_begin(wasmloop_handle *instance, const char *name, const uint64_t *args, size_t count, const wasmloop_call_limits *limits);

/* Runs a slice of a call that has begun, in any thread: at most `units` units of fuel, at least 1. Sets *over to 1 if the
 * call is over: *ended, the results, the fuel and the memory are those of wasmloop_call, and you may call the instance again. Sets *over to 0
 * if it has used all the units and has fuel left: it may continue, in this thread or another. RANGE: `units` is 0. KIND: no call is in
 * progress. In no other case is *over or *ended written. */
int wasmloop_call_run_for(wasmloop_handle *instance, uint64_t units, uint32_t *over, wasmloop_ended *ended);

/* Begins a call by number and runs its first slice: as wasmloop_call_at and wasmloop_call_run_for do. A call that is over within `units` costs little
 * more than wasmloop_call_at, and a function of at most 8 parameters and 1 result needs no allocation. Sets *over to 1 if the call is over; else to
 * 0: then continue it with wasmloop_call_run_for or end it. NONE, ARGUMENTS: as for wasmloop_call_at. RANGE: the depth is not 1 to 128, or `units` is
 * 0. KIND: a call is in progress. In no case but OK is *over written, and *ended only where *over is 1. */
int wasmloop_call_for(wasmloop_handle *instance, uint64_t number, const uint64_t *args, size_t count, const wasmloop_call_limits *limits, uint64_t units,
    uint32_t *over, wasmloop_ended *ended);

/* Ends a call before it is over, and keeps the instance: one that wasmloop_call_begin or wasmloop_call_for began. *ended is SPENT, with the fuel that
 * the call has used. The memory and the globals are those of wasmloop_call with exactly that much fuel, wasmloop_stop reports where the call stood,
 * or NONE if nothing of it has run, and you may call the instance again. KIND: no call is in progress; then *ended is not written. */
int wasmloop_call_end(wasmloop_handle *instance, wasmloop_ended *ended);

/* Calls the function that is export `number`, as wasmloop_call_at does, and gives it `length` bytes, at most 65,536: in this call in_len, in_copy and
 * out_set of "uv" work as in a job, so that a guest that is written for jobs is a plug-in too; its other "uv" calls still return -1. `bytes` is read
 * in place, and may be NULL if `length` is 0. The first such call of an instance allocates 64 KiB for its replies. RANGE: `length` or the depth is out of
 * range. NONE, ARGUMENTS, KIND: as for wasmloop_call_at. */
int wasmloop_call_bytes(wasmloop_handle *instance, uint64_t number, const uint64_t *args, size_t count, const uint8_t *bytes, size_t length,
    const wasmloop_call_limits *limits, wasmloop_ended *ended);

/* Returns the reply of the last wasmloop_call_bytes in place: the bytes that the guest's last out_set gave in it, however the call ended; none before
 * the first. They stay readable until the next wasmloop_call_bytes that returns OK, or until the instance is dropped; if *count is 0, do not
 * read *bytes. */
int wasmloop_view(wasmloop_handle *instance, const uint8_t **bytes, uint64_t *count);

/* wasmloop_size, wasmloop_read and wasmloop_global inspect the instance of a handle: an instance as its last call left it, however that ended;
 * a loop's as its last callback left it, also the one that failed; or that of a call that is paused between two slices, as a call with just
 * the fuel that it has used would leave it. A loop whose callback is paused returns KIND. */

/* Writes the size of the memory in bytes. A call may grow it. */
int wasmloop_size(wasmloop_handle *handle, uint64_t *bytes);

/* Copies `length` bytes out of the memory, from address `at`. RANGE: they are not all inside the memory, and none is copied; or `length` is
 * above PTRDIFF_MAX. `into` may be NULL if `length` is 0. */
int wasmloop_read(wasmloop_handle *handle, uint32_t at, uint8_t *into, size_t length);

/* Copies `length` bytes into the memory, from address `at`. The instance is in no call. RANGE: as for wasmloop_read. `from` may be NULL if
 * `length` is 0. */
int wasmloop_write(wasmloop_handle *instance, uint32_t at, const uint8_t *from, size_t length);

/* A number, with its type. */
typedef struct wasmloop_number {
    uint32_t value_type; /* 1 for i32, 2 for i64 */
    uint32_t zero;
    uint64_t number;     /* an i32 in the low half */
} wasmloop_number;

/* Writes the value of the global exported as `name` to *value. NONE: no global has that name. */
int wasmloop_global(wasmloop_handle *handle, const char *name, wasmloop_number *value);

/* ---- Loops: timers, asyncs and other callbacks ---- */

/* The limits of a loop. */
typedef struct wasmloop_limits {
    uint64_t fuel;      /* of each callback, in units */
    uint64_t work_fuel; /* of each job, in units */
    uint32_t number;    /* an identifier, copied into the loop's jobs: give each loop in the process a different one */
    uint32_t depth;     /* the call-depth limit, 1 to 128 */
} wasmloop_limits;

/* Creates a loop of a module. RANGE: the depth is not 1 to 128. The module is unchanged and may be dropped. */
int wasmloop_loop(const wasmloop_handle *module, const wasmloop_limits *limits, wasmloop_handle *loop);

/* did.what */
enum { WASMLOOP_ENTERED = 1, WASMLOOP_RAN = 2, WASMLOOP_SKIPPED = 3, WASMLOOP_OVER = 4, WASMLOOP_FAILED = 5 };
/* did.phase */
enum { WASMLOOP_BEGIN, WASMLOOP_TIMERS, WASMLOOP_IDLE, WASMLOOP_POLL, WASMLOOP_CHECK, WASMLOOP_CLOSING };
/* did.kind */
enum { WASMLOOP_RUN_START, WASMLOOP_RUN_MAIN, WASMLOOP_RUN_TIMER, WASMLOOP_RUN_IDLE, WASMLOOP_RUN_AFTER, WASMLOOP_RUN_ASYNC,
    WASMLOOP_RUN_CHECK, WASMLOOP_RUN_CLOSE };

/* What one step did. Fields that do not apply are 0. */
typedef struct wasmloop_did {
    uint32_t what;
    uint32_t phase;  /* ENTERED: the phase */
    uint32_t kind;   /* RAN, SKIPPED: the kind of callback */
    uint32_t number; /* RAN, SKIPPED: the guest's handle or request */
    uint32_t ending; /* RAN: how it ended. The loop fails unless it returned */
    uint32_t trap;   /* RAN, TRAP: 1 unreachable, 2 division by zero, 3 a quotient out of range, 4 an access outside the memory,
                        5 an index past the table, 6 an empty element, 7 a function of another type */
    uint32_t emits;  /* RAN: the number of values it emitted, at most 64 */
    uint32_t zero;
    uint64_t now;    /* ENTERED: the cached time, in milliseconds */
    uint64_t used;   /* RAN: the fuel used, in units */
} wasmloop_did;

/* Takes one step: runs or skips a callback, enters a phase, or reports that the loop is over or has failed. Most hosts use wasmloop_turn. */
int wasmloop_step(wasmloop_handle *loop, wasmloop_did *did);

/* Takes a slice of a step: its callback uses at most `units` units of fuel, at least 1. Sets *over to 1 if the step is over: *did, the emitted
 * values and the loop are those of wasmloop_step. Sets *over to 0 if its callback is paused: it has fuel left, and the next slice continues it,
 * in this thread or another. A slice that pauses uses all its units, or fewer, at least one in 1,025, once calls of "uv" have copied more than 64
 * bytes per unit. While a callback is paused you may drop the loop, or continue with wasmloop_step_for or wasmloop_turn_for; wasmloop_kind and
 * wasmloop_held answer as ever; every other call on the loop returns KIND. Only the first slice of a step returns MEMORY; what the guest's
 * queue_work copies is allocated in the slice that runs it, and a failure there is -12 to the guest. RANGE: `units` is 0. If *over is 0, *did is
 * not written. */
int wasmloop_step_for(wasmloop_handle *loop, uint64_t units, uint32_t *over, wasmloop_did *did);

#define WASMLOOP_FOREVER UINT64_MAX

/* The progress of a loop iteration. The loop keeps it; the struct only receives it, and what was in it before does not count. */
typedef struct wasmloop_turned {
    wasmloop_did did;   /* the last step taken */
    uint64_t wait;      /* for how many milliseconds the loop needs only replies and sends, or WASMLOOP_FOREVER: always if it has failed */
    uint32_t callbacks; /* the number of callbacks that turns have run in this iteration so far, at most 2^32 - 1 */
    uint32_t zero;      /* 0 */
} wasmloop_turned;

/* Takes steps to the end of an iteration, or sooner: until one of these holds. told->did is the last step:
 *     the loop enters its timers phase: the iteration is over, and told->wait is the poll timeout, 0 if a callback ran in it;
 *     a callback emits values, for wasmloop_emits, or does not return;
 *     `most_callbacks` callbacks have run in this call; or
 *     the loop is over or has failed.
 * Between two calls run jobs, accept replies, send to asyncs and set the clock. Sleep only if nothing was sent since the previous
 * iteration. RANGE: `most_callbacks` is 0. */
int wasmloop_turn(wasmloop_handle *loop, uint32_t most_callbacks, wasmloop_turned *told);

/* Takes steps as wasmloop_turn does, for at most `units` units of fuel: it pauses once the callbacks of this call have together used them, at least
 * 1, which bounds the time of the call. Sets *over to 1 if the turn is over, by one of wasmloop_turn's conditions, of which `most_callbacks` counts
 * the callbacks that end in this call. Sets *over to 0 if it is not: call it again, without sleeping. Then a callback is paused, as in
 * wasmloop_step_for; or none is, and each call on the loop works, if the last unit ended a callback or an allocation failed after the first step.
 * told->did is the last step that is over, unchanged if no step ended in this call, and told->callbacks counts those. The steps, from call to call,
 * are those of wasmloop_step. A slice of a callback may use fewer units, as in wasmloop_step_for. RANGE: `most_callbacks` or `units` is 0. MEMORY:
 * the first step could not begin. */
int wasmloop_turn_for(wasmloop_handle *loop, uint32_t most_callbacks, uint64_t units, uint32_t *over, wasmloop_turned *told);

/* Copies the values that the last callback emitted to `into`: at most `room` values. *count is how many there were. RANGE: `room` is above
 * PTRDIFF_MAX / 8. */
int wasmloop_emits(wasmloop_handle *loop, int64_t *into, size_t room, uint32_t *count);

/* Advances the clock to `ms` milliseconds, and writes the new time to *now. A smaller `ms` has no effect. */
int wasmloop_clock(wasmloop_handle *loop, uint64_t ms, uint64_t *now);

/* Writes the poll timeout, measured from the loop's cached time: 0 if the loop is not alive, an idle is active, a handle is closing, a request
 * is answered or cancelled, or a timer is due; else the milliseconds until the next timer; or WASMLOOP_FOREVER. It ignores callbacks still
 * pending in the current phase, and pending sends, the guest's own among them. So call it only after a step that entered the timers phase,
 * and sleep only if no callback ran since the previous timers phase (wasmloop_turn does both); replies and sends must end the sleep. A loop
 * that has failed takes no more steps, but its timers stay: it is alive, and the poll timeout is 0 once one is due. So look at
 * wasmloop_standing's failed, or at did.what, first. */
int wasmloop_hint(wasmloop_handle *loop, uint64_t *ms);

/* Sends to the guest's async `number`, counted from 0 in the order of creation. RANGE: it is not below 16. */
int wasmloop_async_send(wasmloop_handle *loop, uint32_t number);

/* The status of a loop. */
typedef struct wasmloop_standing {
    uint32_t alive;       /* 1: it has an active handle, an outstanding request or a closing handle */
    uint32_t failed;      /* 1: a callback did not return */
    uint64_t outstanding; /* the number of outstanding requests, at most 32 */
} wasmloop_standing;

/* Writes whether a loop is alive or has failed, and how many requests are outstanding, to *standing. */
int wasmloop_standing_of(wasmloop_handle *loop, wasmloop_standing *standing);

/* ---- The work requests of a loop ---- */

/* Fills an empty handle with a job for the loop's lowest request that this call has not returned yet. NONE: there is none. MEMORY: a request
 * is outstanding, but the job could not be allocated; the request stays. */
int wasmloop_next_job(wasmloop_handle *loop, wasmloop_handle *job);

/* Reports that a job of this loop is about to run: a cancel of its request then returns -16 instead of 0. Optional. STRANGER: the request was
 * cancelled or started before, so the job need not run; or the job has another loop's number. KIND: the job has run. */
int wasmloop_job_start(wasmloop_handle *loop, wasmloop_handle *job);

/* Completes a job's request in its loop, and empties the job's handle. STRANGER: the reply is stale: its request was cancelled, or is another
 * loop's, or the loop has failed; drop the handle. KIND: the job has not run. */
int wasmloop_accept(wasmloop_handle *loop, wasmloop_handle *job);

/* Submits a work request from the host, to send `length` bytes to a loop. It is processed like the guest's own: wasmloop_next_job returns it,
 * uv_work computes it, and uv_after_work is called for it at most once. A uv_work that sets its input as its reply passes the bytes on.
 * The bytes are copied; `bytes` may be NULL if `length` is 0. *answer is what queue_work returns: the request's number, above 0; or, with no
 * effect, -38 if uv_work or uv_after_work is not exported, -22 above 65,536 bytes, -11 if 32 requests are outstanding, -28 if all numbers are
 * used, -12 if an allocation failed, -1 if the loop is over or has failed. RANGE: `length` is above PTRDIFF_MAX. */
int wasmloop_request(wasmloop_handle *loop, uint32_t op, const uint8_t *bytes, size_t length, int32_t *answer);

/* Cancels a request. *answer is 0, or -22 if it is not outstanding or is already cancelled, -16 if it is answered or its job was reported as
 * started, -1 if the loop has failed. */
int wasmloop_cancel(wasmloop_handle *loop, uint32_t request, int32_t *answer);

/* ---- Where a run stopped ---- */

/* An instruction of a function. */
typedef struct wasmloop_site {
    uint64_t function;  /* counted from 0 without the imports: add wasmloop_shape's imports for the index that `wasmloop`, wasm-objdump and
                           wasmloop_fault use */
    uint64_t operation; /* the instruction, counted from 0 in its body, each `end` and `else` too, as wasm-objdump lists them */
} wasmloop_site;

/* Copies the backtrace of a loop's last callback, a job, or an instance's last call to `into`, innermost first: at most `room` sites. *count is
 * the number of nested calls. A job or a call that is paused between two slices stands where it would have stopped with just the fuel that it
 * has used. For a job that is over only the innermost 17 sites are kept. NONE: it returned, nothing has run, or the job's allocation failed.
 * RANGE: `room` is above PTRDIFF_MAX / 16. Each site is looked up in the module's bytes, from the start of its body. */
int wasmloop_stop(wasmloop_handle *handle, wasmloop_site *into, size_t room, uint64_t *count);

/* The place of an instruction in its module. */
typedef struct wasmloop_place {
    uint64_t function;    /* the function's index; imported functions come first */
    uint64_t instruction; /* as in wasmloop_site */
    uint64_t byte;        /* the offset of its opcode from the start of the module */
} wasmloop_place;

/* Copies the same backtrace with function indexes that include the imports, and the byte of each instruction. *count and NONE: as for
 * wasmloop_stop. RANGE: `room` is above PTRDIFF_MAX / 24. */
int wasmloop_stop_places(wasmloop_handle *handle, wasmloop_place *into, size_t room, uint64_t *count);

/* Writes the same backtrace as text to `into`: "in function 5 (divide), .. at byte 231; called by function 2 (main) at byte 180", at most
 * `room` bytes, without a NUL. *count is the length of the whole text. The reason is in did, about or ended. `bytes` are
 * those that the module was loaded from, or NULL with a `length` of 0: then those that it keeps are read. Function indexes include the imports.
 * REFUSED: there is a backtrace, but the bytes are another module's. NONE: as for wasmloop_stop. RANGE: `length` or `room` is above PTRDIFF_MAX. */
int wasmloop_stop_told(const uint8_t *bytes, size_t length, wasmloop_handle *handle, char *into, size_t room, uint64_t *count);

/* ---- Statuses, names, version ---- */

/* What a call returns. */
enum {
    WASMLOOP_OK = 0,       /* success */
    WASMLOOP_NONE = 1,     /* there is nothing to return: see the call */
    WASMLOOP_EMPTY = 2,    /* a handle is empty */
    WASMLOOP_KIND = 3,     /* wrong kind of handle; a handle to be filled is not empty; or wrong state (run, not run, call in progress, callback paused) */
    WASMLOOP_MEMORY = 4,   /* an allocation failed */
    WASMLOOP_REFUSED = 5,  /* the bytes are not a valid guest */
    WASMLOOP_RANGE = 6,    /* a number is out of range */
    WASMLOOP_STRANGER = 7, /* stale reply: its request was cancelled, or is another loop's */
    WASMLOOP_USED_UP = 8,  /* the host has sent 2^32 times */
    WASMLOOP_NULL = 9,     /* a pointer is NULL */
    WASMLOOP_NO_WORK = 10, /* the module exports no uv_work */
    WASMLOOP_NOT_STARTED = 11, /* the start function did not return */
    WASMLOOP_ARGUMENTS = 12    /* the wrong number of arguments, or one out of its type's range */
};

/* A status's name, such as "MEMORY". The texts of this call and of the next five are never freed; NULL: the number has none. */
const char *wasmloop_status_name(int status);

/* A status as a sentence, such as "an allocation failed". */
const char *wasmloop_status_text(int status);

/* A trap's name, such as "division by zero". */
const char *wasmloop_trap_name(uint32_t trap);

/* The name of a fault, such as "Opcode", by its stage and code. */
const char *wasmloop_fault_name(uint32_t stage, uint32_t code);

/* An ending's name: "return", "trap", "depth" or "spent". */
const char *wasmloop_ending_name(uint32_t ending);

/* An outcome's name, such as "done". */
const char *wasmloop_outcome_name(uint32_t outcome);

/* Writes how a call or a callback ended: "out of fuel, after 1,000,000 units", "division by zero, after 3 units", "returned, after 1 unit". The numbers are
 * those of wasmloop_ended or wasmloop_did. At most `room` bytes go to `into`, without a NUL; *count is the length of the whole text.
 * wasmloop_stop_told has the place. RANGE: a number has no name, or `room` is above PTRDIFF_MAX. */
int wasmloop_ended_text(uint32_t ending, uint32_t trap, uint64_t used, char *into, size_t room, uint64_t *count);

/* Writes how a job ended: as wasmloop_ended_text does, by the numbers of wasmloop_about; also "not over yet, after 7 units", "an allocation failed, after 0
 * units". */
int wasmloop_outcome_text(uint32_t outcome, uint32_t value, uint64_t used, char *into, size_t room, uint64_t *count);

/* The version of the library, as "0.2.0". The text is never freed. */
const char *wasmloop_version(void);

#ifdef __cplusplus
}
#endif
#endif
