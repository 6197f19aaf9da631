/* Records the calls that a host in C makes on each of its loops. No line of the host changes. Link this file with the host, the static
   library and

     -Wl,@record_wrap.opts

   where record_wrap.opts is what `sed -n 's/^REAL(\([a-z_]*\),.*$/--wrap=wasmloop_\1/p' record_wrap.c` prints. The environment controls it:

     WASMLOOP_RECORD=FOLDER      writes a file FOLDER/loop.N for each loop, or another name (record_name.h); unset: nothing is recorded
     WASMLOOP_RECORD_MOST=MIB    the limit of a file, 256 unless set: at the limit the last line is ["full"], and the loop runs on unrecorded
     WASMLOOP_RECORD_KEEP=failed removes a loop's file when the loop is dropped, unless a callback or a work function did not return

   `python3 -m wasmloop.replay FOLDER/loop.1` runs the loop again. A replay begins at the first line, so a file has the whole history of its
   loop, or its beginning: once the disk is full, or no descriptor is free, no more is written to it. A handle is identified by what it points to,
   which stays where the handle is moved. */
#include "record_file.h"
#include "wasmloop.h"

#define REAL(name, ...) int __real_wasmloop_##name(__VA_ARGS__); int __wrap_wasmloop_##name(__VA_ARGS__)
typedef wasmloop_handle handle;
REAL(load, const uint8_t *, size_t, handle *, wasmloop_fault *);
REAL(load_told, const uint8_t *, size_t, handle *, wasmloop_fault *, char *, size_t, uint64_t *);
REAL(share, const handle *, handle *);
REAL(loop, const handle *, const wasmloop_limits *, handle *);
REAL(drop, handle *);
REAL(step, handle *, wasmloop_did *);
REAL(step_for, handle *, uint64_t, uint32_t *, wasmloop_did *);
REAL(turn, handle *, uint32_t, wasmloop_turned *);
REAL(turn_for, handle *, uint32_t, uint64_t, uint32_t *, wasmloop_turned *);
REAL(clock, handle *, uint64_t, uint64_t *);
REAL(async_send, handle *, uint32_t);
REAL(cancel, handle *, uint32_t, int32_t *);
REAL(request, handle *, uint32_t, const uint8_t *, size_t, int32_t *);
REAL(next_job, handle *, handle *);
REAL(job_start, handle *, handle *);
REAL(accept, handle *, handle *);

/* ---- the table of handles ---- */

enum { BUCKETS = 1024 };

/* The bytes of a module, kept while a handle of it exists. */
typedef struct code {
    atomic_size_t handles;
    size_t length;
    uint8_t bytes[];
} code;

/* What is known of a handle: of a module its bytes, of a loop its record. An entry stays in its list when its handle is dropped, and serves
   another; so a list is read without a lock. */
typedef struct entry {
    _Atomic(const void *) at; /* NULL: it is free */
    code *module;
    record *loop;
    struct entry *next;
} entry;

static _Atomic(entry *) known[BUCKETS];
static const char taken; /* marks an entry that is being filled */

static _Atomic(entry *) *bucket(const void *at)
{
    return &known[((uintptr_t)at >> 4) * 0x9E3779B97F4A7C15u >> 54];
}

static entry *find(const void *at)
{
    entry *e = atomic_load_explicit(bucket(at), memory_order_acquire);
    while (e && atomic_load_explicit(&e->at, memory_order_acquire) != at) e = e->next;
    return e;
}

static record *of(const handle *loop)
{
    entry *e = find(loop->at);
    return e ? e->loop : NULL;
}

/* A free entry of a list, taken, or NULL. */
static entry *take(entry *e)
{
    for (; e; e = e->next) {
        const void *none = NULL;
        if (atomic_compare_exchange_strong(&e->at, &none, &taken)) return e;
    }
    return NULL;
}

static bool keep(const void *at, code *module, record *loop)
{
    _Atomic(entry *) *first = bucket(at);
    entry *e = take(atomic_load(first));
    if (!e) {
        if (!(e = calloc(1, sizeof *e))) return false;
        atomic_store(&e->at, &taken);
        e->next = atomic_load(first);
        while (!atomic_compare_exchange_weak(first, &e->next, e)) continue;
    }
    e->module = module;
    e->loop = loop;
    if (module) atomic_fetch_add(&module->handles, 1);
    atomic_store_explicit(&e->at, at, memory_order_release);
    return true;
}

static void forget(entry *e)
{
    code *module = e->module;
    record *loop = e->loop;
    atomic_store_explicit(&e->at, NULL, memory_order_release);
    if (module && atomic_fetch_sub(&module->handles, 1) == 1) free(module);
    if (loop) end_record(loop);
}

/* A host may end without dropping its loops. */
__attribute__((destructor)) static void flush_all(void)
{
    for (size_t k = 0; k < BUCKETS; k++)
        for (entry *e = atomic_load(&known[k]); e; e = e->next)
            if (atomic_load(&e->at) && e->loop && !e->loop->full) put_steps(e->loop), flush(e->loop);
}

/* ---- the calls ---- */

/* Keeps the bytes of a module, if it is loaded. Returns the status. */
static int loaded(int status, const uint8_t *bytes, size_t length, const handle *module)
{
    code *c = status == WASMLOOP_OK && getenv("WASMLOOP_RECORD") ? calloc(1, sizeof *c + length) : NULL;
    if (!c) return status;
    c->length = length;
    memcpy(c->bytes, bytes, length);
    if (!keep(module->at, c, NULL)) free(c);
    return status;
}

int __wrap_wasmloop_load(const uint8_t *bytes, size_t length, handle *module, wasmloop_fault *fault)
{
    return loaded(__real_wasmloop_load(bytes, length, module, fault), bytes, length, module);
}

int __wrap_wasmloop_load_told(const uint8_t *bytes, size_t length, handle *module, wasmloop_fault *fault, char *into, size_t room,
    uint64_t *count)
{
    return loaded(__real_wasmloop_load_told(bytes, length, module, fault, into, room, count), bytes, length, module);
}

int __wrap_wasmloop_share(const handle *module, handle *other)
{
    int status = __real_wasmloop_share(module, other);
    entry *e = status == WASMLOOP_OK ? find(module->at) : NULL;
    if (e) keep(other->at, e->module, NULL);
    return status;
}

int __wrap_wasmloop_loop(const handle *module, const wasmloop_limits *limits, handle *loop)
{
    int status = __real_wasmloop_loop(module, limits, loop);
    entry *e = status == WASMLOOP_OK ? find(module->at) : NULL;
    record *r = e ? new_record(limits->number) : NULL;
    if (!r) return status;
    put(r, "[\"loop\",\"\",\"");
    put_bytes(r, e->module->bytes, e->module->length);
    put_number(r, "\",", limits->fuel);
    put_number(r, ",", limits->work_fuel);
    put_number(r, ",", limits->depth);
    put(r, "]\n");
    if (!keep(loop->at, NULL, r)) free(r);
    return status;
}

int __wrap_wasmloop_drop(handle *it)
{
    entry *e = it->at ? find(it->at) : NULL;
    if (e) forget(e);
    return __real_wasmloop_drop(it);
}

static void note_failure(record *r, const wasmloop_did *did)
{
    if (did->what == WASMLOOP_FAILED || (did->what == WASMLOOP_RAN && did->ending)) failed(r);
}

int __wrap_wasmloop_step(handle *loop, wasmloop_did *did)
{
    int status = __real_wasmloop_step(loop, did);
    record *r = status == WASMLOOP_OK ? of(loop) : NULL;
    if (!r) return status;
    r->steps++;
    note_failure(r, did);
    return status;
}

/* A line of a turn, which ends at the latest with this callback, counted from the first since the last line. */
static void note_turn(record *r, uint64_t most, const wasmloop_did *did)
{
    note(r, "[\"turn\"", most);
    r->paused = false;
    r->ran = 0;
    note_failure(r, did);
}

/* How many callbacks of the iteration its loop counts on from, after a turn that is over. */
static uint32_t counted(const wasmloop_turned *told)
{
    return told->did.what == WASMLOOP_ENTERED && told->did.phase == WASMLOOP_TIMERS ? 0 : told->callbacks;
}

int __wrap_wasmloop_turn(handle *loop, uint32_t most, wasmloop_turned *told)
{
    int status = __real_wasmloop_turn(loop, most, told);
    record *r = status == WASMLOOP_OK ? of(loop) : NULL;
    if (!r) return status;
    r->counted = counted(told);
    note_turn(r, most, &told->did);
    return status;
}

/* A step that a turn has begun ends in a line of that turn. */
int __wrap_wasmloop_step_for(handle *loop, uint64_t units, uint32_t *over, wasmloop_did *did)
{
    int status = __real_wasmloop_step_for(loop, units, over, did);
    record *r = status == WASMLOOP_OK && *over ? of(loop) : NULL;
    if (!r) return status;
    if (r->paused) {
        note_turn(r, r->ran + 1, did);
        return status;
    }
    r->steps++;
    note_failure(r, did);
    return status;
}

/* A turn that is paused in a callback is written when it is over. One that is paused between two steps ends with a callback, or else because an
   allocation failed, which no replay repeats. */
static void note_pause(record *r, handle *loop, const wasmloop_did *did)
{
    wasmloop_standing standing;
    r->paused = wasmloop_standing_of(loop, &standing) == WASMLOOP_KIND;
    if (r->paused) return;
    if (did->what == WASMLOOP_RAN) note_turn(r, r->ran, did);
    else if (begin(r, "[\"memory\"]\n", 0)) r->ran = 0;
}

int __wrap_wasmloop_turn_for(handle *loop, uint32_t most, uint64_t units, uint32_t *over, wasmloop_turned *told)
{
    int status = __real_wasmloop_turn_for(loop, most, units, over, told);
    record *r = status == WASMLOOP_OK ? of(loop) : NULL;
    if (!r) return status;
    uint32_t ran = told->callbacks - r->counted;
    r->counted = *over ? counted(told) : told->callbacks;
    if (*over) {
        note_turn(r, r->ran + most, &told->did);
        return status;
    }
    r->ran += ran;
    note_pause(r, loop, &told->did);
    return status;
}

int __wrap_wasmloop_clock(handle *loop, uint64_t ms, uint64_t *now)
{
    int status = __real_wasmloop_clock(loop, ms, now);
    if (status == WASMLOOP_OK) note(of(loop), "[\"clock\"", ms);
    return status;
}

int __wrap_wasmloop_async_send(handle *loop, uint32_t number)
{
    int status = __real_wasmloop_async_send(loop, number);
    if (status == WASMLOOP_OK) note(of(loop), "[\"send\"", number);
    return status;
}

int __wrap_wasmloop_cancel(handle *loop, uint32_t request, int32_t *answer)
{
    int status = __real_wasmloop_cancel(loop, request, answer);
    record *r = status == WASMLOOP_OK ? of(loop) : NULL;
    if (begin(r, "[\"cancel\"", 0)) put_number(r, ",", request), put_answer(r, *answer), put(r, "]\n");
    return status;
}

int __wrap_wasmloop_request(handle *loop, uint32_t op, const uint8_t *bytes, size_t length, int32_t *answer)
{
    int status = __real_wasmloop_request(loop, op, bytes, length, answer);
    record *r = status == WASMLOOP_OK ? of(loop) : NULL;
    if (!begin(r, "[\"request\"", length)) return status;
    put_number(r, ",", op);
    put(r, ",\"");
    put_bytes(r, bytes, length);
    put(r, "\"");
    put_answer(r, *answer);
    put(r, "]\n");
    return status;
}

int __wrap_wasmloop_next_job(handle *loop, handle *job)
{
    wasmloop_about about;
    int status = __real_wasmloop_next_job(loop, job);
    if (status == WASMLOOP_OK && wasmloop_job_about(job, &about) == WASMLOOP_OK) note(of(loop), "[\"next\"", about.request);
    return status;
}

/* A line of a job: its request, and whether the loop took it. Another loop's job changes nothing, and is not recorded. */
static void note_job(record *r, const char *word, const wasmloop_about *about, int status)
{
    bool known = status == WASMLOOP_OK;
    if (!r || about->loop != r->number || !(known || status == WASMLOOP_STRANGER) || !begin(r, word, 0)) return;
    put_number(r, ",", about->request);
    put(r, known ? ",1" : ",0");
    put(r, about->outcome == WASMLOOP_WORK_MEMORY ? ",\"no memory\"]\n" : "]\n");
}

int __wrap_wasmloop_job_start(handle *loop, handle *job)
{
    wasmloop_about about;
    int status = __real_wasmloop_job_start(loop, job);
    if (wasmloop_job_about(job, &about) == WASMLOOP_OK) note_job(of(loop), "[\"start\"", &about, status);
    return status;
}

int __wrap_wasmloop_accept(handle *loop, handle *job)
{
    wasmloop_about about;
    int asked = wasmloop_job_about(job, &about), status = __real_wasmloop_accept(loop, job);
    if (asked != WASMLOOP_OK) return status;
    note_job(of(loop), "[\"accept\"", &about, status);
    if (status == WASMLOOP_OK && about.outcome > WASMLOOP_WORK_DONE && about.outcome < WASMLOOP_WORK_MEMORY) failed(of(loop));
    return status;
}
