/* The library for Node.js, by Node-API: thin calls, which index.js makes classes of. An object is an external that owns a handle. Whatever may
 * take long runs in slices on libuv's pool, and stops between two if the caller aborts, or the process exits. No state but `quitting` is shared, so
 * each worker thread may load the addon. */
#define NAPI_VERSION 8
#include <node_api.h>
#include <stdatomic.h>
#include <stdlib.h>
#include "../host.h"

#define SLICES 4                /* of a turn on the pool: some milliseconds, then files and names that wait there have theirs */

typedef struct thing {
    wasmloop_handle handle;
    atomic_int busy;            /* a pool thread has it */
    atomic_int stop;
    wasmloop_call_limits limits; /* of an instance's calls */
    uint64_t *words;            /* of an instance: 256 arguments of the next call, then 16 results of the last one, in an ArrayBuffer of `held` */
    napi_ref held;
    wasmloop_ended ended;
    wasmloop_turned told;       /* of a loop: its last turn */
} thing;

static atomic_int quitting;      /* the process exits: it waits for the pool */

static napi_value fail(napi_env env, const char *code, const char *text) { napi_throw_error(env, code, text); return NULL; }
static napi_value number(napi_env env, double x) { napi_value v; napi_create_double(env, x, &v); return v; }
static napi_value big(napi_env env, uint64_t x) { napi_value v; napi_create_bigint_uint64(env, x, &v); return v; }
static void set(napi_env env, napi_value o, const char *name, napi_value v) { napi_set_named_property(env, o, name, v); }

static void finalize(napi_env env, void *at, void *hint)
{
    thing *t = at;
    (void)hint;
    if (t->held) napi_delete_reference(env, t->held);
    wasmloop_drop(&t->handle);
    free(t);
}

static napi_value external(napi_env env, thing *t) { napi_value v; napi_create_external(env, t, finalize, NULL, &v); return v; }
static thing *made(napi_env env) { thing *t = calloc(1, sizeof *t); if (!t) fail(env, "MEMORY", "out of memory"); return t; }

#define ARGS(n) napi_value v[n]; size_t count = n; napi_get_cb_info(env, info, &count, v, NULL, NULL)
static thing *get(napi_env env, napi_value v)
{
    void *t = NULL;
    napi_valuetype type;
    if (!v || napi_typeof(env, v, &type) != napi_ok || type != napi_external || napi_get_value_external(env, v, &t) != napi_ok) { fail(env, "KIND", "not a handle"); return NULL; }
    if (atomic_load(&((thing *)t)->busy)) { fail(env, "BUSY", "a pool thread has it"); return NULL; }
    return t;
}
static uint32_t u32(napi_env env, napi_value v) { uint32_t x = 0; napi_get_value_uint32(env, v, &x); return x; }
static uint64_t u64(napi_env env, napi_value v)
{
    uint64_t x = 0; bool exact; double d = 0;
    if (napi_get_value_bigint_uint64(env, v, &x, &exact) == napi_ok) return x;
    napi_get_value_double(env, v, &d);
    return d > 0 ? d >= 18446744073709551615.0 ? UINT64_MAX : (uint64_t)d : 0;
}
static int bytes_of(napi_env env, napi_value v, uint8_t **at, size_t *length)
{
    napi_typedarray_type type; napi_value buffer; size_t offset; void *data = NULL;
    return napi_get_typedarray_info(env, v, &type, length, &data, &buffer, &offset) == napi_ok && type == napi_uint8_array ? (*at = data, 1) : (fail(env, "TYPE", "expected a Uint8Array"), 0);
}
static napi_value buffer(napi_env env, const void *from, size_t length) { napi_value v; void *at; napi_create_buffer_copy(env, length, from, &at, &v); return v; }
static napi_value status(napi_env env, int s, napi_value v) { return s == WASMLOOP_OK ? v : fail(env, wasmloop_status_name(s), wasmloop_status_text(s)); }

static napi_value load(napi_env env, napi_callback_info info)
{
    ARGS(1);
    thing *t; uint8_t *at, *copy; size_t length; char why[400]; int s;
    if (!bytes_of(env, v[0], &at, &length) || !(t = made(env))) return NULL;
    copy = malloc(length + 1);
    if (copy && length) memcpy(copy, at, length);                /* a thread may write a SharedArrayBuffer: only the copy is loaded */
    s = copy ? host_load(copy, length, &t->handle, why, sizeof why) : WASMLOOP_MEMORY;
    free(copy);
    if (s == WASMLOOP_OK) return external(env, t);
    finalize(env, t, NULL);
    return s == WASMLOOP_REFUSED ? fail(env, "REFUSED", why) : status(env, s, NULL);
}

static napi_value type_of(napi_env env, napi_callback_info info)
{
    ARGS(2);
    thing *t = get(env, v[0]); char name[300]; size_t n; wasmloop_type type; napi_value o, a; uint64_t at;
    if (!t) return NULL;
    napi_get_value_string_utf8(env, v[1], name, sizeof name, &n);
    if (wasmloop_function(&t->handle, name, &type) != WASMLOOP_OK) { napi_get_null(env, &o); return o; }
    wasmloop_export_number(&t->handle, name, &at);
    napi_create_object(env, &o);
    napi_create_array(env, &a);
    for (uint32_t i = 0; i < type.params; i++) napi_set_element(env, a, i, number(env, type.param[i] == 1 ? 32 : 64));
    set(env, o, "params", a);
    napi_create_array(env, &a);
    for (uint32_t i = 0; i < type.results; i++) napi_set_element(env, a, i, number(env, type.result[i] == 1 ? 32 : 64));
    set(env, o, "results", a);
    set(env, o, "at", number(env, (double)at));
    return o;
}

/* exports(module, most): of the first exports each one's name and kind */
static napi_value exports_of(napi_env env, napi_callback_info info)
{
    static const char *const kinds[] = { "function", "table", "memory", "global" };
    ARGS(2);
    thing *t = get(env, v[0]); wasmloop_listed listed; wasmloop_type type; napi_value list, o, x; char *name;
    if (!t) return NULL;
    napi_create_array(env, &list);
    for (uint32_t i = 0, most = u32(env, v[1]); i < most && wasmloop_export_at(&t->handle, i, NULL, 0, &listed, &type) == WASMLOOP_OK; i++) {
        if (!(name = malloc(listed.length + 1))) return fail(env, "MEMORY", "out of memory");
        wasmloop_export_at(&t->handle, i, name, listed.length, &listed, &type);
        napi_create_object(env, &o);
        napi_create_string_utf8(env, name, listed.length, &x);
        free(name);
        set(env, o, "name", x);
        napi_create_string_utf8(env, kinds[listed.kind], NAPI_AUTO_LENGTH, &x);
        set(env, o, "kind", x);
        napi_set_element(env, list, i, o);
    }
    return list;
}

/* a text that a call has copied, as one line; empty if its status says that it has not */
static napi_value line(napi_env env, int s, char *text, size_t room, uint64_t n)
{
    napi_value v;
    napi_create_string_latin1(env, text, host_line(text, room, s == WASMLOOP_OK ? n : 0), &v);
    return v;
}

static napi_value told(napi_env env, wasmloop_handle *of)
{
    char text[1000]; uint64_t n = 0;
    int s = wasmloop_stop_told(NULL, 0, of, text, sizeof text - 1, &n);
    return line(env, s, text, sizeof text, n);
}

/* how a run ended, in words */
static napi_value why(napi_env env, uint32_t ending, uint32_t trap, uint64_t used)
{
    char text[200]; uint64_t n = 0;
    int s = wasmloop_ended_text(ending, trap, used, text, sizeof text - 1, &n);
    return line(env, s, text, sizeof text, n);
}

static napi_value ended_of(napi_env env, thing *t, const wasmloop_ended *e, uint32_t over)
{
    napi_value o, a;
    napi_create_object(env, &o);
    set(env, o, "over", number(env, over));
    if (!over) return o;
    napi_create_array(env, &a);
    for (uint32_t i = 0; i < e->results; i++) napi_set_element(env, a, i, big(env, e->result[i]));
    set(env, o, "results", a);
    set(env, o, "ending", number(env, e->ending));
    set(env, o, "trap", number(env, e->trap));
    set(env, o, "used", big(env, e->used));
    if (!e->ending) return o;
    set(env, o, "why", why(env, e->ending, e->trap, e->used));
    set(env, o, "where", told(env, &t->handle));
    return o;
}

/* instance(module, fuel, depth) */
static napi_value instance(napi_env env, napi_callback_info info)
{
    ARGS(3);
    thing *m = get(env, v[0]), *t; wasmloop_ended e; int s; napi_value buffer; void *at; char why[100];
    if (!m || !(t = made(env))) return NULL;
    t->limits = (wasmloop_call_limits){ u64(env, v[1]), u32(env, v[2]), 0 };
    s = host_instance(&m->handle, t->limits, &t->handle, &e);
    if (s == WASMLOOP_OK && napi_create_arraybuffer(env, 272 * sizeof *t->words, &at, &buffer) == napi_ok && napi_create_reference(env, buffer, 1, &t->held) == napi_ok) {
        t->words = at;
        return external(env, t);
    }
    if (s == WASMLOOP_NOT_STARTED) host_ended(&t->handle, &e, why, sizeof why);
    finalize(env, t, NULL);
    return s == WASMLOOP_OK ? NULL : s == WASMLOOP_NOT_STARTED ? fail(env, "NOT_STARTED", why) : status(env, s, NULL);
}

static uint64_t args_of(napi_env env, napi_value list, uint64_t *args)
{
    uint32_t n = 0; napi_value x;
    napi_get_array_length(env, list, &n);
    for (uint32_t i = 0; i < n && i < 256; i++) { napi_get_element(env, list, i, &x); args[i] = u64(env, x); }
    return n;
}

/* words(instance): a BigUint64Array of 272: 256 arguments, then 16 results */
static napi_value words(napi_env env, napi_callback_info info)
{
    ARGS(1);
    thing *t = get(env, v[0]); napi_value at, o;
    if (!t || !t->words) return NULL;
    napi_get_reference_value(env, t->held, &at);
    napi_create_typedarray(env, napi_biguint64_array, 272, at, 0, &o);
    return o;
}

/* callAt(instance, number, count): how it ended. The arguments and results are in the words: no object is made. */
static napi_value call_at(napi_env env, napi_callback_info info)
{
    ARGS(3);
    thing *t = get(env, v[0]); int s; napi_value o; uint32_t n = u32(env, v[2]);
    if (!t || !t->words) return NULL;
    s = n > 256 ? WASMLOOP_RANGE : wasmloop_call_at(&t->handle, u32(env, v[1]), t->words, n, &t->limits, &t->ended);
    if (s != WASMLOOP_OK) return status(env, s, NULL);
    memcpy(t->words + 256, t->ended.result, sizeof t->ended.result);
    napi_create_uint32(env, t->ended.ending, &o);
    return o;
}

/* last(instance): the whole outcome of the last call */
static napi_value last(napi_env env, napi_callback_info info)
{
    ARGS(1);
    thing *t = get(env, v[0]);
    return t ? ended_of(env, t, &t->ended, 1) : NULL;
}

/* What runs on the pool: a job, or a call of an instance. */
typedef struct task {
    napi_async_work work; napi_deferred done; napi_ref ref; thing *of;
    int call, begun, s; uint32_t over; wasmloop_ended e; uint64_t at, n, args[256];
} task;

static int goes_on(task *k) { return !k->over && k->s == WASMLOOP_OK && !atomic_load(&k->of->stop) && !atomic_load(&quitting); }

static int slice(task *k)
{
    wasmloop_handle *of = &k->of->handle;
    if (!k->call) return wasmloop_job_run_for(of, HOST_JOB_SLICE, &k->over);
    if (k->begun) return wasmloop_call_run_for(of, HOST_JOB_SLICE, &k->over, &k->e);
    k->begun = 1;
    return wasmloop_call_for(of, k->at, k->args, k->n, &k->of->limits, HOST_JOB_SLICE, &k->over, &k->e);
}

static void execute(napi_env env, void *at)
{
    task *k = at;
    (void)env;
    for (int i = 0; i < SLICES && goes_on(k); i++) k->s = slice(k);
}

static napi_value about_of(napi_env env, thing *t, uint32_t over)
{
    napi_value o; wasmloop_about a; const uint8_t *at; uint64_t n;
    wasmloop_job_about(&t->handle, &a);
    napi_create_object(env, &o);
    set(env, o, "over", number(env, over));
    set(env, o, "outcome", number(env, a.outcome));
    set(env, o, "value", number(env, (double)(int32_t)a.value));
    set(env, o, "used", big(env, a.used));
    if (wasmloop_job_view(&t->handle, &at, &n) == WASMLOOP_OK) set(env, o, "reply", buffer(env, at, n));
    else {
        char text[200];
        int s = wasmloop_outcome_text(a.outcome, a.value, a.used, text, sizeof text - 1, &n);
        set(env, o, "why", line(env, s, text, sizeof text, n));
        set(env, o, "where", told(env, &t->handle));
    }
    return o;
}

static void complete(napi_env env, napi_status s, void *at);

/* Gives a task to the pool, for a turn. Not while its environment ends: then no call that may run JavaScript succeeds. */
static int queue(napi_env env, task *k)
{
    napi_value name;
    if (k->work) napi_delete_async_work(env, k->work);
    k->work = NULL;
    return napi_create_string_utf8(env, "wasmloop", NAPI_AUTO_LENGTH, &name) == napi_ok && napi_coerce_to_string(env, name, &name) == napi_ok
        && napi_create_async_work(env, NULL, name, execute, complete, k, &k->work) == napi_ok && napi_queue_async_work(env, k->work) == napi_ok;
}

static void complete(napi_env env, napi_status s, void *at)
{
    task *k = at; napi_value code, text, error;
    if (s == napi_ok && goes_on(k)) {
        if (queue(env, k)) return;
        k->s = WASMLOOP_MEMORY;
    }
    if (k->begun && !k->over) wasmloop_call_end(&k->of->handle, &k->e);         /* the instance lives on, with its state */
    atomic_store(&k->of->busy, 0);
    if (k->s == WASMLOOP_OK) napi_resolve_deferred(env, k->done, k->call ? ended_of(env, k->of, &k->e, k->over) : about_of(env, k->of, k->over));
    else {
        napi_create_string_utf8(env, wasmloop_status_name(k->s), NAPI_AUTO_LENGTH, &code);
        napi_create_string_utf8(env, wasmloop_status_text(k->s), NAPI_AUTO_LENGTH, &text);
        napi_create_error(env, code, text, &error);
        napi_reject_deferred(env, k->done, error);
    }
    napi_delete_reference(env, k->ref);
    if (k->work) napi_delete_async_work(env, k->work);
    free(k);
}

/* pool(job), pool(instance, the number of an export, its arguments): a promise */
static napi_value pool(napi_env env, napi_callback_info info)
{
    ARGS(3);
    thing *t = get(env, v[0]); napi_value promise; task *k;
    if (!t) return NULL;
    if (!(k = calloc(1, sizeof *k))) return fail(env, "MEMORY", "out of memory");
    k->of = t; k->call = t->words != NULL;
    if (k->call) { k->at = u32(env, v[1]); k->n = args_of(env, v[2], k->args); }
    atomic_store(&t->busy, 1);
    atomic_store(&t->stop, 0);
    napi_create_reference(env, v[0], 1, &k->ref);               /* it is not collected meanwhile */
    napi_create_promise(env, &k->done, &promise);
    if (!queue(env, k)) { k->s = WASMLOOP_MEMORY; complete(env, napi_cancelled, k); }
    return promise;
}

static napi_value stop(napi_env env, napi_callback_info info)
{
    ARGS(1);
    void *t;
    if (napi_get_value_external(env, v[0], &t) == napi_ok) atomic_store(&((thing *)t)->stop, 1);
    return NULL;
}

static napi_value quit(napi_env env, napi_callback_info info) { (void)env; (void)info; atomic_store(&quitting, 1); return NULL; }

static napi_value job(napi_env env, napi_callback_info info)
{
    ARGS(5);
    thing *m = get(env, v[0]), *t; uint8_t *at; size_t length; int s;
    if (!m || !bytes_of(env, v[2], &at, &length) || !(t = made(env))) return NULL;
    wasmloop_task what = { u64(env, v[3]), u32(env, v[1]), u32(env, v[4]) };
    s = wasmloop_job_new(&m->handle, &what, at, length, &t->handle);
    if (s == WASMLOOP_OK) return external(env, t);
    free(t);
    return status(env, s, NULL);
}

static napi_value read_memory(napi_env env, napi_callback_info info)
{
    ARGS(3);
    thing *t = get(env, v[0]); napi_value o; void *at; size_t n;
    if (!t) return NULL;
    n = u32(env, v[2]);
    if (n > 64 * 65536 || napi_create_buffer(env, n, &at, &o) != napi_ok) return status(env, WASMLOOP_RANGE, NULL);
    return status(env, wasmloop_read(&t->handle, u32(env, v[1]), at, n), o);
}

static napi_value write_memory(napi_env env, napi_callback_info info)
{
    ARGS(3);
    thing *t = get(env, v[0]); uint8_t *at; size_t n;
    if (!t || !bytes_of(env, v[2], &at, &n)) return NULL;
    return status(env, wasmloop_write(&t->handle, u32(env, v[1]), at, n), NULL);
}

/* ---- Loops ---- */

static napi_value loop(napi_env env, napi_callback_info info)
{
    ARGS(5);
    thing *m = get(env, v[0]), *t; int s;
    if (!m || !(t = made(env))) return NULL;
    wasmloop_limits limits = { u64(env, v[1]), u64(env, v[2]), u32(env, v[3]), u32(env, v[4]) };
    s = wasmloop_loop(&m->handle, &limits, &t->handle);
    if (s == WASMLOOP_OK) return external(env, t);
    free(t);
    return status(env, s, NULL);
}

/* turnFor(loop, now in ms, units): what happened, with the values emitted */
static napi_value turn_for(napi_env env, napi_callback_info info)
{
    ARGS(3);
    thing *t = get(env, v[0]); uint32_t over = 0, n = 0; uint64_t now; int64_t emits[64]; napi_value o, a, x; int s;
    if (!t) return NULL;
    wasmloop_clock(&t->handle, u64(env, v[1]), &now);           /* KIND while a callback is paused: the clock then waits */
    s = wasmloop_turn_for(&t->handle, UINT32_MAX, u64(env, v[2]), &over, &t->told);
    if (s != WASMLOOP_OK) return status(env, s, NULL);
    napi_create_object(env, &o);
    set(env, o, "over", number(env, over));
    set(env, o, "what", number(env, t->told.did.what));
    set(env, o, "ending", number(env, t->told.did.ending));
    set(env, o, "wait", number(env, over ? t->told.wait == WASMLOOP_FOREVER ? -1 : (double)t->told.wait : 0));
    set(env, o, "used", big(env, t->told.did.used));
    if (over && t->told.did.ending) set(env, o, "why", why(env, t->told.did.ending, t->told.did.trap, t->told.did.used));
    if (over && (t->told.did.what == WASMLOOP_FAILED || t->told.did.ending)) set(env, o, "where", told(env, &t->handle));
    if (over && t->told.did.what == WASMLOOP_RAN && t->told.did.emits && wasmloop_emits(&t->handle, emits, 64, &n) == WASMLOOP_OK) {
        napi_create_array(env, &a);
        for (uint32_t i = 0; i < n; i++) { napi_create_bigint_int64(env, emits[i], &x); napi_set_element(env, a, i, x); }
        set(env, o, "emits", a);
    }
    return o;
}

static napi_value next_job(napi_env env, napi_callback_info info)
{
    ARGS(1);
    thing *t = get(env, v[0]), *j; napi_value o; wasmloop_about a;
    if (!t || !(j = made(env))) return NULL;
    if (wasmloop_next_job(&t->handle, &j->handle) != WASMLOOP_OK || wasmloop_job_about(&j->handle, &a) != WASMLOOP_OK) {
        finalize(env, j, NULL);
        napi_get_null(env, &o);
        return o;
    }
    napi_create_object(env, &o);
    set(env, o, "job", external(env, j));
    set(env, o, "request", number(env, a.request));
    return o;
}
static napi_value accept_job(napi_env env, napi_callback_info info) { ARGS(2); thing *t = get(env, v[0]), *j = t ? get(env, v[1]) : NULL; return j ? number(env, wasmloop_accept(&t->handle, &j->handle)) : NULL; }
static napi_value async_send(napi_env env, napi_callback_info info) { ARGS(2); thing *t = get(env, v[0]); return t ? status(env, wasmloop_async_send(&t->handle, u32(env, v[1])), NULL) : NULL; }
static napi_value cancel(napi_env env, napi_callback_info info)
{
    ARGS(2);
    thing *t = get(env, v[0]); int32_t answer = 0; int s;
    if (!t) return NULL;
    s = wasmloop_cancel(&t->handle, u32(env, v[1]), &answer);
    return status(env, s, number(env, answer));
}
static napi_value request(napi_env env, napi_callback_info info)
{
    ARGS(3);
    thing *t = get(env, v[0]); uint8_t *at; size_t n; int32_t answer = 0; int s;
    if (!t || !bytes_of(env, v[2], &at, &n)) return NULL;
    s = wasmloop_request(&t->handle, u32(env, v[1]), at, n, &answer);
    return status(env, s, number(env, answer));
}

static napi_value init(napi_env env, napi_value exports)
{
    static const struct { const char *name; napi_callback f; } all[] = { { "load", load }, { "type", type_of }, { "exports", exports_of }, { "instance", instance }, { "callAt", call_at }, { "words", words }, { "last", last },
        { "pool", pool }, { "stop", stop }, { "quit", quit }, { "job", job }, { "read", read_memory }, { "write", write_memory }, { "loop", loop }, { "turnFor", turn_for }, { "nextJob", next_job },
        { "accept", accept_job }, { "send", async_send }, { "request", request }, { "cancel", cancel } };
    for (size_t i = 0; i < sizeof all / sizeof *all; i++) {
        napi_value f;
        napi_create_function(env, all[i].name, NAPI_AUTO_LENGTH, all[i].f, NULL, &f);
        set(env, exports, all[i].name, f);
    }
    return exports;
}
NAPI_MODULE(wasmloop, init)
