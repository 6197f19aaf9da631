/* A module for Redis: strangers' functions with exact fuel, in slices, so that the server answers others meanwhile.
 *
 *     WL.LOAD name module [fuel [milliseconds]]     loads bytes of a module, or tells why not; the limits of a call
 *     WL.CALL name operation bytes                  uv_work on the bytes: its reply
 *     WL.GET  name operation key                    uv_work on the value of a key (as it is when the command arrives)
 *     WL.MGET name operation key [key ..]           uv_work on the values of keys, each behind its length in 4 bytes, 2^32 - 1 for none
 *     WL.DEL  name                                  running calls keep it: 1, or 0 if there is none
 *     WL.LIST                                       name, bytes, fuel, milliseconds of each
 *
 *     loadmodule wasmloop.so [CALLS]                so many may run at a time (128), each with a memory of up to 4 MiB
 *
 * A call that ends in its first slice is answered at once. Otherwise the client is blocked, as by BLPOP, and the server's loop runs slices of the calls in
 * turn. Where Lua has a busy script that only SCRIPT KILL or SHUTDOWN ends, a call here ends at its fuel, its time, or when its client leaves. Modules are
 * saved in the RDB file, and replicated. A guest touches no key. */
#include <limits.h>
#include <stdlib.h>
#include <sys/eventfd.h>
#include <time.h>
#include "module_api.h"
#include "../host.h"

#define SLICE 20000                 /* units */
#define SLICES 5                    /* of an iteration of the server's loop, all calls together */
#define MOST 65536                  /* bytes of input */

typedef struct plugin { struct plugin *next; char *name; size_t name_length; wasmloop_handle module; uint8_t *bytes; size_t length; uint64_t fuel; long long ms; int uses; } plugin;
typedef struct call { struct call *next, *before; plugin *plugin; wasmloop_handle job; RedisModuleBlockedClient *client; double until; int left; const char *late; } call;
static plugin *all;
static call running = { .next = &running, .before = &running };       /* a ring of the calls that are blocked; the next to run is running.next */
static long long calls, most_calls = 128;
static int wake = -1;               /* readable, and in the server's loop, while there are any */

static double now(void) { struct timespec t; clock_gettime(CLOCK_MONOTONIC, &t); return (double)t.tv_sec * 1e3 + (double)t.tv_nsec / 1e6; }

static void unuse(plugin *p)
{
    if (--p->uses) return;
    wasmloop_drop(&p->module);
    free(p->bytes);
    free(p->name);
    free(p);
}

static plugin **find(const char *name, size_t n)
{
    plugin **at = &all;
    while (*at && ((*at)->name_length != n || memcmp((*at)->name, name, n))) at = &(*at)->next;
    return at;
}

static void take_out(plugin **at)
{
    plugin *p = *at;
    if (!p) return;
    *at = p->next;
    unuse(p);                       /* running calls keep it */
}

/* Loads a module under a name, in place of the one that has it. 0, or why not. */
static const char *add(const char *name, size_t n, const char *bytes, size_t length, uint64_t fuel, long long ms, char *why, size_t room)
{
    wasmloop_shape shape;
    plugin *p = calloc(1, sizeof *p);
    if (!p) return "out of memory";
    *p = (plugin){ .name = malloc(n + 1), .name_length = n, .bytes = malloc(length + 1), .length = length, .fuel = fuel, .ms = ms, .uses = 1 };
    if (!p->name || !p->bytes) { unuse(p); return "out of memory"; }
    memcpy(p->name, name, n);
    memcpy(p->bytes, bytes, length);
    if (host_load(bytes, length, &p->module, why, room) != WASMLOOP_OK) { unuse(p); return why; }
    if (wasmloop_shape_of(&p->module, &shape) != WASMLOOP_OK || !shape.work) { unuse(p); return "it exports no uv_work"; }
    take_out(find(name, n));
    p->next = all;
    all = p;
    return NULL;
}

static int load_command(RedisModuleCtx *ctx, RedisModuleString **v, int count)
{
    if (count < 3 || count > 5) return RM_WrongArity(ctx);
    size_t n, length;
    const char *name = RM_StringPtrLen(v[1], &n), *bytes = RM_StringPtrLen(v[2], &length), *wrong;
    long long fuel = 10000000, ms = 1000;
    char why[300], text[350];
    if (count > 3 && (RM_StringToLongLong(v[3], &fuel) || fuel < 1)) return RM_ReplyWithError(ctx, "ERR fuel is not a number from 1");
    if (count > 4 && (RM_StringToLongLong(v[4], &ms) || ms < 1)) return RM_ReplyWithError(ctx, "ERR milliseconds is not a number from 1");
    wrong = add(name, n, bytes, length, (uint64_t)fuel, ms, why, sizeof why);
    if (wrong) { snprintf(text, sizeof text, "ERR rejected: %s", wrong); return RM_ReplyWithError(ctx, text); }
    RM_ReplicateVerbatim(ctx);
    return RM_ReplyWithSimpleString(ctx, "OK");
}

static int del_command(RedisModuleCtx *ctx, RedisModuleString **v, int count)
{
    if (count != 2) return RM_WrongArity(ctx);
    size_t n;
    const char *name = RM_StringPtrLen(v[1], &n);
    plugin **at = find(name, n);
    int there = *at != NULL;
    take_out(at);
    if (there) RM_ReplicateVerbatim(ctx);
    return RM_ReplyWithLongLong(ctx, there);
}

static int list_command(RedisModuleCtx *ctx, RedisModuleString **v, int count)
{
    long n = 0;
    (void)v;
    if (count != 1) return RM_WrongArity(ctx);
    for (plugin *p = all; p; p = p->next) n++;
    RM_ReplyWithArray(ctx, n);
    for (plugin *p = all; p; p = p->next) {
        RM_ReplyWithArray(ctx, 4);
        RM_ReplyWithStringBuffer(ctx, p->name, p->name_length);
        RM_ReplyWithLongLong(ctx, (long long)p->length);
        RM_ReplyWithLongLong(ctx, (long long)p->fuel);
        RM_ReplyWithLongLong(ctx, p->ms);
    }
    return REDISMODULE_OK;
}

static int reply(RedisModuleCtx *ctx, call *c)
{
    const uint8_t *bytes;
    uint64_t n = 0;
    char text[900] = "ERR ";
    if (wasmloop_job_view(&c->job, &bytes, &n) == WASMLOOP_OK) return RM_ReplyWithStringBuffer(ctx, n ? (const char *)bytes : "", n);
    host_job_ended(&c->job, c->late, text + 4, sizeof text - 4);
    return RM_ReplyWithError(ctx, text);
}

static void call_free(RedisModuleCtx *ctx, void *at)
{
    call *c = at;
    (void)ctx;
    wasmloop_drop(&c->job);
    unuse(c->plugin);
    free(c);
}

static int unblocked(RedisModuleCtx *ctx, RedisModuleString **v, int count) { (void)v; (void)count; return reply(ctx, RM_GetBlockedClientPrivateData(ctx)); }

static void disconnected(RedisModuleCtx *ctx, RedisModuleBlockedClient *client)
{
    (void)ctx;
    for (call *c = running.next; c != &running; c = c->next)
        if (c->client == client) c->left = 1;
}

static void leave(call *c)
{
    c->before->next = c->next;
    c->next->before = c->before;
    calls--;
    RM_UnblockClient(c->client, c);     /* also of a client that has left: call_free is then all that is called */
}

/* Once per iteration of the server's loop: some slices of the calls that run, in turn. */
static void slices(int fd, void *data, int mask)
{
    (void)data;
    (void)mask;
    for (int i = 0; i < SLICES && calls; i++) {
        call *c = running.next;
        uint32_t over = 0;
        int status = c->left ? WASMLOOP_NONE : wasmloop_job_run_for(&c->job, SLICE, &over);
        if (status == WASMLOOP_OK && !over && now() >= c->until) c->late = "deadline";
        if (status != WASMLOOP_OK || over || c->late) { leave(c); continue; }
        running.next = c->next;         /* to the end of the ring */
        c->next->before = &running;
        c->before = running.before;
        c->next = &running;
        running.before->next = c;
        running.before = c;
    }
    if (!calls) RM_EventLoopDel(fd, 1);
}

static int run(RedisModuleCtx *ctx, RedisModuleString **v, const char *bytes, size_t length)
{
    size_t n;
    const char *name = RM_StringPtrLen(v[1], &n), *wrong = NULL;
    plugin *p = *find(name, n);
    long long op;
    if (!p) return RM_ReplyWithError(ctx, "ERR there is no such plug-in");
    if (RM_StringToLongLong(v[2], &op) || op < 0 || op > UINT32_MAX) return RM_ReplyWithError(ctx, "ERR the operation is not a number from 0 to 4294967295");
    wasmloop_task task = { p->fuel, (uint32_t)op, 64 };
    call *c = calloc(1, sizeof *c);
    int status = c ? wasmloop_job_new(&p->module, &task, (const uint8_t *)bytes, length, &c->job) : WASMLOOP_MEMORY;
    if (status != WASMLOOP_OK) { free(c); return RM_ReplyWithError(ctx, status == WASMLOOP_RANGE ? "ERR more than 65536 bytes" : "ERR out of memory"); }
    c->plugin = p;
    p->uses++;
    c->until = now() + (double)p->ms;
    uint32_t over = 0;
    status = wasmloop_job_run_for(&c->job, SLICE, &over);
    if (status != WASMLOOP_OK || over) { reply(ctx, c); call_free(ctx, c); return REDISMODULE_OK; }
    if (RM_GetContextFlags(ctx) & (REDISMODULE_CTX_FLAGS_LUA | REDISMODULE_CTX_FLAGS_MULTI | REDISMODULE_CTX_FLAGS_DENY_BLOCKING))
        wrong = "ERR it takes more than a slice, which a transaction or a script does not allow";
    else if (calls >= most_calls) wrong = "ERR too many calls at a time";
    else if (calls == 0 && RM_EventLoopAdd(wake, 1, slices, NULL) != REDISMODULE_OK) wrong = "ERR the server's loop takes no event";
    if (wrong) { call_free(ctx, c); return RM_ReplyWithError(ctx, wrong); }
    c->client = RM_BlockClient(ctx, unblocked, NULL, call_free, 0);     /* without a timeout's callback, CLIENT UNBLOCK leaves it alone */
    RM_SetDisconnectCallback(c->client, disconnected);
    c->before = running.before;
    c->next = &running;
    running.before->next = c;
    running.before = c;
    calls++;
    return REDISMODULE_OK;
}

static int call_command(RedisModuleCtx *ctx, RedisModuleString **v, int count)
{
    if (count != 4) return RM_WrongArity(ctx);
    size_t n;
    const char *bytes = RM_StringPtrLen(v[3], &n);
    return run(ctx, v, bytes, n);
}

static int get_command(RedisModuleCtx *ctx, RedisModuleString **v, int count)
{
    if (count != 4) return RM_WrongArity(ctx);
    size_t n = 0;
    RedisModuleKey *key = RM_OpenKey(ctx, v[3], REDISMODULE_READ);
    if (!key) return RM_ReplyWithNull(ctx);
    int answer = RM_KeyType(key) != REDISMODULE_KEYTYPE_STRING ? RM_ReplyWithError(ctx, "WRONGTYPE Operation against a key holding the wrong kind of value") : -1;
    if (answer < 0) {
        const char *bytes = RM_StringDMA(key, &n, REDISMODULE_READ);
        answer = run(ctx, v, bytes, n);             /* the bytes are copied into the job before anything else runs */
    }
    RM_CloseKey(key);
    return answer;
}

/* Appends a key's value, as MGET has it: none of a key of another type. 0 if there is no room. */
static int append(RedisModuleCtx *ctx, RedisModuleString *name, uint8_t *bytes, size_t *at)
{
    RedisModuleKey *key = RM_OpenKey(ctx, name, REDISMODULE_READ);
    size_t n = 0;
    const char *value = key && RM_KeyType(key) == REDISMODULE_KEYTYPE_STRING ? RM_StringDMA(key, &n, REDISMODULE_READ) : NULL;
    int fits = n <= MOST && *at + 4 + n <= MOST;
    uint32_t head = value ? (uint32_t)n : UINT32_MAX;
    for (int i = 0; fits && i < 4; i++) bytes[(*at)++] = (uint8_t)(head >> 8 * i);
    if (fits && n) memcpy(bytes + *at, value, n);
    if (fits) *at += n;
    if (key) RM_CloseKey(key);
    return fits;
}

static int mget_command(RedisModuleCtx *ctx, RedisModuleString **v, int count)
{
    static uint8_t bytes[MOST];                     /* of the server's one thread; the job has a copy */
    size_t at = 0;
    if (count < 4) return RM_WrongArity(ctx);
    for (int i = 3; i < count; i++)
        if (!append(ctx, v[i], bytes, &at)) return RM_ReplyWithError(ctx, "ERR more than 65536 bytes");
    return run(ctx, v, (const char *)bytes, at);
}

/* ---- The RDB file ---- */

static void save(RedisModuleIO *io, int when)
{
    uint64_t n = 0;
    (void)when;
    for (plugin *p = all; p; p = p->next) n++;
    RM_SaveUnsigned(io, n);
    for (plugin *p = all; p; p = p->next) {
        RM_SaveStringBuffer(io, p->name, p->name_length);
        RM_SaveStringBuffer(io, (const char *)p->bytes, p->length);
        RM_SaveUnsigned(io, p->fuel);
        RM_SaveUnsigned(io, (uint64_t)p->ms);
    }
}

/* What a file or a primary sends takes the place of all that is there. */
static int restore(RedisModuleIO *io, int version, int when)
{
    uint64_t n = RM_LoadUnsigned(io);
    (void)when;
    if (version != 1) return REDISMODULE_ERR;
    while (all) take_out(&all);
    for (uint64_t i = 0; i < n && !RM_IsIOError(io); i++) {
        size_t name_length = 0, length = 0;
        char why[300], *name = RM_LoadStringBuffer(io, &name_length), *bytes = RM_IsIOError(io) ? NULL : RM_LoadStringBuffer(io, &length);
        uint64_t fuel = RM_IsIOError(io) ? 0 : RM_LoadUnsigned(io), ms = RM_IsIOError(io) ? 0 : RM_LoadUnsigned(io);
        const char *wrong = RM_IsIOError(io) || ms > LLONG_MAX ? "the file is cut or changed" : add(name, name_length, bytes, length, fuel, (long long)ms, why, sizeof why);
        if (wrong) RM_Log(NULL, "warning", "wasmloop: a module of the RDB file is left out: %s", wrong);
        if (name) RM_Free(name);
        if (bytes) RM_Free(bytes);
    }
    return RM_IsIOError(io) ? REDISMODULE_ERR : REDISMODULE_OK;
}

int RedisModule_OnLoad(RedisModuleCtx *ctx, RedisModuleString **v, int count)
{
    RedisModuleTypeMethods methods = { .version = 2, .aux_load = restore, .aux_save = save, .aux_save_triggers = REDISMODULE_AUX_BEFORE_RDB };
    module_api(ctx);
    RM_SetModuleAttribs(ctx, "wasmloop", 1, REDISMODULE_APIVER_1);
    if (!RM_EventLoopAdd) { RM_Log(ctx, "warning", "wasmloop: Redis 7 or newer is needed"); return REDISMODULE_ERR; }
    if (count > 1 || (count == 1 && (RM_StringToLongLong(v[0], &most_calls) || most_calls < 1))) { RM_Log(ctx, "warning", "wasmloop: its argument is a number of calls, from 1"); return REDISMODULE_ERR; }
    RM_SetModuleOptions(ctx, REDISMODULE_OPTIONS_HANDLE_IO_ERRORS);
    wake = eventfd(1, EFD_CLOEXEC | EFD_NONBLOCK);
    if (wake < 0 || !RM_CreateDataType(ctx, "wasmloop1", 1, &methods)) return REDISMODULE_ERR;
    return RM_CreateCommand(ctx, "wl.load", load_command, "write deny-oom admin", 0, 0, 0) || RM_CreateCommand(ctx, "wl.del", del_command, "write admin", 0, 0, 0)
        || RM_CreateCommand(ctx, "wl.list", list_command, "readonly admin", 0, 0, 0) || RM_CreateCommand(ctx, "wl.call", call_command, "readonly blocking", 0, 0, 0)
        || RM_CreateCommand(ctx, "wl.get", get_command, "readonly blocking", 3, 3, 1)
        || RM_CreateCommand(ctx, "wl.mget", mget_command, "readonly blocking", 3, -1, 1);
}
