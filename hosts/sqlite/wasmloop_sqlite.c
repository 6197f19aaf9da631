/* A loadable extension of SQLite: functions from WebAssembly modules, within limits.
 *
 *     .load ./wasmloop
 *     SELECT load_plugin('rules', readfile('rules.wasm'));            -- or with limits of a call: .., fuel, depth)
 *     SELECT plugin_functions('rules');                               -- a function rules_EXPORT of each export
 *     SELECT rules_score(amount), rules_slug(title) FROM orders;
 *     SELECT plugin('rules', 'score', amount) FROM orders;            -- an export: numbers in, a number out
 *     SELECT plugin('rules', 'slug', title) FROM articles;            -- f(text, size, into, room): text in, text out
 *     SELECT plugin_aggregate('rules', 'running', amount) FROM orders GROUP BY who;   -- f(x) on an instance of each group: its last result
 *     SELECT plugin_work('rules', 0, body) FROM files;                -- uv_work on bytes, on fresh memory for each row
 *     SELECT plugin_fuel('rules');                                    -- the units used since it was loaded
 *
 * A guest that traps or exceeds a limit raises an SQL error that says why and where. Calls run in slices; sqlite3_interrupt ends them between two, and the
 * plug-in keeps its state. */
#include <sqlite3ext.h>
SQLITE_EXTENSION_INIT1
#include "../host.h"

#define MOST_NAME 250               /* bytes of a function's name; SQLite takes 255 */

typedef struct plugin {
    struct plugin *next;
    wasmloop_handle module, instance;
    wasmloop_call_limits limits;
    sqlite3_uint64 used;
    unsigned generation;            /* counts loads under this name: numbers looked up before are stale */
    char name[1];
} plugin;

/* What the functions of a connection share. Each has it by a count: an application may define one of these names anew, which ends the old function. */
typedef struct registry { plugin *first; struct named *named; unsigned generations; int uses; } registry;

/* A function that was looked up, kept beside the statement's constant arguments. */
typedef struct found { plugin *plugin; unsigned generation; uint64_t number, room; int has_room; wasmloop_type type; } found;

/* A function PLUGIN_EXPORT of SQL. It lives as long as its registry. */
typedef struct named { struct named *next; registry *registry; found found; const char *export; char name[1]; } named;

static void forget(plugin *p)
{
    wasmloop_drop(&p->instance);
    wasmloop_drop(&p->module);
}

static void registry_unuse(void *at)
{
    registry *r = at;
    if (--r->uses) return;
    while (r->first) {
        plugin *p = r->first;
        r->first = p->next;
        forget(p);
        sqlite3_free(p);
    }
    while (r->named) {
        named *f = r->named;
        r->named = f->next;
        sqlite3_free(f);
    }
    sqlite3_free(r);
}

static plugin *find(registry *r, const char *name)
{
    for (plugin *p = r->first; name && p; p = p->next)
        if (!strcmp(p->name, name)) return p;
    return NULL;
}

static void fail(sqlite3_context *c, const char *a, const char *b, const char *why)
{
    char *text = sqlite3_mprintf("plugin %s: %s: %s", a ? a : "NULL", b, why);
    if (text) sqlite3_result_error(c, text, -1); else sqlite3_result_error_nomem(c);
    sqlite3_free(text);
}

/* The error of a status that is not OK. */
static void fail_status(sqlite3_context *c, const plugin *p, const char *what, int status)
{
    if (status == WASMLOOP_MEMORY) sqlite3_result_error_nomem(c);
    else fail(c, p->name, what, status == WASMLOOP_NONE ? "no such function" : wasmloop_status_text(status));
}

/* The error of a call that did not return, with its place. */
static void fail_ended(sqlite3_context *c, const plugin *p, const char *what, wasmloop_handle *instance, const wasmloop_ended *ended)
{
    char why[700];
    host_ended(instance, ended, why, sizeof why);
    fail(c, p->name, what, why);
}

/* Puts a plug-in under its name. An older one of this name stays allocated, in its place, so that what statements keep of it does not dangle. */
static void put(registry *r, plugin *p)
{
    plugin *old = find(r, p->name);
    p->next = old ? old->next : r->first;
    if (!old) { r->first = p; return; }
    forget(old);
    memcpy(old, p, sizeof *p);          /* the names are equal; a handle may be moved, and the copy in p is not used again */
    sqlite3_free(p);
}

static void load_plugin(sqlite3_context *c, int count, sqlite3_value **v)
{
    registry *r = sqlite3_user_data(c);
    const int none = sqlite3_value_type(v[1]) == SQLITE_NULL;
    const char *name = (const char *)sqlite3_value_text(v[0]);
    const void *bytes = sqlite3_value_blob(v[1]);
    sqlite3_int64 fuel = count > 2 ? sqlite3_value_int64(v[2]) : 1000000, depth = count > 3 ? sqlite3_value_int64(v[3]) : 64;
    char why[300];
    wasmloop_ended ended;
    if (!name) return sqlite3_result_error(c, "load_plugin: the name is NULL", -1);
    if (none) return sqlite3_result_error(c, "load_plugin: the module is NULL, as readfile() is of a file that it can't read", -1);
    if (fuel < 1 || depth < 1 || depth > 128) return sqlite3_result_error(c, "load_plugin: fuel from 1, depth 1 to 128", -1);
    plugin *p = sqlite3_malloc64(sizeof *p + strlen(name));
    if (!p) return sqlite3_result_error_nomem(c);
    memset(p, 0, sizeof *p);
    strcpy(p->name, name);
    p->limits = (wasmloop_call_limits){ (uint64_t)fuel, (uint32_t)depth, 0 };
    p->generation = ++r->generations;
    int status = host_load(bytes, (size_t)sqlite3_value_bytes(v[1]), &p->module, why, sizeof why);
    if (status == WASMLOOP_OK) {
        status = host_instance(&p->module, p->limits, &p->instance, &ended);
        if (status == WASMLOOP_OK) return put(r, p), sqlite3_result_int(c, 1);
    }
    if (status == WASMLOOP_REFUSED) fail(c, name, "rejected", why);
    else if (status == WASMLOOP_NOT_STARTED) fail_ended(c, p, "start function", &p->instance, &ended);
    else fail_status(c, p, "load", status);
    forget(p);
    sqlite3_free(p);
}

/* Whether the statement is to end: another one of the connection, within it, is then refused or interrupted itself. */
static int interrupted(void *c)
{
    return sqlite3_exec(sqlite3_context_db_handle(c), "SELECT 1", NULL, NULL, NULL) == SQLITE_INTERRUPT;
}

/* Runs a call of an instance. 1: it has failed, and said so. */
static int run(sqlite3_context *c, plugin *p, wasmloop_handle *instance, uint64_t number, const char *name, const uint64_t *args, size_t count, wasmloop_ended *ended)
{
    uint32_t over;
    int status = host_call(instance, number, args, count, &p->limits, interrupted, c, &over, ended);
    if (status != WASMLOOP_OK) return fail_status(c, p, name, status), 1;
    p->used += ended->used;
    if (!over) return sqlite3_result_error_code(c, SQLITE_INTERRUPT), 1;
    if (ended->ending != WASMLOOP_RETURN) return fail_ended(c, p, name, instance, ended), 1;
    return 0;
}

/* Finds a function of a plug-in. 0: it has failed. */
static int resolve(sqlite3_context *c, registry *r, const char *name, const char *export, found *f)
{
    plugin *p = find(r, name);
    if (!p) return fail(c, name, "plugin", "not loaded"), 0;
    if (!export) return fail(c, name, "NULL", "no such function"), 0;
    f->plugin = p;
    f->generation = p->generation;
    f->has_room = wasmloop_export_number(&p->module, "room", &f->room) == WASMLOOP_OK;
    int status = wasmloop_export_number(&p->module, export, &f->number);
    if (status == WASMLOOP_OK) status = wasmloop_function(&p->module, export, &f->type);
    return status == WASMLOOP_OK ? 1 : (fail_status(c, p, export, status), 0);
}

/* The function that the first two arguments name; NULL: it has failed. */
static found *look_up(sqlite3_context *c, sqlite3_value **v)
{
    found *f = sqlite3_get_auxdata(c, 1);           /* kept while both are constants */
    if (f && sqlite3_get_auxdata(c, 0) == f->plugin && f->generation == f->plugin->generation) return f;
    f = sqlite3_malloc64(sizeof *f);
    if (!f) return sqlite3_result_error_nomem(c), NULL;
    if (!resolve(c, sqlite3_user_data(c), (const char *)sqlite3_value_text(v[0]), (const char *)sqlite3_value_text(v[1]), f)) return sqlite3_free(f), NULL;
    sqlite3_set_auxdata(c, 0, f->plugin, NULL);
    sqlite3_set_auxdata(c, 1, f, sqlite3_free);     /* frees f if there is no memory */
    f = sqlite3_get_auxdata(c, 1);
    if (!f) sqlite3_result_error_nomem(c);
    return f;
}

/* A call of a function of an instance. */
typedef struct call { const found *f; wasmloop_handle *instance; const char *name; int n, kind; uint32_t at, size; uint64_t args[12]; wasmloop_ended ended; } call;

/* Writes a text or a blob to where the guest has room for it, and for a result behind it. 0: it has failed. */
static int pass_bytes(sqlite3_context *c, call *k, sqlite3_value *v)
{
    plugin *p = k->f->plugin;
    const void *bytes = sqlite3_value_type(v) == SQLITE_TEXT ? (const void *)sqlite3_value_text(v) : sqlite3_value_blob(v);
    k->kind = sqlite3_value_type(v);
    k->size = (uint32_t)sqlite3_value_bytes(v);
    uint64_t asked = (uint64_t)k->size * 2 + 1024;
    if (!k->f->has_room) return fail(c, p->name, k->name, "there is no room(i32) for text"), 0;
    if (run(c, p, k->instance, k->f->room, "room", &asked, 1, &k->ended)) return 0;
    k->at = (uint32_t)k->ended.result[0];
    if (!k->at || wasmloop_write(k->instance, k->at, bytes, k->size) != WASMLOOP_OK) return sqlite3_result_error_toobig(c), 0;
    k->args[k->n++] = k->at;
    k->args[k->n++] = k->size;
    return 1;
}

/* 0: it has failed. */
static int pass(sqlite3_context *c, call *k, int count, sqlite3_value **v)
{
    const char *plugin = k->f->plugin->name;
    for (int i = 0; i < count; i++) {
        int kind = sqlite3_value_type(v[i]);
        if (kind == SQLITE_INTEGER) {
            sqlite3_int64 x = sqlite3_value_int64(v[i]);
            int is32 = (uint64_t)k->n < k->f->type.params && k->f->type.param[k->n] == 1;
            if (is32 && x != (int32_t)x) return fail(c, plugin, k->name, "an argument is out of range"), 0;
            k->args[k->n++] = is32 ? (uint32_t)x : (uint64_t)x;
        } else if ((kind != SQLITE_TEXT && kind != SQLITE_BLOB) || k->kind) return fail(c, plugin, k->name, "an argument is neither an integer nor the only text or blob"), 0;
        else if (!pass_bytes(c, k, v[i])) return 0;
    }
    if (k->kind && k->f->type.params == (uint64_t)k->n + 2) { k->args[k->n++] = k->at + k->size; k->args[k->n++] = k->size + 1024; } else k->kind = 0;
    return 1;
}

/* The bytes of a result; NULL: it has failed. */
static char *reply_of(sqlite3_context *c, call *k)
{
    int32_t length = (int32_t)k->ended.result[0];
    if (length < 0 || (uint32_t)length > k->size + 1024) return fail(c, k->f->plugin->name, k->name, "it returned an error"), NULL;
    char *reply = sqlite3_malloc64((sqlite3_uint64)length + 1);
    if (!reply) return sqlite3_result_error_nomem(c), NULL;
    if (wasmloop_read(k->instance, k->at + k->size, (uint8_t *)reply, (size_t)length) == WASMLOOP_OK) return reply;
    sqlite3_free(reply);
    return fail(c, k->f->plugin->name, k->name, "its result is outside its memory"), NULL;
}

/* Calls a function. Whether it has returned a number, which is in *number if `number` is given, else the result. */
static int call_of(sqlite3_context *c, const found *f, wasmloop_handle *instance, const char *name, int count, sqlite3_value **v, sqlite3_int64 *number)
{
    call k;
    char *reply;
    k.f = f, k.instance = instance, k.name = name;
    k.n = k.kind = 0;
    if (count > 8) return fail(c, f->plugin->name, name, "more than 8 arguments"), 0;
    for (int i = 0; i < count; i++)
        if (sqlite3_value_type(v[i]) == SQLITE_NULL) return 0;             /* NULL of NULL, as SQLite's own functions */
    if (!pass(c, &k, count, v) || run(c, f->plugin, instance, f->number, name, k.args, (size_t)k.n, &k.ended) || !k.ended.results) return 0;
    if (k.kind) {
        if (number) return sqlite3_result_error(c, "plugin_aggregate: the result is no number", -1), 0;
        if (!(reply = reply_of(c, &k))) return 0;
        if (k.kind == SQLITE_TEXT) sqlite3_result_text(c, reply, (int)k.ended.result[0], sqlite3_free);
        else sqlite3_result_blob(c, reply, (int)k.ended.result[0], sqlite3_free);
        return 0;
    }
    sqlite3_int64 x = f->type.result[0] == 1 ? (int32_t)k.ended.result[0] : (sqlite3_int64)k.ended.result[0];
    if (number) *number = x; else sqlite3_result_int64(c, x);
    return 1;
}

static void plugin_call(sqlite3_context *c, int count, sqlite3_value **v)
{
    if (count < 2) return sqlite3_result_error(c, "plugin(name, function, up to 8 arguments)", -1);
    found *f = look_up(c, v);
    if (f) call_of(c, f, &f->plugin->instance, (const char *)sqlite3_value_text(v[1]), count - 2, v + 2, NULL);
}

/* The state of a group. SQLite calls the last function of an aggregate for each group that has one, also behind an error. */
typedef struct group { wasmloop_handle instance; found f; int open, any; sqlite3_int64 last; } group;

static void aggregate_step(sqlite3_context *c, int count, sqlite3_value **v)
{
    wasmloop_ended ended;
    group *g = sqlite3_aggregate_context(c, sizeof *g);
    if (!g) return sqlite3_result_error_nomem(c);
    if (count < 3) return sqlite3_result_error(c, "plugin_aggregate(name, function, up to 8 numbers)", -1);
    const char *export = (const char *)sqlite3_value_text(v[1]);
    if (!g->open) {
        if (!resolve(c, sqlite3_user_data(c), (const char *)sqlite3_value_text(v[0]), export, &g->f)) return;
        int status = host_instance(&g->f.plugin->module, g->f.plugin->limits, &g->instance, &ended);
        if (status != WASMLOOP_OK) return fail_status(c, g->f.plugin, "group", status);
        g->open = 1;
    }
    g->any |= call_of(c, &g->f, &g->instance, export, count - 2, v + 2, &g->last);
}

static void aggregate_final(sqlite3_context *c)
{
    group *g = sqlite3_aggregate_context(c, 0);
    if (!g) return;
    if (g->any) sqlite3_result_int64(c, g->last);
    if (g->open) wasmloop_drop(&g->instance);
}

/* ---- Functions by the names of exports ---- */

static void named_call(sqlite3_context *c, int count, sqlite3_value **v)
{
    named *k = sqlite3_user_data(c);
    if (k->found.generation != k->found.plugin->generation && !resolve(c, k->registry, k->found.plugin->name, k->export, &k->found)) return;
    call_of(c, &k->found, &k->found.plugin->instance, k->export, count, v, NULL);
}

static void named_unuse(void *at)
{
    registry_unuse(((named *)at)->registry);
}

/* Whether SQL has a function of this name. */
static int is_there(sqlite3 *db, const char *name)
{
    sqlite3_stmt *s = NULL;
    int there = sqlite3_prepare_v2(db, "SELECT 1 FROM pragma_function_list WHERE name = ? COLLATE NOCASE", -1, &s, NULL) != SQLITE_OK
        || sqlite3_bind_text(s, 1, name, -1, SQLITE_STATIC) != SQLITE_OK || sqlite3_step(s) != SQLITE_DONE;
    sqlite3_finalize(s);
    return there;
}

/* Makes the function PLUGIN_EXPORT. 0: it has failed; else 1, also if it is made already. No function of another takes its place. */
static int name_one(sqlite3_context *c, plugin *p, const char *export)
{
    registry *r = sqlite3_user_data(c);
    named *k = sqlite3_malloc64(sizeof *k + strlen(p->name) + strlen(export) + 1);
    if (!k) return sqlite3_result_error_nomem(c), 0;
    *k = (named){ .next = r->named, .registry = r, .found = { .plugin = p } };     /* the first call looks it up: generations begin at 1 */
    sprintf(k->name, "%s_%s", p->name, export);
    k->export = k->name + strlen(p->name) + 1;
    for (named *old = r->named; old; old = old->next)
        if (!strcmp(old->name, k->name)) return sqlite3_free(k), 1;
    if (is_there(sqlite3_context_db_handle(c), k->name)) return fail(c, p->name, k->name, "there is a function of this name"), sqlite3_free(k), 0;
    r->uses++;
    int status = sqlite3_create_function_v2(sqlite3_context_db_handle(c), k->name, -1, SQLITE_UTF8, k, named_call, NULL, NULL, named_unuse);
    if (status != SQLITE_OK) return sqlite3_result_error_code(c, status), sqlite3_free(k), 0;
    r->named = k;
    return 1;
}

static void plugin_functions(sqlite3_context *c, int count, sqlite3_value **v)
{
    const char *name = (const char *)sqlite3_value_text(v[0]);
    plugin *p = find(sqlite3_user_data(c), name);
    wasmloop_listed listed;
    wasmloop_type type;
    char export[MOST_NAME + 1];
    int made = 0;
    (void)count;
    if (!p) return fail(c, name, "plugin_functions", "not loaded");
    for (uint64_t i = 0; wasmloop_export_at(&p->module, i, export, MOST_NAME, &listed, &type) == WASMLOOP_OK; i++) {
        if (listed.kind != 0 || listed.length + strlen(name) + 1 > MOST_NAME || memchr(export, 0, listed.length)) continue;
        export[listed.length] = 0;
        if (!name_one(c, p, export)) return;
        made++;
    }
    sqlite3_result_int(c, made);
}

static void plugin_work(sqlite3_context *c, int count, sqlite3_value **v)
{
    const char *name = (const char *)sqlite3_value_text(v[0]);
    plugin *p = find(sqlite3_user_data(c), name);
    (void)count;
    if (!p) return fail(c, name, "plugin_work", "not loaded");
    wasmloop_handle job = WASMLOOP_HANDLE_INIT;
    wasmloop_task task = { p->limits.fuel, (uint32_t)sqlite3_value_int64(v[1]), p->limits.depth };
    const uint8_t *bytes = sqlite3_value_blob(v[2]), *reply;
    uint32_t over = 0;
    int status = wasmloop_job_new(&p->module, &task, bytes, (size_t)sqlite3_value_bytes(v[2]), &job);
    if (status == WASMLOOP_OK) do status = wasmloop_job_run_for(&job, HOST_JOB_SLICE, &over); while (status == WASMLOOP_OK && !over && !interrupted(c));
    wasmloop_about about;
    uint64_t length;
    char why[700];
    if (status != WASMLOOP_OK) fail_status(c, p, "work", status);
    else if (wasmloop_job_about(&job, &about) == WASMLOOP_OK) p->used += about.used;
    if (status == WASMLOOP_OK && !over) sqlite3_result_error_code(c, SQLITE_INTERRUPT);
    else if (status == WASMLOOP_OK && wasmloop_job_view(&job, &reply, &length) == WASMLOOP_OK)
        sqlite3_result_blob(c, length ? (const void *)reply : "", (int)length, SQLITE_TRANSIENT);
    else if (status == WASMLOOP_OK) { host_job_ended(&job, NULL, why, sizeof why); fail(c, p->name, "work", why); }
    wasmloop_drop(&job);
}

static void plugin_fuel(sqlite3_context *c, int count, sqlite3_value **v)
{
    plugin *p = find(sqlite3_user_data(c), (const char *)sqlite3_value_text(v[0]));
    (void)count;
    if (p) sqlite3_result_int64(c, (sqlite3_int64)p->used);
}

/* None is SQLITE_DETERMINISTIC, so none is allowed in an index or a generated column: a plug-in keeps state, and may be loaded anew. Loading is
 * SQLITE_DIRECTONLY: no view or trigger of a database file does it. */
int sqlite3_wasmloop_init(sqlite3 *db, char **error, const sqlite3_api_routines *api)
{
    static const struct { const char *name; int count, flags; void (*f)(sqlite3_context *, int, sqlite3_value **); } all[] = {
        { "load_plugin", 2, SQLITE_DIRECTONLY, load_plugin }, { "load_plugin", 3, SQLITE_DIRECTONLY, load_plugin }, { "load_plugin", 4, SQLITE_DIRECTONLY, load_plugin },
        { "plugin_functions", 1, SQLITE_DIRECTONLY, plugin_functions }, { "plugin", -1, 0, plugin_call }, { "plugin_aggregate", -1, 0, NULL },
        { "plugin_work", 3, 0, plugin_work }, { "plugin_fuel", 1, 0, plugin_fuel } };
    SQLITE_EXTENSION_INIT2(api)
    (void)error;
    registry *r = sqlite3_malloc64(sizeof *r);
    if (!r) return SQLITE_NOMEM;
    *r = (registry){ .uses = 1 };                   /* of this function; each that fails to be created calls its destructor too */
    int status = SQLITE_OK;
    for (size_t i = 0; i < sizeof all / sizeof *all && status == SQLITE_OK; i++) {
        int is_aggregate = !all[i].f;
        r->uses++;
        status = sqlite3_create_function_v2(db, all[i].name, all[i].count, SQLITE_UTF8 | all[i].flags, r, all[i].f, is_aggregate ? aggregate_step : NULL,
            is_aggregate ? aggregate_final : NULL, registry_unuse);
    }
    registry_unuse(r);
    return status;
}
