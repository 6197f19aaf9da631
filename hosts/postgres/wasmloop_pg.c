/* LANGUAGE wasmloop: functions of WebAssembly modules, within fuel, depth and statement_timeout.
 *
 *     CREATE EXTENSION wasmloop;
 *     CREATE FUNCTION score(bigint) RETURNS bigint LANGUAGE wasmloop IMMUTABLE STRICT AS '\x0061736d..';           -- a module's bytes
 *     INSERT INTO wasmloop.module VALUES ('rules', pg_read_binary_file('rules.wasm'));                            -- one that functions share
 *     CREATE FUNCTION slug(text) RETURNS text LANGUAGE wasmloop IMMUTABLE STRICT AS 'rules.slug';                 -- f(text, size, into, room)
 *
 * No call of the library raises an error or is left by one: errors are raised between calls, and callbacks of memory contexts drop what the library
 * holds. A guest cannot run SQL, so a call site is never entered twice. modules.c has the modules, and counts memory. */
#include "wasmloop_pg.h"
#include "access/htup_details.h"
#include "catalog/pg_proc.h"
#include "catalog/pg_type.h"
#include "commands/trigger.h"
#include "commands/event_trigger.h"
#include "fmgr.h"
#include "funcapi.h"
#include "mb/pg_wchar.h"
#include "miscadmin.h"
#include "utils/builtins.h"
#include "utils/guc.h"
#include "utils/memutils.h"
#include "utils/syscache.h"

PG_MODULE_MAGIC;

#define ROOM 1024                   /* bytes of a result beyond those of the argument */
#define ROWS 32768                  /* the same of a set */
static int fuel = 1000000, depth = 64;

/* What a call site keeps, in fn_mcxt; a callback of that context drops the handles. */
typedef struct site {
    MemoryContextCallback end;
    wasmloop_handle instance;
    bool open, ready, nulls, set;
    kept *module;
    char *name;
    uint64_t number, room, fuel;    /* the fuel of a call, or what a set has left */
    wasmloop_type type;
    int count;
    Oid result, arg[8];
} site;

/* A call: its arguments, and where the bytes of its result go. */
typedef struct call { int n; uint32_t at, room; uint64_t args[24]; } call;

static void site_end(void *at)
{
    site *s = at;
    wasmloop_drop(&s->instance);                /* EMPTY if there is none */
    s->open = false;
    if (s->module) wasmloop_pg_unuse(s->module);
    s->module = NULL;
}

static bool is_bytes(Oid t) { return t == TEXTOID || t == BYTEAOID; }
static uint8_t word_of(Oid t) { return t == INT8OID ? 2 : t == BOOLOID || t == INT2OID || t == INT4OID ? 1 : 0; }
static bool has_room(const site *s) { return s->set || is_bytes(s->result); }

/* Whether the export's next parameters are so many of this type. */
static bool takes(const site *s, uint64_t *at, int count, uint8_t type)
{
    for (int i = 0; i < count; i++)
        if (type == 0 || s->type.param[(*at)++] != type) return false;
    return true;
}

/* Compares the declaration with the export's type. */
static void fit(site *s)
{
    wasmloop_handle *module = &s->module->module;
    wasmloop_type room;
    uint64_t at = 0;
    int texts = 0;
    bool fits = !s->nulls || takes(s, &at, 1, 1);
    for (int i = 0; fits && i < s->count; i++) {
        texts += is_bytes(s->arg[i]);
        if (is_bytes(s->arg[i]) ? !takes(s, &at, 2, 1) : !takes(s, &at, 1, word_of(s->arg[i])))
            FAIL(DATATYPE_MISMATCH, "argument %d of %s has another type", i + 1, s->name);
    }
    if (has_room(s)) fits = fits && takes(s, &at, s->set ? 3 : 2, 1);
    fits = fits && at == s->type.params && s->type.results == 1 && (is_bytes(s->result) || word_of(s->result)) && s->type.result[0] == (has_room(s) ? 1 : word_of(s->result));
    if (!fits) FAIL(DATATYPE_MISMATCH, "%s has another number of arguments, or another result", s->name);
    if (texts > 1) FAIL(FEATURE_NOT_SUPPORTED, "only one argument may be text or bytea");
    if ((texts || has_room(s)) && (wasmloop_function(module, "room", &room) != WASMLOOP_OK || room.params != 1 || room.param[0] != 1 || room.results != 1
        || room.result[0] != 1 || wasmloop_export_number(module, "room", &s->room) != WASMLOOP_OK))
        FAIL(UNDEFINED_FUNCTION, "the module of %s exports no room(i32) -> i32 for text, bytea and sets", s->name);
}

/* The module and the export that a function's text names: 'module.export', or '[export]\x..', the bytes of a module. Without an export's name it is the
 * function's. */
static kept *named(HeapTuple function, char *source, char **export)
{
    Form_pg_proc proc = (Form_pg_proc)GETSTRUCT(function);
    char *bytes = strstr(source, "\\x0061736d"), *dot = strrchr(source, '.');
    if (bytes) {
        *export = bytes == source ? pstrdup(NameStr(proc->proname)) : pnstrdup(source, bytes - source);
        return wasmloop_pg_of_function(function, proc->oid, bytes);
    }
    if (!dot) FAIL(SYNTAX_ERROR, "expected 'module.export' or a module's bytes, found '%.100s'", source);
    *dot = 0;
    *export = dot + 1;
    return wasmloop_pg_of_row(source);
}

/* Fills a site from pg_proc. Behind the names stands ' nulls' if the export is told of NULL arguments. */
static void resolve(site *s, Oid function, MemoryContext context)
{
    HeapTuple tuple = SearchSysCache1(PROCOID, ObjectIdGetDatum(function));
    Form_pg_proc proc;
    bool null;
    char *source, *word;
    if (!HeapTupleIsValid(tuple)) elog(ERROR, "cache lookup failed for function %u", function);
    proc = (Form_pg_proc)GETSTRUCT(tuple);
    source = TextDatumGetCString(SysCacheGetAttr(PROCOID, tuple, Anum_pg_proc_prosrc, &null));
    word = strrchr(source, ' ');
    s->count = proc->pronargs;
    s->result = proc->prorettype;
    s->set = proc->proretset;
    if (proc->prokind != PROKIND_FUNCTION || s->count > 8) FAIL(FEATURE_NOT_SUPPORTED, "only functions of at most 8 arguments are supported");
    for (int i = 0; i < s->count; i++) s->arg[i] = proc->proargtypes.values[i];
    s->nulls = word && !strcmp(word, " nulls");
    if (s->nulls) *word = 0;
    s->module = named(tuple, source, &s->name);
    ReleaseSysCache(tuple);
    s->module->uses++;
    s->name = MemoryContextStrdup(context, s->name);
    if (wasmloop_function(&s->module->module, s->name, &s->type) != WASMLOOP_OK || wasmloop_export_number(&s->module->module, s->name, &s->number) != WASMLOOP_OK)
        FAIL(UNDEFINED_FUNCTION, "the module exports no function \"%s\"", s->name);
    fit(s);
    s->ready = true;
}

/* The site of a function that is called; it is made by the first call. */
static site *site_of(FmgrInfo *function)
{
    site *s = function->fn_extra;
    if (!s) {
        s = MemoryContextAlloc(function->fn_mcxt, sizeof *s);
        *s = (site){ .end = { .func = site_end, .arg = s } };
        MemoryContextRegisterResetCallback(function->fn_mcxt, &s->end);
        function->fn_extra = s;
    }
    if (s->ready) return s;
    site_end(s);                    /* of a first call that failed */
    resolve(s, function->fn_oid, function->fn_mcxt);
    return s;
}

/* ---- Calls ---- */

static int state_of(const wasmloop_ended *e)
{
    if (e->ending == WASMLOOP_SPENT) return ERRCODE_PROGRAM_LIMIT_EXCEEDED;
    if (e->ending == WASMLOOP_DEPTH) return ERRCODE_STATEMENT_TOO_COMPLEX;
    return e->trap == 2 ? ERRCODE_DIVISION_BY_ZERO : e->trap == 3 ? ERRCODE_NUMERIC_VALUE_OUT_OF_RANGE : ERRCODE_EXTERNAL_ROUTINE_EXCEPTION;
}

static void stopped(site *s, const char *name, const wasmloop_ended *ended)
{
    char why[700];
    host_ended(&s->instance, ended, why, sizeof why);
    ereport(ERROR, errcode(state_of(ended)), errmsg("wasmloop: %s: %.*s", name, (int)strcspn(why, ","), why), errdetail("%s", why));
}

/* Between two slices: what ends the statement leaves by a longjmp. The call is over then, and a site that lives on keeps its state. */
static int look(void *instance)
{
    wasmloop_ended ended;
    if (!INTERRUPTS_PENDING_CONDITION()) return 0;
    PG_TRY();
    {
        CHECK_FOR_INTERRUPTS();
    }
    PG_CATCH();
    {
        wasmloop_call_end(instance, &ended);
        PG_RE_THROW();
    }
    PG_END_TRY();
    return 0;
}

static void run(site *s, const char *name, uint64_t number, const uint64_t *args, int n, wasmloop_ended *ended)
{
    wasmloop_call_limits limits = { s->fuel, depth, 0 };
    uint32_t over;
    int status = host_call(&s->instance, number, args, n, &limits, look, &s->instance, &over, ended);
    if (status != WASMLOOP_OK) wasmloop_pg_must(status, name);
    CHECK_FOR_INTERRUPTS();
    if (ended->ending != WASMLOOP_RETURN) stopped(s, name, ended);
}

static void open_instance(site *s)
{
    wasmloop_ended ended;
    int status;
    s->fuel = fuel;
    if (s->open) return;
    status = host_instance(&s->module->module, (wasmloop_call_limits){ fuel, depth, 0 }, &s->instance, &ended);
    if (status == WASMLOOP_NOT_STARTED) stopped(s, "the start function", &ended);
    wasmloop_pg_must(status, s->name);
    s->open = true;
}

/* Where the guest has room for so many bytes. */
static uint32_t room_for(site *s, uint64_t size)
{
    wasmloop_ended ended;
    run(s, "room", s->room, &size, 1, &ended);          /* below 2^32: text has at most 1 GiB */
    if (!ended.result[0]) FAIL(PROGRAM_LIMIT_EXCEEDED, "%s has no room for " UINT64_FORMAT " bytes", s->name, size);
    return (uint32_t)ended.result[0];
}

/* Writes a text into the guest's memory, with the room for the result behind it. */
static void pass_bytes(site *s, call *c, bytea *bytes)
{
    uint32_t size = VARSIZE_ANY_EXHDR(bytes), at;
    c->room += size;
    at = room_for(s, (uint64_t)size + (has_room(s) ? c->room : 0));
    if (wasmloop_write(&s->instance, at, (uint8_t *)VARDATA_ANY(bytes), size) != WASMLOOP_OK)
        FAIL(EXTERNAL_ROUTINE_INVOCATION_EXCEPTION, "the room of %s is outside its memory", s->name);
    c->args[c->n++] = at;
    c->args[c->n++] = size;
    c->at = at + size;
}

/* The arguments of a call. */
static void pass(site *s, FunctionCallInfo fcinfo, call *c)
{
    c->n = s->nulls;
    c->room = s->set ? ROWS : ROOM;
    c->at = 0;
    c->args[0] = 0;
    for (int i = 0; i < s->count; i++) {
        Datum d = PG_GETARG_DATUM(i);
        if (PG_ARGISNULL(i)) {
            c->args[0] |= 1 << i;
            for (int k = is_bytes(s->arg[i]) ? 2 : 1; k; k--) c->args[c->n++] = 0;
        } else switch (s->arg[i]) {
        case BOOLOID: c->args[c->n++] = DatumGetBool(d); break;
        case INT2OID: c->args[c->n++] = (uint32_t)(int32_t)DatumGetInt16(d); break;
        case INT4OID: c->args[c->n++] = (uint32_t)DatumGetInt32(d); break;
        case INT8OID: c->args[c->n++] = (uint64_t)DatumGetInt64(d); break;
        default: pass_bytes(s, c, DatumGetByteaPP(d));
        }
    }
    if (!has_room(s)) return;
    if (!c->at) c->at = room_for(s, c->room);
    c->args[c->n++] = c->at;
    c->args[c->n++] = c->room;
    if (s->set) c->args[c->n++] = 0;
}

/* Runs a call that writes its result, and reads that into a block of the room's size behind a header: how many bytes; -1 for NULL. */
static int32_t written(site *s, const call *c, bytea *block)
{
    wasmloop_ended ended;
    int32_t length;
    run(s, s->name, s->number, c->args, c->n, &ended);
    length = (int32_t)ended.result[0];
    if (s->set) s->fuel -= ended.used;
    if (length == -1 && s->nulls && !s->set) return -1;
    if (length < 0 || (uint32_t)length > c->room) FAIL(EXTERNAL_ROUTINE_INVOCATION_EXCEPTION, "%s returned %d, which is no length up to %u", s->name, length, c->room);
    if (wasmloop_read(&s->instance, c->at, (uint8_t *)VARDATA(block), length) != WASMLOOP_OK)
        FAIL(EXTERNAL_ROUTINE_INVOCATION_EXCEPTION, "the result of %s is outside its memory", s->name);
    return length;
}

/* A result of bytes that are read already, behind room for a header. */
static Datum bytes_datum(const site *s, bytea *bytes, uint32_t length)
{
    SET_VARSIZE(bytes, length + VARHDRSZ);
    if (s->result == TEXTOID) pg_verifymbstr(VARDATA(bytes), length, false);
    return PointerGetDatum(bytes);
}

static Datum word_datum(const site *s, uint64_t x)
{
    switch (s->result) {
    case BOOLOID: return BoolGetDatum((uint32_t)x != 0);
    case INT2OID:
        if ((int32_t)x != (int16_t)x) FAIL(NUMERIC_VALUE_OUT_OF_RANGE, "%s returned %d: smallint out of range", s->name, (int32_t)x);
        return Int16GetDatum((int16_t)x);
    case INT4OID: return Int32GetDatum((int32_t)x);
    default: return Int64GetDatum((int64_t)x);
    }
}

/* Takes a row from the front of a set's bytes: numbers as they stand in a guest's memory; text behind its length, 2^32 - 1 for NULL. */
static Datum row_of(const site *s, const char **at, const char *end, bool *null)
{
    uint64_t head = 0;
    int size = word_of(s->result) == 2 ? 8 : 4;
    bytea *bytes;
    if (end - *at < size) FAIL(EXTERNAL_ROUTINE_INVOCATION_EXCEPTION, "%s returned a row that is cut", s->name);
    for (int i = 0; i < size; i++) head |= (uint64_t)(uint8_t)*(*at)++ << 8 * i;
    *null = is_bytes(s->result) && head == UINT32_MAX;
    if (*null || !is_bytes(s->result)) return word_datum(s, head);
    if (head > (uint64_t)(end - *at)) FAIL(EXTERNAL_ROUTINE_INVOCATION_EXCEPTION, "%s returned a row that is cut", s->name);
    bytes = palloc(head + VARHDRSZ);
    memcpy(VARDATA(bytes), *at, head);
    *at += head;
    return bytes_datum(s, bytes, head);
}

/* The rows of a set: the export is called with the number of rows so far, until it writes none. All its calls have the fuel of one; a row takes a unit too. */
static void rows(site *s, call *c, ReturnSetInfo *set, bytea *block)
{
    MemoryContext row = AllocSetContextCreate(CurrentMemoryContext, "wasmloop row", ALLOCSET_SMALL_SIZES), old = MemoryContextSwitchTo(row);
    uint64_t count = 0;
    int32_t length;
    while ((length = written(s, c, block)) > 0) {
        for (const char *at = VARDATA(block), *end = at + length; at < end; count++) {
            bool null;
            Datum value = row_of(s, &at, end, &null);
            tuplestore_putvalues(set->setResult, set->setDesc, &value, &null);
            MemoryContextReset(row);
            if (s->fuel) s->fuel--;
        }
        if (count > UINT32_MAX) FAIL(PROGRAM_LIMIT_EXCEEDED, "%s returned more than 2^32 rows", s->name);
        c->args[c->n - 1] = count;
    }
    MemoryContextSwitchTo(old);
    MemoryContextDelete(row);
}

PG_FUNCTION_INFO_V1(wasmloop_handler);
Datum wasmloop_handler(PG_FUNCTION_ARGS)
{
    site *s;
    call c;
    wasmloop_ended ended;
    bytea *block;
    int32_t length;
    if (CALLED_AS_TRIGGER(fcinfo) || CALLED_AS_EVENT_TRIGGER(fcinfo)) FAIL(FEATURE_NOT_SUPPORTED, "no triggers");
    s = site_of(fcinfo->flinfo);
    if (s->set) InitMaterializedSRF(fcinfo, MAT_SRF_USE_EXPECTED_DESC);
    for (int i = 0; i < s->count; i++)
        if (PG_ARGISNULL(i) && !s->nulls) PG_RETURN_NULL();
    open_instance(s);
    pass(s, fcinfo, &c);
    if (!has_room(s)) {
        run(s, s->name, s->number, c.args, c.n, &ended);
        return word_datum(s, ended.result[0]);
    }
    block = palloc(c.room + VARHDRSZ);
    if (s->set) rows(s, &c, (ReturnSetInfo *)fcinfo->resultinfo, block);
    length = s->set ? -1 : written(s, &c, block);
    if (length < 0) PG_RETURN_NULL();
    return bytes_datum(s, block, length);
}

PG_FUNCTION_INFO_V1(wasmloop_validator);
Datum wasmloop_validator(PG_FUNCTION_ARGS)
{
    Oid function = PG_GETARG_OID(0);
    site *s;
    if (!CheckFunctionValidatorAccess(fcinfo->flinfo->fn_oid, function) || !check_function_bodies) PG_RETURN_VOID();
    s = palloc0(sizeof *s);
    PG_TRY();
        resolve(s, function, CurrentMemoryContext);
    PG_FINALLY();
        site_end(s);
    PG_END_TRY();
    PG_RETURN_VOID();
}

void _PG_init(void);
void _PG_init(void)
{
    DefineCustomIntVariable("wasmloop.fuel", "Units of fuel of a call.", NULL, &fuel, 1000000, 1, INT_MAX, PGC_SUSET, 0, NULL, NULL, NULL);
    DefineCustomIntVariable("wasmloop.depth", "Nested calls of a call.", NULL, &depth, 64, 1, 128, PGC_SUSET, 0, NULL, NULL, NULL);
    DefineCustomIntVariable("wasmloop.memory", "Memory of the modules and guests of a session.", NULL, &wasmloop_pg_most_memory, 1 << 20, 0, INT_MAX, PGC_SUSET, GUC_UNIT_KB, NULL, NULL, NULL);
    MarkGUCPrefixReserved("wasmloop");
}
