/* The modules that a session has loaded, and the memory that they and their guests have. */
#include "wasmloop_pg.h"
#include "access/genam.h"
#include "access/htup_details.h"
#include "access/table.h"
#include "catalog/namespace.h"
#include "fmgr.h"
#include "utils/builtins.h"
#include "utils/fmgroids.h"
#include "utils/lsyscache.h"
#include "utils/memutils.h"
#include "utils/rel.h"

#define SPARE 32                    /* modules that a session keeps though no call site has them */
static kept *all;

/* ---- Memory ---- */

/* The archive in out/lib calls these in place of malloc, realloc and free. They count, and give no more than wasmloop.memory. */
typedef union header { size_t size; max_align_t align; } header;
int wasmloop_pg_most_memory = 1 << 20;
static size_t memory;

static void *counted(header *old, size_t size)
{
    size_t before = old ? old->size : 0, most = (size_t)wasmloop_pg_most_memory * 1024;
    header *h;
    if (size > before && (memory > most || size - before > most - memory)) return NULL;
    h = realloc(old, size + sizeof *h);
    if (!h) return NULL;
    memory = memory - before + size;
    h->size = size;
    return h + 1;
}

extern void *wasmloop_pg_malloc(size_t size);
extern void *wasmloop_pg_realloc(void *at, size_t size);
extern void wasmloop_pg_free(void *at);
void *wasmloop_pg_malloc(size_t size) { return counted(NULL, size); }
void *wasmloop_pg_realloc(void *at, size_t size) { return counted(at ? (header *)at - 1 : NULL, size); }

void wasmloop_pg_free(void *at)
{
    if (!at) return;
    memory -= ((header *)at - 1)->size;
    free((header *)at - 1);
}

PG_FUNCTION_INFO_V1(wasmloop_memory);
Datum wasmloop_memory(PG_FUNCTION_ARGS) { PG_RETURN_INT64((int64_t)memory); }

/* ---- Modules ---- */

void wasmloop_pg_unuse(kept *k)
{
    if (--k->uses == 0) MemoryContextDelete(k->context);
}

static void kept_end(void *at)
{
    wasmloop_drop(&((kept *)at)->module);       /* EMPTY if there is none */
}

/* Drops modules that no call site has, but the first so many. */
static void drop_spare(int most)
{
    for (kept **link = &all; *link; ) {
        kept *old = *link;
        if (old->uses > 1 || --most >= 0) { link = &old->next; continue; }
        *link = old->next;
        wasmloop_pg_unuse(old);
    }
}

void wasmloop_pg_must(int status, const char *what)
{
    if (status == WASMLOOP_OK) return;
    if (status != WASMLOOP_MEMORY) FAIL(EXTERNAL_ROUTINE_EXCEPTION, "%s: %s", what, wasmloop_status_text(status));
    drop_spare(0);                              /* for the next one */
    ereport(ERROR, errcode(ERRCODE_OUT_OF_MEMORY), errmsg("out of memory"), errdetail("In %s. The modules and guests of a session have at most %d kB (wasmloop.memory).", what, wasmloop_pg_most_memory));
}

static void load_bytes(bytea *bytes, wasmloop_handle *module, const char *name)
{
    char why[300];
    int status = host_load(VARDATA_ANY(bytes), VARSIZE_ANY_EXHDR(bytes), module, why, sizeof why);
    if (status == WASMLOOP_REFUSED) FAIL_AND(INVALID_BINARY_REPRESENTATION, errdetail("%s", why), "the module %s is rejected", name);
    wasmloop_pg_must(status, name);
}

static version version_of(HeapTuple row)
{
    return (version){ HeapTupleHeaderGetRawXmin(row->t_data), HeapTupleHeaderGetRawCommandId(row->t_data), row->t_self };
}

/* The loaded module of this version. Another version leaves the list; call sites that run it keep it. */
static kept *find(Oid function, const char *name, const version *v)
{
    kept **link = &all, *k;
    while (*link && ((*link)->function != function || strcmp((*link)->name, name))) link = &(*link)->next;
    k = *link;
    if (!k || (k->version.xmin == v->xmin && k->version.command == v->command && ItemPointerEquals(&k->version.at, (ItemPointer)&v->at))) return k;
    *link = k->next;
    wasmloop_pg_unuse(k);
    return NULL;
}

static kept *keep(Oid function, const char *name, version v, bytea *code)
{
    MemoryContext context = AllocSetContextCreate(CurrentMemoryContext, "wasmloop module", ALLOCSET_SMALL_SIZES);
    kept *k = MemoryContextAlloc(context, sizeof *k);
    *k = (kept){ .context = context, .end = { .func = kept_end, .arg = k }, .version = v, .function = function, .uses = 1 };
    k->name = MemoryContextStrdup(context, name);
    MemoryContextRegisterResetCallback(context, &k->end);
    load_bytes(code, &k->module, name);
    MemoryContextSetParent(context, TopMemoryContext);      /* from here on nothing fails */
    k->next = all;
    all = k;
    drop_spare(SPARE);
    return k;
}

/* It is read as a catalog is: by its index, whatever the search_path and the rights of who calls, with no operator that another could have made. */
kept *wasmloop_pg_of_row(const char *name)
{
    Oid schema = get_namespace_oid("wasmloop", true), table = OidIsValid(schema) ? get_relname_relid("module", schema) : InvalidOid;
    kept *k;
    ScanKeyData key;
    Relation relation;
    SysScanDesc scan;
    HeapTuple row;
    version v;
    if (!OidIsValid(table)) FAIL(UNDEFINED_TABLE, "there is no table wasmloop.module");
    relation = table_open(table, AccessShareLock);
    ScanKeyInit(&key, 1, BTEqualStrategyNumber, F_TEXTEQ, CStringGetTextDatum(name));
    scan = systable_beginscan(relation, RelationGetPrimaryKeyIndex(relation), OidIsValid(RelationGetPrimaryKeyIndex(relation)), NULL, 1, &key);
    row = systable_getnext(scan);
    if (!HeapTupleIsValid(row)) FAIL_AND(UNDEFINED_OBJECT, errhint("INSERT INTO wasmloop.module."), "there is no module \"%s\"", name);
    v = version_of(row);
    k = find(InvalidOid, name, &v);
    if (!k) {
        bool null;
        Datum code = heap_getattr(row, 2, RelationGetDescr(relation), &null);
        if (null) FAIL(NULL_VALUE_NOT_ALLOWED, "the module \"%s\" is NULL", name);
        k = keep(InvalidOid, name, v, DatumGetByteaPP(code));
    }
    systable_endscan(scan);
    table_close(relation, AccessShareLock);
    return k;
}

kept *wasmloop_pg_of_function(HeapTuple function, Oid number, const char *hex)
{
    version v = version_of(function);
    kept *k = find(number, "", &v);
    return k ? k : keep(number, "", v, DatumGetByteaPP(DirectFunctionCall1(byteain, CStringGetDatum(hex))));
}

PG_FUNCTION_INFO_V1(wasmloop_is_module);
Datum wasmloop_is_module(PG_FUNCTION_ARGS)
{
    wasmloop_handle module = WASMLOOP_HANDLE_INIT;
    load_bytes(PG_GETARG_BYTEA_PP(0), &module, "of this row");
    wasmloop_drop(&module);
    PG_RETURN_BOOL(true);
}
