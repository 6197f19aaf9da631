/* What the two files of the extension share. */
#ifndef WASMLOOP_PG_H
#define WASMLOOP_PG_H
#include "postgres.h"
#include "access/htup.h"
#include "utils/palloc.h"
#include "../host.h"

#define FAIL_AND(state, more, ...) ereport(ERROR, errcode(ERRCODE_##state), more, errmsg("wasmloop: " __VA_ARGS__))
#define FAIL(state, ...) ereport(ERROR, errcode(ERRCODE_##state), errmsg("wasmloop: " __VA_ARGS__))

/* A version of a row. Two rows of one transaction may stand in one place, so the command tells them apart. */
typedef struct version { TransactionId xmin; CommandId command; ItemPointerData at; } version;

/* A loaded module: a version of a row of wasmloop.module, or of a function. It lives in a context of its own until it is replaced and no call site has it. */
typedef struct kept {
    struct kept *next;
    MemoryContext context;
    MemoryContextCallback end;
    wasmloop_handle module;
    version version;
    Oid function;                   /* InvalidOid: a row of wasmloop.module */
    char *name;
    int uses;                       /* call sites, and one for the list */
} kept;

/* The most memory of a session's modules and guests, in kilobytes. */
extern int wasmloop_pg_most_memory;

/* Raises the error of a status that is not OK. */
extern void wasmloop_pg_must(int status, const char *what);
/* The module of a row of wasmloop.module; and of a function, whose text has the bytes in hex from `hex` on. */
extern kept *wasmloop_pg_of_row(const char *name);
extern kept *wasmloop_pg_of_function(HeapTuple function, Oid number, const char *hex);
extern void wasmloop_pg_unuse(kept *module);
#endif
