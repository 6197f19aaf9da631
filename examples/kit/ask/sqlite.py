#!/usr/bin/env python3
"""SQLite that asks its host for pages: builds sqlite.c with Debian's SQLite, and runs SQL under asyncio, in which each page is awaited.

usage: PYTHONPATH=capi/python WASMLOOP_LIBRARY=LIBRARY sqlite.py

The rows are those of Python's own sqlite3 on the same SQL; the database at the host is a file of SQLite, which that reads. It needs what
examples/warm/build.sh needs, and binaryen.
"""

from __future__ import annotations

import asyncio
import pathlib
import shutil
import sqlite3
import struct
import sys

HERE = pathlib.Path(__file__).resolve().parent
sys.path.insert(0, str(HERE.parent.parent / "libraries"))

import compiling                                        # noqa: E402
from programs import DEPTH, FUEL, run                   # noqa: E402
from wasmloop import Module, ask, explain               # noqa: E402

OUT, SOURCE = compiling.OUT / "ask_sqlite", compiling.SOURCES / "sqlite3"
PAGE, CROWD = 4096, 50
READ, WRITE, SIZE, TRUNCATE = range(4)
FLAGS = """-Os -fno-jump-tables -DSQLITE_OS_OTHER=1 -DSQLITE_THREADSAFE=0 -DSQLITE_OMIT_LOAD_EXTENSION -DSQLITE_OMIT_WAL -DSQLITE_OMIT_DEPRECATED
    -DSQLITE_OMIT_PROGRESS_CALLBACK -DSQLITE_OMIT_SHARED_CACHE -DSQLITE_OMIT_LOCALTIME -DSQLITE_OMIT_UTF16 -DSQLITE_OMIT_AUTHORIZATION
    -DSQLITE_OMIT_TRACE -DSQLITE_OMIT_AUTOINIT -DSQLITE_DEFAULT_MEMSTATUS=0 -DSQLITE_DQS=0 -DSQLITE_TEMP_STORE=3 -DSQLITE_MAX_EXPR_DEPTH=0
    -DSQLITE_OMIT_DECLTYPE -DSQLITE_UNTESTABLE -DSQLITE_DEFAULT_LOOKASIDE=1200,40""".split()
# Functions of SQLite that call through pointers and lead to no page: the allocator, the page cache, hash tables, functions of SQL, journals in
# memory and methods of the file system that answer at once. With all that may call these, the module would be too large.
NO_ASKERS = """sqlite3Malloc sqlite3Realloc sqlite3_free sqlite3_log sqlite3_str_vappendf sqlite3StrAccumEnlarge measureAllocationSize
    sqlite3_initialize sqlite3ErrorFinish sqlite3ErrorWithMsg createCollation createFunctionApi createModule functionDestroy growOpArray
    indexCellCompare invokeValueDestructor jsonLookup jsonParseCached memdbCurrentTimeInt64 memdbDlClose memdbDlError memdbDlOpen
    memdbDlSym memdbGetLastError memdbOpen memdbRandomness memdbSleep memjrnlFreeChunks memjrnlWrite pcache1Alloc pcache1EnforceMaxPage
    pcache1FetchStage2 pcache1Free roundFunc setDateTimeToCurrent setSectorSize setupLookaside sqlite3BitvecDestroy sqlite3GetCollSeq
    sqlite3HashClear sqlite3HashInsert sqlite3IsShadowTableOf sqlite3OsOpenMalloc sqlite3ParseObjectReset sqlite3ParserAddCleanup
    sqlite3PcacheDrop sqlite3PcacheMakeClean sqlite3PcacheMove sqlite3PcacheRelease sqlite3PcacheSetPageSize sqlite3PcacheTruncate
    sqlite3VdbeDeleteAuxData sqlite3VdbeMemFinalize sqlite3VdbeMemGrow sqlite3VdbeMemSetRowSet sqlite3VdbeMemSetStr
    sqlite3VtabModuleUnref sqlite3_db_release_memory sqlite3_randomness sqlite3_set_auxdata sqlite3_free_filename
    sqliteDefaultBusyCallback btreeInvokeBusyHandler vdbeCompareMemString vdbeMemClearExternAndSetNull sqlite3ExprListDup
    btreeCellSizeCheck computeCellSize getCellInfo""".split()
SCHEMA = """
    create table product(id integer primary key, name text, price integer, tag text);
    with recursive n(i) as (select 1 union all select i + 1 from n where i < 2000)
      insert into product select i, 'product ' || i, (i * 7919) % 1000, char(97 + i % 26) from n;
    create index by_tag on product(tag, price);"""
QUERIES = (
    "select * from product where id = 77;",
    "select count(*), sum(price), min(name) from product;",
    "select tag, sum(price) / count(*) from product where tag < 'e' group by tag order by 2;",
    "update product set price = price + 1 where tag = 'c'; select sum(price) from product where tag = 'c';",
    "begin; delete from product where id % 2 = 0; select count(*) from product; rollback; select count(*) from product;",
    "delete from product where id > 1500; vacuum; select count(*), max(id) from product;",
    "select (select count(*) from product where tag = 'z'), exists (select 1 from product where id = 9);",
    "select nothing from product;",
)


class Pages:
    """A database at the host: its bytes, and how many pages were read and written."""

    def __init__(self, data: bytes = b"") -> None:
        self.data, self.read, self.written = bytearray(data), 0, 0

    async def answer(self, question: bytes) -> bytes:
        await asyncio.sleep(0)                          # a disk, or another machine
        kind, length, at = struct.unpack_from("<IIq", question)
        if kind == SIZE:
            return struct.pack("<q", len(self.data))
        if kind == READ:
            self.read += 1
            return bytes(self.data[at:at + length])
        if kind == TRUNCATE:
            del self.data[at:]
        else:
            self.written += 1
            self.data.extend(bytes(max(at + length - len(self.data), 0)))
            self.data[at:at + length] = question[16:]
        return b""


class Database:
    """An instance of the plug-in over the pages of its host."""

    def __init__(self, module: Module, pages: Pages) -> None:
        self.plugin, self.pages = ask.Plugin(module, pages.answer, FUEL, DEPTH), pages
        self.plugin.instance.call("_initialize")

    async def run(self, sql: str) -> str:
        """The rows, or the message of an error."""
        return (await run(self.plugin, sql))[1]


def in_python(known: sqlite3.Connection, sql: str) -> str:
    """The same by Python's sqlite3."""
    told: list[str] = []
    try:
        for part in sql.split(";")[:-1]:
            told += ["|".join("NULL" if it is None else str(it) for it in row) for row in known.execute(part)]
    except sqlite3.Error as why:
        told.append(str(why))
    return "".join(f"{it}\n" for it in told)


def built() -> bytes:
    """The plug-in."""
    if not (SOURCE / "sqlite3.c").is_file():
        compiling.call("./configure", cwd=SOURCE)
        compiling.call("make", "sqlite3.c", cwd=SOURCE)
    kit = [compiling.KIT / it for it in ("guest.c", "wasi.c", "nofiles.c")] + [compiling.HERE.parent / "mem.c"]
    words = compiling.WASM + FLAGS + ["-DASK_STACK=16384", f"-I{HERE}", f"-I{SOURCE}"]
    objects = compiling.compile_all(words, [HERE / "sqlite.c", HERE / "ask.c", SOURCE / "sqlite3.c"], OUT / "w")
    objects += compiling.compile_all(compiling.WASM + ["-ffreestanding"], kit, OUT / "k")
    compiling.call(*compiling.LINK, "-o", OUT / "linked.wasm", *objects, *compiling.LIBRARIES)
    return (OUT / "linked.wasm").read_bytes()


async def compare(module: Module) -> int:
    """Whether all is as with Python's sqlite3: of one database, through two instances, and of many at once."""
    wrong, pages, known = 0, Pages(), sqlite3.connect(":memory:", isolation_level=None)
    first = Database(module, pages)
    for sql in (SCHEMA, *QUERIES):
        pages.read = pages.written = 0
        got, expected = await first.run(sql), in_python(known, sql)
        wrong += got != expected
        print(f"{' '.join(sql.split())[:60]}: {'as by Python' if got == expected else f'WRONG: {got!r}, not {expected!r}'}; {pages.read} pages read, "
              f"{pages.written} written, {first.plugin.used:,} units", flush=True)
    (OUT / "database").write_bytes(pages.data)
    read = sqlite3.connect(OUT / "database").execute("pragma integrity_check").fetchall()
    wrong += read != [("ok",)]
    print(f"Python opens the host's {len(pages.data):,} bytes: {read[0][0]}")
    second = Database(module, pages)
    pages.read = 0
    got = await second.run(QUERIES[0])
    wrong += got != in_python(known, QUERIES[0])
    print(f"another instance, the first query: {pages.read} of {len(pages.data) // PAGE} pages read, {second.plugin.used:,} units")
    crowd = [Database(module, Pages(pages.data)) for _ in range(CROWD)]
    told = await asyncio.gather(*(it.run(QUERIES[1]) for it in crowd))
    wrong += set(told) != {in_python(known, QUERIES[1])}
    print(f"{CROWD} databases waited for their pages in one thread")
    return wrong


def main() -> bool:
    if not shutil.which("wasm-opt") or not compiling.fetch("sqlite3") or not shutil.which("tclsh"):
        print("left out: SQLite that asks: there is no wasm-opt or no tclsh, or the sources of SQLite can't be fetched")
        return False
    OUT.mkdir(parents=True, exist_ok=True)
    (OUT / "asks.wasm").write_bytes(ask.asyncified(built(), ",".join(NO_ASKERS), small=True))
    compiling.call(sys.executable, compiling.KIT / "lower.py", OUT / "asks.wasm", OUT / "asks.wasm", "--soft", compiling.soft())
    data = (OUT / "asks.wasm").read_bytes()
    if explain(data):
        sys.exit(explain(data))
    print(f"{len(data):,} bytes")
    return asyncio.run(compare(Module(data))) != 0


if __name__ == "__main__":
    sys.exit(main())
