#!/bin/bash
# shellcheck disable=SC2034,SC2154
# The extension in SQLite's shell and in Python's sqlite3: test.sh [bench]
set -u
cd "$(dirname "$0")" || exit 1
name=sqlite
. ../lib.sh
./build.sh || exit 1
if [ "${1:-}" = bench ]; then       # beside Lua (liblua5.4-dev), on a processor of its own
    # shellcheck disable=SC2046
    cc -O2 -Wall -Wextra -Werror -o "$room/bench" bench.c $(pkg-config --cflags --libs lua5.4 sqlite3) || exit 1
    taskset -c "$last" "$room/bench" ./out/wasmloop "$(od -An -v -tx1 "$guest" | tr -d ' \n')"
    exit
fi
# a module that exports `array`: as rules.wasm, whose `score` has a name of this length
python3 -c 'import sys; b = open(sys.argv[1], "rb").read(); assert b.count(b"\x05score\x00") == 1; open(sys.argv[2], "wb").write(b.replace(b"\x05score\x00", b"\x05array\x00"))' "$guest" "$room/json.wasm"
sql() { sqlite3 -bail :memory: ".load ./out/wasmloop" "CREATE TEMP TABLE loaded AS SELECT load_plugin('r', readfile('$guest'))" "$@" 2>&1 | tr '\n' '|'; }
want "$(sql "SELECT plugin('r', 'score', 5)")" "162|" "a number"
want "$(sql "SELECT sum(plugin('r', 'score', value)) FROM generate_series(1, 1000)")" "$(python3 -c 'print(sum((x*31+7)%1009 for x in range(1,1001)))')|" "a thousand rows"
want "$(sql "SELECT plugin('r', 'slug', 'Hello, World 42'), plugin('r', 'slug', ''), hex(plugin('r', 'slug', x'4162'))")" "hello-world-42||6162|" "text and blobs"
want "$(sql "SELECT hex(plugin_work('r', 0, 'Ab Cd')), plugin_work('r', 0, NULL) = x''")" "61622D6364|1|" "work"
want "$(sql "SELECT plugin('r', 'score', NULL) IS NULL, plugin('r', 'divide', -7, 2)")" "1|-3|" "NULL of NULL, a sign"
want "$(sql "SELECT plugin('r', 'running', 3)" "SELECT plugin('r', 'running', 4)" "SELECT load_plugin('r', readfile('$guest'))" "SELECT plugin('r', 'running', 4)" "SELECT plugin_fuel('r') > 0")" "3|7|1|4|1|" "state, until it is loaded again"
want "$(sql "SELECT value % 3, plugin_aggregate('r', 'running', value) FROM generate_series(1, 30) GROUP BY 1")" "0|165|1|145|2|155|" "an aggregate with a state of each group"
want "$(sql "SELECT plugin_aggregate('r', 'running', value) FROM generate_series(1, 0)")" "|" "an aggregate of no rows"
# functions by the names of exports
named="SELECT plugin_functions('r') > 5"
want "$(sql "$named" "SELECT r_score(5), r_slug('Hello, World 42'), r_divide(-7, 2), r_running(3), r_score(NULL) IS NULL" "SELECT r_running(4)" "SELECT load_plugin('r', readfile('$guest')), plugin_functions('r') > 5" "SELECT R_RUNNING(4)")" \
    "1|162|hello-world-42|-3|3|1|7|1|1|4|" "functions by the names of exports, also after it is loaded again"
like "$(sql "$named" "SELECT r_divide(1, 0)")" "*plugin r: divide: division by zero, after 3 units*" "one that fails"
like "$(sql "$named" "SELECT load_plugin('r', readfile('$top/examples/ticker.wasm'))" "SELECT r_score(1)")" "*plugin r: score: no such function*" "one that the new module lacks"
like "$(sql "SELECT load_plugin('json', readfile('$room/json.wasm'))" "SELECT plugin_functions('json')")" "*plugin json: json_array: there is a function of this name*" "no export takes the place of a function"
want "$(sql "SELECT load_plugin('json', readfile('$guest')), plugin_functions('json') > 5" "SELECT json_score(5), json_array(1)")" "1|1|162|[1]|" "beside SQLite's own"
like "$(sql "SELECT plugin_functions('none')")" "*not loaded*" "a plug-in that is not there"
# hostile guests and wrong calls; the connection goes on
for each in spin grow copies; do like "$(sql "SELECT plugin('r', '$each', 1)")" "*plugin r: $each: out of fuel, after 1,000,000 units, in function *($each)*" "$each"; done
like "$(sql "SELECT plugin('r', 'deep', 1)")" "*call-depth limit exceeded*" "deep"
like "$(sql "SELECT plugin('r', 'divide', 1, 0)")" "*division by zero, after 3 units*" "a trap"
for op in 1 4 5; do like "$(sql "SELECT plugin_work('r', $op, 'x')")" "*out of fuel*" "work $op"; done
like "$(sql "SELECT plugin_work('r', 2, 'x')")" "*an access outside the memory*" "work that traps"
like "$(sql "SELECT plugin_aggregate('r', 'divide', 1, value - 20) FROM generate_series(1, 30)")" "*division by zero*" "an aggregate that traps"
for each in "plugin('r', 'nothing', 1)" "plugin('r', 'score')" "plugin('r', 'score', 'x')" "plugin('x', 'y')" "plugin('r', 'divide', 5000000000, 1)" "plugin('r', 'score', 1.5)" "plugin('r', NULL)" "plugin(NULL, 'score', 1)" "plugin('r')" \
    "plugin('r', 'slug', zeroblob(3000000))" "plugin('r', 'slug', 'a', 'b')" "load_plugin('q', NULL)" "load_plugin(NULL, x'')" "load_plugin('q', x'00', 0)" "load_plugin('q', x'00', 5, 500)" "plugin_work('none', 0, '')"; do
    like "$(sql "SELECT $each")" "*[Ee]rror*" "$each"
done
like "$(sql "SELECT load_plugin('q', readfile('$room/none.wasm'))")" "*load_plugin: the module is NULL, as readfile() is of a file that it can't read*" "a file that is not there"
for each in $(rejected); do like "$(sql "SELECT load_plugin('bad', readfile('$room/$each.wasm'))")" "*plugin bad: rejected: *" "a rejected module: $each"; done
like "$(sql "CREATE TABLE t(x)" "CREATE INDEX i ON t(plugin('r', 'score', x))")" "*non-deterministic functions prohibited*" "no index over a plug-in"
like "$(sql "CREATE VIEW v AS SELECT load_plugin('s', x'')" "SELECT * FROM v")" "*unsafe use of load_plugin()*" "no view loads one"
python3 - "$guest" > "$room/said" 2>&1 <<'P'
import sqlite3, sys, threading, time
bytes = open(sys.argv[1], "rb").read()
def opened(fuel):
    db = sqlite3.connect(":memory:", check_same_thread=False)
    db.enable_load_extension(True)
    db.load_extension("./out/wasmloop")
    db.execute("SELECT load_plugin('r', ?, ?)", (bytes, fuel))
    return db
def interrupted(db, what):          # milliseconds of processor time from the interrupt to the statement's end, or what it said instead
    began, over = [], threading.Event()
    def stop():                     # again, if a busy machine had not begun the statement: SQLite forgets an interrupt of none
        while not over.wait(0.05): began.append(time.process_time()); db.interrupt()
    timer = threading.Thread(target=stop)
    timer.start()
    try: said = db.execute(what).fetchall()
    except sqlite3.OperationalError as error: said = str(error)
    took = (time.process_time() - began[0]) * 1000 if began else -1
    over.set()
    timer.join()
    return took if said == "interrupted" and took >= 0 else said
def soon(db, what):
    took = [interrupted(db, what) for _ in range(5)]
    return "ok" if all(isinstance(t, float) and t < 500 for t in took) and min(took) < 10 else took
rows = "WITH RECURSIVE c(x) AS (VALUES(1) UNION ALL SELECT x + 1 FROM c WHERE x < 100000000)"
db = opened(1 << 40)
db.execute("SELECT plugin('r', 'running', 40)")
print(soon(db, rows + " SELECT sum(plugin('r', 'heavy', x)) FROM c"), [soon(db, f"SELECT plugin('r', '{name}', 1)") for name in ("spin", "grow", "copies")],
      soon(db, "SELECT plugin_work('r', 1, '')"), soon(db, "SELECT plugin_aggregate('r', 'spin', 1)"), db.execute("SELECT plugin('r', 'running', 2), plugin_fuel('r') > 1000000").fetchone())
began = time.perf_counter()
db.set_progress_handler(lambda: time.perf_counter() - began > 0.05, 1)
try: db.execute("SELECT plugin('r', 'spin', 1)")
except sqlite3.OperationalError as error: said = str(error)
db.set_progress_handler(None, 1)
print(said, time.perf_counter() - began < 1, db.execute("SELECT plugin('r', 'running', 2)").fetchone())
db.execute("SELECT plugin_functions('r')")
print(db.execute("SELECT r_running(0)").fetchone())
for name in ("load_plugin", "plugin", "plugin_aggregate", "plugin_work", "plugin_fuel", "plugin_functions"):    # an application's own, in their place
    for count in (-1, 1, 2, 3, 4): db.create_function(name, count, lambda *a: 7)
print(db.execute("SELECT plugin('r', 'score', 5), load_plugin('r', ?), r_running(1)", (bytes,)).fetchone())
db.create_function("r_running", -1, lambda *a: 8)
print(db.execute("SELECT r_running(1), r_score(5)").fetchone())
db.close()
def many():
    db = opened(100000)
    for k in range(300):
        try: db.execute("SELECT plugin_aggregate('r', CASE ? % 3 WHEN 0 THEN 'spin' ELSE 'running' END, value) FROM (SELECT 1 AS value UNION SELECT 2)", (k,)).fetchall()
        except sqlite3.OperationalError: pass
        if k % 10 == 0: db.execute("SELECT load_plugin('r', ?, 100000), plugin_functions('r')", (bytes,))
threads = [threading.Thread(target=many) for _ in range(4)]
for t in threads: t.start()
for t in threads: t.join()
resident = int(next(l for l in open("/proc/self/status") if l.startswith("VmRSS")).split()[1])
print(resident < 150000)
P
want "$(head -1 "$room/said")" "ok ['ok', 'ok', 'ok'] ok ok (42, 1)" "an interrupt between calls, and within one, ends the statement within 10 ms; the state is kept"
want "$(sed -n 2p "$room/said")" "interrupted True (44,)" "a progress handler of each instruction ends a call"
want "$(sed -n '3,5p' "$room/said" | tr '\n' ' ')" "(44,) (7, 7, 45) (8, 162) " "functions that are defined anew, beside those that are not"
want "$(sed -n '6,$p' "$room/said")" "True" "four threads, 1,200 groups: no memory is left behind"
end
