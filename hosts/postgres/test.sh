#!/bin/bash
# shellcheck disable=SC2034,SC2154
# The extension in a cluster of its own, on a socket, in a copy of PostgreSQL's folders, so that nothing is installed: test.sh [bench | random FOLDER]
set -u
cd "$(dirname "$0")" || exit 1
name=postgres
. ../lib.sh
./build.sh || exit 1
bin=$(pg_config --bindir)
mkdir -p "$room$(dirname "$bin")" "$room$(pg_config --sharedir)" "$room/s"
cp -a "$bin" "$(pg_config --pkglibdir)" "$room$(dirname "$bin")"
cp -a "$(pg_config --sharedir)/." "$room$(pg_config --sharedir)"
make -s -C out install with_llvm=no DESTDIR="$room" > /dev/null || exit 1
cp "$guest" "$top/hosts/guest/echo.wasm" "$room"
bin=$room$bin
server=()
if [ "$(id -u)" = 0 ]; then chown -R postgres "$room"; server=(setpriv --reuid=postgres --regid=postgres --clear-groups); fi
chmod 755 "$room"
cd "$room" || exit 1
stop() { "${server[@]}" "$bin/pg_ctl" -D "$room/d" -m immediate stop > /dev/null 2>&1; rm -rf "$room"; }
trap stop EXIT
"${server[@]}" "$bin/initdb" -D "$room/d" -A trust -E UTF8 --no-sync > /dev/null || exit 1
"${server[@]}" "$bin/pg_ctl" -D "$room/d" -o "-c listen_addresses= -k $room/s -c fsync=off" -l "$room/log" -w start > /dev/null || { cat "$room/log"; exit 1; }
sql() { psql -X -q -A -t -h "$room/s" -U "${U:-postgres}" "${DB:-postgres}" "$@" 2>&1 | tr '\n' '|'; }
script() { printf '%s\n' "$@" | psql -X -q -A -t -v VERBOSITY=sqlstate -h "$room/s" -U "${U:-postgres}" postgres 2>&1 | tr '\n' '|'; }
# asks each tenth of a second until the answer is true
until_true() { for _ in $(seq 200); do sleep 0.1; [ "$(sql -c "$1")" = "t|" ] && return; done; }
if [ "${1:-}" = bench ]; then
    python3 "$top/hosts/postgres/bench.py" "$room/s"
    exit
fi
if [ "${1:-}" = random ]; then      # modules of a folder, of which none may crash a backend
    sql -c "CREATE EXTENSION wasmloop" > /dev/null
    python3 "$top/hosts/random_modules.py" postgres "$room/s" "$2"
    want $? 0 "sessions live"
    want "$(grep -c 'terminated by signal' "$room/log")" 0 "no backend has crashed"
    end
    exit
fi
f() { echo "CREATE FUNCTION $1 LANGUAGE wasmloop ${3:-STRICT} AS '$2';"; }

sql -c "CREATE EXTENSION wasmloop" -c "INSERT INTO wasmloop.module VALUES ('rules', pg_read_binary_file('$room/rules.wasm'))" -c "CREATE ROLE tenant LOGIN; GRANT ALL ON SCHEMA public TO tenant"
want "$(U=tenant sql -c "$(f 'score(bigint) RETURNS bigint' rules.score 'IMMUTABLE STRICT PARALLEL SAFE')" -c "SELECT score(5)")" "162|" "a number, by a role without rights"
sql -c "$(f 'heavy(bigint) RETURNS bigint' rules.heavy IMMUTABLE) $(f 'slug(text) RETURNS text' rules.slug 'IMMUTABLE STRICT') $(f 'running(bigint) RETURNS bigint' rules.running)
$(f 'divide(integer, integer) RETURNS integer' rules.divide) $(f 'small(integer, integer) RETURNS smallint' rules.divide) $(f 'slugb(bytea) RETURNS bytea' rules.slug)"
for each in spin grow copies deep; do sql -c "$(f "$each(bigint) RETURNS bigint" rules.$each)"; done
want "$(sql -c "SELECT sum(score(x)) FROM generate_series(1, 1000) x")" "$(python3 -c 'print(sum((x*31+7)%1009 for x in range(1,1001)))')|" "a thousand rows"
want "$(sql -c "SELECT slug('Hello, World 42')" -c "SELECT slug('')" -c "SELECT length(slug(repeat('a', 10000)))" -c "SELECT slugb('\\x4162')")" "hello-world-42||10000|\\x6162|" "text and bytea"
want "$(sql -c "SELECT heavy(NULL) IS NULL, divide(-7, 2)")" "t|-3|" "NULL of NULL, also without STRICT; a sign"
want "$(sql -c "SELECT running(x) FROM generate_series(1, 4) x" -c "SELECT running(5)")" "1|3|6|10|5|" "state within a call site, none beyond"
# how a guest fails: SQLSTATE, place, session
want "$(script 'SELECT divide(1, 0);')" "ERROR:  22012|" "division by zero"
want "$(script 'SELECT spin(1);')$(script 'SELECT grow(1);')$(script 'SELECT copies(1);')$(script 'SELECT deep(1);')" "ERROR:  54000|ERROR:  54000|ERROR:  54000|ERROR:  54001|" "an endless, a growing, a copying and a deep guest"
want "$(script "SELECT slug(repeat('a', 70000));" 'SELECT small(100000, 1);' "SELECT slug(repeat('é', 3));" "$(f 'g(integer) RETURNS integer' 'none.g')")" "ERROR:  54000|ERROR:  22003||ERROR:  42704|" "no room, a smallint, other letters, no module"
like "$(sql -c 'SELECT divide(1, 0)')" "*division by zero*after 3 units, in function * (divide)*" "where"
want "$(script "$(f 'g(integer) RETURNS bigint' rules.score)" "$(f 'g(bigint) RETURNS bigint' rules.scored)" "$(f 'g(bigint) RETURNS SETOF bigint' rules.score)" "$(f 'g(text, text) RETURNS integer' rules.slug)" "$(f 'g() RETURNS trigger' rules.score)" \
    "$(f 'g(bigint) RETURNS bigint' score)" "$(f 'g(numeric) RETURNS bigint' rules.score)")" "ERROR:  42804|ERROR:  42883|ERROR:  42804|ERROR:  0A000|ERROR:  42804|ERROR:  42601|ERROR:  42804|" "declarations that do not fit"
want "$(script 'SET check_function_bodies = off;' "$(f 'h(numeric) RETURNS bigint' rules.score)" 'SELECT h(1);')" "ERROR:  42804|" "one that was not validated"
for each in $(rejected); do
    chmod 644 "$room/$each.wasm"
    like "$(sql -c "INSERT INTO wasmloop.module VALUES ('bad', pg_read_binary_file('$room/$each.wasm'))")" "ERROR:*is rejected|DETAIL:*" "a rejected module: $each"
done
# who may write modules, and what a search_path cannot change
want "$(U=tenant script "INSERT INTO wasmloop.module SELECT 'mine', '';" 'SELECT code FROM wasmloop.module;' 'SET wasmloop.fuel = 5;' 'SELECT score(5);' 'SHOW wasmloop.fuel;' 'SET wasmloop.fuel = 5;')" "ERROR:  42501|ERROR:  42501|WARNING:  42501|162|1000000|ERROR:  42501|" "a tenant writes and reads no modules, and raises no limit"
U=tenant sql -c "CREATE FUNCTION yes(text, text) RETURNS boolean LANGUAGE sql AS 'SELECT true'; CREATE OPERATOR public.= (LEFTARG = text, RIGHTARG = text, FUNCTION = yes)"
want "$(U=tenant script 'SET search_path = public, pg_catalog;' "$(f 'g(bigint) RETURNS bigint' no.score)")" "ERROR:  42704|" "an operator of a tenant's finds no module"
sql -c "DROP OPERATOR public.= (text, text)"
# sets, by rows that the guest writes
sql -c "$(f 'series(bigint) RETURNS SETOF bigint' rules.series 'CALLED ON NULL INPUT') $(f 'words(text) RETURNS SETOF text' rules.words) $(f 'more() RETURNS SETOF bigint' rules.more) $(f 'cut(text) RETURNS SETOF bigint' rules.words)"
want "$(sql -c "SELECT sum(x), count(*) FROM series(10000) x" -c "SELECT series(3), 7" -c "SELECT count(*) FROM generate_series(1, 100) n, series(n)" -c "SELECT count(*) FROM series(NULL)" -c "SELECT count(*) FROM series(0)")" \
    "50005000|10000|1|7|2|7|3|7|5050|0|0|" "sets of numbers: in blocks, in a list, beside others, none"
want "$(sql -c "SELECT w, w IS NULL FROM words(' a - bcd ') w" -c "SELECT count(*), count(w) FROM words(repeat('ab - ', 1000)) w")" "a|f||t|bcd|f|2000|1000|" "a set of text, with NULL"
want "$(script "SELECT cut('a');" 'SELECT count(*) FROM more();' 'SET wasmloop.fuel = 2000000000;' 'SET statement_timeout = 200;' 'SELECT count(*) FROM more();' "$(f 'g(text) RETURNS SETOF record' rules.words)" "$(f 'g(text) RETURNS text' rules.words)" "$(f 'g(bigint) RETURNS SETOF bigint' rules.score)")" \
    "ERROR:  39000|ERROR:  54000|ERROR:  57014|ERROR:  42804|ERROR:  42804|ERROR:  42804|" "a row that is cut, an endless set, declarations of sets that do not fit"
# NULL: told to those that want it
sql -c "$(f 'total_of(bigint, bigint) RETURNS bigint' 'rules.total_of nulls' 'CALLED ON NULL INPUT') $(f 'known(text) RETURNS text' 'rules.known nulls' 'CALLED ON NULL INPUT')"
want "$(sql -c "SELECT total_of(NULL, 5), total_of(2, NULL), total_of(2, 3), known(NULL), known('') IS NULL, known('x')")" "5|2|5|unknown|t|x|" "NULL, in and out"
want "$(script "$(f 'g(bigint, bigint) RETURNS bigint' rules.total_of 'CALLED ON NULL INPUT')" "$(f 'g(bigint) RETURNS bigint' 'rules.score nulls' 'CALLED ON NULL INPUT')")" "ERROR:  42804|ERROR:  42804|" "declarations of NULL that do not fit"
# modules in the functions themselves
hex="\\x$(python3 -c 'print(open("'"$room"'/rules.wasm", "rb").read().hex())')"
want "$(U=tenant sql -c "$(f 'heavy2(bigint) RETURNS bigint' "heavy$hex") $(f 'total(bigint, bigint) RETURNS bigint' "total_of$hex nulls" 'CALLED ON NULL INPUT')" -c "SELECT heavy2(5) = heavy(5), total(NULL, 5)")" "t|5|" "a module in a function, by a tenant, with an export's name"
want "$(U=tenant sql -c "$(f 'slug(bytea) RETURNS bytea' "$hex")" -c "SELECT slug('\\x4162'::bytea)")" "\\x6162|" "its export has the function's name"
want "$(script "$(f 'g(bigint) RETURNS bigint' 'score\x0061736d01000000ff')" "$(f 'g(bigint) RETURNS bigint' 'score\x0061736d0')" "$(f 'g(bigint) RETURNS bigint' "$hex")")" "ERROR:  22P03|ERROR:  22023|ERROR:  42883|" "a module in a function that is rejected, no bytes, no export"
want "$(sql -c "CREATE FUNCTION g(bigint) RETURNS bigint LANGUAGE wasmloop AS 'score$hex'; SELECT g(5)" -c "CREATE OR REPLACE FUNCTION g(bigint) RETURNS bigint LANGUAGE wasmloop AS 'heavy$hex'" -c "SELECT g(5) = heavy(5)" -c "DROP FUNCTION g")" "162|t|" "one that is replaced"
# interrupts, between slices
long="SET wasmloop.fuel = 2000000000;"
for each in spin grow copies; do
    within 10000 "statement_timeout of 200 ms ($each)" script "$long" "SET statement_timeout = 200;" "SELECT $each(1);"
    want "$said" "ERROR:  57014|" "statement_timeout, $each"
done
python3 "$top/hosts/postgres/clock.py" "$room/s" > "$room/clock" 2>&1
want "$? $(grep -v ' ok$' "$room/clock")" "0 " "timeouts and cancels hold within 10 ms, by the clock"
want "$(sql -c "$long" -c "SET statement_timeout = 100" -c "DO \$\$ DECLARE v bigint; BEGIN FOR i IN 1 .. 2 LOOP BEGIN v := CASE i WHEN 1 THEN spin(i) ELSE running(i) END; EXCEPTION WHEN query_canceled THEN NULL; END; END LOOP; END \$\$" -c "SELECT score(5)")" "162|" "calls after a cancelled one, in its session"
# the hash function of an index lives as long as the session: a call that is cancelled leaves it its state
sql -c "$(f 'hashed(bigint) RETURNS integer' rules.hashed 'IMMUTABLE STRICT') CREATE OPERATOR CLASS own FOR TYPE bigint USING hash AS OPERATOR 1 =, FUNCTION 1 hashed(bigint)" \
    -c "CREATE TABLE o (x bigint); CREATE INDEX ON o USING hash (x own); INSERT INTO o VALUES (1), (2), (99)"
want "$(script "$long" 'INSERT INTO o VALUES (99);' 'SET statement_timeout = 50;' 'INSERT INTO o VALUES (13);' 'INSERT INTO o VALUES (5);' 'INSERT INTO o VALUES (99);')$(sql -c 'INSERT INTO o VALUES (99)' -c 'SELECT count(*) FROM o')" \
    "ERROR:  57014|ERROR:  38000|6|" "an instance that lives on has the state of its cancelled call"
until_true "SELECT pg_cancel_backend(pid) FROM pg_stat_activity WHERE query LIKE '%spin(77)%' AND pid <> pg_backend_pid()" &
within 20000 "pg_cancel_backend" script "$long" "SELECT spin(77);"
want "$said" "ERROR:  57014|" "pg_cancel_backend"
wait $!
until_true "SELECT pg_terminate_backend(pid) FROM pg_stat_activity WHERE query LIKE '%spin(78)%' AND pid <> pg_backend_pid()" &
within 20000 "pg_terminate_backend" script "$long" "SELECT spin(78);"
like "$said" "FATAL:  57P01|*" "pg_terminate_backend"
wait $!
(sql -c "BEGIN; LOCK TABLE wasmloop.module; SELECT pg_sleep(4)" > /dev/null) &
until_true "SELECT true FROM pg_locks WHERE relation = 'wasmloop.module'::regclass AND mode = 'AccessExclusiveLock' AND granted"
within 10000 "lock_timeout of 100 ms" script "SET lock_timeout = 100;" "SELECT score(5);"
want "$said" "ERROR:  55P03|" "lock_timeout, while the modules are locked"
wait $!
# modules that change, are dropped; many call sites; parallel workers
want "$(sql -c "SELECT score(5)" -c "UPDATE wasmloop.module SET code = code" -c "SELECT score(6)" -c "BEGIN; DELETE FROM wasmloop.module" -c "DO \$\$ BEGIN PERFORM score(5); EXCEPTION WHEN undefined_object THEN NULL; END \$\$" -c "ROLLBACK; SELECT score(7)")" "162|193|224|" "a module that changes, and one that is gone"
want "$(script 'BEGIN; TRUNCATE wasmloop.module;' "INSERT INTO wasmloop.module VALUES ('rules', pg_read_binary_file('$room/rules.wasm'));" 'SELECT score(5);' 'TRUNCATE wasmloop.module;' \
    "INSERT INTO wasmloop.module VALUES ('rules', pg_read_binary_file('$room/echo.wasm'));" 'SELECT score(5);' 'ROLLBACK;' 'SELECT score(8);')" "162|ERROR:  42883|255|" "two modules in one place of the table, in one transaction"
want "$(script 'SELECT wasmloop.memory();' "SET wasmloop.memory = '12MB';" 'SELECT running(1) + running(2) + running(3);' 'SELECT running(1) + running(2);' 'SELECT wasmloop.memory() BETWEEN 1 AND 100000;' "SET wasmloop.memory = 0;" 'SELECT score(1);')" "0|ERROR:  53200|3|t|ERROR:  53200|" "memory is counted, and limited"
sql -c "CREATE TABLE t AS SELECT x::bigint AS x, 'Article ' || x AS s FROM generate_series(1, 50000) x" -c "ANALYZE t"
like "$(sql -c "SET parallel_setup_cost = 0" -c "SET parallel_tuple_cost = 0" -c "SET min_parallel_table_scan_size = 0" -c "EXPLAIN (ANALYZE, COSTS off) SELECT sum(score(x)) FROM t")" "*Workers Launched: [1-9]*" "parallel workers"
# dump and restore, with an index over a function; an upgrade keeps the rows
sql -c "CREATE INDEX t_slug ON t (slug(s))" -c "CREATE TABLE checked (x bigint CHECK (heavy2(x) > 0))" -c "INSERT INTO checked VALUES (5)" -c "CREATE DATABASE other"
pg_dump -h "$room/s" -U postgres postgres > "$room/dump.sql" 2> "$room/dump.err"
want "$(psql -X -q -h "$room/s" -U postgres -f "$room/dump.sql" other 2>&1 | grep -c ERROR)" 0 "pg_dump is restored"
want "$(DB=other sql -c "SELECT score(5), slug('A B'), (SELECT count(*) FROM t WHERE slug(s) = 'article-77'), (SELECT x FROM checked)")" "162|a-b|1|5|" "what was restored"
want "$(sql -c "DROP EXTENSION wasmloop CASCADE" -c "CREATE EXTENSION wasmloop" -c "SELECT count(*) FROM wasmloop.module" | grep -o '0|$')" "0|" "the extension is dropped and made again"
# memory of a session that makes, fails and cancels many call sites
sql -c "INSERT INTO wasmloop.module VALUES ('rules', pg_read_binary_file('$room/rules.wasm'))" -c "$(f 'score(bigint) RETURNS bigint' rules.score)" -c "$(f 'spin(bigint) RETURNS bigint' rules.spin)" > /dev/null
want "$(script "DO \$\$ DECLARE v bigint; BEGIN FOR i IN 1 .. 3000 LOOP EXECUTE 'SELECT score(1)' INTO v; IF i % 10 = 0 THEN BEGIN EXECUTE 'SELECT spin(1)'; EXCEPTION WHEN OTHERS THEN NULL; END; END IF; END LOOP; END \$\$;" \
    "SELECT (regexp_match(pg_read_file('/proc/' || pg_backend_pid() || '/status'), 'VmRSS:\s*(\d+)'))[1]::int < 80000;")" "t|" "3,000 call sites leave no memory behind"
want "$(grep -c 'terminated by signal' "$room/log")" 0 "no backend has crashed"
end
