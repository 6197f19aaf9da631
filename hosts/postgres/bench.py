"""What a row costs beside plpgsql and plperl: bench.py SOCKET, by test.sh bench. The least of seven turns of the backend's processor time, so a machine that
does other work measures too."""

from __future__ import annotations

import pathlib
import re
import subprocess
import sys

ROWS = 10000
SETUP = r"""
CREATE EXTENSION IF NOT EXISTS plperl;
CREATE EXTENSION wasmloop;
INSERT INTO wasmloop.module VALUES ('rules', decode('CODE', 'hex'));
CREATE FUNCTION score(bigint) RETURNS bigint LANGUAGE wasmloop IMMUTABLE STRICT AS 'rules.score';
CREATE FUNCTION heavy(bigint) RETURNS bigint LANGUAGE wasmloop IMMUTABLE STRICT AS 'rules.heavy';
CREATE FUNCTION slug(text) RETURNS text LANGUAGE wasmloop IMMUTABLE STRICT AS 'rules.slug';
CREATE FUNCTION pl_score(x bigint) RETURNS bigint LANGUAGE plpgsql IMMUTABLE STRICT AS 'BEGIN RETURN (x * 31 + 7) % 1009; END';
CREATE FUNCTION pl_heavy(y bigint) RETURNS bigint LANGUAGE plpgsql IMMUTABLE STRICT AS
    'DECLARE x bigint := y; BEGIN FOR i IN 0 .. 99 LOOP x := (x * 31 + 7) % 1009 + i; END LOOP; RETURN x; END';
CREATE FUNCTION pl_slug(text) RETURNS text LANGUAGE plpgsql IMMUTABLE STRICT AS
    'BEGIN RETURN trim(both ''-'' from regexp_replace(lower($1), ''[^a-z0-9]+'', ''-'', ''g'')); END';
CREATE FUNCTION pe_score(bigint) RETURNS bigint LANGUAGE plperl IMMUTABLE STRICT AS 'return ($_[0] * 31 + 7) % 1009;';
CREATE FUNCTION pe_heavy(bigint) RETURNS bigint LANGUAGE plperl IMMUTABLE STRICT AS
    'my $x = $_[0]; for my $i (0 .. 99) { $x = ($x * 31 + 7) % 1009 + $i; } return $x;';
CREATE FUNCTION pe_slug(text) RETURNS text LANGUAGE plperl IMMUTABLE STRICT AS
    'my $s = lc $_[0]; $s =~ s/[^a-z0-9]+/-/g; $s =~ s/^-|-$//g; return $s;';
CREATE TABLE b AS SELECT x::bigint AS x, 'An Article about Number ' || x || ', in Two Parts' AS s FROM generate_series(1, ROWS) x;
VACUUM ANALYZE b;
""".replace("ROWS", str(ROWS)).replace("CODE", (pathlib.Path(__file__).parent.parent / "guest/rules.wasm").read_bytes().hex())
# (name, the sum of a column of numbers, rows)
WHAT = [("base", "x", ROWS), ("wasmloop", "score(x)", ROWS), ("plpgsql", "pl_score(x)", ROWS), ("plperl", "pe_score(x)", ROWS), ("wasmloop", "heavy(x)", ROWS),
        ("plpgsql", "pl_heavy(x)", 3000), ("plperl", "pe_heavy(x)", 3000), ("wasmloop", "length(slug(s))", ROWS), ("plpgsql", "length(pl_slug(s))", ROWS),
        ("plperl", "length(pe_slug(s))", ROWS)]


def psql(script: str) -> str:
    words = ["psql", "-X", "-q", "-A", "-t", "-h", sys.argv[1], "-U", "postgres", "postgres"]
    return subprocess.run(words, input=script, capture_output=True, text=True, check=True).stderr


def main() -> None:
    psql(SETUP)
    script = "SET max_parallel_workers_per_gather = 0;\n" + "".join(f"SELECT {what} FROM b LIMIT 1;\n" for _, what, _ in WHAT)      # each language is loaded
    script += "SET client_min_messages = log;\nSET log_statement_stats = on;\n"
    for _, what, rows in WHAT:
        script += f"SELECT sum({what}) FROM b WHERE x <= {rows};\n"
    best = [1e9] * len(WHAT)
    for _ in range(7):
        times = [float(user) + float(system) for user, system in re.findall(r"!\s+([0-9.]+) s user, ([0-9.]+) s system, [0-9.]+ s elapsed", psql(script))]
        assert len(times) == len(WHAT), times
        best = [min(b, t) for b, t in zip(best, times)]
    for (name, what, rows), took in zip(WHAT, best):
        print(f"{what:18} {name:20} {(took - best[0] * rows / ROWS) * 1e9 / rows:8.0f} ns a row above sum(x)")


main()
