#!/bin/bash
# shellcheck disable=SC2034,SC2154
# go vet and the tests, then again under the race detector: test.sh [bench]
set -u
cd "$(dirname "$0")" || exit 1
name=go
. ../lib.sh
. ./env.sh
if [ "${1:-}" = bench ]; then      # the least of five, on a processor of its own
    taskset -c "$last" go test -run NONE -bench . -benchtime 50000x -count 5 . | awk '/ns\/op/ { if (!($1 in best) || $3 < best[$1]) best[$1] = $3 } END { for (name in best) print name, best[name], "ns" }' | sort
    exit
fi
want "$(gofmt -l .)" "" "gofmt"
go vet . > "$room/vet" 2>&1
want "$? $(cat "$room/vet")" "0 " "go vet"
for how in "" -race; do
    # shellcheck disable=SC2086
    GODEBUG=cgocheck=1 timeout 300 go test -count=1 -v $how . > "$room/log" 2>&1
    want $? 0 "go test $how"
    want "$(grep -c '^--- PASS' "$room/log")" "$(grep -c '^func Test' wasmloop_test.go)" "the tests $how"
    grep -E '^ *[a-z_]*.go:|^(--- FAIL|FAIL|panic|WARNING)' "$room/log"
done
end
