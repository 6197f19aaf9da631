#!/bin/bash
# shellcheck disable=SC2034,SC2154
# A server of its own, on a socket, and a replica of it: test.sh [random FOLDER | bench]
set -u
cd "$(dirname "$0")" || exit 1
name=redis
. ../lib.sh
./build.sh || exit 1
server=$(command -v redis-server || command -v valkey-server)
port=$(free_port)
declare -A pid
start() { "$server" --port "$2" --bind 127.0.0.1 --unixsocket "$room/$1" --save '' --dir "$room" --dbfilename "$1.rdb" --loadmodule "$PWD/out/wasmloop.so" 4 --logfile "$room/$1.log" "${@:3}" & pid[$1]=$!
    for i in $(seq 50); do [ "$(cli "$1" ping 2> /dev/null)" = "PONG|" ] && return; sleep 0.1; done; cat "$room/$1.log"; }
stop() { kill "${pid[$1]}" 2> /dev/null; wait "${pid[$1]}" 2> /dev/null; }
trap 'stop a; [ -z "${pid[b]:-}" ] || stop b; rm -rf "$room"' EXIT
cli() { redis-cli -s "$room/$1" "${@:2}" 2>&1 | tr '\n' '|'; }
load() { redis-cli -s "$room/a" -X m wl.load "$1" m "${@:2}" < "${file:-$guest}" 2>&1; }
start a "$port"
if [ "${1:-}" = bench ]; then       # a processor of its own; the same in Lua beside it
    load rules 100000000 5000 > /dev/null
    taskset -p -c "$last" "${pid[a]}" > /dev/null
    for _ in 1 2 3; do for what in - wl lua; do
        taskset -c "$last" timeout 10 python3 "$top/hosts/paced.py" redis "$room/a" $what
        sleep 0.5
    done; done
    exit
fi
if [ "${1:-}" = random ]; then      # modules of a folder, of which none may crash the server
    python3 "$top/hosts/random_modules.py" redis "$room/a" "$2"
    want "$? $(cli a ping)" "0 PONG|" "the server lives"
    end
    exit
fi
for each in $(rejected); do like "$(file=$room/$each.wasm load bad)" "ERR rejected: *" "a rejected module: $each"; done
want "$(file=$top/examples/ticker.wasm load bad)" "ERR rejected: it exports no uv_work" "a module without uv_work"
want "$(load rules 100000000000 500) $(cli a wl.list)" "OK rules|$(stat -c %s "$guest")|100000000000|500|" "load, list"
want "$(cli a wl.call rules 0 'Hello, World 42')$(cli a wl.call rules 0 '')" "hello-world-42||" "call"
cli a set page 'A Title' > /dev/null
cli a lpush list x > /dev/null
want "$(cli a wl.get rules 0 page)$(cli a wl.get rules 0 none)$(cli a wl.get rules 0 list | cut -c 1-9)" "a-title||WRONGTYPE" "get"
cli a set other 'B' > /dev/null
cli a setrange large 65000 x > /dev/null
want "$(file=$top/examples/sha256.wasm load sha) $(redis-cli -s "$room/a" wl.mget sha 0 page none list other | od -An -tx1 -v | tr -d ' \n' | cut -c 1-64)" \
    "OK $(printf '\7\0\0\0A Title\377\377\377\377\377\377\377\377\1\0\0\0B' | sha256sum | cut -c 1-64)" "several keys, by the digest of what the guest has"
want "$(cli a wl.mget rules 0 large page)$(cli a wl.mget rules 0 large large)$(cli a wl.mget rules 0 | cut -c 1-3)" "x-a-title|ERR more than 65536 bytes||ERR" "several large keys, and no key"
cli a wl.del sha > /dev/null
want "$(cli a command getkeys wl.mget rules 0 page other)" "page|other|" "the keys are named to the server"
want "$(printf '\n' | redis-cli -s "$room/a" -x wl.call rules 0 2>&1; cli a wl.call rules x y | cut -c 1-3; cli a wl.call none 0 y | cut -c 1-3; cli a wl.call rules 0 | cut -c 1-3; load r 0 | cut -c 1-3)" "$(printf '\nERR\nERR\nERR\nERR')" "wrong words"
want "$(head -c 65537 /dev/zero | redis-cli -s "$room/a" -x wl.call rules 0)" "ERR more than 65536 bytes" "65,537 bytes"
# hostile guests, pings beside them
like "$(cli a wl.call rules 2 x)" "ERR an access outside the memory, after 22 units, in function 13 (uv_work)*" "a trap"
like "$(cli a wl.call rules 6 x)" "ERR call-depth limit exceeded, *" "deep"
for op in 1 4 5; do
    within 2500 "a deadline of 500 ms, operation $op" cli a wl.call rules $op x
    like "$said" "ERR deadline, after * units, in function *" "a deadline, operation $op"
done
load few 1000000 > /dev/null
like "$(cli a wl.call few 1 x)" "ERR out of fuel, after 1,000,000 units, *" "fuel"
load rules 100000000000 3000 > /dev/null
for i in 1 2 3 4; do cli a wl.call rules 1 x > "$room/rest$i" & rest[i]=$!; done
sleep 0.1
within 2500 "a hundred pings beside four endless calls" redis-cli -s "$room/a" -r 100 ping
want "$(echo "$said" | sort -u)" "PONG" "the pings"
want "$(cli a wl.call rules 1 x) $(cli a wl.call rules 0 Short)" "ERR too many calls at a time|| short|" "at most four at a time"
want "$(load rules 100000000000 500) $(cli a wl.call rules 0 Again)$(cli a wl.del few)$(cli a wl.del few)" "OK again|1|0|" "loaded again while it runs, and removed"
wait "${rest[@]}"
like "$(cat "$room"/rest?)" "ERR deadline*ERR deadline*ERR deadline*ERR deadline*" "what they were told"
# transactions and scripts; clients that leave, and that CLIENT UNBLOCK, CLIENT KILL
want "$(printf 'multi\nwl.call rules 0 Short\nwl.call rules 1 x\nexec\n' | redis-cli -s "$room/a" 2>&1 | tr '\n' '|')" "OK|QUEUED|QUEUED|short|ERR it takes more than a slice, which a transaction or a script does not allow||" "a transaction"
like "$(cli a eval "return redis.call('wl.call', 'rules', '0', 'Short')" 0) $(cli a eval "return redis.call('wl.call', 'rules', '1', 'x')" 0)" "short| ERR it takes more than a slice*" "a script"
timeout 0.1 redis-cli -s "$room/a" wl.call rules 1 x
want "$(cli a ping)" "PONG|" "a client that leaves"
cli a wl.call rules 1 x > "$room/rest" & rest[1]=$!
sleep 0.1
id=$(redis-cli -s "$room/a" client list | sed -n 's/^id=\([0-9]*\) .*cmd=wl.call.*/\1/p' | head -1)
cli a client unblock "$id" > "$room/unblocked"
cli a client kill id "$id" > /dev/null
wait "${rest[1]}"
like "$(cli a ping) $(cli a wl.call rules 0 Short)" "PONG| short|" "a client that is killed"
# persistence: an RDB file, a rewritten append-only file; replication, by a full transfer and by commands
want "$(cli a save)" "OK|" "save"
stop a
start a "$port"
want "$(cli a wl.call rules 0 'Kept') $(cli a wl.list | cut -d '|' -f 3,4)" "kept| 100000000000|500" "what the RDB file kept"
cli a config set appendonly yes > /dev/null
start b "$(free_port)" --replicaof "127.0.0.1 $port"
for i in $(seq 100); do [ "$(cli b wl.call rules 0 'Kept')" = "kept|" ] && break; sleep 0.1; done
want "$(cli b wl.call rules 0 'Kept')" "kept|" "a replica, by a full transfer"
load late > /dev/null
for i in $(seq 100); do [ "$(cli b wl.call late 0 'Late')" = "late|" ] && break; sleep 0.1; done
want "$(cli b wl.call late 0 'Late')" "late|" "a replica, by a command"
like "$(redis-cli -s "$room/b" -X m wl.load x m < "$guest")" "READONLY*" "a replica loads none of its own"
cli a bgrewriteaof > /dev/null
for i in $(seq 100); do redis-cli -s "$room/a" info persistence | grep -q 'aof_rewrite_in_progress:0' && break; sleep 0.1; done
load later > /dev/null
stop a
start a "$port" --appendonly yes --appendfsync no
want "$(cli a wl.call late 0 'Late')$(cli a wl.call later 0 'Later')" "late|later|" "what the append-only file kept"
like "$(cli a module unload wasmloop)" "ERR *" "it cannot be unloaded"
# a storm of clients that come and leave
python3 - "$room/a" <<'P'
import random, socket, sys
random.seed(1)
held = []
for k in range(500):
    s = socket.socket(socket.AF_UNIX)
    s.connect(sys.argv[1])
    op = random.choice([b"0", b"1", b"2", b"3", b"4", b"5", b"6"])
    s.sendall(b"*4\r\n$7\r\nwl.call\r\n$5\r\nrules\r\n$1\r\n%s\r\n$3\r\nabc\r\n" % op)
    held.append(s)
    if random.random() < 0.8: held.pop(random.randrange(len(held))).close()
P
want "$(cli a ping) $(cli a wl.call rules 0 'Alive')" "PONG| alive|" "500 clients that come and leave"
want "$(cat "$room"/*.log | grep -cE 'REDIS BUG|crashed|ASSERTION')" 0 "no server has crashed"
end
