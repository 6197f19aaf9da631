# For the tests of this folder, which begin with: name=NAME; . ../lib.sh
# shellcheck shell=bash disable=SC2034,SC2154
top=$(cd "$(dirname "${BASH_SOURCE[0]}")/.." && pwd)
guest=$top/hosts/guest/rules.wasm
# the folder of the library: dist/, or what WASMLOOP_FOLDER names; the builds look there too
library=${WASMLOOP_FOLDER:-$top/dist}
room=$(mktemp -d "${TMPDIR:-/tmp}/wasmloop-$name.XXXXXX")
# (a test with a server sets its own, which ends that too)
trap 'rm -rf "$room"' EXIT
passed=0 failed=0
# the processor that a bench has its server and its clients on
last=$(($(nproc) - 1))
# Debian's own programs come first
case :$PATH: in *:/usr/bin:*) PATH=/usr/bin:$PATH; export PATH ;; esac

# want GOT EXPECTED WHAT; like GOT PATTERN WHAT
want() { if [ "$1" = "$2" ]; then passed=$((passed + 1)); else failed=$((failed + 1)); echo "FAILED: $3: it is '$1', not '$2'"; fi; }
# shellcheck disable=SC2053
like() { if [[ $1 == $2 ]]; then passed=$((passed + 1)); else failed=$((failed + 1)); echo "FAILED: $3: it is '$1', not like '$2'"; fi; }
# within MILLISECONDS WHAT COMMAND..: that it takes no longer; its output is in $said
within() {
    local began most=$1 what=$2
    began=$(date +%s%N)
    shift 2
    said=$("$@" 2>&1)
    took=$((($(date +%s%N) - began) / 1000000))
    if [ $took -le "$most" ]; then passed=$((passed + 1)); else failed=$((failed + 1)); echo "FAILED: $what took $took ms, more than $most"; fi
}
# a port that nothing listens at
free_port() { python3 -c 'import socket; s = socket.socket(); s.bind(("127.0.0.1", 0)); print(s.getsockname()[1])'; }
# modules that are rejected: an empty file, one that is cut, one with an unknown section, one with floating point
rejected() {
    : > "$room/empty.wasm"
    head -c 200 "$guest" > "$room/cut.wasm"
    printf '\0asm\1\0\0\0\377' > "$room/section.wasm"
    printf '\0asm\1\0\0\0\1\5\1\140\0\1\175\3\2\1\0\12\11\1\7\0\103\0\0\0\0\13' > "$room/float.wasm"
    echo empty cut section float
}
end() { echo "$name: $passed passed, $failed failed"; [ "$failed" = 0 ]; }
