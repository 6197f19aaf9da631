#!/bin/sh
# Tests the server: what it does, its shutdown, its page, the commands of README.md, source lines, edge.py, and hostile clients, as the compiler
# builds it, and under AddressSanitizer, UndefinedBehaviorSanitizer and ThreadSanitizer. Skips, and reports, what needs a package that is missing.
#
# usage: test.sh [LIBRARY [PART..]]     LIBRARY: a folder with libwasmloop.a, and maybe wasmloop.h and libwasmloop.so.0 (else dist/ at the top);
#                                       PART: plain, addresses, threads (else these three), or long: ten thousand idle connections, and hostile clients
#                                       and tenants, under the sanitizers too; bench/soak.py for SOAK seconds (600); bench/proxies.py, for root
#
# Ends with 1 if a test fails, with 2 if LIBRARY has no library or PART is none of these.
set -u
here=$(cd "$(dirname "$0")" && pwd) top=$(cd "$(dirname "$0")/../.." && pwd)
given=${1:-$top/dist}
[ -f "$given/libwasmloop.a" ] || { echo "edge: there is no file $given/libwasmloop.a" >&2; exit 2; }
library=$(readlink -f "$given") out=$(mktemp -d) failed=0
trap 'rm -rf "$out"' EXIT
[ $# = 0 ] || shift
[ $# -gt 0 ] || set -- plain addresses threads

say() { printf 'edge: %s\n' "$*"; }
left_out() { say "left out: $*"; }
has() { command -v "$1" > /dev/null 2>&1; }
part() {
    began=$(date +%s)
    python3 "$here/test/test.py" "$@" || { say "FAILED: $*"; failed=1; return; }
    say "$(basename "$1"): $(shift 2; echo "$*") passed in $(($(date +%s) - began)) s"
}

# With addresses of several networks, in a namespace.
networks() {
    own='unshare --map-root-user --net'
    if ! has ip || ! $own true 2> /dev/null; then left_out 'networks of IPv6: there is no ip, or no namespace'; return; fi
    $own python3 "$here/test/test.py" "$@" networks || { say 'FAILED: networks'; failed=1; }
}

# What systemd says of the units, with a program that is there.
units() {
    if ! has systemd-analyze; then left_out 'the units: there is no systemd-analyze'; return; fi
    mkdir "$out/units" && cp "$here/edge.socket" "$out/units" && sed "s|/usr/bin/edge|$1|" "$here/edge.service" > "$out/units/edge.service"
    said=$(systemd-analyze verify --man=no "$out/units/edge.socket" "$out/units/edge.service" 2>&1) && [ -z "$said" ] || { say "FAILED: the units: $said"; failed=1; }
}

soak() {
    if python3 "$here/bench/soak.py" --seconds "$2" "$1" "$out/load" "$out/guests" > "$out/soak"; then say "soak: $2 s, $(head -n 1 "$out/soak")"
    else say "FAILED: soak: $(cat "$out/soak")"; failed=1
    fi
}

# A server that never frees a request's body, 32 bytes each, must fail the soak.
leak() {
    leaky=$out/leaky/examples/edge
    mkdir -p "$out/leaky/examples" && cp -r "$here" "$leaky" && ln -s "$top/capi" "$out/leaky/capi" && sed -i '/^    free(b->at);$/d' "$leaky/http.c" &&
        "$leaky/build.sh" "$out/leaks" "$library" || { say 'FAILED: build.sh of a leak'; failed=1; return; }
    python3 "$here/bench/soak.py" --seconds "$1" "$out/leaks" "$out/load" "$out/guests" > "$out/soak"
    if grep -q '^wrong: a leak$' "$out/soak"; then say "soak: $1 s, finds a leak"
    else say "FAILED: the soak finds no leak: $(cat "$out/soak")"; failed=1
    fi
}

# The sources of llhttp, in LLHTTP if it is not given: Debian has them in its newest suite.
llhttp() {
    [ -z "${LLHTTP:-}" ] || return 0
    mkdir "$out/llhttp"
    apt=$("$top/tools/apt_config.sh" "$out/apt" sid 2> /dev/null) || return 1
    (cd "$out/llhttp" && APT_CONFIG=$apt apt-get -q source --download-only llhttp > log 2>&1)
    LLHTTP=$out/llhttp
    export LLHTTP
    for file in "$LLHTTP"/llhttp_*.orig.tar.gz; do tar xzf "$file" -C "$LLHTTP" --strip-components 1 2> /dev/null; done
    [ -d "$LLHTTP/test/request" ]
}

# Makes a guest's source lines from a build with debug information.
source_lines() {
    flags="--target=wasm32 -mcpu=mvp -std=c99 -O2 -ffreestanding -I $here/.."
    # shellcheck disable=SC2086
    clang $flags -g -c -o "$out/trap.o" "$here/guests/trap.c" && clang $flags -c -o "$out/mem.o" "$here/../mem.c" &&
        wasm-ld --no-entry --export-table --stack-first -z stack-size=16384 -o "$out/trap.build" "$out/trap.o" "$out/mem.o" &&
        python3 "$here/lines.py" "$out/guests/trap.wasm" "$out/trap.build" > "$out/guests/trap.lines" || { say 'FAILED: lines.py'; failed=1; }
}

if ! pkg-config --exists libuv; then left_out "all: there is no libuv"; exit 0; fi
if ! pkg-config --exists libllhttp && ! echo '#include <http_parser.h>' | cc -E - > /dev/null 2>&1; then left_out "all: there is no HTTP parser"; exit 0; fi
if ! has clang || ! has wasm-ld; then left_out "all: there is no clang with wasm-ld for the guests"; exit 0; fi
export WASMLOOP_LIBRARY="$library/libwasmloop.so.0" PYTHONPATH="$top/capi/python"
others=forms
if /usr/bin/python3 -c 'import h11' 2> /dev/null; then others="$others strict"; else left_out 'the strict client: there is no h11'; fi
if /usr/bin/python3 -c 'import h11.tests, pytest' 2> /dev/null; then others="$others h11"; else left_out "h11's requests: there is no h11 or pytest"; fi
chunks='from twisted.web.http import _ChunkedTransferDecoder, _MalformedChunkedDataError'
if /usr/bin/python3 -c "import twisted.web.test.test_http; $chunks" 2> /dev/null; then others="$others twisted"
else left_out "Twisted's requests: there is no Twisted"
fi
mkdir "$out/guests"
"$here/guests/build.sh" "$out/guests" && cp "$here/../crc32.wasm" "$here/../sha256.wasm" "$here/../ticker.wasm" "$out/guests" || exit 1
if [ ! -f "$WASMLOOP_LIBRARY" ]; then left_out 'lines.py: there is no libwasmloop.so.0'
elif ! has llvm-symbolizer; then left_out 'lines.py: there is no llvm-symbolizer'
else source_lines
fi
cc -std=c11 -D_GNU_SOURCE -O2 -Wall -Wextra -Werror -o "$out/load" "$here/bench/load.c" -luv || exit 1

for how; do
    case $how in
    plain)
        CFLAGS=-Werror "$here/build.sh" "$out/plain" "$library" || exit 1
        "$here/bench/plain.sh" "$out/over_c" || { say 'FAILED: bench/plain.sh'; failed=1; }
        part "$out/plain" "$out/guests" functions bounds starts end operators listeners logs clients $others
        networks "$out/plain" "$out/guests"
        units "$out/plain"
        if has chromium; then part "$out/plain" "$out/guests" page; else left_out 'the page: there is no chromium'; fi
        soak "$out/plain" 10
        leak 10
        if has curl; then "$here/test/lines.sh" "$out/plain" "$out/guests" || failed=1; else left_out 'the lines of README.md: there is no curl'; fi
        if [ ! -f "$WASMLOOP_LIBRARY" ]; then left_out 'edge.py: there is no libwasmloop.so.0'
        elif ! /usr/bin/python3 -c 'import aiohttp' 2> /dev/null; then left_out 'edge.py: there is no aiohttp'
        else part "$out/plain" "$out/guests" python
        fi ;;
    addresses)
        CC=clang CFLAGS='-g -O1 -fsanitize=address,undefined -fno-sanitize-recover=undefined' "$here/build.sh" "$out/addresses" "$library" || exit 1
        ASAN_OPTIONS=quarantine_size_mb=8 part "$out/addresses" "$out/guests" functions bounds end operators listeners logs clients $others ;;
    threads)
        CC=clang CFLAGS='-g -O1 -fsanitize=thread' "$here/build.sh" "$out/threads" "$library" || exit 1
        part "$out/threads" "$out/guests" functions bounds end operators listeners logs clients $others ;;
    long)
        "$here/build.sh" "$out/plain" "$library" || exit 1
        CC=clang CFLAGS='-g -O1 -fsanitize=address,undefined -fno-sanitize-recover=undefined' "$here/build.sh" "$out/addresses" "$library" || exit 1
        CC=clang CFLAGS='-g -O1 -fsanitize=thread' "$here/build.sh" "$out/threads" "$library" || exit 1
        if llhttp; then part "$out/plain" "$out/guests" llhttp; else left_out "llhttp's requests: apt has no sources of it here"; fi
        LOAD=$out/load part "$out/plain" "$out/guests" 10000 hostile
        if has slowhttptest; then part "$out/addresses" "$out/guests" attacks; else left_out 'attacks: there is no slowhttptest'; fi
        ASAN_OPTIONS=quarantine_size_mb=8 part "$out/addresses" "$out/guests" 10000 hostile
        part "$out/threads" "$out/guests" 10000 hostile
        soak "$out/plain" "${SOAK:-600}"
        if [ "$(id -u)" != 0 ] || ! has mmdebstrap; then left_out 'the image: it takes root and mmdebstrap'
        elif said=$(python3 "$here/test/image.py" "$out/guests" 2> "$out/image"); then say "image: $said"
        else say "FAILED: test/image.py: $(tail -n 3 "$out/image")"; failed=1
        fi
        if [ "$(id -u)" != 0 ] || ! has mmdebstrap || ! grep -q ' cgroup2 ' /proc/mounts; then left_out 'the units in a systemd: it takes root, mmdebstrap and cgroup2'
        elif said=$(python3 "$here/test/unit.py" "$out/plain" "$out/guests" 2> "$out/unit"); then say "$said"
        else say "FAILED: test/unit.py: $(tail -n 3 "$out/unit")"; failed=1
        fi
        if [ "$(id -u)" != 0 ]; then left_out 'bench/proxies.py: it makes namespaces as root'
        else python3 "$here/bench/proxies.py" "$out/plain" "$out/load" "$out/guests" || { say 'FAILED: bench/proxies.py'; failed=1; }
        fi ;;
    *) say "no part: $how"; exit 2 ;;
    esac
done
exit $failed
