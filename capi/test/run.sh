#!/bin/sh
# Installs what is shipped in a folder, as a user would, and runs tests and hosts over it. A host is right where it prints what PROGRAM prints.
#
# usage: run.sh PROGRAM OUT       PROGRAM: the built wasmloop; OUT: a folder
#
# What needs a program or a package that isn't there is left out, and said. Ends with 1 where anything differs or fails.
here=$(cd "$(dirname "$0")" && pwd) top=$(cd "$(dirname "$0")/../.." && pwd)
hosts=$top/hosts python=$top/capi/python rust=$top/capi/rust
mkdir -p "$2" || exit 1
program=$(readlink -f "$1") out=$(cd "$2" && pwd)
examples=$top/examples
failed=0
# Debian's own python3, cargo and rustc come first
case :$PATH: in *:/usr/bin:*) PATH=/usr/bin:$PATH; export PATH ;; esac

say() { printf 'capi: %s\n' "$*"; }
fail() { say "FAILED: $*"; failed=1; }
left_out() { say "left out: $*"; }
try() { "$@" > "$out/said" 2>&1 || { fail "$*"; cat "$out/said"; }; }

# Whether a command ends with this status, and its standard error has a line like this: the status, the pattern, the command.
says() {
    status=$1 pattern=$2
    shift 2
    "$@" > "$out/printed" 2> "$out/said"
    [ $? = "$status" ] && grep -q -e "$pattern" "$out/said" && return
    fail "what $* says"
    cat "$out/said"
}

# Whether a command ends with a report of a data race.
reports() {
    timeout 60 "$@" > "$out/said" 2>&1 && return 1
    grep -q 'data race' "$out/said"
}

# What is compared of the lines of an example: all of them; but digest asks for four pieces of work, and threads decide which reply
# comes first, so each line's replies are put in one order.
exactly() {
    case $1 in */digest.wasm) ;; *) cat; return ;; esac
    while read -r line; do echo "$line" | sed 's/ \([1-4]\) \([05]\) /\n\1 \2 /g' | sort; done
}

# The same in real time, where a guest that emits the time is told another: how each loop ends, and how many values it puts out.
counted() { awk '{ print $1, $2, $3, NF }'; }

what() {
    case $1 in
    exactly) echo 'each line, and of digest each reply' ;;
    counted) echo 'how each loop ends, and the number of its values' ;;
    esac
}

# Whether a host agrees with serve: the words of serve, the host's command with $1 for the file, what is compared, and the file.
agrees() {
    # shellcheck disable=SC2086
    "$program" serve "$4" $1 > "$out/wanted" 2> /dev/null
    wanted=$?
    sh -c "$2" host "$4" > "$out/got" 2> "$out/said"
    [ $? = $wanted ] || return 1
    "$3" "$4" < "$out/wanted" > "$out/wanted_lines"
    "$3" "$4" < "$out/got" > "$out/got_lines"
    [ -s "$out/got_lines" ] && cmp -s "$out/wanted_lines" "$out/got_lines"
}

# Runs a host on every example.
compare() {
    same=0 all=0
    for example in "$examples"/*.wasm; do
        all=$((all + 1))
        if agrees "$2" "$3" "$4" "$example"; then same=$((same + 1)); continue; fi
        fail "$1 on $(basename "$example")"
        diff "$out/wanted" "$out/got"
        cat "$out/said"
    done
    say "$1 agrees with serve on $same of $all examples: $(what "$4")"
}

# Whether a host prints this for a guest of this folder: how it is told, the guest's name, what is printed, the host's command.
prints() {
    if [ ! -f "$out/$2.wasm" ]; then left_out "$1 on $2.c: there is no clang with wasm-ld"; return; fi
    [ "$(sh -c "$4" host "$out/$2.wasm" 2> "$out/said")" = "$3" ] || { fail "$1 on $2.c"; cat "$out/said"; }
}

# Two loops on two threads, eight threads on one module, and loops that eight threads pass on: no race is reported, and those that are built in are.
races() {
    for fault in SOUND WITHOUT_LOCK WITHOUT_WAIT; do
        # shellcheck disable=SC2086
        {
            try cc $c -g -O1 -fsanitize=thread -D$fault -o "$out/threads_$fault" "$here/threads_test.c" "$lib/libwasmloop.a" -lpthread
            try cc $c -g -O1 -D$fault -o "$out/plain_$fault" "$here/threads_test.c" "$lib/libwasmloop.a" -lpthread
        }
    done
    for fault in SOUND WITH_DROP; do
        # shellcheck disable=SC2086
        {
            try cc $c -g -O1 -fsanitize=thread -D$fault -o "$out/share_$fault" "$here/share_test.c" "$lib/libwasmloop.a" -lpthread
            try cc $c -g -O1 -D$fault -o "$out/plain_share_$fault" "$here/share_test.c" "$lib/libwasmloop.a" -lpthread
        }
    done
    for fault in SOUND PASSED_EARLY; do
        # shellcheck disable=SC2086
        try cc $c -g -O1 -fsanitize=thread -D$fault -o "$out/pass_$fault" "$here/pass_test.c" "$lib/libwasmloop.a" -lpthread
    done
    "$out/pass_SOUND" "$examples" 200 || fail "loops in slices that threads pass on, under ThreadSanitizer"
    reports env TSAN_OPTIONS=halt_on_error=1 "$out/pass_PASSED_EARLY" "$examples" 200 || fail "ThreadSanitizer doesn't report PASSED_EARLY"
    "$out/share_SOUND" "$examples/crc32.wasm" 100 || fail "eight threads on one module, under ThreadSanitizer"
    reports env TSAN_OPTIONS=halt_on_error=1 "$out/share_WITH_DROP" "$examples/crc32.wasm" 100 || fail "ThreadSanitizer doesn't report WITH_DROP"
    "$out/threads_SOUND" "$examples/digest.wasm" 50 || fail "two loops on two threads, under ThreadSanitizer"
    for fault in WITHOUT_LOCK WITHOUT_WAIT; do
        reports env TSAN_OPTIONS=halt_on_error=1 "$out/threads_$fault" "$examples/digest.wasm" 200 || fail "ThreadSanitizer doesn't report $fault"
    done
    if ! command -v valgrind > /dev/null; then left_out "Helgrind: there is no valgrind"; return; fi
    try valgrind -q --tool=helgrind --error-exitcode=66 "$out/plain_SOUND" "$examples/digest.wasm" 10
    try valgrind -q --tool=helgrind --error-exitcode=66 "$out/plain_share_SOUND" "$examples/crc32.wasm" 20
    reports valgrind -q --tool=helgrind --error-exitcode=66 "$out/plain_share_WITH_DROP" "$examples/crc32.wasm" 30 \
        || fail "Helgrind doesn't report WITH_DROP"
    reports valgrind -q --tool=helgrind --error-exitcode=66 "$out/plain_WITHOUT_WAIT" "$examples/digest.wasm" 30 \
        || fail "Helgrind doesn't report WITHOUT_WAIT"
}

# Valgrind reports a copy of a handle that is used behind the end of its object, as the header says.
dangles() {
    # shellcheck disable=SC2086
    try cc $c -g -O1 -o "$out/dangling_test" "$here/dangling_test.c" "$lib/libwasmloop.a"
    if ! command -v valgrind > /dev/null; then left_out "copies behind a drop: there is no valgrind"; return; fi
    for how in drop use accept; do
        valgrind -q --error-exitcode=66 "$out/dangling_test" "$examples" $how > "$out/said" 2>&1
        [ $? = 66 ] || fail "Valgrind doesn't report a copy, by $how"
    done
}

if ! env -u DESTDIR -u LIBDIR PREFIX="$out" "$top/install.sh"; then exit 1; fi
lib=$out/lib
say "libwasmloop.a has $(stat -Lc %s "$lib/libwasmloop.a") bytes, libwasmloop.so $(stat -Lc %s "$lib/libwasmloop.so")"
"$here/shape_test.sh" "$lib" "$out/bin/wasmloop" || fail "the shape of what is shipped"

c="-std=c11 -D_GNU_SOURCE -Wall -Wextra -Werror -I$out/include"
# shellcheck disable=SC2086
try cc $c -c -o "$out/abi_test.o" "$here/abi_test.c"
checked="-g -O1 -fsanitize=address,undefined -fno-sanitize-recover"
# shellcheck disable=SC2086
{
    try cc $c $checked -o "$out/calls_test" "$here/calls_test.c" "$lib/libwasmloop.a" -lpthread
    try cc $c $checked -o "$out/edges_test" "$here/edges_test.c" "$lib/libwasmloop.a"
    try cc $c $checked -o "$out/texts_test" "$here/texts_test.c" "$lib/libwasmloop.a"
    try cc $c $checked -o "$out/bytes_test" "$here/bytes_test.c" "$lib/libwasmloop.a"
    try cc $c $checked -o "$out/slices_test" "$here/slices_test.c" "$lib/libwasmloop.a"
    try cc $c $checked -o "$out/steps_test" "$here/steps_test.c" "$lib/libwasmloop.a"
    try cc $c $checked -o "$out/turn_units" "$here/turn_units.c" "$lib/libwasmloop.a"
    try cc $c $checked -Wl,--wrap=malloc,--wrap=realloc -o "$out/later_slices" "$here/later_slices.c" "$lib/libwasmloop.a"
    try cc $c -g -O1 -fsanitize=thread -o "$out/calls_test_threads" "$here/calls_test.c" "$lib/libwasmloop.a" -lpthread
    try cc $c $checked -Wl,--wrap=malloc,--wrap=realloc -o "$out/refuse_memory" "$here/refuse_memory.c" "$lib/libwasmloop.a"
    try cc $c -O1 -Wl,--wrap=malloc,--wrap=realloc -o "$out/told_without" "$here/told_without.c" "$lib/libwasmloop.a"
    try cc $c $checked -Wl,--wrap=malloc,--wrap=realloc -o "$out/fuzz" "$here/fuzz.c" "$lib/libwasmloop.a"
    try cc $c -g -O1 -o "$out/stack_test" "$here/stack_test.c" "$lib/libwasmloop.a" -lpthread
}
"$out/calls_test" "$examples" || fail "the calls, under AddressSanitizer"
"$out/calls_test_threads" "$examples" || fail "the calls, under ThreadSanitizer"
"$out/edges_test" "$examples" || fail "the edges, under AddressSanitizer"
"$out/texts_test" "$examples" || fail "the texts, under AddressSanitizer"
"$out/bytes_test" "$examples" || fail "calls with bytes, under AddressSanitizer"
"$out/slices_test" "$examples" || fail "jobs in slices, under AddressSanitizer"
"$out/steps_test" "$examples" || fail "loops in slices, under AddressSanitizer"
"$out/turn_units" "$examples" || fail "the units of turns in slices"
"$out/later_slices" "$examples" || fail "what later slices allocate"
races
dangles
"$out/refuse_memory" "$examples/digest.wasm" "$examples/countdown.wasm" "$examples/chatter.wasm" || fail "refused memory"
"$out/told_without" 500 "$examples/digest.wasm" "$examples/countdown.wasm" || fail "an answer for want of memory"
"$out/stack_test" "$examples"/*.wasm || fail "a call takes more stack than the header says"
plugins=
if command -v clang > /dev/null && command -v wasm-ld > /dev/null && command -v wat2wasm > /dev/null && command -v python3 > /dev/null; then
    try "$here/instance_test.sh" "$out" "$out/plugins"
    tail -1 "$out/said"
    plugins="$out/plugins/kv.wasm $out/plugins/start.wasm $out/plugins/fails.wasm $out/plugins/plain.wasm"
else left_out "instances: there is no clang with wasm-ld, wat2wasm or python3"; fi
# (long.sh has another seed, and more sequences)
for seed in 1 2; do
    # shellcheck disable=SC2086
    "$out/fuzz" $seed 3000 "$examples"/*.wasm $plugins || fail "random calls, with seed $seed"
done

# the program with which docs/EMBEDDING.md begins
awk '/^```c$/ { inside = 1; next } /^```$/ { if (inside) exit } inside' "$top/docs/EMBEDDING.md" > "$out/first.c"
# shellcheck disable=SC2086
try cc $c -o "$out/first" "$out/first.c" "$lib/libwasmloop.a"
[ "$("$out/first" "$examples/crc32.wasm" 2>&1)" = "$("$program" work "$examples/crc32.wasm" 0 616263 | sed 's/^done \([-0-9]*\) .*/\1/')" ] || fail "the first program of EMBEDDING.md"

# a loop by itself, in C; in Python below
counts='3 2 1 0 0'
# shellcheck disable=SC2086
try cc $c -o "$out/first_loop" "$hosts/c/first_loop.c" "$lib/libwasmloop.a"
[ "$("$out/first_loop" "$examples/countdown.wasm" | xargs)" = "$counts" ] || fail "first_loop.c"
head -c 30 "$examples/countdown.wasm" > "$out/cut.wasm"
says 4 '^a callback did not return: call-depth limit exceeded, after 64 units, in function 0, ' "$out/first_loop" "$examples/endless.wasm"
says 5 '^byte 30: section 1 declares 31 bytes; ' "$out/first_loop" "$out/cut.wasm"

if command -v pkg-config > /dev/null; then
    export PKG_CONFIG_PATH="$lib/pkgconfig"
    # shellcheck disable=SC2046
    try cc -o "$out/first_shared" "$out/first.c" $(pkg-config --cflags --libs wasmloop) "-Wl,-rpath,$lib"
    [ "$("$out/first_shared" "$examples/crc32.wasm")" = "$("$out/first" "$examples/crc32.wasm")" ] || fail "the shared library"
    # shellcheck disable=SC2046
    try cc -o "$out/first_static" "$out/first.c" $(pkg-config --cflags --libs wasmloop-static)
    [ "$("$out/first_static" "$examples/crc32.wasm")" = "$("$out/first" "$examples/crc32.wasm")" ] || fail "wasmloop-static.pc"
else left_out "wasmloop.pc: there is no pkg-config"; fi

# a plug-in that has the library within exports its own names alone
# shellcheck disable=SC2086
try cc $c -shared -fPIC -o "$out/plugin.so" -Dmain=plugin_main "$out/first.c" "$lib/libwasmloop.a"
[ "$(nm -D --defined-only "$out/plugin.so" | awk '{ print $3 }')" = plugin_main ] || fail "a plug-in exports more than its own names"

if command -v c++ > /dev/null; then
    printf '#include "wasmloop.h"\nint main() { return wasmloop_version() ? 0 : 1; }\n' > "$out/header.cc"
    try c++ -Wall -Werror "-I$out/include" -o "$out/header" "$out/header.cc" "$lib/libwasmloop.a"
    try "$out/header"
else left_out "the header in C++: there is no c++"; fi

if command -v cmake > /dev/null; then
    mkdir -p "$out/cmake"
    sed "s/@version@/$(sed -n 's/^#define WASMLOOP_VERSION "\([0-9]*\.[0-9]*\).*/\1/p' "$top/capi/include/wasmloop.h")/" > "$out/cmake/CMakeLists.txt" <<'END'
cmake_minimum_required(VERSION 3.10)
project(first C)
find_package(wasmloop @version@ REQUIRED)
add_executable(first ../first.c)
target_link_libraries(first wasmloop::wasmloop)
add_executable(first_static ../first.c)
target_link_libraries(first_static wasmloop::static)
END
    try cmake -S "$out/cmake" -B "$out/cmake/built" -DCMAKE_PREFIX_PATH="$out"
    try cmake --build "$out/cmake/built"
    for made in first first_static; do
        [ "$("$out/cmake/built/$made" "$examples/crc32.wasm")" = "$("$out/first" "$examples/crc32.wasm")" ] || fail "$made, by find_package"
    done
else left_out "find_package: there is no cmake"; fi

# Guests whose work is cancelled when it has been started, and which are sent to from another thread.
cp "$here/cancels.c" "$here/waits.c" "$out"
cancelled='loop 0 over emits -16 0 7'
if command -v clang > /dev/null && command -v wasm-ld > /dev/null; then
    try "$examples/build.sh" "$out/cancels" "$out/waits"
else left_out "a cancel of work that runs: there is no clang with wasm-ld"; fi

if [ -f /usr/include/uv.h ]; then
    # shellcheck disable=SC2086
    try cc $c $checked -o "$out/host_uv" "$hosts/c/host_uv.c" "$lib/libwasmloop.a" -luv
    compare host_uv '--loops 2 --workers 1' "VIRTUAL=1 '$out/host_uv' 2 < \"\$1\"" exactly
    compare 'host_uv in real time' '--loops 2 --workers 1' "'$out/host_uv' 2 < \"\$1\"" counted
    prints host_uv cancels "$cancelled" "'$out/host_uv' 1 < \"\$1\""
    prints host_uv waits 'loop 0 over emits 1 121 0' "'$out/host_uv' 1 1 < \"\$1\""
    says 2 '^usage: host_uv LOOPS \[SENDS\] < FILE' "$out/host_uv"
    says 1 '^host_uv: load: byte 30: section 1 declares 31 bytes; ' "$out/host_uv" 1 < "$out/cut.wasm"
else left_out "the libuv host: libuv1-dev is not there"; fi

if command -v python3 > /dev/null; then
    export WASMLOOP_LIBRARY="$lib/libwasmloop.so.0" PYTHONPATH="$python" PYTHONDONTWRITEBYTECODE=1
    compare host.py '--loops 2 --workers 1' "python3 '$hosts/python/host.py' \"\$1\" 2" exactly
    compare host_asyncio.py '--loops 1 --workers 1' "python3 '$hosts/python/host_asyncio.py' \"\$1\" --virtual" exactly
    compare 'host_asyncio.py in real time' '--loops 1 --workers 1' "python3 '$hosts/python/host_asyncio.py' \"\$1\"" counted
    prints host.py cancels "$cancelled" "python3 '$hosts/python/host.py' \"\$1\" 1"
    prints host_asyncio.py cancels "$cancelled" "python3 '$hosts/python/host_asyncio.py' \"\$1\""
    [ "$(python3 "$hosts/python/first_loop.py" "$examples/countdown.wasm" | tr -d '[]' | xargs)" = "$counts" ] || fail "first_loop.py"
    says 1 '^a callback exceeded the call depth, in function 0, ' python3 "$hosts/python/first_loop.py" "$examples/endless.wasm"
    try python3 "$here/calls_test.py" "$examples" "$program"
    tail -1 "$out/said"
    if python3 -m pip --version > /dev/null 2>&1; then
        rm -rf "$out/site"
        try python3 -m pip install --quiet --no-index --no-cache-dir --root-user-action=ignore --target "$out/site" "$top/capi"
        [ "$(env -u WASMLOOP_LIBRARY PYTHONPATH="$out/site" python3 -c 'import sys, wasmloop; print(wasmloop.Module(open(sys.argv[1], "rb").read()).work(0, b"abc").value)' \
            "$examples/crc32.wasm")" = "$("$out/first" "$examples/crc32.wasm")" ] || fail "the wheel"
    else left_out "the wheel: python3 has no pip"; fi
    if python3 -c 'import distributed' 2> /dev/null; then
        seq 300000 > "$out/lines"
        try timeout 200 python3 "$hosts/python/spread.py" "$examples/sha256.wasm" "$out/lines" --kill 4
        tail -1 "$out/said"
    else left_out "the blocks spread by Dask: python3-distributed is not there"; fi
else left_out "the Python hosts: there is no python3"; fi

if command -v cargo > /dev/null; then
    try env PKG_CONFIG_PATH="$lib/pkgconfig" CARGO_TARGET_DIR="$out/rust" cargo build --quiet --offline --manifest-path "$rust/Cargo.toml"
    try env PKG_CONFIG_PATH="$lib/pkgconfig" CARGO_TARGET_DIR="$out/rust" "WASMLOOP_PLUGIN=${plugins:+$out/plugins/kv.wasm}" \
        cargo test --quiet --offline --manifest-path "$rust/Cargo.toml"
    compare host.rs '--loops 1 --workers 1' "'$out/rust/debug/host' \"\$1\"" exactly
    prints host.rs cancels "$cancelled" "'$out/rust/debug/host' \"\$1\""
else left_out "the Rust host: there is no cargo"; fi

[ $failed = 0 ] && say "all is as it should be"
exit $failed
