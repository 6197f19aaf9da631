#!/usr/bin/env bash
# Runs the commands of the pages, as they stand there, in a copy of what they need.
#
# A command is an indented line of README, of docs, of capi and of examples that begins with one of the words below. PROGRAM is its
# `wasmloop`, and the copy its LOOP. The pages of capi, EMBEDDING and COOKBOOK begin in an empty folder each. What follows a command behind
# `#`, or below a line that begins with `$`, is what it prints, or its first line begins so. Left out, and said, are those that need
# Rattle's kit, a network, a package that isn't there, or a file of the reader's. The commands of docs/GUESTS.md, which build on one
# another, are run by examples/guests_test.sh, which it calls. Ends with 1 if a command fails or prints something else.
#
# usage: tests/pages.sh PROGRAM [--tell]        with --tell each command that is run is printed
set -u
[ $# -ge 1 ] || { sed -n 's/^# \(usage: .*\)/\1/p' "$0" >&2; exit 2; }
tell=${2:-}
top=$(cd "$(dirname "$0")/.." && pwd)
program=$(readlink -f "$1")
room=$(mktemp -d)
trap 'rm -rf "$room"' EXIT
cp -r "$top/examples" "$top/capi" "$top/hosts" "$top/dist" "$top/install.sh" "$top/README.md" "$room"
ln -s "$top/crates" "$top/crates.txt" "$room"
ln -s "$program" "$room/wasmloop"
cd "$room" || exit 1
export PATH="$room:$PATH" PIP_TARGET="$room/python" PIP_NO_INDEX=1 PIP_DISABLE_PIP_VERSION_CHECK=1 PYTHONPATH="$room/python" WASMLOOP="$room/wasmloop"
export CARGO_TARGET_DIR="$room/target" WASMLOOP_FOLDER="$room/dist"
count=0 wrong=0 left=0

has() { command -v "$1" > /dev/null; }
fail() { echo "FAILED: $1"; wrong=$((wrong + 1)); }
leave() { echo "left out: $1: $2"; left=$((left + 1)); }

# the commands of a page, each with what it prints behind a tab
commands() {
    awk '
        function flush() { if (command != "") print command "\t" told; command = told = ""; dollar = 0 }
        /^```/ { inside = !inside }
        inside || !/^    [^ ]/ { if (!joined) flush(); if (!/^    /) next }
        {
            line = substr($0, 5)
            if (joined) { sub(/^ */, "", line); command = command " " line }
            else if (dollar && line !~ /^\$ /) { if (told == "") told = line; next }
            else { flush(); command = line }
            joined = sub(/ *\\$/, "", command)
            dollar = sub(/^\$ /, "", command)
            if (!joined && match(command, /  +# /)) { told = substr(command, RSTART + RLENGTH); sub(/  +# .*/, "", command) }
        }
        END { flush() }' "$top/$1"
}

# writes the files of a page: each block below a line that is a name, or ends with one, as `first.c`:
files() {
    awk '
        /^```/ { if (!inside && name) { file = name; if (sub("/[^/]*$", "", name)) system("mkdir -p " name); printf "" > file } inside = !inside; if (!inside) file = ""; name = ""; next }
        inside { if (file) print > file; next }
        /(^| )`[a-z_\/]+\.[a-z]+`:$/ { name = $NF; gsub("[`:]", "", name); next }
        NF { name = "" }' "$top/$1"
}

# a file that a command reads and that isn't there; a module behind another one is what the command makes of it
missing() {
    local word before=
    for word in $1; do
        case $word in
        *.c | *.o | *.rs | *.py | *.steps | *.json | *.wasm) [ -e "$word" ] || [ "$before" = -o ] || [ "$before" = '>' ] || [[ $before == *.wasm ]] || { echo "there is no $word"; return; } ;;
        esac
        before=$word
    done
}

# what a command needs that isn't there; nothing if all is
lacks() {
    case $1 in
    *build.py* | rt\ * | dist/prove.sh* | dist/update.sh* | .ci/* | export\ PATH*) echo "it needs the kit" ;;
    *apt-get* | rustup*) echo "it needs a network" ;;
    *' FILE'* | *PROGRAM* | *OUT* | *' NAME'* | *' OP'* | *myhost*) echo "it names the reader's own" ;;
    *'-m wasmloop'*)
        if [ ! -d "$room/python" ]; then echo "the package is not installed: there is no pip"
        elif [[ $1 == *wasmloop.ask* ]] && ! has wasm-opt; then echo "there is no wasm-opt"
        elif [[ $1 == *wasmloop.fuzz* ]] && ! ls "$(clang -print-runtime-dir 2> /dev/null)"/libclang_rt.fuzzer* > /dev/null 2>&1; then echo "there is no libFuzzer"
        elif [[ $1 == *--debug* ]] && ! has llvm-symbolizer; then echo "there is no llvm-symbolizer"; fi ;;
    pip\ * | python3\ first.py* | python3\ bill.py*) has pip && [ -f "$room/dist/libwasmloop.so.0" ] || echo "there is no pip, or no library in dist/" ;;
    *pkg-config*) has pkg-config || echo "there is no pkg-config" ;;
    PREFIX=* | *first.c* | ./first* | *libwasmloop*) has cc && [ -f "$room/dist/libwasmloop.a" ] || echo "there is no cc, or no library in dist/" ;;
    *cargo*) has cargo && [ -f "$room/dist/libwasmloop.a" ] || echo "there is no cargo, or no library in dist/" ;;
    python3\ -m\ venv*) python3 -c 'import ensurepip' 2> /dev/null || echo "there is no venv" ;;
    *clang* | *wasm-ld* | examples/build.sh*) { has clang && has wasm-ld; } || echo "there is no clang or no wasm-ld" ;;
    esac
}

# why a command is not run; nothing if it is
why_not() {
    local why
    why=$(lacks "$1")
    if [ -n "$why" ]; then echo "$why"; elif [[ $1 != cd\ * ]]; then missing "$1"; fi
}

run() {
    local page=$1 command=${2//LOOP\//$room/} told=$3 why printed
    why=$(why_not "$command")
    if [ -n "$why" ]; then leave "$page: $command" "$why"; return; fi
    count=$((count + 1))
    [ -z "$tell" ] || echo "run: $page: $command${told:+: $told}"
    # (a variable is for the commands behind it)
    if [[ $command == export\ * ]]; then eval "$command"; return; fi
    printed=$(eval "( $command )" 2> problem)
    case $? in
    0 | 3 | 4) ;;
    *) fail "$page: $command"; cat problem; return ;;
    esac
    if [[ $command == python3\ -m\ venv* ]]; then export PATH="$PWD/env/bin:$PATH"; fi
    case $told in
    done\ * | accepted | loop\ * | return\ * | [0-9]* | "{"*) [[ $printed == "${told%..}"* || $told == "$printed"* ]] || fail "$page: $command: it prints $printed" ;;
    esac
}

# a block of a language in a page: the first, or that of a number
block() {
    awk -v fence="\`\`\`$2" -v number="${3:-1}" '$0 == fence { inside = ++count == number; next } /^```/ { if (inside) exit } inside' "$top/$1"
}

# runs the commands of a page in this folder
run_page() {
    local command told
    files "$1"
    while IFS=$'\t' read -r command told; do
        case $command in
        ./* | LOOP/* | wasmloop\ * | cc\ * | PREFIX=* | export\ PKG_CONFIG_PATH=* | pip\ * | python3\ * | examples/* | cd\ * | dist/* | sh\ * | clang\ * | wasm-ld\ * | cargo\ *)
            run "$1" "$command" "$told" ;;
        esac
    done < <(commands "$1")
}

for page in capi/python/README.md capi/rust/README.md docs/EMBEDDING.md docs/COOKBOOK.md; do
    mkdir -p "empty/$page" && cd "empty/$page" && run_page "$page"
    cd "$room" || exit 1
done
mkdir guest
block README.md c > guest/tick.c
for page in README.md docs/COMMANDS.md docs/DEBUGGING.md examples/plugins/README.md examples/README.md examples/libraries/README.md examples/kit/ask/README.md; do
    [ ! -f "$top/$page" ] || run_page "$page"
done

# the example of each command's help
for name in $("$program" help | sed -n '/^Commands:/,/^$/s/^  \([a-z]*\) .*/\1/p' | grep -v help); do
    run "help $name" "$("$program" help "$name" | sed -n '/^Example:/{n;s/^ *//;p;}')" ""
done

# the lines in a page's text that a command prints
says() {
    count=$((count + 1))
    [[ $(eval "$2" 2>&1) == *"$3"* ]] && grep -qF "$3" "$top/$1" || fail "$1: $2 does not print $3"
}
says README.md './wasmloop work examples/sha256.wasm 0 616263' 'done 3 bytes 32 ba7816bf8f01cfea'
says docs/COMMANDS.md './wasmloop check examples/seven.wasm' 'accepted'

# snippet PAGE NAME COMMAND: a command over blocks of a page, in the folder of its commands
snippet() {
    count=$((count + 1))
    # shellcheck disable=SC2086
    (cd "empty/$1" && $3) > said 2>&1 || { fail "$1: $2"; cat said; }
}
if has cc; then
    hosts=0 number=2
    while [ -n "$(block docs/EMBEDDING.md c $number)" ]; do
        { echo '#include "wasmloop.h"'; block docs/EMBEDDING.md c $number; } > "snippet$number.c"
        # (a block without a handle is a guest, which the page's commands compile)
        if grep -q wasmloop_handle "snippet$number.c"; then
            hosts=$((hosts + 1))
            snippet docs/EMBEDDING.md "block $number in C" "cc -std=c99 -Wall -Werror -I$room/capi/include -c $room/snippet$number.c"
        fi
        number=$((number + 1))
    done
    [ $hosts = 4 ] || fail "docs/EMBEDDING.md has $hosts blocks of a host in C behind the first, not 4"
fi
if [ -d python ] && [ -f empty/docs/EMBEDDING.md/counter.wasm ]; then
    { printf 'from wasmloop import Module\nmodule = Module(open("counter.wasm", "rb").read())\n'; block docs/EMBEDDING.md python; } > snippet.py
    grep -q run_for snippet.py || fail "docs/EMBEDDING.md has no block 1 in Python"
    snippet docs/EMBEDDING.md "block 1 in Python" "python3 $room/snippet.py"
fi
if [ -d python ] && [ -f empty/docs/COOKBOOK.md/notes.wasm ]; then
    for number in 1 2 3 4; do block docs/COOKBOOK.md python $number; done | sed "s|LOOP/|$room/|" > cook.py
    [ "$(grep -c assert cook.py)" = 5 ] && [ -z "$(block docs/COOKBOOK.md python 5)" ] || fail "docs/COOKBOOK.md has other than four blocks with five assertions"
    snippet docs/COOKBOOK.md "its program" "python3 $room/cook.py"
fi
# each tool of the package, which is a file that runs by itself, has one line in the list, and a page names it
if [ -d python ]; then
    count=$((count + 1))
    python3 -m wasmloop > listed
    for tool in $(cd python/wasmloop && grep -l '^if __name__ == "__main__"' [!_]*.py); do
        [ "$(grep -c "wasmloop ${tool%.py} " listed)" = 1 ] || fail "the list has not one line for $tool"
        grep -qw "wasmloop\.${tool%.py}" "$top"/docs/*.md "$top"/examples/kit/README.md "$top"/examples/kit/ask/README.md || fail "no page names $tool"
    done
fi
"$top/examples/guests_test.sh" "$program" || wrong=$((wrong + 1))
echo "pages: $count commands, $left left out, $wrong wrong"
[ $wrong = 0 ]
