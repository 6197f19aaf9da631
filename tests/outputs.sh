#!/usr/bin/env bash
# What the program ends with and says where standard input, output or error is closed or full, over all mixtures of these; and bytes that go
# into `work` and out of it by files and pipes, as many as a request may have and one more; a script of as many bytes as it may have.
#
# usage: tests/outputs.sh PROGRAM       some five seconds; ends with 1 if a status or a message is not as docs/COMMANDS.md says
set -u
program=$(readlink -f "$1")
cd "$(dirname "$0")/.." || exit 1
room=$(mktemp -d)
trap 'rm -rf "$room"' EXIT
runs=0 wrong=0

fail() {
    echo "WRONG: $*"
    wrong=$((wrong + 1))
}

# is NAME EXPECTED FOUND
is() {
    runs=$((runs + 1))
    [ "$2" = "$3" ] || fail "$1: $3 and not $2"
}

# redirected IN OUT ERR WORDS..: runs the program so; what it writes stands in out and err
redirected() {
    local in=$1 out=$2 err=$3
    shift 3
    rm -f "$room/out" "$room/err"
    touch "$room/out" "$room/err"
    case $in in open) in='< /dev/null' ;; closed) in='<&-' ;; full) in='< /dev/full' ;; esac
    case $out in open) out='> $room/out' ;; closed) out='>&-' ;; full) out='> /dev/full' ;; esac
    case $err in open) err='2> $room/err' ;; closed) err='2>&-' ;; full) err='2> /dev/full' ;; esac
    eval '"$program" "$@"' "$in $out $err"
}

# mixtures STATUS KIND WORDS..: a result ends with 1 where it can't be written, a message keeps its status; the reply of a raw work order and
# its line are both a result
mixtures() {
    local status=$1 kind=$2 in out err wanted first
    shift 2
    for in in open closed full; do for out in open closed full; do for err in open closed full; do
        redirected $in $out $err "$@"
        local ended=$? written=1
        [ "$kind" = message ] || [ $out = open ] || written=0
        [ "$kind" != raw ] || [ $err = open ] || written=0
        wanted=$status
        [ $written = 1 ] || wanted=1
        is "$* with stdin $in, stdout $out, stderr $err" "$wanted" "$ended"
        if [ $written = 0 ] && [ $err = open ]; then
            first=$(head -n 1 "$room/err")
            is "$* with stdin $in, stdout $out: the first line of stderr" output "$first"
        fi
    done; done; done
}

printf '\0asm\2\0\0\0' > "$room/refused"
printf 'no script' > "$room/text"
mixtures 0 result check examples/seven.wasm
mixtures 3 result check "$room/refused"
mixtures 3 result invoke "$room/refused" f
mixtures 3 result work "$room/refused" 0
mixtures 3 result serve "$room/refused" --loops 1 --workers 1
mixtures 0 result invoke examples/seven.wasm f
mixtures 4 result invoke examples/loads.wasm g 65535
mixtures 0 result work examples/copies.wasm 5 616263
mixtures 4 result work examples/copies.wasm 5 616263 --fuel 3
mixtures 0 result work examples/copies.wasm 5 616263 --out "$room/reply"
mixtures 0 raw work examples/copies.wasm 5 616263 --raw
mixtures 0 result serve examples/asks.wasm --loops 2 --workers 2
mixtures 0 result script examples/timer.json
mixtures 0 result --help
mixtures 0 result --version
mixtures 1 message check "$room/none"
mixtures 1 message script "$room/text"
mixtures 1 message work examples/copies.wasm 5 616263 --out "$room/none/reply"
mixtures 2 message
mixtures 2 message nonsense
mixtures 2 message invoke examples/seven.wasm nofunction
mixtures 2 message invoke examples/seven.wasm f 1
mixtures 2 message work examples/copies.wasm 5 6

# no command was given: what is said of it, and how a guest is run
"$program" > "$room/out" 2> "$room/err"
is "what no command prints" "" "$(cat "$room/out")"
is "what is said of no command" "error: no command was given" "$(head -n 1 "$room/err")"
is "how a guest is run" "To run a guest: 'wasmloop serve FILE --loops 1 --workers 1'." "$(grep -o 'To run a guest: .*' "$room/err")"

# whatever is closed, the file has the reply alone
for in in open closed; do for out in open closed; do for err in open closed; do
    printf old > "$room/reply"
    redirected $in $out $err work examples/copies.wasm 5 616263 --out "$room/reply"
    is "the reply's file with stdin $in, stdout $out, stderr $err" abc "$(cat "$room/reply")"
done; done; done

# bytes of all values, as many as a request may have, by a file and by a pipe
head -c 65536 /dev/urandom > "$room/most"
head -c 65537 /dev/urandom > "$room/more"
work() { "$program" work examples/copies.wasm 5 --fuel 1000000 "$@"; }
is "a file to a file" 'done 65541 bytes 65536' "$(work --in "$room/most" --out "$room/copy")"
is "the reply's file" 0 "$(cmp -s "$room/most" "$room/copy"; echo $?)"
is "a pipe to a pipe" "$(sha256sum < "$room/most")" "$(work --in - --raw < "$room/most" 2> "$room/err" | sha256sum)"
is "what is said of it" 'done 65541 bytes 65536' "$(cat "$room/err")"
is "--out -" "$(sha256sum < "$room/most")" "$(work --in "$room/most" --out - 2> "$room/err" | sha256sum)"
is "an empty pipe" 'done 5 bytes 0' "$(work --in - < /dev/null)"

# a file that can't be written whole is left as it was, beside which nothing stays; what isn't an ordinary file stays what it is
printf old > "$room/kept"
chmod 640 "$room/kept"
(trap '' XFSZ; ulimit -f 16; work --in "$room/most" --out "$room/kept" > "$room/out" 2> "$room/err")
is "a reply for which there is no room" 1 $?
is "what is said of it" output "$(head -n 1 "$room/err")"
is "the file that was there" "3 old" "$(stat -c %s "$room/kept") $(head -c 3 "$room/kept")"
is "files beside it" "" "$(find "$room" -name '*.part')"
is "a reply in its place" 'done 65541 bytes 65536' "$(work --in "$room/most" --out "$room/kept")"
is "the permissions of the file" 640 "$(stat -c %a "$room/kept")"
ln -s kept "$room/link"
is "a reply by a link" 'done 5 bytes 0' "$(work --out "$room/link" < /dev/null)"
is "the link, and what it leads to" "kept 0" "$(readlink "$room/link") $(stat -c %s "$room/kept")"
mkfifo "$room/pipe"
(cat "$room/pipe" > "$room/came" &)
is "a reply to a pipe" 'done 8 bytes 3' "$(work 616263 --out "$room/pipe")"
is "the pipe" p "$(stat -c %A "$room/pipe" | head -c 1)"
printf x > "$room/taken.part"
is "a reply where the new file's name is taken" 'done 8 bytes 3' "$(work 616263 --out "$room/taken")"
is "its file, and the other" "abc x" "$(cat "$room/taken") $(cat "$room/taken.part")"
rm "$room/taken.part"

work --in "$room/more" --out "$room/untouched" > "$room/out" 2> "$room/err"
is "a byte more" 2 $?
is "what is said of a byte more" arguments "$(head -n 1 "$room/err")"
is "a byte more makes no file" 1 "$([ -e "$room/untouched" ]; echo $?)"
work "$(head -c 3000 "$room/more" | od -An -v -tx1 | tr -d ' \n')" > "$room/out" 2> "$room/err"
is "HEX" 0 $?

# a script of as many bytes as it may have, which are mostly spaces, and of one more
cp examples/timer.json "$room/script"
head -c $((67108864 - $(wc -c < "$room/script"))) /dev/zero | tr '\0' ' ' >> "$room/script"
is "a script of 67,108,864 bytes" "$("$program" script examples/timer.json)" "$("$program" script "$room/script")"
printf ' ' >> "$room/script"
"$program" script "$room/script" > "$room/out" 2> "$room/err"
is "a script of a byte more" 1 $?
is "what is said of it" "script 4 Range" "$(head -n 1 "$room/err")"

echo "$runs looked at, $wrong wrong"
[ $wrong = 0 ]
