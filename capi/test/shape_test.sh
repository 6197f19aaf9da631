#!/bin/sh
# Whether program and library have the shape that a distribution asks for: position independent, nothing writable and executable, all names
# bound at the start, the header's names and no others, and no library beside the C library, of no later version than is told.
#
# usage: shape_test.sh LIB PROGRAM       LIB: the folder of libwasmloop.a and libwasmloop.so.0
here=$(cd "$(dirname "$0")" && pwd)
shared=$1/libwasmloop.so.0 static=$1/libwasmloop.a program=$2
failed=0
# what LIBRARY and PROGRAM need of the C library at most
library_floor=2.14 program_floor=2.34

is() { [ "$2" = "$3" ] || { echo "shape: $1: '$2' is wanted, and '$3' is there"; failed=1; }; }
has() { echo "$2" | grep -q -e "$3" || { echo "shape: $1 lacks $3"; failed=1; }; }
lacks() { ! echo "$2" | grep -q -e "$3" || { echo "shape: $1 has $3"; failed=1; }; }
list() { sort | tr '\n' ' '; }
floor_of() { readelf -W --dyn-syms "$1" | sed -n 's/.*@GLIBC_\([0-9.]*\).*/\1/p' | sort -V | tail -1; }

for file in "$shared" "$program"; do
    told=$(readelf -hldW "$file")
    name=$(basename "$file")
    has "$name" "$told" 'Type: *DYN'
    has "$name" "$told" 'GNU_RELRO'
    has "$name" "$told" 'NOW'
    has "$name" "$told" 'GNU_STACK.* RW '
    lacks "$name" "$told" 'TEXTREL'
    lacks "$name" "$told" 'R\(UN\)\{0,1\}PATH'
    lacks "$name" "$told" ' RWE '
    is "what $name needs" 'libc.so.6 ' "$(echo "$told" | sed -n 's/.*(NEEDED).*\[\(.*\)\]/\1/p' | list)"
done
has wasmloop "$(readelf -dW "$program")" 'PIE'
has libwasmloop.so "$(readelf -dW "$shared")" 'SONAME.*\[libwasmloop.so.0\]'
has libwasmloop.so "$(readelf -nW "$shared")" '"name":"libwasmloop"'
is "libwasmloop.so's C library" $library_floor "$(floor_of "$shared")"
is "the program's C library" $program_floor "$(floor_of "$program")"

# (of SSE3 and later; `tzcnt` is `bsf` on one that lacks it: a library runs on each x86-64 processor, as distributions ask)
later='popcnt|lzcnt|pshufb|palignr|ptest|pinsr[bdq]|pextr[bdq]|pblend[a-z]*|pmov[sz]x[a-z]*|pmulld|round[sp][sd]|v[a-z0-9]+ '
later=$(objdump -d --no-show-raw-insn "$shared" | grep -cE "\\b($later)")
is 'instructions of later processors in libwasmloop.so' 0 "$later"

names=$(sed -n 's/^[a-z].*[ *]\(wasmloop_[a-z_]*\)(.*/\1/p' "$here/../include/wasmloop.h" | list)
is 'names of libwasmloop.so' "$names" "$(nm -D --defined-only "$shared" | awk '$2 == "T" { sub("@.*", "", $3); print $3 }' | list)"
is 'names of libwasmloop.a' "$names" "$(nm -g --defined-only "$static" | awk 'NF == 3 { print $3 }' | list)"
for file in "$shared" "$static"; do
    # shellcheck disable=SC2046 # no word, or one
    needs=$(nm -g $([ "$file" = "$static" ] || echo -D) --undefined-only "$file" | awk '$1 == "U" { sub("@.*", "", $2); print $2 }' | list)
    is "what $(basename "$file") takes of the C library" 'free malloc memcpy memmove memset realloc ' "$needs"
done
[ $failed = 0 ] && echo "shape: $(echo "$names" | wc -w) names; glibc $library_floor for the library, $program_floor for the program"
exit $failed
