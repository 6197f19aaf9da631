#!/bin/sh
# `bucket.sh PROGRAM` runs bucket.c as a guest under `serve` and as a program of libuv (Debian: libuv1-dev), prints both
# lines and ends with 1 if they differ. libuv's clock is the real one: refills and requests lie 50 ms apart, and where
# the machine is so busy that a timer came later still, it is run again, three times at most.
set -eu
here=$(cd "$(dirname "$0")" && pwd)
out=$(mktemp -d)
trap 'rm -r "$out"' EXIT
cc -std=c99 -D_GNU_SOURCE -O2 -Wall -Wextra -DNATIVE -o "$out/bucket" "$here/bucket.c" -luv
guest=$("$1" serve "$here/bucket.wasm" --loops 1 --workers 1)
for _ in $(seq 3); do
    native=$("$out/bucket")
    [ "$guest" != "$native" ] || break
done
echo "serve: $guest"
echo "libuv: $native"
[ "$guest" = "$native" ]
