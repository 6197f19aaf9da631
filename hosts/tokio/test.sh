#!/bin/bash
# shellcheck disable=SC2034,SC2154
# cargo's tests over Debian's crates (librust-tokio-dev), without a network: test.sh
set -u
cd "$(dirname "$0")" || exit 1
name=tokio
. ../lib.sh
trap 'rm -rf "$room" Cargo.lock' EXIT
CARGO_TARGET_DIR=$room/target WASMLOOP_FOLDER=$library timeout 300 cargo --config 'source.crates-io.replace-with="debian"' \
    --config 'source.debian.directory="/usr/share/cargo/registry"' test --offline > "$room/log" 2>&1
want $? 0 "cargo test"
want "$(grep -cE '^test .*(\.\.\. ok|compile \.\.\. ok)$' "$room/log")" "$(grep -hcE '^#\[tokio::test|^//! ```no_run' tests/*.rs src/lib.rs | paste -sd+ | bc)" "the tests"
want "$(grep -c '^warning' "$room/log")" 0 "no warning"
[ "$failed" = 0 ] || tail -40 "$room/log"
end
