#!/usr/bin/env bash
# Runs the stress of claims, marks, board and pool on a copy of the repository, and compares what it counts.
set -euo pipefail
top=$(cd "$(dirname "$0")/../.." && pwd)
work=$(mktemp -d)
trap 'rm -rf "$work"' EXIT
mkdir "$work/crates"
cp "$top/HANDLES" "$work/"
for crate in "$top"/crates/*; do
    mkdir "$work/crates/$(basename "$crate")"
    for part in src specs proofs; do
        if [ -d "$crate/$part" ]; then cp -r "$crate/$part" "$work/crates/$(basename "$crate")/"; fi
    done
done
# The program's name doesn't end in .rt here: the gate reads no such file outside of the crates.
mkdir -p "$work/crates/stress/src"
cp "$top/trials/threads/stress.rt.txt" "$work/crates/stress/src/main.rt"
{
    cat "$top/crates.txt"
    echo "stress: anyhow claims marks board pool order imports validate valid decode thiserror"
} > "$work/crates.txt"
cd "$work/crates/stress"
# The interpreter gets no turn, since it would need far more steps than it has. The other run may take ten minutes.
rt try --steps 1 --seconds 600 2>&1 | tee "$work/counted"
for what in claims sends jobs; do
    grep -q "^$what 1000000\$" "$work/counted"
done
echo "each was counted once"
