#!/bin/sh
# Makes a root of Debian sid in FOLDER, with wasmi (the crate of Debian's librust-wasmi-dev) and WasmEdge in it, and builds the programs of
# this folder there. It takes root, debootstrap, 2 GB and some minutes. Nothing of it is committed.
#
# usage: fetch.sh FOLDER
set -eu
here=$(cd "$(dirname "$0")" && pwd)
root=$1
[ -d "$root/usr" ] || debootstrap --variant=minbase sid "$root" "$("$here/../../tools/debian_mirror.sh")"
mkdir -p "$root/peers/src"
cp "$here/wasmi.rs" "$here/Cargo.toml" "$here/wasmedge.c" "$here/peer.h" "$root/peers/src"
chroot "$root" sh -eu -c '
    export DEBIAN_FRONTEND=noninteractive
    apt-get -q -o Acquire::Check-Valid-Until=false update # (a mirror may lag; the signature is checked)
    apt-get -q install -y --no-install-recommends gcc libc6-dev cargo rustc librust-wasmi-dev libwasmedge-dev
    cd /peers/src
    mkdir -p .cargo
    printf "[source.crates-io]\nreplace-with = \"debian\"\n[source.debian]\ndirectory = \"/usr/share/cargo/registry\"\n" >.cargo/config.toml
    cargo build --release --offline
    cp target/release/peer-wasmi /peers
    gcc -O2 -o /peers/peer-wasmedge wasmedge.c -lwasmedge
    dpkg-query -W librust-wasmi-dev libwasmedge-dev rustc
'
