#!/bin/sh
# Goes the ways of outsider.sh, and runs the commands of the pages, in a Debian that has nothing but the packages that the pages name. It makes
# its root in FOLDER, which takes root, debootstrap, 3 GB and some minutes; a root that is there is used again.
#
# usage: tests/bare.sh FOLDER       ends with 1 if a command fails; what is shipped must be of the sources of HEAD
set -eu
top=$(cd "$(dirname "$0")/.." && pwd)
mkdir -p "$1"
root=$(cd "$1" && pwd)
mirror=$("$top/tools/debian_mirror.sh")
[ -d "$root/usr" ] || debootstrap --variant=minbase bookworm "$root" "$mirror"
cp /etc/resolv.conf "$root/etc"
echo "deb-src $mirror bookworm main" > "$root/etc/apt/sources.list.d/sources.list"
rm -rf "$root/root/wasmloop"
git clone -q "$top" "$root/root/wasmloop"
mount -t proc proc "$root/proc"
mount --bind /dev "$root/dev"
trap 'umount "$root/proc" "$root/dev"' EXIT
chroot "$root" sh -eu -c '
    export DEBIAN_FRONTEND=noninteractive HOME=/root
    apt-get -q update
    apt-get -q install -y git gcc libc6-dev pkg-config python3-venv clang lld llvm cargo rustc libstd-rust-dev-wasm32 binaryen wasi-libc dpkg-dev
    cd /root/wasmloop
    tests/outsider.sh 180
    tests/pages.sh dist/wasmloop'
