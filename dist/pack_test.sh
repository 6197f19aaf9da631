#!/bin/sh
# Whether what pack.sh has made serves who installs it: archive, packages for Debian, wheel and crate, each laid into a folder of its own; then
# the program runs, and the first host of docs/EMBEDDING.md is compiled and run, in C, Python and Rust. Needs no network. What needs a
# program that isn't there is left out, and said.
#
# usage: dist/pack_test.sh PACKS       PACKS: the folder that pack.sh has written; ends with 1 if something is not as it should be
set -u
top=$(cd "$(dirname "$0")/.." && pwd) packs=$(cd "$1" && pwd) room=$(mktemp -d)
trap 'rm -rf "$room"' EXIT
version=$(sed -n 's/^#define WASMLOOP_VERSION "\(.*\)"$/\1/p' "$top/capi/include/wasmloop.h")
guest=$top/examples/crc32.wasm wanted=891568578 failed=0 tried=0
cd "$room" || exit 1
awk '/^```c$/ { inside = 1; next } /^```$/ { if (inside) exit } inside' "$top/docs/EMBEDDING.md" > first.c

has() { command -v "$1" > /dev/null || { echo "left out: $2: there is no $1"; return 1; }; }
# is NAME WANTED COMMAND..: the command prints that
is() {
    name=$1 answer=$2
    shift 2
    tried=$((tried + 1))
    told=$("$@" 2> problem)
    [ "$told" = "$answer" ] && return
    echo "FAILED: $name: $told"
    cat problem
    failed=1
}
builds() { tried=$((tried + 1)) && "$@" > problem 2>&1 || { echo "FAILED: $*" && cat problem && failed=1; }; }

# tools WHERE FOLDER: the tools of the package for Python in that folder, with the library that it finds
tools() {
    printf abc > request
    is "the profile of $1" 'crc32.wasm: uv_work(0) on 3 bytes: done, 321 units' env -u WASMLOOP_LIBRARY PYTHONDONTWRITEBYTECODE=1 PYTHONPATH="$2" sh -c \
        "python3 -m wasmloop.profile '$guest' 0 --in request | head -n 1"
    if has clang "a guest by $1" && has wasm-ld "a guest by $1"; then
        printf '#include "uv.h"\nUV_WORK(op) { return (int32_t)(op * 0.5); }\n' > half.c
        is "a guest by $1" 3 env -u WASMLOOP_LIBRARY PYTHONDONTWRITEBYTECODE=1 PYTHONPATH="$2" sh -c \
            'python3 -m wasmloop.cc half.c > problem && python3 -c "import wasmloop; print(wasmloop.work(open(\"half.wasm\", \"rb\").read(), 7).value)"'
    fi
}

archive() {
    tar xf "$packs/wasmloop-$version-x86_64-linux.tar.gz"
    mv "wasmloop-$version-x86_64-linux" moved
    is 'the archive' "wasmloop $version" moved/bin/wasmloop --version
    if has python3 'Python by the archive'; then tools 'the archive' "$room/moved/share/wasmloop/python"; fi
    has cc 'a host by the archive' || return
    # (the .pc file tells where it lies itself)
    flags=$(PKG_CONFIG_PATH=moved/lib/pkgconfig pkg-config --cflags --libs wasmloop) || flags='-Imoved/include -Lmoved/lib -lwasmloop'
    # shellcheck disable=SC2086
    builds cc -o by_archive first.c $flags "-Wl,-rpath,$room/moved/lib"
    is 'a host by the archive' $wanted ./by_archive "$guest"
}

debian() {
    mkdir -p root/var/lib/dpkg/info root/var/lib/dpkg/updates
    : > root/var/lib/dpkg/status
    # (in an empty root, which has no libc6)
    builds dpkg --root="$room/root" --force-depends --force-not-root --log=/dev/null -i "$packs"/*.deb
    is 'the program of the package' "wasmloop $version" root/usr/bin/wasmloop --version
    is 'what is installed' 'libwasmloop-dev libwasmloop0 python3-wasmloop wasmloop ' sh -c "dpkg-query --admindir=root/var/lib/dpkg -W -f '\${Package} '"
    if has cc 'a host by the packages'; then
        lib=root/usr/lib/x86_64-linux-gnu
        builds cc -o by_debian first.c -Iroot/usr/include -L$lib -lwasmloop "-Wl,-rpath,$room/$lib"
        builds cc -o by_debian_static first.c -Iroot/usr/include $lib/libwasmloop.a
        is 'a host by the packages' $wanted ./by_debian "$guest"
        is 'a host by the static library of the packages' $wanted ./by_debian_static "$guest"
    fi
    if has python3 'Python by the packages'; then
        LD_LIBRARY_PATH=$room/root/usr/lib/x86_64-linux-gnu tools 'the packages' "$room/root/usr/lib/python3/dist-packages"
    fi
    builds dpkg --root="$room/root" --force-depends --force-not-root --log=/dev/null --purge wasmloop python3-wasmloop libwasmloop-dev libwasmloop0
    is 'what is left of the packages' '' find root/usr -type f
}

wheel() {
    builds python3 -m pip install --quiet --no-index --no-cache-dir --root-user-action=ignore --target site "$packs"/*.whl
    is 'the wheel' $wanted env -u WASMLOOP_LIBRARY PYTHONPATH=site python3 -c \
        'import sys, wasmloop; print(wasmloop.Module(open(sys.argv[1], "rb").read()).work(0, b"abc").value)' "$guest"
    tools 'the wheel' "$room/site"
    is 'the command of the wheel' "done $wanted bytes 4 352441c2" env -u WASMLOOP_LIBRARY PYTHONPATH=site site/bin/wasmloop work "$guest" 0 616263
    for tool in profile bind replay; do
        is "the tool $tool by the command of the wheel" "usage: wasmloop $tool" sh -c "env -u WASMLOOP_LIBRARY PYTHONPATH=site site/bin/wasmloop $tool --help | cut -d ' ' -f 1-3 | head -1"
        is "the tool $tool in the help of the wheel" 1 sh -c "env -u WASMLOOP_LIBRARY PYTHONPATH=site site/bin/wasmloop help | grep -c '^wasmloop $tool '"
    done
}

crate() {
    tar xf "$packs/wasmloop-$version.crate"
    mkdir -p host/src
    printf '[package]\nname = "host"\nversion = "0.1.0"\nedition = "2021"\n[dependencies]\nwasmloop = { path = "../wasmloop-%s" }\n' "$version" > host/Cargo.toml
    cat > host/src/main.rs <<'RUST'
use wasmloop::{Module, Task};

fn main() -> Result<(), Box<dyn std::error::Error>> {
    let module = Module::new(&std::fs::read(std::env::args().nth(1).unwrap())?)?;
    let mut job = module.work(Task { fuel: 1_000_000, op: 0, depth: 64 }, b"abc")?;
    println!("{}", job.about()?.value as i32);
    Ok(())
}
RUST
    builds env -u WASMLOOP_FOLDER CARGO_TARGET_DIR="$room/target" cargo build --quiet --offline --manifest-path host/Cargo.toml
    is 'the crate' $wanted target/debug/host "$guest"
}

(cd "$packs" && sha256sum --check --quiet SHA256SUMS) || failed=1
archive
if has dpkg 'the packages for Debian'; then debian; fi
if has python3 'the wheel' && python3 -m pip --version > /dev/null 2>&1; then wheel; fi
if has cargo 'the crate'; then crate; fi
echo "packages: $tried tries, $([ $failed = 0 ] && echo 'all is as it should be' || echo 'something is wrong')"
exit $failed
