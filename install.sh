#!/bin/sh
# Installs the shipped program, the library for C with its header, what pkg-config and CMake read, the guests' headers, the package for
# Python, which PYTHONPATH may name, manual pages and completions; or removes them. It needs no kit, no Python and no compiler.
#
# usage: [PREFIX=/usr/local] [LIBDIR=PREFIX/lib] [PYTHONDIR=PREFIX/share/wasmloop/python] [DESTDIR=] ./install.sh [--uninstall]
set -eu
case ${1:-} in
'' | --uninstall) ;;
*)
    echo 'usage: [PREFIX=/usr/local] [LIBDIR=PREFIX/lib] [PYTHONDIR=PREFIX/share/wasmloop/python] [DESTDIR=] ./install.sh [--uninstall]' >&2
    [ "$1" = --help ] && exit
    exit 2
    ;;
esac
top=$(cd "$(dirname "$0")" && pwd)
prefix=${PREFIX:-/usr/local}
case $prefix in /*) ;; *) prefix=$PWD/$prefix ;; esac
libdir=${LIBDIR:-$prefix/lib}
root=${DESTDIR:-}
share=$prefix/share
pythondir=${PYTHONDIR:-$share/wasmloop/python}
version=$(sed -n 's/^#define WASMLOOP_VERSION "\(.*\)"$/\1/p' "$top/capi/include/wasmloop.h")
room=$(mktemp -d)
trap 'rm -rf "$room"' EXIT

# what is installed, a line each: its rights, the file, and where it goes
files() {
    cat <<LIST
755 dist/wasmloop $prefix/bin/wasmloop
644 capi/include/wasmloop.h $prefix/include/wasmloop.h
644 dist/libwasmloop.a $libdir/libwasmloop.a
644 dist/libwasmloop.so.0 $libdir/libwasmloop.so.0
644 $room/wasmloop.pc $libdir/pkgconfig/wasmloop.pc
644 $room/wasmloop-static.pc $libdir/pkgconfig/wasmloop-static.pc
644 $room/wasmloop-config.cmake $libdir/cmake/wasmloop/wasmloop-config.cmake
644 $room/wasmloop-config-version.cmake $libdir/cmake/wasmloop/wasmloop-config-version.cmake
644 examples/uv.h $share/wasmloop/guest/uv.h
644 examples/uv.rs $share/wasmloop/guest/uv.rs
644 examples/mem.c $share/wasmloop/guest/mem.c
644 examples/kit/ask/ask.h $share/wasmloop/guest/ask.h
644 examples/kit/ask/ask.c $share/wasmloop/guest/ask.c
644 examples/kit/ask/ask.rs $share/wasmloop/guest/ask.rs
644 examples/kit/ask/ask_host.h $share/wasmloop/ask_host.h
644 capi/record_wrap.c $share/wasmloop/record_wrap.c
644 capi/record_file.h $share/wasmloop/record_file.h
644 capi/record_name.h $share/wasmloop/record_name.h
644 dist/PROOF.json $share/wasmloop/PROOF.json
644 dist/wasmloop.1 $share/man/man1/wasmloop.1
644 dist/wasmloop-tools.1 $share/man/man1/wasmloop-tools.1
644 dist/wasmloop.h.3 $share/man/man3/wasmloop.h.3
644 dist/wasmloop.bash $share/bash-completion/completions/wasmloop
644 dist/_wasmloop $share/zsh/site-functions/_wasmloop
LIST
    for file in "$top"/capi/python/wasmloop/*.py "$top"/capi/python/wasmloop/soft.wasm "$top"/capi/python/wasmloop/lowering/*.py; do
        echo "644 ${file#"$top"/} $pythondir/${file#"$top"/capi/python/}"
    done
    for file in examples/uv.h examples/uv.rs examples/mem.c examples/kit/guest.h examples/kit/guest.c examples/kit/wasi.c \
        examples/kit/nofiles.c examples/kit/setjmp.h examples/kit/setjmp.c examples/kit/soft.c capi/fuzz_guest.c capi/include/wasmloop.h; do
        echo "644 $file $pythondir/wasmloop/guest/${file##*/}"
    done
}

if [ "${1:-}" = --uninstall ]; then
    { files | cut -d ' ' -f 3-; echo "$libdir/libwasmloop.so"; } | while read -r to; do rm -f "$root$to"; done
    rm -rf "$root$pythondir/wasmloop/__pycache__" "$root$pythondir/wasmloop/lowering/__pycache__"
    for folder in "$libdir/cmake/wasmloop" "$share/wasmloop/guest" "$pythondir/wasmloop/lowering" "$pythondir/wasmloop/guest" \
        "$pythondir/wasmloop" "$pythondir" "$share/wasmloop"; do
        rmdir "$root$folder" 2>/dev/null || true
    done
    exit
fi
for what in program library; do "$top/dist/same.sh" "$what" >/dev/null; done

# (CMake finds the prefix from the file's own place, so that a tree which is moved still works)
case $libdir in
"$prefix"/*) up=$(echo "${libdir#"$prefix"/}/cmake/wasmloop" | sed 's|[^/][^/]*|..|g') up="\${CMAKE_CURRENT_LIST_DIR}/$up" ;;
*) up=$prefix ;;
esac
for file in wasmloop.pc wasmloop-static.pc wasmloop-config.cmake wasmloop-config-version.cmake; do
    sed "s|@prefix@|$prefix|; s|@libdir@|$libdir|; s|@up@|$up|; s|@version@|$version|" "$top/capi/$file.in" > "$room/$file"
done
cd "$top"
files | while read -r rights from to; do
    mkdir -p "$root${to%/*}"
    install -m "$rights" "$from" "$root$to"
done
ln -sf libwasmloop.so.0 "$root$libdir/libwasmloop.so"
echo "installed wasmloop $version in $root$prefix; to remove it, add --uninstall to the same command"
