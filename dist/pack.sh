#!/bin/sh
# Makes of what is shipped what others install: an archive of files for a prefix, four packages for Debian, a wheel for Python, a crate for
# Rust. Their bytes depend on the sources and the tools alone. What needs a program that isn't there is left out, and said.
#
# usage: dist/pack.sh OUT
set -eu
case ${1:-} in
'' | -*)
    echo 'usage: dist/pack.sh OUT' >&2
    [ "${1:-}" = --help ] && exit
    exit 2
    ;;
esac
top=$(cd "$(dirname "$0")/.." && pwd)
mkdir -p "$1"
out=$(cd "$1" && pwd) room=$(mktemp -d)
trap 'rm -rf "$room"' EXIT
umask 022
SOURCE_DATE_EPOCH=${SOURCE_DATE_EPOCH:-$(git -C "$top" log -1 --format=%ct)}
export SOURCE_DATE_EPOCH LC_ALL=C TZ=UTC
version=$(sed -n 's/^#define WASMLOOP_VERSION "\(.*\)"$/\1/p' "$top/capi/include/wasmloop.h")
cd "$room"

name=wasmloop-$version-x86_64-linux
# (the files name the prefix / in no place but the .pc files, which take their own place there)
PREFIX=/usr/local DESTDIR="$room/whole" "$top/install.sh" > /dev/null
mv whole/usr/local "$name"
sed -i 's|^prefix=.*|prefix=${pcfiledir}/../..|; s|^libdir=.*|libdir=${prefix}/lib|' "$name"/lib/pkgconfig/*.pc
tar --sort=name --mtime="@$SOURCE_DATE_EPOCH" --owner=0 --group=0 --numeric-owner -c "$name" | gzip -9n > "$out/$name.tar.gz"

multiarch=usr/lib/x86_64-linux-gnu

# Debian's form of LICENSE
copyright() {
    printf 'Format: https://www.debian.org/doc/packaging-manuals/copyright-format/1.0/\n\nFiles: *\nCopyright: the authors of wasmloop\nLicense: LICENSE\n'
    sed 's/^$/./; s/^/ /' "$top/LICENSE"
}

# moves what a package has from the whole tree into its own
part() {
    package=$1 depends=$2 about=$3
    shift 3
    for file in "$@"; do
        mkdir -p "$package/$(dirname "$file")"
        mv deb/$file "$package/$(dirname "$file")"
    done
    mkdir -p "$package/DEBIAN" "$package/usr/share/doc/$package"
    copyright > "$package/usr/share/doc/$package/copyright"
    printf 'wasmloop (%s) unstable; urgency=medium\n\n  * CHANGELOG.md tells what is new.\n\n -- wasmloop <wasmloop@localhost>  %s\n' "$version" \
        "$(date -R -d "@$SOURCE_DATE_EPOCH")" | gzip -9n > "$package/usr/share/doc/$package/changelog.gz"
    (cd "$package" && find usr -type f | sort | xargs md5sum) > "$package/DEBIAN/md5sums"
    cat > "$package/DEBIAN/control" <<CONTROL
Package: $package
Source: wasmloop
Version: $version
Architecture: amd64
Maintainer: wasmloop <wasmloop@localhost>
Installed-Size: $(du -k --apparent-size -s "$package/usr" | cut -f 1)
Depends: $depends
Section: $(case $package in *-dev) echo libdevel ;; wasmloop) echo interpreters ;; python3-*) echo python ;; *) echo libs ;; esac)
Priority: optional
Multi-Arch: $(case $package in lib*) echo same ;; *) echo foreign ;; esac)
Description: host for WebAssembly modules on event loops, $about
 Untrusted modules run on libuv-style event loops, each run bounded in
 fuel, call depth and memory. The code is proved to keep its promises.
CONTROL
    dpkg-deb --root-owner-group -Zxz --build "$package" "$out/${package}_${version}_amd64.deb" > /dev/null
}

if command -v dpkg-deb > /dev/null; then
    PREFIX=/usr LIBDIR="/$multiarch" PYTHONDIR=/usr/lib/python3/dist-packages DESTDIR="$room/deb" "$top/install.sh" > /dev/null
    mkdir -p deb/usr/share/zsh && mv deb/usr/share/zsh/site-functions deb/usr/share/zsh/vendor-completions
    gzip -9n deb/usr/share/man/man*/*
    part libwasmloop0 'libc6 (>= 2.14)' 'library' "$multiarch/libwasmloop.so.0"
    printf 'libwasmloop 0 libwasmloop0 (>= %s)\n' "$version" > libwasmloop0/DEBIAN/shlibs
    printf 'activate-noawait ldconfig\n' > libwasmloop0/DEBIAN/triggers
    dpkg-deb --root-owner-group -Zxz --build libwasmloop0 "$out/libwasmloop0_${version}_amd64.deb" > /dev/null
    part libwasmloop-dev "libwasmloop0 (= $version)" 'development files' usr/include "$multiarch" usr/share/man/man3
    part python3-wasmloop "python3 (>= 3.8), libwasmloop0 (>= $version)" 'Python and tools' usr/lib/python3 usr/share/man/man1/wasmloop-tools.1.gz
    part wasmloop 'libc6 (>= 2.34)' 'program' usr/bin usr/share
else echo "left out: the packages for Debian: there is no dpkg-deb"; fi

if command -v python3 > /dev/null; then python3 "$top/capi/make_wheel.py" "$out" > /dev/null
else echo "left out: the wheel: there is no python3"; fi

if command -v cargo > /dev/null; then
    mkdir crate
    cp -r "$top/capi/rust/Cargo.toml" "$top/capi/rust/build.rs" "$top/capi/rust/src" "$top/dist/libwasmloop.a" crate
    cargo package --quiet --offline --no-verify --allow-dirty --manifest-path crate/Cargo.toml --target-dir "$room/rust"
    cp "$room/rust/package/wasmloop-$version.crate" "$out"
else echo "left out: the crate: there is no cargo"; fi
(cd "$out" && sha256sum -- *.tar.gz *.deb *.whl *.crate 2>/dev/null > SHA256SUMS || true)
cat "$out/SHA256SUMS"
