#!/bin/sh
# Tries the launcher, ./wasmloop, on a copy of the tree whose shipped program is of its sources: by its name, by links, as a copy, with a
# source that is changed, also one with an older time, or removed, where the program can't run, and where `rt` builds one. It ends with 1
# where something isn't as it should be.
#
# usage: tests/launcher.sh
set -u
top=$(cd "$(dirname "$0")/.." && pwd)
room=$(mktemp -d)
trap 'rm -rf "$room"' EXIT
tree=$room/tree wrong=0 tried=0
source=$tree/crates/words/src/number.rt
version=$(sed -n 's/^#define WASMLOOP_VERSION "\(.*\)"$/wasmloop \1/p' "$top/capi/include/wasmloop.h")
differs='    crates/words'
mkdir "$tree" "$room/bin" "$room/tools" "$room/kit"
# (no rt and no python3 among them)
for tool in sh awk cat cp cut dirname env find grep head mkdir mktemp mv readlink rm sed sha256sum sort tail touch xargs; do
    ln -s "$(command -v $tool)" "$room/tools/$tool"
done
(cd "$top" && tar -c --exclude=out wasmloop crates.txt dist crates/*/src crates/*/specs crates/*/proofs) | tar -x -C "$tree"
(cd "$tree" && dist/sums.sh program >dist/SOURCES)

# the launcher, with these tools alone, or with a kit in front of them
call() { PATH=$room/tools "$@" >"$room/said" 2>&1; }
call_with_kit() { PATH=$room/kit:$room/tools "$@" >"$room/said" 2>&1; }
# says NAME STATUS WORDS: the last command ended so, and these words stand in what the last call said
says() {
    ended=$? tried=$((tried + 1))
    [ "$ended" -eq "$2" ] && grep -qF -- "$3" "$room/said" && return
    echo "launcher: FAILED: $1: status $ended" && cat "$room/said" && wrong=1
}

call "$tree/wasmloop" --version;        says "first call" 0 "$version"
call "$tree/wasmloop" --version;        says "second call" 0 "$version"
ln -s "$tree/wasmloop" "$room/bin/wasmloop"
ln -s bin/wasmloop "$room/again"
call "$room/bin/wasmloop" --version;    says "a link" 0 "$version"
cd "$room" && call ./again --version;   says "a link to a link" 0 "$version"
cp "$tree/wasmloop" "$room/copy"
call "$room/copy" --version;            says "a copy" 1 "works only inside its repository"

cp -p "$source" "$room/right"
printf '// changed\n' >>"$source"
call "$tree/wasmloop" --version;        says "a changed source" 1 "$differs"
call "$tree/wasmloop" --version;        says "and what runs all the same" 1 "$tree/dist/wasmloop"
cp -p "$room/right" "$source"
call "$tree/wasmloop" --version;        says "the source as it was" 0 "$version"
cp -p "$room/right" "$room/older"
printf '// changed\n' >>"$room/older"
touch -d 2001-01-01 "$room/older"
cp -p "$room/older" "$source"
call "$tree/wasmloop" --version;        says "a changed source with an older time" 1 "$differs"
cp -p "$room/right" "$source"
call "$tree/wasmloop" --version;        says "the source once more" 0 "$version"
sed 's/u64/u46/' "$room/right" >"$source"
touch -r "$room/right" "$source"
call "$tree/wasmloop" --version;        says "a changed source of the same size and time" 1 "$differs"
rm "$source"
call "$tree/wasmloop" --version;        says "a removed source" 1 "$differs"

# a kit that notes each build, and builds a program which says so
cat >"$room/kit/rt" <<'KIT'
#!/bin/sh
echo built >>"${0%/*}/log"
mkdir -p out
printf '#!/bin/sh\necho of these sources\n' >out/wasmloop
chmod 755 out/wasmloop
KIT
ln -s "$(command -v chmod)" "$room/tools/chmod"
chmod 755 "$room/kit/rt"
was_built() { [ "$(grep -c . "$room/kit/log")" -eq "$1" ]; }
call_with_kit "$tree/wasmloop";         says "built by the kit" 0 "of these sources"
call_with_kit "$tree/wasmloop";         says "built before" 0 "of these sources"
was_built 1;                            says "built once" 0 ""
cp -p "$room/older" "$source"
call_with_kit "$tree/wasmloop";         says "built anew" 0 "of these sources"
was_built 2;                            says "built twice" 0 ""
cp -p "$room/right" "$source"
call "$tree/wasmloop" --version;        says "the shipped one, of the sources as they were" 0 "$version"

printf '\177ELF no program' >"$tree/dist/wasmloop"
call "$tree/wasmloop" --version;        says "a program that doesn't run here" 1 "glibc 2.34 or newer"
printf '#!/bin/sh\necho another\n' >"$tree/dist/wasmloop"
call "$tree/wasmloop" --version;        says "another program" 1 "is not the file that dist/SHA256 names"
rm "$tree/dist/wasmloop"
call "$tree/wasmloop" --version;        says "no program" 1 "has no dist/wasmloop"
echo "launcher: $tried tries, $wrong wrong"
exit $wrong
