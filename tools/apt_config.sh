#!/bin/sh
# Prints the name of a configuration of apt by which `apt-get source` finds Debian's sources: APT_CONFIG if it is set, else one with lists of
# its own in FOLDER, since many machines have none of sources; the machine's lists stay as they are. With SUITE the sources are those of that
# suite, for packages that the machine's own lacks.
#
# usage: APT_CONFIG=$(tools/apt_config.sh FOLDER [SUITE]) apt-get source ..    ends with another status than 0 if the lists can't be fetched
set -eu
if [ -n "${APT_CONFIG:-}" ] && [ -z "${2:-}" ]; then
    echo "$APT_CONFIG"
    exit
fi
mkdir -p "$1"
folder=$(cd "$1" && pwd)
if [ ! -f "$folder/apt.conf" ]; then
    mkdir -p "$folder/lists/partial" "$folder/parts"
    if [ -n "${2:-}" ]; then
        mirror=$("$(dirname "$0")/debian_mirror.sh")
        printf 'Types: deb-src\nURIs: %s\nSuites: %s\nComponents: main\nSigned-By: %s\n' "$mirror" "$2" \
            /usr/share/keyrings/debian-archive-keyring.gpg > "$folder/parts/debian.sources"
    elif [ -f /etc/apt/sources.list.d/debian.sources ]; then
        sed 's/^Types:.*/Types: deb-src/' /etc/apt/sources.list.d/debian.sources > "$folder/parts/debian.sources"
    else
        sed -n 's/^deb /deb-src /p' /etc/apt/sources.list > "$folder/parts/debian.list"
    fi
    cat > "$folder/apt.part" <<PART
Dir::Etc::sourcelist "/dev/null";
Dir::Etc::sourceparts "$folder/parts";
Dir::State::lists "$folder/lists";
Dir::Cache "$folder";
APT::Sandbox::User "root";
PART
    APT_CONFIG=$folder/apt.part timeout 120 apt-get -q update > "$folder/update.log" 2>&1
    mv "$folder/apt.part" "$folder/apt.conf"
fi
echo "$folder/apt.conf"
