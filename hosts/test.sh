#!/bin/bash
# Tests the hosts of this folder whose packages are there, with the real servers, on free ports and sockets; says which were left out, and for want of what.
#
# usage: hosts/test.sh [NAME..]        NAME: sqlite postgres nginx redis node go python tokio; all by default. Ends with 1 if a test fails.
#        hosts/test.sh random [COUNT]  so many changed modules (1,000) in postgres, nginx and redis, none of which may crash a server
#        hosts/test.sh install         installs what is missing from Debian, as root
set -u
cd "$(dirname "$0")" || exit 1
case :$PATH: in *:/usr/bin:*) PATH=/usr/bin:/usr/sbin:$PATH; export PATH ;; esac
all=(sqlite postgres nginx redis node go python tokio)
left=() failed=()

# what a host needs that isn't there; nothing if all is
lacks() {
    case $1 in
    sqlite) command -v sqlite3 > /dev/null || echo sqlite3; [ -f /usr/include/sqlite3ext.h ] || echo libsqlite3-dev ;;
    postgres) [ -f "$(pg_config --includedir-server 2> /dev/null)/postgres.h" ] || echo postgresql-server-dev-15; [ -x "$(pg_config --bindir 2> /dev/null)/initdb" ] || echo postgresql ;;
    nginx) command -v nginx > /dev/null || echo nginx; [ -f /usr/share/nginx/src/conf_flags ] || echo nginx-dev; command -v curl > /dev/null || echo curl ;;
    redis) command -v redis-server > /dev/null || command -v valkey-server > /dev/null || echo redis-server; command -v redis-cli > /dev/null || echo redis-tools ;;
    node) command -v node > /dev/null || echo nodejs; [ -f "${NODE_INCLUDE:-/usr/include/node}/node_api.h" ] || echo libnode-dev ;;
    go) command -v go > /dev/null || echo golang-go ;;
    python) ;;
    tokio) command -v cargo > /dev/null || echo cargo; compgen -G '/usr/share/cargo/registry/tokio-1*' > /dev/null || echo librust-tokio-dev ;;
    *) echo "a host of that name" ;;
    esac
    command -v cc > /dev/null || echo gcc
    command -v python3 > /dev/null || echo python3
}

run() {
    local name=$1 lacking
    shift
    lacking=$(lacks "$name" | tr '\n' ' ')
    if [ -n "$lacking" ]; then left+=("$name (${lacking% })"); return; fi
    "./$name/test.sh" "$@" || failed+=("$name")
}

if [ "${1:-}" = install ]; then
    mapfile -t missing < <({ for name in "${all[@]}"; do lacks "$name"; done; command -v tsc > /dev/null || echo node-typescript; } | sort -u)
    [ ${#missing[@]} = 0 ] || DEBIAN_FRONTEND=noninteractive apt-get install -y --no-install-recommends "${missing[@]}"
    exit
fi
if [ "${1:-}" = random ]; then
    room=$(mktemp -d)
    trap 'rm -rf "$room"' EXIT
    chmod 755 "$room"
    python3 random_modules.py make "$room" "${2:-1000}" "$(date +%j)"
    for name in postgres nginx redis; do run "$name" random "$room"; done
else
    [ $# -gt 0 ] || set -- "${all[@]}"
    for name in "$@"; do [[ " ${all[*]} " == *" $name "* ]] || { sed -n 's/^# usage: /usage: /p' test.sh >&2; exit 2; }; done
    for name in "$@"; do run "$name"; done
fi
for each in "${left[@]}"; do echo "left out: $each"; done
[ ${#failed[@]} = 0 ] || { echo "hosts: FAILED: ${failed[*]}"; exit 1; }
echo "hosts: all passed, ${#left[@]} left out"
