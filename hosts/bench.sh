#!/bin/bash
# The figures of README.md in one run: each host beside its peer, with the real servers. What a package lacks is left out, and said. It takes some minutes, and
# wants a machine that does nothing else.
#
# usage: hosts/bench.sh [NAME..]        NAME: sqlite postgres nginx redis node go; all by default
set -u
cd "$(dirname "$0")" || exit 1
case :$PATH: in *:/usr/bin:*) PATH=/usr/bin:/usr/sbin:$PATH; export PATH ;; esac
all='sqlite postgres nginx redis node go'
# shellcheck disable=SC2086 # (the names are words)
[ $# -gt 0 ] || set -- $all
for name; do [[ " $all " == *" $name "* ]] || { sed -n 's/^# usage: /usage: /p' bench.sh >&2; exit 2; }; done

# the packages of a bench, besides those of its test
needs() {
    case $1 in
    sqlite) echo liblua5.4-dev ;;
    postgres) echo postgresql-plperl-15 ;;
    nginx) echo libnginx-mod-http-lua libnginx-mod-http-js apache2-utils ;;
    esac
}
lacking() { for each in $(needs "$1"); do dpkg-query -W "$each" > /dev/null 2>&1 || echo "$each"; done; }

echo "$(sed -n 's/^model name\s*: //p' /proc/cpuinfo | head -1), $(nproc) processors, load $(cut -d ' ' -f 1 /proc/loadavg), $(date -u +%Y-%m-%d)"
for name; do
    missing=$(lacking "$name" | tr '\n' ' ')
    if [ -n "$missing" ]; then echo "left out: $name (${missing% })"; continue; fi
    echo "$name:"
    "./$name/test.sh" bench 2>&1 | sed 's/^/    /'
done
