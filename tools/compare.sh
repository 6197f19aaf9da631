#!/bin/sh
# Compares the pages beside the tree, and the places that say one thing, with the tree: each tool that does so, in a few seconds. With
# --self-test each is also run on the faults that it plants, where it plants some.
#
# usage: tools/compare.sh [--self-test]       ends with 1 if anything is wrong
set -u
cd "$(dirname "$0")/.." || exit 1
wrong=0
fail() { echo "FAILED: $1"; wrong=1; }
for tool in audit calls citations costs picture header limits operations plain refused rules sequences shape uv; do
    python3 "tools/$tool.py" || fail "tools/$tool.py"
    if [ "${1:-}" = --self-test ] && grep -q -e '"self-test"' "tools/$tool.py"; then
        planted=$(python3 "tools/$tool.py" --self-test) || { echo "$planted"; fail "tools/$tool.py --self-test"; }
    fi
done
for tool in tools/bodies.py tools/wrong.py capi/test/bodies.py; do python3 "$tool" --check || fail "$tool --check"; done
for tool in tools/wrong.py trials/dispatch/jumps.py; do
    [ "${1:-}" != --self-test ] || python3 "$tool" --self-test || fail "$tool --self-test"
done
exit $wrong
