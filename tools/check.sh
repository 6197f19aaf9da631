#!/bin/sh
# What can be said of a change without a proof, in about a minute of a processor: layout, the last commit's subject, the pages beside the tree,
# scripts and C files. The gate (.ci/run) does the rest. As a hook before each commit: ln -s ../../tools/check.sh .git/hooks/pre-commit
#
# usage: tools/check.sh [layout | subject]       ends with 1 if anything is wrong; a program that isn't there is left out, and said
set -u
cd "$(git rev-parse --show-toplevel 2>/dev/null || echo "${0%/*}/..")" || exit 1
wrong=0
has() { command -v "$1" >/dev/null || { echo "left out: there is no $1"; return 1; }; }
try() { "$@" || { echo "FAILED: $*"; wrong=1; }; }
# the files of git with one of these endings
files() { git ls-files -- "$@"; }

layout() {
    if has rattle; then find crates -name out -prune -o \( -name '*.rt' -o -name '*.antt' \) -exec rattle fmt --check {} + || wrong=1; fi
}
# (a hook runs before the commit that it is of, which may mend the last one's subject; a checkout for a pull request is a merge)
subject() {
    told=$(git log -1 --format=%s 2>/dev/null)
    case ${GIT_INDEX_FILE:+hook}$told in hook* | 'Merge '*) return ;; esac
    [ "$(printf %s "$told" | LC_ALL=C.UTF-8 wc -m)" -le 72 ] || { echo "FAILED: the last commit's subject has more than 72 letters: $told"; wrong=1; }
}

case ${1:-} in layout | subject) "$1"; exit $wrong ;; esac
layout
subject
if has python3; then try tools/compare.sh; fi
try git diff --check HEAD
if has shellcheck; then files '*.sh' wasmloop .ci/run .ci/nightly | xargs shellcheck --severity=warning || wrong=1; fi
width=$(sed -n 's/^max_line_length = //p' .editorconfig | head -n 1)
if has flake8; then files '*.py' | xargs flake8 --max-line-length="$width" || wrong=1; fi
# mypy of the package and the tools, and of each other folder, since modules of several have one name; MYPYPATH: the folders whose modules others use
together='^(build|capi/make_wheel|capi/python/.*|tools/.*)\.py$'
export MYPYPATH=capi/python:tools:trials/programs:trials/spec:bench/cost:bench/peers:bench/kernels:examples/kit:examples/libraries:examples/rust/crates:examples/edge
strict() { mypy --config-file tools/mypy.ini --strict --no-error-summary --cache-dir="${XDG_CACHE_HOME:-$HOME/.cache}/wasmloop/mypy" "$@"; }
if has mypy; then
    # shellcheck disable=SC2046 # (no file's name has a blank)
    strict $(files '*.py' | grep -E "$together") || wrong=1
    for folder in $(files '*.py' | grep -vE "$together" | sed 's|/[^/]*$||' | sort -u); do strict "$folder"/*.py || wrong=1; done
fi
if has cc; then for file in capi/wasmloop.c capi/names.c; do try cc -std=c99 -Wall -Wextra -Werror -Icapi/include -fsyntax-only "$file"; done; fi
exit $wrong
