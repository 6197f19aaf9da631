#!/bin/bash
# Scripts that test, measure or build, given a word that they don't know: each prints its usage, ends with 2 and does nothing. And what
# tools/check.sh says of the last commit's subject.
#
# usage: tests/scripts.sh       some seconds; ends with 1 if one does otherwise
set -u
cd "$(dirname "$0")/.." || exit 1
top=$PWD room=$(mktemp -d)
trap 'rm -rf "$room"' EXIT
tried=0 wrong=0
# (.ci/nightly fetches no lists of Debian's)
export APT_CONFIG=/dev/null
# (a copy, beside which there is nothing to build)
mkdir -p "$room/dist" "$room/tree/crates" && cp dist/update.sh "$room/dist"

# says STATUS TEXT COMMAND..: the command ends so, and prints this
says() {
    local status=$1 text=$2 ended=0
    shift 2
    tried=$((tried + 1))
    "$@" > "$room/said" 2>&1 || ended=$?
    [ $ended = "$status" ] && grep -qF -- "$text" <(echo; cat "$room/said") || { echo "WRONG: $* ends with $ended:"; cat "$room/said"; wrong=$((wrong + 1)); }
}
refuses() { says 2 "usage: $1 " "${@/#dist/$room/dist}"; }

for word in --help nosuch; do
    refuses hosts/test.sh sqlite "$word"
    refuses hosts/bench.sh "$word"
    refuses .ci/nightly "$word"
done
refuses .ci/nightly tools/check.sh
refuses dist/update.sh --help
refuses dist/update.sh log --help

# commit SUBJECT: what is said of a tree whose last commit has this subject
commit() {
    cd "$room/tree" || return
    { git init && git -c user.name=it -c user.email=it -c commit.gpgsign=false commit --allow-empty -m "$1"; } > "$room/log" 2>&1
    "$top/tools/check.sh" subject
    local ended=$?
    cd "$top" || return
    return $ended
}
long=$(printf 'é%.0s' {1..72})
says 0 '' commit "$long"
says 1 "FAILED: the last commit's subject has more than 72 letters" commit "$long."
says 0 '' commit "Merge $long into $long"
(export GIT_INDEX_FILE=index; commit "$long." > "$room/said" 2>&1) || { echo "WRONG: as a hook it looks at the last commit"; wrong=1; }
echo "scripts: $((tried + 1)) tries, $wrong wrong"
[ $wrong = 0 ]
