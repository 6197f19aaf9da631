#!/bin/sh
# Prints the mirror of Debian that this machine's apt is set up for, once `apt-get update` has run.
set -eu
mirror=$(apt-get indextargets 'Label: Debian' --format '$(REPO_URI)' | head -n 1)
[ -n "$mirror" ] || { echo 'debian_mirror.sh: apt has no lists of Debian: run apt-get update' >&2; exit 1; }
echo "$mirror"
