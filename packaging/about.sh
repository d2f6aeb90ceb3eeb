#!/usr/bin/env bash
# Says of what version, commit and kit a program is, and whether it is the one of release/. What is not known is `unknown`.
#
#   packaging/about.sh PROGRAM
set -euo pipefail
program=$(readlink -f "$1")
cd "$(dirname "$(readlink -f "$0")")/.."
if [ -e release/about.txt ] && cmp -s "$program" release/streambox; then
  cat release/about.txt
  exit
fi
# The commit, if git has these files and no source is newer than the program.
commit() {
  if [ ! -e .git ] || [ -n "$(find crates crates.txt -name out -prune -o -type f -newer "$program" -print -quit)" ] ||
    ! git rev-parse --short=12 HEAD 2> /dev/null; then
    echo unknown
  elif ! git diff --quiet HEAD -- crates crates.txt; then
    echo and changes
  fi
}

echo "version $(cat VERSION)"
echo "commit $(commit | paste -sd ' ')"
# The start script leaves the kit's line beside the program that it builds.
echo "kit $(grep . "${program%/*}/proved" 2> /dev/null || echo unknown)"
echo 'release no'
