#!/usr/bin/env bash
# Tests that release/ is whole, and that its program is the one that the gate built, if it is of the sources at hand.
#
#   release/check.sh [PROGRAM]     PROGRAM is the one that the gate built; without it nothing is compared
set -euo pipefail
here=$(dirname "$(readlink -f "$0")")

fail() {
  echo "release/check.sh: $1"
  echo '0 passed, 1 failed'
  exit 1
}

told() {
  sed -n "s/^$1 //p" "$here/about.txt"
}

if [ ! -e "$here/streambox" ] && [ ! -e "$here/about.txt" ]; then
  echo 'release: there is none'
  exit
fi
for file in streambox about.txt; do [ -s "$here/$file" ] || fail "release/$file is missing"; done
[ -x "$here/streambox" ] || fail 'release/streambox may not be run'
[ "$(sha256sum < "$here/streambox" | cut -d ' ' -f 1)" = "$(told program)" ] || fail 'about.txt is of another program'
[ "$(wc -c < "$here/streambox")" -lt 1000000 ] || fail 'release/streambox has a million bytes or more'
if [ $# = 0 ]; then
  echo 'release: whole'
elif [ "$("$here/digest.sh")" != "$(told sources)" ]; then
  echo 'release: of other sources than these; not compared'
elif [ "$(told builds)" != same ]; then
  echo "release: of these sources; not compared, since two builds are $(told builds)"
elif [ "$(rt version 2> /dev/null < /dev/null | sed -n 1p)" != "$(told kit)" ]; then
  echo 'release: by another kit than the one at hand; not compared'
elif ! command -v strip > /dev/null; then
  fail 'the command strip is missing: install binutils'
else
  scratch=$(mktemp -d)
  trap 'rm -rf "$scratch"' EXIT
  "$here/strip.sh" "$1" "$scratch/streambox"
  cmp "$scratch/streambox" "$here/streambox" || fail 'the gate built another program of the same sources'
  echo 'release: the program that was built, byte for byte'
fi
