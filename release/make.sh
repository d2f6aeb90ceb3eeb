#!/usr/bin/env bash
# Fills release/ from a gate that has passed: the program that it built, stripped, and about.txt, which says of what it is.
#
#   release/make.sh TREE LOG [AGAIN]
#
#   TREE    the directory that the gate ran in; its sources have to be those that it proved
#   LOG     what the gate printed; the last line `N passed, 0 failed` is kept
#   AGAIN   the program as a second build of the same sources gave it, from another directory. With it, about.txt says
#           whether two builds give the same bytes; without it, that this was not tried
#
# The kit's line is that of `rt version`. Commit release/ after it.
set -euo pipefail
here=$(cd "$(dirname "$(readlink -f "$0")")" && pwd)

fail() {
  echo "release/make.sh: $1" >&2
  exit 1
}

# The last line of the gate's count, if nothing failed.
gate_line() {
  local line
  line=$(grep -E '^[0-9]+ passed, [0-9]+ failed' "$1" | tail -n 1)
  [[ $line =~ ^[0-9]+\ passed,\ 0\ failed ]] || fail "the gate did not pass: ${line:-no line says that it did}"
  echo "$line"
}

builds() {
  [ -n "$2" ] || { echo untried; return; }
  "$here/strip.sh" "$2" "$scratch/again"
  if cmp -s "$1" "$scratch/again"; then echo same; else echo different; fi
}

[ $# = 2 ] || [ $# = 3 ] || fail 'call it as: release/make.sh TREE LOG [AGAIN]'
tree=$1 log=$2 again=${3-}
built=$tree/crates/streambox/out/streambox
[ -x "$built" ] || fail "the gate built no program: $built"
gate=$(gate_line "$log")
kit=$(rt version | sed -n 1p)
[ -n "$kit" ] || fail 'rt version says nothing'
changed=$(find "$tree/crates" "$tree/crates.txt" -name out -prune -o -type f -newer "$built" -print | sed -n 1p)
[ -z "$changed" ] || fail "newer than the program: $changed"
scratch=$(mktemp -d)
trap 'rm -rf "$scratch"' EXIT
"$here/strip.sh" "$built" "$scratch/streambox"
size=$(wc -c < "$scratch/streambox")
[ "$size" -lt 1000000 ] || fail "the program has $size bytes, and may have 999999"
{
  echo "version $(cat "$tree/VERSION")"
  echo "commit $({ [ -e "$tree/.git" ] && git -C "$tree" rev-parse --short=12 HEAD 2> /dev/null; } || echo unknown)"
  echo "kit $kit"
  echo 'release yes'
  echo "sources $("$here/digest.sh" "$tree")"
  echo "program $(sha256sum < "$scratch/streambox" | cut -d ' ' -f 1)"
  echo "gate $gate"
  echo "builds $(builds "$scratch/streambox" "$again")"
} > "$scratch/about.txt"
install -m 755 "$scratch/streambox" "$here/streambox"
install -m 644 "$scratch/about.txt" "$here/about.txt"
cat "$here/about.txt"
