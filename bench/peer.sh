#!/usr/bin/env bash
# Compares the engine with what somebody would write by hand in plain Rust (peer.rs: an ordered map that closes windows at
# watermarks), by turns, over N lines of five kinds (cases.sh). Both have to write the same rows. It prints the least
# processor time of five runs of each, from a file and from a pipe. It needs rustc.
#
#   bench/peer.sh 1000000
set -eu
cd "$(dirname "$0")/.."
program=$(readlink -f "${STREAMBOX:-./streambox}")
count=${1:?how many lines}
scratch=$(mktemp -d)
trap 'rm -rf "$scratch"' EXIT
. bench/cases.sh
peer=$scratch/peer rows=$scratch/rows other=$scratch/other lines=$scratch/lines
rustc -O -o "$peer" bench/peer.rs
"$program" sum 10 < /dev/null
echo "$(nproc) processors, $count lines"
cd "$scratch"

TIMEFORMAT='%U %S'
spent() {
  local from=$1
  shift
  if [ "$from" = file ]; then { time "$@" < "$lines" > "$rows"; } 2>&1
  else { time cat "$lines" | "$@" > "$rows"; } 2>&1
  fi | awk '{ print $1 + $2 }'
}

least() {
  printf '%s\n' "$@" | sort -n | head -n 1
}

# compare NAME PEER-WORD..: the case of that name, which the program by hand runs by these words
compare() {
  local name=$1 from ours theirs
  shift
  case_of "$name" "$count"
  for from in file pipe; do
    ours=999 theirs=999
    for _ in 1 2 3 4 5; do
      theirs=$(least "$theirs" "$(spent "$from" "$peer" "$@")")
      mv "$rows" "$other"
      ours=$(least "$ours" "$(spent "$from" "$program" "${words[@]}")")
      cmp "$rows" "$other"
    done
    awk -v name="$name" -v from="$from" -v ours="$ours" -v theirs="$theirs" -v rows="$(wc -l < "$rows")" \
      'BEGIN { printf "%-8s from a %s: by hand %.2f s, engine %.2f s, %.2f times as long; %d rows\n",
        name, from, theirs, ours, ours / theirs, rows }'
  done
}

compare wide sum 10
compare dense sum 100
compare slide slide 600 100
compare views views 10000 ads.csv
compare join join 10
