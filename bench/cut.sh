#!/usr/bin/env bash
# Measures a run that is cut in two: 2 * N lines of stream a (gen.sh), cut behind N, and the sums over windows of 10, of
# 1,000 and of 100,000. How large the checkpoint is against its first part, and the time and memory of `part` and `save`
# over the first N lines, of `resume` over the others, and of `run` over all, by turns, three times. What `part` and
# `resume` write together has to be what `run` writes.
#
#   bench/cut.sh 1000000
set -eu
cd "$(dirname "$0")/.."
program=${STREAMBOX:-./streambox}
folder=$(mktemp -d)
trap 'rm -rf "$folder"' EXIT
bench/gen.sh "$((2 * ${1:?how many lines before the cut, and behind it}))" > "$folder/all"
head -n "$1" "$folder/all" > "$folder/first"
tail -n "+$(($1 + 1))" "$folder/all" > "$folder/rest"
"$program" sum 10 < /dev/null

# measure INPUT OUTPUT WORD..: one run by these words
measure() {
  local input=$folder/$1 output=$folder/$2
  shift 2
  command time -f "$1: %e s, of the processors %U s + %S s, %M kB" "$program" "$@" < "$input" > "$output"
}

for size in 10 1000 100000; do
  echo "sums over windows of $size"
  plan=$folder/plan.toml
  printf '[[transform]]\nname = "sums"\nkind = "sum"\nfrom = "a"\nsize = %s\n' "$size" > "$plan"
  for _ in 1 2 3; do
    measure first rows.first part "$plan"
    measure first checkpoint save "$plan"
    measure rest rows.rest resume "$plan" "$folder/checkpoint"
    measure all rows.all run "$plan"
  done
  cat "$folder/rows.first" "$folder/rows.rest" | cmp - "$folder/rows.all"
  wc -lc "$folder/first" "$folder/checkpoint" | awk -v of="$(wc -l < "$folder/rows.all")" '
    NR == 1 { lines = $1; bytes = $2 }
    NR == 2 { printf "checkpoint: %d of %d lines, %d of %d bytes; both ways the same %d rows\n", $1, lines, $2, bytes, of }'
done
