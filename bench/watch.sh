#!/usr/bin/env bash
# Measures what `watch` costs against `run`, which writes all rows and keeps none: N lines of stream a (gen.sh) and the sums
# over windows of 10, with 1, 2 and 4 workers, by turns, three times. Then the same with 100 times as many keys, since
# `watch` keeps a row for each. The row that it writes has to be the last one of its key that `run` writes.
#
#   bench/watch.sh 1000000
set -eu
cd "$(dirname "$0")/.."
program=${STREAMBOX:-./streambox}
folder=$(mktemp -d)
trap 'rm -rf "$folder"' EXIT
plan=$folder/plan.toml
printf '[[transform]]\nname = "sums"\nkind = "sum"\nfrom = "a"\nsize = 10\n' > "$plan"
"$program" sum 10 < /dev/null
echo "$(nproc) processors"

# compare KEY: over the lines in the file lines
compare() {
  local workers
  for workers in 1 2 4; do
    for _ in 1 2 3; do
      command time -f "run, $workers workers: %e s, of the processors %U s + %S s, %M kB" \
        "$program" run "$plan" --workers "$workers" < "$folder/lines" > "$folder/rows"
      command time -f "watch, $workers workers: %e s, of the processors %U s + %S s, %M kB" \
        "$program" watch "$plan" "$1" --workers "$workers" < "$folder/lines" > "$folder/row"
    done
    grep "^[0-9]*,$1," "$folder/rows" | tail -n 1 | cmp - "$folder/row"
  done
}

bench/gen.sh "${1:?how many lines}" > "$folder/lines"
echo "$1 lines, 100 keys"
compare 7
bench/gen.sh "$1" | awk -F, -v OFS=, '/^r/ { $4 += NR % 100 * 100 } { print }' > "$folder/lines"
echo "$1 lines, 10,000 keys"
compare 7
