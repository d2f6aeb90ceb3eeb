#!/usr/bin/env bash
# Measures what it brings and costs to read two files side by side: N lines of stream a (gen.sh) and as many of stream b,
# with the same times and watermarks, and a plan that sums both over windows of 1,000 and joins the sums. `feeds` on the two
# files, and `run` on both merged into one, a line of each by turns, with 1, 2 and 4 workers, by turns, three times. The rows
# have to be the same. Then the same of the sums of stream a alone, with a file b of nothing.
#
#   bench/feeds.sh 2000000
set -eu
cd "$(dirname "$0")/.."
program=${STREAMBOX:-./streambox}
folder=$(mktemp -d)
trap 'rm -rf "$folder"' EXIT
"$program" sum 10 < /dev/null
echo "$(nproc) processors"

# sums NAME STREAM: a transform of sums.
sums() {
  printf '[[transform]]\nname = "%s"\nkind = "sum"\nfrom = "%s"\nsize = 1000\n\n' "$1" "$2"
}

# compare PLAN: over the files a and b, and what they are together
compare() {
  local workers
  for workers in 1 2 4; do
    for _ in 1 2 3; do
      command time -f "run, $workers workers: %e s, of the processors %U s + %S s, %M kB" \
        "$program" run "$1" --workers "$workers" < "$folder/both" > "$folder/rows.run"
      command time -f "feeds, $workers workers: %e s, of the processors %U s + %S s, %M kB" \
        "$program" feeds "$1" "$folder/a" "$folder/b" --workers "$workers" > "$folder/rows.feeds"
      cmp "$folder/rows.run" "$folder/rows.feeds"
    done
  done
}

bench/gen.sh "${1:?how many lines of each stream}" > "$folder/a"
sed 's/^\(.\),a,/\1,b,/' "$folder/a" > "$folder/b"
paste -d '\n' "$folder/a" "$folder/b" > "$folder/both"
echo "$1 lines of each stream: sums of both, joined"
{
  sums in a
  sums out b
  printf '[[transform]]\nname = "left"\nkind = "join"\nfrom = "in"\nwith = "out"\nsize = 1000\ngive = "sub"\n'
} > "$folder/plan.toml"
compare "$folder/plan.toml"
mv "$folder/a" "$folder/both"
cp "$folder/both" "$folder/a"
: > "$folder/b"
echo "$1 lines of stream a, and none of stream b: sums"
sums rows a > "$folder/plan.toml"
compare "$folder/plan.toml"
