#!/usr/bin/env bash
# Compares runs over two files with others over random plans and inputs: for each number from FIRST to LAST a plan and an
# input are made of it, and the lines of each stream go to a file of their own, with comments where those of the other
# stood. Of `feeds`, with a random number of workers, size of bundles and limit of those that wait, the rows have to be those
# of `slow` over both files, one behind the other. If a line of a file is refused, they have to be those of `part` over what
# stands before it in its own file, and over the other file up to its own refused line. What is told of a file has to be what
# `slow` tells of it alone. A difference is printed with its number, and ends the script. The same number gives the same
# case.
#
#   tests/fuzz_feeds.sh 1 1000
set -euo pipefail
# No hints: what the program itself says is compared.
export STREAMBOX_PLAIN=1
cd "$(dirname "$0")/.."
program=$(readlink -f "${STREAMBOX:-./streambox}")
first=${1:?the first number} last=${2:?the last number}
folder=$(mktemp -d)
trap 'rm -rf "$folder"' EXIT

# shellcheck source=random_case.sh
. tests/random_case.sh

# alone STREAM OTHER EACH: the file of the stream, in each case of so many with a malformed line, if it has as many lines;
# what is before its refused line; the late records and the refusal that are told of it alone, each behind its name; and its
# exit code in the file code.STREAM.
alone() {
  local code=0 refused
  sed "s/^\\(.\\),$2,.*/#/" "$folder/input.txt" > "$folder/$1.txt"
  if ((number % $3 == 0)); then sed -i "$((1 + number * 7 % 60))s/.*/x/" "$folder/$1.txt"; fi
  cp "$folder/$1.txt" "$folder/before.$1"
  "$program" slow "$folder/plan.toml" < "$folder/$1.txt" > /dev/null 2> "$folder/notes" || code=$?
  sed "s/^/file $1: /" "$folder/notes" | { grep ': dropped, ' || true; } > "$folder/late.$1"
  sed "s/^/file $1: /" "$folder/notes" | { grep -v ': dropped, ' || true; } > "$folder/refused.$1"
  if [ "$code" = 3 ]; then
    refused=$(sed -E 's/^file .: line ([0-9]+):.*/\1/' "$folder/refused.$1")
    head -n "$((refused - 1))" "$folder/$1.txt" > "$folder/before.$1"
  fi
  echo "$code" > "$folder/code.$1"
}

# The rows, the notes and the exit code that the two files have to give.
expect() {
  local command=slow
  alone a b 2
  alone b a 3
  wanted=$(cat "$folder/code.a")
  cp "$folder/refused.a" "$folder/refused"
  if [ "$wanted" = 0 ]; then
    wanted=$(cat "$folder/code.b")
    cp "$folder/refused.b" "$folder/refused"
  fi
  if [ "$wanted" = 2 ]; then
    # A plan that is refused is told by itself.
    sed 's/^file a: //' "$folder/refused.a" > "$folder/notes"
    : > "$folder/wanted"
    return
  fi
  if [ "$wanted" = 3 ]; then command=part; fi
  cat "$folder/late.a" "$folder/late.b" "$folder/refused" > "$folder/notes"
  cat "$folder/before.a" "$folder/before.b" |
    "$program" "$command" "$folder/plan.toml" > "$folder/wanted" 2> "$folder/dropped"
}

cases=0 refusals=0
for ((number = first; number <= last; number++)); do
  make_case "$number"
  read -ra options < "$folder/options"
  status=0
  expect
  "$program" feeds "$folder/plan.toml" "$folder/a.txt" "$folder/b.txt" "${options[@]}" \
    > "$folder/rows" 2> "$folder/told" || status=$?
  if [ "$status" != "$wanted" ] || ! cmp "$folder/rows" "$folder/wanted" || ! cmp "$folder/told" "$folder/notes"; then
    echo "case $number, ${options[*]}: exit code $status, not $wanted: $(cat "$folder/told")"
    cat "$folder/plan.toml" "$folder/input.txt"
    exit 1
  fi
  cases=$((cases + 1))
  if [ "$wanted" = 3 ]; then refusals=$((refusals + 1)); fi
done
echo "$cases cases without a difference, $refusals of them with a refused line"
