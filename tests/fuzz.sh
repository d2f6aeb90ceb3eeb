#!/usr/bin/env bash
# Compares the engine with the plain program over random plans and inputs: for each number from FIRST to LAST a plan and an
# input are made of it, and rows, notes and exit code of `run`, with a random number of workers, size of bundles and limit
# of those that wait, have to be those of `slow`. A difference is printed with its number, and ends the script. Inputs have
# late records, which some plans drop, and some have a line that is refused. The same number gives the same case.
#
#   tests/fuzz.sh 1 10000
set -euo pipefail
# No hints: what the program itself says is compared.
export STREAMBOX_PLAIN=1
cd "$(dirname "$0")/.."
program=$(readlink -f "${STREAMBOX:-./streambox}")
first=${1:?the first number} last=${2:?the last number}
folder=$(mktemp -d)
trap 'rm -rf "$folder"' EXIT

# shellcheck source=random_case.sh
. tests/random_case.sh

cases=0
for ((number = first; number <= last; number++)); do
  make_case "$number"
  read -ra options < "$folder/options"
  status=0 wanted=0
  "$program" slow "$folder/plan.toml" < "$folder/input.txt" > "$folder/wanted" 2> "$folder/notes" || wanted=$?
  "$program" run "$folder/plan.toml" "${options[@]}" < "$folder/input.txt" > "$folder/rows" 2> "$folder/told" || status=$?
  if [ "$status" != "$wanted" ] || ! cmp "$folder/rows" "$folder/wanted" || ! cmp "$folder/told" "$folder/notes"; then
    echo "case $number, ${options[*]}: exit code $status, and $wanted by slow: $(cat "$folder/told")"
    cat "$folder/plan.toml" "$folder/input.txt"
    exit 1
  fi
  cases=$((cases + 1))
done
echo "$cases cases without a difference"
