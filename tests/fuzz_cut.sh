#!/usr/bin/env bash
# Compares runs that are cut in two with whole ones over random plans and inputs: for each number from FIRST to LAST a plan
# and an input are made of it, as by fuzz.sh. The input is cut behind one of its lines, and `part`, `save` and `resume`,
# with a random number of workers, size of bundles and limit of those that wait, have to give rows, notes and exit code of
# `run` over all of it; the checkpoint has to be that of its definition (cut/checkpoint.awk). If the plan gathers by
# session, `save` and `resume` have to refuse it. With a third word, `every`, each input is cut behind each of its lines. A
# difference is printed with its number, and ends the script. The same number gives the same case.
#
#   tests/fuzz_cut.sh 1 2000
#   tests/fuzz_cut.sh 1 50 every
set -euo pipefail
# No hints: what the program itself says is compared.
export STREAMBOX_PLAIN=1
cd "$(dirname "$0")/.."
program=$(readlink -f "${STREAMBOX:-./streambox}")
first=${1:?the first number} last=${2:?the last number} every=${3:-}
folder=$(mktemp -d)
trap 'rm -rf "$folder"' EXIT
scratch=$folder
# shellcheck source=random_case.sh
. tests/random_case.sh
# shellcheck source=cut/compare.sh
. tests/cut/compare.sh

differs() {
  echo "case $number, $1"
  cat "$folder/plan.toml" "$folder/input.txt"
  exit 1
}

# Some inputs have lines that end by CR LF, and some a last line without its end.
change_ends() {
  if ((number % 8 == 1)); then sed -i 's/$/\r/' "$folder/input.txt"; fi
  if ((number % 4 == 0)) && [ -s "$folder/input.txt" ]; then truncate -s -1 "$folder/input.txt"; fi
}

cases=0 cuts=0
for ((number = first; number <= last; number++)); do
  make_case "$number"
  change_ends
  read -ra options < "$folder/options"
  answer whole run "$folder/plan.toml" "${options[@]}" < "$folder/input.txt"
  count=$(wc -l < "$folder/input.txt")
  cut=$((number * 7919 % (count + 1))) to=$count
  if [ "$every" = every ]; then cut=0; else to=$cut; fi
  for (( ; cut <= to; cut++)); do
    compare_cut "$folder/plan.toml" "$folder/input.txt" "$cut" "${options[@]}"
    cuts=$((cuts + 1))
  done
  cases=$((cases + 1))
done
echo "$cases cases, $cuts cuts, without a difference"
