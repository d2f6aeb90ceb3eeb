#!/usr/bin/env bash
# Times the engine with 1, 2 and 4 workers, by turns, over the eight cases of cases.sh: N lines each, and M for the heavy
# one. It prints the middle of five runs, elapsed, how many times as fast as one worker each is, and the most memory. All
# have to write the same rows and the same list of late records. With names of cases behind the numbers it measures those.
#
# "On one" is how many times as long four workers take as one, if they have to share one processor: there whoever is in
# the way of the others stays so for long, and what waits for it piles up. "At once" is what the machine itself gives: how
# many times as much four runs of one worker, all at once, do as one alone. Four workers can be no faster than that.
#
#   bench/workers.sh 1000000 60000
#   bench/workers.sh 1000000 60000 wide join
set -eu
cd "$(dirname "$0")/.."
program=$(readlink -f "${STREAMBOX:-./streambox}")
many=${1:?how many lines} few=${2:?how many lines for the heavy plan}
shift 2
scratch=$(mktemp -d)
trap 'rm -rf "$scratch"' EXIT
. bench/cases.sh
"$program" sum 10 < /dev/null
[ "$#" -gt 0 ] || set -- wide dense slide views join heavy eights late
cd "$scratch"

# run_with NAME WORKERS WORD..: adds the elapsed seconds of a run, by the command of these words before it, if any, and its
# memory in kB to the file of that name
run_with() {
  local name=$1 workers=$2
  shift 2
  command time -a -o "spent.$name" -f '%e %M' "$@" "$program" "${words[@]}" --workers "$workers" < lines > rows 2> notes
  if [ -e rows.first ]; then cmp rows rows.first && cmp notes notes.first; else mv rows rows.first; mv notes notes.first; fi
}

# four_at_once: the elapsed seconds of four runs of one worker
four_at_once() {
  local from
  from=$(date +%s%N)
  for _ in 1 2 3 4; do "$program" "${words[@]}" < lines > /dev/null 2>&1 & done
  wait
  awk -v spent="$(($(date +%s%N) - from))" 'BEGIN { print spent / 1e9 }'
}

# middle NAME: the middle of the elapsed times, and the most memory in MB
middle() {
  sort -n "spent.$1" | awk '{ at[NR] = $1; if ($2 > most) most = $2 } END { printf "%s %d", at[int((NR + 1) / 2)], most / 1000 }'
}

echo "$(nproc) processors"
printf '%-7s %9s %9s %9s %8s %8s %16s %8s %8s\n' case '1 worker' 2 4 'gain: 2' 4 'MB: 1, 2, 4' 'on one' 'at once'
for name in "$@"; do
  rm -f spent.* ./*.first
  case_of "$name" "$([ "$name" = heavy ] && echo "$few" || echo "$many")"
  for _ in 1 2 3 4 5; do
    for workers in 1 2 4; do run_with "$workers" "$workers"; done
    run_with crowded 4 taskset -c 0
  done
  awk -v name="$name" -v one="$(middle 1)" -v two="$(middle 2)" -v four="$(middle 4)" -v crowded="$(middle crowded)" \
    -v all="$(four_at_once)" 'BEGIN {
      split(one, a); split(two, b); split(four, c); split(crowded, d)
      printf "%-7s %7.2f s %7.2f s %7.2f s %8.2f %8.2f %16s %8.2f %8.2f\n", name, a[1], b[1], c[1], a[1] / b[1],
        a[1] / c[1], a[2] ", " b[2] ", " c[2], d[1] / a[1], 4 * a[1] / all }'
done
