#!/usr/bin/env bash
# Cuts an input behind each of its lines: `part` and `save` take what is before the cut, `resume` what is behind it, with 1
# worker and with 8. Together they have to give the rows, the notes and the exit code of `run` over the whole input, and
# the checkpoint has to be that of its definition (checkpoint.awk). A first part that ends in the middle of a line counts
# as if it ended before this line. Then the input comes as a log that grows line by line, and tools/step has to give the
# same: its rows, the notes that it keeps, and its checkpoints (../timer.sh tries what else can happen to a log).
#
#   cut.sh                 over input.txt and refused.txt of examples/cut
#   cut.sh PLAN INPUT..    over others. Names are taken from the folder where you are, those of the plan's tables, too
#
# The plan has each key on a line of its own. It takes ../../streambox, or the program that STREAMBOX names by an absolute
# path.
set -euo pipefail
shopt -s nullglob
here=$(dirname "$(readlink -f "$0")")
root=$(readlink -f "$here/../..")
program=${STREAMBOX:-$root/streambox}
export STREAMBOX=$program STREAMBOX_PLAIN=1
if [ $# = 0 ]; then
  cd "$root/examples/cut"
  set -- plan.toml input.txt refused.txt
fi
scratch=$(mktemp -d)
trap 'rm -rf "$scratch"' EXIT
# shellcheck source=compare.sh
. "$here/compare.sh"

differs() {
  echo "$PWD: $plan, $input: $1"
  cat "$scratch"/*.notes
  exit 1
}

# compare_middle LINES: a first part that goes on up to the middle of the next line is the same first part.
compare_middle() {
  local next half what
  next=$(sed -n "$(($1 + 1))p" "$input")
  half=${next:0:${#next} / 2}
  head -n "$1" "$input" > "$scratch/first"
  { cat "$scratch/first"; printf %s "$half"; } > "$scratch/longer"
  for what in part save; do
    answer short "$what" "$plan" < "$scratch/first"
    answer long "$what" "$plan" < "$scratch/longer"
    same long short "$what up to the middle of line $(($1 + 1))"
  done
}

# compare_steps COUNT: the COUNT lines that have an end come one by one, up to one that is refused. Each step leaves the
# checkpoint of all lines so far, and keeps the notes that it tells. All steps, and `resume` behind the last of them, give
# the whole.
compare_steps() {
  local lines=0 status=0 cut last refused
  refused=$(refused_line)
  rm -rf "$scratch/cuts"
  while [ "$lines" -le "$1" ] && [ "$lines" != "$refused" ]; do
    head -n "$lines" "$input" > "$scratch/first"
    "$root/tools/step" "$plan" "$scratch/cuts" "$scratch/first" 2> "$scratch/note" || differs "step $lines: exit code $?"
    for cut in "$scratch"/cuts/[0-9]*; do last=$cut; done
    cmp "$last/notes" "$scratch/note" || differs "step $lines: keeps other notes"
    "$program" save "$plan" < "$scratch/first" 2> "$scratch/note" | cmp - "$last/checkpoint" ||
      differs "step $lines: other checkpoint"
    lines=$((lines + 1))
  done
  if [ "$lines" = "$refused" ]; then
    "$root/tools/step" "$plan" "$scratch/cuts" < "$input" 2> "$scratch/said" || status=$?
    grep -v '^step: ' "$scratch/said" > "$scratch/note"
    : > "$scratch/left"
  else
    tail -n "+$lines" "$input" > "$scratch/rest"
    "$program" resume "$plan" "$last/checkpoint" < "$scratch/rest" > "$scratch/left" 2> "$scratch/note" || status=$?
  fi
  cat "$scratch"/cuts/[0-9]*/rows "$scratch/left" > "$scratch/rows"
  cat "$scratch"/cuts/[0-9]*/notes "$scratch/note" > "$scratch/notes"
  wanted both "$status" "$scratch/rows" "$scratch/notes"
  same both whole 'all steps'
}

plan=$1
shift
cuts=0
for input; do
  answer whole run "$plan" < "$input"
  count=$(wc -l < "$input")
  for ((lines = 0; lines <= count; lines++)); do
    compare_cut "$plan" "$input" "$lines" --workers 1
    compare_cut "$plan" "$input" "$lines" --workers 8 --bundle 1
    compare_middle "$lines"
    cuts=$((cuts + 1))
  done
  [ -n "$(first_session "$plan")" ] || compare_steps "$count"
done
echo "$cuts cuts: as expected"
