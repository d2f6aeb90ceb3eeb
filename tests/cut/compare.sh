# shellcheck shell=bash disable=SC2154 # `program` and `scratch` are of who sources it.
# Compares a run that is cut in two with one over the whole input. cut.sh and ../fuzz_cut.sh source it; they set `program`
# and `scratch`, a folder of their own, and a `differs` that ends them.
definition=$(dirname "$(readlink -f "${BASH_SOURCE[0]}")")/checkpoint.awk

# answer NAME WORD..: runs the program by these words on standard input. What it writes is in scratch/NAME.rows and
# NAME.notes, and its exit code in NAME.status.
answer() {
  local name=$1 status=0
  shift
  "$program" "$@" > "$scratch/$name.rows" 2> "$scratch/$name.notes" || status=$?
  echo "$status" > "$scratch/$name.status"
}

# wanted NAME STATUS ROWS NOTES: sets, from two files, what an answer has to be.
wanted() {
  cat "$3" > "$scratch/$1.rows"
  cat "$4" > "$scratch/$1.notes"
  echo "$2" > "$scratch/$1.status"
}

# same NAME OTHER WHAT: rows, notes and exit code of the one are those of the other.
same() {
  local of
  for of in rows notes status; do
    cmp "$scratch/$1.$of" "$scratch/$2.$of" || differs "$3: other $of"
  done
}

# The number of the line of `whole` that is refused, or nothing.
refused_line() {
  [ "$(cat "$scratch/whole.status")" != 3 ] || sed -nE '$s/^line ([0-9]+):.*/\1/p' "$scratch/whole.notes"
}

# The place of the first transform of the plan that gathers by session, or nothing.
first_session() {
  awk '/^\[\[transform\]\]/ { place++ } /^kind = "session"/ { print place; exit }' "$1"
}

# compare_cut PLAN INPUT LINES OPTION..: cuts the input behind so many lines, each with its end, and compares. `whole` has
# to be the answer of `run` to the whole input. The plan has each key on a line of its own.
compare_cut() {
  local plan=$1 input=$2 lines=$3 refused session
  shift 3
  local how="cut behind line $lines, $*"
  head -n "$lines" "$input" > "$scratch/first"
  tail -n "+$((lines + 1))" "$input" > "$scratch/rest"
  answer part part "$plan" "$@" < "$scratch/first"
  answer save save "$plan" < "$scratch/first"
  refused=$(refused_line)
  session=$(first_session "$plan")
  if [ "$(cat "$scratch/whole.status")" = 2 ]; then
    same part whole "$how: part"
    refuse_resume "$plan" "$(cat "$scratch/whole.notes")" "$how" "$@"
    return
  fi
  if [ -n "$refused" ] && [ "$refused" -le "$lines" ]; then
    same part whole "$how: part"
    wanted saved 3 /dev/null "$scratch/whole.notes"
  else
    compare_part "$plan" "$lines" "$how"
    wanted saved 0 "$scratch/checkpoint" "$scratch/part.notes"
  fi
  if [ -n "$session" ]; then
    refuse_resume "$plan" "plan: transform $session: session cannot be saved" "$how" "$@"
    return
  fi
  same save saved "$how: save"
  [ "$(cat "$scratch/save.status")" != 0 ] || compare_resume "$plan" "$how" "$@"
}

# refuse_resume PLAN NOTE HOW OPTION..: the plan is refused with this note, by `save`, too, and whatever the checkpoint is.
refuse_resume() {
  local plan=$1 note=$2 how=$3
  shift 3
  echo "$note" > "$scratch/note"
  wanted refused 2 /dev/null "$scratch/note"
  answer resume resume "$plan" "$scratch/none" "$@" < "$scratch/rest"
  same save refused "$how: save"
  same resume refused "$how: resume"
}

# The rows of the first part are those of the whole that end at or below its low watermark, and its notes list the records
# that were dropped there.
compare_part() {
  awk -f "$definition" "$1" "$scratch/first" > "$scratch/checkpoint"
  awk -F, 'NR == 1 { split($0, head, " "); low = head[3] } NR > FNR && $1 + 0 <= low + 0' \
    "$scratch/checkpoint" "$scratch/whole.rows" > "$scratch/rows"
  awk -F '[ :]' -v lines="$2" '/: dropped, / && $2 + 0 <= lines + 0' "$scratch/whole.notes" > "$scratch/notes"
  wanted below 0 "$scratch/rows" "$scratch/notes"
  same part below "$3: part"
}

# With the checkpoint of the first part, the rest gives what is left of the whole.
compare_resume() {
  local plan=$1 how=$2
  shift 2
  answer resume resume "$plan" "$scratch/save.rows" "$@" < "$scratch/rest"
  cat "$scratch/part.rows" "$scratch/resume.rows" > "$scratch/rows"
  cat "$scratch/part.notes" "$scratch/resume.notes" > "$scratch/notes"
  wanted both "$(cat "$scratch/resume.status")" "$scratch/rows" "$scratch/notes"
  same both whole "$how: part and resume"
}
