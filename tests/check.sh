#!/usr/bin/env bash
# Runs what the examples and docs/PLANS.md print, and compares rows, notes and exit codes. It takes ../streambox, or the
# program that STREAMBOX names by an absolute path: STREAMBOX=/usr/local/bin/streambox tests/check.sh
#
# Of the guide it tries, by `run` and by `slow`, each plan that stands with an input, rows and, if it has any, notes, by
# `save` each checkpoint that stands there, and by all commands each fault of the tables with a plan and an answer. Three
# faults have no plan there, since it would be too long: these are made here. Each folder with a plan is run with several
# numbers of workers and sizes of bundles, too, and its diaries are audited; two of its keys are watched; its input is cut
# behind each line (tests/cut/cut.sh); and it is fed by two files, one of each stream. Each plan of the guide is run with
# several workers, and by two files. Each folder of runs/ is a run: its words (args), its input, its rows, its note and
# its exit code. tests/cut/faults.sh tries faulty checkpoint files. Record files that are as long as they may be, and
# longer, are made here. `work` prints the same lines with 1, 2 and 8 workers, and over its lines, which are made here, too,
# 8 workers with bundles of one record give the rows that one worker gives with the largest bundles. live.sh measures whether
# rows of a live log come in time through all tools; workers.sh looks whether so many workers work as were asked for; start.sh
# tries ../streambox itself, without rt. Not tried are the exit codes 7, 8 and 70 of the program, and what the guide says in
# sentences. The last line counts what was as expected.
# shellcheck disable=SC2016 # Backquotes are those of the guide.
set -euo pipefail
shopt -s nullglob
# No hints: what the program itself says is compared.
export STREAMBOX_PLAIN=1
cd "$(dirname "$0")/../examples"
tests=../tests
program=${STREAMBOX:-$(cd .. && pwd)/streambox}
guide=$(cd ../docs && pwd)/PLANS.md
case $program in /*) ;; *) echo "STREAMBOX is no absolute path: $program" && exit 1 ;; esac
[ -x "$program" ] || { echo "no such program: $program"; exit 1; }
scratch=$(mktemp -d)
trap 'rm -rf "$scratch"' EXIT

# gives ROWS NOTES WORD..: the program, by these words, ends with 0, and its rows and notes are those of the files.
gives() {
  local rows=$1 notes=$2 status=0
  shift 2
  "$program" "$@" > "$scratch/rows" 2> "$scratch/note" || status=$?
  [ "$status" = 0 ] || fail "$*: exit code $status, $(cat "$scratch/note")"
  cmp "$scratch/note" "$notes" || fail "$*: says $(cat "$scratch/note")"
  cmp "$scratch/rows" "$rows" || fail "$*: other rows than $rows"
}

# refuses STATUS NOTE WORD..: the program, by these words and without input, ends with the status and the note, and prints
# no row.
refuses() {
  local wanted=$1 note=$2 status=0
  shift 2
  "$program" "$@" > "$scratch/rows" 2> "$scratch/note" < /dev/null || status=$?
  [ "$status" = "$wanted" ] || fail "$note: exit code $status"
  [ "$(cat "$scratch/note")" = "$note" ] || fail "$note: says $(cat "$scratch/note")"
  [ ! -s "$scratch/rows" ] || fail "$note: prints rows"
}

fail() {
  echo "$PWD: $1"
  echo '0 passed, 1 failed'
  exit 1
}

# some COUNT WHAT: there has to be one at least.
some() {
  [ "$1" -gt 0 ] || fail "no $2"
  echo "$1 $2: as expected"
}

# Runs the words of each folder of runs/ there, and those of four commands with 8 workers, too.
check_runs() {
  local args words
  runs=0
  for args in "$tests"/runs/*/args; do
    mapfile -t words < "$args"
    check_run "${args%/args}" "${words[@]}"
    if [[ ${words[0]} =~ ^(watch|feeds|part|resume)$ ]]; then check_run "${args%/args}" "${words[@]}" --workers 8; fi
    runs=$((runs + 1))
  done
  some "$runs" 'runs with a note and an exit code'
}

# check_run FOLDER WORD..
check_run() {
  local run=$1 status=0
  shift
  (cd "$run" && "$program" "$@" < stdin > "$scratch/rows" 2> "$scratch/note") || status=$?
  [ "$status" = "$(cat "$run/status")" ] || fail "$run, $*: exit code $status, $(cat "$scratch/note")"
  cmp "$scratch/rows" "$run/stdout" || fail "$run, $*: other rows"
  cmp "$scratch/note" "$run/stderr" || fail "$run, $*: another note"
}

# ends STATUS NOTE: the last command, whose status is given, has left this note.
ends() {
  [ "$1" = "$2" ] || fail "$3: exit code $1"
  [ "$(cat "$scratch/note")" = "$3" ] || fail "$3: says $(cat "$scratch/note")"
}

# Devices that fail: a full one, a closed output, a folder as the input, a closed input, and full and closed notes. The
# full output and the folder are tried with the commands that take a plan, too.
check_devices() {
  local status=0 run=$tests/runs/resume_the_rest words
  "$program" sum 10 < first.txt > /dev/full 2> "$scratch/note" || status=$?
  ends "$status" 5 'output failed'
  status=0
  "$program" sum 10 < first.txt >&- 2> "$scratch/note" || status=$?
  ends "$status" 5 'output failed'
  status=0
  "$program" sum 10 < . > "$scratch/rows" 2> "$scratch/note" || status=$?
  ends "$status" 4 'input failed'
  status=0
  "$program" sum 10 <&- > "$scratch/rows" 2> "$scratch/note" || status=$?
  ends "$status" 4 'input failed'
  for notes in /dev/full /dev/null; do
    status=0
    "$program" sum 0 < first.txt 2> "$notes" || status=$?
    [ "$status" = 1 ] || fail "notes to $notes: exit code $status"
  done
  for words in /dev/full /dev/null; do
    status=0
    "$program" feeds "$tests"/runs/feeds_two_files/{plan.toml,a.txt,b.txt} 2> "$words" > /dev/full || status=$?
    [ "$status" = 5 ] || fail "feeds to a full device: exit code $status"
  done
  devices=8
  for words in "run $run/plan.toml" "slow $run/plan.toml" "watch $run/plan.toml 1" "part $run/plan.toml" \
    "save $run/plan.toml" "resume $run/plan.toml $run/checkpoint"; do
    status=0
    # shellcheck disable=SC2086 # words without blanks
    "$program" $words < <(echo r,a,13,1,1; echo w,a,20) > /dev/full 2> "$scratch/note" || status=$?
    ends "$status" 5 'output failed'
    status=0
    # shellcheck disable=SC2086
    "$program" $words < . > "$scratch/rows" 2> "$scratch/note" || status=$?
    ends "$status" 4 'input failed'
    [ ! -s "$scratch/rows" ] || fail "$words, a folder as the input: prints rows"
    devices=$((devices + 2))
  done
  echo "$devices devices that fail: as expected"
}

# The file, or an empty one if it is not there: most runs have no notes.
or_empty() {
  if [ -e "$1" ]; then echo "$1"; else echo /dev/null; fi
}

check_folders() {
  local plan command size workers
  folders=0
  for plan in */plan.toml; do
    for command in run slow; do
      (cd "${plan%/*}" && gives rows.txt "$(or_empty notes.txt)" "$command" plan.toml < input.txt)
    done
    for workers in 1 2 8; do
      for size in 1 3 1024; do
        (cd "${plan%/*}" && tells_its_diary "$workers" "$size" rows.txt "$(or_empty notes.txt)")
      done
    done
    folders=$((folders + 1))
  done
  some "$folders" 'folders with a plan'
}

# tells_its_diary WORKERS SIZE ROWS NOTES: with so many workers and bundles of this size the plan there gives the same rows
# and notes, and the diary behind the notes is settled.
tells_its_diary() {
  local how="$1 workers, bundles of $2" rows=$3 notes=$4 lines said
  "$program" run plan.toml --workers "$1" --bundle "$2" --diary < input.txt > "$scratch/rows" 2> "$scratch/note" ||
    fail "$how: exit code $?"
  cmp "$scratch/rows" "$rows" || fail "$how: other rows than $rows"
  lines=$(wc -l < "$notes")
  head -n "$lines" "$scratch/note" | cmp - "$notes" || fail "$how: other notes than $notes"
  said=$(tail -n "+$((lines + 1))" "$scratch/note" | "$program" audit)
  [[ $said == *' settled' ]] || fail "$how: the diary is $said"
}

# Of each folder with a plan, the first key of its rows and the last one are watched.
check_watch() {
  local plan key workers
  keys=0
  for plan in */plan.toml; do
    while IFS= read -r key; do
      awk -F, -v key="$key" '$2 "" == key "" { last = $0 } END { print last }' "${plan%/*}/rows.txt" > "$scratch/last"
      for workers in 1 2 8; do
        (cd "${plan%/*}" && gives "$scratch/last" "$(or_empty notes.txt)" \
          watch plan.toml "$key" --workers "$workers" < input.txt)
      done
      keys=$((keys + 1))
    done < <(cut -d, -f2 "${plan%/*}/rows.txt" | sed -n '1p;$p')
  done
  some "$keys" 'keys that are watched'
}

# Cuts the input of each folder with a plan behind each of its lines, and tries faulty checkpoint files.
check_cut() {
  local plan
  inputs=0
  STREAMBOX=$program "$tests/cut/cut.sh" || fail 'an input that is cut'
  for plan in */plan.toml; do
    [ "$plan" != cut/plan.toml ] || continue
    (cd "${plan%/*}" && STREAMBOX=$program "../$tests/cut/cut.sh" plan.toml input.txt) > "$scratch/cuts" ||
      fail "$plan: $(cat "$scratch/cuts")"
    inputs=$((inputs + 1))
  done
  some "$inputs" 'other inputs that are cut'
  STREAMBOX=$program "$tests/cut/faults.sh" || fail 'a checkpoint file'
}

# by_two_files PLAN INPUT ROWS NOTES: the lines of each stream in a file of their own, with comments where those of the other
# stood, give the same rows; and each note of a line begins with its file, those of file a first.
by_two_files() {
  local plan=$1 input=$2 rows=$3 notes=$4 workers
  sed 's/^\(.\),b,.*/#/' "$input" > "$scratch/a.txt"
  sed 's/^\(.\),a,.*/#/' "$input" > "$scratch/b.txt"
  awk -F '[ :]' 'NR == FNR { stream[NR] = substr($0, 3, 1); next } { print "file " stream[$2] ": " $0 }' "$input" "$notes" |
    sort -s -k 1,2 > "$scratch/both"
  for workers in 1 2 8; do
    gives "$rows" "$scratch/both" feeds "$plan" "$scratch/a.txt" "$scratch/b.txt" --workers "$workers"
  done
}

# The input of each folder with a plan, by two files.
check_feeds() {
  local plan
  feeds=0
  for plan in */plan.toml; do
    (cd "${plan%/*}" && by_two_files plan.toml input.txt rows.txt "$(or_empty notes.txt)")
    feeds=$((feeds + 1))
  done
  some "$feeds" 'inputs by two files'
}

# Record files of one byte more than there may be, which are told in their order: file a before file b is loaded, and the
# plan before both. A file that is as long as it may be is read, and its first line is too long.
check_long_files() {
  local run=$tests/runs/feeds_two_files
  truncate -s 268435457 "$scratch/long"
  refuses 10 'record file too long' feeds "$run/plan.toml" "$scratch/long" "$scratch/missing"
  refuses 10 'record file too long' feeds "$run/plan.toml" "$run/a.txt" "$scratch/long"
  refuses 2 'plan: not TOML' feeds "$run/a.txt" "$scratch/long" "$scratch/long"
  truncate -s 268435456 "$scratch/long"
  refuses 3 'file b: line 1: too long' feeds "$run/plan.toml" "$run/a.txt" "$scratch/long"
  rm "$scratch/long"
  long=4
  echo "$long record files that are long: as expected"
}

# Words that are not understood: none, and those of each line.
check_words() {
  local words
  refuses 1 'words not understood'
  lists=1
  while read -ra words; do
    refuses 1 'words not understood' "${words[@]}"
    lists=$((lists + 1))
  done << 'WORDS'
watch
watch plan.toml
watch plan.toml -1
watch plan.toml 1,2
watch plan.toml abcdefghijklmnopqrstuvwxy
watch plan.toml 1 2
watch plan.toml --workers 2 1
watch plan.toml 1 --workers 0
watch plan.toml 1 --diary
watch plan.toml 1 --taps
feeds
feeds plan.toml
feeds plan.toml a
feeds -p a b
feeds plan.toml -a b
feeds plan.toml a -b
feeds plan.toml a b c
feeds plan.toml --taps a b
feeds plan.toml a b --workers 65
feeds plan.toml a b --diary --diary
part
part -p
part plan.toml 1
part plan.toml --diary
part plan.toml --taps
part plan.toml --bundle 65537
part plan.toml --workers 2 --workers 2
save
save -p
save plan.toml checkpoint
save plan.toml --workers 2
save plan.toml --bundle 1
save plan.toml --pending 1
save plan.toml --diary
resume
resume plan.toml
resume plan.toml -c
resume -p checkpoint
resume plan.toml checkpoint rest
resume plan.toml --workers 2 checkpoint
resume plan.toml checkpoint --pending 1025
resume plan.toml checkpoint --workers=2
resume plan.toml checkpoint --diary
resume plan.toml checkpoint --taps
WORDS
  some "$lists" 'lists of words that are not understood'
}

# `work` prints the same lines with several numbers of workers, and no note.
check_work() {
  local workers
  "$program" work 100000 < /dev/null > "$scratch/summary" || fail "work 100000: exit code $?"
  head -n 3 "$scratch/summary" | cmp - <(printf 'records 100000\nrows 50000\nsum -47\n') || fail 'work 100000: other lines'
  for workers in 1 2 8; do
    gives "$scratch/summary" /dev/null work 100000 --workers "$workers" < /dev/null
  done
  echo '3 numbers of workers for work: as expected'
}

# The lines that `work` makes of a number: in each eight records times fall, and then comes a watermark.
made_lines() {
  awk -v count="$1" 'BEGIN {
    for (i = 0; i < count; i++) {
      print "r,a," 8 * int(i / 8) + 7 - i % 8 "," i % 5 "," 37 * i % 101 - 50
      if (i % 8 == 7) print "w,a," 8 * int(i / 8) + 8
    }
  }'
}

# The rows of sums over windows of 10: the end of a window, a key, and the sum of the values, in order.
sums_of_ten() {
  awk -F, '$1 == "r" { sums[$3 - $3 % 10 + 10 "," $4] += $5 }
    END { for (window in sums) print window "," sums[window] }' | sort -t , -k 1,1n -k 2,2n
}

# Over the same lines one worker with the largest bundles and 8 workers with the smallest write the same bytes.
check_made() {
  made_lines 10000 > "$scratch/made"
  sums_of_ten < "$scratch/made" > "$scratch/sums"
  gives "$scratch/sums" /dev/null sum 10 --bundle 65536 --workers 1 < "$scratch/made"
  gives "$scratch/sums" /dev/null sum 10 --bundle 1 --workers 8 < "$scratch/made"
  echo '2 sizes of bundles for the lines of work: as expected'
}

# Runs the commands of each example's README, if it has one, in a copy without the files that they make: they print what
# stands there, and make the files of the folder.
check_reports() {
  local readme folder made
  reports=0
  mkdir -p "$scratch/copy/examples"
  cp -r . "$scratch/copy/examples"
  cp -r ../tools "$scratch/copy"
  printf '#!/bin/sh\nexec "%s" "$@"\n' "$program" > "$scratch/copy/streambox"
  chmod +x "$scratch/copy/streambox"
  for readme in */README.md; do
    folder=${readme%/*}
    blocks sh "$readme" > "$scratch/commands"
    blocks text "$readme" > "$scratch/told"
    [ -s "$scratch/commands" ] || fail "$readme: no commands"
    made=$({ grep -oE '(> |tee |-d )[a-z]+\.txt' "$scratch/commands" || true; } | sed 's/.* //' | sort -u)
    (
      cd "$scratch/copy/examples/$folder"
      # shellcheck disable=SC2086 # names of letters
      rm -f $made
      bash -euo pipefail "$scratch/commands" > "$scratch/printed" || fail "$readme: exit code $?"
    )
    diff "$scratch/told" "$scratch/printed" || fail "$readme: prints something else"
    diff -r "$folder" "$scratch/copy/examples/$folder" || fail "$readme: makes other files"
    reports=$((reports + 1))
  done
  some "$reports" 'examples, from the first file to the last'
}

# blocks KIND FILE: what stands in the blocks of this kind.
blocks() {
  awk -v opening="\`\`\`$1" '$0 == opening { is_in = 1; next } /^```/ { is_in = 0 } is_in' "$2"
}

# The guide's examples: a plan, an input and its rows, each in a block of its own, of some the table that the plan names, and
# of some the checkpoint if the input is a first part.
check_plans() {
  local plan command workers
  plans=0
  awk '/^```(toml|table|input|rows|notes|checkpoint)$/ { kind = substr($0, 4); if (kind == "toml") count++; next }
    /^```/ { kind = "" }
    kind != "" { print > (count "." kind) }' "$guide"
  for plan in [0-9]*.toml; do
    [ ! -e "${plan%.toml}.table" ] || cp "${plan%.toml}.table" "$(sed -n 's/^table = "\(.*\)"$/\1/p' "$plan")"
    for command in run slow; do
      gives "${plan%.toml}.rows" "$(or_empty "${plan%.toml}.notes")" "$command" "$plan" < "${plan%.toml}.input"
    done
    for workers in 2 8; do
      gives "${plan%.toml}.rows" "$(or_empty "${plan%.toml}.notes")" \
        run "$plan" --workers "$workers" < "${plan%.toml}.input"
    done
    by_two_files "$plan" "${plan%.toml}.input" "${plan%.toml}.rows" "$(or_empty "${plan%.toml}.notes")"
    if [ -e "${plan%.toml}.checkpoint" ]; then
      gives "${plan%.toml}.checkpoint" /dev/null save "$plan" < "${plan%.toml}.input"
    fi
    plans=$((plans + 1))
  done
  some "$plans" 'plans of the guide'
}

# The guide's faults: rows of tables with what is wrong, a plan or the rows of a table, and the line that is answered.
check_faults() {
  local text answer command
  faults=0
  awk -F '[|]' 'NF == 5 && $4 ~ /^ `plan: .*` $/ {
    plan = $3; answer = $4
    gsub(/^ *`?|`? *$/, "", plan); gsub(/^ `|` $/, "", answer)
    print plan; print answer }' "$guide" > faults
  while IFS= read -r text && IFS= read -r answer; do
    # Lines stand in backquotes each.
    text=${text//'` `'/$'\n'}
    if [ -z "$text" ]; then
      write_long "$answer"
    elif [[ $answer == *"table row"* ]]; then
      printf '%s\n' "$text" > table.csv
      plan_with_table
    else
      printf '%s\n' "$text" > plan.toml
    fi
    for command in $(commands_of "$answer"); do
      # shellcheck disable=SC2046 # two words, one, or none
      refuses 2 "$answer" "$command" plan.toml $(argument_of "$command")
    done
    faults=$((faults + 1))
  done < faults
  some "$faults" 'faults of the guide'
}

# The commands that give this answer.
commands_of() {
  case $1 in
    *': session cannot be saved') echo save resume ;;
    *) echo run slow watch feeds part save resume ;;
  esac
}

# What a command takes behind the plan, which is refused first.
argument_of() {
  case $1 in
    watch) echo 1 ;;
    feeds) echo no-file-a no-file-b ;;
    resume) echo no-checkpoint ;;
  esac
}

plan_with_table() {
  echo 'transform = [{name = "l", kind = "lookup", from = "a", table = "table.csv"}]' > plan.toml
}

# Writes the plan or the table of a fault that has none in the guide: by one byte, or one row, more than there may be.
# Without that byte or row the answer is another.
write_long() {
  plan_with_table
  case $1 in
    'plan: file too long')
      spaces 1048576 > plan.toml
      refuses 2 'plan: transform: missing' run plan.toml
      spaces 1048577 > plan.toml
      ;;
    'plan: transform 1: table too long')
      lines_of_nothing 4194304 > table.csv
      refuses 2 'plan: no window' run plan.toml
      lines_of_nothing 4194305 > table.csv
      ;;
    'plan: transform 1: table row 100001: too many rows')
      seq 1 100000 | sed 's/$/,1/' > table.csv
      refuses 2 'plan: no window' run plan.toml
      echo 0,1 >> table.csv
      ;;
    *) fail "a fault of the guide that has no plan, and is not tried here: $1" ;;
  esac
}

spaces() { head -c "$1" /dev/zero | tr '\0' ' '; }

lines_of_nothing() { head -c "$1" /dev/zero | tr '\0' '\n'; }

# The first time, ../streambox proves and builds the program.
gives first.rows /dev/null sum 10 < first.txt
check_folders
check_watch
check_cut
check_feeds
check_runs
check_long_files
check_words
check_devices
check_work
check_made
check_reports
"$tests/tools.sh"
STREAMBOX=$program "$tests/live.sh"
STREAMBOX=$program "$tests/workers.sh"
"$tests/start.sh"
refuses 6 'file failed' run "$scratch/missing.toml"
cp views/ads.csv "$scratch"
cd "$scratch"
check_plans
check_faults
echo "All is as expected: $folders folders, $keys keys, $((inputs + 1)) inputs that are cut, checkpoint files, \
$feeds inputs by two files, $long long files, $runs runs, $lists lists of words, $devices devices, work, its lines, \
$reports reports, the tools, a live log, workers, the start script, $plans plans and $faults faults of the guide."
passed=$((folders + keys + inputs + 2 + feeds + long + runs + lists + devices + 2 + reports + 4 + plans + faults))
echo "$passed passed, 0 failed"
