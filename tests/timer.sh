#!/usr/bin/env bash
# Tries tools/step and examples/merge as a timer calls them: over logs that grow, are rotated, shortened or changed, with
# half last lines, refused lines, a changed plan, and calls that are killed. All rows together have to be those of `part`
# over the whole, and the last checkpoint that of `save`, byte for byte. A call that refuses has to leave all as it was.
#
#   timer.sh [KILLS]     KILLS calls of step and of merge each are killed: 50 if left out
#
# It takes ../streambox, or the program that STREAMBOX names by an absolute path.
set -euo pipefail
here=$(dirname "$(readlink -f "$0")")
root=$(readlink -f "$here/..")
export STREAMBOX=${STREAMBOX:-$root/streambox}
step=$root/tools/step
kills=${1:-50}
cases=0
scratch=$(mktemp -d)
trap 'rm -rf "$scratch"' EXIT
cd "$scratch"

fail() {
  echo "timer, $what: $1"
  [ ! -s said ] || cat said
  exit 1
}

# try WHAT: what follows is tried in a directory of its own, with a plan that sums in windows of 10.
try() {
  what=$1
  cases=$((cases + 1))
  mkdir "$scratch/$cases"
  cd "$scratch/$cases"
  printf '[[transform]]\nname = "rows"\nkind = "sum"\nfrom = "a"\nsize = 10\n' > plan.toml
}

# goes ARGUMENT..: step ends with 0.
goes() {
  local status=0
  "$step" "$@" 2> said || status=$?
  [ "$status" = 0 ] || fail "step $*: exit code $status"
}

# refuses CODE TEXT ARGUMENT..: step ends with the code, says one sentence with this text, and leaves cuts as it was.
refuses() {
  local code=$1 text=$2 status=0
  shift 2
  state > before
  "$step" "$@" 2> said || status=$?
  [ "$status" = "$code" ] || fail "step $*: exit code $status"
  [ "$(grep -c '^step: ' said)" = 1 ] || fail "step $*: not one sentence"
  grep -qF -- "$text" said || fail "step $*: does not say $text"
  state | cmp - before || fail "step $*: changes cuts"
}

state() { find cuts -type f ! -name lock -exec sha256sum {} + | sort; }

# whole FILE..: the rows of all calls and the last checkpoint are those of the lines of these files.
whole() {
  local cut last=''
  for cut in cuts/[0-9]*; do last=$cut; done
  cat "$@" > all
  "$STREAMBOX" part plan.toml < all 2> notes | cmp - <(cat cuts/*/rows) || fail 'other rows than of the whole'
  "$STREAMBOX" save plan.toml < all 2> notes | cmp - "$last/checkpoint" || fail 'another checkpoint than of the whole'
  [ ! -e cuts/.new ] || fail 'something is left'
}

# lines FROM TO: a record for each unit of time, and a watermark for each fifth.
lines() { seq "$1" "$2" | awk '{ print "r,a," $1 "," $1 % 3 "," $1; if ($1 % 5 == 0) print "w,a," $1 }'; }

long_ago() { touch -d '1 minute ago' "$1"; }

check_growing() {
  local upto
  try 'a log that grows'
  for upto in 0 1 7 7 30 31 900 3000; do
    lines 1 "$upto" > log
    goes plan.toml cuts < log
    whole log
  done
  lines 1 3005 > log
  goes plan.toml cuts log
  whole log
  goes plan.toml cuts < <(cat log)
  for cut in cuts/[0-9]*; do [ "${cut##*/}" = 000000000003606 ] || rm -r "$cut"; done
  lines 1 3007 > log
  goes plan.toml cuts log
  tail -n +2 cuts/000000000003608/checkpoint | grep -qx 'r,a,3007,1,3007' || fail 'no new line'
}

# A rotation by name. Lines still come to the old log after it, and its writer leaves half a line for a while.
check_rotation() {
  try 'a log that is rotated'
  lines 1 23 > log
  goes -o log.1 plan.toml cuts log
  lines 24 31 >> log
  mv log log.1
  refuses 65 'log is not the log that cuts goes on with' plan.toml cuts log
  goes -o log.1 plan.toml cuts log
  whole log.1
  : > log
  printf r,a,3 >> log.1
  long_ago log.1
  goes -o log.1 plan.toml cuts log
  printf '2,2,32\nr,a,33,0,33\n' >> log.1
  goes -o log.1 plan.toml cuts log
  whole log.1
  lines 34 2000 > log
  refuses 65 'log is not the log that cuts goes on with' plan.toml cuts log
  goes -o log.1 plan.toml cuts log
  grep -q 'log waits for the next call' said || fail 'does not wait'
  whole log.1
  printf 'r,a,33,1' >> log.1
  long_ago log.1
  refuses 65 'the last line of log.1 has no end' -o log.1 plan.toml cuts log
  echo ,7 >> log.1
  long_ago log.1
  goes -o log.1 plan.toml cuts log
  whole log.1 log
  mv log.1 gone
  lines 2001 2010 >> log
  goes -o log.1 plan.toml cuts log
  whole gone log
  # Refused lines are counted as they stand in the new log: after 1,977 records and 396 watermarks.
  echo x >> log
  refuses 3 'line 2374: malformed' plan.toml cuts log
}

check_two_rotations() {
  try 'a log that is rotated twice'
  lines 1 23 > log.2
  goes plan.toml cuts log.2
  lines 24 31 >> log.2
  lines 32 40 > log.1
  lines 41 55 > log
  long_ago log.1
  long_ago log.2
  refuses 65 'log is not the log that cuts goes on with' -o log.1 plan.toml cuts log
  goes -o log.2 plan.toml cuts log.1
  goes -o log.1 plan.toml cuts log
  whole log.2 log.1 log
}

check_copied() {
  try 'a log that is copied and emptied'
  lines 1 2000 > log
  goes -o log.1 plan.toml cuts log
  lines 2001 2003 >> log
  cp log log.1
  lines 2004 2009 > log
  long_ago log.1
  goes -o log.1 plan.toml cuts log
  whole log.1 log
}

check_anew() {
  try 'a log that begins anew'
  lines 1 23 > log
  goes plan.toml cuts log
  refuses 65 'log begins with what was read: call without -n' -n plan.toml cuts log
  mv log gone
  printf 'r,a,24' > log
  refuses 65 'log has no whole line yet' -n plan.toml cuts log
  lines 24 31 > log
  refuses 65 'log is not the log' plan.toml cuts log
  goes -n plan.toml cuts log
  whole gone log
  refuses 65 'call without -n' -n plan.toml cuts log
  lines 32 45 >> log
  goes plan.toml cuts log
  whole gone log
}

# What stands in a log of more than 8,192 bytes changes at both ends, or lines are missing somewhere.
check_changed() {
  local change
  try 'a log that was shortened or changed'
  lines 1 2000 > kept
  cp kept log
  goes plan.toml cuts log
  # shellcheck disable=SC2016 # $ is the last line of sed.
  for change in '1s/r,a,1,/r,a,2,/' '$s/2000/2001/' 1d '$d' 1000d 5,2000d 1,1999d; do
    sed "$change" kept > log
    refuses 65 'log is not the log that cuts goes on with' plan.toml cuts log
  done
  lines 1001 5000 > log
  refuses 65 'log is not the log that cuts goes on with' plan.toml cuts log
  refuses 65 'log is not the log that cuts goes on with' -o log.1 plan.toml cuts log
  refuses 65 'the log is not the log that cuts goes on with' plan.toml cuts < log
  rm log
  refuses 65 'log is not the log that cuts goes on with' plan.toml cuts log
  cp kept log
  lines 2001 2009 >> log
  goes plan.toml cuts log
  whole log
}

# Tables are written in each way that a plan may have them.
check_plan() {
  local change
  try 'a plan and a table that change'
  lines 1 23 > log
  cat > plan.toml <<'PLAN'
# table = "none.csv"
transform = [{name = "l", kind = "lookup", from = "a", table = "one.csv"},
  {name = "m", kind = "lookup", from = "l", 'table'='t w o.csv'}, {name = "s", kind = "sum", from = "m", size = 10}]
PLAN
  printf '0,10\n1,11\n' > one.csv
  printf '10,20\n11,21\n' > 't w o.csv'
  goes plan.toml cuts log
  lines 24 31 >> log
  for change in one.csv 't w o.csv' plan.toml; do
    cp "$change" kept
    sed -i 's/1/2/' "$change"
    refuses 65 "$change is not what it was: put it back, or begin with another directory than cuts" plan.toml cuts log
    rm "$change"
    refuses 65 "$change is not what it was" plan.toml cuts log
    mv kept "$change"
  done
  cp plan.toml moved.toml
  goes moved.toml cuts log
  whole log
  sed 's/"one.csv"/"one\\u002ecsv"/' moved.toml > plan.toml
  rm -r cuts
  mkdir cuts
  refuses 64 'table = "NAME"' plan.toml cuts log
}

check_half_lines() {
  try 'half last lines'
  printf 'r,a,1,1,1\nr,a,2,1,31' > log
  goes plan.toml cuts log
  printf '415\nw,a,10' >> log
  goes plan.toml cuts log
  echo >> log
  goes plan.toml cuts log
  whole log
  [ "$(cat cuts/*/rows)" = 10,1,31416 ] || fail 'another sum'
  # `records` gives half a line an end. So the log that comes by a pipe has changed when the line is whole.
  rm -r cuts
  printf '1,31' | "$root/tools/records" -t 1 -v 2 | "$step" plan.toml cuts || fail "exit code $?"
  printf '1,31415\n' > raw
  refuses 65 'the log is not the log that cuts goes on with' plan.toml cuts < <("$root/tools/records" -t 1 -v 2 < raw)
}

# Half a line of the log that the filter reads, and watermarks of calls that see less than the whole log.
check_filter() {
  local filter='records -t 1 -k 2 -d keys -v 3 -D 0' upto
  try 'a filter'
  printf '10,web1,100\n20,web1,200\n30,web1,31' > log
  goes -f "$filter" plan.toml cuts log
  printf '415\n41,web1,1\n50,web1,1\n' >> log
  goes -f "$filter" plan.toml cuts log
  [ "$(cat cuts/*/rows)" = $'20,1,100\n30,1,200\n40,1,31415\n50,1,1' ] || fail 'other rows'
  printf '51,web1,1\nx\n' >> log
  refuses 66 'the filter failed (2) on log from line 6 on' -f "$filter" plan.toml cuts log
  refuses 66 'the last line that the filter made has no end' -f 'printf x' plan.toml cuts log
  refuses 66 'the filter failed (1)' -f 'false | cat' plan.toml cuts log
  refuses 3 'a line of what the filter made of log from line 6 on' -f 'sed 1d' plan.toml cuts log
  try 'watermarks of a filter'
  sed -i '1i late = "drop"' plan.toml
  seq 1 400 | awk '{ print $1 + $1 * 7919 % 37 "," $1 % 5 "," $1 }' > raw
  for upto in 3 4 5 20 21 200 201 202 203 204 399 400; do
    head -n "$upto" raw > log
    goes -f 'records -t 1 -k 2 -v 3 -D 20' plan.toml cuts log
  done
  "$root/tools/records" -t 1 -k 2 -v 3 -D 20 < raw > records
  whole records
  cat cuts/*/notes | sed 's/^[^:]*//' | cmp - <("$STREAMBOX" part plan.toml < records 2>&1 > all | sed 's/^[^:]*//') ||
    fail 'other late records'
}

check_refused() {
  try 'a line that is refused'
  lines 1 12 > log
  goes plan.toml cuts log
  { lines 13 14; echo r,a,x,1,1; lines 15 20; } >> log
  refuses 3 'line 17: malformed' plan.toml cuts log
  grep -qx 'step: this is a line of log: mend it, and call again' said || fail 'does not say of which log'
  sed -i 's/^r,a,x/r,a,14/' log
  goes plan.toml cuts log
  whole log
  printf 'r,a,1,1,1\n' >> log
  refuses 3 'line 26: late record, time 1, watermark 20' plan.toml cuts log
}

check_misuse() {
  try 'misuse'
  lines 1 12 > log
  mkdir -p cuts/0000000012
  echo 'checkpoint 12 0' > cuts/0000000012/checkpoint
  refuses 65 'an older step made cuts/0000000012' plan.toml cuts log
  rm -r cuts
  mkdir cuts
  refuses 64 'its arguments are' plan.toml
  refuses 64 'step -h' -x plan.toml cuts log
  refuses 64 'do not go together' -n -o log.1 plan.toml cuts log
  refuses 74 'log.1 cannot be read' plan.toml cuts log.1
  STREAMBOX=none refuses 74 'there is no program none' plan.toml cuts log
  exec 9> cuts/lock
  flock 9
  goes plan.toml cuts log
  exec 9>&-
  grep -qx 'step: another call is at work' said || fail 'two calls at work'
}

# The number of lines of a checkpoint has a bound. Beyond it they are counted anew: 6 records and 1 watermark are kept.
check_bound() {
  try 'more lines than a checkpoint counts'
  lines 1 4 > log
  goes plan.toml cuts log
  sed -i '1s/.*/checkpoint 4294967293 0/' cuts/*4/checkpoint
  lines 1 5 > log
  goes plan.toml cuts log
  [ "$(head -n 1 cuts/*6/checkpoint)" = 'checkpoint 4294967295 5' ] || fail 'another first line'
  lines 1 6 > log
  goes plan.toml cuts log
  [ "$(head -n 1 cuts/*7/checkpoint)" = 'checkpoint 7 5' ] || fail 'another first line'
  "$STREAMBOX" resume plan.toml cuts/*7/checkpoint < /dev/null > rows || fail 'a checkpoint that resume refuses'
}

# reads COUNT: how many bytes a call reads for one new line, with all its children, after a log of so many units of time.
reads() {
  lines 1 "$1" > log
  rm -rf cuts
  goes plan.toml cuts log
  printf 'r,a,%s,1,1\n' "$1" >> log
  bash -c '"$@" && sed -n "s/^rchar: //p" "/proc/$$/io"' reads "$step" plan.toml cuts log 2> said || fail 'a call fails'
}

# What a call reads does not grow with the log.
check_cost() {
  local short long
  try 'the cost of a call'
  [ -r /proc/self/io ] || { echo 'timer: what a call reads is not known here'; return; }
  short=$(reads 1000)
  long=$(reads 100000)
  [ "$(wc -c < log)" -gt 1000000 ] || fail 'no long log'
  [ $((long - short)) -lt 2000 ] || fail "reads $short bytes after a short log, and $long after a long one"
}

# kill_at_random COMMAND..: kills the command at some moment in the time that it takes, `took` milliseconds, or a little
# later; every second time all that it started, too. A call that has ended is counted.
kill_at_random() {
  local pid
  setsid "$@" 2> said &
  pid=$!
  sleep "$(awk -v took="$took" -v random="$RANDOM" 'BEGIN { print 1.2 * took * random / 32768 / 1000 }')"
  [ $((call % 2)) = 0 ] || kill -KILL -- "-$pid" 2> /dev/null || true
  kill -KILL "$pid" 2> /dev/null || true
  if { wait "$pid"; } 2> /dev/null; then ended=$((ended + 1)); fi
}

# measure COMMAND..: sets `took`.
measure() {
  local began
  began=$(date +%s%3N)
  "$@" 2> said || fail "$*: exit code $?"
  took=$(($(date +%s%3N) - began))
}

# Each call has new lines, of which the last may have no end.
check_kills() {
  local call size ended=0 took
  try 'calls that are killed'
  lines 1 3000 > all_lines
  size=$(wc -c < all_lines)
  head -c $((size / (kills + 1))) all_lines > log
  measure "$step" plan.toml cuts log
  for ((call = 2; call <= kills + 1; call++)); do
    head -c $((size * call / (kills + 1))) all_lines > log.new
    mv log.new log
    kill_at_random "$step" plan.toml cuts log
  done
  [ "$ended" -lt "$kills" ] || fail 'no call was killed'
  flock cuts/lock true
  goes plan.toml cuts log
  whole log
  echo "$((kills - ended)) of $kills calls of step were killed at work"
}

# Lines of a time, an order and an amount, each at most 20 units of time late.
make_orders() { seq 1 1200 | awk '{ print 100 + $1 - $1 * 7 % 20 "," $1 % 10 "," $1 % 7 }'; }
make_payments() { seq 1 600 | awk '{ print 100 + 2 * $1 - $1 * 3 % 20 "," $1 % 9 "," $1 % 5 }'; }

# The rows of two logs that grow are those of one run over all lines of both, as far as watermarks let them be written.
check_merge() {
  local call ended=0 took merge=$root/examples/merge/merge
  try 'two logs that grow, and calls that are killed'
  cp "$root/examples/merge/plan.toml" .
  make_orders > all_orders
  make_payments > all_payments
  head -n 24 all_orders > orders
  head -n 12 all_payments > payments
  measure "$merge" 20 orders payments state
  for ((call = 1; call <= kills; call++)); do
    head -c $(($(wc -c < all_orders) * call / kills)) all_orders > orders
    head -c $(($(wc -c < all_payments) * call / kills)) all_payments > payments
    kill_at_random "$merge" 20 orders payments state
  done
  [ "$ended" -lt "$kills" ] || fail 'no call was killed'
  flock state/lock true
  "$merge" 20 orders payments state 2> said || fail "exit code $?"
  {
    awk -F, '{ print "r,a," $1 "," $2 "," $3; print "r,b," $1 "," $2 ",0" }' all_orders
    awk -F, '{ print "r,b," $1 "," $2 "," $3 }' all_payments
  } > records
  grep '^r' state/merged.txt | sort | cmp - <(sort records) || fail 'lines are lost or doubled'
  # The greatest time of both logs is 1300, so the last watermark is 1280.
  "$STREAMBOX" run plan.toml < records | awk -F, '$1 <= 1200' | cmp - <(cat state/cuts/*/rows) || fail 'other rows'
  echo "$((kills - ended)) of $kills calls of merge were killed at work"
}

# A call of merge was killed when its lines were prepared, in the middle of appending them, or when all were appended.
check_append() {
  local size merge=$root/examples/merge/merge
  try 'lines that are appended in part'
  cp "$root/examples/merge/plan.toml" .
  make_orders > all_orders
  make_payments > payments
  head -n 500 all_orders > orders
  "$merge" 20 orders payments state 2> said || fail "exit code $?"
  cp -r state early
  head -n 1000 all_orders > orders
  "$merge" 20 orders payments state 2> said || fail "exit code $?"
  mv state late
  for size in "$(wc -c < early/merged.txt)" 22222 "$(wc -c < late/merged.txt)"; do
    rm -rf state
    cp -r early state
    cp -r late/taken state/next
    head -c "$size" late/merged.txt > state/merged.txt
    "$merge" 20 orders payments state 2> said || fail "exit code $?"
    cmp state/merged.txt late/merged.txt || fail "other lines after $size bytes"
    cat state/cuts/*/rows | cmp - <(cat late/cuts/*/rows) || fail "other rows after $size bytes"
  done
}

# Both logs are rotated, as the head of merge says, and so is the merged one.
check_merge_rotation() {
  local merge=$root/examples/merge/merge
  try 'two logs that are rotated'
  cp "$root/examples/merge/plan.toml" .
  make_orders > all_orders
  make_payments > payments
  head -n 500 all_orders > orders
  "$merge" 20 orders payments state 2> said || fail "exit code $?"
  head -n 600 all_orders > orders.1
  tail -n +601 all_orders > orders
  "$merge" 20 orders payments state 2> said && fail 'takes a log that was rotated'
  grep -q 'orders is not what it was' said || fail 'says something else'
  "$merge" 20 orders.1 payments state 2> said || fail "exit code $?"
  rm -r state/taken/a
  mv state/merged.txt state/merged.1.txt
  long_ago state/merged.1.txt
  "$merge" 20 orders payments state 2> said || fail "exit code $?"
  cat state/merged.1.txt state/merged.txt > merged
  grep -c '^r' merged | grep -qx 3000 || fail 'lines are lost or doubled'
  "$STREAMBOX" part plan.toml < merged | cmp - <(cat state/cuts/*/rows) || fail 'other rows'
}

check_growing
check_rotation
check_two_rotations
check_copied
check_anew
check_changed
check_plan
check_half_lines
check_filter
check_refused
check_misuse
check_bound
check_cost
check_kills
check_merge
check_append
check_merge_rotation
echo "$cases cases of a timer: as expected"
