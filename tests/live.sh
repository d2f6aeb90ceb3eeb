#!/usr/bin/env bash
# Measures when rows come on a log that goes on, with each awk that is installed: a line is written only after what the
# lines before it give has come. If a tool holds a line back, the next one is never written, and the test fails after
# 20 seconds, or as many as PATIENCE says. So a slow machine is no failure. It takes ../streambox, or the program that
# STREAMBOX names: STREAMBOX=/usr/local/bin/streambox tests/live.sh
set -euo pipefail
root=$(cd "$(dirname "$0")/.." && pwd)
program=${STREAMBOX:-$root/streambox}
PATH=$root/tools:$PATH
scratch=$(mktemp -d)
running=
trap 'finish' EXIT
cd "$scratch"
# How many seconds a line may take.
patience=${PATIENCE:-20}

finish() {
  exec 4>&- 5<&- || true
  [ -z "$running" ] || wait "$running" || true
  rm -rf "$scratch"
}

# start COMMAND..: runs it on what is written to 4; what it prints comes by 5.
start() {
  rm -f in out
  mkfifo in out
  "$@" < in > out &
  running=$!
  exec 4> in 5< out
  lines=$* slowest=0
}

# gives LINE..: these come now.
gives() {
  local line wanted begun took
  for wanted; do
    begun=${EPOCHREALTIME/./}
    if ! read -r -t "$patience" -u 5 line; then
      echo "live: $lines, by $AWK, has not printed $wanted after $patience seconds" >&2
      exit 1
    fi
    took=$(((${EPOCHREALTIME/./} - begun) / 1000))
    ((took <= slowest)) || slowest=$took
    if [ "$line" != "$wanted" ]; then
      echo "live: $lines, by $AWK, prints $line and not $wanted" >&2
      exit 1
    fi
  done
}

# ends LINE..: after the end of the input these come, and no more.
ends() {
  exec 4>&-
  gives "$@"
  if read -r -t "$patience" -u 5 line; then
    echo "live: $lines, by $AWK, prints $line at the end" >&2
    exit 1
  fi
  exec 5<&-
  wait "$running"
  running=
}

# All tools and the program: sums over windows of 2, with watermarks a delay of 1 behind.
reports() {
  records -t 1 -k 2 -v 3 -d words -l 1 | "$program" sum 2 | rows -d words "$@"
}

try_all() {
  start reports -n
  echo '1,web1,10' >&4
  echo '3,web1,20' >&4
  gives 2,web1,10
  echo '5,web2,30' >&4
  gives 4,web1,20
  echo '7,web1,40' >&4
  gives 6,web2,30
  ends 8,web1,40
  echo "live: $AWK: a row came after at most $slowest ms"
}

try_tools() {
  start records -t 1 -L 0
  echo 5 >&4
  gives r,a,5,0,1 w,a,5
  echo 6 >&4
  gives r,a,6,0,1 w,a,6
  ends
  start records -p -t 1
  echo 5 >&4
  gives r,a,5,0,1
  printf '6\n7' >&4
  gives r,a,6,0,1
  ends
  # The lines that were left out are told of as they come, too.
  start told_of records -i -t 1
  echo x >&4
  gives 'records: line 1: no time: "x"; -f says how it is written'
  echo y >&4
  gives 'records: line 2: no time: "y"; -f says how it is written'
  ends 'records: left out as no record: 2'
  start rows -H
  gives time,key,value
  echo 60,7,1 >&4
  gives 1970-01-01T00:01:00Z,7,1
  ends
  start rows --json
  echo 60,7,1 >&4
  gives '{"time":"1970-01-01T00:01:00Z","key":"7","value":1}'
  ends
}

# What a command says on standard error.
told_of() { { "$@" > /dev/null; } 2>&1; }

for AWK in mawk gawk 'busybox awk' original-awk awk; do
  export AWK
  $AWK 'BEGIN { exit 0 }' > /dev/null 2>&1 < /dev/null || { echo "live: $AWK is not installed"; continue; }
  rm -f words
  try_all
  try_tools
done
