#!/usr/bin/env bash
# Tests that `--workers` says how many threads work. No clause says so, and rows do not depend on it: a program that passed
# over it would pass the other tests. It takes ../streambox, or the program that STREAMBOX names by an absolute path:
# STREAMBOX=/usr/local/bin/streambox tests/workers.sh
#
# Threads: a run by one worker has one thread. One by N has N, one that reads and one that prints, or one more, which
# began those of the helpers and waits for them. Runs are looked at while their input is held open, and `work` while it
# works. The number has to be right at ten looks in a row, and has to come to be so in 20 seconds, or as many as PATIENCE
# says. So a slow machine is no failure, and a number on the way to another is not taken for it.
#
# Two bundles in hand at once: that a bundle is taken before another is finished does not say so, since it may wait on the
# shelf. But the bundles here have places on the shelf together, and their lane is never full, so one worker finishes them
# in the order in which they were taken, whatever the schedule. Two workers have one in hand each, and as soon as one is
# ahead, or goes on while the other has no processor, a bundle is finished before one that was taken before it. To work all
# off takes many times as long as a thread keeps a processor that another wants, so this comes on a single processor, too.
# As nothing says how threads are scheduled, there are up to 100 runs, of a tenth of a second each, until it comes.
set -euo pipefail
shopt -s nullglob
# No hints: the process is the program itself.
export STREAMBOX_PLAIN=1
program=${STREAMBOX:-$(cd "$(dirname "$0")/.." && pwd)/streambox}
case $program in /*) ;; *) echo "STREAMBOX is no absolute path: $program" && exit 1 ;; esac
scratch=$(mktemp -d)
trap 'finish' EXIT
cd "$scratch"
# How many seconds a number of threads may take to be right, and how many looks in a row have to see that it is.
patience=${PATIENCE:-20} looks=10
# How many runs there are until two bundles are in hand at once.
tries=100
# So many bundles of so many records: the shelf has 64 places, and a lane as many as it is given.
bundles=60 size=100 pending=1024
# The run that goes on, if there is one, and how many runs were as they had to be.
running='' cases=0

finish() {
  exec 4>&- || true
  end_run
  rm -rf "$scratch"
}

end_run() {
  [ -z "$running" ] || kill "$running" 2> /dev/null || true
  [ -z "$running" ] || wait "$running" 2> /dev/null || true
  running=''
}

fail() {
  echo "workers: $1" >&2
  exit 1
}

# Sets `threads`: how many threads the run has.
count_threads() {
  local tasks=(/proc/"$running"/task/*)
  threads=${#tasks[@]}
}

# stays_right WORKERS: the run has the threads of so many workers at all looks.
stays_right() {
  local look
  for ((look = 0; look < looks; look++)); do
    count_threads
    if (($1 == 1)); then ((threads == 1)) || return; else ((threads == $1 + 2 || threads == $1 + 3)) || return; fi
    sleep 0.01
  done
}

# holds WORKERS WORD..: a run by these words has the threads of so many workers while its input is held open. It reads once
# more comments were written than a pipe holds.
holds() {
  local workers=$1 status=0 last=$((SECONDS + patience))
  shift
  "$program" "$@" < in > rows 2> notes &
  running=$!
  exec 4> in
  timeout "$patience" seq -f '# %.0f' 30000 >&4 || fail "$*: does not read its input"
  until stays_right "$workers"; do
    ((SECONDS < last)) || fail "$*: $threads threads"
  done
  exec 4>&-
  wait "$running" || status=$?
  running=''
  [ "$status" = 0 ] || fail "$*: exit code $status, $(cat notes)"
  cases=$((cases + 1))
}

# works WORKERS: so has `work`. If it ends before it was looked at often enough, it is run again.
works() {
  local last=$((SECONDS + patience))
  until [ -n "$running" ] && stays_right "$1"; do
    ((SECONDS < last)) || fail "work --workers $1: $threads threads"
    [ -z "$running" ] || ! kill -0 "$running" 2> /dev/null || continue
    "$program" work 10000000 --workers "$1" < /dev/null > rows 2> notes &
    running=$!
  done
  end_run
  cases=$((cases + 1))
}

# Sums over windows of 64 parts, so that a record costs some time, and the lines.
write_files() {
  printf '[[transform]]\nname = "sums"\nkind = "sum"\nfrom = "a"\nsize = 64\nevery = 1\n' > plan.toml
  awk -v n="$((bundles * size))" 'BEGIN { for (i = 0; i < n; i++) print "r,a," i % 100 "," i % 3 "," i }' > lines
  printf 'checkpoint 0 0\nend 0\n' > checkpoint
  : > none
  mkfifo in
}

# orders WORD..: sets `order`, how a run by these words worked off the bundles of its nodes, by their diaries: `turns`, if
# each was finished before the next was taken; `queue`, if they were finished in the order in which they were taken; `both`,
# if one was finished before another that was taken before it; or `few`, if there were too few of them.
orders() {
  "$program" "$@" --bundle "$size" --pending "$pending" --diary < lines > rows 2> diary || fail "$*: exit code $?"
  [ -e wanted ] || cp rows wanted
  cmp rows wanted || fail "$*: other rows"
  order=$(awk -v bundles="$bundles" '
    /^transform / { taken = finished = 0 }
    $1 == "take" { if (taken > finished) waits = 1; place[$3] = ++taken; all++ }
    $1 == "finish" && place[$3] != ++finished { both = 1 }
    END { print (all < bundles ? "few" : both ? "both" : waits ? "queue" : "turns") }' diary)
}

# has_one ORDERS WORD..: a run by these words never has two bundles in hand at once: it works them off in one of the orders.
has_one() {
  local wanted=$1
  shift
  for _ in 1 2 3; do
    orders "$@"
    [[ " $wanted " == *" $order "* ]] || fail "$*: the order of bundles is $order and not $wanted"
  done
  cases=$((cases + 1))
}

# has_two WORD..: a run by these words has two bundles in hand at once.
has_two() {
  local run
  for ((run = 0; run < tries; run++)); do
    orders "$@"
    [ "$order" != both ] || break
  done
  [ "$order" = both ] || fail "$*: in $tries runs never two bundles in hand at once"
  cases=$((cases + 1))
}

write_files
holds 1 sum 10
for workers in 1 2 4; do
  for words in 'sum 10' 'run plan.toml' 'watch plan.toml 1' 'part plan.toml' 'resume plan.toml checkpoint'; do
    # shellcheck disable=SC2086 # words without blanks
    holds "$workers" $words --workers "$workers"
  done
  works "$workers"
done
has_one turns run plan.toml
has_one turns run plan.toml --workers 1
has_two run plan.toml --workers 2
has_one 'turns queue' feeds plan.toml lines none --workers 1
has_two feeds plan.toml lines none --workers 2
echo "$cases runs by one worker or several: as expected"
