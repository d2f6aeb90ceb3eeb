#!/usr/bin/env bash
# Compares the processor time of two programs over the same N lines, by turns: the least of five runs of each.
#
#   bench/compare.sh OLD NEW N WORD..
#   bench/compare.sh ../before/crates/streambox/out/streambox crates/streambox/out/streambox 1000000 sum 10
set -eu
old=$1 new=$2
lines=$(mktemp) rows=$(mktemp) other=$(mktemp)
trap 'rm -f "$lines" "$rows" "$other"' EXIT
"$(dirname "$0")/gen.sh" "$3" > "$lines"
shift 3
TIMEFORMAT='%U %S'
seconds() {
  local program=$1 output=$2
  shift 2
  { time "$program" "$@" < "$lines" > "$output"; } 2>&1 | awk '{ print $1 + $2 }'
}
least_old=999 least_new=999
for _ in 1 2 3 4 5; do
  time_old=$(seconds "$old" "$rows" "$@")
  time_new=$(seconds "$new" "$other" "$@")
  least_old=$(printf '%s\n' "$least_old" "$time_old" | sort -n | head -1)
  least_new=$(printf '%s\n' "$least_new" "$time_new" | sort -n | head -1)
done
cmp "$rows" "$other"
echo "$*: the old program $least_old s, the new one $least_new s, both with the same $(wc -l < "$rows") rows"
awk -v old="$least_old" -v new="$least_new" 'BEGIN { printf "the new one takes %.2f times as long\n", new / old }'
