#!/usr/bin/env bash
# Times the sums over windows of 1,000 of N lines, by the program and by mawk, and compares what both print.
#
#   bench/sum.sh 1000000
set -eu
cd "$(dirname "$0")/.."
lines=$(mktemp); ours=$(mktemp); theirs=$(mktemp)
trap 'rm -f "$lines" "$ours" "$theirs"' EXIT
bench/gen.sh "${1:-1000000}" > "$lines"
echo "$(wc -l < "$lines") lines, $(wc -c < "$lines") bytes"
echo "streambox:"; time ./streambox sum 1000 < "$lines" > "$ours"
echo "mawk and sort:"
time mawk -F, '$1 == "r" { end = (int($3 / 1000) + 1) * 1000; sum[end "," $4] += $5 }
  END { for (at in sum) print at "," sum[at] }' "$lines" | sort -t, -k1,1n -k2,2n > "$theirs"
cmp "$ours" "$theirs" && echo "both print the same $(wc -l < "$ours") rows"
