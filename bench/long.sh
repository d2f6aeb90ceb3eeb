#!/usr/bin/env bash
# Shows that memory does not grow with the input: N lines of few keys, in order of time, with a watermark at every eighth,
# are made on the fly and summed over windows of 10. Prints the program's resident memory each 10 seconds, and at the end
# its greatest, and the processor time.
#
#   bench/long.sh 100000000
set -eu
cd "$(dirname "$0")/.."
program=${STREAMBOX:-./streambox}
"$program" sum 10 < /dev/null
awk -v n="${1:?how many lines}" \
  'BEGIN { for (i = 1; i <= n; i++) print i % 8 ? "r,a," i "," i % 5 "," i % 77 : "w,a," i }' |
  command time -f '%U s + %S s, at most %M kB' "$program" sum 10 > /dev/null &
while sleep 10 && jobs -r %1 > /dev/null 2>&1 && [ -n "$(jobs -r)" ]; do
  ps -C streambox -o rss= | awk '{ print "resident: " $1 " kB" }'
done
wait
