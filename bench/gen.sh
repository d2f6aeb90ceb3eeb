#!/usr/bin/env bash
# Writes N lines of an input for measurements: records of stream a, out of order within a stretch of 2,000 units of
# time, 100 keys, and a watermark at each 1,000th line. With EVERY, a watermark stands at each line of that number, and
# records are out of order within twice as many units of time. The same numbers give the same lines.
#
#   bench/gen.sh 1000000 > /tmp/million.txt
#   bench/gen.sh 1000000 8 > /tmp/eights.txt
set -eu
exec awk -v n="${1:?how many lines}" -v every="${2:-1000}" 'BEGIN {
  seed = 1; mark = 0
  for (i = 1; i <= n; i++) {
    if (i % every == 0) { mark += every; print "w,a," mark; continue }
    seed = (seed * 16807) % 2147483647; time = mark + seed % (2 * every)
    seed = (seed * 16807) % 2147483647; key = seed % 100
    seed = (seed * 16807) % 2147483647; value = seed % 2001 - 1000
    print "r,a," time "," key "," value
  }
}'
