#!/usr/bin/env bash
# Runs the tests of the cascade that workers share, and of their steps, again and again, each time with another of a
# test's requests for memory refused: the first, the second, and so on, until all tests pass, as none makes so many.
# Each test has to pass, or to end with an error that it gives if there is no memory. No test may stop the program.
#
# It takes rt, and about half an hour, since each run builds the tests. With two numbers it tries those requests alone:
#   tests/want_of_memory_shared.sh 30 35
set -euo pipefail
cd "$(dirname "$0")/../crates/engine_tests"
first=${1:-1}
last=${2:-1000}
scratch=$(mktemp -d)
trap 'rm -rf "$scratch"' EXIT
for ((number = first; number <= last; number++)); do
  rt try --test --fail-alloc "$number" > "$scratch/log" 2>&1 || true
  grep -q '^test result:' "$scratch/log" || { cat "$scratch/log"; echo '0 passed, 1 failed'; exit 1; }
  tests=$(grep -c '^test .* \.\.\. FAILED$' "$scratch/log" || true)
  errors=$(grep -cE '^ +error: (NoMemory|"no closing began"|"it did not arrive"|"the work ends")$' "$scratch/log" || true)
  if [ "$tests" != "$errors" ]; then
    cat "$scratch/log"
    echo "request $number: $tests tests failed, $errors of them for want of memory"
    echo '0 passed, 1 failed'
    exit 1
  fi
  echo "request $number: $tests tests ended for want of memory"
  [ "$tests" != 0 ] || break
done
echo '1 passed, 0 failed'
