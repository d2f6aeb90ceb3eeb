#!/usr/bin/env bash
# Runs the program again and again, each time with another of its requests for memory refused: the first, the second, and
# so on, until a run makes no more. Each run has to end as done, with all rows, or with exit code 7, a prefix of the rows
# and `out of memory` or nothing on standard error. The inputs are the sum of first.txt and a join, with bundles of one
# record, with one worker and with four, and with one worker with and without diaries. How many requests several workers
# make differs from run to run: they are tried until so many runs one after the other made fewer than the number refused.
#
# It takes ../streambox, or the program that STREAMBOX names by an absolute path, and needs a C compiler, for the library
# that refuses.
set -euo pipefail
cd "$(dirname "$0")"
program=${STREAMBOX:-$(cd .. && pwd)/crates/streambox/out/streambox}
[ -x "$program" ] || { echo "no such program: $program"; exit 1; }
scratch=$(mktemp -d)
trap 'rm -rf "$scratch"' EXIT
cat > "$scratch/refuse.c" <<'C'
#define _GNU_SOURCE
#include <dlfcn.h>
#include <stdlib.h>
#include <unistd.h>
static long asked;
static int refuses(void) {
  static long number = -1;
  if (number < 0) number = getenv("REFUSED") ? atol(getenv("REFUSED")) : 0;
  return __atomic_add_fetch(&asked, 1, __ATOMIC_SEQ_CST) == number;
}
void *malloc(size_t size) {
  static void *(*real)(size_t);
  if (!real) *(void **)&real = dlsym(RTLD_NEXT, "malloc");
  return refuses() ? NULL : real(size);
}
void *realloc(void *old, size_t size) {
  static void *(*real)(void *, size_t);
  if (!real) *(void **)&real = dlsym(RTLD_NEXT, "realloc");
  return refuses() ? NULL : real(old, size);
}
__attribute__((destructor)) static void tell(void) {
  const char *file = getenv("ASKED");
  if (file && asked < atol(getenv("REFUSED")) && !access(".", R_OK)) (void)!symlink("done", file);
}
C
cc -shared -fPIC -O1 -o "$scratch/refuse.so" "$scratch/refuse.c" -ldl

fail() {
  echo "request $number of $*: exit code $status, $(cat "$scratch/note")"
  echo '0 passed, 1 failed'
  exit 1
}

# try_all QUIET INPUT WORD..: tries the words on the input with each request refused, until so many runs one after the
# other made fewer requests.
try_all() {
  local most=$1 input=$2 number=0 memory=0 quiet=0 status
  shift 2
  "$program" "$@" < "$input" > "$scratch/rows" 2> "$scratch/notes"
  while [ "$quiet" -lt "$most" ]; do
    number=$((number + 1))
    status=0
    REFUSED=$number ASKED=$scratch/asked LD_PRELOAD=$scratch/refuse.so \
      timeout 60 "$program" "$@" < "$input" > "$scratch/some" 2> "$scratch/note" || status=$?
    case $status in
      0) cmp -s "$scratch/some" "$scratch/rows" && cmp -s "$scratch/note" "$scratch/notes" || fail "$@" ;;
      7)
        # Before the words are read there is nobody to tell.
        note=$(cat "$scratch/note")
        [ "$note" = 'out of memory' ] || [ -z "$note" ] || fail "$@"
        head -c "$(wc -c < "$scratch/some")" "$scratch/rows" | cmp -s - "$scratch/some" || fail "$@"
        memory=$((memory + 1))
        ;;
      *) fail "$@" ;;
    esac
    if [ -L "$scratch/asked" ]; then
      rm "$scratch/asked"
      quiet=$((quiet + 1))
    else
      quiet=0
    fi
  done
  echo "${*//$scratch\/}: $((number - most)) requests, $memory of them ended the run: as expected"
}

cat > "$scratch/join.toml" <<'TOML'
[[transform]]
name = "pairs"
kind = "join"
from = "a"
with = "b"
size = 10
give = "add"
TOML
printf 'r,a,3,1,5\nr,a,4,1,6\nr,b,8,1,100\n' > "$scratch/join.txt"
for workers in 1 4; do
  # With one worker each run makes the same requests.
  if [ "$workers" = 1 ]; then quiet=1; else quiet=10; fi
  try_all "$quiet" first.txt sum 10 --workers "$workers"
  try_all "$quiet" first.txt sum 10 --bundle 1 --workers "$workers"
  try_all "$quiet" "$scratch/join.txt" run "$scratch/join.toml" --bundle 1 --workers "$workers"
  try_all "$quiet" "$scratch/join.txt" run "$scratch/join.toml" --bundle 1 --taps --workers "$workers"
done
try_all 1 first.txt sum 10 --bundle 1 --diary
try_all 1 "$scratch/join.txt" run "$scratch/join.toml" --bundle 1 --diary --taps
echo '10 passed, 0 failed'
