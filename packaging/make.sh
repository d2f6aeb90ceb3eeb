#!/usr/bin/env bash
# Makes of packaging/commands.txt what says the same elsewhere: the pages in packaging/help, the completions in
# packaging/completions and the marked parts of docs/streambox.1.
#
#   packaging/make.sh            writes them
#   packaging/make.sh --check    fails, and says which, if one is not as it would be written
set -euo pipefail
cd "$(dirname "$0")"
export LC_ALL=C

# make_all DIRECTORY: writes everything there.
make_all() {
  mkdir -p "$1/help" "$1/completions"
  awk -f table.awk -f help.awk commands.txt "$1/help"
  awk -f table.awk -f completions.awk commands.txt "$1/completions"
  awk -f table.awk -f manual.awk commands.txt ../docs/streambox.1 > "$1/streambox.1"
}

scratch=$(mktemp -d)
trap 'rm -rf "$scratch"' EXIT
make_all "$scratch"
case ${1-} in
  --check)
    { diff -r "$scratch/help" help && diff -r "$scratch/completions" completions &&
      diff "$scratch/streambox.1" ../docs/streambox.1; } > "$scratch/differences" || {
      head -n 20 "$scratch/differences" >&2
      echo 'packaging: what is made of commands.txt is stale: run packaging/make.sh and commit' >&2
      exit 1
    }
    ;;
  '')
    rm -rf help completions
    cp -r "$scratch/help" "$scratch/completions" .
    cat "$scratch/streambox.1" > ../docs/streambox.1
    ;;
  *) echo 'packaging/make.sh [--check]' >&2; exit 1 ;;
esac
