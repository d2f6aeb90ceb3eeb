#!/usr/bin/env bash
# Makes docs/DEFINITIONS.md from the comments over the definitions in crates/*/specs/*.antt:
#
#   docs/definitions.sh           writes docs/DEFINITIONS.md
#   docs/definitions.sh --check   writes nothing, and ends with 1 if docs/DEFINITIONS.md is not what it would write
#
# What stands in no comment is in docs/definitions: groups.txt has the subjects and crates in the order of the page,
# NAME.md the words before the definitions of crate NAME, start.md those at the top, first.txt the definitions whose names
# are bold, and private.txt the files that are named at the end alone, after private.md. The script fails if one of these
# names a crate, a file or a definition that is not there, and if a crate with definitions is in no group.
set -euo pipefail
export LC_ALL=C
cd "$(dirname "$0")/.."
page=docs/DEFINITIONS.md

fail() {
  echo "docs/definitions.sh: $*" >&2
  exit 1
}

# Each crate with definitions is in one group, and each NAME.md is of such a crate.
test_groups() {
  local crates words name
  crates=$(grep -lE '^ *(abbrev|unfoldable) pub |^ *pub (record|data) ' crates/*/specs/*.antt | cut -d / -f 2 | sort -u)
  words=$(grep -vE '^(#|==|$)' docs/definitions/groups.txt | cut -d ' ' -f 1 | sort)
  [[ $crates == "$words" ]] || fail "groups.txt: these crates have to stand there, once each:" "$crates"
  for words in docs/definitions/*.md; do
    name=$(basename "$words" .md)
    grep -qxF "$name" <<< "start"$'\n'"private"$'\n'"$crates" || fail "$words: no crate has this name"
  done
}

case $*: in
  :) ;;
  --check:) ;;
  *) fail "arguments not understood; its own first lines say how to call it" ;;
esac
test_groups
new=$(mktemp)
trap 'rm -f "$new"' EXIT
awk -f docs/definitions/page.awk > "$new"
if [[ $* == --check ]]; then
  cmp -s "$new" "$page" || fail "$page is stale: run docs/definitions.sh, and commit what it writes"
else
  cat "$new" > "$page"
fi
