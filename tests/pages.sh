#!/usr/bin/env bash
# Tests the tests of the pages: in a copy of the documents and definitions, tests/links.sh and docs/definitions.sh --check
# find nothing, and find each fault that is made there. And README.md has at most 900 words.
#
#   tests/pages.sh
# shellcheck disable=SC2016 # Backquotes are those of pages.
set -euo pipefail
cd "$(dirname "$0")/.."
scratch=$(mktemp -d)
trap 'rm -rf "$scratch"' EXIT
cases=0

fail() {
  echo "tests/pages.sh: $*" >&2
  exit 1
}

# fresh: an unharmed copy in $scratch/copy.
fresh() {
  rm -rf "$scratch/copy"
  mkdir "$scratch/copy"
  cp -r docs "$scratch/copy"
  find crates -path '*/specs/*.antt' | tar -cf - -T - | tar -xf - -C "$scratch/copy"
}

# finds WANTED COMMAND..: in the copy the command fails and says WANTED.
finds() {
  local wanted=$1 said status=0
  shift
  said=$(cd "$scratch/copy" && "$@" 2>&1) || status=$?
  [[ $status == 1 ]] || fail "$wanted: exit code $status"
  [[ $said == *"$wanted"* ]] || fail "$wanted: says $said"
  cases=$((cases + 1))
  fresh
}

check_definitions() {
  local copy=$scratch/copy call=(docs/definitions.sh --check)
  fresh
  (cd "$copy" && "${call[@]}") || fail 'a fresh copy'
  sed -i 's/^-- by time, then key.*/-- by key/' "$copy/crates/sb_record/specs/Records.antt"
  finds 'is stale' "${call[@]}"
  echo >> "$copy/docs/DEFINITIONS.md"
  finds 'is stale' "${call[@]}"
  sed -i '/^sb_record /d' "$copy/docs/definitions/groups.txt"
  finds 'groups.txt' "${call[@]}"
  echo 'sb_record Once more' >> "$copy/docs/definitions/groups.txt"
  finds 'groups.txt' "${call[@]}"
  echo 'sb_record/Records gone' >> "$copy/docs/definitions/first.txt"
  finds 'Records.antt does not define gone' "${call[@]}"
  echo sb_record/Gone >> "$copy/docs/definitions/private.txt"
  finds 'Gone.antt' "${call[@]}"
  echo Words > "$copy/docs/definitions/sb_gone.md"
  finds 'no crate has this name' "${call[@]}"
  finds 'arguments not understood' docs/definitions.sh --chek
}

# links_find TEXT WANTED: a page with this text has a link that leads nowhere.
links_find() {
  echo "$1" > "$scratch/pages/one.md"
  local said status=0
  said=$(tests/links.sh "$scratch/pages") || status=$?
  [[ $status == 1 && $said == *"$2"* ]] || fail "$1: exit code $status, $said"
  cases=$((cases + 1))
}

check_links() {
  mkdir -p "$scratch/pages/deep"
  printf '# One `x`: and Two!\n\n## Twice\n\n## Twice\n\n```\n# code\n[c](code)\n```\n' > "$scratch/pages/deep/two.md"
  echo '[a](deep/two.md#one-x-and-two), [b](deep/two.md#twice-1) `[no](link)` [c](https://h/#x) [d](deep) [e](deep/)' \
    > "$scratch/pages/one.md"
  [[ $(tests/links.sh "$scratch/pages") == '4 links, 0 lead nowhere' ]] || fail 'links that lead somewhere'
  cases=$((cases + 1))
  links_find '[a](gone.md)' 'one.md:1: gone.md: no such file'
  links_find '[a](two.md)' 'no such file'
  links_find '[a](deep/two.md#code)' 'no such heading'
  links_find '[a](deep/two.md#twice-2)' 'no such heading'
  links_find '[a](#here)' 'no such heading'
  links_find '[a](deep) [b](deep/two.md#Twice)' '2 links, 1 lead nowhere'
  links_find 'no link' '0 links'
}

[[ $(wc -w < README.md) -le 900 ]] || fail 'README.md has more than 900 words'
check_definitions
check_links
echo "$cases faults of pages and links: as expected"
