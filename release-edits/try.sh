#!/usr/bin/env bash
# Tries the edits that stand here: wrong bodies that the prover must refuse. It makes a copy of the crates as they stand in
# this checkout, with these edits in place of those that the gate tries, and removes it at the end. The words name crates;
# without words all crates that have edits here are tried. What was proved in this checkout is used and stays as it is. It
# ends with 0 if each edit is refused.
#
#   release-edits/try.sh sb_join sb_session
set -euo pipefail
cd "$(dirname "$0")/.."
names=("$@")
if [ $# = 0 ]; then
  for folder in release-edits/*/; do names+=("$(basename "$folder")"); done
fi
for name in "${names[@]}"; do
  [ -d "release-edits/$name" ] || { echo "$name: no edits in release-edits" >&2 && exit 1; }
done
copy=$(mktemp -d)
trap 'rm -rf "$copy"' EXIT

# copy_part FILE FOLDER: of what is proved links will do, since rt makes such files anew and writes into none.
copy_part() {
  case ${1##*/} in
    must-fail) ;;
    out) cp -al "$1" "$2" 2> /dev/null || cp -a "$1" "$2" ;;
    *) cp -a "$1" "$2" ;;
  esac
}

# By its .git rt takes the copy for a repository.
mkdir "$copy/.git" "$copy/crates"
cp crates.txt HANDLES "$copy"
for crate in crates/*; do
  mkdir "$copy/$crate"
  for part in "$crate"/*; do copy_part "$part" "$copy/$crate"; done
  edits=release-edits/${crate##*/}
  [ ! -d "$edits" ] || cp -a "$edits" "$copy/$crate/must-fail"
done
cd "$copy"
rt must-fail "${names[@]}"
