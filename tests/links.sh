#!/usr/bin/env bash
# Tests that each link of the .md files of this repository leads somewhere: a relative path to a file or a directory, and
# an anchor to a heading. It prints each that does not, with its file and line, and then how many there were. Links to
# other hosts are not tried.
#
#   tests/links.sh [DIRECTORY]      the .md files below DIRECTORY, else those of this repository
set -euo pipefail
export LC_ALL=C
cd "${1:-$(dirname "$0")/..}"

# The .md files, without those of git, of what was built, and of docs/definitions, which are parts of a page.
pages() {
  find . \( -name .git -o -name out -o -path ./docs/definitions \) -prune -o -name '*.md' -print | sort
}

# read_pages anchors|links: the anchors of the headings, a line FILE#ANCHOR each, or the links, a line FILE:LINE TARGET
# each. Lines between fences are code, and so is what stands between backquotes.
read_pages() {
  # shellcheck disable=SC2016 # The signs are those of awk.
  pages | tr '\n' '\0' | xargs -0 awk -v what="$1" '
    FNR == 1 { fenced = 0 }
    /^ *```/ { fenced = !fenced; next }
    fenced { next }
    # As hosts name a heading: in small letters, without signs, with hyphens for blanks; the second of a name has -1.
    what == "anchors" && /^##* / {
      sub(/^#* /, "")
      gsub(/\]\([^)]*\)/, "")
      name = tolower($0)
      gsub(/[^a-z0-9 _\200-\377-]/, "", name)
      gsub(/ /, "-", name)
      at = FILENAME "#" name
      print at (at in times ? "-" times[at] : "")
      times[at]++
    }
    what == "links" {
      gsub(/`[^`]*`/, "")
      while (match($0, /\]\([^) ]*[) ]/)) {
        print FILENAME ":" FNR " " substr($0, RSTART + 2, RLENGTH - 3)
        $0 = substr($0, RSTART + RLENGTH)
      }
    }'
}

# The file that a target names, from the page that has it.
file_of() {
  local page=$1 target=${2%%#*}
  if [[ -z $target ]]; then echo "$page"; else echo "${page%/*}/$target"; fi
}

# The same path without `.` and `..` inside it.
plain() {
  realpath -s --relative-to=. -- "$1"
}

# fault_of PAGE TARGET: says what is wrong with it, if anything is.
fault_of() {
  local file
  file=$(file_of "$1" "$2")
  if [[ ! -e $file ]]; then
    echo 'no such file'
  elif [[ $2 == *'#'* ]]; then
    grep -qxF "./$(plain "$file")#${2#*#}" "$scratch/anchors" || echo 'no such heading'
  fi
}

scratch=$(mktemp -d)
trap 'rm -rf "$scratch"' EXIT
read_pages anchors > "$scratch/anchors"
read_pages links > "$scratch/links"
count=0 faults=0
while read -r place target; do
  [[ ! $target =~ ^[a-z]+: ]] || continue
  count=$((count + 1))
  fault=$(fault_of "${place%:*}" "$target")
  [[ -n $fault ]] || continue
  echo "${place#./}: $target: $fault"
  faults=$((faults + 1))
done < "$scratch/links"
echo "$count links, $faults lead nowhere"
[[ $count -gt 0 && $faults == 0 ]]
