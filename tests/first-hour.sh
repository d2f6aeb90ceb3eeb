#!/usr/bin/env bash
# Does in a fresh directory, without the kit on the path, what the first screen of README.md says, and compares what is
# printed. STREAMBOX names the program by an absolute path: it is used in the place of release/streambox if there is none.
#
#   tests/first-hour.sh [README]
#
# The commands are those of the first code block after a line <!-- first hour: commands -->, and what they print is the
# first one after a line <!-- first hour: prints -->. A block is indented by four blanks or stands between lines of ```.
# They are run by bash in a copy of the files that git has, or of all files if git is not there, and may take 60 seconds.
# On standard error they may say that the release is of other sources, if it is, and nothing else.
set -euo pipefail
home=$(cd "$(dirname "$0")/.." && pwd)
readme=$(readlink -f "${1:-$home/README.md}")
program=${STREAMBOX-}
unset STREAMBOX STREAMBOX_PLAIN STREAMBOX_PROGRAM
scratch=$(mktemp -d)
trap 'rm -rf "$scratch"' EXIT

fail() {
  echo "tests/first-hour.sh: $1"
  echo '0 passed, 1 failed'
  exit 1
}

# block NAME: the code block after that mark.
block() {
  awk -v mark="<!-- first hour: $1 -->" '
    $0 == mark { is_near = 1; next }
    !is_near { next }
    /^```/ { if (is_in) exit; is_in = 1; is_fenced = 1; next }
    is_fenced { print; next }
    /^    / { is_in = 1; print substr($0, 5); next }
    is_in { exit }' "$readme"
}

copy_tree() {
  mkdir "$scratch/tree"
  if git -C "$home" rev-parse 2> /dev/null; then
    git -C "$home" ls-files -z | tar -C "$home" --null -T - -c | tar -C "$scratch/tree" -x
  else
    tar -C "$home" --exclude=out -c . | tar -C "$scratch/tree" -x
  fi
  if [ ! -e "$scratch/tree/release/streambox" ]; then
    [ -n "$program" ] || fail 'release/ has no program, and STREAMBOX names none'
    echo 'release/ has no program: the one of STREAMBOX is taken'
    cp "$program" "$scratch/tree/release/streambox"
    echo "sources $("$scratch/tree/release/digest.sh")" > "$scratch/tree/release/about.txt"
  fi
}

# The path without the directories that have rt.
path_without_kit() {
  local directory path=
  while IFS= read -r -d : directory; do
    [ -x "$directory/rt" ] || path+=${path:+:}$directory
  done <<< "$PATH:"
  echo "$path"
}

block commands > "$scratch/commands"
block prints > "$scratch/wanted"
[ -s "$scratch/commands" ] || fail "$readme has no commands that are marked <!-- first hour: commands -->"
[ -s "$scratch/wanted" ] || fail "$readme has nothing that is marked <!-- first hour: prints -->"
copy_tree
cd "$scratch/tree"
PATH=$(path_without_kit)
! command -v rt > /dev/null || fail 'the kit is on the path'
begin=$(date +%s%N)
timeout 60 bash -euo pipefail "$scratch/commands" > "$scratch/printed" 2> "$scratch/said" < /dev/null || {
  cat "$scratch/said"
  fail "exit code $?"
}
took=$((($(date +%s%N) - begin) / 1000000))
diff "$scratch/wanted" "$scratch/printed" || fail 'the commands print something else'
other=''
[ "$(sed -n 's/^sources //p' release/about.txt)" = "$(release/digest.sh)" ] ||
  other='streambox: the program of release/ is of other sources than these'
said=$(cat "$scratch/said")
[[ -z $said || -n $other && $said == "$other"* && $said != *$'\n'* ]] || fail "the commands say $said"
echo "the first screen of ${readme##*/}: as printed, in $took ms"
