#!/usr/bin/env bash
# Tries the start script ../streambox over a tree of crates and an rt that proves nothing: what it says and keeps in its
# log, when it calls rt, which program it runs, and that nothing is left behind if a crate fails or the script is ended.
set -euo pipefail
home=$(cd "$(dirname "$0")/.." && pwd)
script=$home/streambox
tree=$(mktemp -d)
trap 'rm -rf "$tree"' EXIT
out=$tree/crates/streambox/out
cd "$tree"
unset STREAMBOX_PLAIN STREAMBOX_PROGRAM
mkdir -p bin release crates/{low,left,beside,streambox}/src
cp "$script" "$home/VERSION" .
cp -r "$home/packaging" .
cp "$home"/release/*.sh release
touch crates/{low,left,beside,streambox}/src/lib.rt
printf '%s\n' low: 'left: low itoa' 'beside: left' 'streambox: left low' > crates.txt
# In the place of rt: BAD is a crate that it does not build, WAIT one at which it goes on for a minute. MEET are two crates
# each of which it builds once it has begun with the other, too.
cat > bin/rt << 'RT'
#!/usr/bin/env bash
crate=${PWD##*/}
echo "$1" >> "$CALLS"
[ "$1" != version ] || { echo kit-of-this-test; exit; }
if [ "$1" = try ]; then
  echo 10,1,7
  printf '%s\n' 'interpreter x' 'line 4: malformed' 'races: not looked for' 'checked: ended' 'run=ended status=3 more' >&2
  exit 1
fi
echo "about $crate"
if [ "$crate" = "${WAIT-}" ]; then
  echo $$ > "$CALLS.waits"
  exec sleep 60
fi
if [[ " ${MEET-} " == *" $crate "* ]]; then
  touch "$CALLS.begun.$crate"
  for other in $MEET; do
    for ((looks = 0; looks < 100; looks++)); do
      [ ! -e "$CALLS.begun.$other" ] || break
      sleep 0.1
    done
    [ -e "$CALLS.begun.$other" ] || exit 1
  done
fi
[ "$crate" != "${BAD-}" ] || exit 1
mkdir -p out/rlib
echo "$PWD" > out/rlib/from
if [ "$1" = run ]; then
  printf '#!/bin/sh\necho "program $*"\n' > out/streambox
  chmod +x out/streambox
fi
RT
chmod +x bin/rt
export PATH=$tree/bin:$PATH CALLS=$tree/calls
tried=0

fail() {
  echo "$script: $1"
  cat "$tree/note"
  exit 1
}

# starts STATUS NOTE CALLS WORD..: the script ends so, its note ends so, and it has called rt so.
starts() {
  local wanted=$1 note=$2 calls=$3 status=0
  shift 3
  : > "$CALLS"
  ./streambox "$@" > rows 2> note < /dev/null || status=$?
  [ "$status" = "$wanted" ] || fail "$*: exit code $status"
  [[ $(cat note) == *"$note" ]] || fail "$*: says something else"
  [ "$(tr '\n' ' ' < "$CALLS")" = "$calls" ] || fail "$*: calls rt: $(cat "$CALLS")"
  tried=$((tried + 1))
}

# leaves FILES: nothing else is in the folder of the program, and the rt that waited is gone.
leaves() {
  [ "$(cd "$out" && echo ./*)" = "$1" ] || fail "leaves $(ls "$out")"
  [ ! -e "$CALLS.waits" ] || ! kill -0 "$(cat "$CALLS.waits")" 2> /dev/null || fail 'leaves rt behind'
  rm -f "$CALLS.waits"
}

# prints TEXT: the last start printed this.
prints() {
  [ "$(cat rows)" = "$1" ] || fail "prints $(cat rows)"
}

# What starts no build, and calls no rt.
check_slips() {
  local try sum='hint: the form is: streambox sum SIZE [OPTIONS] < INPUT'
  for try in '' --try; do
    # shellcheck disable=SC2086 # one word or none
    {
      starts 1 'hint: streambox --help lists the commands' '' $try
      starts 1 "hint: SIZE has a leading zero: write 10"$'\n'"$sum" '' $try sum 010
      starts 1 "hint: there is no command \"smu\": do you mean sum?"$'\n'"$sum" '' $try smu 10
      starts 6 "hint: the plan no-plan: there is no such file; you are in $tree" '' $try run no-plan
      starts 6 "hint: the plan no-plan: there is no such file; you are in $tree" '' $try feeds no-plan a b --workers 2
      starts 6 "hint: the checkpoint no-cut: there is no such file; you are in $tree" '' $try resume crates.txt no-cut
      STREAMBOX_PLAIN=1 starts 1 'words not understood' '' $try watch plan
    }
  done
  starts 1 'hint: the form is: streambox check PLAN' '' check
  starts 6 "hint: the plan no-plan: there is no such file; you are in $tree" '' check no-plan
  starts 1 'hint: --try takes the commands of the program, and check is none' '' --try check crates.txt
  starts 0 '' '' --help
  cmp rows packaging/help/script.txt || fail '--help: another page'
  starts 0 '' '' --help sum
  cmp rows packaging/help/sum.txt || fail '--help sum: another page'
  starts 0 '' '' run --help
  starts 0 '' '' --version
  prints "streambox $(cat VERSION), not built; ./streambox --build proves and builds it"
}

# What rt says itself when it tries the program is left out.
check_try() {
  starts 3 $'in about half a minute\nline 4: malformed' 'try ' --try sum 10
  prints 10,1,7
}

# If there is no program and no release, a command builds one.
check_build() {
  BAD=left starts 70 "about low
about left
streambox: left is not proved or not built; log: $out/build.log" 'version lib lib ' sum 10
  leaves ./build.log
  WAIT=left ./streambox sum 10 > rows 2> note < /dev/null &
  while [ ! -s "$CALLS.waits" ]; do sleep 0.1; done
  kill $!
  wait $! || true
  leaves ./build.log
  starts 0 'streambox: 1 of 3: low
streambox: 2 of 3: left
streambox: 3 of 3: streambox' 'version lib lib run ' sum 10
  leaves './build.log ./proved ./rlib ./streambox'
  prints 'program sum 10'
  printf 'about %s\n' low left streambox | cmp - "$out/build.log" || fail 'another log'
  starts 0 '' '' sum 010
  starts 0 '' '' --version
  [[ $(cat rows) == "streambox $(cat VERSION)"*$'\nkit kit-of-this-test\nrelease no' ]] || fail "--version: $(cat rows)"
}

# Crates that do not stand on each other are built side by side, and what is built in a copy comes home.
check_side_by_side() {
  local crates
  crates=$(cat crates.txt)
  printf '%s\n' low: 'left: low itoa' 'beside: low' 'streambox: left beside' > crates.txt
  rm -rf "$out" crates/*/out
  STREAMBOX_LANES=1 MEET='left beside' starts 70 'is not proved or not built; log: '"$out/build.log" 'version lib lib ' --build
  rm -f "$CALLS".begun.*
  STREAMBOX_LANES=3 MEET='left beside' starts 0 '4 of 4: streambox' 'version lib lib lib run ' --build
  leaves './build.log ./proved ./rlib ./streambox'
  [ "$(cat crates/{low,left,beside}/out/rlib/from | grep -c "^$tree/crates/[a-z]*$")" = 2 ] || fail 'built elsewhere'
  rm -rf "$out" crates/*/out
  printf '%s\n' "$crates" > crates.txt
}

# If a source changed, the program that was built runs until --build is called, and it is said once.
check_changed() {
  echo '// changed' >> crates/low/src/lib.rt
  starts 0 '' '' --version
  starts 0 'streambox: the sources changed after the program was built; ./streambox --build proves and builds these' '' sum 10
  prints 'program sum 10'
  starts 0 '' '' sum 10
  [ ! -s note ] || fail 'says it twice'
  starts 1 'hint: the form is: ./streambox --build' '' --build low
  starts 0 '3 of 3: streambox' 'version lib lib run ' --build
  starts 0 '' '' sum 10
  [ ! -s note ] || fail 'says that the sources changed'
}

# A release runs if nothing was built of these sources. Of others it is said once for each state of the sources.
check_release() {
  local other='streambox: the program of release/ is of other sources than these; ./streambox --build proves and builds these'
  printf '#!/bin/sh\necho "release $*"\n' > release/streambox
  chmod +x release/streambox
  printf '%s\n' 'version 7' 'commit c' 'kit k' 'release yes' "sources $(release/digest.sh)" > release/about.txt
  starts 0 '' '' sum 10
  prints 'program sum 10'
  touch crates/left/src/lib.rt
  starts 0 '' '' sum 10
  prints 'release sum 10'
  rm -r "$out"
  starts 0 '' '' sum 10
  [ ! -s note ] || fail 'says something of a release of these sources'
  prints 'release sum 10'
  starts 0 '' '' --version
  prints $'streambox 7\ncommit c\nkit k\nrelease yes'
  echo '// changed again' >> crates/low/src/lib.rt
  starts 0 "$other" '' sum 10
  prints 'release sum 10'
  starts 0 '' '' sum 10
  [ ! -s note ] || fail 'says it twice'
  echo '// and again' >> crates/low/src/lib.rt
  starts 0 "$other" '' sum 10
  starts 0 '3 of 3: streambox' 'version lib lib run ' --build
  starts 0 '' '' sum 10
  prints 'program sum 10'
}

check_slips
check_try
check_side_by_side
check_build
check_changed
check_release
echo "$((tried + 1)) starts: as expected"
