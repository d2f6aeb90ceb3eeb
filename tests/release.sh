#!/usr/bin/env bash
# Tries release/make.sh, release/check.sh and release/digest.sh over a tree of its own, with an rt that only says its
# version, and with a program that is there on each machine in the place of the one that a gate builds.
set -euo pipefail
home=$(cd "$(dirname "$0")/.." && pwd)
scratch=$(mktemp -d)
trap 'rm -rf "$scratch"' EXIT
if ! command -v strip > /dev/null; then echo 'no release is tried: strip is not here'; exit; fi
mkdir -p "$scratch"/{bin,tree/release,tree/crates/streambox/{src,out}}
cd "$scratch/tree"
cp "$home"/release/*.sh release
cp "$home/VERSION" .
echo 'fn main() {}' > crates/streambox/src/main.rt
echo 'streambox:' > crates.txt
cp "$(type -P true)" crates/streambox/out/streambox
cp "$(type -P false)" "$scratch/other"
kit_of_this_test() {
  printf '#!/bin/sh\necho %s logic 7\n' "$1" > "$scratch/bin/rt"
}

kit_of_this_test a-kit
chmod +x "$scratch/bin/rt"
PATH=$scratch/bin:$PATH
built=crates/streambox/out/streambox
tried=0

fail() {
  echo "tests/release.sh: $1"
  echo '0 passed, 1 failed'
  exit 1
}

# tells STATUS LAST COMMAND..: the command ends so, and this is its last line.
tells() {
  local wanted=$1 last=$2 status=0
  shift 2
  "$@" > "$scratch/said" 2>&1 || status=$?
  [ "$status" = "$wanted" ] || fail "$*: exit code $status, $(cat "$scratch/said")"
  # shellcheck disable=SC2053 # a pattern
  [[ $(tail -n 1 "$scratch/said") == $last ]] || fail "$*: says $(cat "$scratch/said")"
  tried=$((tried + 1))
}

# In the digest is each file of the sources, by name and bytes, and nothing of out.
check_digest() {
  local first
  first=$(release/digest.sh)
  echo more > crates/streambox/out/log
  tells 0 "$first" release/digest.sh
  tells 0 "$first" release/digest.sh "$PWD"
  mv crates/streambox/src/main.rt crates/streambox/src/other.rt
  [ "$(release/digest.sh)" != "$first" ] || fail 'another name, and the same digest'
  mv crates/streambox/src/other.rt crates/streambox/src/main.rt
  echo >> crates.txt
  [ "$(release/digest.sh)" != "$first" ] || fail 'another list, and the same digest'
  echo 'streambox:' > crates.txt
  tells 0 "$first" release/digest.sh
}

check_make() {
  tells 1 'release/make.sh: call it as: *' release/make.sh .
  echo '7 passed, 1 failed' > log
  tells 1 'release/make.sh: the gate did not pass: 7 passed, 1 failed' release/make.sh . log
  echo 'rt: it ends' > log
  tells 1 'release/make.sh: the gate did not pass: no line *' release/make.sh . log
  printf '%s\n' '8 passed, 0 failed' 'and examples' > log
  touch -d '1 hour ago' $built
  tells 1 'release/make.sh: newer than the program: *' release/make.sh . log
  touch $built
  [ ! -e release/streambox ] || fail 'makes a release of a gate that failed'
  tells 0 'builds untried' release/make.sh . log
  tells 0 'builds different' release/make.sh . log "$scratch/other"
  tells 0 'builds same' release/make.sh . log $built
  [ "$(sed -n '/^kit/p; /^gate/p; /^release/p' release/about.txt)" = $'kit a-kit logic 7\nrelease yes\ngate 8 passed, 0 failed' ] ||
    fail "about.txt: $(cat release/about.txt)"
  release/streambox || fail 'the program does not run'
}

check_check() {
  tells 0 'release: the program that was built, byte for byte' release/check.sh $built
  tells 1 '0 passed, 1 failed' release/check.sh "$scratch/other"
  kit_of_this_test b-kit
  tells 0 'release: by another kit than the one at hand; not compared' release/check.sh "$scratch/other"
  kit_of_this_test a-kit
  tells 0 'release: whole' release/check.sh
  echo >> crates.txt
  tells 0 'release: of other sources than these; not compared' release/check.sh "$scratch/other"
  echo 'streambox:' > crates.txt
  sed -i 's/^builds same/builds different/' release/about.txt
  tells 0 'release: of these sources; not compared, since two builds are different' release/check.sh "$scratch/other"
  echo >> release/streambox
  tells 1 '0 passed, 1 failed' release/check.sh $built
  tells 1 '0 passed, 1 failed' release/check.sh
  rm release/about.txt
  tells 1 '0 passed, 1 failed' release/check.sh $built
  rm release/streambox
  tells 0 'release: there is none' release/check.sh $built
}

check_digest
check_make
check_check
echo "$tried of the release: as expected"
