#!/usr/bin/env bash
# Tries make install and uninstall, and the Debian package if dpkg is here: what is installed runs from where it is, and
# nothing is left. It takes the program that STREAMBOX names by an absolute path, or one of its own.
set -euo pipefail
home=$(cd "$(dirname "$0")/.." && pwd)
scratch=$(mktemp -d)
trap 'rm -rf "$scratch"' EXIT
cd "$scratch"
unset STREAMBOX_PROGRAM STREAMBOX_PLAIN
program=${STREAMBOX-}
if [ -z "$program" ]; then
  program=$scratch/program
  # It gives the rows of this one test, and refuses lines that begin with x.
  cat > program << 'PROGRAM'
#!/bin/sh
if grep -q ^x; then echo 'line 1: malformed' >&2; exit 3; fi
[ "$*" = 'sum 10' ] || { echo 'words not understood' >&2; exit 1; }
printf '%s\n' 10,1,7 20,1,4
PROGRAM
  chmod +x program
fi
tried=0

fail() {
  echo "tests/package.sh: $1"
  echo '0 passed, 1 failed'
  exit 1
}

# gives WANTED COMMAND..: the command, on the input of the quick start, prints and says this.
gives() {
  local wanted=$1 said
  shift
  said=$(printf '%s\n' r,a,3,1,5 r,a,7,1,2 r,a,12,1,4 | "$@" 2>&1) || true
  [ "$said" = "$wanted" ] || fail "$*: says $said"
  tried=$((tried + 1))
}

# runs BIN: everything that is installed there runs.
runs() {
  local bin=$1 tool
  gives $'10,1,7\n20,1,4' "$bin/streambox" sum 10
  ln -sf "$bin/streambox" link
  gives $'10,1,7\n20,1,4' ./link sum 10
  PATH=$bin:$PATH gives $'10,1,7\n20,1,4' streambox sum 10
  gives 'words not understood
hint: SIZE has a leading zero: write 10
hint: the form is: streambox sum SIZE [OPTIONS] < INPUT' "$bin/streambox" sum 010
  echo x > input
  [[ $("$bin/streambox" sum 10 < input 2>&1) == $'line 1: malformed\nhint: line 1: it begins with none of'* ]] ||
    fail 'no hint of why'
  for tool in records rows why chart step; do
    [ -x "$bin/streambox-$tool" ] || fail "no streambox-$tool"
  done
  gives $'r,a,1,0,1\nr,a,2,0,1' sh -c "printf '1\n2\n' | $bin/streambox-records -t 1"
  gives '1970-01-01T00:00:10Z,1,7' sh -c "echo 10,1,7 | $bin/streambox-rows"
  gives 'nothing is wrong with its lines' "$bin/streambox-why"
  [[ $("$bin/streambox-chart" -h) == *chart* ]] || fail 'chart -h'
  [ "$("$bin/streambox" --version | sed -n 1p)" = "streambox $(cat "$home/VERSION")" ] || fail '--version'
  [[ $("$bin/streambox" --help run) == 'streambox run PLAN'* ]] || fail '--help run'
  tried=$((tried + 4))
}

check_install() {
  local root=$scratch/installed/opt/box
  make -s -C "$home" install PROGRAM="$program" DESTDIR="$scratch/installed" PREFIX=/opt/box
  runs "$root/bin"
  for file in share/man/man1/streambox.1 share/bash-completion/completions/streambox share/zsh/site-functions/_streambox \
    share/fish/vendor_completions.d/streambox.fish share/doc/streambox/PLANS.md; do
    [ -s "$root/$file" ] || fail "no $file"
  done
  make -s -C "$home" uninstall DESTDIR="$scratch/installed" PREFIX=/opt/box
  [ -z "$(find "$scratch/installed" ! -type d)" ] || fail "uninstall leaves $(find "$scratch/installed" ! -type d)"
  ! make -s -C "$home" install PROGRAM= DESTDIR="$scratch/none" 2> notes || fail 'installs no program'
  tried=$((tried + 3))
}

check_package() {
  local package
  package=$(PROGRAM=$program "$home/packaging/deb.sh" "$scratch")
  dpkg-deb -x "$package" unpacked
  runs "$scratch/unpacked/usr/bin"
  # dpkg itself takes it, over a system that has nothing else.
  if [ "$(id -u)" = 0 ]; then
    mkdir -p root admin/{info,updates}
    touch admin/{status,available}
    dpkg --admindir="$scratch/admin" --instdir="$scratch/root" --force-depends --log=/dev/null -i "$package" > log 2>&1 ||
      fail "dpkg -i: $(cat log)"
    runs "$scratch/root/usr/bin"
    dpkg --admindir="$scratch/admin" --instdir="$scratch/root" --log=/dev/null -r streambox > log 2>&1 || fail "dpkg -r: $(cat log)"
    [ -z "$(find root -name '*streambox*' ! -type d)" ] || fail 'dpkg -r leaves files'
  fi
}

check_install
if command -v dpkg-deb > /dev/null; then check_package; else echo 'no package is made: dpkg is not here'; fi
echo "$tried of the installed command: as expected"
