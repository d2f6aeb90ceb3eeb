#!/usr/bin/env bash
# Proves the crates that the program stands on, builds them, and then the program: those that do not stand on each other
# side by side.
#
#   packaging/build.sh HOME LOG
#
# HOME is the top of the repository. What rt says goes to LOG, crate by crate as they end. `STREAMBOX_LANES=N` sets how many
# crates are proved at a time: else as many as there are processors, at most four, and memory for.
#
# Two rt that work in one checkout wait for each other where they stand on the same crates. So each lane but the first has a
# copy of the sources, and what one lane has built is handed to all others.
set -euo pipefail

home=$1 log=$2
out=$home/crates/streambox/out
# Where the copies are, and what rt says of the crates in progress.
lanes=
# A check takes up to so many KiB of memory, for each process that it is given.
readonly MEMORY_OF_A_LANE=3500000
# How much a crate would give way that has no chain at all, and the most that nice takes.
readonly WAY_OF_NONE=40 MOST_WAY=19

# By crate: those of this repository that it stands on; the bytes of the sources that are proved one after the other from
# it up to the program, itself among them; and how far it is: nothing yet, `runs` or `built`.
declare -A below chain state
# The crates that the program stands on, lowest first, without the program.
crates=()
# By process: its crate and its lane.
declare -A crate_of lane_of
# The folders of the lanes that are free.
free=()
started=0

say() {
  echo "streambox: $*" >&2
}

fail() {
  say "$*"
  exit 70
}

clean_up() {
  local process
  for process in "${!crate_of[@]}"; do
    kill "$process" 2> /dev/null || true
  done
  wait
  [[ -z $lanes ]] || rm -rf "$lanes"
}

# The crates below the program, a line each: the crate, and those of this repository that it lists.
listed() {
  awk -F'[: ]+' '/^[a-z]/ { name[++n] = $1; own[$1] = 1; for (i = 2; i <= NF; i++) uses[n] = uses[n] " " $i }
    END {
      need["streambox"] = 1
      for (line = n; line > 0; line--) if (need[name[line]]) {
        count = split(uses[line], all, " "); text[line] = name[line]
        for (i = 1; i <= count; i++) if (all[i] in own) { need[all[i]] = 1; text[line] = text[line] " " all[i] }
      }
      for (line = 1; line <= n; line++) if (line in text) print text[line]
    }' "$home/crates.txt"
}

read_crates() {
  local crate uses bytes place next
  while read -r crate uses; do
    crates+=("$crate") below[$crate]=$uses chain[$crate]=0
  done < <(listed)
  for ((place = ${#crates[@]} - 1; place >= 0; place--)); do
    crate=${crates[place]}
    bytes=$(find "$home/crates/$crate" -name out -prune -o -type f -printf '%s\n' | awk '{ all += $1 } END { print all + 1 }')
    chain[$crate]=$((chain[$crate] + bytes))
    for next in ${below[$crate]}; do
      ((chain[$next] >= chain[$crate])) || chain[$next]=${chain[$crate]}
    done
  done
  unset 'crates[-1]'
}

# How many checks there are processors and memory for, at most four.
count_checks() {
  local memory most
  memory=$(awk '/^MemAvailable:/ { print $2 }' /proc/meminfo 2> /dev/null || true)
  most=$(nproc 2> /dev/null || echo 1)
  ((most <= 4)) || most=4
  [[ -z $memory ]] || ((most <= memory / MEMORY_OF_A_LANE)) || most=$((memory / MEMORY_OF_A_LANE))
  echo $((most > 1 ? most : 1))
}

# How many crates are proved at a time: one more than that, since one lane is kept free for a crate that leads.
count_lanes() {
  local most
  most=${STREAMBOX_LANES-$(($(count_checks) + 1))}
  echo $((most > 1 ? most : 1))
}

# give FOLDER LANE: a lane gets a folder of a crate, by links if these can be made: rt makes such files anew and writes into
# none.
give() {
  [[ ! -e $1 ]] || { rm -rf "$2" && { cp -al "$1" "$2" 2> /dev/null || cp -a "$1" "$2"; }; }
}

# By its .git rt takes a copy for a repository. A link would be a change of a source, by its time.
make_lane() {
  local crate part
  mkdir -p "$1/.git" "$1/crates"
  awk -F: -v all=" ${crates[*]} streambox " 'index(all, " " $1 " ")' "$home/crates.txt" > "$1/crates.txt"
  [[ ! -e $home/HANDLES ]] || cp "$home/HANDLES" "$1"
  for crate in "${crates[@]}" streambox; do
    mkdir -p "$1/crates/$crate/out"
    for part in src specs proofs; do
      [[ ! -e $home/crates/$crate/$part ]] || cp -a "$home/crates/$crate/$part" "$1/crates/$crate"
    done
    give "$home/crates/$crate/out/rlib" "$1/crates/$crate/out/rlib"
  done
}

make_lanes() {
  local count=$1
  free=("$home")
  lanes=$(mktemp -d "$out/lanes.XXXXXX")
  while ((${#free[@]} < count)); do
    make_lane "$lanes/${#free[@]}"
    free+=("$lanes/${#free[@]}")
  done
}

# Whether all that a crate stands on is built.
is_ready() {
  local next
  [[ -z ${state[$1]-} ]] || return
  for next in ${below[$1]}; do
    [[ ${state[$next]-} == built ]] || return
  done
}

# The crate that may be proved now and has the longest chain, if there is one.
next_crate() {
  local crate best=
  for crate in "${crates[@]}"; do
    if is_ready "$crate" && { [[ -z $best ]] || ((chain[$crate] > chain[$best])); }; then best=$crate; fi
  done
  [[ -n $best ]] && echo "$best"
}

# way_of CRATE: how much it gives way to others, in steps of nice: not at all if no crate that is not built has a chain that
# is longer by more than a tenth, and the more the shorter its own chain is.
way_of() {
  local crate longest=0 way
  for crate in "${crates[@]}"; do
    [[ ${state[$crate]-} == built ]] || ((chain[$crate] <= longest)) || longest=${chain[$crate]}
  done
  way=$((WAY_OF_NONE * (longest - chain[$1]) / longest))
  ((way > WAY_OF_NONE / 10)) || way=0
  echo $((way < MOST_WAY ? way : MOST_WAY))
}

# Whether a crate gives way to none.
leads() {
  (($(way_of "$1") == 0))
}

# begin CRATE LANE: each crate may take all processors, and gives way to those that lead. By itself rt would give a large
# crate few processes, since it reckons with more memory than a check takes.
begin() {
  local call=(nice -n "$(way_of "$1")" rt lib --jobs "$(count_checks)")
  started=$((started + 1))
  say "$started of $((${#crates[@]} + 1)): $1"
  (cd "$2/crates/$1" && exec "${call[@]}") < /dev/null > "$lanes/$1.log" 2>&1 &
  crate_of[$!]=$1 lane_of[$!]=$2 state[$1]=runs
}

fail_at() {
  tail -n 20 "$log" >&2
  fail "$1 is not proved or not built; log: $log"
}

# Hands what was built in a lane to all others.
hand_out() {
  local crate=$1 from=$2 lane part
  for lane in "$home" "$lanes"/[0-9]*; do
    [[ $lane != "$from" && -d $lane ]] || continue
    mkdir -p "$lane/crates/$crate/out"
    give "$from/crates/$crate/out/rlib" "$lane/crates/$crate/out/rlib"
    [[ $lane != "$home" ]] || give "$from/crates/$crate/out/incremental" "$lane/crates/$crate/out/incremental"
  done
}

# Waits until one ends.
end_one() {
  local process=0 status=0 crate lane
  wait -n -p process "${!crate_of[@]}" || status=$?
  crate=${crate_of[$process]} lane=${lane_of[$process]}
  unset "crate_of[$process]" "lane_of[$process]"
  cat "$lanes/$crate.log" >> "$log"
  ((status == 0)) || fail_at "$crate"
  hand_out "$crate" "$lane"
  [[ $lane == "$home" ]] || rm -rf "$lane/crates/$crate/out/incremental"
  state[$crate]=built
  free=("$lane" "${free[@]}")
}

# The last lane is for a crate that leads. If none runs, the next crate is one.
prove_crates() {
  local crate
  while :; do
    while ((${#free[@]})) && crate=$(next_crate); do
      ((${#free[@]} > 1)) || leads "$crate" || break
      begin "$crate" "${free[0]}"
      free=("${free[@]:1}")
    done
    ((${#crate_of[@]})) || return 0
    end_one
  done
}

# A program is built by running it.
build_program() {
  local status=0
  say "$((${#crates[@]} + 1)) of $((${#crates[@]} + 1)): streambox"
  (cd "$home/crates/streambox" && exec rt run -- sum 1) < /dev/null >> "$log" 2>&1 &
  crate_of[$!]=streambox
  wait $! || status=$?
  crate_of=()
  ((status == 0)) || fail_at streambox
}

trap clean_up EXIT
trap 'exit 143' TERM
trap 'exit 130' INT
trap 'exit 129' HUP
read_crates
make_lanes "$(count_lanes)"
prove_crates
rm -rf "$lanes"
lanes=
build_program
