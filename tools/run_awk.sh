# shellcheck shell=sh disable=SC2154
# What the tools share: read by `.` from a script that has set `tool`, its name, and `here`, its directory.

# Prints the head of the script.
usage() { sed -n '2,/^$/s/^# \{0,1\}//p' "$0"; }

case ${1-} in --help) usage; exit 0 ;; esac

# Ends: says what is wrong. `records` says it first to the program, which refuses such a line.
fail() {
  [ "$tool" != records ] || echo "$tool: $1"
  echo "$tool: $1" >&2
  exit 2
}

# Ends: the arguments are wrong.
wrong() { fail "$1; $tool -h says more"; }

# Ends: an option is none of the head's, as getopts has said.
wrong_option() {
  [ "$tool" != records ] || echo "$tool: an option is wrong"
  usage >&2
  exit 2
}

# Ends if there is nothing to read.
need_input() {
  [ -e /dev/stdin ] || fail "standard input is closed"
  [ ! -d /dev/stdin ] || fail "the input is a directory: name a file after <"
}

# need_dictionary FILE: ends if there is a dictionary and it is no file that may be read.
need_dictionary() {
  [ -n "$1" ] && [ -e "$1" ] || return 0
  [ ! -d "$1" ] || fail "the dictionary is a directory: $1"
  [ -r "$1" ] || fail "the dictionary can't be read: $1"
}

# need_dictionary_to_write FILE: the same, and it may be written, and ends with a line.
need_dictionary_to_write() {
  need_dictionary "$1"
  [ -n "$1" ] && [ -e "$1" ] || return 0
  [ -w "$1" ] || fail "the dictionary can't be written: $1"
  [ -z "$(tail -c 1 "$1")" ] || fail "the last line of the dictionary has no end: take it out, or end it: $1"
}

# Ends awk after a signal. Who sent it knows: nothing is said of it on standard error.
stop_child() {
  exec 2> /dev/null
  [ -z "$child" ] || kill "$child"
}

# Runs the awk program that the arguments name on standard input, or on what the command in `feed` makes of it, and
# ends as it does: with 0 or 3, or with 2 if it ended by 10, after it has said why. If awk itself fails, this is said.
# If the input is no file, `live` is 1, so that each line is printed at once, and mawk is told to take each line as it
# comes.
run_awk() {
  awk=${AWK:-awk} live=0 signal='' child=''
  if [ ! -f /dev/stdin ]; then
    live=1
    # shellcheck disable=SC2086 # AWK may be several words, as in AWK='busybox awk'.
    case $($awk -W version 2> /dev/null < /dev/null) in mawk*) awk="$awk -W interactive" ;; esac
  fi
  trap 'signal=129; stop_child' HUP
  trap 'signal=130; stop_child' INT
  trap 'signal=143; stop_child' TERM
  # The shell would give /dev/null to what runs in the background.
  exec 3<&0 < /dev/null
  # shellcheck disable=SC2086
  if [ -z "${feed:-}" ]; then
    $awk -v live="$live" "$@" <&3 3<&- &
  else
    $feed <&3 3<&- | $awk -v live="$live" "$@" 3<&- &
  fi
  child=$! status=0
  exec 3<&-
  [ -z "$signal" ] || stop_child
  wait "$child" || status=$?
  if [ -n "$signal" ]; then
    wait "$child" || :
    [ "$tool" != records ] || echo "$tool: ended by a signal"
    exit "$signal"
  fi
  case $status in
    0 | 3) exit "$status" ;;
    10) exit 2 ;;
    # Who reads the output has ended or, of `records`, perhaps who reads standard error.
    141) [ "$tool" = records ] || exit 141 ;;
  esac
  fail "${AWK:-awk} failed, with exit code $status: the output is not whole"
}
