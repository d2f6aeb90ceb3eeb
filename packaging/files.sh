#!/bin/sh
# Says which file that a command names can't be loaded, and why: the first one, in the order plan, tables, other files.
#
#   files.sh COMMAND ARGUMENT..
#
# The arguments have to be understood. Prints hints and ends with 1 if there is such a file; prints nothing and ends with 0
# if there is none.

here=$(dirname "$(readlink -f "$0")")

# explain FILE WHAT: prints why the file can't be loaded. It fails if it can.
explain() {
  if [ ! -e "$1" ]; then
    case $1 in /*) ;; *) set -- "$1" "$2" "; you are in $PWD" ;; esac
    echo "hint: $2 $1: there is no such file${3-}"
  elif [ -d "$1" ]; then
    echo "hint: $2 $1: it is a directory, and has to be a file"
  elif [ ! -r "$1" ]; then
    echo "hint: $2 $1: you may not read it; ls -l $1 shows who may"
  else
    return 1
  fi
}

# explain_tables PLAN
explain_tables() {
  [ -f "$1" ] || return 1
  directory=.
  case $1 in */*) directory=${1%/*} ;; esac
  # shellcheck disable=SC2086 # AWK may be several words, as in AWK='busybox awk'.
  LC_ALL=C ${AWK:-awk} -f "$here/plan.awk" -f "$here/tables.awk" "$1" | {
    read -r _
    while IFS= read -r table; do
      explain "$table" 'the table' || continue
      if [ "$directory" != . ] && [ -f "$directory/$table" ]; then
        echo "hint: tables are looked for from the directory where you are; this one is in $directory: cd $directory first"
      fi
      exit 0
    done
    exit 1
  }
}

command=${1-}
case $command in
  run | slow | watch | part | save | feeds | resume) plan=$2 ;;
  *) exit 0 ;;
esac
shift 2
explain "$plan" 'the plan' && exit 1
explain_tables "$plan" && exit 1
case $command in
  feeds) explain "$1" 'file a,' || explain "$2" 'file b,' ;;
  resume) explain "$1" 'the checkpoint' ;;
  *) false ;;
esac || exit 0
exit 1
