# shellcheck shell=bash
# Reads a log that grows, each time from where the last time ended. step and examples/merge/merge source it.
#
# A place is a directory that says how far a log was read. Its file `read` has the number of bytes and of lines that were
# read. `first` has the first 4,096 of these bytes, and `last` the last 4,096 of the others. So a log that was rotated,
# shortened, or changed at either end of what was read does not fit its place any more.

# begin_place PLACE: nothing was read yet.
begin_place() {
  mkdir "$1"
  echo '0 0' > "$1/read"
  : > "$1/first"
  : > "$1/last"
}

# open_log NAME: descriptor 8 stands at the first byte of the log.
open_log() { { exec 8< "$1"; } 2> /dev/null; }

# goes_on PLACE: the open log begins with what was read. If so, descriptor 8 stands right after it.
goes_on() {
  local bytes first last
  read -r bytes _ < "$1/read"
  first=$(wc -c < "$1/first")
  last=$(wc -c < "$1/last")
  head -c "$first" <&8 | cmp -s - "$1/first" || return
  dd bs=65536 iflag=skip_bytes,count_bytes,fullblock skip=$((bytes - first - last)) count="$last" <&8 2> /dev/null |
    cmp -s - "$1/last"
}

# take_lines PLACE NEXT FILE: copies the whole lines that follow the place to FILE, and makes the place after them. A last
# line that has no end yet is not among them; `half` is then how many bytes it has so far.
take_lines() {
  local bytes lines room
  cat <&8 > "$3"
  half=0
  [ "$(tail -c 1 "$3" | wc -l)" = 1 ] || half=$(tail -n 1 "$3" | wc -c)
  truncate -s "-$half" "$3"
  mkdir "$2"
  read -r bytes lines < "$1/read"
  echo "$((bytes + $(wc -c < "$3"))) $((lines + $(wc -l < "$3")))" > "$2/read"
  room=$((4096 - $(wc -c < "$1/first")))
  { cat "$1/first"; head -c "$room" "$3"; } > "$2/first"
  { cat "$1/last"; tail -c "+$((room + 1))" "$3"; } | tail -c 4096 > "$2/last"
}
