#!/usr/bin/env bash
# Tries the tools on small texts, with each awk that is installed. What they have to print was worked out by hand, and
# dates are compared with those of date(1). The lines of a case after --- are what it prints, and then what it says on
# standard error.
# shellcheck disable=SC2016,SC2059 # Backquotes are words of `why`, and `tells` takes its lines as printf has them.
set -euo pipefail
root=$(cd "$(dirname "$0")/.." && pwd)
PATH=$root/tools:$PATH
scratch=$(mktemp -d)
trap 'rm -rf "$scratch"' EXIT
cd "$scratch"
cases=0

# try STATUS COMMAND: runs the command on the lines before ---.
try() {
  local wanted=$1 status=0 text input output said
  shift
  text=$(cat; echo .)
  input=${text%%$'---\n'*}
  output=${text#*$'---\n'}
  said=$(printf %s "$input" | "$@" 2> errors || status=$?; cat errors; echo "$status.")
  status=${said##*$'\n'} said=${said%"${said##*$'\n'}"}
  if [ "$status" != "$wanted." ] || [ "$said" != "${output%.}" ]; then
    printf '%s, by %s, on\n%sprints, with exit code %s\n%sand not, with %s\n%s' \
      "$*" "$AWK" "$input" "${status%.}" "$said" "$wanted" "${output%.}"
    exit 1
  fi
  cases=$((cases + 1))
}

# tells TEXT LINE..: `why` says this of the last of these lines, which are as printf has them.
tells() {
  local what=$1 status=0 said
  shift
  said=$(printf "$(printf '%s\\n' "$@")" | why | sed -n 1p; exit "${PIPESTATUS[1]}") || status=$?
  if [ "$status" != 3 ] || [ "$said" != "line $#: $what" ]; then
    printf 'why, by %s, says of\n' "$AWK"
    printf '%s\n' "$@"
    printf '%s\nand not\nline %s: %s\n' "$said" $# "$what"
    exit 1
  fi
  cases=$((cases + 1))
}

check_columns() {
  try 0 records -t 1 -k 2 -v 3 <<'CASE'
3,1,5
1000000000000000,1000000000000000000,-9223372036854775808
---
r,a,3,1,5
r,a,1000000000000000,1000000000000000000,-9223372036854775808
CASE
  try 0 records -t 1 <<'CASE'
3,x

4,y
---
r,a,3,0,1
r,a,4,0,1
CASE
  try 0 records -H -t when -v bytes -k 1 -s b <<'CASE'
host,bytes,when
7,100,30
---
r,b,30,7,100
CASE
  for separator in '|' . '*' '^' '[' ';' ' '; do
    try 0 records -F "$separator" -t 2 -k 1 -v =-4 <<CASE
7${separator}30
---
r,a,30,7,-4
CASE
  done
  try 0 records -F ' *; *' -t 2 -k 1 <<'CASE'
7 ;  30
---
r,a,30,7,1
CASE
  try 0 records -F '\t' -t 2 -k 1 <<CASE
7$(printf '\t')30
---
r,a,30,7,1
CASE
  try 0 records -q -t 2 -k 1 -v 3 -d quoted <<'CASE'
"Screws, 4 mm",1,"5"
"a ""b""",2,6
plain,3,7
"",4,8
---
r,a,1,1,5
r,a,2,2,6
r,a,3,3,7
r,a,4,4,8
CASE
  try 0 cat quoted <<'CASE'
---
1,Screws, 4 mm
2,a "b"
3,plain
4,
CASE
  # A byte order mark and CR LF.
  try 0 records -H -t time -v n <<CASE
$(printf '\357\273\277time,n\r\n5,6\r')
---
r,a,5,0,6
CASE
}

check_words() {
  rm -f words
  try 0 records -F ' ' -t 1 -k 2,3 -d words <<'CASE'
1 web one
2 web two
3 web one
---
r,a,1,1,1
r,a,2,2,1
r,a,3,1,1
CASE
  # A second stream shares the dictionary.
  try 0 records -F ' ' -s b -t 1 -k 2,3 -d words <<'CASE'
1 web two
2 mail 7
---
r,b,1,2,1
r,b,2,3,1
CASE
  try 0 rows -n -d words <<'CASE'
10,3,-5
10,2,9223372036854775807
10,9,0
---
10,mail 7,-5
10,web two,9223372036854775807
10,9,0
CASE
  # Numbers of one's own, and words that have to stand in quotes.
  printf '101,a,b\n7,"c"\n' > words
  try 0 rows -n -d words <<'CASE'
5,7,1
5,101,1
---
5,"""c""",1
5,"a,b",1
CASE
  try 0 records -t 1 -k 2 -d words <<'CASE'
1,new
---
r,a,1,102,1
CASE
  # A word may have two numbers: the last one counts.
  printf '7,a\n8,a\n' > words
  try 0 records -t 1 -k 2 -d words <<'CASE'
1,new
1,a
---
r,a,1,9,1
r,a,1,8,1
CASE
  # The dictionary is written after `rows` has begun, and before the row that needs it.
  rm words
  try 0 bash -c 'while read -r row; do echo "${row%% *}" >> words; echo "${row#* }"; done | rows -n -d words' <<'CASE'
1,one 10,1,5
2,two 20,2,6
---
10,one,5
20,two,6
CASE
  # A last line that is not whole yet counts for no other number.
  printf '1,one\n2,tw' > words
  try 0 rows -n -d words <<'CASE'
10,1,5
---
10,one,5
CASE
}

check_times() {
  # Of each: date -u -d TEXT +%s.
  try 0 records -F ';' -t 1 <<'CASE'
1970-01-01
2026-11-27T09:30:01
2026-11-27 09:30:01
2026-11-27T09:30
2026-11-27T09:30:01.999Z
2026-11-27T09:30:01,5Z
2026-11-27 09:30:01+01:00
2026-11-27 09:30:01 -0530
2026-11-27 9:30:01-05:30
2026-11-27T00:30+01
2024-02-29
2000-02-29T23:59:59Z
2100-03-01
9999-12-31T23:59:59Z
1795771801
---
r,a,0,0,1
r,a,1795771801,0,1
r,a,1795771801,0,1
r,a,1795771800,0,1
r,a,1795771801,0,1
r,a,1795771801,0,1
r,a,1795768201,0,1
r,a,1795791601,0,1
r,a,1795791601,0,1
r,a,1795735800,0,1
r,a,1709164800,0,1
r,a,951868799,0,1
r,a,4107542400,0,1
r,a,253402300799,0,1
r,a,1795771801,0,1
CASE
  try 0 records -m -F ';' -t 1 <<'CASE'
2026-11-27T09:30:01.250Z
2026-11-27T09:30:01.9999Z
2026-11-27T09:30:01.5
2026-11-27T09:30:01.010
2026-11-27T08:09:07.08
2026-11-27T09:30:01
1795771801250
---
r,a,1795771801250,0,1
r,a,1795771801999,0,1
r,a,1795771801500,0,1
r,a,1795771801010,0,1
r,a,1795766947080,0,1
r,a,1795771801000,0,1
r,a,1795771801250,0,1
CASE
  try 0 records -F ' ' -t 4,5 -f '[%d/%b/%Y:%H:%M:%S %z]' <<'CASE'
10.0.0.1 - - [27/Nov/2026:09:30:01 +0100] "GET /"
---
r,a,1795768201,0,1
CASE
  try 0 records -m -t 1 -f %s <<'CASE'
1795771801.25
1795771801
---
r,a,1795771801250,0,1
r,a,1795771801000,0,1
CASE
  try 0 records -t 1 -f '%m/%e/%Y %T' -o -1 <<'CASE'
11/27/2026 9:30:01
11/ 7/2026 09:30:01
---
r,a,1795771800,0,1
r,a,1794043800,0,1
CASE
  for text in 2026-02-29 2026-13-01 2026-00-10 2026-04-31 2100-02-29 2026-11-27T24:00 2026-11-27T09:60 \
    2026-11-27T09:30:1 1.5 -5 2026-11-27x 2026-11-27T09:30:01.Z 1969-12-31 x; do
    try 2 records -t 1 <<CASE
$text
---
records: line 1: no time: "$text"; -f says how it is written
records: line 1: no time: "$text"; -f says how it is written
CASE
  done
  try 0 rows -w 3600 <<'CASE'
1795773600,1,5
---
2026-11-27T09:00:00Z,1,5
CASE
  try 0 rows -m -w 1000 <<'CASE'
1795771802250,1,5
---
2026-11-27T09:30:01.250Z,1,5
CASE
  try 0 rows -f '%a %e %b %Y %H:%M:%S.%f %s %%' -o 60 <<'CASE'
1795771861,1,5
60,1,5
0,1,5
---
Fri 27 Nov 2026 09:30:01.000 1795771801 %,1,5
Thu  1 Jan 1970 00:00:00.000 0 %,1,5
Wed 31 Dec 1969 23:59:00.000 -60 %,1,5
CASE
  try 0 rows -n -w 10 <<'CASE'
1000000000000000,1,5
---
999999999999990,1,5
CASE
  if date -u -d @0 -f /dev/null 2> /dev/null || date -u -d @0 +%s > /dev/null 2>&1; then compare_dates; fi
}

# Compares 5,000 moments of the years 1970 to 9999 with date(1).
compare_dates() {
  awk 'BEGIN { for (i = 0; i < 5000; i++) printf "%.0f\n", i * 50680459 }' > moments
  sed 's/^/@/' moments | date -u -f - +%FT%TZ > dates
  sed 's/$/,1,0/' moments | rows | sed 's/,1,0$//' | cmp - dates
  records -t 1 < dates | awk -F , '{ print $3 }' | cmp - moments
  cases=$((cases + 2))
}

check_watermarks() {
  try 0 records -t 1 -k 2 -L 5 <<'CASE'
10,1
30,1
5,1
24,1
25,1
28,1
31,1
1795771801250,1
---
r,a,10,1,1
w,a,5
r,a,30,1,1
w,a,25
r,a,25,1,1
r,a,28,1,1
r,a,31,1,1
w,a,26
r,a,1795771801250,1,1
w,a,1795771801245
records: left out as late: 2
CASE
  try 2 records -t 1 -s b -l 0 <<'CASE'
10
10
9
11
---
r,b,10,0,1
w,b,10
r,b,10,0,1
records: line 3: its time 9 is below the watermark 10: take a greater delay, -L or -D
records: line 3: its time 9 is below the watermark 10: take a greater delay, -L or -D
CASE
  try 0 records -t 1 -l 60 <<'CASE'
59
61
---
r,a,59,0,1
r,a,61,0,1
w,a,1
CASE
}

# What gives no record: once as an error, on both outputs, and once left out.
check_bad_lines() {
  local text what
  while IFS='#' read -r text what; do
    try 2 records -t 1 -k 2 -v 3 <<CASE
1,1,1
$text
2,2,2
---
r,a,1,1,1
records: line 2: $what
records: line 2: $what
CASE
    try 0 records -i -t 1 -k 2 -v 3 <<CASE
1,1,1
$text
2,2,2
---
r,a,1,1,1
r,a,2,2,2
records: line 2: $what
records: left out as no record: 1
CASE
  done <<'BAD'
2,2#it has no column 3
x,2,2#no time: "x"; -f says how it is written
1000000000000001,2,2#its time is above 10^15: 1000000000000001
2,web,2#no key: "web" is no whole number from 0 to 10^18; -d numbers words
2,1000000000000000001,2#no key: "1000000000000000001" is no whole number from 0 to 10^18; -d numbers words
2,07,2#no key: "07" is no whole number from 0 to 10^18; -d numbers words
2,2,5.5#no value: "5.5" is no whole number of 64 bits
2,2,9223372036854775808#no value: "9223372036854775808" is no whole number of 64 bits
2,2,-9223372036854775809#no value: "-9223372036854775809" is no whole number of 64 bits
2,2,+5#no value: "+5" is no whole number of 64 bits
2,2,-0#no value: "-0" is no whole number of 64 bits
BAD
  try 2 records -t 1 -f %Y <<'CASE'
2026
---
records: line 1: no time: "2026", by %Y
records: line 1: no time: "2026", by %Y
CASE
  try 2 records -t 1 -f '%%p %I:%M %p' <<'CASE'
2026
---
records: -f knows no %I
records: -f knows no %I
CASE
  try 2 rows -f %y <<'CASE'
10,1,5
---
rows: -f knows no %y
CASE
  try 2 chart -f %j <<'CASE'
10,1,5
---
chart: -f knows no %j
CASE
  try 2 records -H -t when <<'CASE'
time
5
---
records: no column is named when
records: no column is named when
CASE
  try 2 records -t when <<'CASE'
5
---
records: no column is named when: -H says that the first line has the names
records: no column is named when: -H says that the first line has the names
CASE
  try 2 rows <<'CASE'
10,1,7
line 3: malformed
---
1970-01-01T00:00:10Z,1,7
rows: line 2 is no row: line 3: malformed
CASE
}

check_keys_of_words() {
  try 0 records -t 1 -D 5 <<'CASE'
10
3
---
r,a,10,0,1
w,a,5
r,a,3,0,1
CASE
  try 0 records -t 1 -k 2 -w <<'CASE'
3,/index.html
4,abcdefghijklmnopqrstuvwx
---
r,a,3,/index.html,1
r,a,4,abcdefghijklmnopqrstuvwx,1
CASE
  for text in '' 'a b' 'a"b' abcdefghijklmnopqrstuvwxy 'caf\303\251'; do
    text=$(printf "$text")
    try 2 records -t 1 -k 2 -w <<CASE
3,$text
---
records: line 1: no word: "$text" is not 1 to 24 characters of ASCII without blanks, commas and quotes
records: line 1: no word: "$text" is not 1 to 24 characters of ASCII without blanks, commas and quotes
CASE
  done
  try 0 rows -n -w 10 <<'CASE'
10,/index.html,7
20,9,-1
---
0,/index.html,7
10,9,-1
CASE
  try 2 rows -n <<'CASE'
10,a b,7
---
rows: line 1 is no row: 10,a b,7
CASE
  try 0 chart -n <<'CASE'
10,ant,1
20,ant,2
---
ant  ▄█  2
     0    20
CASE
  try 0 why -w <<'CASE'
r,a,3,cat,5
r,a,4,9,1
---
nothing is wrong with its lines
CASE
  try 3 why -w <<'CASE'
r,a,3,a b,5
---
line 1: its key has a blank: write _ for it
  | r,a,3,a b,5
CASE
  try 3 why -w <<'CASE'
r,a,3,abcdefghijklmnopqrstuvwxy,5
---
line 1: its key has 25 characters: a word has at most 24; `records -d` numbers longer ones
  | r,a,3,abcdefghijklmnopqrstuvwxy,5
CASE
  try 0 why -l <<'CASE'
w,a,10
r,a,9,1,1
---
nothing is wrong with its lines
CASE
  echo 'line 2: dropped, time 9, watermark 10' > note
  try 0 why -l -n note <<'CASE'
w,a,10
r,a,9,1,1
---
late records were left out, as the plan says, and the run went on
CASE
  echo 'line 3: watermark goes back, time 9, watermark 10' >> note
  try 3 why -l -n note <<'CASE'
w,a,10
r,a,9,1,1
w,a,9
---
line 3: this watermark goes back: its time 9 is below the watermark 10 of line 1: leave it out
  | w,a,9
CASE
}

check_why() {
  # The lines that the program calls malformed.
  tells 'its key has a blank beside it: leave it out' 'r,a,3, 1,5'
  tells 'a blank stands before it: leave it out' ' r,a,3,1,5'
  tells 'tabs stand between its fields: commas have to' 'r\ta\t3\t1\t5'
  tells '";" stands between its fields: a comma has to' 'r;a;3;1;5'
  tells 'its fields stand in quotes: leave those out' '"r","a","3","1","5"'
  tells 'its time stands in quotes: leave those out' 'r,a,"3",1,5'
  tells 'it looks like the names of columns: leave it out' 'stream,time,key,value'
  tells 'it begins with none of r, w and #: `records` makes records of the lines of a log' '2026-11-27,web1,5'
  tells 'its key is "web1" and no whole number: `records -d` gives numbers to words' 'r,a,3,web1,5'
  tells 'its time is a date: `records -t` makes a number of it' 'r,a,2026-11-27T09:30:01,1,5'
  tells 'its value has a fraction: count in smaller units, as 55 tenths for 5.5' 'r,a,3,1,5.5'
  local fine='its time is above 10^15: of times since 1970, seconds and milliseconds fit, and nothing finer'
  tells "$fine" 'r,a,1795771801000000,1,5'
  tells "$fine" 'r,a,1795771801000000000,1,5'
  local wide='its value is not in 64 bits: it is -9223372036854775808 to 9223372036854775807'
  tells "$wide" 'r,a,3,1,9223372036854775808'
  tells "$wide" 'r,a,3,1,-9223372036854775809'
  tells 'its key is above 1000000000000000000' 'r,a,3,1000000000000000001,5'
  tells 'its time is negative: it is 0 to 1000000000000000' 'r,a,-3,1,5'
  tells 'a record has 5 fields, r,STREAM,TIME,KEY,VALUE: this has 4' 'r,a,3,1'
  tells 'a record has 5 fields, r,STREAM,TIME,KEY,VALUE: this has 6' 'r,a,3,1,5,6'
  tells 'a watermark has 3 fields, w,STREAM,TIME: this has 2' 'w,a'
  tells 'it begins with a capital letter: write r' 'R,a,3,1,5'
  tells 'its stream is "c": a stream is a or b' 'r,c,3,1,5'
  tells 'it is empty: leave it out, as by grep .' 'r,a,3,1,5' ''
  tells "a byte order mark stands before it: sed '1s/^\\xEF\\xBB\\xBF//' takes it off" '\357\273\277r,a,3,1,5'
  tells "its lines end by CR alone: tr '\\r' '\\n' makes lines of it" 'r,a,3,1,5\rr,a,4,1,5\r'
  tells 'the input is compressed: unpack it first, as by zcat' '\037\213\010'
  tells 'the input is UTF-16: iconv -f UTF-16 -t UTF-8 first' '\377\376r'
  tells 'its value has a plus sign: leave it out' 'r,a,3,1,+5'
  tells 'its value is -0: write 0' 'r,a,3,1,-0'
  tells 'its value has a leading zero: leave it out' 'r,a,3,1,-05'
  tells 'its key has a leading zero: leave it out' 'r,a,3,01,5'
  tells 'its value is empty: it is a whole number' 'r,a,3,1,'
  tells 'its value is "1e3" and no whole number' 'r,a,3,1,1e3'
  tells 'its value has a blank beside it: leave it out' 'r,a,3,1,5 '
  tells 'a carriage return stands in it: lines end by LF or CR LF' 'r,a,3,1,5\r\r'
  tells 'here `records` stopped: mend what it says' 'r,a,3,1,5' 'records: line 2: no time'
  # Those that it refuses by other words.
  tells 'it has 129 bytes: a line, a comment too, has at most 128' "#$(printf '%128s' '')"
  local advice='take a greater delay (`records -l`), or no watermarks'
  tells "this record is late: its time 9 is below the watermark 10 of line 2: $advice" \
    'w,b,20' 'w,a,10' 'r,a,10,1,1' 'r,a,9,1,1'
  tells 'this watermark goes back: its time 9 is below the watermark 10 of line 1: leave it out' 'w,a,10\r' 'w,a,9'
  try 3 why -s a <<'CASE'
r,b,3,1,5
---
line 1: the plan does not read stream b (sum reads stream a): grep -v '^[rw],b,' leaves it out
  | r,b,3,1,5
CASE
  try 0 why <<CASE
#$(printf '%127s' '')
r,b,1000000000000000,1000000000000000000,-9223372036854775808
r,a,0,0,0$(printf '\r')
w,a,7
w,a,7
r,a,7,1,9223372036854775807
---
nothing is wrong with its lines
CASE
}

check_notes() {
  echo 'line 2: late record, time 1, watermark 2' > note
  try 3 why -n note <<'CASE'
w,a,2
r,a,1,1,1
---
line 2: this record is late: its time 1 is below the watermark 2 of line 1: take a greater delay (`records -l`), or no watermarks
  | r,a,1,1,1
CASE
  try 2 why -n note <<'CASE'
r,a,1,1,1
---
line 2: nothing is wrong with it here: is this the input of the note, and are these its streams (-s)?
CASE
  echo 'line 1: stream not in the plan' > note
  try 3 why -n note <<'CASE'
r,b,1,1,1
---
line 1: the plan does not read stream b (sum reads stream a): grep -v '^[rw],b,' leaves it out
  | r,b,1,1,1
CASE
  check_all_notes
  # The one that is told of last counts, but not what --try says of races.
  printf 'line 1: malformed\nwords not understood\nraces: not looked for\n' > note
  why -n note < /dev/null > said || [ "$?" = 2 ]
  grep -q '^the arguments are no command' said
  cases=$((cases + 1))
}

# Each note of the table of messages in docs/PLANS.md that is about no line of an input, with the beginning of what `why`
# has to say.
check_all_notes() {
  local line what status
  while IFS='#' read -r line what; do
    echo "$line" > note
    status=0
    why -n note < /dev/null > said || status=$?
    if [ "$status" != 2 ] || [ "$(wc -l < said)" != 1 ] || [[ $(cat said) != "$what"* ]]; then
      echo "why, by $AWK, says of the note $line, with exit code $status, $(cat said)"
      exit 1
    fi
    cases=$((cases + 1))
  done <<'NOTES'
words not understood#the arguments are no command: these are sum SIZE, run PLAN, slow PLAN, watch PLAN KEY, feeds PLAN FILE_A FILE_B, part PLAN, save PLAN, resume PLAN CHECKPOINT, audit and work N.
file failed#the plan, a table, a file of feeds or the checkpoint can't be read
input failed#the input can't be read
output failed#the rows can't be written
out of memory#give watermarks more often
tap 0 failed#with --taps, standard error could not be written
record file too long#a file of feeds or the checkpoint has more than 268435456 bytes
checkpoint: line 5: malformed#this line can't stand in a checkpoint of this plan
line 4294967296: too many lines#the input has more than 4294967295 lines
plan: file too long#a plan has at most 1048576 bytes
plan: not TOML#the plan is not TOML
plan: unknown field#above the first [[transform]] stand late and keys
plan: late: wrong type#late is "refuse" or "drop"
plan: keys: out of range#keys is "numbers" or "words"
plan: transform: missing#the plan has no transform
plan: too many transforms#a plan has at most 12
plan: no window#filters, maps, expansions and lookups alone give no rows
plan: transform 1: transform: wrong type#transform 1: it is no table
plan: transform 1: name: missing#transform 1: name is 1 to 32
plan: transform 2: name taken#transform 2: an earlier transform has this name
plan: transform 1: kind: missing#transform 1: each transform has a kind
plan: transform 1: unknown kind#transform 1: kind is filter, map, expand, lookup, count, sum, min, max, distinct, top, session or join
plan: transform 12: unknown field#transform 12: this kind has no such key
plan: transform 1: from: missing#transform 1: from is "a", "b" or
plan: transform 1: from: unknown#transform 1: no earlier transform has this name
plan: transform 2: from: used twice#transform 2: something takes this
plan: transform 1: field: out of range#transform 1: field is "time", "key" or "value"
plan: transform 1: test: missing#transform 1: test is "less", "at_most", "equal", "at_least" or "more"
plan: transform 1: number: wrong type#transform 1: number is a whole number
plan: transform 1: change: out of range#transform 1: change is "key_mod"
plan: transform 1: addends: wrong type#transform 1: addends is a list of 1 to 8
plan: transform 1: table: out of range#transform 1: table is the name of a file
plan: transform 1: size: out of range#transform 1: size is a whole number from 1 to 10^12
plan: transform 1: every: out of range#transform 1: every is a whole number that divides size
plan: transform 1: keep: out of range#transform 1: keep is 1 to 16
plan: transform 1: gap: missing#transform 1: gap is a whole number from 1 to 10^12
plan: transform 1: give: out of range#transform 1: give of a join is
plan: transform 1: with: missing#transform 1: with is "a", "b" or
plan: transform 1: with: unknown#transform 1: no earlier transform has this name
plan: transform 1: with: used twice#transform 1: something takes this
plan: transform 1: table too long#transform 1: a table has at most 4194304 bytes
plan: transform 1: table row 100001: too many rows#transform 1: a table has at most 100000 rows
plan: transform 1: table row 1: not two columns#transform 1: a row of a table is KEY,IMAGE
plan: transform 1: table row 1: bad key#transform 1: a row of a table is KEY,IMAGE
plan: transform 1: table row 1: bad image#transform 1: a row of a table is KEY,IMAGE
plan: transform 1: table row 2: repeated key#transform 1: an earlier row has this key
plan: transform 2: second join#transform 2: a plan has at most one join
plan: transform 1: not used#transform 1: no later transform has it
plan: transform 1: session cannot be saved#transform 1: save and resume take no plan with a session
streambox: the command rt of the Rattle kit is not on the path#this is no note of the program, but of the script
cat: x: No such file or directory#this is no note of streambox: cat: x
NOTES
}

# Every note that a document names in backquotes is one that `why` knows.
check_notes_of_documents() {
  local begin='plan: |line [0-9N]+: |file [ab]: line |checkpoint: |words not |[a-z]+ failed|out of memory|record file |tap '
  local line
  grep -oh '`[^`]*`' "$root"/docs/{PLANS,USAGE,DIARIES}.md "$root/README.md" | tr -d '`' | grep -E "^($begin)" |
    sed 's/ [NLRTW]\>/ 1/g; s/: \.\.$/: missing/' | sort -u > notes
  [ "$(wc -l < notes)" -gt 60 ]
  while IFS= read -r line; do
    echo "$line" > note
    why -n note < /dev/null > said || :
    if ! [ -s said ] || grep 'no note of streambox' said; then exit 1; fi
  done < notes
  cases=$((cases + 1))
}

# Notes of feeds, whose line is one of a file, and of audit, whose line is one of a diary.
check_notes_of_files() {
  echo 'file a: line 2: malformed' > note
  try 3 why -n note <<'CASE'
# orders
r,a,3,1,5.5
---
file a: line 2: its value has a fraction: count in smaller units, as 55 tenths for 5.5
  | r,a,3,1,5.5
CASE
  printf 'file a: line 4: dropped, time 9, watermark 10\nfile b: line 2: late record, time 1, watermark 2\n' > note
  try 3 why -n note <<'CASE'
w,b,2
r,b,1,1,1
---
file b: line 2: this record is late: its time 1 is below the watermark 2 of line 1: take a greater delay (`records -l`), or no watermarks
  | r,b,1,1,1
CASE
  echo 'file b: line 1: stream not in the plan' > note
  try 3 why -n note <<'CASE'
r,a,1,1,1
---
file b: line 1: file b of feeds has lines of stream b alone: put this line into the other file
  | r,a,1,1,1
CASE
  echo 'file a: line 3: dropped, time 9, watermark 10' > note
  try 0 why -n note <<'CASE'
---
late records were left out, as the plan says, and the run went on
CASE
  echo 'line 3: not legal' > note
  try 3 why -n note <<'CASE'
transform 0 1
arrive 0 0 1 1
take 0 2
---
line 3: it is not legal after the lines before it. Of take: the bundle came into the lane and was not taken; and a line transform stands before it whose LANES are more than LANE
  | take 0 2
CASE
  try 2 why -n note <<'CASE'
r,a,3,1,5
w,a,10
r,a,12,1,4
---
line 3: this is no line of a diary: hand in the diary that audit read, by <
CASE
  echo 'line 2: malformed' > note
  try 3 why -n note <<'CASE'
transform 0 1
arrive 0 0 1
---
line 2: after arrive stand 4 numbers: this has 3
  | arrive 0 0 1
CASE
  echo 'end 0 1' > note
  try 0 why -n note <<'CASE'
---
the run was read to its end: this is its diary
CASE
}

check_chart() {
  printf '1,w\303\251b\n2,mail & <co>\n3,loss\n' > words
  try 0 chart -d words <<'CASE'
1795773600,1,8
1795773600,2,-4
1795777200,1,1
1795777200,2,4
1795784400,1,0
1795788000,1,4
1795788000,2,3
1795773600,3,-4
1795777200,3,-2
---
wéb          █▁ .▄  8
mail & <co>  .█  ▇  -4 to 4
loss         .▄     -4 to 0
             09:00    14:00
CASE
  try 2 chart <<'CASE'
10,1,5
10,1,4
---
chart: line 2: a second row of window 10 and key 1: a chart has one, so top can't be drawn
CASE
  try 2 chart <<'CASE'
10,1,5
11,1,5
411,1,5
---
chart: there are 402 windows from first to last: take greater ones, or a part of the rows
CASE
  try 0 chart <<'CASE'
---
chart: there are no rows
CASE
  # The picture has a bar for each row, with what it stands for, and each text once.
  printf '1795773600,1,8\n1795773600,2,-4\n1795777200,1,1\n' |
    chart -s -d words -t 'Hits & <misses>' -y hits > picture.svg
  try 0 grep -o '<title>.*</title>' picture.svg <<'CASE'
---
<title>wéb, 09:00: 8</title>
<title>wéb, 10:00: 1</title>
<title>mail &amp; &lt;co&gt;, 09:00: -4</title>
CASE
  try 0 sed -n 's/^<text.*>\(.*\)<.text>$/\1/p' picture.svg <<'CASE'
---
Hits &amp; &lt;misses&gt;
time (UTC)
hits
-4
-2
0
2
4
6
8
09:00
10:00
11:00
wéb
mail &amp; &lt;co&gt;
CASE
}

# A fault of a tool's own: `records` ends by a line that streambox refuses, `rows`, `why` and `chart` say it, and none of
# them ends with 0.
check_faults() {
  mkdir -p folder
  printf '1,web1\n' > words
  printf '1,web1,10\n2,web1,20\n3,web2,400\n4,web1,8000\n' > log
  # A dictionary that can't be written or read, in each of the ways; the last is found by opening and by writing it.
  ends_refused 'records: the dictionary is a directory: folder' records -t 1 -k 2 -v 3 -d folder
  printf '1,web1\n2,we' > half
  ends_refused 'records: the last line of the dictionary has no end: take it out, or end it: half' \
    records -t 1 -k 2 -v 3 -d half
  ends_refused 'records: *' records -t 1 -k 2 -v 3 -d no_folder/words
  ends_refused 'records: *' \
    bash -c '(trap "" XFSZ; ulimit -f 0; exec records -t 1 -k 2 -v 3 -d words) | cat; exit "${PIPESTATUS[0]}"'
  printf '1,web1\n' > words
  printf 'head -n 3 log; until grep -q web2 words; do sleep 0.1; done; echo 2,web9 >> words; cat log' > both
  ends_refused 'records: the dictionary has not what was written to it: *' \
    bash -c 'timeout 60 sh both | records -t 1 -k 2 -v 3 -d words'
  check_faults_of_awk
  check_faults_of_arguments
  check_faults_that_are_said
}

check_faults_of_awk() {
  # An input that can't be read, an awk that is not there, one that dies, and one that dies within a line.
  ends_refused 'records: the input is a directory: name a file after <' bash -c 'records -t 1 < folder'
  ends_refused 'records: standard input is closed' bash -c 'records -t 1 <&-'
  ends_refused 'records: no_awk failed, with exit code 127: the output is not whole' env AWK=no_awk records -t 1
  printf '#!/bin/sh\nhead -n 2 | %s "$@"\nkill -9 $$\n' "$AWK" > dying
  printf '#!/bin/sh\nprintf r,a,1,1,1\nkill -9 $$\n' > dying_within
  chmod +x dying dying_within
  ends_refused 'records: ./dying failed, with exit code 137: the output is not whole' env AWK=./dying records -t 1
  ends_refused 'r,a,1,1,1records: ./dying_within failed, *' env AWK=./dying_within records -t 1
  # Who reads what -i lists has ended.
  ends_refused 'records: *, with exit code *' bash -c '{ yes x | head -n 30000; cat log; } |
    { records -i -t 1 2>&1 >&3 | head -n 1 > /dev/null; exit "${PIPESTATUS[0]}"; } 3>&1'
  ends_refused 'records: ended by a signal' \
    bash -c '{ cat log; until [ -e ended ]; do sleep 0.1; done; } |
      { exec 3<&0; records -t 1 <&3 & until [ -s output ]; do sleep 0.1; done
        kill $!; wait $!; status=$?; touch ended; exit $status; }'
}

check_faults_of_arguments() {
  local options
  ends_refused 'records: -t is missing; records -h says more' records
  ends_refused 'records: an option is wrong' records -Z
  ends_refused 'records: -F is empty; records -h says more' records -t 1 -F ''
  for options in '-y 26 -f %b' '-y 2026' '-v 2 -x 5' '-x 10' '-v =5 -x 10' '-s c' '-q -F ab' '-o 1.5'; do
    # shellcheck disable=SC2086 # Each has several words.
    ends_refused 'records: *; records -h says more' records -t 1 $options
  done
}

check_faults_that_are_said() {
  local tool name
  # A full disk, which busybox awk does not notice.
  for tool in 'records -t 1' 'rows -n'; do
    name=${tool%% *}
    [ "$AWK" = 'busybox awk' ] ||
      says_fault "$name: $AWK failed, with exit code *: the output is not whole" sh -c "$tool > /dev/full"
  done
  for tool in 'rows -n' why 'chart -n'; do
    name=${tool%% *}
    says_fault "$name: the input is a directory: name a file after <" sh -c "$tool < folder"
    says_fault "$name: standard input is closed" sh -c "$tool <&-"
    # shellcheck disable=SC2086 # It has several words.
    says_fault "$name: ./dying failed, with exit code 137: the output is not whole" env AWK=./dying $tool
  done
  says_fault "rows: line 1: the dictionary can't be read: none" rows -n -d none
  says_fault "chart: the dictionary can't be read: none" chart -n -d none
  says_fault 'rows: the dictionary is a directory: folder' rows -n -d folder
}

# ends_refused PATTERN COMMAND: on the file log, the command does not end with 0, and its last line matches the pattern,
# which it says on standard error, too, unless an option was wrong.
ends_refused() {
  local wanted=$1 status=0 last
  shift
  rm -f ended
  "$@" < log > output 2> errors || status=$?
  last=$(tail -n 1 output)
  # shellcheck disable=SC2053 # It is a pattern.
  if [ "$status" = 0 ] || [[ $last != $wanted ]] || why < output > said; then
    echo "$*, by $AWK, ends with exit code $status and the line $last"
    cat errors
    exit 1
  fi
  cases=$((cases + 1))
}

# says_fault PATTERN COMMAND: on rows, the command ends with 2, and says this last on standard error.
says_fault() {
  local wanted=$1 status=0
  shift
  printf '10,1,5\n20,2,6\n30,3,6\n' | "$@" > output 2> errors || status=$?
  # shellcheck disable=SC2053 # It is a pattern.
  if [ "$status" != 2 ] || [[ $(tail -n 1 errors) != $wanted ]]; then
    echo "$*, by $AWK, ends with exit code $status and says $(cat errors), and not $wanted"
    exit 1
  fi
  cases=$((cases + 1))
}

# The options beyond times, keys and values of one column.
check_options() {
  # Mail dates, git's own, and syslog over New Year, each as of date(1); what %a says is not compared.
  try 0 records -F ';' -t 1 -f '%a, %d %b %Y %T %z' <<'CASE'
Fri, 27 Nov 2026 09:30:01 +0100
Mon, 7 Nov 2026 09:30:01 +0000
---
r,a,1795768201,0,1
r,a,1794043801,0,1
CASE
  try 0 records -F ';' -t 1 -f '%a %b %e %T %Y %z' <<'CASE'
Fri Nov 27 09:30:01 2026 +0100
---
r,a,1795768201,0,1
CASE
  try 2 records -F ';' -t 1 -f '%a %d %b %Y' <<'CASE'
Fre 27 Nov 2026
---
records: line 1: no time: "Fre 27 Nov 2026", by %a %d %b %Y
records: line 1: no time: "Fre 27 Nov 2026", by %a %d %b %Y
CASE
  try 0 records -F ' ' -t 1,2,3 -f '%b %e %T' -y 2026 <<'CASE'
Nov 27 09:30:01 web1 sshd: x
Nov  7 09:30:01 web1 sshd: x
Dec 31 23:59:59 web1 sshd: x
Jan  1 00:00:00 web1 sshd: x
Dec 31 23:59:58 web1 sshd: x
---
r,a,1795771801,0,1
r,a,1794043801,0,1
r,a,1798761599,0,1
r,a,1798761600,0,1
r,a,1798761598,0,1
CASE
  try 2 records -F ' ' -t 1,2,3 -f '%b %e %T' <<'CASE'
Nov 27 09:30:01 web1 sshd: x
---
records: line 1: no time: "Nov 27 09:30:01", by %b %e %T
records: line 1: no time: "Nov 27 09:30:01", by %b %e %T
CASE
  # A dictionary of words of several columns, and words themselves.
  try 0 records -t 1 -k 2,3 -j / -w <<'CASE'
3,web1,eth0
---
r,a,3,web1/eth0,1
CASE
  try 0 records -t 1 -k 4,3,2 -j '' -w <<'CASE'
3,a,b,c
---
r,a,3,cba,1
CASE
  try 2 records -q -t 1 <<'CASE'
3,"a
---
records: line 1: a quote of it has no end
records: line 1: a quote of it has no end
CASE
  check_fractions
  check_last_lines
  check_times_of_a_minute
}

# Values with a fraction: what they give, times 1,000, or - if they give nothing.
check_fractions() {
  local text number
  while read -r text number; do
    if [ "$number" = - ]; then
      try 2 records -t 1 -v 2 -x 1000 <<CASE
3,$text
---
records: line 1: no value: "$text" times 1000 is no whole number of 64 bits
records: line 1: no value: "$text" times 1000 is no whole number of 64 bits
CASE
    else
      try 0 records -t 1 -v 2 -x 1000 <<CASE
3,$text
---
r,a,3,0,$number
CASE
    fi
  done <<'VALUES'
0.123 123
12 12000
-1.5 -1500
0 0
-0.000 0
.25 250
7. 7000
007.0070 7007
0.1000 100
9223372036854775.807 9223372036854775807
-9223372036854775.808 -9223372036854775808
9223372036854775.808 -
0.1234 -
1e3 -
+1 -
. -
1.2.3 -
VALUES
}

# A last line without an end: a record, or with -p left for the next call.
check_last_lines() {
  local text
  for text in '5,web1,31' '5,w' '' '5,web1,31\r'; do
    printf "3,web1,10\n$text" > log
    try 0 bash -c 'records -p -t 1 -v 3 < log' <<'CASE'
---
r,a,3,0,10
CASE
    try 0 bash -c 'cat log | records -p -t 1 -v 3' <<'CASE'
---
r,a,3,0,10
CASE
  done
  printf '3,web1,10\n5,web1,31' > log
  try 0 bash -c 'records -t 1 -v 3 < log' <<'CASE'
---
r,a,3,0,10
r,a,5,0,31
CASE
  printf '3,web1,10\n' > log
  try 0 bash -c 'records -p -H -t web1 < log; records -p -t 1 < /dev/null' <<'CASE'
---
CASE
}

# Times that follow one another: a time by the minute of the one before is what it is alone.
check_times_of_a_minute() {
  local format
  printf '2026-11-27 %s\n' 09:30:01.250 09:30:01.250 09:30:02.5 09:30:59.999 09:30:60.000 09:30:02.2x0 09:30:61.000 \
    09:31:00.000 09:30:07 09:30:08 09:30:0x 09:30:08,7 09:30:08.125 10:30:08.125 > texts
  for format in '%F %T' '%F %H:%M:%S'; do
    while IFS= read -r text; do
      printf '%s\n' "$text" | records -m -o -3600000 -t 1 -F ';' -f "$format" 2> /dev/null | grep -v ^records || :
    done < texts > wanted
    records -i -m -o -3600000 -t 1 -F ';' -f "$format" < texts 2> /dev/null | cmp - wanted
    [ "$(wc -l < wanted)" = 11 ]
    cases=$((cases + 1))
  done
  # As numbers, 5 and 5.0 are the same; as texts of a time they are not.
  try 2 records -t 1 <<'CASE'
5
5.0
---
r,a,5,0,1
records: line 2: no time: "5.0"; -f says how it is written
records: line 2: no time: "5.0"; -f says how it is written
CASE
  # Times are compared as numbers, and not as texts.
  try 0 records -t 1 -L 0 -f '%Y-%m-%d %T' -F ';' <<'CASE'
1970-01-01 00:00:09
1970-01-01 00:00:10
1970-01-01 00:00:09
1970-01-01 00:01:40
---
r,a,9,0,1
w,a,9
r,a,10,0,1
w,a,10
r,a,100,0,1
w,a,100
records: left out as late: 1
CASE
}

check_rows() {
  printf '1,web "1"\n2,a\\b\tc\n3,caf\303\251\n' > words
  try 0 rows -H -d words -w 60 -f %H:%M <<'CASE'
60,1,5
---
time,key,value
00:00,"web ""1""",5
CASE
  try 0 rows -H <<'CASE'
---
time,key,value
CASE
  try 0 rows --json -d words <<'CASE'
60,1,5
60,2,-9223372036854775808
60,3,0
60,44,9223372036854775807
---
{"time":"1970-01-01T00:01:00Z","key":"web \"1\"","value":5}
{"time":"1970-01-01T00:01:00Z","key":"a\\b\u0009c","value":-9223372036854775808}
{"time":"1970-01-01T00:01:00Z","key":"café","value":0}
{"time":"1970-01-01T00:01:00Z","key":"44","value":9223372036854775807}
CASE
  try 0 rows --json -n -w 10 <<'CASE'
60,/index.html,5
---
{"time":50,"key":"/index.html","value":5}
CASE
  try 0 rows --json -f '"%F"' <<'CASE'
60,1,5
---
{"time":"\"1970-01-01\"","key":"1","value":5}
CASE
  says_fault 'rows: -H and --json do not go together: each object has the names; rows -h says more' rows -H --json
  says_fault 'rows: no such option: --jason; rows -h says more' rows --jason
  try 2 rows <<'CASE'
1795771801000,1,5
---
rows: line 1: its time lies after the year 9999: say -m if times are milliseconds, or -n if they are no dates
CASE
}

check_usage() {
  local tool
  for tool in records rows why chart; do
    "$tool" -h > usage
    grep -q "^  .*$tool " usage
    "$tool" --help | cmp - usage
    if "$tool" -Z > output 2> said < /dev/null; then exit 1; fi
    tail -n +2 said | cmp - usage
    if "$tool" file > said 2>&1 < /dev/null; then exit 1; fi
    cases=$((cases + 4))
  done
}

awks=(mawk gawk 'busybox awk' original-awk)
for AWK in "${awks[@]}" awk; do
  export AWK
  $AWK 'BEGIN { exit 0 }' > /dev/null 2>&1 < /dev/null || { echo "tools: $AWK is not installed"; continue; }
  # The one that is called awk is mostly one of the others.
  [ "$AWK" != awk ] || [ "$cases" = 0 ] || continue
  rm -rf ./*
  before=$cases
  check_columns
  check_words
  check_times
  check_watermarks
  check_bad_lines
  check_why
  check_keys_of_words
  check_notes
  check_notes_of_documents
  check_notes_of_files
  check_chart
  check_options
  check_rows
  check_faults
  check_usage
  echo "tools: $((cases - before)) cases by $AWK as expected"
done
[ "$cases" -gt 0 ] || { echo "tools: no awk"; exit 1; }
