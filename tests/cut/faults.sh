#!/usr/bin/env bash
# Tries each fault of a checkpoint file, and what only looks like one. A faulty file is answered with its first faulty line
# and exit code 11, a file that is too long with exit code 10; then nothing is written, and the input is not read. Each is
# tried with 1 worker and with 8. It takes ../../streambox, or the program that STREAMBOX names by an absolute path.
#
# The plans are a sum over windows of 10 of stream a (sum), the same with keys that are words (words), and a join of both
# streams in windows of 10 (join).
set -euo pipefail
# No hints: what the program itself says is compared.
export STREAMBOX_PLAIN=1
cd "$(dirname "$0")"
program=${STREAMBOX:-$(cd ../.. && pwd)/streambox}
scratch=$(mktemp -d)
trap 'rm -rf "$scratch"' EXIT
cd "$scratch"

# PLAN | the faulty line | what is wrong | the file, with its line ends and other signs as printf has them
faulty() {
  cat <<'TABLE'
sum | 1 | an empty file |
sum | 1 | CR LF | checkpoint 3 10\r\nr,a,3,1,5\r\nr,a,12,1,4\r\nw,a,10\r\nend 3\r\n
sum | 2 | CR LF behind a record | checkpoint 1 0\nr,a,3,1,5\r\nend 1\n
sum | 2 | CR LF behind a watermark | checkpoint 1 10\nw,a,10\r\nend 1\n
sum | 2 | CR LF behind the line end | checkpoint 0 0\nend 0\r\n
sum | 1 | no line feed | checkpoint 0 0
sum | 1 | no first line | r,a,3,1,5\nend 1\n
sum | 1 | the line end alone | end 0\n
sum | 1 | an empty first line | \ncheckpoint 0 0\nend 0\n
sum | 1 | a comment before it | #\ncheckpoint 0 0\nend 0\n
sum | 1 | no LOW | checkpoint 3\nend 0\n
sum | 1 | a third number | checkpoint 0 0 0\nend 0\n
sum | 1 | zeros before LINES | checkpoint 00 0\nend 0\n
sum | 1 | zeros before LOW | checkpoint 1 010\nw,a,10\nend 1\n
sum | 1 | a sign | checkpoint +1 0\nend 0\n
sum | 1 | a minus | checkpoint 0 -0\nend 0\n
sum | 1 | two blanks | checkpoint  0 0\nend 0\n
sum | 1 | a blank behind LOW | checkpoint 0 0 \nend 0\n
sum | 1 | a capital letter | Checkpoint 0 0\nend 0\n
sum | 1 | a byte order mark | \0357\0273\0277checkpoint 0 0\nend 0\n
sum | 1 | LINES of 2^64 | checkpoint 18446744073709551616 0\nend 0\n
sum | 1 | LOW of 2^64 | checkpoint 0 18446744073709551616\nend 0\n
sum | 2 | LOW below 2^64 | checkpoint 0 18446744073709551615\nend 0\n
sum | 2 | LINES below 2^64 | checkpoint 18446744073709551615 0\nend 0\n
sum | 2 | LINES of 2^32 | checkpoint 4294967296 0\nend 0\n
sum | 5 | LINES below COUNT | checkpoint 2 10\nr,a,3,1,5\nr,a,12,1,4\nw,a,10\nend 3\n
sum | 5 | LOW above the watermark | checkpoint 3 11\nr,a,3,1,5\nr,a,12,1,4\nw,a,10\nend 3\n
sum | 5 | LOW below the watermark | checkpoint 3 9\nr,a,3,1,5\nr,a,12,1,4\nw,a,10\nend 3\n
sum | 3 | LOW without a watermark | checkpoint 1 10\nr,a,3,1,5\nend 1\n
sum | 3 | a watermark and LOW 0 | checkpoint 1 0\nw,a,10\nend 1\n
join | 3 | LOW of one stream alone | checkpoint 1 10\nw,a,10\nend 1\n
join | 4 | LOW of the greater watermark | checkpoint 2 10\nw,a,10\nw,b,7\nend 2\n
sum | 5 | COUNT too small | checkpoint 3 10\nr,a,3,1,5\nr,a,12,1,4\nw,a,10\nend 2\n
sum | 5 | COUNT too great | checkpoint 9 10\nr,a,3,1,5\nr,a,12,1,4\nw,a,10\nend 4\n
sum | 2 | zeros before COUNT | checkpoint 0 0\nend 00\n
sum | 2 | no COUNT | checkpoint 0 0\nend\n
sum | 2 | a blank behind COUNT | checkpoint 0 0\nend 0 \n
sum | 2 | no line end | checkpoint 0 0\n
sum | 5 | no line end behind items | checkpoint 3 10\nr,a,3,1,5\nr,a,12,1,4\nw,a,10\n
sum | 5 | a line end that has no end | checkpoint 3 10\nr,a,3,1,5\nr,a,12,1,4\nw,a,10\nend 3
sum | 3 | a record that was cut | checkpoint 3 10\nr,a,3,1,5\nr,a,1
sum | 3 | a line behind the line end | checkpoint 0 0\nend 0\n#\n
sum | 3 | an empty line behind it | checkpoint 0 0\nend 0\n\n
sum | 3 | bytes behind it | checkpoint 0 0\nend 0\n#
sum | 3 | a second line end | checkpoint 0 0\nend 0\nend 0\n
sum | 3 | a second checkpoint | checkpoint 0 0\nend 0\ncheckpoint 0 0\nend 0\n
sum | 2 | a second first line | checkpoint 0 0\ncheckpoint 0 0\nend 0\n
sum | 2 | a record too far below LOW | checkpoint 2 20\nr,a,9,1,5\nw,a,20\nend 2\n
sum | 4 | one behind others | checkpoint 4 20\nr,a,10,1,5\nr,a,30,1,5\nr,a,9,1,5\nw,a,20\nend 4\n
join | 2 | one of stream b | checkpoint 3 20\nr,b,9,1,5\nw,a,20\nw,b,30\nend 3\n
sum | 2 | a record of a stream that the plan lacks | checkpoint 1 0\nr,b,3,1,5\nend 1\n
sum | 3 | a watermark of such a stream | checkpoint 2 10\nw,a,10\nw,b,10\nend 2\n
sum | 2 | a stream that there is not | checkpoint 1 0\nr,c,3,1,5\nend 1\n
sum | 2 | a watermark of 0 | checkpoint 1 0\nw,a,0\nend 1\n
sum | 3 | two watermarks of a stream | checkpoint 2 10\nw,a,10\nw,a,10\nend 2\n
join | 3 | the watermark of b before that of a | checkpoint 2 10\nw,b,10\nw,a,10\nend 2\n
sum | 3 | a record behind a watermark | checkpoint 2 10\nw,a,10\nr,a,12,1,4\nend 2\n
join | 3 | a record of b behind the watermark of a | checkpoint 2 0\nw,a,10\nr,b,12,1,4\nend 2\n
sum | 2 | a comment | checkpoint 1 0\n#\nend 1\n
sum | 2 | an empty line | checkpoint 1 0\n\nend 0\n
sum | 2 | a time above 10^15 | checkpoint 1 0\nr,a,1000000000000001,1,5\nend 1\n
sum | 2 | zeros before a time | checkpoint 1 0\nr,a,03,1,5\nend 1\n
sum | 2 | a record without a value | checkpoint 1 0\nr,a,3,1\nend 1\n
sum | 2 | a word for a key | checkpoint 1 0\nr,a,3,web1,5\nend 1\n
words | 2 | a word of 25 characters | checkpoint 1 0\nr,a,3,abcdefghijklmnopqrstuvwxy,5\nend 1\n
sum | 2 | a file of another kind | checkpoint 0 0\n10,1,5\nend 0\n
TABLE
}

# PLAN | what it looks like | the file | the rest of the input | the rows of the rest
sound() {
  cat <<'TABLE'
sum | nothing at all | checkpoint 0 0\nend 0\n | r,a,3,1,5\n | 10,1,5\n
sum | comments alone | checkpoint 7 0\nend 0\n | r,a,3,1,5\n | 10,1,5\n
sum | a watermark without a record | checkpoint 3 60\nw,a,60\nend 1\n | r,a,61,1,5\n | 70,1,5\n
sum | records without a watermark | checkpoint 1 0\nr,a,3,1,5\nend 1\n | r,a,4,1,2\n | 10,1,7\n
sum | as many items as lines | checkpoint 3 10\nr,a,3,1,5\nr,a,12,1,4\nw,a,10\nend 3\n | r,a,13,1,1\n | 20,1,5\n
sum | fewer items than lines | checkpoint 9 10\nr,a,3,1,5\nr,a,12,1,4\nw,a,10\nend 3\n | r,a,13,1,1\n | 20,1,5\n
sum | a record as far below LOW as may be | checkpoint 2 20\nr,a,10,1,5\nw,a,20\nend 2\n | r,a,25,1,1\n | 30,1,1\n
sum | records out of order, and one twice | checkpoint 3 0\nr,a,9,1,5\nr,a,2,1,1\nr,a,2,1,1\nend 3\n | | 10,1,7\n
join | the watermark of b alone | checkpoint 2 0\nr,a,3,1,5\nw,b,10\nend 2\n | r,b,12,1,100\nr,a,14,1,7\n | 20,1,107\n
join | records of both streams | checkpoint 4 7\nr,b,8,1,100\nr,a,3,1,5\nw,a,7\nw,b,8\nend 4\n | r,b,9,1,1\n | 10,1,6\n10,1,105\n
words | words for keys | checkpoint 2 10\nr,a,3,end,5\nw,a,10\nend 2\n | r,a,12,checkpoint,4\n | 20,checkpoint,4\n
words | a number for a key | checkpoint 1 0\nr,a,3,007,5\nend 1\n | | 10,007,5\n
TABLE
}

transform() { printf '[[transform]]\nname = "rows"\nkind = "%s"\nfrom = "a"\n%s\n' "$1" "$2"; }

transform sum 'size = 10' > sum.toml
{ echo 'keys = "words"'; cat sum.toml; } > words.toml
transform join $'with = "b"\nsize = 10\ngive = "add"' > join.toml
transform session $'gap = 5\ngive = "sum"' > session.toml
echo 'transform = []' > wrong.toml
printf 'r,a,3,1,5\nx\n' > input

# refuses STATUS NOTE PLAN CHECKPOINT WHAT: so it ends, with nothing written and the input not read.
refuses() {
  local workers status
  for workers in 1 8; do
    status=0
    { "$program" resume "$3" "$4" --workers "$workers" > rows 2> note || status=$?; cat > left; } < input
    [ "$status" = "$1" ] || fail "$5: exit code $status, $(cat note)"
    [ "$(cat note)" = "$2" ] || fail "$5: says $(cat note)"
    [ ! -s rows ] || fail "$5: writes rows"
    cmp left input || fail "$5: reads the input"
  done
  cases=$((cases + 1))
}

fail() {
  echo "a checkpoint: $1"
  exit 1
}

cases=0
# Blanks round a bar are no part of a column; those that are stand before a line feed.
while IFS='|' read -r plan line what text; do
  printf '%b' "${text# }" > checkpoint
  refuses 11 "checkpoint: line ${line// /}: malformed" "${plan% }.toml" checkpoint "${what# }"
done < <(faulty)

while IFS='|' read -r plan what text rest rows; do
  text=${text# } rest=${rest# } rows=${rows# }
  printf '%b' "${text% }" > checkpoint
  printf '%b' "${rest% }" > rest
  printf '%b' "$rows" > wanted
  for workers in 1 8; do
    "$program" resume "${plan% }.toml" checkpoint --workers "$workers" < rest > rows 2> note || fail "$what: $(cat note)"
    cmp rows wanted || fail "$what: other rows"
    [ ! -s note ] || fail "$what: says $(cat note)"
  done
  cases=$((cases + 1))
done < <(sound)

# A file may have 268,435,456 bytes. What is behind the first lines here is a hole, which reads as zeros.
printf 'checkpoint 0 0\n' > great
cp great greater
printf 'x\n' > faulty
truncate -s 268435456 great
truncate -s 268435457 greater faulty
refuses 11 'checkpoint: line 2: malformed' sum.toml great 'as long as it may be'
refuses 10 'record file too long' sum.toml greater 'a byte longer'
refuses 10 'record file too long' sum.toml faulty 'too long and faulty'

# The plan comes first, then the file.
printf 'x' > checkpoint
refuses 6 'file failed' sum.toml missing 'no file'
refuses 6 'file failed' sum.toml . 'a folder'
refuses 6 'file failed' missing.toml checkpoint 'no plan'
for file in checkpoint great missing; do
  refuses 2 'plan: transform: out of range' wrong.toml "$file" 'a refused plan'
  refuses 2 'plan: transform 1: session cannot be saved' session.toml "$file" 'a plan of a session'
done
echo "$cases checkpoint files: as expected"
