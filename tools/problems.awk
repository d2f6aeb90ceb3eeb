# What can be wrong with a line, and what to do. Each function gives a sentence, or nothing if all is well.

BEGIN {
  MOST_TIME = "1000000000000000"
  MOST_KEY = "1000000000000000000"
  MOST_VALUE = "9223372036854775807"
}

# What is wrong with the file rather than with one line, and with the length.
function problem_of_bytes() {
  if (NR == 1 && /^(\037\213|BZh|\3757zXZ|[(]\265\057\375|PK\003\004)/)
    return "the input is compressed: unpack it first, as by zcat"
  if (NR == 1 && /^(\377\376|\376\377)/) return "the input is UTF-16: iconv -f UTF-16 -t UTF-8 first"
  if (NR == 1 && /^\357\273\277/) return "a byte order mark stands before it: sed '1s/^\\xEF\\xBB\\xBF//' takes it off"
  if (!/^#/ && /\r[rw#]/) return "its lines end by CR alone: tr '\\r' '\\n' makes lines of it"
  if (length($0) > 128) return "it has " length($0) " bytes: a line, a comment too, has at most 128"
  return ""
}

function problem_of_line(   field, count, problem) {
  if ($0 == "") return "it is empty: leave it out, as by grep ."
  if (/^records: /) return "here `records` stopped: mend what it says"
  if (/\r/) return "a carriage return stands in it: lines end by LF or CR LF"
  if (/^[ \t]+[rw#]/) return "a blank stands before it: leave it out"
  if (/^["']/) return "its fields stand in quotes: leave those out"
  if (/^[rw]\t/) return "tabs stand between its fields: commas have to"
  if (/^[rw][ ;|]/) return "\"" substr($0, 2, 1) "\" stands between its fields: a comma has to"
  if (/^[RW],/) return "it begins with a capital letter: write " tolower(substr($0, 1, 1))
  if (NR == 1 && /^[a-z_]+,/ && !/[0-9]/ && !/^[rw],/) return "it looks like the names of columns: leave it out"
  if (!/^[rw],/) return "it begins with none of r, w and #: `records` makes records of the lines of a log"
  count = split($0, field, ",")
  if (/^w/ && count != 3) return "a watermark has 3 fields, w,STREAM,TIME: this has " count
  if (/^r/ && count != 5) return "a record has 5 fields, r,STREAM,TIME,KEY,VALUE: this has " count
  if (field[2] !~ /^[ab]$/) return "its stream is \"" field[2] "\": a stream is a or b"
  problem = problem_of_number("time", field[3], MOST_TIME)
  if (/^r/ && problem == "") problem = problem_of_key(field[4])
  if (/^r/ && problem == "") problem = problem_of_value(field[5])
  if (problem == "") problem = problem_of_stream(field[2])
  return problem != "" ? problem : problem_of_order(field[1], field[2], field[3])
}

# Of a field that has to be a whole number without a sign.
function problem_of_number(name, text, most,   its) {
  if (is_number(text, most)) return ""
  its = "its " name " "
  if (text == "") return its "is empty: it is a whole number"
  if (text ~ /^[ \t]*[-+0-9]+[ \t]*$/ && text ~ /[ \t]/) return its "has a blank beside it: leave it out"
  if (text ~ /^["'].*["']$/) return its "stands in quotes: leave those out"
  if (text ~ /^\+[0-9]/) return its "has a plus sign: leave it out"
  if (text ~ /^-[0-9]/) return its "is negative: it is 0 to " most
  if (text ~ /^0[0-9]+$/) return its "has a leading zero: leave it out"
  if (text ~ /^[0-9][0-9][0-9][0-9]-[0-9]/ || text ~ /:/) return its "is a date: `records -t` makes a number of it"
  if (text ~ /^[0-9]*\.[0-9]+$/) return its "has a fraction: count in smaller units, as 55 tenths for 5.5"
  if (text !~ /^[0-9]+$/)
    return its "is \"" text "\" and no whole number" (name == "key" ? ": `records -d` gives numbers to words" : "")
  if (name == "time") return its "is above 10^15: of times since 1970, seconds and milliseconds fit, and nothing finer"
  return its "is above " most
}

# Of a key, which is a word if the plan says so.
function problem_of_key(text) {
  if (!as_words) return problem_of_number("key", text, MOST_KEY)
  if (is_word(text)) return ""
  if (text == "") return "its key is empty: a word has 1 to 24 characters"
  if (length(text) > 24)
    return "its key has " length(text) " characters: a word has at most 24; `records -d` numbers longer ones"
  if (text ~ /"/) return "its key has a double quote: leave it out"
  if (text ~ /[ \t]/) return "its key has a blank: write _ for it"
  return "its key has a character that is not ASCII: `records -d` gives numbers to such words"
}

function problem_of_value(text,   digits) {
  if (is_value(text)) return ""
  digits = text
  sub(/^-/, "", digits)
  if (text == "-0") return "its value is -0: write 0"
  if (digits ~ /^[1-9][0-9]*$/) return "its value is not in 64 bits: it is -9223372036854775808 to " MOST_VALUE
  if (text ~ /^-/ && digits !~ /^(0[0-9]+|[0-9]*\.[0-9]+)$/) return "its value is \"" text "\" and no whole number"
  return problem_of_number("value", digits, MOST_VALUE)
}

function problem_of_stream(stream) {
  if (index(streams, stream) && note !~ /stream not in the plan/) return ""
  if (file != "")
    return "file " file " of feeds has lines of stream " file " alone" \
      (stream == file ? ", and the plan does not read it: hand in /dev/null" : ": put this line into the other file")
  return "the plan does not read stream " stream " (sum reads stream a): grep -v '^[rw]," stream ",' leaves it out"
}

function problem_of_order(kind, stream, time,   known) {
  if (!(stream in mark) || time + 0 >= mark[stream] + 0) return ""
  if (kind == "r" && drops_late) return ""
  known = " is below the watermark " mark[stream] " of line " place_of_mark[stream]
  if (kind == "w") return "this watermark goes back: its time " time known ": leave it out"
  return "this record is late: its time " time known ": take a greater delay (`records -l`), or no watermarks"
}
