# Prints the record of each line, and the watermarks. See the script `records`, which sets the variables.
#
# It is done for each line of a log, so it calls functions for new texts alone: a time that is that of the line before,
# and a key that was met before, are taken as they are.

BEGIN {
  format = ENVIRON["format"]
  joiner = ENVIRON["joiner"]
  dictionary = ENVIRON["dictionary"]
  value = ENVIRON["value"]
  part_end = ENVIRON["part_end"]
  is_part = part_end != ""
  has_dictionary = dictionary != ""
  FS = quotes ? "\001" : separator
  head = "r," stream ","
  is_marked = delay != ""
  is_plain = format == "" && offset == 0
  zeros = length(times) - 1
  greatest = mark = columns = 0
  last_text = "\n"
  if (has_dictionary) read_numbers(dictionary)
  unknown = unknown_word(format, "YmdebaHMSFTzs")
  if (unknown != "") stop("-f knows no " unknown)
  if (value ~ /^=/ && !is_value(substr(value, 2))) stop("the value is no whole number of 64 bits: " value)
  if (!names) find_columns()
}

is_part && index($0, part_end) { is_whole = 1; exit }
NR == 1 { sub(/^\357\273\277/, "") } # a byte order mark
{ sub(/\r$/, "") }
/^[ \t]*$/ { next }
quotes { is_bad = 0; $0 = unquoted($0); if (is_bad) { leave_out(); next } }
names && !are_found { for (i = 1; i <= NF; i++) place_of[$i] = i; find_columns(); next }

{
  is_bad = 0
  if (NF < columns) refuse("it has no column " first_missing())

  text = time_columns == 1 ? $time_1 "" : time_columns == 2 ? $time_1 " " $time_2 : joined(time_places, " ")
  if (text != last_text) { # Both are texts: as numbers, 5 and 5.0 would be the same.
    if (is_plain && length(text) < 16 && text ~ /^(0|[1-9][0-9]*)$/) { time = last_text = text; at = time + 0 }
    else if (!is_in_minute(text)) set_time(text)
  }

  text = key_columns == 1 ? $key_1 : key_columns == 2 ? $key_1 joiner $key_2 : joined(key_places, joiner)
  if (has_dictionary) key = text
  else if (text in key_of) key = key_of[text]
  else key = key_in(text)

  text = fixed_value
  if (value_columns) {
    text = value_columns == 1 ? $value_1 : joined(value_places, " ")
    if (zeros || length(text) > 15 || text !~ /^(0|-?[1-9][0-9]*)$/) text = value_in(text)
  }

  if (is_bad) { leave_out(); next }
  if (is_marked && at < mark && late != "keep") { leave_out_late(); next }
  if (has_dictionary) {
    if (!(key in number_of) && !add_word(key, dictionary)) stop("the dictionary can't be written: " dictionary)
    key = number_of[key]
  }
  print head time "," key "," text
  if (is_marked && at > greatest) {
    greatest = at
    if (greatest - delay > mark) { mark = greatest - delay; print "w," stream "," sprintf("%.0f", mark) }
  }
  if (live) fflush()
}

END {
  if (stopped) exit 10
  if (bad) say_more("records: left out as no record: " bad)
  if (skipped) say_more("records: left out as late: " skipped)
  close("cat >&2")
  if (is_part && !is_whole) stop("the input could not be read to its end")
  if (added && !are_written(dictionary))
    stop("the dictionary has not what was written to it: is the disk full, or did another write to it? " dictionary)
}

# Says what is wrong, to the reader and to the program, which refuses such a line. Exit code 10 tells the script that it
# was said.
function stop(message) {
  print "records: " message
  close("cat >&2")
  say("records: " message)
  stopped = 1
  exit 10
}

# Keeps the first problem of a line.
function refuse(what) {
  if (!is_bad) problem = what
  is_bad = 1
}

# A line that gives no record.
function leave_out() {
  if (!skip_bad) stop("line " NR ": " problem)
  say_more("records: line " NR ": " problem)
  bad++
}

function leave_out_late() {
  if (late != "skip")
    stop("line " NR ": its time " time " is below the watermark " sprintf("%.0f", mark) \
      ": take a greater delay, -L or -D")
  skipped++
}

# The places of the columns that the options name, the greatest of them, and the first two of times and keys, since most
# have no more.
function find_columns() {
  time_columns = find_places(ENVIRON["time"]); time_places = places; time_1 = place[1]; time_2 = place[2]
  key_columns = find_places(ENVIRON["key"]); key_places = places; key_1 = place[1]; key_2 = place[2]
  value_columns = find_places(value ~ /^=/ ? "" : value); value_places = places; value_1 = place[1]
  fixed_value = value ~ /^=/ ? substr(value, 2) : 1
  if (!key_columns) key_of[""] = 0
  are_found = 1
}

# Sets `places` to the places of these names, and `place` to each of them, and gives how many there are.
function find_places(names_of_columns,   count, name, i) {
  places = ""
  count = split(names_of_columns, name, ",")
  for (i = 1; i <= count; i++) {
    if (name[i] in place_of) place[i] = place_of[name[i]]
    else if (name[i] ~ /^[1-9][0-9]*$/) place[i] = name[i] + 0
    else stop("no column is named " name[i] (names ? "" : ": -H says that the first line has the names"))
    if (place[i] > columns) columns = place[i]
    places = places " " place[i]
  }
  return count
}

# The columns at these places, joined.
function joined(list, joiner,   count, place, i, text) {
  count = split(list, place, " ")
  for (i = 1; i <= count; i++) text = text (i > 1 ? joiner : "") $place[i]
  return text
}

# The first of the columns, in the order of the options, that the line does not have.
function first_missing(   count, place, i) {
  count = split(time_places key_places value_places, place, " ")
  for (i = 1; i <= count; i++) if (place[i] > NF) return place[i]
}

# Whether a text is of the minute of the last one that `set_time` took; then it is the last text.
function is_in_minute(text,   told) {
  told = time_in_minute(text)
  if (told == "" || told + 0 < 0 || told + 0 > 1e15) return 0
  last_text = text
  time = told
  at = told + 0
  return 1
}

# Sets `time`, the text, and `at`, the number, to the time that a text tells.
function set_time(text) {
  last_text = "\n"
  second_at = 0
  time = format == "" && text ~ /^(0|[1-9][0-9]*)$/ ? text : time_by(text, format == "" ? iso_format(text) : format)
  if (time == "") refuse("no time: \"" text "\"" (format == "" ? "; -f says how it is written" : ", by " format))
  else if (!at_most(time, "1000000000000000")) refuse("its time is above 10^15: " time)
  else if (time + offset < 0 || time + offset > 1e15) refuse("its time is not 0 to 10^15: " time " and the offset")
  else {
    at = time + offset
    time = sprintf("%.0f", at)
    keep_minute(text, at)
    last_text = text
  }
}

# The key of a text that was not met before. It is kept, but not more than 100,000 of them.
function key_in(text) {
  if (as_words && !is_word(text))
    refuse("no word: \"" text "\" is not 1 to 24 characters of ASCII without blanks, commas and quotes")
  else if (!as_words && !is_number(text, "1000000000000000000"))
    refuse("no key: \"" text "\" is no whole number from 0 to 10^18; -d numbers words")
  else {
    if (++keys_kept > 100000) { split("", key_of); keys_kept = 1 }
    key_of[text] = text
  }
  return text
}

function value_in(text,   number) {
  number = zeros ? scaled(text, zeros) : text
  if (is_value(number)) return number
  refuse("no value: \"" text "\" " (zeros ? "times " times " " : "") "is no whole number of 64 bits")
  return text
}

# The line with \001 between its columns, which may stand in double quotes, with "" for a quote in one.
function unquoted(line,   text, end) {
  if (index(line, "\001")) refuse("it has a character of the number 1")
  for (;;) {
    if (match(line, /^"([^"]|"")*"/)) {
      column = substr(line, 2, RLENGTH - 2)
      gsub(/""/, "\"", column)
      text = text column
      line = substr(line, RLENGTH + 1)
    } else if (line ~ /^"/) refuse("a quote of it has no end")
    end = index(line, separator)
    text = text (end ? substr(line, 1, end - 1) : line)
    if (!end) return text
    text = text "\001"
    line = substr(line, end + 1)
  }
}
