# Prints each row with the text of its time and the word of its key. See the script `rows`, which sets the variables.

BEGIN {
  FS = ","
  format = ENVIRON["format"]
  dictionary = ENVIRON["dictionary"]
  unknown = unknown_word(format, "YmdebaHMSFTsf")
  if (unknown != "") stop("-f knows no " unknown)
  if (format == "") format = unit == 1000 ? "%FT%T.%fZ" : "%FT%TZ"
  for (i = 1; i < 32; i++) escape_of[sprintf("%c", i)] = sprintf("\\u%04x", i)
  last_end = ""
  if (header) { print "time,key,value"; if (live) fflush() }
}

!is_row() { stop("line " NR " is no row: " $0) }

# The rows of a window stand together, so a time is made once for most of them.
$1 != last_end { time = time_of($1 - size - offset); last_end = $1 }

{
  word = word_of($2, dictionary)
  if (is_unread) stop("line " NR ": the dictionary can't be read: " dictionary)
  if (json) print "{\"time\":" time ",\"key\":" in_json(word) ",\"value\":" $3 "}"
  else print time "," in_quotes(word) "," $3
  if (live) fflush()
}

END { if (stopped) exit 10 }

function stop(message) {
  say("rows: " message)
  stopped = 1
  exit 10
}

function time_of(number,   text) {
  if (numbers) return sprintf("%.0f", number)
  text = text_of(number, format)
  if (year > 9999)
    stop("line " NR ": its time lies after the year 9999: say -m if times are milliseconds, or -n if they are no dates")
  return json ? in_json(text) : text
}

function in_quotes(word) {
  if (word !~ /[,"]/) return word
  gsub(/"/, "\"\"", word)
  return "\"" word "\""
}

# The text as one of JSON. A byte beyond ASCII stays: texts are taken to be UTF-8.
function in_json(text,   i, letter, escaped) {
  if (text !~ /["\\]/ && text !~ /[\001-\037]/) return "\"" text "\""
  for (i = 1; i <= length(text); i++) {
    letter = substr(text, i, 1)
    if (letter == "\"" || letter == "\\") letter = "\\" letter
    else if (letter in escape_of) letter = escape_of[letter]
    escaped = escaped letter
  }
  return "\"" escaped "\""
}
