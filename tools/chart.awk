# Reads rows for a chart. `bars.awk` or `picture.awk` draws them: its function `draw`. See the script `chart`.

BEGIN {
  FS = ","
  format = ENVIRON["format"]
  dictionary = ENVIRON["dictionary"]
  keys = step = 0
  unknown = unknown_word(format, "YmdebaHMSFTsf")
  if (unknown != "") stop("-f knows no " unknown)
}

!is_row() { stop("line " NR " is no row: " $0) }

NR == 1 { first = last = some_end = $1 + 0 }
$1 + 0 < first { first = $1 + 0 }
$1 + 0 > last { last = $1 + 0 }
{ step = common_part(step, $1 < some_end ? some_end - $1 : $1 - some_end) }

{
  if (!($2 in greatest)) { key[++keys] = $2; greatest[$2] = least[$2] = $3 }
  if ($3 + 0 > greatest[$2] + 0) greatest[$2] = $3
  if ($3 + 0 < least[$2] + 0) least[$2] = $3
  if (($1, $2) in value)
    stop("line " NR ": a second row of window " $1 " and key " $2 ": a chart has one, so top can't be drawn")
  value[$1, $2] = $3
}

END {
  if (stopped) exit 10
  if (!keys) { say("chart: there are no rows"); exit }
  if (step == 0) step = first
  slots = (last - first) / step + 1
  if (slots > 400)
    stop("there are " sprintf("%.0f", slots) " windows from first to last: take greater ones, or a part of the rows")
  if (format == "") format = format_for(step)
  word_of(key[1], dictionary)
  if (is_unread) stop("the dictionary can't be read: " dictionary)
  draw()
}

function stop(message) {
  say("chart: " message)
  stopped = 1
  exit 10
}

# The greatest common divisor: how far apart the ends of windows are.
function common_part(a, b,   rest) {
  while (b > 0) { rest = a % b; a = b; b = rest }
  return a
}

# The format that shows times so far apart.
function format_for(step) {
  if (step % (86400 * unit) == 0) return "%F"
  if (step % (60 * unit) == 0) return slots * step <= 86400 * unit ? "%H:%M" : "%m-%d %H:%M"
  return step % unit == 0 ? "%H:%M:%S" : "%H:%M:%S.%f"
}

function time_text(time) {
  return numbers ? sprintf("%.0f", time - offset) : text_of(time - offset, format)
}

# How many characters a text has in UTF-8: bytes that go on with a character do not count.
function width_of(text) {
  gsub(/[\200-\277]/, "", text)
  return length(text)
}

# A text with blanks before it or, of a negative width, behind it.
function padded(text, width,   blanks) {
  blanks = (width < 0 ? -width : width) - width_of(text)
  while (blanks-- > 0) text = width < 0 ? text " " : " " text
  return text
}
