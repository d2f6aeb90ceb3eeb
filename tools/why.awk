# Tests each line as streambox does, and explains the first that it refuses. See the script `why`, which sets `streams`.

BEGIN {
  note = ENVIRON["note"]
  of_line = "^(file [ab]: )?line [0-9]+: (malformed|too long|late record, |watermark goes back, |stream not |not legal)"
  sub(/\n+$/, "", note)
  sub(/(^|\n)races: [^\n]*$/, "", note) # what --try says last
  sub(/^(.*\n)+/, "", note)
  if (note ~ /^(file [ab]: )?line [0-9]+: dropped, /) {
    print "late records were left out, as the plan says, and the run went on"
    is_told = 1
  } else if (is_of_diary(note) || note ~ /^[0-9]+,[^,]+,-?[0-9]+$/) {
    print "the run was read to its end: " (is_of_diary(note) ? "this is its diary" : "these are rows that --taps shows")
    is_told = 1
  } else if (note ~ of_line) {
    if (note ~ /^file/) { file = substr(note, 6, 1); streams = file; note = substr(note, 9) }
    split(note, word, /[ :]+/)
    wanted = word[2] + 0 # the line of the note, or 0
    is_diary = note ~ /not legal/
  } else if (note != "") {
    print explain_note(note)
    code = 2
    is_told = 1
  }
  if (is_told) exit
}

NR == 1 && is_of_diary($0) { is_diary = 1 }
NR < wanted { keep_mark(); next }
{ sub(/\r$/, "") }
is_diary { problem = problem_of_diary_line() }
is_diary && note ~ /not legal/ { if (problem != "") { tell_no_diary(); exit } problem = rule_of_line() }
!is_diary { problem = problem_of_bytes() }
!is_diary && problem == "" && !/^#/ { problem = problem_of_line() }
problem != "" { tell(problem) }
wanted { tell_other_input(); exit }
{ keep_mark() }

END {
  if (!code && !is_told && wanted) tell_other_input()
  if (!code && !is_told)
    print "nothing is wrong with " (is_diary ? "the form of its lines: audit says whether they are legal" : "its lines")
  exit code == 2 ? 10 : code
}

function tell(what,   shown) {
  print (file == "" ? "" : "file " file ": ") "line " NR ": " what
  shown = substr($0, 1, 100)
  gsub(/\t/, "\\t", shown)
  gsub(/\r/, "\\r", shown)
  if (what !~ /^the input/) print "  | " shown (length($0) > 100 ? ".." : "")
  code = 3
  exit
}

function tell_other_input() {
  print "line " wanted ": nothing is wrong with it here: is this " input_of_note() ", and are these its streams (-s)?"
  code = 2
}

function tell_no_diary() {
  print "line " NR ": this is no line of a diary: hand in the diary that audit read, by <"
  code = 2
}

function input_of_note() {
  if (file != "") return "the file of stream " file
  return is_diary ? "the diary of the note" : "the input of the note"
}

# Keeps the watermark of a line, if it is one, to test later lines by.
function keep_mark(   field) {
  sub(/\r$/, "")
  if (split($0, field, ",") != 3 || field[1] != "w" || !is_number(field[3], MOST_TIME)) return
  mark[field[2]] = field[3]
  place_of_mark[field[2]] = NR
}
