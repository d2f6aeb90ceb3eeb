# What the notes mean that are about no line of the input: a pattern of each, and what to do.

BEGIN {
  means("words not understood",
    "the arguments are no command: these are sum SIZE, run PLAN, slow PLAN, watch PLAN KEY, feeds PLAN FILE_A " \
      "FILE_B, part PLAN, save PLAN, resume PLAN CHECKPOINT, audit and work N. SIZE and N are digits alone, " \
      "options such as --workers 4 come last, and the input comes by <")
  means("file failed",
    "the plan, a table, a file of feeds or the checkpoint can't be read: it is not there, is a directory, or you " \
      "may not read it. Names are taken from the directory where you are: go to that of the plan first")
  means("input failed", "the input can't be read: is it a directory, or closed?")
  means("output failed", "the rows can't be written: the disk is full, or who reads them has ended, as head does")
  means("out of memory",
    "give watermarks more often, make windows smaller, or take a machine with more memory. slow and --diary keep " \
      "more with each line: leave them out")
  means("tap [0-9]+ failed",
    "with --taps, standard error could not be written: send it to a file on a disk with space, or leave out --taps")
  means("record file too long",
    "a file of feeds or the checkpoint has more than 268435456 bytes: merge the two files and let run read them; " \
      "if it is the checkpoint, cut after a later watermark, or run over the whole input")
  means("checkpoint: line [0-9]+: malformed",
    "this line can't stand in a checkpoint of this plan. If it is the last line or the one after it, the file was " \
      "cut off: run save again. Else the file is of another plan, or was changed")
  means("line [0-9]+: too many lines", "the input has more than 4294967295 lines: split it at the border of a window")
  means("plan: file too long", "a plan has at most 1048576 bytes: is it the plan?")
  means("plan: not TOML",
    "the plan is not TOML, not UTF-8, or has a whole number of more than 64 bits: python3 -c 'import sys, " \
      "tomllib; tomllib.load(sys.stdin.buffer)' < plan.toml says where")
  means("plan: unknown field",
    "above the first [[transform]] stand late and keys alone, and each transform begins with [[transform]], not " \
      "[[transforms]]")
  means("plan: late: .*", "late is \"refuse\" or \"drop\", in quotes")
  means("plan: keys: .*", "keys is \"numbers\" or \"words\", in quotes")
  means("plan: transform: .*", "the plan has no transform: write [[transform]], in double brackets, before each")
  means("plan: too many transforms", "a plan has at most 12: make the rows of one plan the input of another")
  means("plan: no window",
    "filters, maps, expansions and lookups alone give no rows: add count, sum, or a session, for example")
  name_transform_notes()
  means("(streambox|records|rows|chart|step): .*",
    "this is no note of the program, but of the script that it names: do what it says")
}

# The notes that name a transform by its place in the plan.
function name_transform_notes() {
  in_transform("transform: wrong type", "it is no table: write [[transform]] before each")
  in_transform("name: .*", "name is 1 to 32 of a to z, 0 to 9 and _, in quotes, a letter first, and not a or b")
  in_transform("name taken", "an earlier transform has this name: give it another")
  in_transform("kind: .*", "each transform has a kind, in quotes, as kind = \"sum\"")
  in_transform("unknown kind",
    "kind is filter, map, expand, lookup, count, sum, min, max, distinct, top, session or join")
  in_transform("unknown field",
    "this kind has no such key, or the key is written otherwise: docs/PLANS.md has the keys of each kind. late " \
      "and keys stand above the first [[transform]]")
  in_transform("from: (missing|wrong type)", "from is \"a\", \"b\" or the name of an earlier transform, in quotes")
  in_transform("with: (missing|wrong type)", "with is \"a\", \"b\" or the name of an earlier transform, in quotes")
  in_transform("(from|with): unknown",
    "no earlier transform has this name; a stream is \"a\" or \"b\", in small letters")
  in_transform("(from|with): used twice",
    "something takes this stream or transform already: make two plans, and run both")
  in_transform("field: .*", "field is \"time\", \"key\" or \"value\"; in a plan of words it is not \"key\"")
  in_transform("test: .*", "test is \"less\", \"at_most\", \"equal\", \"at_least\" or \"more\"")
  in_transform("number: .*",
    "number is a whole number without quotes: for key_mod and key_div 1 to 10^18, for key_set 0 to 10^18")
  in_transform("change: .*",
    "change is \"key_mod\", \"key_div\", \"key_set\", \"value_add\", \"value_mul\" or \"value_set\"; in a plan of " \
      "words it changes the value")
  in_transform("addends: .*", "addends is a list of 1 to 8 whole numbers, as [0, 10]")
  in_transform("size: .*", "size is a whole number from 1 to 10^12, without quotes")
  in_transform("every: .*",
    "every is a whole number that divides size, into at most 64 parts: leave it out for windows side by side")
  in_transform("keep: .*", "keep is 1 to 16, without quotes")
  in_transform("gap: .*", "gap is a whole number from 1 to 10^12, without quotes")
  in_transform("give: .*",
    "give of a join is \"add\", \"sub\", \"mul\", \"min\", \"max\", \"left\" or \"right\"; of a session it is " \
      "\"count\", \"sum\", \"min\", \"max\" or \"distinct\"")
  in_transform("table: .*", "table is the name of a file, in quotes")
  in_transform("table too long", "a table has at most 4194304 bytes: leave out what the input does not have")
  in_transform("table row [0-9]+: too many rows",
    "a table has at most 100000 rows: leave out what the input does not have")
  in_transform("table row [0-9]+: repeated key",
    "an earlier row has this key: sort -t, -k1,1n -u table.csv keeps one row of each")
  in_transform("table row [0-9]+: (not two columns|bad key|bad image)",
    "a row of a table is KEY,IMAGE, both 0 to 10^18 in plain digits or, in a plan of words, words: no names of " \
      "columns, no blanks. Empty lines are not counted")
  in_transform("second join", "a plan has at most one join: make the rows of one plan the input of another")
  in_transform("not used", "no later transform has it as its from or with: only the rows of the last one are printed")
  in_transform("session cannot be saved",
    "save and resume take no plan with a session: keep the input, and run all of it again")
}

function means(pattern, advice) {
  pattern_of[++known_notes] = "^" pattern "$"
  advice_of[known_notes] = advice
}

function in_transform(pattern, advice) { means("plan: transform [0-9]+: " pattern, advice) }

function explain_note(note,   i, place) {
  if (match(note, /transform [0-9]+: /)) place = substr(note, RSTART, RLENGTH)
  for (i = 1; i <= known_notes; i++) if (note ~ pattern_of[i]) return place advice_of[i]
  return "this is no note of streambox: " note
}
