# Writes the man page again, with the parts that are made of commands.txt: those between a line .\" made: PART and a line
# .\" end.
#
#   awk -f table.awk -f manual.awk commands.txt PAGE

BEGIN {
  read_table(ARGV[1])
  while ((getline line < ARGV[2]) > 0) {
    if (line ~ /^\.\\" end/) is_made = 0
    if (!is_made) print line
    if (line ~ /^\.\\" made: /) {
      is_made = 1
      sub(/^\.\\" made: /, "", line)
      sub(/,.*/, "", line)
      write_part(line)
    }
  }
  exit 0
}

function write_part(part,    place) {
  if (part == "synopsis") for (place = 1; place <= commands; place++) write_synopsis(command_name[place])
  if (part == "synopsis") for (place = 1; place <= others; place++) write_other_synopsis(place)
  if (part == "commands") for (place = 1; place <= commands; place++) write_command(command_name[place])
  if (part == "arguments") for (place = 1; place <= arguments; place++)
    print ".It Ar " argument_name[place] "\n" sentence(says[argument_name[place]])
  if (part == "options") for (place = 1; place <= options; place++) write_option(option_name[place])
  if (part == "exits") for (place = 1; place <= exits; place++)
    print ".It " exit_code[place] "\n" in_lines(says["exit " exit_code[place]])
}

function write_synopsis(name,    place) {
  print ".Nm\n.Cm " name
  for (place = 1; place <= arguments_of[name]; place++) print ".Ar " argument_of[name, place]
  if (group_of[name] != "") print ".Op Ar OPTIONS"
}

function write_other_synopsis(place,    word) {
  if (other_kind[place] != "front") return
  split(other_call[place], word, " ")
  if (word[1] ~ /^--/) print ".Nm\n.Fl -" substr(word[1], 3)
  else print ".Nm\n.Cm " word[1]
  if (word[2] != "") print (word[1] ~ /^--/ ? ".Op Ar " : ".Ar ") word[2]
}

function write_command(name,    place, line) {
  line = ".It Cm " name
  for (place = 1; place <= arguments_of[name]; place++) line = line " Ar " argument_of[name, place]
  print line "\n" in_lines(about[name])
}

function write_option(option) {
  print ".It Fl -" substr(option, 3) (value_of[option] == "" ? "" : " Ar " value_of[option])
  print sentence(says[option] (value_of[option] == "" ? "" : "; " least[option] " to " greatest[option]))
  if (group[option] == "all") print "Not for\n.Cm watch , part , resume\nand\n.Cm work ."
}

function sentence(text) {
  return in_lines(toupper(substr(text, 1, 1)) substr(text, 2) ".")
}

# A text as the page has it: each sentence on a line, and none that begins as a macro does.
function in_lines(text) {
  gsub(/\n/, " ", text)
  gsub(/\. /, ".\n", text)
  gsub(/--/, "\\-\\-", text)
  return text
}
