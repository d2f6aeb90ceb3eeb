# Writes the pages that --help prints: DIRECTORY/streambox.txt and script.txt, which have all commands, and one for each
# command.
#
#   awk -f table.awk -f help.awk commands.txt DIRECTORY

BEGIN {
  read_table(ARGV[1])
  directory = ARGV[2]
  write_overview(directory "/streambox.txt", "streambox", "front")
  write_overview(directory "/script.txt", "./streambox", "script")
  for (place = 1; place <= commands; place++) write_page(directory "/" command_name[place] ".txt", command_name[place])
  write_check(directory "/check.txt")
  exit 0
}

# All commands, as they are called by this name.
function write_overview(file, name, kind,    place) {
  print "streambox adds up, counts and joins events by window of time and key.\n" > file
  for (place = 1; place <= commands; place++)
    printf "  %-52s %s\n", name " " form_of(command_name[place]), gives[command_name[place]] > file
  for (place = 1; place <= others; place++)
    if (other_kind[place] == "front" || other_kind[place] == kind)
      printf "  %-52s %s\n", name " " other_call[place], other_says[place] > file
  print "\nA line of the input is an event, r,STREAM,TIME,KEY,VALUE, a watermark, w,STREAM,TIME, or" > file
  print "a comment, # TEXT. STREAM is a or b. TIME, KEY and VALUE are whole numbers; KEY is a word if" > file
  print "the plan says so. A row is END,KEY,VALUE: the end of a window, a key, and what its values" > file
  print "come to." > file
  print "\nTry it:\n\n  " with_name(example["sum"], name) "\n\nOptions, after the other arguments, each at most once:\n" > file
  for (place = 1; place <= options; place++) write_option(file, option_name[place])
  print "\nExit codes:\n" > file
  for (place = 1; place <= exits; place++)
    if (exit_commands[exit_code[place]] != "script" || kind == "script") write_exit(file, exit_code[place])
  close(file)
}

function write_page(file, name,    place) {
  print "streambox " form_of(name) "\n\n" about[name] "\n" > file
  for (place = 1; place <= arguments_of[name]; place++)
    printf "  %-14s %s\n", argument_of[name, place], says[argument_of[name, place]] > file
  if (arguments_of[name]) print "" > file
  if (group_of[name] != "") print "Options, after the other arguments, each at most once. The rows do not depend on them.\n" > file
  for (place = 1; place <= options; place++) if (takes(name, option_name[place])) write_option(file, option_name[place])
  if (group_of[name] != "") print "" > file
  print "Example:\n\n  " example[name] "\n\nExit codes:\n" > file
  for (place = 1; place <= exits; place++) if (ends_with(name, exit_code[place])) write_exit(file, exit_code[place])
  close(file)
}

function write_check(file) {
  print "streambox check PLAN\n" > file
  print "Runs the plan in the file PLAN without input, so that each fault of it shows. If there is" > file
  print "none, it draws the plan, a line a transform: its name, its line in the file, what it takes" > file
  print "and does, its windows, and how far back a row reaches. If there is one, it says after the" > file
  print "program's own text which transform and line that is. A plan in a form of TOML that it does" > file
  print "not know is not drawn. The exit code is that of streambox run PLAN." > file
  close(file)
}

function write_option(file, option) {
  printf "  %-14s %s\n", form_of_option(option), says[option] range_of(option) > file
}

function range_of(option) {
  return value_of[option] == "" ? "" : "; " least[option] " to " greatest[option]
}

# An exit code, and what it means in lines of at most 90 characters.
function write_exit(file, code,    count, word, place, line) {
  line = sprintf("  %-3s", code)
  count = split(says["exit " code], word, " ")
  for (place = 1; place <= count; place++) {
    if (length(line) + length(word[place]) >= 90) { print line > file; line = "     " }
    line = line " " word[place]
  }
  print line > file
}

function with_name(text, name) {
  gsub(/streambox/, name, text)
  return text
}
