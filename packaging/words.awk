# Says which argument streambox does not understand, and the nearest form of the command.
#
#   awk -f table.awk -f words.awk commands.txt ARGUMENT..
#
# Prints hints and ends with 1 if the arguments are refused; prints nothing and ends with 0 if they are understood.

BEGIN {
  read_table(ARGV[1])
  for (place = 2; place < ARGC; place++) word[++words] = ARGV[place]
  problem = problem_of_words()
  if (problem == "") exit 0
  print "hint: " problem
  if (command in arguments_of) print "hint: the form is: streambox " form_of(command)
  else print "hint: streambox --help lists the commands"
  exit 1
}

function problem_of_words(    place, argument, problem) {
  if (!words) return "a command is missing"
  if (!(word[1] in arguments_of)) return problem_of_command(word[1])
  command = word[1]
  for (place = 1; place <= arguments_of[command]; place++) {
    argument = argument_of[command, place]
    if (place + 1 > words) return argument " is missing: it is " says[argument]
    problem = problem_of_argument(argument, word[place + 1])
    if (problem != "") return problem
  }
  for (place = arguments_of[command] + 2; place <= words; place++) {
    problem = problem_of_option(word[place], place)
    if (problem != "") return problem
    if (value_of[word[place]] != "") place++
  }
  return ""
}

function problem_of_command(text,    near) {
  if (text ~ /^-/) return "\"" text "\" is not understood: the command is the first argument, and options are the last"
  near = nearest_command(text)
  if (near == "" && distance_of(text, "check") < 3) return "there is no command \"" text "\": do you mean check PLAN?"
  if (near == "") return "there is no command \"" text "\""
  command = near
  return "there is no command \"" text "\": do you mean " near "?"
}

# Of the commands that are nearest the first that takes the second argument, or the first.
function nearest_command(text,    place, name, fitting, count) {
  for (place = 1; place <= commands; place++) {
    name = command_name[place]
    if (words < 2 || arguments_of[name] && problem_of_argument(argument_of[name, 1], word[2]) == "")
      fitting[++count] = name
  }
  name = nearest(text, fitting, count)
  return name == "" ? nearest(text, command_name, commands) : name
}

function problem_of_argument(name, text,    kind) {
  kind = kind_of[name]
  if (text == "") return name " is empty: " says[name]
  if (text ~ /^-/) return "\"" text "\" is where " name " has to be: options come after the other arguments"
  if (kind == "number") return problem_of_number(name, text)
  if (kind == "key" && (length(text) > 24 || text ~ /[ ,"]/ || text ~ /[^!-~]/))
    return "\"" text "\" is no KEY: it is " says[name]
  return ""
}

# Of a number between the least and the greatest of an argument or option. Numbers are compared as texts: they may have
# more digits than awk counts by.
function problem_of_number(name, text,    range) {
  range = "a whole number from " least[name] " to " greatest[name]
  if (text ~ /^0+[1-9][0-9]*$/) { sub(/^0+/, "", text); return name " has a leading zero: write " text }
  if (text ~ /^[1-9][0-9]*[A-Za-z]+$/) return "\"" text "\" has a unit: " name " is " range ", in the input's units"
  if (text !~ /^[0-9]+$/) return "\"" text "\" is no " name ": it is " range
  if (text == "0" || is_greater(text, greatest[name])) return name " is " range ", and not " text
  return ""
}

function is_greater(text, limit) {
  if (length(text) != length(limit)) return length(text) > length(limit)
  return ("x" text) > ("x" limit)
}

function problem_of_option(text, place,    near, option) {
  if (text !~ /^-/) return problem_of_extra(text)
  if (text ~ /^--[a-z]+=/) {
    option = substr(text, 1, index(text, "=") - 1)
    if (option in group) return "\"" text "\" is two arguments: " option " " substr(text, index(text, "=") + 1)
  }
  if (!(text in group)) {
    near = nearest(text, option_name, options)
    return "there is no option \"" text "\"" (near == "" ? list_of_options() : ": do you mean " near "?")
  }
  if (!takes(command, text)) return command " does not take " text list_of_options()
  if (text in is_given) return text " is given twice"
  is_given[text] = 1
  if (value_of[text] == "") return ""
  if (place == words) return text " has no value: write " text " and a number"
  return problem_of_number(text, word[place + 1])
}

function problem_of_extra(text) {
  if (input_of[command] ~ /^</) return "\"" text "\" is one argument too many: the input comes by <"
  return "\"" text "\" is one argument too many"
}

function list_of_options(    place, list) {
  for (place = 1; place <= options; place++)
    if (takes(command, option_name[place])) list = list " " option_name[place]
  return list == "" ? ": it takes no options" : ": the options are" list
}

# The name that one or two slips away, or that begins so: none if there is no such.
function nearest(text, names, count,    place, distance, best, found) {
  best = 3
  for (place = 1; place <= count; place++) {
    distance = distance_of(text, names[place])
    if (distance < best && distance < length(names[place]) - 1) { best = distance; found = names[place] }
  }
  return found
}

# How many letters have to be put in, left out, changed or swapped with their neighbour to make one text of the other.
function distance_of(from, to,    row, column, cost, step, table) {
  for (row = 0; row <= length(from); row++) table[row, 0] = row
  for (column = 0; column <= length(to); column++) table[0, column] = column
  for (row = 1; row <= length(from); row++)
    for (column = 1; column <= length(to); column++) {
      step = substr(from, row, 1) == substr(to, column, 1) ? 0 : 1
      cost = table[row - 1, column - 1] + step
      if (table[row - 1, column] + 1 < cost) cost = table[row - 1, column] + 1
      if (table[row, column - 1] + 1 < cost) cost = table[row, column - 1] + 1
      if (row > 1 && column > 1 && substr(from, row - 1, 1) == substr(to, column, 1) &&
        substr(from, row, 1) == substr(to, column - 1, 1) && table[row - 2, column - 2] + 1 < cost)
        cost = table[row - 2, column - 2] + 1
      table[row, column] = cost
    }
  return table[length(from), length(to)]
}
