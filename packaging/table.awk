# Reads commands.txt, whose head says what is in it.

# Fills: command_name[1..commands], input_of, group_of, gives, about, example by name; arguments_of[name] and argument_of[name, i];
# kind_of, least, greatest, says by argument; option_name[1..options], value_of, least, greatest, group, says by "--NAME";
# exit_code[1..exits], exit_commands, says by "exit CODE"; other_kind, other_call and other_says [1..others].
function read_table(path,    line) {
  while ((getline line < path) > 0) if (line != "" && line !~ /^#/) read_entry(line)
  close(path)
  if (commands) return
  print path ": no commands" | "cat >&2"
  exit 70
}

function read_entry(line,    field, name, place) {
  split(line, field, / [|] /)
  for (place in field) if (field[place] == "-") field[place] = ""
  name = field[2]
  if (field[1] == "command") {
    command_name[++commands] = name
    arguments_of[name] = split(field[3], argument_list, " ")
    for (place = 1; place <= arguments_of[name]; place++) argument_of[name, place] = argument_list[place]
    input_of[name] = field[4]; group_of[name] = field[5]; gives[name] = field[6]
  }
  else if (field[1] == "about") about[name] = about[name] (about[name] == "" ? "" : "\n") text_after(line, 2)
  else if (field[1] == "example") example[name] = text_after(line, 2)
  else if (field[1] == "argument") {
    argument_name[++arguments] = name
    kind_of[name] = field[3]; least[name] = field[4]; greatest[name] = field[5]; says[name] = field[6]
  }
  else if (field[1] == "option") {
    option_name[++options] = name = "--" name
    value_of[name] = field[3]; least[name] = field[4]; greatest[name] = field[5]
    group[name] = field[6]; says[name] = field[7]
  }
  else if (field[1] == "exit") { exit_code[++exits] = name; exit_commands[name] = field[3]; says["exit " name] = field[4] }
  else { other_kind[++others] = field[1]; other_call[others] = name; other_says[others] = field[3] }
}

# What stands after so many separators.
function text_after(line, count) {
  while (count-- > 0) line = substr(line, index(line, " | ") + 3)
  return line
}

# Whether a command takes an option.
function takes(command, option) {
  return group_of[command] == "all" || group_of[command] == group[option]
}

# How a command is called.
function form_of(command,    text, place) {
  text = command
  for (place = 1; place <= arguments_of[command]; place++) text = text " " argument_of[command, place]
  if (group_of[command] != "") text = text " [OPTIONS]"
  return input_of[command] == "" ? text : text " " input_of[command]
}

# How an option is written.
function form_of_option(option) {
  return value_of[option] == "" ? option : option " " value_of[option]
}

# Whether a command can end with this code, and the codes of the script, if `command` is "script".
function ends_with(command, code) {
  return exit_commands[code] == "all" || index(" " exit_commands[code] " ", " " command " ") > 0
}
