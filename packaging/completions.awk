# Writes the completions of bash, zsh and fish: DIRECTORY/streambox.bash, _streambox and streambox.fish.
#
#   awk -f table.awk -f completions.awk commands.txt DIRECTORY

BEGIN {
  read_table(ARGV[1])
  write_bash(ARGV[2] "/streambox.bash")
  write_zsh(ARGV[2] "/_streambox")
  write_fish(ARGV[2] "/streambox.fish")
  exit 0
}

function head_of(file, how) {
  print "# Completes the arguments of streambox. " how " Made by packaging/make.sh of packaging/commands.txt." > file
}

function names(    place, list) {
  for (place = 1; place <= commands; place++) list = list (place > 1 ? " " : "") command_name[place]
  return list
}

function options_of(name,    place, list) {
  for (place = 1; place <= options; place++)
    if (takes(name, option_name[place])) list = list (list == "" ? "" : " ") option_name[place]
  return list
}

function kinds_of(name,    place, list) {
  for (place = 1; place <= arguments_of[name]; place++)
    list = list (place > 1 ? " " : "") kind_of[argument_of[name, place]]
  return list
}

function write_bash(file,    place, name, valued) {
  head_of(file, "Load it by: source streambox.bash.")
  print "_streambox() {" > file
  print "  local word=${COMP_WORDS[COMP_CWORD]} before=${COMP_WORDS[COMP_CWORD - 1]} first=1 kinds='' options='' kind option" > file
  print "  COMPREPLY=()" > file
  print "  [[ ${COMP_WORDS[1]} != --try && ${COMP_WORDS[1]} != --help ]] || ((COMP_CWORD == 1)) || first=2" > file
  print "  if [[ $before == '<' || $before == '>' || $before == '2>' ]]; then" > file
  print "    kind='file'" > file
  print "  elif ((COMP_CWORD == first)); then" > file
  print "    mapfile -t COMPREPLY < <(compgen -W '" names() " check --help --version --build --try' -- \"$word\")" > file
  print "    return" > file
  print "  else" > file
  print "    case ${COMP_WORDS[first]} in" > file
  for (place = 1; place <= commands; place++) {
    name = command_name[place]
    print "      " name ") kinds='" kinds_of(name) "' options='" options_of(name) "' ;;" > file
  }
  print "      check) kinds=plan ;;" > file
  print "    esac" > file
  print "    read -ra kinds <<< \"$kinds\"" > file
  print "    kind=${kinds[COMP_CWORD - first - 1]-option}" > file
  print "  fi" > file
  for (place = 1; place <= options; place++)
    if (value_of[option_name[place]] != "") valued = valued (valued == "" ? "" : " | ") option_name[place]
  print "  case $before in" > file
  print "    " valued ") return ;;" > file
  print "  esac" > file
  print "  case $kind in" > file
  print "    plan) mapfile -t COMPREPLY < <(compgen -f -X '!*.toml' -- \"$word\"; compgen -d -- \"$word\") ;;" > file
  print "    file) mapfile -t COMPREPLY < <(compgen -f -- \"$word\") ;;" > file
  print "    option)" > file
  print "      for option in $options; do" > file
  print "        [[ \" ${COMP_WORDS[*]} \" == *\" $option \"* || $option != \"$word\"* ]] || COMPREPLY+=(\"$option\")" > file
  print "      done" > file
  print "      ;;" > file
  print "  esac" > file
  print "  [[ $kind == option ]] || compopt -o filenames 2> /dev/null || true" > file
  print "}" > file
  print "complete -F _streambox streambox ./streambox" > file
  close(file)
}

# A text within '..' of zsh, in which : and ] are signs.
function for_zsh(text) {
  gsub(/'/, "'\\''", text)
  gsub(/\[/, "\\[", text)
  gsub(/\]/, "\\]", text)
  gsub(/:/, "\\:", text)
  return text
}

function write_zsh(file,    place, name, number, option) {
  print "#compdef streambox" > file
  head_of(file, "A file for a directory of $fpath.")
  print "_streambox() {" > file
  print "  local -a commands" > file
  print "  commands=(" > file
  for (place = 1; place <= commands; place++)
    print "    '" command_name[place] ":" for_zsh(gives[command_name[place]]) "'" > file
  print "    'check:try a plan without input, and draw it'" > file
  print "  )" > file
  print "  if ((CURRENT == 2)); then" > file
  print "    _describe command commands" > file
  print "    _arguments '--help[what can be called]' '--version[the version]'" > file
  print "    return" > file
  print "  fi" > file
  print "  shift words" > file
  print "  ((CURRENT--))" > file
  print "  case $words[1] in" > file
  for (place = 1; place <= commands; place++) {
    name = command_name[place]
    printf "    %s) _arguments", name > file
    for (number = 1; number <= arguments_of[name]; number++)
      printf " \\\n      '%d:%s:%s'", number, argument_of[name, number], zsh_kind(kind_of[argument_of[name, number]]) > file
    for (number = 1; number <= options; number++) {
      option = option_name[number]
      if (takes(name, option))
        printf " \\\n      '%s[%s]%s'", option, for_zsh(says[option]), (value_of[option] == "" ? "" : ":" value_of[option] ": ") > file
    }
    print " ;;" > file
  }
  print "    check) _arguments '1:PLAN:_files -g \"*.toml(-.)\"' ;;" > file
  print "    --help) _describe command commands ;;" > file
  print "  esac" > file
  print "}" > file
  print "_streambox \"$@\"" > file
  close(file)
}

function zsh_kind(kind) {
  if (kind == "plan") return "_files -g \"*.toml(-.)\""
  return (kind == "file" ? "_files" : " ")
}

function for_fish(text) {
  gsub(/'/, "\\'", text)
  return text
}

function write_fish(file,    place, name, number, option) {
  head_of(file, "A file for ~/.config/fish/completions.")
  print "complete -c streambox -n __fish_use_subcommand -f -l help -d 'what can be called'" > file
  print "complete -c streambox -n __fish_use_subcommand -f -l version -d 'the version'" > file
  print "complete -c streambox -n __fish_use_subcommand -f -a check -d 'try a plan without input, and draw it'" > file
  for (place = 1; place <= commands; place++) {
    name = command_name[place]
    print "complete -c streambox -n __fish_use_subcommand -f -a " name " -d '" for_fish(gives[name]) "'" > file
    if (kinds_of(name) !~ /plan|file/) print "complete -c streambox -n '__fish_seen_subcommand_from " name "' -f" > file
    for (number = 1; number <= options; number++) {
      option = option_name[number]
      if (takes(name, option))
        print "complete -c streambox -n '__fish_seen_subcommand_from " name "' -l " substr(option, 3) \
          (value_of[option] == "" ? "" : " -x") " -d '" for_fish(says[option]) "'" > file
    }
  }
  close(file)
}
