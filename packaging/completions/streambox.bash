# Completes the arguments of streambox. Load it by: source streambox.bash. Made by packaging/make.sh of packaging/commands.txt.
_streambox() {
  local word=${COMP_WORDS[COMP_CWORD]} before=${COMP_WORDS[COMP_CWORD - 1]} first=1 kinds='' options='' kind option
  COMPREPLY=()
  [[ ${COMP_WORDS[1]} != --try && ${COMP_WORDS[1]} != --help ]] || ((COMP_CWORD == 1)) || first=2
  if [[ $before == '<' || $before == '>' || $before == '2>' ]]; then
    kind='file'
  elif ((COMP_CWORD == first)); then
    mapfile -t COMPREPLY < <(compgen -W 'sum run slow watch feeds part save resume audit work check --help --version --build --try' -- "$word")
    return
  else
    case ${COMP_WORDS[first]} in
      sum) kinds='number' options='--bundle --pending --workers --diary --taps' ;;
      run) kinds='plan' options='--bundle --pending --workers --diary --taps' ;;
      slow) kinds='plan' options='' ;;
      watch) kinds='plan key' options='--bundle --pending --workers' ;;
      feeds) kinds='plan file file' options='--bundle --pending --workers --diary --taps' ;;
      part) kinds='plan' options='--bundle --pending --workers' ;;
      save) kinds='plan' options='' ;;
      resume) kinds='plan file' options='--bundle --pending --workers' ;;
      audit) kinds='' options='' ;;
      work) kinds='number' options='--bundle --pending --workers' ;;
      check) kinds=plan ;;
    esac
    read -ra kinds <<< "$kinds"
    kind=${kinds[COMP_CWORD - first - 1]-option}
  fi
  case $before in
    --bundle | --pending | --workers) return ;;
  esac
  case $kind in
    plan) mapfile -t COMPREPLY < <(compgen -f -X '!*.toml' -- "$word"; compgen -d -- "$word") ;;
    file) mapfile -t COMPREPLY < <(compgen -f -- "$word") ;;
    option)
      for option in $options; do
        [[ " ${COMP_WORDS[*]} " == *" $option "* || $option != "$word"* ]] || COMPREPLY+=("$option")
      done
      ;;
  esac
  [[ $kind == option ]] || compopt -o filenames 2> /dev/null || true
}
complete -F _streambox streambox ./streambox
