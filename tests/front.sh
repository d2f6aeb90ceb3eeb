#!/usr/bin/env bash
# Tries packaging/front, the command as it is installed: that it changes no row, no exit code and no byte of the input,
# what it says after the program, how it ends by signals, and the completions. It runs a program of its
# own that ends as it is told. With STREAMBOX, the absolute path of the real program, that is tried, too.
set -euo pipefail
home=$(cd "$(dirname "$0")/.." && pwd)
front=$home/packaging/front
scratch=$(mktemp -d)
trap 'rm -rf "$scratch"' EXIT
cd "$scratch"
unset STREAMBOX_PLAIN
tried=0

# In the place of the program: ends with CODE after NOTE. READ is copied from the input first, WAIT waits for a signal.
cat > program << 'PROGRAM'
#!/usr/bin/env bash
[ -z "${READ-}" ] || cat
[ -z "${WAIT-}" ] || { : > waits; exec sleep 60; }
[ -z "${NOTE-}" ] || printf '%s\n' "$NOTE" >&2
[ -z "${SIGNAL-}" ] || kill -s "$SIGNAL" $$
exit "${CODE-0}"
PROGRAM
chmod +x program
export STREAMBOX_PROGRAM=$scratch/program

fail() {
  echo "tests/front.sh: $1"
  echo '0 passed, 1 failed'
  exit 1
}

# says CODE HINTS ARGUMENT..: with this exit code of the program, the front ends so, and these lines come after its note.
says() {
  local code=$1 hints=$2 status=0
  shift 2
  CODE=$code NOTE='a note' "$front" "$@" > rows 2> notes || status=$?
  [ "$status" = "$code" ] || fail "$*: exit code $status, and not $code"
  [ ! -s rows ] || fail "$*: prints $(cat rows)"
  [ "$(cat notes)" = "a note${hints:+$'\n'}$hints" ] || fail "$*: says $(cat notes)"
  tried=$((tried + 1))
}

# The program's output, exit code and input, and nothing else.
check_passes_on() {
  local code status
  head -c 100000 /dev/urandom > bytes
  mkfifo pipe
  cp bytes pipe &
  READ=1 "$front" run plan < pipe > copy
  cmp copy bytes || fail 'other bytes of a pipe'
  { head -c 10 > first; READ=1 "$front" run plan > rest; } < bytes
  cat first rest > copy
  cmp copy bytes || fail 'a file that was read from before'
  for code in 0 1 2 3 4 5 6 7 8 9 10 11; do
    status=0
    READ=1 CODE=$code "$front" audit < bytes > copy 2> notes || status=$?
    [ "$status" = "$code" ] || fail "exit code $status, and not $code"
    cmp copy bytes || fail "exit code $code: other bytes"
    tried=$((tried + 1))
  done
  READ=1 "$front" run plan <&- 2> notes && fail 'a closed input is open'
  status=0
  CODE=1 "$front" sum 0 2>&- || status=$?
  [ "$status" = 1 ] || fail "closed notes: exit code $status"
  status=0
  STREAMBOX_PLAIN=1 NOTE=plain CODE=1 "$front" --help 2> notes || status=$?
  [ "$status $(cat notes)" = '1 plain' ] || fail "STREAMBOX_PLAIN: $status $(cat notes)"
  tried=$((tried + 5))
}

# What is not understood, by the table of commands in docs/USAGE.md.
check_arguments() {
  local sum='hint: the form is: streambox sum SIZE [OPTIONS] < INPUT'
  local size='a whole number from 1 to 1000000000000'
  says 1 $'hint: a command is missing\nhint: streambox --help lists the commands'
  says 1 $'hint: there is no command "frobnicate"\nhint: streambox --help lists the commands' frobnicate
  says 1 $'hint: there is no command "chek": do you mean check PLAN?\nhint: streambox --help lists the commands' chek plan.toml
  says 1 "hint: there is no command \"rum\": do you mean run?
hint: the form is: streambox run PLAN [OPTIONS] < INPUT" rum plan.toml
  says 1 "hint: there is no command \"smu\": do you mean sum?
$sum" smu 10
  says 1 "hint: SIZE has a leading zero: write 10
$sum" sum 010
  says 1 "hint: \"10s\" has a unit: SIZE is $size, in the input's units
$sum" sum 10s
  says 1 "hint: SIZE is $size, and not 1000000000001
$sum" sum 1000000000001
  says 1 "hint: \"first.txt\" is one argument too many: the input comes by <
$sum" sum 10 first.txt
  says 1 "hint: \"--workers=4\" is two arguments: --workers 4
$sum" sum 10 --workers=4
  says 1 "hint: there is no option \"--worker\": do you mean --workers?
$sum" sum 10 --worker 4
  says 1 "hint: --workers is a whole number from 1 to 64, and not 65
$sum" sum 10 --workers 65
  says 1 "hint: --bundle has no value: write --bundle and a number
$sum" sum 10 --bundle
  says 1 "hint: --diary is given twice
$sum" sum 10 --diary --diary
  says 1 "hint: \"--workers\" is where SIZE has to be: options come after the other arguments
$sum" sum --workers 4 10
  says 1 "hint: save does not take --workers: it takes no options
hint: the form is: streambox save PLAN < FIRST > CHECKPOINT" save plan.toml --workers 2
  says 1 "hint: watch does not take --diary: the options are --bundle --pending --workers
hint: the form is: streambox watch PLAN KEY [OPTIONS] < INPUT" watch plan.toml web1 --diary
  says 1 "hint: FILE_B is missing: it is a file with lines of stream b
hint: the form is: streambox feeds PLAN FILE_A FILE_B [OPTIONS]" feeds plan.toml a.txt
}

# Files that can't be loaded, in the order in which the program loads them.
check_files() {
  local here="; you are in $scratch"
  mkdir -p sub
  printf '%s\n' '[[transform]]' 'name = "l"' 'kind = "lookup"' 'from = "a"' 'table = "ads.csv" # the ads' > sub/plan.toml
  sed s/ads.csv/first/ sub/plan.toml > there.toml
  says 6 "hint: the plan no.toml: there is no such file$here" run no.toml
  says 6 "hint: the plan $scratch/no.toml: there is no such file" run "$scratch/no.toml"
  says 6 'hint: the plan sub: it is a directory, and has to be a file' watch sub web1
  says 6 "hint: the table ads.csv: there is no such file$here" part sub/plan.toml
  touch sub/ads.csv
  says 6 "hint: the table ads.csv: there is no such file$here
hint: tables are looked for from the directory where you are; this one is in sub: cd sub first" run sub/plan.toml
  says 6 "hint: file a, a.txt: there is no such file$here" feeds there.toml a.txt b.txt
  says 6 "hint: file b, b.txt: there is no such file$here" feeds there.toml first b.txt
  says 6 "hint: the checkpoint cut: there is no such file$here" resume there.toml cut
  says 6 'hint: each file that is named can be read now: was one of them just written or moved?' run there.toml
  [ "$(id -u)" = 0 ] || {
    chmod 000 there.toml
    says 6 'hint: the plan there.toml: you may not read it; ls -l there.toml shows who may' run there.toml
  }
  says 2 'hint: streambox check sub/plan.toml says where in the plan that is' run sub/plan.toml
}

# What `why` says of a line, if the input is a file. Of the plan it has to know the streams, the kind of the keys and
# whether late records are dropped.
check_lines() {
  local zero='hint: line 2: its value has a leading zero: leave it out'$'\n''hint:   | r,a,2,1,01'
  printf '%s\n' r,a,1,1,1 r,a,2,1,01 > input
  printf '%s\n' 'late = "drop"' 'keys = "words"' '[[transform]]' 'name = "s"' 'kind = "sum"' 'from = "a"' 'size = 5' > plan
  says 3 "$zero" sum 10 < input
  says 3 '' sum 10 < <(cat input)
  { read -r _; says 3 "${zero/line 2/line 1}" sum 10; } < input
  head -c 4000001 /dev/zero | tr '\0' '#' > long
  says 3 'hint: streambox-why says what is wrong with the line: streambox-why -s a < INPUT' sum 10 < long
  printf '%s\n' r,b,1,1,1 > other
  says 3 "hint: line 1: the plan does not read stream b (sum reads stream a): grep -v '^[rw],b,' leaves it out
hint:   | r,b,1,1,1" sum 10 < other
  printf '%s\n' w,a,10 r,a,1,word,1 r,a,2,1,01 > words
  says 3 "${zero/line 2/line 3}" run plan < words
  says 3 "hint: file a: ${zero#hint: }" feeds plan input other < /dev/null
  echo r,a,3,word,1 > good
  echo > empty
  says 3 'hint: file b: line 1: it is empty: leave it out, as by grep .
hint:   | ' feeds plan good empty < /dev/null
  says 3 '' feeds plan good <(echo) < /dev/null
}

# Signals to the front alone end the program, too, and it ends by the same signal, but for QUIT, which some shells can't be
# ended by. Python starts it with none of them ignored.
check_signals() {
  local signal
  for signal in TERM INT HUP QUIT; do
    rm -f waits
    WAIT=1 python3 - "$front" "$signal" << 'PYTHON' || fail "by $signal"
import os, signal, subprocess, sys, time
number = getattr(signal, "SIG" + sys.argv[2])
# Who runs this test may ignore these, as nohup ignores HUP, and a shell can't catch what was ignored before it.
ignored = (signal.SIGHUP, signal.SIGINT, signal.SIGQUIT, signal.SIGTERM)
defaults = lambda: [signal.signal(each, signal.SIG_DFL) for each in ignored]
front = subprocess.Popen([sys.argv[1], "run", "plan"], preexec_fn=defaults, start_new_session=True)
while not os.path.exists("waits"): time.sleep(0.01)
time.sleep(0.1)
front.send_signal(number)
ended = front.wait(60)
try: os.killpg(front.pid, 0); left = True
except ProcessLookupError: left = False
sys.exit(left or ended == 0 or ended != -number and number != signal.SIGQUIT)
PYTHON
    tried=$((tried + 1))
  done
  check_early_signals
  SIGNAL=KILL python3 -c 'import subprocess, sys; sys.exit(subprocess.call([sys.argv[1], "run", "plan"]) != -9)' "$front" ||
    fail 'a program that was killed'
  tried=$((tried + 1))
}

# So do signals that come while the front begins, at random moments.
check_early_signals() {
  STREAMBOX_PROGRAM=$(type -P sleep) python3 - "$front" << 'PYTHON' || fail 'a program goes on after a signal'
import os, random, signal, subprocess, sys, time
signal.signal(signal.SIGTERM, signal.SIG_DFL)
for _ in range(80):
    front = subprocess.Popen([sys.argv[1], "60"], start_new_session=True)
    time.sleep(random.random() * 0.012)
    front.terminate()
    ended = front.wait(30)
    try: os.killpg(front.pid, signal.SIGKILL); left = True
    except ProcessLookupError: left = False
    if left or ended != -signal.SIGTERM: sys.exit(1)
PYTHON
  tried=$((tried + 80))
}

# checks CODE NOTE DRAWING PLAN: if the program ends so, `check` prints this drawing, or says it after the note.
checks() {
  local status=0 said=rows
  CODE=$1 NOTE=$2 "$front" check "$4" > rows 2> notes || status=$?
  [ "$status" = "$1" ] || fail "check: exit code $status"
  [ "$1" = 0 ] || said=notes
  [ "$(cat $said)" = "${2:+$2$'\n'}$3" ] || fail "check: says $(cat $said)"
  [ "$1" = 0 ] || [ ! -s rows ] || fail "check: prints $(cat rows)"
  tried=$((tried + 1))
}

# Drawings of plans, and what the place of a fault is called. The reach is the sum of the sizes of all windows
# (docs/PLANS.md, "Runs that are cut").
check_drawings() {
  cat > plan.toml << 'PLAN'
late = 'drop' # and list
[[transform]]
name = "tens"
kind = "sum"
from = "a"
size = 1_0

[[ transform ]]
"name" = "rest"
kind = "lookup"
from = "b"
table = "a \"b\".csv"
[[transform]]
name = "both"
kind = "join"
from = "tens"
with = "rest"
give = "add"
size = 20
[[transform]]
name = "best"
kind = "top"
from = "both"
size = 60
every = 20
keep = 2
PLAN
  checks 0 '' 'plan.toml: keys are numbers, late records are dropped and listed
 1  tens  line 2    a -> sum, windows of 1_0; reaches back 10
 2  rest  line 8    b -> lookup in a "b".csv
 3  both  line 13   tens and rest -> join: add, windows of 20; reaches back 30
 4  best  line 20   both -> top 2, windows of 60 every 20; reaches back 90
A row reaches back 90 at most: that is how much before the low watermark a checkpoint keeps.' plan.toml
  checks 2 'plan: transform 4: every: out of range' '  transform 4 is "best", line 20 of plan.toml
  line 25: every = 20' plan.toml
  checks 2 'plan: transform 2: table row 3: bad key' '  transform 2 is "rest", line 8 of plan.toml
  line 12: table = "a "b".csv"' plan.toml
  checks 2 'plan: transform 3: with: missing' '  transform 3 is "both", line 13 of plan.toml
  line 17: with = "rest"' plan.toml
  printf '%s\n' 'keys = "words"' 'transform = [' '  {name = "v", kind = "session", from = "a", gap = 5, give = "sum"},' \
    '  {name = "w", kind = "sum", from = "u", sise = 9}]' > inline.toml
  checks 2 'plan: transform 2: from: unknown' '  transform 2 is "w", line 4 of inline.toml
  line 4: from = "u"
  before it there are a, b, v' inline.toml
  checks 2 'plan: transform 2: unknown field' '  transform 2 is "w", line 4 of inline.toml
  line 4: sum has no sise; it has name kind from size every and no others' inline.toml
  printf '%s\n' '[[transforms]]' 'name = "v"' > slip.toml
  checks 2 'plan: unknown field' '  it has [[transforms]]: a plan has [[transform]], and above the first one late and keys' slip.toml
  printf '%s\n' 'name = """' 'x"""' > other.toml
  CODE=2 NOTE='plan: unknown field' "$front" check other.toml 2> notes && fail 'check: another form'
  [ "$(cat notes)" = 'plan: unknown field' ] || fail "check: says $(cat notes)"
  CODE=6 NOTE='file failed' "$front" check no.toml 2> notes && fail 'check: no plan'
  [ "$(tail -n 1 notes)" = "hint: the plan no.toml: there is no such file; you are in $PWD" ] || fail "check: says $(cat notes)"
  tried=$((tried + 2))
}

# Each fault of the guide that has a plan: after the program's answer `check` says which transform it is, if it is one.
check_faults() {
  local text answer said wanted faults=0
  # shellcheck disable=SC2016 # Backquotes are those of the guide.
  while IFS= read -r text && IFS= read -r answer; do
    printf '%s\n' "${text//'` `'/$'\n'}" > fault.toml
    said=$(CODE=2 NOTE=$answer "$front" check fault.toml 2>&1 > rows) && fail "$answer: exit code 0"
    [ ! -s rows ] || fail "$answer: prints $(cat rows)"
    wanted=$answer
    if [[ $answer =~ ^'plan: transform '([0-9]+): ]]; then wanted+=$'\n'"  transform ${BASH_REMATCH[1]} is "; fi
    [[ $said == "$wanted"* ]] || fail "$answer: says $said"
    faults=$((faults + 1))
  done < <(awk -F '[|]' 'NF == 5 && $3 !~ /^ *$/ && $4 ~ /^ `plan: .*` $/ && $4 !~ /table row|session cannot/ {
    plan = $3; answer = $4
    gsub(/^ *`?|`? *$/, "", plan); gsub(/^ `|` $/, "", answer)
    print plan; print answer }' "$home/docs/PLANS.md")
  [ "$faults" -gt 40 ] || fail 'no faults in the guide'
  tried=$((tried + faults))
}

# agrees ARGUMENT..: the program refuses these arguments if the hints do, and the front changes nothing of its answer.
agrees() {
  local alone=0 status=0 refused=0
  "$STREAMBOX" "$@" > alone.rows 2> alone.notes < /dev/null || alone=$?
  "$front" "$@" > rows 2> notes < /dev/null || status=$?
  [ "$status" = "$alone" ] || fail "$*: exit code $status, and not $alone"
  cmp rows alone.rows || fail "$*: other rows"
  head -c "$(wc -c < alone.notes)" notes | cmp - alone.notes || fail "$*: other notes"
  awk -f "$home/packaging/table.awk" -f "$home/packaging/words.awk" "$home/packaging/commands.txt" "$@" > rows || refused=1
  [ $((alone == 1)) = "$refused" ] || fail "$*: exit code $alone, and the hints say: $(cat rows)"
  tried=$((tried + 1))
}

# The real program: which arguments it takes, its rows, and its plans.
check_program() {
  local plan list
  export STREAMBOX_PROGRAM=$STREAMBOX
  while read -ra list; do
    agrees "${list[@]}"
    agrees "${list[@]}" --workers 1 --bundle 65536
    agrees "${list[@]}" --pending 1024 --workers 64
    agrees "${list[@]}" --taps --diary
    agrees "${list[@]}" --bundle 0
    agrees "${list[@]}" --pending 01
    agrees "${list[@]}" --workers 2 --workers 2
    agrees "${list[@]}" --bundle=3
    agrees "${list[@]}" --taps more
    agrees "${list[@]}" --
    agrees "${list[@]}" ''
  done << 'LISTS'
sum
sum 1
sum 01
sum -1
sum +1
sum 1000000000000
sum 1000000000001
sum 18446744073709551617
work
work 1
work 10000001
run no.toml
run -
slow no.toml
watch no.toml
watch no.toml web1
watch no.toml 1,2
watch no.toml abcdefghijklmnopqrstuvwx
watch no.toml abcdefghijklmnopqrstuvwxy
watch no.toml -k
watch no.toml \é
feeds no.toml a
feeds no.toml a b
feeds no.toml a b c
part no.toml
save no.toml
resume no.toml
resume no.toml cut
audit
audit x
summe 1
--workers 1 sum 1
LISTS
  agrees
  "$front" sum 10 < "$home/examples/first.txt" | cmp - "$home/examples/first.rows" || fail 'other rows'
  printf '%s\n' r,a,1,1,1 w,a,10 r,a,9,1,1 > late
  "$front" sum 10 < late > rows 2> notes && fail 'takes a late record'
  [[ $(cat notes) == 'line 3: late record, time 9, watermark 10'$'\n''hint: line 3: this record is late'* ]] ||
    fail "a late record: $(cat notes)"
  for plan in "$home"/examples/*/plan.toml; do
    (cd "${plan%/*}" && "$front" check plan.toml) > rows || fail "check $plan"
    [ "$(grep -c '^ *[0-9]* .* line ' rows)" = "$(grep -c '^\[\[transform' "$plan")" ] || fail "$plan: $(cat rows)"
    tried=$((tried + 1))
  done
  tried=$((tried + 2))
}

check_help() {
  local command
  for command in sum run slow work watch feeds part save resume audit check; do
    [[ $("$front" --help "$command") == "streambox $command"* ]] || fail "--help $command"
    "$front" "$command" --help | cmp - <("$front" --help "$command") || fail "$command --help"
  done
  [ "$("$front" --help | grep -c '^  streambox ')" = 13 ] || fail '--help: other commands'
  [[ $("$front" --version) == streambox* ]] || fail '--version'
  tried=$((tried + 24))
}

# complete WORDS WORD..: bash completes the last word so.
completes() {
  local wanted=$1
  shift
  # shellcheck disable=SC2034 # read by the completion
  COMP_WORDS=("$@") COMP_CWORD=$(($# - 1))
  _streambox
  [ "${COMPREPLY[*]-}" = "$wanted" ] || fail "$* is completed by ${COMPREPLY[*]-}"
  tried=$((tried + 1))
}

check_completions() {
  # shellcheck source=../packaging/completions/streambox.bash
  source "$home/packaging/completions/streambox.bash"
  mkdir -p names/sub
  cd names
  touch plan.toml CHECKPOINT input.txt
  completes 'run resume' streambox r
  completes 'plan.toml sub' streambox run ''
  completes 'CHECKPOINT' streambox resume plan.toml CHECK
  completes 'CHECKPOINT' streambox feeds plan.toml input.txt C
  completes '--bundle --pending --workers' streambox resume plan.toml CHECKPOINT ''
  completes '--taps' streambox feeds plan.toml a b --bundle 3 --t
  completes '' streambox watch plan.toml ''
  completes '' streambox sum 10 --workers ''
  completes '' streambox save plan.toml --
  completes 'plan.toml' streambox --try run p
  completes 'input.txt' streambox sum 10 '<' i
  cd ..
  ! command -v zsh > /dev/null || zsh -n "$home/packaging/completions/_streambox" || fail 'the completion of zsh'
  ! command -v fish > /dev/null || check_fish
}

check_fish() {
  local complete="source $home/packaging/completions/streambox.fish; cd names; complete -C"
  [ "$(fish -c "$complete 'streambox resume plan.toml CHECK'")" = CHECKPOINT ] || fail 'fish: a checkpoint'
  [ "$(fish -c "$complete 'streambox watch plan.toml k --'" | cut -f 1 | paste -sd ' ')" = '--bundle --pending --workers' ] ||
    fail 'fish: options'
  tried=$((tried + 2))
}

check_passes_on
check_arguments
check_files
check_lines
check_drawings
check_faults
check_signals
check_help
check_completions
[ -z "${STREAMBOX-}" ] || check_program
echo "$tried of the front: as expected"
