# What peer.sh and workers.sh measure, to be sourced: each case is a plan and the lines that it is run over. `case_of NAME
# COUNT` writes COUNT lines to $scratch/lines and the files of the plan beside them, and sets `words`, by which the program
# runs it in the folder $scratch.
#
#   wide    lines out of order, nearly a row a line: sums over windows of 10
#   dense   the same, ten lines a row: sums over windows of 100
#   slide   those lines, and sums of 600 every 100
#   views   a filter and a look-up, counted
#   join    the pairs of two streams
#   heavy   for each record an expansion by 8, and then how many different values there are in windows of 64 parts
#   eights  as wide, with a watermark after each 8 lines
#   late    as dense, with one record of ten late, which is dropped

# lines_of COUNT EVERY KEYS SPREAD VALUES STREAMS LATE: records out of order within SPREAD units of time, of so many keys,
# with values from 0 on or, below 1, around 0, and a watermark of each stream at each line of that number. Above 0, one
# record of so many is late. The same numbers give the same lines.
lines_of() {
  awk -v n="$1" -v every="$2" -v keys="$3" -v spread="$4" -v values="$5" -v streams="$6" -v late="$7" 'BEGIN {
    seed = 1; mark = 0
    for (i = 1; i <= n; i++) {
      stream = streams == 2 && i % 2 ? "b" : "a"
      if (i % every < streams) { if (i % every == 0) mark += spread / 2; print "w," stream "," mark; continue }
      seed = (seed * 16807) % 2147483647; time = mark + spread / 2 + seed % spread
      if (late && i % late == 0 && mark > 0) time = mark - 1
      seed = (seed * 16807) % 2147483647; key = seed % keys
      seed = (seed * 16807) % 2147483647; value = values ? seed % values : seed % 2001 - 1000
      print "r," stream "," time "," key "," value
    }
  }' > "$scratch/lines"
}

# transform NAME KIND FROM, and then lines of that transform
transform() {
  printf '[[transform]]\nname = "%s"\nkind = "%s"\nfrom = "%s"\n' "$1" "$2" "$3"
  shift 3
  if [ "$#" -gt 0 ]; then printf '%s\n' "$@"; fi
}

case_of() {
  local plan=$scratch/plan.toml
  words=(run plan.toml)
  case $1 in
    wide) lines_of "$2" 1000 100 2000 0 1 0; words=(sum 10) ;;
    dense) lines_of "$2" 1000 10 2000 0 1 0; words=(sum 100) ;;
    slide)
      lines_of "$2" 1000 10 2000 0 1 0
      transform slide sum a 'size = 600' 'every = 100' > "$plan"
      ;;
    views)
      lines_of "$2" 1000 1000 20000 3 1 0
      awk 'BEGIN { for (ad = 0; ad < 1000; ad++) print ad "," ad % 100 }' > "$scratch/ads.csv"
      {
        transform views filter a 'field = "value"' 'test = "equal"' 'number = 1'
        transform campaign lookup views 'table = "ads.csv"'
        transform per_campaign count campaign 'size = 10000'
      } > "$plan"
      ;;
    join)
      lines_of "$2" 1000 100 2000 0 2 0
      transform pairs join a 'with = "b"' 'size = 10' 'give = "add"' > "$plan"
      ;;
    heavy)
      lines_of "$2" 1000 100 2000 0 1 0
      {
        transform eight expand a 'addends = [0, 1, 2, 3, 4, 5, 6, 7]'
        transform different distinct eight 'size = 6400' 'every = 100'
      } > "$plan"
      ;;
    eights) lines_of "$2" 8 100 16 0 1 0; words=(sum 10) ;;
    late)
      lines_of "$2" 1000 10 2000 0 1 10
      { echo 'late = "drop"'; transform sums sum a 'size = 100'; } > "$plan"
      ;;
  esac
}
