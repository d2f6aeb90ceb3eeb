# Prints what a plan says of its input: first `late keys streams`, then the name of each table, a line each.
#
#   awk -f plan.awk -f tables.awk PLAN
#
# Ends with 1 if the plan can't be read here.

BEGIN {
  if (!read_plan(ARGV[1])) exit 1
  for (place = 1; place <= transforms; place++) {
    streams = streams stream_of(value[place, "from"]) stream_of(value[place, "with"])
    if (value[place, "kind"] == "lookup" && value[place, "table"] != "") print_later[++tables] = value[place, "table"]
  }
  print late, keys, (streams == "" ? "ab" : streams)
  for (place = 1; place <= tables; place++) print print_later[place]
  exit 0
}

function stream_of(input) {
  return input == "a" || input == "b" ? input : ""
}
