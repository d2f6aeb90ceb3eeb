# Draws a plan, a line a transform, or says what the place of a fault is called in the plan.
#
#   awk -f plan.awk -f draw.awk PLAN [NOTE]
#
# NOTE is what the program said of the plan. Prints nothing if the plan can't be read here.

BEGIN {
  path = ARGV[1]
  if (!read_plan(path) || !transforms && ARGC < 3) exit 0
  if (ARGC > 2) explain(ARGV[2])
  else draw()
  exit 0
}

function draw(    place, widest) {
  print path ": keys are " keys ", late records " (late == "drop" ? "are dropped and listed" : "end the run")
  for (place = 1; place <= transforms; place++)
    if (length(value[place, "name"]) > widest) widest = length(value[place, "name"])
  for (place = 1; place <= transforms; place++) draw_transform(place, widest)
  if (reach[transforms] == "all") print "A session has no longest length, so the plan can't be saved."
  else print "A row reaches back " reach[transforms] " at most: that is how much before the low watermark a checkpoint keeps."
}

function draw_transform(place, widest,    name, inputs) {
  name = value[place, "name"]
  inputs = value[place, "from"]
  if (value[place, "kind"] == "join") inputs = inputs " and " value[place, "with"]
  place_of[name] = place
  reach[place] = reach_of(place)
  printf "%2d  %-" widest "s  line %-3d  %s -> %s", place, name, line_of[place], inputs, work_of(place)
  if (reach[place] == "all") print "; reaches back without limit"
  else print (reach[place] == "0" ? "" : "; reaches back " reach[place])
}

# What the transform does, and its windows.
function work_of(place,    kind) {
  kind = value[place, "kind"]
  if (kind == "filter") return "filter: " value[place, "field"] " " value[place, "test"] " " value[place, "number"]
  if (kind == "map") return "map: " value[place, "change"] " " value[place, "number"]
  if (kind == "expand") return "expand by " value[place, "addends"]
  if (kind == "lookup") return "lookup in " value[place, "table"]
  if (kind == "session") return "session: " value[place, "give"] ", gap " value[place, "gap"]
  if (kind == "join") return "join: " value[place, "give"] ", windows of " value[place, "size"]
  if (kind == "top") kind = kind " " value[place, "keep"]
  if ((place, "every") in value && plain(value[place, "every"]) != plain(value[place, "size"]))
    return kind ", windows of " value[place, "size"] " every " value[place, "every"]
  return kind ", windows of " value[place, "size"]
}

# The sizes of all windows up to here: "all" if one of them is a session.
function reach_of(place,    sum, left, right) {
  left = reach_of_input(value[place, "from"])
  if (value[place, "kind"] == "join") right = reach_of_input(value[place, "with"])
  if (left == "all" || right == "all" || value[place, "kind"] == "session") return "all"
  sum = left + right + plain(value[place, "size"])
  return sprintf("%.0f", sum)
}

function reach_of_input(name) {
  return name in place_of ? reach[place_of[name]] : 0
}

# A number without the underscores that TOML allows.
function plain(number) {
  gsub(/_/, "", number)
  return number
}

# Of a note such as `plan: transform 3: size: out of range`.
function explain(note,    place, part, key) {
  sub(/\n.*/, "", note)
  if (note == "plan: unknown field" && other_keys != "") {
    print "  it has" other_keys ": a plan has [[transform]], and above the first one late and keys"
    return
  }
  if (note !~ /^plan: transform [0-9]+: /) return
  split(note, part, ": ")
  place = substr(part[2], 11) + 0
  if (place > transforms) return
  print "  transform " place " is " name_of(place) ", line " line_of[place] " of " path
  if (part[3] ~ /^table row /) key = "table"
  else if (part[3] == "unknown kind") key = "kind"
  else if (part[3] == "name taken") key = "name"
  else key = part[3]
  if ((place, key) in value) print "  line " key_line[place, key] ": " key " = " shown(place, key)
  else if (key == "unknown field") print_unknown(place)
  if (part[4] == "unknown" && names_before(place) != "") print "  before it there are a, b" names_before(place)
}

function name_of(place) {
  return value[place, "name"] == "" ? "one without a name" : "\"" value[place, "name"] "\""
}

function shown(place, key) {
  return type[place, key] == "string" ? "\"" value[place, key] "\"" : value[place, key]
}

function names_before(place,    list, other) {
  for (other = 1; other < place; other++) if (value[other, "name"] != "") list = list ", " value[other, "name"]
  return list
}

# The keys that a transform of this kind does not have.
function print_unknown(place,    known, list, count, other) {
  known = " name kind from " keys_of_kind(value[place, "kind"]) " "
  count = split(keys_of[place], list, " ")
  for (other = 1; other <= count; other++)
    if (!index(known, " " list[other] " "))
      print "  line " key_line[place, list[other]] ": " value[place, "kind"] " has no " list[other] \
        "; it has" known "and no others"
}

function keys_of_kind(kind) {
  if (kind == "filter") return "field test number"
  if (kind == "map") return "change number"
  if (kind == "expand") return "addends"
  if (kind == "lookup") return "table"
  if (kind == "top") return "size every keep"
  if (kind == "session") return "gap give"
  if (kind == "join") return "size give with"
  return "size every"
}
