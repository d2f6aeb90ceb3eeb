# Prints docs/DEFINITIONS.md, for docs/definitions.sh, which calls it at the top of the repository:
#
#   awk -f docs/definitions/page.awk
#
# If something is wrong, it says so on standard error and ends with 1.

function fail(why) {
  print "docs/definitions: " why > "/dev/stderr"
  failed = 1
  exit 1
}

# Puts the lines of a file of docs/definitions into `found`, without comments and empty lines. Answers how many there are.
function lines_of(name, found,    path, line, count) {
  path = "docs/definitions/" name
  while ((getline line < path) > 0) if (line !~ /^#/ && line != "") found[++count] = line
  close(path)
  return count + 0
}

function path_of(place,    crate) {
  crate = place
  sub(/\/.*/, "", crate)
  sub(/.*\//, "", place)
  return "crates/" crate "/specs/" place ".antt"
}

# Prints a file as it stands. Answers whether it is there.
function print_file(path, gap,    line, found) {
  while ((getline line < path) > 0) {
    if (!found) printf "%s", gap
    found = 1
    print line
  }
  close(path)
  return found
}

# The comment at the top of a file of definitions, in one line.
function opening(path,    line, all) {
  while ((getline line < path) > 0 && line ~ /^--/) all = all (all == "" ? "" : " ") substr(line, 4)
  close(path)
  if (all == "") fail(path ": it is not there, or has no comment at its top")
  return all
}

# Bold names, by file and name; and the private files.
function read_lists(    list, count, i, j, names, parts) {
  count = lines_of("first.txt", list)
  for (i = 1; i <= count; i++) {
    parts = split(list[i], names, " ")
    for (j = 2; j <= parts; j++) bold[path_of(names[1]), names[j]] = "wanted"
  }
  privates = lines_of("private.txt", private_list)
  for (i = 1; i <= privates; i++) is_private[path_of(private_list[i])] = 1
}

# A definition. One without a comment has its type, if that stands on the line of its name.
function entry(path, line, comment,    name, type) {
  name = type = line
  sub(/^(abbrev |unfoldable )?pub (record |data )?/, "", name)
  sub(/[ :].*/, "", name)
  if (comment == "" && line !~ /^pub/ && sub(/^[^:]*: /, "", type)) comment = "of type `" type "`"
  entries = entries "- " ((path, name) in bold ? "**`" name "`**" : "`" name "`") (comment == "" ? "" : ": " comment) "\n"
  if ((path, name) in bold) bold[path, name] = "found"
}

# The definitions of a file, each with the comment over it. Those of a part with parameters are indented; a line of dashes
# begins a part.
function print_definitions(path,    line, comment, was_comment) {
  entries = ""
  while ((getline line < path) > 0) {
    sub(/^  /, "", line)
    if (line ~ /^-- ---/) continue
    if (line ~ /^--/) {
      comment = was_comment ? comment " " substr(line, 4) : substr(line, 4)
      was_comment = 1
      continue
    }
    if (line ~ /^(abbrev|unfoldable) pub / || line ~ /^pub (record|data) /) entry(path, line, comment)
    comment = ""
    was_comment = 0
  }
  close(path)
  if (entries == "") return
  printf "\n**[%s](../%s)**: %s\n\n%s", substr(path, 8), path, opening(path), entries
}

# What a crate defines, in the order of its list of modules.
function print_crate(line,    crate, list, module, modules, shown) {
  crate = line
  sub(/ .*/, "", crate)
  list = "crates/" crate "/specs/Lib.antt"
  while ((getline module < list) > 0) if (sub(/^pub mod /, "", module)) {
    modules++
    if (!(path_of(crate "/" module) in is_private)) shown++
  }
  close(list)
  if (!modules) fail("groups.txt: " crate " has no definitions")
  # A crate whose files are all private is named at the end alone.
  if (!shown) return
  printf "\n### %s (`%s`)\n", substr(line, length(crate) + 2), crate
  print_file("docs/definitions/" crate ".md", "\n")
  while ((getline module < list) > 0) {
    if (!sub(/^pub mod /, "", module)) continue
    module = path_of(crate "/" module)
    if (!(module in is_private)) print_definitions(module)
  }
  close(list)
}

BEGIN {
  read_lists()
  print_file("docs/definitions/start.md", "")
  count = lines_of("groups.txt", groups)
  for (g = 1; g <= count; g++) if (groups[g] ~ /^== /) print "\n## " substr(groups[g], 4); else print_crate(groups[g])
  print "\n## Definitions of private functions"
  print_file("docs/definitions/private.md", "\n")
  print ""
  for (p = 1; p <= privates; p++) {
    path = path_of(private_list[p])
    printf "- [%s](../%s): %s\n", substr(path, 8), path, opening(path)
  }
  for (at in bold) if (bold[at] == "wanted") {
    split(at, pair, SUBSEP)
    fail("first.txt: " pair[1] " does not define " pair[2])
  }
}
END { exit failed }
