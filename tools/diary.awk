# Lines of a diary, which `audit` reads: docs/DIARIES.md has them.

BEGIN {
  split("transform 2 arrive 4 seal 3 take 2 finish 3 begin 4 end 2", part, " ")
  for (i = 1; i <= 14; i += 2) numbers_of[part[i]] = part[i + 1]
  rule_of["transform"] = "NODE is the number of parts before it, and LANES is 1 or 2"
  rule_of["arrive"] = "NUMBER is one more than the arrivals of the lane before, EPOCH is not sealed, and LENGTH is " \
    "at least 1"
  rule_of["seal"] = "EPOCH is the next one of the lane, and MARK is not below its last one"
  rule_of["take"] = "the bundle came into the lane and was not taken"
  rule_of["finish"] = "the bundle was taken and not finished"
  rule_of["begin"] = "each closing before it has ended, EPOCH is the lane's oldest that has not ended, is sealed, " \
    "and each of its bundles is finished; MARK is its watermark, and for a join the least of both lanes"
  rule_of["end"] = "the last closing that began has not ended, and is of this LANE and EPOCH"
}

# Whether a line begins as one of a diary does.
function is_of_diary(line) { return line ~ /^(transform|arrive|seal|take|finish|begin|end) [0-9]/ }

# What is wrong with the form of a line of a diary, or nothing.
function problem_of_diary_line(   field, count, i) {
  count = split($0, field, " ") - 1
  if (length($0) > 128) return "it has " length($0) " bytes: a line has at most 128"
  if (!(field[1] in numbers_of)) return "it begins with none of transform, arrive, seal, take, finish, begin and end"
  if (count != numbers_of[field[1]])
    return "after " field[1] " stand " numbers_of[field[1]] " numbers: this has " count
  for (i = 2; i <= count + 1; i++)
    if (field[i] !~ /^(0|[1-9][0-9]*)$/) return "\"" field[i] "\" is no whole number without a sign and leading zeros"
  if (/^ | $|  |\t/) return "one blank stands between its words, and none before or after them"
  return ""
}

# Which rule a line breaks that is not legal.
function rule_of_line(   kind) {
  kind = substr($0, 1, index($0 " ", " ") - 1)
  return "it is not legal after the lines before it. Of " kind ": " rule_of[kind] \
    (kind == "transform" ? "" : "; and a line transform stands before it whose LANES are more than LANE")
}
