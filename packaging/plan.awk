# Reads a plan file, as far as plans use TOML: tables [[transform]] and keys below them, or an array of inline tables.
#
# read_plan(path) gives 1 if the file was read, and 0 if it has a form that is not known here. It fills late and keys;
# transforms, line_of[n] and, by n and the name of a key, value[n, key], type[n, key] and key_line[n, key]; keys_of[n] has
# the names of its keys; other_keys are the names of what stands above the transforms and is not late, keys or transform.

function read_plan(path,    line, status) {
  late = "refuse"; keys = "numbers"; transforms = 0; other_keys = ""; text = ""
  while ((status = (getline line < path)) > 0) {
    sub(/\r$/, "", line)
    text = text line "\n"
    if (length(text) > 100000) status = -1
    if (status < 0) break
  }
  close(path)
  if (status < 0) return 0
  line_number = 1; is_broken = 0; owner = 0
  sub(/^\357\273\277/, "", text)
  next_token()
  while (!is_broken && token != "end") read_statement()
  return !is_broken
}

# The next token: its kind is word, string, newline, end, or the sign itself.
function next_token() {
  while (match(text, /^([ \t]+|#[^\n]*)/)) text = substr(text, RLENGTH + 1)
  token_text = ""
  if (text == "") { token = "end"; return }
  if (match(text, /^\n/)) { token = "newline"; line_number++ }
  else if (match(text, /^[A-Za-z0-9_+.:-]+/)) { token = "word"; token_text = substr(text, 1, RLENGTH) }
  else if (match(text, /^("""|''')/)) fail_plan()
  else if (match(text, /^"([^"\\\n]|\\["\\])*"/) || match(text, /^'[^'\n]*'/)) {
    token = "string"
    token_text = substr(text, 2, RLENGTH - 2)
    if (text ~ /^"/) token_text = unescaped(token_text)
  }
  else if (match(text, /^[][{}=,]/)) token = substr(text, 1, 1)
  else fail_plan()
  if (!is_broken) text = substr(text, RLENGTH + 1)
}

function unescaped(part,    plain, place) {
  while (place = index(part, "\\")) {
    plain = plain substr(part, 1, place - 1) substr(part, place + 1, 1)
    part = substr(part, place + 2)
  }
  return plain part
}

function fail_plan() { is_broken = 1; token = "end" }

# Goes past a token, which has to be of this kind.
function expect(kind) {
  if (token == kind) next_token()
  else fail_plan()
}

function end_line() {
  if (token != "end") expect("newline")
}

function read_statement() {
  if (token == "newline") next_token()
  else if (token == "[") read_header()
  else { read_pair(owner); end_line() }
}

# A line [[transform]]. Another table is a key that no plan has: what is in it is passed over.
function read_header(    line, name, is_list) {
  line = line_number
  next_token()
  if (token == "[") { is_list = 1; next_token() }
  name = token_text
  if (token == "string") next_token()
  else expect("word")
  expect("]")
  if (is_list) expect("]")
  end_line()
  if (is_list && name == "transform") owner = new_transform(line)
  else { other_keys = other_keys (is_list ? " [[" : " [") name (is_list ? "]]" : "]"); owner = -1 }
}

function new_transform(line) {
  line_of[++transforms] = line
  keys_of[transforms] = ""
  return transforms
}

# KEY = VALUE, of a transform, or of the plan if `whose` is 0.
function read_pair(whose,    name, line) {
  name = token_text
  line = line_number
  if (token != "word" && token != "string") { fail_plan(); return }
  next_token()
  expect("=")
  if (is_broken) return
  if (whose == 0 && name == "transform" && token == "[") { read_list(1); return }
  read_value()
  if (whose > 0) {
    keys_of[whose] = keys_of[whose] " " name
    value[whose, name] = value_text
    type[whose, name] = value_type
    key_line[whose, name] = line
  }
  else if (whose == 0 && name == "late") late = value_text
  else if (whose == 0 && name == "keys") keys = value_text
  else if (whose == 0) other_keys = other_keys " " name
}

function read_value() {
  value_type = token
  value_text = token_text
  if (token == "word" || token == "string") next_token()
  else if (token == "[") read_list(0)
  else if (token == "{") read_table_of(-1)
  else fail_plan()
}

# [VALUE, VALUE], over several lines if need be; of_transforms if each is a transform.
function read_list(of_transforms,    all) {
  next_token()
  while (!is_broken && token != "]") {
    if (token == "newline") { next_token(); continue }
    if (of_transforms && token == "{") read_table_of(new_transform(line_number))
    else { if (of_transforms) new_transform(line_number); read_value() }
    all = all (all == "" ? "" : ", ") value_text
    while (token == "newline") next_token()
    if (token == ",") next_token()
    else if (token != "]") fail_plan()
  }
  expect("]")
  value_type = "list"
  value_text = "[" all "]"
}

# {KEY = VALUE, KEY = VALUE}
function read_table_of(whose) {
  next_token()
  while (!is_broken && token != "}") {
    read_pair(whose)
    if (token == ",") next_token()
    else if (token != "}") fail_plan()
  }
  expect("}")
  value_type = "table"
  value_text = "{..}"
}
