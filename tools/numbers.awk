# Numbers as texts, since no awk computes with all 64 bits: its numbers are exact up to 2^53 only.

# Whether a text is a whole number from 0 to a bound, without a sign and without leading zeros.
function is_number(text, bound) {
  return text ~ /^(0|[1-9][0-9]*)$/ && at_most(text, bound)
}

# Whether a text is a whole number of 64 bits with a sign.
function is_value(text) {
  if (text ~ /^-[1-9]/) return is_number(substr(text, 2), "9223372036854775808")
  return is_number(text, "9223372036854775807")
}

# Whether digits without leading zeros are at most a bound: of two such texts of one length the alphabet tells.
function at_most(digits, bound) {
  if (length(digits) != length(bound)) return length(digits) < length(bound)
  return ("" digits) <= ("" bound)
}

# A number that may have a fraction, multiplied by 1 with so many zeros; empty if that is no whole number.
function scaled(text, zeros,   sign, point, part) {
  if (text !~ /^-?([0-9]+([.][0-9]*)?|[.][0-9]+)$/) return ""
  sign = sub(/^-/, "", text) ? "-" : ""
  point = index(text, ".")
  part = point ? substr(text, point + 1) : ""
  if (point) text = substr(text, 1, point - 1)
  sub(/0+$/, "", part)
  if (length(part) > zeros) return ""
  while (length(part) < zeros) part = part "0"
  text = text part
  sub(/^0+/, "", text)
  return text == "" ? "0" : sign text
}
