# Times: text to whole numbers, and back. A time counts seconds since 1970-01-01T00:00:00Z, or milliseconds if `unit`
# is 1000. Days are those of the Gregorian calendar. No awk function for times is used, since not every awk has them.

BEGIN {
  if (unit == "") unit = 1
  split("Jan Feb Mar Apr May Jun Jul Aug Sep Oct Nov Dec", month_names, " ")
  for (i = 1; i <= 12; i++) month_of[month_names[i]] = i
  split("Thu Fri Sat Sun Mon Tue Wed", day_names, " ")
  for (i = 1; i <= 7; i++) is_day_name[day_names[i]]
  for (i = 0; i <= 60; i++) second_of[sprintf("%02d", i)] = i
}

# The remainder, from 0 up, also of a negative number.
function remainder(number, by,   rest) {
  rest = number % by
  return rest < 0 ? rest + by : rest
}

# Days from 1970-01-01 to a date. A year begins in March here, so that a leap day is its last.
function days_to(year, month, day) {
  if (month <= 2) { year--; month += 12 }
  day += 365 * year + int(year / 4) - int(year / 100) + int(year / 400)
  return day + int((153 * (month - 3) + 2) / 5) - 719469
}

# Sets year, month and day of the date so many days after 1970-01-01.
function set_date(days,   of_era, era) {
  days += 719468
  of_era = remainder(days, 146097)
  era = (days - of_era) / 146097
  year = int((of_era - int(of_era / 1460) + int(of_era / 36524) - int(of_era / 146096)) / 365)
  day = of_era - (365 * year + int(year / 4) - int(year / 100))
  month = int((5 * day + 2) / 153)
  day -= int((153 * month + 2) / 5) - 1
  month += month < 10 ? 3 : -9
  year += 400 * era + (month <= 2)
}

# The first word of a format, such as %p, whose letter is none of these; empty if all are.
function unknown_word(format, letters,   i) {
  for (i = 1; i <= length(format); i++)
    if (substr(format, i, 1) == "%" && substr(format, ++i, 1) != "%" && !index(letters, substr(format, i, 1)))
      return substr(format, i - 1, 2)
  return ""
}

# The time that a text tells in a format, as text; empty if it tells none. A format without a year takes that of the
# line before, `year_of_line`, if one was given.
function time_by(text, format,   i, letter, is_told) {
  rest = text
  length_of_text = length(text)
  year = month = day = seconds = ""
  hour = minute = second = fraction = zone = second_at = fraction_length = 0
  for (i = 1; i <= length(format); i++) {
    letter = substr(format, i, 1)
    if (letter == "%") is_told = take(substr(format, ++i, 1))
    else { is_told = substr(rest, 1, 1) == letter; rest = substr(rest, 2) }
    if (!is_told) return ""
  }
  if (rest != "") return ""
  if (seconds == "" && year == "" && year_of_line != "" && month != "") set_year()
  if (seconds == "" && !is_date()) return ""
  if (seconds != "") second_at = 0
  else seconds = days_to(year, month, day) * 86400 + hour * 3600 + minute * 60 + second - zone
  if (seconds < 0) return ""
  return sprintf("%.0f", unit == 1000 ? seconds * 1000 + fraction : seconds)
}

# Sets the year of a date without one: of December and January side by side, one is of another year.
function set_year() {
  if (month_of_line != "" && month_of_line - month > 6) year_of_line++
  if (month_of_line != "" && month - month_of_line > 6) year_of_line--
  month_of_line = month
  year = year_of_line
}

# Keeps of the text whose time was told last what stands before and after its seconds, for `time_in_minute`.
function keep_minute(text, time) {
  minute_length = second_at > 0 ? length(text) : -1
  minute_place = second_at
  minute_fraction = fraction_length
  minute_before = substr(text, 1, second_at - 1)
  minute_after = substr(text, second_at + 2 + fraction_length)
  minute_time = time - second * unit - (unit == 1000 ? fraction : 0)
}

# The time, by less work than that of `time_by`, of a text that differs from the one that was kept in its seconds and
# their fraction alone; empty if it differs elsewhere.
function time_in_minute(text,   digits, part) {
  if (length(text) != minute_length || substr(text, 1, minute_place - 1) != minute_before) return ""
  if (substr(text, minute_place + 2 + minute_fraction) != minute_after) return ""
  digits = substr(text, minute_place, 2)
  if (!(digits in second_of)) return ""
  if (!minute_fraction) return sprintf("%.0f", minute_time + second_of[digits] * unit)
  part = substr(text, minute_place + 2, minute_fraction)
  if (part !~ /^[.,][0-9]+$/) return ""
  return sprintf("%.0f", minute_time + second_of[digits] * unit + (unit == 1000 ? thousandths(part) : 0))
}

function is_date() {
  if (year == "" || month < 1 || month > 12 || day < 1) return 0
  return day <= days_to(year + (month == 12), month % 12 + 1, 1) - days_to(year, month, 1)
}

# Takes what one letter of a format stands for from the front of `rest`.
function take(letter) {
  if (letter == "Y") return take_digits(4, 4, 9999) && (year = taken) > 0
  if (letter == "m") return take_digits(1, 2, 12) && (month = taken) > 0
  if (letter == "d") return take_digits(1, 2, 31) && (day = taken) > 0
  if (letter == "e") { sub(/^ /, "", rest); return take("d") }
  if (letter == "b") { month = month_of[substr(rest, 1, 3)]; rest = substr(rest, 4); return month != "" }
  if (letter == "H") return take_digits(1, 2, 23) && (hour = taken) >= 0
  if (letter == "M") return take_digits(2, 2, 59) && (minute = taken) >= 0
  if (letter == "a") return take_day_name()
  if (letter == "S") {
    second_at = second_at ? -1 : length_of_text - length(rest) + 1
    return take_digits(2, 2, 60) && (second = taken) >= 0 && take_fraction()
  }
  if (letter == "s") return take_digits(1, 15, 1e15) && (seconds = taken) >= 0 && take_fraction()
  if (letter == "F") return take("Y") && take_text("-") && take("m") && take_text("-") && take("d")
  if (letter == "T") return take("H") && take_text(":") && take("M") && take_text(":") && take("S")
  if (letter == "z") return take_zone()
  return letter == "%" && take_text("%")
}

function take_day_name(   name) {
  name = substr(rest, 1, 3)
  rest = substr(rest, 4)
  return name in is_day_name
}

# Takes at least `least` and at most `most` digits, whose number is at most `bound`, to `taken`.
function take_digits(least, most, bound,   n) {
  for (n = 0; n < most && substr(rest, n + 1, 1) ~ /[0-9]/; n++) ;
  taken = plain_number(substr(rest, 1, n))
  rest = substr(rest, n + 1)
  return n >= least && taken <= bound
}

# The number of digits. Some awks read 010 as 8, so leading zeros go first.
function plain_number(digits) {
  sub(/^0+/, "", digits)
  return digits + 0
}

function take_text(text,   is_there) {
  is_there = substr(rest, 1, length(text)) == text
  rest = substr(rest, length(text) + 1)
  return is_there
}

# Takes a fraction of a second, if one stands there: its first three digits count.
function take_fraction() {
  if (match(rest, /^[.,][0-9]+/)) {
    fraction_length = RLENGTH
    fraction = thousandths(substr(rest, 1, RLENGTH))
    rest = substr(rest, RLENGTH + 1)
  }
  return 1
}

# The thousandths of a fraction such as .25, which are 250: its first three digits count.
function thousandths(part) { return plain_number(substr(substr(part, 2) "00", 1, 3)) }

# Takes a zone: Z, +01:00, +0100 or +01.
function take_zone(   sign) {
  sign = substr(rest, 1, 1)
  rest = substr(rest, 2)
  if (sign == "Z") return 1
  if (sign !~ /^[-+]$/ || !take_digits(2, 2, 23)) return 0
  zone = taken * 3600
  sub(/^:/, "", rest)
  if (rest ~ /^[0-9]/) { if (!take_digits(2, 2, 59)) return 0; zone += taken * 60 }
  if (sign == "-") zone = -zone
  return 1
}

# The format of a date and time of ISO 8601, with what it has of T or a blank, seconds and a zone.
function iso_format(text,   format) {
  format = "%F"
  if (length(text) > 10) format = format (substr(text, 11, 1) == " " ? " " : "T") "%H:%M"
  if (text ~ /:[0-9][0-9]:/) format = format ":%S"
  if (match(substr(text, 12), / ?(Z|[-+][0-9:]+)$/))
    format = format (substr(text, 11 + RSTART, 1) == " " ? " " : "") "%z"
  return format
}

# The text of a time in a format.
function text_of(time, format,   milliseconds, of_day, text, i, letter) {
  milliseconds = unit == 1000 ? remainder(time, 1000) : 0
  time = (time - milliseconds) / unit
  of_day = remainder(time, 86400)
  set_date((time - of_day) / 86400)
  gsub(/%F/, "%Y-%m-%d", format)
  gsub(/%T/, "%H:%M:%S", format)
  for (i = 1; i <= length(format); i++) {
    letter = substr(format, i, 1)
    if (letter != "%") { text = text letter; continue }
    letter = substr(format, ++i, 1)
    if (letter == "Y") text = text sprintf("%04.0f", year)
    else if (letter == "m") text = text sprintf("%02.0f", month)
    else if (letter == "b") text = text month_names[month]
    else if (letter == "d") text = text sprintf("%02.0f", day)
    else if (letter == "e") text = text sprintf("%2.0f", day)
    else if (letter == "a") text = text day_names[remainder((time - of_day) / 86400, 7) + 1]
    else if (letter == "H") text = text sprintf("%02.0f", int(of_day / 3600))
    else if (letter == "M") text = text sprintf("%02.0f", int(of_day / 60) % 60)
    else if (letter == "S") text = text sprintf("%02.0f", of_day % 60)
    else if (letter == "f") text = text sprintf("%03.0f", milliseconds)
    else if (letter == "s") text = text sprintf("%.0f", time)
    else text = text letter
  }
  return text
}
