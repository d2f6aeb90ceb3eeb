# Prints the checkpoint of a first part of an input, by its definition, over all of its lines at once: the number of lines,
# the low watermark, each record that is not late and lies no further below the low watermark than all windows of the plan
# are long together, and the last watermark of each stream. `save` is compared with it.
#
#   awk -f checkpoint.awk PLAN FIRST
#
# Each key of the plan has to stand on a line of its own, and no line of FIRST may be one that is refused.
BEGIN { FS = "," }

FNR == 1 { file++ }

file == 1 {
  if ($0 ~ /^size = /) { sub(/^size = /, ""); reach += $0 }
  if ($0 ~ /^(from|with) = "[ab]"/) is_used[substr($0, 9, 1)] = 1
  next
}

{ lines++; sub(/\r$/, "") }

/^w/ { mark[$2] = $3 }

/^r/ && $3 + 0 >= mark[$2] + 0 { time[++count] = $3; line[count] = $0 }

END {
  low = "none"
  for (stream in is_used) {
    last = mark[stream] == "" ? "0" : mark[stream]
    if (low == "none" || last + 0 < low + 0) low = last
  }
  print "checkpoint " lines + 0 " " low
  for (i = 1; i <= count; i++)
    if (time[i] + reach >= low + 0) put(line[i])
  if (mark["a"] + 0 > 0) put("w,a," mark["a"])
  if (mark["b"] + 0 > 0) put("w,b," mark["b"])
  print "end " items + 0
}

function put(text) { print text; items++ }
