# Draws a chart in the terminal: a line for each key.

BEGIN { split("▁ ▂ ▃ ▄ ▅ ▆ ▇ █", bar, " ") }

function draw(   widest, width, i, k, end, line, from, to) {
  for (i = 1; i <= keys; i++) {
    width = width_of(word_of(key[i], dictionary))
    if (width > widest) widest = width
  }
  for (i = 1; i <= keys; i++) {
    k = key[i]
    line = ""
    for (end = first; end <= last; end += step) line = line bar_of(sprintf("%.0f", end), k)
    print padded(word_of(k, dictionary), -widest) "  " line "  " scale_of(k)
  }
  from = time_text(first - step)
  to = time_text(last)
  line = padded("", widest + 2) from
  print line padded(to, slots > width_of(from) + width_of(to) ? slots - width_of(from) : width_of(to) + 4)
}

function scale_of(k) {
  return (least[k] < 0 ? least[k] " to " : "") (greatest[k] > 0 ? greatest[k] : 0)
}

# The bar of one row: of eight heights for values above the lowest, a dot for that, a blank for no row.
function bar_of(end, k,   low, high, eighths) {
  if (!((end, k) in value)) return " "
  low = least[k] < 0 ? least[k] + 0 : 0
  high = greatest[k] > 0 ? greatest[k] + 0 : 0
  if (value[end, k] + 0 == low) return "."
  eighths = (value[end, k] - low) * 8 / (high - low)
  return bar[int(eighths) < eighths ? int(eighths) + 1 : int(eighths)]
}
