# Draws a chart as a picture in SVG, on a white ground: bars side by side in each window, two axes and a legend.

BEGIN {
  MOST_KEYS = 8
  # Colours that people who see fewer colours tell apart too (Okabe and Ito), but grey for its yellow.
  split("#0072B2 #E69F00 #009E73 #CC79A7 #56B4E9 #D55E00 #777777 #000000", colour, " ")
  LETTER = 7.5 # the width of a letter, at most, of 13 points
}

function draw(   drawn, i, low, high, tick) {
  drawn = keys < MOST_KEYS ? keys : MOST_KEYS
  put_greatest_first(drawn)
  low = high = 0
  for (i = 1; i <= drawn; i++) {
    if (greatest[key[i]] > high) high = greatest[key[i]] + 0
    if (least[key[i]] < low) low = least[key[i]] + 0
  }
  tick = round_step((high - low) / 7)
  bottom_value = -tick * up(-low / tick)
  top_value = tick * up(high / tick)
  if (top_value == bottom_value) top_value += tick
  lay_out(drawn, tick)
  print_head()
  print_values(tick)
  print_times()
  print_bars(drawn)
  print_legend(drawn)
  print "</svg>"
}

# Puts the keys with the greatest values first, each greater than those that are left out.
function put_greatest_first(drawn,   i, j, best) {
  if (keys <= MOST_KEYS) return
  for (i = 1; i <= drawn; i++) {
    best = i
    for (j = i + 1; j <= keys; j++) if (greatest[key[j]] + 0 > greatest[key[best]] + 0) best = j
    j = key[i]; key[i] = key[best]; key[best] = j
  }
}

# The least of 1, 2, 5, 10, 20, .. that is at least a number.
function round_step(number,   step) {
  for (step = 1; step * 10 < number; step *= 10) ;
  return step >= number ? step : step * 2 >= number ? step * 2 : step * 5 >= number ? step * 5 : step * 10
}

function up(number) { return int(number) < number ? int(number) + 1 : int(number) }

# Sets the sizes: the left margin has room for the numbers, the right one for the words.
function lay_out(drawn, tick,   i, label, widest) {
  left = 48 + LETTER * longer(width_of(sprintf("%.0f", top_value)), width_of(sprintf("%.0f", bottom_value)))
  for (i = 1; i <= drawn; i++) { label = label_of(i); if (width_of(label) > widest) widest = width_of(label) }
  if (keys > drawn) widest = longer(widest, width_of(left_out(drawn)))
  wide = longer(600, slots * drawn * 4)
  high_plot = 300
  over = 56
  width = left + wide + 48 + LETTER * widest
  height = over + longer(high_plot, drawn * 22 + 22) + 64
}

function longer(a, b) { return a > b ? a : b }

# The word of a key, of 24 characters at most.
function label_of(i,   word) {
  word = word_of(key[i], dictionary)
  while (width_of(word) > 24) { sub(/[\300-\377]?[\200-\277]*$|.$/, "", word); is_cut[i] = 1 }
  return word (is_cut[i] ? ".." : "")
}

function left_out(drawn) { return "and " (keys - drawn) " keys more" }

function escaped(text) {
  gsub(/&/, "\\&amp;", text)
  gsub(/</, "\\&lt;", text)
  gsub(/>/, "\\&gt;", text)
  return text
}

function text_at(x, y, anchor, text, more) {
  printf "<text x=\"%.1f\" y=\"%.1f\" text-anchor=\"%s\"%s>%s</text>\n", x, y, anchor, more, escaped(text)
}

function line_at(x1, y1, x2, y2, stroke) {
  printf "<line x1=\"%.1f\" y1=\"%.1f\" x2=\"%.1f\" y2=\"%.1f\" stroke=\"%s\"/>\n", x1, y1, x2, y2, stroke
}

function y_of(number) { return over + (top_value - number) / (top_value - bottom_value) * high_plot }

function print_head(   y) {
  print "<svg xmlns=\"http://www.w3.org/2000/svg\""
  printf " width=\"%.0f\" height=\"%.0f\" viewBox=\"0 0 %.0f %.0f\"\n", width, height, width, height
  print " font-family=\"DejaVu Sans, Verdana, sans-serif\" font-size=\"12\">"
  print "<rect width=\"100%\" height=\"100%\" fill=\"white\"/>"
  text_at(left + wide / 2, 30, "middle", ENVIRON["title"], " font-size=\"16\"")
  text_at(left + wide / 2, over + high_plot + 48, "middle", ENVIRON["x_label"])
  y = over + high_plot / 2
  text_at(18, y, "middle", ENVIRON["y_label"], sprintf(" transform=\"rotate(-90 18 %.1f)\"", y))
}

# The axis of values, with a line across at each tick.
function print_values(tick,   number) {
  for (number = bottom_value; number <= top_value; number += tick) {
    line_at(left, y_of(number), left + wide, y_of(number), "#dddddd")
    text_at(left - 8, y_of(number) + 4, "end", sprintf("%.0f", number))
  }
  line_at(left, over, left, over + high_plot, "black")
}

# The axis of time. A tick stands at the end of each window, and a label at as many of them as there is room for.
function print_times(   i, x, time, apart) {
  apart = up((LETTER * width_of(time_text(last)) + 16) / (wide / slots))
  for (i = 0; i <= slots; i += apart) {
    x = left + i * wide / slots
    line_at(x, over + high_plot, x, over + high_plot + 5, "black")
    text_at(x, over + high_plot + 20, "middle", time_text(first + (i - 1) * step))
  }
  line_at(left, over + high_plot, left + wide, over + high_plot, "black")
  if (bottom_value < 0) line_at(left, y_of(0), left + wide, y_of(0), "black")
}

function print_bars(drawn,   i, slot, end) {
  for (i = 1; i <= drawn; i++) {
    print "<g fill=\"" colour[i] "\">"
    for (slot = 0; slot < slots; slot++) {
      end = sprintf("%.0f", first + slot * step)
      if ((end, key[i]) in value) print_bar(i, drawn, slot, end, value[end, key[i]])
    }
    print "</g>"
  }
}

# The bar of one row, from 0 to its value. A browser shows its words while the pointer is on it.
function print_bar(i, drawn, slot, end, of_value,   thick, x, y) {
  thick = wide / slots * 0.9 / drawn
  x = left + (slot + 0.05) * wide / slots + (i - 1) * thick
  y = y_of(of_value > 0 ? of_value : 0)
  printf "<rect x=\"%.2f\" y=\"%.2f\" width=\"%.2f\"", x, y, thick
  printf " height=\"%.2f\">", y_of(of_value < 0 ? of_value : 0) - y
  print "<title>" escaped(word_of(key[i], dictionary) ", " time_text(end - step) ": " of_value) "</title></rect>"
}

function print_legend(drawn,   i, y) {
  for (i = 1; i <= drawn; i++) {
    y = over + (i - 1) * 22
    printf "<rect x=\"%.1f\" y=\"%.1f\" width=\"12\" height=\"12\" fill=\"%s\"/>\n", left + wide + 18, y, colour[i]
    text_at(left + wide + 36, y + 11, "start", label_of(i))
  }
  if (keys > drawn) text_at(left + wide + 36, over + drawn * 22 + 11, "start", left_out(drawn))
}
