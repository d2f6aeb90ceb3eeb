# Words as keys, in an input and in rows, and the dictionary that numbers them.

# Whether a text can be a key of a plan of words.
function is_word(text) {
  return text ~ /^[!-~]+$/ && text !~ /[,"]/ && length(text) <= 24
}

# Whether the line, split at commas, is a row.
function is_row() {
  return NF == 3 && $1 ~ /^[0-9]+$/ && is_word($2) && $3 ~ /^-?[0-9]+$/
}

# A dictionary: a file of lines `number,word`. `records` writes it, and gives the line
# of a word to the file before it prints a record with its number. So whoever meets a number finds its line there.

# Reads the numbers of the words to `number_of`, and the greatest to `greatest_number`.
function read_numbers(file,   line, comma, number) {
  while ((getline line < file) > 0) {
    comma = index(line, ",")
    number = substr(line, 1, comma - 1)
    number_of[substr(line, comma + 1)] = number
    if (number + 0 > greatest_number) greatest_number = number + 0
  }
  close(file)
}

# Gives a new word the next number, and the file its line. Says whether that could be written, if awk says so.
function add_word(word, file) {
  number_of[word] = sprintf("%.0f", ++greatest_number)
  added++
  print number_of[word] "," word >> file
  return close(file) == 0
}

# Whether the file has the numbers of all words, and no other word: not every awk says that it could not write, and
# another program may have written.
function are_written(file,   line, comma, word) {
  while ((getline line < file) > 0) {
    comma = index(line, ",")
    word = substr(line, comma + 1)
    if (!(word in number_of)) { close(file); return 0 }
    number_in_file[word] = substr(line, 1, comma - 1)
  }
  close(file)
  for (word in number_of) if (number_in_file[word] != number_of[word]) return 0
  return 1
}

# The word of a number, or the number itself. The file is read again if the number is new: another program may write to
# it now, so the last line, which may not be whole yet, counts for this number alone. `is_unread` says that it can't be
# read.
function word_of(number, file,   line, before, more) {
  if (!(number in word_by) && file != "") {
    before = ""
    while ((more = (getline line < file)) > 0) { keep_word(before); before = line }
    close(file)
    if (more < 0) is_unread = 1
    if (index(before, number ",") == 1) keep_word(before)
  }
  return number in word_by ? word_by[number] : number
}

function keep_word(line,   comma) {
  comma = index(line, ",")
  if (comma > 1) word_by[substr(line, 1, comma - 1)] = substr(line, comma + 1)
}
