# Says something on standard error: not every awk knows /dev/stderr.
function say(message) {
  print message | "cat >&2"
  close("cat >&2")
}

# The same for many messages: `cat` stays until the end.
function say_more(message) {
  print message | "cat >&2"
  fflush("cat >&2")
}
