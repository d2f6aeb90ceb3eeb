# shellcheck shell=bash disable=SC2154 # `folder` is of who sources it.
# Makes random plans and inputs, for fuzz.sh and fuzz_cut.sh, which source it and set `folder`, one of their own. Inputs
# have late records, which some plans drop, and some have a line that is refused. The same number gives the same case.

# make_case NUMBER: plan.toml, input.txt, and the options of the engine in the file options.
make_case() {
  awk -v number="$1" -v folder="$folder" '
    function random(below) { seed = (seed * 16807) % 2147483647; return seed % below }
    function one_of(text,   words, count) { count = split(text, words, " "); return words[1 + random(count)] }
    function put(line) { print line > (folder "/plan.toml") }
    function transform(kind, from) {
      name = "t" ++made
      put("[[transform]]\nname = \"" name "\"\nkind = \"" kind "\"\nfrom = \"" from "\"")
      return name
    }
    function windows(   size, every) {
      split(one_of("10/10 10/5 10/2 6/3 4/4 20/5 3/1"), pair, "/")
      put("size = " pair[1] "\nevery = " pair[2])
    }
    # a transform with one input
    function single(from,   kind) {
      kind = one_of("filter map expand count sum min max distinct top session sum count")
      transform(kind, from)
      if (kind == "filter")
        put("field = \"" one_of("time key value") "\"\ntest = \"" one_of("less at_most equal at_least more") \
          "\"\nnumber = " random(40))
      else if (kind == "map")
        put("change = \"" one_of("key_mod key_div key_set value_add value_mul value_set") "\"\nnumber = " 1 + random(4))
      else if (kind == "expand") put("addends = [" one_of("0 0,1 1,-1,5 0,0 1,2,3,4,5,6,7,8") "]")
      else if (kind == "session") put("gap = " 1 + random(6) "\ngive = \"" one_of("count sum min max distinct") "\"")
      else { windows(); if (kind == "top") put("keep = " 1 + random(3)) }
      return name
    }
    function chain(from, count) { while (count-- > 0) from = single(from); return from }
    BEGIN {
      seed = (number * 7919 + 17) % 2147483647
      for (i = 0; i < 5; i++) random(2)
      drops = random(3) == 0
      if (drops) put("late = \"drop\"\n")
      both = random(3) == 0
      if (both) {
        left = chain("a", random(3)); right = chain("b", random(3))
        transform("join", left)
        put("with = \"" right "\"\nsize = " one_of("4 10") "\ngive = \"" one_of("add sub mul min max left right") "\"")
        chain(name, random(3))
      } else chain("a", 1 + random(5))
      file = folder "/input.txt"; printf "" > file
      lines = random(120)
      for (i = 0; i < lines; i++) {
        stream = both && random(2) ? "b" : "a"
        if (random(8) == 0) {
          mark[stream] += random(9)
          print "w," stream "," mark[stream] + 0 > file
        } else {
          time = mark[stream] + random(25)
          if (random(drops ? 10 : 400) == 0) time -= 3
          print "r," stream "," (time < 0 ? 0 : time) "," random(4) "," random(41) - 20 > file
        }
      }
      print "--workers " 1 + random(8) " --bundle " one_of("1 1 2 3 7 64") " --pending " one_of("1 2 5 256") \
        > (folder "/options")
    }'
}
