# Writes the part of a man page on one word: the paragraph that `.TP` begins with it, up to the next `.TP` or heading.
function plain(text) {
  gsub(/\\f[BIRP]/, "", text)
  gsub(/\\-/, "-", text)
  gsub(/\\&/, "", text)
  gsub(/\\\|/, "", text)
  gsub(/\\e/, "\\", text)
  return text
}

# The arguments of a macro as one text; those of macros with two fonts are joined without a blank.
function arguments(joined,   text, found) {
  sub(/^\.[A-Z]+ */, "")
  text = ""
  while (match($0, /^("[^"]*"|[^ ]+) */)) {
    found = substr($0, 1, RLENGTH)
    $0 = substr($0, RLENGTH + 1)
    sub(/ *$/, "", found)
    gsub(/"/, "", found)
    text = text (text == "" || joined ? "" : " ") found
  }
  return plain(text)
}

function flush() {
  if (line != "") print "  " line
  line = ""
}

function add(text,   count, part, at) {
  count = split(text, part, " ")
  for (at = 1; at <= count; at++) {
    if (length(line) + length(part[at]) > 96) flush()
    line = line (line == "" ? "" : " ") part[at]
  }
}

/^\.SH / { if (on) exit; next }
/^\.TP/ { if (on) exit; head = 1; next }
head {
  head = 0
  title = /^\.[BI][BIR] / ? arguments(1) : arguments(0)
  split(title, first, " ")
  if (first[1] == word) { on = seen = 1; print title }
  next
}
!on { next }
/^\.(PP|br|IP)/ { flush(); next }
/^\.(nf|fi|EX|EE)/ { flush(); literal = /nf|EX/; next }
literal { print "    " plain($0); next }
/^\.[BIR][BIR] / { add(arguments(1)); next }
/^\.[BI] / { add(arguments(0)); next }
/^\./ { next }
{ add(plain($0)) }
END { flush(); exit !seen }
