"""How a finding is shown: the place, the cause, the lines with a mark under the faulty word, and what to do."""
import json
import sys
import textwrap

WIDTH = 100
AS_JSON = "--json"
forms = {AS_JSON: False}


def say(*lines):
    """Says the lines on standard error. Where it is closed or takes nothing more, nothing is said from there on."""
    if sys.stderr is None:
        return
    try:
        print(*lines, sep="\n", file=sys.stderr, flush=True)
    except OSError:
        sys.stderr = None


def tell(message):
    """A message that belongs to no place of an input."""
    if forms[AS_JSON]:
        say_json(kind="message", message=message)
    else:
        say(f"cekpayo: {message}")


def say_usage(text, words):
    """Says how a script is called. The status is 0 where its words ask for that, else 2."""
    is_asked = words[:1] in (["-h"], ["--help"])
    print(text.strip(), file=sys.stdout if is_asked else sys.stderr)
    return 0 if is_asked else 2


def say_json(**fields):
    """Says an object of what is known, in one line."""
    say(json.dumps({name: value for name, value in fields.items() if value not in (None, [])}, ensure_ascii=False))


def say_note(name, word, note):
    if forms[AS_JSON]:
        say_json(kind="note", file=name, line=word.first + 1, column=word.start + 1, note=note)
    else:
        say(f"{place(name, word.first, word)}: note: {note}")


def paragraph(text, indent=""):
    """The text in lines of the width that a terminal has; what follows the first is indented."""
    return textwrap.wrap(text, WIDTH, initial_indent=indent, subsequent_indent="  ", break_long_words=False, break_on_hyphens=False)


def printable(data):
    """The bytes of a line as text without what a terminal would obey; a tab stays."""
    text = data.decode("utf-8", "replace")
    return "".join(char if char == "\t" or char.isprintable() else "\ufffd" for char in text)


def numbered(lines, number):
    """A line beside its number, cut at a width that a terminal has."""
    return f"{number + 1:6} | " + shorten(printable(lines[number].rstrip(b"\r")))


def shorten(line):
    return line if len(line) <= WIDTH else line[:WIDTH] + " .."


def marked(lines, word):
    """The line of a word and a mark under the word; of a long line the part around it."""
    line = lines[word.first].rstrip(b"\r")
    end = word.end if word.last == word.first else len(line)
    before, faulty = printable(line[:word.start]), printable(line[word.start:end])
    whole = before + faulty + printable(line[end:])
    dropped = 0
    if len(whole) > WIDTH:
        dropped = max(0, len(before) - WIDTH // 2)
    front = (".. " if dropped else "") + before[dropped:]
    under = "".join(char if char == "\t" else " " for char in front)
    mark = "^" * max(1, min(len(faulty), WIDTH))
    return [f"{word.first + 1:6} | " + (".. " if dropped else "") + shorten(whole[dropped:]), "       | " + under + mark]


def place(name, line, word=None):
    return f"{name}:{line + 1}:{word.start + 1}" if word else f"{name}:{line + 1}"


def show(text, statement, word, line):
    """The faulty line, after the line on which its statement begins."""
    if word is None:
        return [numbered(text.lines, line)]
    first = [numbered(text.lines, statement.first)] if statement and statement.first < word.first else []
    return first + marked(text.lines, word)
