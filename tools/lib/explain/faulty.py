"""Finds the faulty word of a refused statement. The program says the line and the cause; which word it is, it is asked
about the text cut off behind each word: the first cut with the same answer ends in the faulty word."""
import re

from .texts import CONFIGURATION, RESULTS, STATUS, Word, content

IN_COMMENTS = ("NotUtf8", "ControlByte")
RESOURCES = ("primitive", "group", "clone", "ms", "master")
GIVES_ROLE = re.compile(r"(?i):(promoted|master|promote|demote)$|^\$?role=(promoted|master)$")
REPEATING = ("DuplicateName", "MemberTwice", "Repeated")
WITHOUT_WORD = ("LineTooLong", "TooManyNodes", "TooManyLeaves", "TooManyRules", "TooManyResults", "ColocationLoop", "OrderLoop")


def faulty_word(program, text, statement, refusal):
    """The faulty word, or nothing where the statement as a whole is at fault. Of a line without a statement a byte may
    be."""
    cause = refusal[1]
    if cause in WITHOUT_WORD or statement is None and cause not in IN_COMMENTS:
        return None
    find = {
        "NotUtf8": faulty_byte,
        "ControlByte": faulty_byte,
        "OpenQuote": open_quote,
        "UnknownStatement": faulty_head,
        "MissingWord": missing_word,
        "EmptyGroup": identity,
        "DuplicateName": identity,
        "UnknownName": unknown_name,
        "NotPromotable": role_giver,
        "Repeated": repeated_subject,
    }.get(cause, first_cut)
    return find(program, text, statement, refusal)


def first_cut(program, text, statement, refusal):
    """Halves the words of a statement until the shortest cut with the same answer is left."""
    words = statement.words
    low, high = 0, len(words) - 1
    while low < high:
        middle = (low + high) // 2
        if program.refusal(text.cut_behind(statement, words[middle])) == refusal:
            high = middle
        else:
            low = middle + 1
    return words[low]


def faulty_byte(_program, text, _statement, refusal):
    line, cause = refusal
    found = text.lines[line]
    column = 0
    if cause == "NotUtf8":
        try:
            found.decode("utf-8")
        except UnicodeDecodeError as error:
            column = error.start
    else:
        match = re.search(rb"[\x00-\x08\x0a-\x1f\x7f]", content(found))
        column = match.start() if match else 0
    return Word("", line, column, line, column + 1)


def open_quote(_program, text, statement, _refusal):
    if not statement.open_quote:
        return None
    line, column = statement.open_quote
    return Word("", line, column, line, len(content(text.lines[line])))


def faulty_head(_program, _text, statement, _refusal):
    second_word = statement.kind in (STATUS, RESULTS) and len(statement.words) > 1
    return statement.words[1 if second_word else 0]


def missing_word(program, text, statement, refusal):
    """The place behind the last word, or, where a further word there changes nothing, the word that lacks one behind
    it."""
    last = statement.words[-1]
    end = Word("", last.last, last.end, last.last, last.end + 1)
    longer = list(text.lines)
    longer[last.last] = longer[last.last][:last.end] + b" x=1" + longer[last.last][last.end:]
    if program.refusal(b"\n".join(longer)) != refusal:
        return end
    faulty = last
    for word in reversed(statement.words):
        if program.refusal(text.cut_behind(statement, word)) != refusal:
            break
        faulty = word
    return end if faulty is statement.words[0] else faulty


def identity(_program, _text, statement, _refusal):
    return statement.id


def unknown_name(program, text, statement, refusal):
    for word, kinds in named(statement):
        if word.name not in text.defined(kinds):
            return word
    return first_cut(program, text, statement, refusal)


def named(statement):
    """The words of a statement that name something, and the kinds of statements that define it."""
    words, nodes = statement.words, ("node",)
    if statement.section == STATUS:
        return list(zip(words[1:], (nodes, ("primitive",)))) if statement.kind not in ("now", "quorum") else []
    if statement.section == RESULTS:
        return list(zip(words[1:], (nodes, ("primitive",)))) if statement.kind in ("lost", "up", "report") else []
    if statement.kind == "location":
        return [(words[2], RESOURCES)] + ([(words[-1], nodes)] if words[-2].text.endswith(":") else [])
    resources = [word for word in words[2:] if "=" not in word.text and not word.text.endswith(":")]
    if statement.kind in ("clone", "ms", "master"):
        resources = resources[:1]
    if statement.kind == "group":
        sections = [at for at, word in enumerate(resources) if word.text in ("params", "meta")]
        resources = resources[:sections[0]] if sections else resources
    return [(word, RESOURCES) for word in resources]


def role_giver(program, text, statement, refusal):
    """The first word without whose role the answer is another."""
    givers = [word for word in statement.words[2:] if GIVES_ROLE.search(word.text) and word.first == word.last]
    for word in givers:
        plain = "role=Started" if word.key else word.name
        if program.refusal(text.with_word(word, plain)) != refusal:
            return word
    return givers[0] if givers else first_cut(program, text, statement, refusal)


def subject(statement):
    """What a status line speaks of: its first word, with the node and the resource that it names."""
    count = {"node": 2, "promotion": 3}.get(statement.kind, 1)
    return [word.text for word in statement.words[:count]]


def repeated_subject(_program, _text, statement, _refusal):
    return statement.words[len(subject(statement)) - 1]


def earlier(text, statement, word, cause):
    """The earlier statement that a second one repeats, or nothing."""
    for other in text.each() if cause in REPEATING else ():
        if statement is None or other.first >= statement.first:
            return None
        if cause == "DuplicateName" and same_space(other, statement) and other.id and other.id.text == word.text:
            return other
        if cause == "MemberTwice" and other.kind in RESOURCES[1:] and word.text in [own.text for own in other.words[2:]]:
            return other
        if cause == "Repeated" and other.section == STATUS and subject(other) == subject(statement):
            return other
    return None


def same_space(one, other):
    """Both name nodes, or both a resource or a rule."""
    with_ids = RESOURCES + ("location", "colocation", "collocation", "order")
    if one.section != CONFIGURATION:
        return False
    return one.kind == other.kind == "node" or one.kind in with_ids and other.kind in with_ids
