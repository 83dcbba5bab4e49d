"""What stands between `[` and `]` in a POSIX extended regular expression."""
import string

CLASSES = {
    "alpha": string.ascii_letters, "digit": string.digits, "alnum": string.ascii_letters + string.digits,
    "upper": string.ascii_uppercase, "lower": string.ascii_lowercase, "space": string.whitespace, "blank": " \t",
    "punct": string.punctuation, "print": string.digits + string.ascii_letters + string.punctuation + " ",
    "graph": string.digits + string.ascii_letters + string.punctuation, "cntrl": "".join(map(chr, [*range(32), 127])),
    "xdigit": string.hexdigits,
}
CLASSES = {name: frozenset(letters) for name, letters in CLASSES.items()}


class Wrong(ValueError):
    """The C library refuses the pattern."""


class Unsaid(ValueError):
    """The C library may take the pattern, and this reader doesn't."""


def bracket(text, at):
    """The members of a set, whether it is inverted, and the place behind its `]`."""
    inverted = text[at:at + 1] == "^"
    at, members, is_first = at + inverted, set(), True
    while is_first or text[at:at + 1] != "]":
        low, at = element(text, at, is_first)
        if text[at:at + 1] == "-" and text[at + 1:at + 2] != "]":
            high, at = element(text, at + 1, True)
            low = between(low, high)
        members |= low
        is_first = False
    return frozenset(members), inverted, at + 1


def element(text, at, takes_hyphen):
    """The letters of one element, and the place behind it."""
    letter, opened = text[at:at + 1], text[at:at + 2]
    if not letter:
        raise Wrong("a bracket isn't closed")
    if letter == "-" and not takes_hyphen and text[at + 1:at + 2] != "]":
        raise Wrong("a range begins with `-`")
    if opened not in ("[:", "[=", "[."):
        return Single(letter), at + 1
    end = text.find(opened[1] + "]", at + 2)
    if end < 0:
        raise Wrong("a bracket isn't closed")
    return named(text[at + 2:end], opened), end + 2


class Single(frozenset):
    """A letter that may begin or end a range."""


def named(name, opened):
    if opened == "[:":
        if name not in CLASSES:
            raise Wrong(f"there is no class `{name}`")
        return CLASSES[name]
    if len(name) != 1:
        raise Unsaid(f"the name `{name}` of a letter isn't carried out")
    return Single(name) if opened == "[." else frozenset(name)


def between(low, high):
    if not isinstance(low, Single) or not isinstance(high, Single):
        raise Wrong("a class is an end of a range")
    first, last = ord(min(low)), ord(min(high))
    if first > last:
        raise Wrong("a range ends before it begins")
    if last > 127:
        raise Unsaid("a range of letters beyond ASCII isn't carried out")
    return frozenset(map(chr, range(first, last + 1)))
