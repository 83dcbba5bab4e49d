"""Statements as lists of words, and how they are written."""
import re

SECTIONS = ("params", "meta", "utilization", "operations", "op", "attributes", "rule", "op_params", "op_meta")
WITH_SECTIONS = ("node", "primitive", "rsc_template", "group", "clone", "ms", "master", "location")
SETTINGS = ("property", "rsc_defaults", "op_defaults")
BREAK = " \\\n\t"


def one_line(text):
    """A text without what ends a line or is refused."""
    return re.sub(r"[\x00-\x1f\x7f]", " ", text)


def quoted(text):
    text = one_line(text)
    if text and not text.startswith("#") and not re.search(r"[ \"'\\]", text):
        return text
    return '"' + text.replace("\\", "\\\\").replace('"', '\\"') + '"'


def written_word(word):
    """A word with quotes where they are needed; of a pair only its value has them."""
    key, equals, value = word.partition("=")
    if equals and key and quoted(key) == key:
        return f"{key}={quoted(value)}" if value else f'{key}=""'
    return quoted(word)


def parts(words):
    """The words in groups, each for a line of its own, as crmsh writes them."""
    begins = SECTIONS if words[0] in WITH_SECTIONS else ()
    groups = [[]]
    for at, word in enumerate(words):
        if at > 1 and (word in begins or words[0] in SETTINGS and "=" in word):
            groups.append([])
        groups[-1].append(word)
    return groups


def written(words):
    """A statement as text."""
    return BREAK.join(" ".join(map(written_word, group)) for group in parts(words))


def section(word, pairs):
    """A section with its pairs, or nothing where there are none."""
    return [word] + [f"{name}={value}" for name, value in pairs.items()] if pairs else []


def sections(words):
    """The words behind the head of a statement by sections: the head, and then each section with its word in front."""
    found = [[]]
    for at, word in enumerate(words):
        if at > 1 and word in SECTIONS:
            found.append([])
        found[-1].append(word)
    return found[0], found[1:]


def name_of_node(words):
    """The name of a node statement, without its number and its type."""
    return next((word for word in words[1:] if not word.endswith(":") and not word.startswith("$")), "").partition(":")[0]


def value(words, key):
    """What the first pair with this key gives it, or nothing."""
    return next((word.partition("=")[2] for word in words if word.startswith(key + "=")), None)
