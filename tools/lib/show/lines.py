"""Reads the lines that the program writes, each as its fields by name."""
import re

# The fields of each line behind its first word; `what` is an action, and what is in brackets may be missing.
FIELDS = {
    "place": "resource", "promote": "resource", "score": "resource node score",
    "part": "resource node score counted", "chosen": "resource node", "not": "resource node verdict",
    "held": "resource node rule", "unpromoted": "resource node rule",
    "pinned": "resource reason", "target": "resource node role", "none": "resource reason [rule]",
    "action": "number what [after]", "begin": "number what", "end": "number code", "timeout": "number",
    "transition": "number", "complete": "number", "aborted": "number",
    "lost": "node", "up": "node", "quorum": "quorum", "wait": "seconds", "report": "node resource interval code",
    "refused": "line cause", "unexpected": "line", "loss": "node", "real": "resource node role", "ended": "how",
    "lawful": "", "unlawful": "line clause", "gen": "count",
    "nodes": "count", "leaves": "count", "transitions": "count", "begun": "count", "succeeded": "count", "targets": "count",
}
ACTIONS = {
    "fence": "node", "probe": "resource node", "start": "resource node", "stop": "resource node", "promote": "resource node",
    "demote": "resource node", "monitor": "resource node interval",
    "migrate_to": "resource source target", "migrate_from": "resource source target",
}
STATEMENTS = ("node", "primitive", "group", "clone", "ms", "location", "colocation", "order", "property", "rsc_defaults", "op_defaults",
              "fencing_topology", "alert", "user", "role", "acl_target", "acl_group")
ALONE = STATEMENTS[STATEMENTS.index("fencing_topology"):]  # they are kept as they are, also when nothing follows
WITH_RULE = ("location", "colocation", "without", "beside")  # of an origin or a verdict
WITH_NODE = ("less", "fuller", "later")
NUMBERS = ("number", "code", "line", "seconds", "interval", "count")
COUNTS = re.compile(r"# nodes (\d+) leaves (\d+) rules (\d+)$")
WORD = re.compile(r'(?:"(?:[^"\\]|\\.)*"|[^ "])+')


class NotALine(ValueError):
    """A line that the program doesn't write."""


def read(line):
    """The fields of a line, the first of which is its `kind`."""
    counts = COUNTS.match(line)
    if counts:
        return dict(zip(("kind", "nodes", "leaves", "rules"), ("counts", *map(int, counts.groups()))))
    words = WORD.findall(line)
    kind = words[0] if words else ""
    if kind in ALONE or kind in STATEMENTS and len(words) > 1:
        return {"kind": "statement", "statement": kind, "words": [unquoted(word) for word in words[1:]]}
    if kind not in FIELDS:
        raise NotALine(line)
    found, rest = {"kind": kind}, words[1:]
    for field in FIELDS[kind].split():
        rest = take(field, rest, found, line)
    if rest:
        raise NotALine(line)
    return found


def take(field, words, found, line):
    """Puts one field into those that were found, and gives the words behind it."""
    name = field.strip("[]")
    if not words:
        if field == name:
            raise NotALine(line)
        return words
    if name == "what":
        return take_action(words, found, line)
    if name == "counted":
        return take_origin(words, found, line)
    if name == "verdict":
        return take_named("reason", words, found, line)
    if name == "after":
        if words[0] != "after":
            raise NotALine(line)
        found[name] = [value("number", word, line) for word in words[1:]]
        return []
    found[name] = value(name, words[0], line)
    return words[1:]


def take_action(words, found, line):
    found["action"], rest = words[0], words[1:]
    if words[0] not in ACTIONS:
        raise NotALine(line)
    for field in ACTIONS[words[0]].split():
        rest = take(field, rest, found, line)
    return rest


def take_origin(words, found, line):
    """What a part of a total comes from, behind the resource that lends it, where one does."""
    if words[0] == "lent":
        words = take("lender", words[1:], found, line)
    return take_named("origin", words, found, line)


def take_named(name, words, found, line):
    """An origin or a reason, with the rule or the other node that it names."""
    rest = take(name, words, found, line)
    if found[name] in WITH_RULE:
        return take("rule", rest, found, line)
    return take("other", rest, found, line) if found[name] in WITH_NODE else rest


def value(name, word, line):
    """A field's value: numbers are numbers, quorum is true or false, an infinite score is a text."""
    if name in NUMBERS or name == "score" and "INFINITY" not in word:
        if not re.fullmatch(r"-?\d+", word):
            raise NotALine(line)
        return int(word)
    return word == "yes" if name == "quorum" else word


def unquoted(word):
    """A word of a statement without the quotes that it was written with."""
    return re.sub(r'"((?:[^"\\]|\\.)*)"', lambda match: re.sub(r"\\(.)", r"\1", match[1]), word)


def all_of(text):
    """The fields of all lines of a text."""
    return [read(line) for line in text.splitlines() if line]
