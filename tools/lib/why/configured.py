"""What the statements of an input set for a resource, each with the line on which it stands."""
from explain.differences import FALSE, TRUE, members, pair_of
from explain.faulty import RESOURCES
from explain.texts import RESULTS, STATUS, Text

from ask.edits import pair_in

RULES = ("location", "colocation", "collocation", "order", "group")
OF_RESOURCE = (b"op", b"cleanup", b"promotion")


class Setting:
    """A value, and the line that gives it; one that no line gives is a default."""

    def __init__(self, key, value, line=None):
        self.key, self.value, self.line = key, value, line

    @property
    def is_true(self):
        return self.value.lower() in TRUE

    def __str__(self):
        return f"{self.key}={self.value}, {at(self.line)}" if self.line else f"{self.key}={self.value}"


def at(line):
    return f"line {line}"


class Configured:
    """The configuration of a text."""

    def __init__(self, text):
        self.resources, self.rules, self.nodes = text.defined(RESOURCES), text.defined(RULES), text.defined(("node",))
        self.above = {}
        for one in self.resources.values():
            for word in members(one) if one.kind != "primitive" else ():
                self.above.setdefault(word.text, one)
        self.of_kind = {kind: [one for one in text.configuration if one.kind == kind] for kind in ("property", "rsc_defaults")}

    def chain(self, name):
        """The statements of a primitive, of its group and of its clone, as far as they are there."""
        one = self.resources.get(name)
        while one is not None:
            yield one
            one = self.above.get(one.id.text)

    def meta(self, name, key, default=""):
        """What a primitive has for a key: its own, else that of its group, its clone or rsc_defaults."""
        pairs = [pair_in(one, "meta", key) for one in self.chain(name)] + [pair_of(one, key) for one in self.of_kind["rsc_defaults"]]
        return setting_of(key, [pair for pair in pairs if pair], default)

    def property(self, key, default=""):
        pairs = [word for one in self.of_kind["property"] for word in one.words[1:] if word.key == key]
        return setting_of(key, pairs, default)

    def is_off(self, key):
        """Whether a property that is true by default is false."""
        return self.property(key, "true").value.lower() in FALSE

    def standby(self, node):
        """The attribute by which a node is in standby, or nothing."""
        pair = pair_in(self.nodes[node], "attributes", "standby") if node in self.nodes else None
        found = setting_of("standby", [pair] if pair else [], "off")
        return found if found.is_true else None

    def line_of(self, rule):
        """The line on which a rule's statement begins, or nothing."""
        return self.rules[rule].first + 1 if rule in self.rules else None

    def inside(self, name):
        """The names of the primitives in a resource, itself where it is one."""
        one = self.resources.get(name)
        if one is None or one.kind == "primitive":
            return [name]
        return [inner for word in members(one) for inner in self.inside(word.text)]


def setting_of(key, pairs, default):
    return Setting(key, pairs[0].value, pairs[0].first + 1) if pairs else Setting(key, default)


class Operation:
    """An operation that ended, as the status has it."""

    def __init__(self, fields, line):
        _, self.node, self.resource, self.kind, interval, code, seconds = fields
        self.interval, self.seconds, self.line = int(interval), int(seconds), line
        self.code = None if code == "timeout" else int(code)


class Known:
    """What the status says of the nodes, and of some resources."""

    def __init__(self, text, names):
        self.now, self.quorum, self.quorum_line, self.states, self.promotions, self.history = 0, False, None, {}, {}, []
        names = set(names)
        for fields, line in lines_of_status(text, names):
            if fields[0].encode() in OF_RESOURCE:
                if fields[2] in names:
                    self.of_resource(fields, line)
            elif fields[0] == "node":
                self.states[fields[1]] = (fields[2], line)
            elif fields[0] == "now":
                self.now = int(fields[1])
            elif fields[0] == "quorum":
                self.quorum, self.quorum_line = fields[1] == "yes", line

    def of_resource(self, fields, line):
        if fields[0] == "promotion":
            self.promotions[fields[2], fields[1]] = line
        elif fields[0] == "cleanup":
            self.history = [one for one in self.history if (one.node, one.resource) != (fields[1], fields[2])]
        else:
            self.history.append(Operation(fields, line))


def lines_of_status(text, names):
    """The words of each statement of the status that speaks of a node or of one of these resources, and its line. There
    may be very many others."""
    if STATUS not in text.heads:
        return
    begin, end = text.heads[STATUS] + 1, text.heads.get(RESULTS, len(text.lines))
    lines = text.lines[begin:end]
    if any(mark in line for line in lines for mark in (b'"', b"'", b"\\")):
        for one in Text(b"\n".join(lines)).each():
            yield one.fields(), begin + one.first + 1
        return
    names = {name.encode() for name in names}
    for number, line in enumerate(lines, begin + 1):
        words = line.split()
        if words and not words[0].startswith(b"#") and (words[0] not in OF_RESOURCE or words[2] in names):
            yield [word.decode() for word in words], number
