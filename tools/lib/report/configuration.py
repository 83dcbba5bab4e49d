"""The configuration as `check` writes it: nodes, resources, what they are in, the rules that name them, timeouts."""
from explain.differences import TRUE
from explain.hints import SECTIONS
from show.lines import read
from show.times import Timeouts, pairs


class Rule:
    """A location, colocation or order: its kind, its id, the number of its line and what follows its id."""

    def __init__(self, kind, words, line):
        self.kind, self.id, self.line, self.rest = kind, words[0], line, words[1:]

    @property
    def names(self):
        of_location = self.rest[:1] if self.kind == "location" else self.rest
        return [word.split(":")[0] for word in of_location]

    @property
    def is_together(self):
        """Whether two resources must be on one node."""
        return self.kind == "colocation" and self.rest[0] == "INFINITY:"


class Top:
    """A resource that stands alone, or a group or clone with what is in it."""

    def __init__(self, kind, name, inside, line):
        self.kind, self.name, self.inside, self.line, self.leaves = kind, name, inside, line, []


class Configuration:
    def __init__(self, lines):
        self.lines = lines
        self.nodes, self.standby, self.agents, self.tops, self.rules = [], set(), {}, {}, []
        self.timeouts = Timeouts()
        for number, line in enumerate(lines):
            found = read(line)
            if found["kind"] == "statement":
                self.take(found["statement"], found["words"], number)
        self.nest()

    def take(self, kind, words, line):
        self.timeouts.take([kind, *words])
        if kind == "node":
            self.take_node(words)
        elif kind == "primitive":
            self.agents[words[0]] = words[1]
            self.tops[words[0]] = Top("primitive", words[0], [], line)
        elif kind in ("group", "clone", "ms"):
            ends = [at for at, word in enumerate(words) if word in SECTIONS or word.startswith("description=")]
            self.tops[words[0]] = Top(kind, words[0], words[1:ends[0] if ends else len(words)], line)
        elif kind in ("location", "colocation", "order"):
            self.rules.append(Rule(kind, words, line))

    def take_node(self, words):
        name = words[1] if words[0].endswith(":") and len(words) > 1 else words[0]
        self.nodes.append(name)
        if pairs(words).get("standby", "").lower() in TRUE:
            self.standby.add(name)

    def nest(self):
        """Finds the leaves of each top, and the top of each leaf; what is in another is no top."""
        self.lines_of = {name: top.line for name, top in self.tops.items()}
        within = {name: top.name for top in self.tops.values() for name in top.inside}
        for name in self.agents:
            above = name
            while above in within:
                above = within[above]
            self.tops[above].leaves.append(name)
        self.group_of = {name: top for name, top in within.items() if self.tops[top].kind == "group"}
        self.above = {leaf: top.name for top in self.tops.values() for leaf in top.leaves}
        self.groups = {name: top.inside for name, top in self.tops.items() if top.kind == "group"}
        place = {name: number for number, name in enumerate(self.agents)}
        tops = [self.in_order(top) for top in self.tops.values() if top.name not in within]
        self.tops = {top.name: top for top in sorted(tops, key=lambda top: min((place[leaf] for leaf in top.leaves), default=0))}

    def in_order(self, top):
        """The members of a group run in its own order, not in that of their statements."""
        inside = self.groups.get(top.name) or self.groups.get((top.inside or [""])[0])
        top.leaves = list(inside or top.leaves)
        return top

    def timeout(self, action):
        """How many seconds an action may take."""
        return self.timeouts.of_action(action) / 1000

    def aliases(self, leaf):
        """The names under which rules may mean a resource."""
        return list(dict.fromkeys([leaf, self.group_of.get(leaf, leaf), self.above.get(leaf, leaf)]))

    def rules_of(self, leaf):
        """The rules that name a resource, or what it is in."""
        if not hasattr(self, "by_name"):
            self.by_name = {}
            for rule in self.rules:
                for name in dict.fromkeys(rule.names):
                    self.by_name.setdefault(name, []).append(rule)
        found = {rule.line: rule for name in self.aliases(leaf) for rule in self.by_name.get(name, [])}
        return [found[line] for line in sorted(found)]

    def leaves_of(self, name):
        """The leaves that a rule means by a name."""
        if name in self.agents:
            return [name]
        if name in self.groups:
            return self.groups[name]
        return self.tops[name].leaves if name in self.tops else []
