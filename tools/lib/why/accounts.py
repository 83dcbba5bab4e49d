"""The account that the program's word `why` gives of a resource: what each node counted in each of its decisions, what
was held back, and where it goes."""
from show.lines import read
from show.plans import Plan

DECISIONS = ("place", "promote")
OF_HELD = {"held": "place", "unpromoted": "promote"}


class Cell:
    """A node in a decision. `verdict` has the reason for which it isn't chosen, or nothing; `held` the rule that holds
    it back once it is."""

    def __init__(self, node):
        self.node, self.parts, self.score, self.verdict, self.held = node, [], 0, None, None

    def fields(self, line_of):
        """What is told of the node, by names. The second argument gives the line of a rule."""
        found = {"node": self.node, "score": self.score, "chosen": self.verdict is None}
        for line in [self.verdict] if self.verdict else []:
            found.update(with_line({name: line[name] for name in ("reason", "rule", "other") if name in line}, line_of))
        if self.held:
            found["held"] = with_line({"rule": self.held}, line_of)
        found["parts"] = [with_line({name: part[name] for name in ("score", "lender", "origin", "rule") if name in part}, line_of) for part in self.parts]
        return found


def with_line(found, line_of):
    line = line_of(found["rule"]) if "rule" in found else None
    return dict(found, line=line) if line else found


class Account:
    """What is told of one primitive."""

    def __init__(self, resource):
        self.resource, self.decisions, self.plan = resource, {}, Plan()
        self._last = None

    @property
    def lenders(self):
        """The resources that lend something to it, in their order."""
        parts = [part for cells in self.decisions.values() for cell in cells.values() for part in cell.parts]
        return list(dict.fromkeys(part["lender"] for part in parts if "lender" in part))

    def take(self, line):
        kind = line["kind"]
        if kind in DECISIONS:
            self._last = self.decisions[kind] = {}
        elif kind in OF_HELD:
            self.decisions[OF_HELD[kind]][line["node"]].held = line["rule"]
        elif kind in ("part", "score", "chosen", "not"):
            self.of_node(kind, self._last.setdefault(line["node"], Cell(line["node"])), line)
        else:
            self.plan.take(line)

    @staticmethod
    def of_node(kind, cell, line):
        if kind == "part":
            cell.parts.append(line)
        elif kind == "score":
            cell.score = line["score"]
        elif kind == "not":
            cell.verdict = line


def accounts(lines, names):
    """The accounts of these primitives, by their names in this order."""
    found = {name: Account(name) for name in names}
    for line in lines:
        name = line.split(" ", 2)[1]
        if name in found:
            found[name].take(read(line))
    return found
