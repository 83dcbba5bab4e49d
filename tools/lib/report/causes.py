"""The cause that keeps a resource from a node, where it is certain: a failure there, or what it must be with, to the
end of the chain."""
from .markup import code, joined
from .status import PROMOTED, RUNS

NEVER = "-INFINITY"
UNSURE = ("symmetric-cluster", "node-health")  # options that may bar a node too


def failed(failure):
    return f"monitor every {failure.interval / 1000:g} s" if failure.operation == "monitor" and failure.interval else failure.operation


class Ban:
    """A failure that bars the one node that a resource may never have, while nothing else is known to bar it."""

    def __init__(self, resource, failure):
        self.resource, self.failure = resource, failure

    @classmethod
    def of(cls, case, resource, never):
        near = [resource, *case.configuration.groups.get(case.configuration.group_of.get(resource), [])]
        found = [one for leaf in near for one in case.failures.get(leaf, []) if [one.node] == never]
        same = len({(one.resource, one.operation, one.interval, one.code) for one in found}) == 1
        return cls(resource, found[0]) if same and not others_bar(case, near) else None

    def words(self):
        failure = self.failure
        whose = ["its ", failed(failure)] if failure.resource == self.resource \
            else ["the ", failed(failure), " of ", code(failure.resource), ", which is in its group,"]
        ended = "took too long" if failure.code is None else f"failed with exit code {failure.code}"
        return joined([*whose, " ", ended, " on ", code(failure.node)])


def others_bar(case, leaves):
    """Whether a rule or an option may bar a node too."""
    rules = [rule for leaf in leaves for rule in case.configuration.rules_of(leaf)]
    if any(NEVER in word for rule in rules for word in rule.rest) or any(rule.is_together for rule in rules):
        return True
    return any(line.startswith("property") and word in line for line in case.configuration.lines for word in UNSURE)


class Chain:
    """The colocations that lead from a resource to what decides where it is: each the only one that isn't met on the
    node that it is kept from."""

    def __init__(self, subject, steps, node, is_new):
        self.subject, self.steps, self.node, self.is_new = subject, steps, node, is_new

    @classmethod
    def of(cls, case, resource, kept_from, chosen):
        configuration = case.configuration
        if configuration.tops[configuration.above[resource]].kind not in ("primitive", "group"):
            return None
        steps, name = [], configuration.group_of.get(resource, resource)
        subject = joined(["its group ", code(name)]) if name != resource else "it"
        while len(steps) < 9:
            rule = step(case, name, kept_from, chosen)
            if not rule or rule in steps:
                break
            steps.append(rule)
            name = rule.names[2]
            if ":" in rule.rest[2] or name not in configuration.tops or configuration.tops[name].kind not in ("primitive", "group"):
                break
        return cls(subject, steps, chosen, not is_there(case, steps[-1].rest[2], chosen)) if steps else None

    def words(self):
        parts = [self.subject]
        for at, rule in enumerate(self.steps):
            role = " is promoted" if ":" in rule.rest[2] else " is"
            parts += [", which" if at else "", " must be where ", code(rule.names[2]), role, " (", code(rule.id), ")"]
        return joined([*parts, ", and that becomes " if self.is_new else ", and that is ", code(self.node)])


def places_of(case, side):
    """Where one side of a colocation is at the end, in its role."""
    name, _, role = side.partition(":")
    found = {node: own for leaf in case.configuration.leaves_of(name)[:1] for node, own in case.places.get(leaf, {}).items()}
    return [node for node, own in found.items() if not role or own == "promoted"]


def is_there(case, side, node):
    """Whether one side of a colocation is on a node now, in its role."""
    name, _, role = side.partition(":")
    return any(case.status.state(leaf, node) in ((PROMOTED,) if role else (RUNS, PROMOTED)) for leaf in case.configuration.leaves_of(name)[:1])


def step(case, name, kept_from, chosen):
    """The one rule that keeps a resource or a group from a node, or nothing where there are others that may."""
    together, apart = [], []
    first = case.configuration.groups.get(name, [name])[0]
    if case.totals.get((first, kept_from), NEVER).startswith("-"):
        return None  # its own total keeps it away
    for rule in case.configuration.rules_of(first):
        if rule.kind == "colocation" and rule.rest[0] == NEVER + ":":
            apart.append(rule)
        elif rule.is_together and rule.names[1] in (first, name) and kept_from not in places_of(case, rule.rest[2]):
            together.append(rule)
    if apart or len(together) != 1 or together[0].rest[1] != together[0].names[1]:
        return None
    return together[0] if places_of(case, together[0].rest[2]) == [chosen] else None
