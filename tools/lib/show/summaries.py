"""What a plan does with each resource, in the words of a transition summary."""
from collections import namedtuple

NARROW = 16  # the columns of a name, if none is longer
WIDE = 80

REASONS = {
    "NoCopies": "it may have no copy",
    "Stopped": "its target-role",
    "OnFail": "an operation failed whose on-fail is stop",
    "StopAll": "stop-all-resources",
    "NoQuorum": "there is no quorum",
    "NoNode": "no node could be chosen",
    "Held": "held back by {}: what it needs has no place",
}
PINNED = {"unmanaged": "it isn't managed", "blocked": "an operation failed whose on-fail is block"}
CUTS = {
    "unexpected": "The run ends here: the result in line {line} doesn't apply.",
    "refused": "The run ends here: the result in line {line} is refused ({cause}).",
}


Fields = namedtuple("Fields", "what name where why")
Fields.__new__.__defaults__ = ("", "")


class Entry(Fields):
    """What is done with a resource or a node: where, and why."""

    def text(self, width=NARROW):
        rest = " ".join([f"( {self.where} )"] * bool(self.where) + [self.why] * bool(self.why))
        return f"  * {self.what:<10} " + (f"{self.name:<{width}} {rest}" if rest else self.name)

    def fields(self):
        """The same by names, with the nodes apart."""
        nodes = [word for word in self.where.replace(",", " ").split() if word not in ("->", "Started", "Promoted")]
        found = {"what": self.what, "name": self.name, "nodes": nodes, "promoted": "Promoted" in self.where.split("->")[-1], "why": self.why}
        return {name: value for name, value in found.items() if value}


def width_of(entries):
    return max([NARROW, *(len(entry.name) for entry in entries if entry.where or entry.why)])


def lines_of(entries):
    """The entries as lines, whose columns stand below each other."""
    width = width_of(entries)
    return [entry.text(width) for entry in entries]


def summary(plan):
    """The entries of a plan: fences, then each resource in the order of the configuration, then probes."""
    yield from (Entry("Fence", action["node"]) for action in plan.actions if action["action"] == "fence")
    acts = by_resource(plan)
    for name in plan.order + [name for name in acts if name not in plan.targets]:
        yield from of_resource(plan, name, acts.get(name, {}))
    if plan.probes:
        yield Entry("Probe", f"{plan.probes} times", why="does a resource run there?")


def by_resource(plan):
    """For each resource its actions by kind: the node of each, or the two of a migration."""
    found = {}
    for action in plan.actions:
        if "resource" in action:
            where = action.get("node") or (action["source"], action["target"])
            found.setdefault(action["resource"], {}).setdefault(action["action"], []).append(where)
    return found


def reason(plan, name):
    if name in plan.pinned:
        return PINNED.get(plan.pinned[name], plan.pinned[name])
    return because(plan.without[name]) if name in plan.without else ""


def because(without):
    """The reason why a resource has no place, in words."""
    why, rule = without
    return REASONS.get(why, why).format(rule)


def of_resource(plan, name, own):
    """The entries of one resource: what it leaves and where it comes to be, then what stays."""
    targets, why = dict(plan.targets.get(name, [])), reason(plan, name)
    starts, stops = own.get("start", []), own.get("stop", [])
    moved = own.get("migrate_to", [])
    left = stops or plan.left_behind(name)
    if moved:
        yield Entry("Migrate", name, f"{moved[0][0]} -> {moved[0][1]}")
    elif len(starts) == len(left) == len(targets) == 1 and starts != left:
        yield Entry("Move", name, f"{left[0]} -> {starts[0]}{promoted(own, starts[0])}")
    else:
        yield from each_node(name, own, starts, stops, why)
    touched = {*starts, *stops, *own.get("promote", []), *own.get("demote", []), *(target for _, target in moved)}
    for node, role in targets.items():
        if node not in touched:
            yield Entry(stays(plan, name), name, f"{role_on(role)}{node}", why)
    if name in plan.targets and not targets and not stops and not moved:
        yield Entry("No place" if name not in plan.pinned else "Leave", name, why=why)


def stays(plan, name):
    """What is said of a target that no action leads to: it may be there already, or only that it is to be there."""
    if name in plan.pinned:
        return "Leave"
    return "Stay" if plan.done else "Place"


def each_node(name, own, starts, stops, why):
    """What happens to the copies of a resource, node by node."""
    promotes, demotes = own.get("promote", []), own.get("demote", [])
    for node in dict.fromkeys(stops + demotes + starts + promotes):
        if node in stops and node in starts:
            yield Entry("Restart", name, node + promoted(own, node))
        elif node in stops:
            yield Entry("Stop", name, node, why)
        elif node in starts:
            yield Entry("Start", name, node + promoted(own, node))
        elif node in promotes:
            yield Entry("Promote", name, f"Started -> Promoted {node}", "it is demoted first" if node in demotes else "")
        else:
            yield Entry("Demote", name, f"Promoted -> Started {node}")


def promoted(own, node):
    return ", Promoted" if node in own.get("promote", []) else ""


def role_on(role):
    return "Promoted " if role == "promoted" else ""


def changes(loss):
    """The entries of what a loss changes of the plan before it; all that stays is one entry."""
    stay = []
    for name in loss.order:
        now, then = dict(loss.now.targets.get(name, [])), dict(loss.targets[name])
        gone, come = [node for node in now if node not in then], [node for node in then if node not in now]
        roles = [node for node in then if node in now and then[node] != now[node]]
        if now and not then:
            yield Entry("No place", name, " ".join(now), reason(loss, name))
        elif len(gone) == len(come) == 1:
            yield Entry("Move", name, f"{gone[0]} -> {role_on(then[come[0]])}{come[0]}")
        else:
            yield from (Entry("Lose", name, node, "a copy") for node in gone)
            yield from (Entry("Start", name, role_on(then[node]) + node) for node in come)
        for node in roles:
            yield Entry("Promote", name, f"Started -> Promoted {node}") if then[node] == "promoted" else \
                Entry("Demote", name, f"Promoted -> Started {node}")
        if now and not (gone or come or roles):
            stay.append(name)
    if stay:
        yield together("Stay", stay)


def together(what, names, most=WIDE):
    """One entry for several names, as many as fit on a line."""
    said = names[0]
    for at, name in enumerate(names[1:], 1):
        if len(said) + len(name) > most:
            return Entry(what, f"{said} and {len(names) - at} more")
        said += ", " + name
    return Entry(what, said)


def shown(plan, every=False):
    """The title of a plan, its summary, and why the run ends before its time, where it does."""
    head = plan.title or "Summary"
    if plan.acts and not plan.done:
        head += f" ({plan.end or 'not complete'})"
    entries = list(changes(plan) if plan.now and not every else summary(plan))
    lines = lines_of(entries) or ["  * nothing to do"]
    return [head + ":", *lines] + ([CUTS[plan.cut["kind"]].format(**plan.cut)] if plan.cut else [])
