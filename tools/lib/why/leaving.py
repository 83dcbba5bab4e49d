"""What would change the place of a resource: each statement, state or failure that does when it is left out alone."""
from explain.differences import TRUE
from explain.faulty import RESOURCES
from explain.texts import STATUS
from show.lines import read
from show.plans import Plan
from show.program import Refused, answer
from show.summaries import reason, role_on

from ask.edits import pair_in

RULES = ("location", "colocation", "collocation", "order")
GOOD = ("0", "8", "190", "191")


def tries(text):
    """What may be left out, in words, with the text without it."""
    yield from rules(text)
    yield from settings(text)
    yield from states(text)
    yield from failures(text)


def rules(text):
    for one in text.configuration:
        if one.kind in RULES:
            yield f"without `{' '.join(one.fields())}`", text.without([one])


def settings(text):
    """Nodes in standby, and settings that stop a resource or leave it alone."""
    for one in text.configuration:
        if one.kind == "node":
            pair = pair_in(one, "attributes", "standby")
            if pair and pair.value.lower() in TRUE:
                yield f"if {one.id.text} weren't in standby", text.with_word(pair, "standby=off")
        for word in one.words[1:]:
            if word.key in ("target-role", "is-managed", "maintenance-mode", "stop-all-resources"):
                name = f" of {one.words[1].text}" if one.kind in RESOURCES else ""
                usual = {"target-role": "Started", "is-managed": "true"}.get(word.key, "false")
                yield f"without `{word.text}`{name}", text.with_word(word, f"{word.key}={usual}")


def states(text):
    for one in text.each():
        if one.section == STATUS and one.kind == "node" and one.fields()[2] != "online":
            yield f"if {one.fields()[1]} were online", text.with_word(one.words[2], "online")
        if one.section == STATUS and one.kind == "quorum" and one.fields()[1] == "no":
            yield "with quorum", text.with_word(one.words[1], "yes")


def failures(text):
    """The failures of each resource on each node; what is left of its history there stays."""
    found = {}
    for one in text.each():
        fields = one.fields() if one.section == STATUS and one.kind == "op" else []
        if len(fields) == 7 and fields[5] not in GOOD and not (fields[3:6] == ["monitor", "0", "7"]):
            found.setdefault((fields[1], fields[2]), []).append(one)
    for (node, name), statements in found.items():
        count = f"the {len(statements)} failures" if len(statements) > 1 else "the failure"
        yield f"without {count} of {name} on {node}", text.without(statements)


def places(data, inside):
    """The targets of the resources, in words."""
    plan = Plan()
    for line in answer("scores", data):
        if line.startswith(("target ", "none ", "pinned ")):
            plan.take(read(line))
    return "; ".join(where(plan, name, len(inside) > 1) for name in inside)


def where(plan, name, named):
    targets = ", ".join(role_on(role) + node for node, role in plan.targets[name])
    why = reason(plan, name)
    said = f"on {targets}" + (f" ({why})" if why else "") if targets else f"no place: {why}"
    return f"{name} {said}" if named else said


def changes(data, found, inside):
    """Where the resources are, and each thing that may be left out which changes that, with where they are then."""
    now, other = places(data, inside), []
    for what, without in found:
        try:
            then = places(without, inside)
        except Refused:
            continue
        if then != now:
            other.append((what, then))
    return now, other
