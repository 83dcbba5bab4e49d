"""The input that a changed configuration makes with the status of another input, the plans of both, and what a loss
brings down."""
import difflib

from explain.texts import RESULTS, STATUS, Text

from .lines import read
from .plans import Plan
from .program import has_word, lines_of
from .summaries import Entry, reason, width_of

OF_NODE, OF_RESOURCE = ("node", "op", "cleanup", "promotion"), ("op", "cleanup", "promotion")


class Parts:
    """A text that `check` takes, cut into its configuration and its status, which begins at the line `begin`; results
    are left out."""

    def __init__(self, data):
        self.data, self.text = data, Text(data)
        self.end = self.text.heads.get(RESULTS, len(self.text.lines))
        self.begin = self.text.heads.get(STATUS, self.end)
        self.configuration = self.text.lines[:self.begin]

    def status(self):
        return (one for one in self.text.each() if one.section == STATUS)

    def input(self):
        return b"\n".join(self.text.lines[:self.end]) if self.end < len(self.text.lines) else self.data

    def status_without(self, dropped):
        """The lines of the status; those of some statements are empty, so that the others stay as far from its first
        line."""
        lines = self.text.lines[self.begin:self.end]
        for statement in dropped:
            for line in range(statement.first, statement.last + 1):
                lines[line - self.begin] = b""
        return lines


def changed(new, old):
    """The input of the new configuration in the state of the old input, and the names that are only in that state."""
    nodes, resources = new.text.defined(("node",)), new.text.defined(("primitive",))
    dropped, gone = [], []
    for one in old.status():
        words = one.fields()
        names = [(words[1:2], nodes)] * (one.kind in OF_NODE) + [(words[2:3], resources)] * (one.kind in OF_RESOURCE)
        missing = [name for found, known in names for name in found if name not in known]
        gone += [name for name in missing if name not in gone]
        dropped += [one] if missing else []
    return b"\n".join(new.configuration + old.status_without(dropped)), gone


LONG = ("score ", "place ", "promote ")  # lines of `scores` that say nothing of a plan


def plan_of(text):
    """The plan for an input; its actions are known where the program has the word `graph`."""
    plan = Plan(acts=has_word("graph"))
    for word in ("scores", "graph") if plan.acts else ("scores",):
        for line in lines_of(word, text):
            if not line.startswith(LONG):
                plan.take(read(line))
    return plan


def differences(old, new, every=True):
    """Two lists of entries in one, as `diff` would show them; of what differs, those of one resource are together.
    Unless every one is asked for, what stays in both is left to the caller."""
    width = width_of([*old, *new])
    for what, first, last, begin, end in difflib.SequenceMatcher(None, old, new, False).get_opcodes():
        if what == "equal":
            yield from ("  " + entry.text(width) for entry in old[first:last] if every or entry.what not in QUIET)
            continue
        together = {}
        for mark, entries in (("- ", old[first:last]), ("+ ", new[begin:end])):
            for entry in entries:
                together.setdefault(entry.name, []).append(mark + entry.text(width))
        for lines in together.values():
            yield from lines


QUIET = ("Stay", "Place", "Leave", "No place")


def removed(old, new):
    """What the old plan leaves running of resources that the new configuration doesn't have."""
    for name in old.order:
        if name not in new.targets and old.targets[name]:
            yield Entry("Removed", name, " ".join(node for node, _ in old.targets[name]), "Pacemaker stops it; here nothing is done with it")


def losses_of(text):
    """The plan after each loss, one after another."""
    plan = None
    for line in lines_of("survive", text):
        found = read(line)
        if found["kind"] == "loss":
            if plan:
                yield plan
            plan = Plan(f"After the loss of {found['node']}")
        else:
            plan.take(found)
    if plan:
        yield plan


def brought_down(text, plan):
    """For each loss what has a place and loses it, with the reason. Nothing where there is no word `survive`."""
    if not has_word("survive"):
        return None
    return {loss.title: {name: reason(loss, name) for name in loss.order if plan.targets.get(name) and not loss.targets[name]}
            for loss in losses_of(text)}
