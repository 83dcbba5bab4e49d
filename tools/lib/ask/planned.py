"""`plan`: what has to be done now, and how long it takes."""
import json

from collect.measured import measured
from explain.texts import Text
from show.changing import plan_of
from show.lines import read
from show.program import answer, prepare
from show.summaries import Entry, lines_of, summary, together
from show.times import Timeouts

from .sources import Source
from .times import AS_MEASURED, AT_MOST, Measured, lines, way

REFUSED = 5


def options(parser):
    parser.add_argument("--time", action="store_true", help="how long it takes, by the timeouts of operations and by the times that a CIB has")
    parser.add_argument("file", nargs="?", metavar="FILE")


def short(entries):
    """The entries, with one alone for all that stays."""
    stay = [entry.name for entry in entries if entry.what == "Stay"]
    told = [entry for entry in entries if entry.what != "Stay"]
    return told + ([together("Stay", list(dict.fromkeys(stay)))] if stay else [])


def entries_of(plan, every):
    found = list(summary(plan))
    if plan.monitors:
        found.append(Entry("Monitor", f"{plan.monitors} times", why="recurring monitors begin"))
    return found if every else short(found)


def show(plan, entries):
    acts = plan.actions or plan.probes or plan.monitors
    print("What has to be done now:" if acts else "Nothing has to be done now.", *lines_of(entries), sep="\n")


class Times:
    """How long the actions take: the longest way by timeouts, and by measured times where the input was a CIB that has
    them."""

    def __init__(self, source, actions):
        timeouts = Timeouts([word.text for word in one.words] for one in Text(source.data).configuration if one.words)
        found = measured(source.cib) if source.cib else {}
        self.measured = Measured(found, timeouts) if found else None
        self.at_most = way(actions, timeouts.of_action)
        self.last = way(actions, self.measured.of_action) if found else []

    def lines(self):
        yield from lines(self.at_most, AT_MOST)
        if self.last:
            yield from lines(self.last, AS_MEASURED, self.measured)

    def fields(self):
        found = {"milliseconds": total(self.at_most), "longest": [action["number"] for action, _, _ in self.at_most]}
        return dict(found, measured=total(self.last)) if self.last else found


def total(found):
    return found[-1][2] if found else 0


def ask(words):
    source = Source(words.file, words)
    prepare([(word, source.data) for word in ("check", "scores", "graph")])
    if not source.is_accepted():
        return REFUSED
    plan = plan_of(source.data)
    entries = entries_of(plan, words.all)
    actions = [read(line) for line in answer("graph", source.data)] if words.time or words.json else []
    times = Times(source, actions) if words.time else None
    if words.json:
        found = {"kind": "plan", "entries": [entry.fields() for entry in entries], "actions": actions}
        print(json.dumps(dict(found, **times.fields()) if times else found, ensure_ascii=False))
        return 0
    show(plan, entries)
    if times:
        print(*times.lines(), sep="\n")
    return 0
