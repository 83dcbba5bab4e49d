"""`what-if`: what a changed configuration or an event would do to the cluster of an input, beside what is done now."""
import argparse
import json
import os
import sys

from explain.tables import command
from show.changing import Parts, brought_down, changed, differences, plan_of, removed
from show.program import Refused, answer, has_word, prepare
from show.summaries import lines_of, summary, together

from .edits import ARGUMENTS, EDITS, MEANINGS, NoChange, edited
from .sources import Source, read

REFUSED, WRONG, FOUND = 5, 2, 9
WORDS = ("scores", "graph", "survive")


class Asked(argparse.Action):
    """Keeps the changes in the order in which they are given."""

    def __call__(self, _parser, words, values, option=None):
        words.changes.append((option.lstrip("-"), *(values if isinstance(values, list) else [values])))


def edit_options(parser):
    parser.set_defaults(changes=[])
    for name in EDITS:
        parser.add_argument(f"--{name}", action=Asked, nargs=len(ARGUMENTS[name]), metavar=tuple(ARGUMENTS[name]) or None, help=MEANINGS[name])


def change_options(parser):
    edit_options(parser)
    parser.add_argument("--fail-on-loss", action="store_true", help=f"the status is {FOUND} where something would lose its place")
    parser.add_argument("--fail-on-change", action="store_true", help=f"the status is {FOUND} where anything would be done otherwise")


def options(parser):
    change_options(parser)
    parser.add_argument("--config", metavar="NEW.crm", help="the changed configuration")
    parser.add_argument("file", nargs="?", metavar="FILE")


def name_of(config, changes):
    """The changed configuration, where there is one, and the changes, as they were given."""
    return " ".join([*([config] if config else []), *(" ".join(["--" + name, *own]) for name, *own in changes)])


class Comparison:
    """The plans without and with the changes, and what each loss brings down."""

    def __init__(self, old, new, name):
        self.old, self.new, self.name = plan_of(old), plan_of(new), name
        self.new.before = {resource: [node for node, _ in targets] for resource, targets in self.old.targets.items()
                           if not any(action.get("resource") == resource for action in self.old.actions)}
        entries = list(summary(self.new))
        self.entries = list(summary(self.old)), entries + list(removed(self.old, self.new))
        self.down = (brought_down(old, self.old), brought_down(new, self.new)) if has_word("survive") else None

    def stopped(self):
        """What has a place without the changes and none with them, unless they ask for that."""
        return [name for name in self.new.order if self.old.targets.get(name) and not self.new.targets[name]
                and self.new.without.get(name, ("",))[0] != "Stopped"]

    def losses(self):
        """What only one of the two survives, of the nodes of the new configuration and of what has a place with it: the
        loss, the resource, and the reason where it has no place with the changes."""
        old, new = self.down
        for loss, down in new.items():
            yield from ((loss, resource, why) for resource, why in down.items() if resource not in old.get(loss, {}))
        for loss, down in old.items():
            yield from ((loss, resource, None) for resource in down if self.new.targets.get(resource) and resource not in new.get(loss, down))

    def show(self, every):
        same = [one.name for one in self.entries[0] if one in self.entries[1] and one.what == "Stay"] if not every else []
        lines = list(differences(*self.entries, every=every))
        print(f"What is done now (-), and with {self.name} (+):", *lines or ["    * nothing is done otherwise"], sep="\n")
        if same:
            print("  " + lines_of([together("Stay", list(dict.fromkeys(same)))])[0])
        if self.down:
            self.show_losses()

    def show_losses(self):
        lines = [f"{loss}, with {self.name}: {name} would no longer have a place ({why})" if why is not None else
                 f"{loss}, with {self.name}: {name} would have a place, which it hasn't now" for loss, name, why in self.losses()]
        print(*lines or [f"Of what has a place with {self.name}, the loss of a single node would bring down the same as now."], sep="\n")

    def as_json(self):
        now, then = ([entry.fields() for entry in entries] for entries in self.entries)
        losses = [{"loss": loss.split()[-1], "resource": name, **({"why": why} if why is not None else {}), "survives": why is None}
                  for loss, name, why in self.losses()] if self.down else []
        return {"kind": "what-if", "with": self.name, "now": now, "then": then, "losses": losses}

    def status(self, words):
        if words.fail_on_loss and (self.stopped() or self.down and any(why is not None for _, _, why in self.losses())):
            return FOUND
        return FOUND if words.fail_on_change and self.entries[0] != self.entries[1] else 0


def say(message):
    print(f"what-if: {message}", file=sys.stderr)


def accepted(name, data):
    """Whether `check` takes a text as it was given; its refusal is said."""
    try:
        answer("check", data)
        return True
    except Refused as refused:
        say(f"{name}: {refused}; `cekpayo check` says more")
        return False


def texts(old, new, words):
    """The input without results, and the one with the changes; what only the state of the input has is left out, which
    is said."""
    if new is None:
        now = Parts(old).input()
        return now, edited(now, words.changes), None
    parts = Parts(old)
    text, gone = changed(Parts(new), parts)
    for one in gone:
        say(f"{one} isn't in {words.config}: its status is left out")
    return parts.input(), edited(text, words.changes), Parts(new).begin - parts.begin


def compare(place, old, new, words):
    """The comparison of an input with what the changes make of it, or the status where that can't be made. What `check`
    takes may still be refused in the state of the input, for a line of the status."""
    name = name_of(words.config, words.changes)
    try:
        now, then, behind = texts(old, new, words)
    except NoChange as error:
        say(f"{place}: {error}")
        return WRONG
    prepare([("check", old), *([("check", new)] if new is not None else []), *((word, text) for text in (now, then) for word in WORDS)])
    try:
        return Comparison(now, then, name)
    except Refused as refused:
        fits = f": its status doesn't fit {words.config}" if words.config else f": it can't be with {name}"
        say(f"{place}: refused {refused.line - (behind or 0)} {refused.cause}{fits}")
        return REFUSED


def lacks_change(words):
    """Whether no change is asked about, which is said."""
    if not words.changes and not words.config:
        say(f"which change? `{command()} help what-if` lists them")
    return not words.changes and not words.config


def ask(words):
    if lacks_change(words):
        return WRONG
    source = Source(words.file, words)
    new = read(words.config) if words.config else None
    comparison = compare(source.name, source.data, new, words) if os.environ.get("CEKPAYO_TRIAL") else None
    if not source.is_accepted() or new is not None and not accepted(words.config, new):
        return REFUSED
    comparison = comparison or compare(source.name, source.data, new, words)
    if isinstance(comparison, int):
        return comparison
    if words.json:
        print(json.dumps(comparison.as_json(), ensure_ascii=False))
    else:
        comparison.show(words.all)
    return comparison.status(words)
