"""Puts the sections of a report into the page."""
import base64
import hashlib
import os
from string import Template

from . import change, losses, overview, placement, runs, told
from .doings import Doings, doing
from .markup import joined, tag, text
from .reasons import reason
from .timeline import Timeline, section as plan

FOLDER = os.path.dirname(os.path.abspath(__file__))


def part(name):
    with open(os.path.join(FOLDER, name), encoding="utf-8") as file:
        return file.read()


def page(title, lead, sections):
    """The whole page: one file that loads nothing, in which no script runs but its own."""
    script = part("page.js")
    digest = base64.b64encode(hashlib.sha256(script.encode()).digest()).decode()
    links = joined([tag("li", tag("a", head, href=f"#{key}")) for key, head, _ in sections])
    body = joined([tag("section", tag("h2", head, id=f"{key}-title"), inside, id=key, aria_labelledby=f"{key}-title")
                   for key, head, inside in sections], "\n")
    return Template(part("page.html")).substitute(title=text(title), lead=lead, links=links, body=body, digest=digest,
                                                  style=part("page.css"), script=script)


class Sections:
    """What the sections of one case share."""

    def __init__(self, case):
        self.case = case
        own = Doings(case.actions)
        self.doings = {leaf: doing(case, own, leaf) for leaf in case.leaves}
        self.timeline = Timeline(case)
        self.losses = [losses.Loss(case, node) for node in case.losses]

    def all(self, hide):
        case = self.case
        reasons = {leaf: reason(case, leaf) for leaf in case.leaves}
        noted = list(told.of_notes(case.source.data, hide))
        return [
            ("short", "In short", overview.section(case, self.timeline, self.doings, self.losses)),
            ("placement", "Placement", placement.section(case, self.doings, reasons)),
            ("plan", "Plan", plan(self.timeline)),
            ("losses", "Losses", losses.section(case, self.losses)),
            ("run", "Simulated run", runs.section(case)),
            ("notes", "Notes", told.section(noted, map(hide, case.source.said))),
            ("text", "Configuration", told.canonical(case.configuration.lines, hide)),
        ]


def report(case, hide):
    sections = Sections(case)
    return page(f"Cluster report: {case.source.name}", overview.state(case), sections.all(hide))


def report_of_change(old, new, gone, name, hide):
    """The report of the changed configuration, which begins with what is otherwise."""
    before, after = Sections(old), Sections(new)
    first, *rest = after.all(hide)
    changed = change.section(old, new, before.doings, after.doings, before.losses, after.losses, gone)
    lead = joined([overview.state(new), f" Everything below but the column \u201cAs it is\u201d is shown with the change, {name}."])
    return page(f"Change report: {name} for {old.source.name}", lead, [("change", "What the change does", changed), first, *rest])


def report_of_refusal(source, hide):
    found = told.of_refusals(source.data, hide)
    lead = tag("strong", "The input is refused, so nothing can be said of the cluster.", class_="bad")
    shown = joined([tag("ul", *found, class_="notes")])
    lines = [line.decode("utf-8", "replace") for line in source.data[:1 << 20].split(b"\n")]
    return page(f"Refused: {source.name}", lead, [("refusals", "Refusals", shown), ("notes", "Notes", told.section([], map(hide, source.said))),
                                                  ("text", "Input", told.canonical(lines, hide))])
