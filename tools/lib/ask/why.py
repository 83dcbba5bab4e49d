"""`why NAME`: what decided where a resource goes, as the program's word `why` tells it; and with --change what would
change that."""
import json

from explain.faulty import RESOURCES
from explain.report import tell
from explain.texts import Text
from show.colours import coloured
from show.program import answer, prepare
from why.accounts import accounts
from why.configured import Configured, Known
from why.failures import failures
from why.leaving import changes, tries
from why.sentences import Teller

from .sources import Source

REFUSED, WRONG = 5, 2
NOTHING = "  no rule, state or failure changes that when it alone is left out"


def options(parser):
    parser.add_argument("--change", action="store_true", help="what would change it too: each rule, setting, state and failure is left out alone")
    parser.add_argument("resource", metavar="NAME")
    parser.add_argument("files", nargs="*", metavar="FILE")


class Answer:
    """What is told of a resource in one input."""

    def __init__(self, words, source):
        self.words, self.data, self.text = words, source.data, Text(source.data)
        self.statement = self.text.defined(RESOURCES).get(words.resource)
        self.found = list(tries(self.text)) if self.statement and words.change else []

    def questions(self):
        asked = ["check", "why"] + ["scores"] * bool(self.found)
        return [(word, self.data) for word in asked] + [("scores", without) for _, without in self.found]

    def work_out(self):
        self.configured = Configured(self.text)
        self.inside = self.configured.inside(self.words.resource)
        self.accounts = accounts(answer("why", self.data), self.inside)
        names = list(dict.fromkeys(self.inside + [lender for one in self.accounts.values() for lender in one.lenders]))
        self.known = Known(self.text, names)
        self.failures = failures(self.configured, self.known, names)
        self.changed = changes(self.data, self.found, self.inside) if self.words.change else None

    def lines(self):
        if self.statement.kind != "primitive":
            yield f"{self.words.resource} is {'an' if self.statement.kind == 'ms' else 'a'} {self.statement.kind}, line {self.statement.first + 1}. In it: {', '.join(self.inside)}."
            yield ""
        teller = Teller(self.configured, self.known, self.words.all)
        for at, account in enumerate(self.accounts.values()):
            yield from [""] * bool(at)
            yield from teller.lines(account)
        if self.failures:
            yield from ["", "Failures:"]
        for one in self.failures:
            yield from (("    " if at else "  ") + said for at, said in enumerate(one.sentences()))
        if self.changed:
            yield from ["", "What would change that, each left out alone:"]
            yield from [f"  {what}: {then}" for what, then in self.changed[1]] or [NOTHING]

    def fields(self):
        found = {"kind": "why", "resource": self.words.resource}
        found["primitives"] = [self.of_account(one) for one in self.accounts.values()]
        found["failures"] = [one.fields() for one in self.failures]
        if self.changed:
            found.update(now=self.changed[0], changed=[{"with": what, "then": then} for what, then in self.changed[1]])
        return found

    def of_account(self, account):
        name, plan, line_of = account.resource, account.plan, self.configured.line_of
        found = {"resource": name, "targets": [{"node": node, "role": role} for node, role in plan.targets.get(name, [])]}
        if name in plan.pinned:
            found["pinned"] = plan.pinned[name]
        if name in plan.without:
            reason, rule = plan.without[name]
            found["none"] = {"reason": reason, "rule": rule, "line": line_of(rule)} if rule else {"reason": reason}
        found["decisions"] = [{"decision": decision, "nodes": [cell.fields(line_of) for cell in cells.values()]} for decision, cells in account.decisions.items()]
        return found


def ask(words):
    source = Source(words.file, words)
    told = Answer(words, source)
    if told.statement is None:
        if source.is_accepted():
            tell(f"why: {source.name}: there is no resource `{words.resource}`{'' if words.files else ', nor a file of this name'}")
            return WRONG
        return REFUSED
    prepare(told.questions())
    if not source.is_accepted():
        return REFUSED
    told.work_out()
    if words.json:
        found = dict(told.fields(), file=words.file) if len(words.files) > 1 else told.fields()
        print(json.dumps(found, ensure_ascii=False))
        return 0
    if len(words.files) > 1:
        print(coloured(f"{words.file}:", "bold"))
    print(*told.lines(), sep="\n")
    return 0
