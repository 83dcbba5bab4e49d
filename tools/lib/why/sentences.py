"""The account of a resource in sentences: where it goes, then for each node why, with the lines of the input."""
from explain.differences import CLONES, MOST_NAMED, TRUE, members, pair_of
from show.colours import coloured
from show.summaries import PINNED, because

from .configured import at

NEVER = "-INFINITY"
ROLES = (":promoted", ":master")


def joined(names, every=True, most=MOST_NAMED):
    """Some names, and how many more there are."""
    shown = list(names) if every else list(names)[:most]
    if len(shown) < len(names):
        return f"{', '.join(shown)} and {len(names) - len(shown)} more"
    return " and ".join([", ".join(shown[:-1]), shown[-1]] if len(shown) > 1 else shown)


class Teller:
    """Tells accounts of an input in sentences; `every` has all nodes named."""

    def __init__(self, configured, known, every=False):
        self.configured, self.known, self.every = configured, known, every

    def names(self, names):
        return joined(names, self.every)

    # Where it goes -------------------------------------------------------------------------

    def head(self, account):
        """Where the resource goes, or why nowhere."""
        name, plan = account.resource, account.plan
        targets = plan.targets.get(name, [])
        nodes, promoted = [node for node, _ in targets], [node for node, role in targets if role == "promoted"]
        if name in plan.pinned:
            where = f" on {self.names(nodes)}" if nodes else ""
            return f"{name} is left as it is{where}: {self.pinned(name, plan.pinned[name])}."
        if not nodes:
            return f"{name} has no place: {self.none(name, plan.without.get(name, ('NoNode', None)))}."
        if promoted == nodes:
            return f"{name} goes to {self.names(nodes)}, promoted."
        return f"{name} goes to {self.names(nodes)}" + (f", promoted on {self.names(promoted)}." if promoted else ".")

    def pinned(self, name, reason):
        setting = self.configured.meta(name, "is-managed")
        mode = self.configured.property("maintenance-mode", "false")
        if reason == "unmanaged" and (setting.line or mode.is_true):
            return f"it isn't managed ({mode if mode.is_true else setting})"
        return PINNED.get(reason, reason)

    def none(self, name, without):
        reason, rule = without
        if reason == "Stopped":
            return str(self.configured.meta(name, "target-role"))
        if reason == "StopAll":
            return str(self.configured.property("stop-all-resources"))
        return self.held(name, rule) if reason == "Held" else because(without)

    # Each node -----------------------------------------------------------------------------

    def lines(self, account):
        yield coloured(self.head(account), "bold")
        for decision, cells in account.decisions.items():
            if len(account.decisions) > 1:
                yield "Where it runs:" if decision == "place" else "Where it is promoted:"
            told = {}
            for cell in sorted(cells.values(), key=lambda cell: cell.verdict is not None):
                told.setdefault(tuple(self.of_cell(account, decision, cell)), []).append(cell.node)
            for (verdict, *parts), nodes in told.items():
                yield f"  {self.names(nodes)}: {verdict}"
                yield from parts
        yield from self.lending(account)

    def of_cell(self, account, decision, cell):
        """The verdict on a node, and what it counted."""
        name = account.resource
        if cell.verdict is None:
            verdict = f"{coloured('chosen', 'green')}, with {cell.score}{self.but(account, decision, cell)}"
        else:
            verdict = f"{coloured('not chosen', 'yellow')}, with {shown(cell.score)}: {self.verdict(account, decision, cell)}"
        yield verdict + "."
        yield from (f"    {self.part(name, part)}" for part in cell.parts)

    def but(self, account, decision, cell):
        """What holds a chosen node back, where something does."""
        if cell.held:
            return f", but {self.held(account.resource, cell.held)}"
        return ", but its place there is held back" if decision == "promote" and account.decisions["place"][cell.node].held else ""

    def verdict(self, account, decision, cell):
        """Why a node isn't chosen."""
        name, rule, other = account.resource, cell.verdict.get("rule"), cell.verdict.get("other")
        of = {
            "unusable": lambda: self.unusable(cell.node),
            "forbidden": self.forbidden,
            "below": lambda: "that is below 0",
            "without": lambda: f"{self.rule(rule)}: {self.missing(name, rule)}",
            "beside": lambda: f"{self.rule(rule)}: {self.apart(name, rule)}",
            "unplaced": lambda: "it isn't placed there",
            "capped": lambda: self.capped(account, decision),
            "less": lambda: f"{other} has more, {account.decisions[decision][other].score}",
            "fuller": lambda: f"{other} has as much, and fewer resources",
            "later": lambda: f"{other} has as much, no more resources, and comes first",
        }.get(cell.verdict["reason"])
        return of() if of else cell.verdict["reason"]

    def unusable(self, node):
        state, line = self.known.states.get(node, ("", None))
        standby = self.configured.standby(node)
        if state in ("offline", "unclean"):
            return f"{state}, {at(line)}"
        if standby:
            return f"in standby, {at(standby.line)}"
        return "the status doesn't tell of it" if not line else "a failure has it fenced"

    def forbidden(self):
        stop_all = self.configured.property("stop-all-resources", "false")
        if stop_all.is_true:
            return str(stop_all)
        said = f"there is no quorum{', ' + at(self.known.quorum_line) if self.known.quorum_line else ''}"
        policy = self.configured.property("no-quorum-policy", "stop")
        return f"{said}, so that nothing starts ({policy})" if policy.value == "freeze" else said

    def capped(self, account, decision):
        """Why no copy may be chosen at all."""
        role = self.configured.meta(account.resource, "target-role", "Started")
        if decision == "promote" and account.plan.targets.get(account.resource):
            return str(role) if role.value.lower() in ("unpromoted", "slave") else "no copy may be promoted"
        return self.none(account.resource, account.plan.without.get(account.resource, ("NoCopies", None)))

    # Rules ---------------------------------------------------------------------------------

    def rule(self, rule):
        one = self.configured.rules.get(rule)
        return f"{one.kind} {rule}, {at(one.first + 1)}" if one else rule

    def held(self, name, rule):
        return f"held back by {self.rule(rule)}: {self.missing(name, rule)}"

    def missing(self, name, rule):
        """What a resource needs by a rule, and doesn't have."""
        one = self.configured.rules.get(rule)
        words = resources_of(one) if one else []
        if one and one.kind == "group":
            names = [word.text for word in members(one)]
            return f"{names[max(0, names.index(name) - 1)]} isn't there" if name in names else "what it needs isn't there"
        for first, then in zip(words, words[1:]) if one and one.kind == "order" else ():
            if name in self.configured.inside(then.name):
                there = " there" if self.is_local(first.name, then.name) else ""
                return f"{first.name} isn't promoted{there}" if first.text.endswith(":promote") else f"{first.name} has no place{there}"
        if one and one.kind != "order" and len(words) == 2:
            return f"{words[1].name} isn't {'promoted ' if words[1].text.lower().endswith(ROLES) else ''}there"
        return "what it needs has no place"

    def is_local(self, first, then):
        """Whether an order holds node by node: of two clones, the second of which is interleaved."""
        clones = [one for name in (first, then) for one in self.configured.chain(name) if one.kind in CLONES]
        pair = pair_of(clones[1], "interleave") if len(clones) == 2 else None
        return pair is not None and pair.value.lower() in TRUE

    def apart(self, name, rule):
        """What a resource must be apart from by a colocation, and what is there."""
        words = resources_of(self.configured.rules[rule]) if rule in self.configured.rules else []
        others = [word for word in words if name not in self.configured.inside(word.name)]
        return f"{others[0].name} is there" if others else "it must be apart from itself"

    # Parts ---------------------------------------------------------------------------------

    def part(self, name, part):
        lender = f"lent by {part['lender']}, " if "lender" in part else ""
        source, behind = self.source(part.get("lender", name), part)
        return f"{lender}{source}: {shown(part['score'])}{behind}"

    def source(self, name, part):
        """What a part comes from, and what is added behind its score."""
        origin, rule = part["origin"], part.get("rule")
        if origin == "location":
            return self.rule(rule), self.of_tests(rule)
        if origin == "colocation":
            return self.rule(rule), self.of_primary(rule)
        if origin == "stickiness":
            setting = self.configured.meta(name, "resource-stickiness")
            return f"resource-stickiness{', ' + at(setting.line) if setting.line else ''}", " (it runs there)"
        if origin == "promotion":
            line = self.known.promotions.get((name, part["node"]))
            return (f"promotion score, {at(line)}", "") if line else ("promotion score", " (none is told)")
        if origin == "banned":
            return "failures", f" (they ban {name} there)"
        if origin == "opt-in":
            setting = self.configured.property("symmetric-cluster")
            return f"{setting}", f" (no location takes {name} there)"
        return origin, ""

    def of_tests(self, rule):
        """The test of a location that has one rule."""
        words = [word.text for word in self.configured.rules[rule].words] if rule in self.configured.rules else []
        if words.count("rule") != 1:
            return ""
        behind = words[words.index("rule") + 1:]
        while behind and ("=" in behind[0] or behind[0].endswith(":")):
            behind = behind[1:]
        return f" ({' '.join(behind)})"

    def of_primary(self, rule):
        words = resources_of(self.configured.rules[rule]) if rule in self.configured.rules else []
        if len(words) != 2:
            return ""
        return f" ({words[1].name} {'is promoted' if words[1].text.lower().endswith(ROLES) else 'is'} there)"

    # Lenders -------------------------------------------------------------------------------

    def lending(self, account):
        """Why what others count is counted here."""
        by = {}
        for lender in account.lenders:
            by.setdefault(self.link(lender, account.resource), []).append(lender)
        for link, lenders in by.items():
            count, must = ("counts", "it must") if len(lenders) == 1 else ("count", "they must")
            yield f"  What {self.names(lenders)} {count}, counts here too: {must} be where {account.resource} is ({link})."

    def link(self, lender, name):
        """The rule by which one must be with the other."""
        for rule, one in self.configured.rules.items():
            inside = self.configured.inside(rule) if one.kind == "group" else []
            if lender in inside and name in inside and inside.index(name) < inside.index(lender):
                return self.rule(rule)
            words = resources_of(one) if one.kind in ("colocation", "collocation") else []
            if len(words) == 2 and is_mandatory(one) and self.configured.inside(words[0].name)[:1] == [lender] \
                    and self.configured.inside(words[1].name)[-1:] == [name]:
                return self.rule(rule)
        return "by a chain of colocations"


def resources_of(statement):
    return [word for word in statement.words[2:] if not word.key and not word.text.endswith(":")]


def is_mandatory(colocation):
    score = colocation.words[2].text.rstrip(":").lower().lstrip("+")
    return score in ("inf", "infinity") or score.isdigit() and int(score) >= 1000000


def shown(score):
    return coloured(str(score), "red") if score == NEVER else str(score)
