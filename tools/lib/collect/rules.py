"""Rules of a CIB in crmsh's words, so that they mean here what they mean in Pacemaker. A test that can't be said is
written by the names of the nodes for which it holds now. What isn't known to hold keeps its word, and is refused."""
from datetime import datetime, timezone

from .dates import DATE, later, seconds
from .truth import one_holds, program_finds
from .unsaid import Unknown

FIRST_DAY, LAST_DAY = "0001-01-01", "9999-12-31"
ALWAYS = ["defined", "#uname"]


def head(rule):
    """`rule`, its role and score."""
    role = [f"$role={rule.get('role')}"] if rule.get("role") else []
    return ["rule"] + role + [rule.get("score", rule.get("score-attribute", "0")) + ":"]


def rule_words(rule):
    """A rule as it stands."""
    return head(rule) + tests(rule)


def tests(rule):
    joined = []
    for element in rule:
        words = tests(element) if element.tag == "rule" else test(element)
        if joined and words:
            joined.append(rule.get("boolean-op", "and").lower())
        joined += words
    return joined


def test(element):
    operation = element.get("operation", "eq")
    if element.tag == "date_expression":
        return ["date"] + date_words(element, element.get("operation", "in_range"))
    if element.tag != "expression":
        return [element.tag]
    if operation in ("defined", "not_defined"):
        return [operation, element.get("attribute", "")]
    kind = element.get("type", "") + ":" if element.get("type") else ""
    source = [f"value-source={element.get('value-source')}"] if element.get("value-source", "literal") != "literal" else []
    return [element.get("attribute", ""), kind + operation, element.get("value", "")] + source


def date_words(element, operation):
    start, end = (date(element.get(key)) for key in ("start", "end"))
    inner = [f"{key}={value}" for part in element for key, value in part.attrib.items() if key != "id"]
    if operation == "in_range" and start and not end and element.find("duration") is not None:
        end = end_of(element, inner)
    if operation == "gt":
        return ["gt", start or ""]
    if operation == "lt":
        return ["lt", end or start or ""]
    if operation == "in_range":
        return ["in", f"start={start or FIRST_DAY}"] + (end if isinstance(end, list) else [f"end={end or LAST_DAY}"])
    return ["spec"] + inner


def end_of(element, inner):
    """The end of a range by its duration, or the words of the duration, to be refused."""
    try:
        end = later(seconds(element.get("start")), element.find("duration"))
    except Unknown:
        return inner
    return datetime.fromtimestamp(end, timezone.utc).strftime("%Y-%m-%dT%H:%M:%SZ")


def date(text):
    """A date with its time zone in the form that the program reads."""
    match = DATE.match(text or "")
    zone = (f"{match[7]}{match[8]}:{match[9]}" if match[7] else "Z" if text.endswith("Z") else "") if match else ""
    if not match or match[4] is None and not zone:
        return text
    return f"{match[1]}-{match[2]}-{match[3]}T{match[4] or '00'}:{match[5] or '00'}:{match[6] or '00'}{zone}"


class Teller:
    """Writes the rules of one constraint for the nodes of a CIB as they are now."""

    def __init__(self, cib, owner):
        self.owner, self.nodes, self.moment, self.notes = owner, cib.seen, cib.moment, cib.notes

    def words(self, rule):
        """The words of a rule, or nothing where it never holds."""
        try:
            told = self.told(rule)
        except Unknown:
            return rule_words(rule)
        if told is None:
            self.notes.add(f"{self.owner}: left out: `{' '.join(tests(rule))}`; it holds nowhere now")
            return None
        return head(rule) + told

    def told(self, rule):
        """The tests of a rule with what joins them; nothing where they hold nowhere. One test may become several; then
        one of them suffices."""
        elements = list(flat(rule))
        is_or = is_any(rule) or len(elements) == 1
        found = []
        for element in elements:
            said = self.said(element, is_or)
            if said is is_or:
                return ALWAYS if is_or else None
            found += said or [] if isinstance(said, list) else []
        if not found:
            return None if is_or else ALWAYS
        words = found[0]
        for one in found[1:]:
            words = words + ["or" if is_or else "and"] + one
        return words

    def said(self, element, is_or):
        """The tests that stand for one; True where it holds everywhere, and False where it holds nowhere."""
        holding = [one_holds(element, one.attributes, self.moment) for one in self.nodes]
        if element.tag == "date_expression" and is_sayable(element):
            return [test(element)]
        if element.tag == "expression":
            said = self.compared(element, is_or, holding)
            if said:
                return said
        names = [one.name for one, holds in zip(self.nodes, holding) if holds]
        self.notes.add(f"{self.owner}: `{shown(element)}` is written as it is now: it holds on {' '.join(names) or 'no node'}")
        if len(names) in (0, len(self.nodes)):
            return bool(names)
        if is_or:
            return [["#uname", "eq", name] for name in names]
        return [["#uname", "ne", one.name] for one in self.nodes if one.name not in names]

    def compared(self, element, is_or, holding):
        """A test of an attribute, if it finds here what it finds in Pacemaker. A missing attribute differs there from
        every value."""
        name = element.get("attribute", "")
        widened = is_or and element.get("operation") == "ne" and not name.startswith("#")
        try:
            finds = [program_finds(element, one.shown) or widened and name not in one.shown for one in self.nodes]
        except Unknown:
            return None
        if finds != holding:
            return None
        if not widened:
            return [test(element)]
        self.notes.add(f"{self.owner}: `{shown(element)}` is written with `not_defined {name} or`, since it holds without `{name}` too")
        return [["not_defined", name], test(element)]


def is_any(rule):
    return rule.get("boolean-op", "and").lower() == "or"


def flat(rule):
    """The tests of a rule, and of rules in it that are joined as it is or have one test; other rules stay as one."""
    for element in rule:
        inner = list(flat(element)) if element.tag == "rule" else []
        if len(inner) == 1 or inner and is_any(element) == is_any(rule):
            yield from inner
        else:
            yield element


def shown(element):
    return " ".join(tests(element) if element.tag == "rule" else test(element))


def is_sayable(element):
    """Whether the program has a date of this kind."""
    needed = {"gt": ("start",), "lt": ("end",), "in_range": ()}.get(element.get("operation", "in_range"))
    dates = [element.get(key) for key in ("start", "end") if element.get(key) is not None]
    return needed is not None and all(map(element.get, needed)) and dates != [] and all(map(DATE.match, dates))
