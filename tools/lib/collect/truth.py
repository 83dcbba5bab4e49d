"""Whether rules hold: as Pacemaker finds it, and, for tests of attributes, as this program does."""
import re

from . import dates
from .unsaid import Unknown

WHOLE = re.compile(r"\s*([-+]?[0-9]+)")
DECIMAL = re.compile(r"\s*([-+]?(?:[0-9]+\.?[0-9]*|\.[0-9]+)(?:[eE][-+]?[0-9]+)?)")
STRICT = re.compile(r"([-+]?[0-9]+)$")
COMPARED = {"lt": (-1,), "gt": (1,), "lte": (-1, 0), "gte": (0, 1), "eq": (0,), "ne": (-1, 1)}
TYPES = ("", "string", "integer", "number")


def rule_holds(rule, attributes, moment):
    """Whether a rule holds for a node with these attributes, as Pacemaker finds it."""
    found = [one_holds(element, attributes, moment) for element in rule]
    if rule.get("boolean-op", "and").lower() == "or":
        return any(found)
    return all(found)


def one_holds(element, attributes, moment):
    if element.tag == "rule":
        return rule_holds(element, attributes, moment)
    if element.tag == "date_expression":
        return dates.holds(element, moment)
    if element.tag != "expression" or element.get("value-source", "literal") != "literal":
        raise Unknown(element.tag)
    return pacemaker_finds(element, attributes)


def parts(element):
    """The value's type, how the attribute is compared with it, and it, if it isn't empty."""
    kind, operation = element.get("type", "").lower(), element.get("operation", "eq")
    if kind not in TYPES or operation not in ("defined", "not_defined", *COMPARED):
        raise Unknown(f"{kind}:{operation}")
    return kind, operation, element.get("value") or None


def pacemaker_finds(element, attributes):
    """A test of an attribute in Pacemaker: strings are compared without case, and a missing attribute is less than any
    value."""
    kind, operation, value = parts(element)
    own = attributes.get(element.get("attribute"))
    if operation in ("defined", "not_defined"):
        return (own is None) == (operation == "not_defined")
    if own is None or value is None:
        return (own is None) != (value is None) if operation == "ne" else own is value is None if operation == "eq" else False
    if not kind and operation not in ("eq", "ne"):
        kind = "number" if "." in own + value else "integer"
    numbers = [decimal(text) if kind == "number" else whole(WHOLE, text) for text in (own, value)]
    if kind in ("integer", "number") and None not in numbers:
        return compare(*numbers) in COMPARED[operation]
    return compare(own.lower(), value.lower()) in COMPARED[operation]


def whole(form, text):
    """A whole number at the beginning of a text, or nothing."""
    match = form.match(text or "")
    number = int(match[1]) if match and len(match[1]) < 30 else None
    return number if number is not None and -1 << 63 <= number < 1 << 63 else None


def decimal(text):
    match = DECIMAL.match(text)
    return float(match[1]) if match else None


def program_finds(element, attributes):
    """The same test in this program: byte by byte, whole numbers as numbers, false where the attribute is missing."""
    kind, operation, value = parts(element)
    own = attributes.get(element.get("attribute"))
    if operation in ("defined", "not_defined"):
        return (own is None) == (operation == "not_defined")
    numbers = [whole(STRICT, text) for text in (own, value)]
    if kind in ("integer", "number") and numbers[1] is None:
        raise Unknown(f"{kind}:{operation} {value}")
    if own is None or kind in ("integer", "number") and numbers[0] is None:
        return False
    if kind != "string" and None not in numbers:
        return compare(*numbers) in COMPARED[operation]
    return compare(own.encode(), (value or "").encode()) in COMPARED[operation]


def compare(one, other):
    return (one > other) - (one < other)
