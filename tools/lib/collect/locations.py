"""The locations of a CIB: those of sets, patterns and tags become one for each resource, and a score by attribute one
for each node."""
import re

from .patterns import Pattern, Unsaid, Wrong
from .references import members, tagged
from .rules import Teller, rule_words, shown
from .truth import rule_holds
from .unsaid import Unknown


def locations(cib, element):
    teller = Teller(cib, element.get("id"))
    rules = [cib.meant(rule) for rule in element.findall("rule")]
    written = [words for words in map(teller.words, filter(is_plain, rules)) if words]
    by_attribute = [(rule, found) for rule in rules if not is_plain(rule) for found in scores(cib, element, rule)]
    for resource, role, score in located(cib, element):
        words = head(element, resource, role)
        if not rules:
            yield words + [f"{score}:", element.get("node", "")]
        if written:
            yield words + [word for rule in written for word in rule]
        for rule, rest in by_attribute:
            yield head(element, resource, rule.get("role", role)) + rest


def head(element, resource, role):
    """The words in front of the score."""
    words = ["location", element.get("id"), resource] + ([f"role={role}"] if role else [])
    if element.get("resource-discovery", "always") != "always":
        words.append(f"resource-discovery={element.get('resource-discovery')}")
    return words


def is_plain(rule):
    """Whether a rule has a score of its own."""
    return rule.get("score") is not None or rule.get("score-attribute") is None


def scores(cib, element, rule):
    """What stands behind the head for each node on which a rule holds whose score is an attribute; a node without it is
    banned."""
    attribute = rule.get("score-attribute")
    try:
        holding = [one for one in cib.seen if rule_holds(rule, one.attributes, cib.moment)]
    except Unknown:
        return [rule_words(rule)]
    if not holding:
        cib.notes.add(f"{element.get('id')}: left out: `{shown(rule)}`; it holds nowhere now")
        return []
    cib.notes.add(f"{element.get('id')}: the score by `{attribute}` is written for each node as it is now")
    return [[f"{as_score(one.attributes.get(attribute, '-INFINITY'))}:", one.name] for one in holding]


def as_score(text):
    """The value of an attribute as a score, as Pacemaker reads it."""
    match = re.match(r"\s*([-+]?)(?:([0-9]+)|(infinity)|(red))", text, re.I)
    if not match:
        return "0"
    number = int(match[2][:9]) if match[2] else 1000000
    sign = "-" if match[1] == "-" or match[4] else ""
    return sign + ("INFINITY" if number >= 1000000 else str(number))


def located(cib, element):
    """The resources that a location is of, each with its role and score; those of a set override the location's."""
    role, score = element.get("role"), element.get("score", "INFINITY")
    sets = [cib.meant(one) for one in element.findall("resource_set")]
    if sets:
        return [(name, one.get("role", role), one.get("score", score)) for one in sets for name in members(cib, one)]
    pattern = element.get("rsc-pattern")
    names = tagged(cib, element.get("rsc", "")) if pattern is None else matching(cib, pattern, refers(element))
    return [(name, role, score) for name in names]


def refers(element):
    """Whether a rule of the location names an attribute by what its pattern matches."""
    return any(re.search("%[0-9]", one.get("attribute", "")) for one in element.iter("expression"))


def matching(cib, pattern, refers):
    """The resources that a pattern takes, or, if it begins with `!`, doesn't take; those that stand in others aren't
    asked. A pattern that can't be followed stays, to be refused."""
    inverted = pattern.startswith("!")
    try:
        tried = Pattern(pattern[1:] if inverted else pattern)
    except Wrong as error:
        cib.notes.add(f"left out: the pattern {pattern}; {error}, so Pacemaker passes over it too")
        return []
    except Unsaid as error:
        cib.notes.add(f"the pattern {pattern} stays, to be refused; {error}")
        return [f"/{pattern}/"]
    if refers:
        cib.notes.add(f"the pattern {pattern} stays, to be refused; a rule refers to what it matches")
        return [f"/{pattern}/"]
    ids = [one.get("id", "") for one in cib.root.findall("configuration/resources/*") if one.tag != "template"]
    found = [name for name in ids if tried.is_in(name) != inverted]
    if not found:
        cib.notes.add(f"the pattern {pattern} matches no resource")
    return found


