"""With --near: what the program has no word for is left out or written as what comes nearest, which makes it another
cluster, like this one. What is a must, and no preference, stays, to be refused."""
import re

from .cib import is_true, points
from .words import sections

MISSING_ROLE = re.compile(r"(?i)[\w.-]+:(unpromoted|slave|stopped)$")
# What stands in the place of a pair, by its statement or section, key and values; nothing where it is left out.
PAIRS = {
    ("property", "no-quorum-policy"): {"suicide": "stop", "demote": "stop", "fence": "stop"},
    ("property", "placement-strategy"): {"utilization": None, "balanced": None, "minimal": None},
    ("op_defaults", "on-fail"): {"restart": None},
    ("meta", "ordered"): {"true": None},
    ("meta", "requires"): {"quorum": None, "nothing": None, "unfencing": None},
    ("meta", "multiple-active"): {"stop_only": None, "block": None, "stop_unexpected": None},
    ("meta", "critical"): {"false": None},
    ("op", "on-fail"): {"standby": "fence", "demote": "restart"},
}
STOPS = {"standby": None, "demote": None, "ignore": None, "restart": None, "stop": None}
OTHERS = {"standby": "fence", "demote": "restart", "ignore": None}


def near(words, with_fencing, notes):
    """The statement in words that the program has, or nothing where it is left out."""
    if len(words) < 2:
        return words
    if words[0] in ("colocation", "collocation"):
        return colocation(words, notes)
    if words[0] == "location":
        return location(words, notes)
    kept = []
    head, rest = sections(words)
    for part in [head, *rest]:
        kept += monitored(part, words[1], notes) and pairs(part, words, with_fencing, notes)
    return kept if len(kept) > 1 else None


def colocation(words, notes):
    """A preference for a role that isn't there."""
    score = next((word for word in words[2:] if word.endswith(":")), "inf:")
    if abs(points(score[:-1])) == 1000000 or not any(map(MISSING_ROLE.match, words[3:])):
        return words
    notes.near(f"left out: {' '.join(words)}; it is a preference for a role that isn't told of here")
    return None


def location(words, notes):
    """Where nothing is looked for by `resource-discovery` it is looked for all the same."""
    kept = [word for word in words if word != "resource-discovery=never"]
    if kept != words:
        notes.near(f"{words[1]}: left out: resource-discovery=never; every node is probed")
    return kept


def monitored(part, name, notes):
    """Whether an operation stays; a monitor of what is stopped doesn't."""
    if part[0] != "op" or not any(word.lower() == "role=stopped" for word in part):
        return True
    notes.near(f"{name}: left out: {' '.join(part)}; nothing that is stopped is watched")
    return []


def pairs(part, words, with_fencing, notes):
    kept = []
    for word in part:
        key, _, text = word.partition("=")
        text = "true" if key == "ordered" and is_true(text) else "false" if key == "critical" and not is_true(text) else text
        instead = instead_of(part, key, with_fencing)
        if text not in instead or not text:
            kept.append(word)
            continue
        other = instead[text] and f"{key}={instead[text]}"
        place = words[1] if "=" not in words[1] else words[0]
        where = f"{place}, {part[1]}" if part[0] == "op" else place
        notes.near(f"{where}: " + (f"written as {other}: {word}" if other else f"left out: {word}"))
        kept += [other] if other else []
    return kept if len(kept) > 1 or kept == part else []


def instead_of(part, key, with_fencing):
    """What stands for the values of a key."""
    if part[0] != "op" or key != "on-fail":
        return PAIRS.get((part[0], key), {})
    if part[1:2] == ["stop"]:
        return STOPS
    found = dict(OTHERS, standby="fence" if with_fencing else "restart")
    if part[1:2] == ["monitor"]:
        del found["ignore"]
    return found
