"""Rewrites what the program refuses and what has no effect in the configuration at hand. What has one is left, to be
refused."""
import re

from .cib import is_true
from .maintenance import Maintenance
from .words import name_of_node, sections, value

CLONES = ("clone", "ms", "master")
SYMMETRICAL = re.compile(r"(?i)symmetrical=(true|on|yes|y|1)$")


class Configuration:
    """What decides whether a setting has an effect."""

    def __init__(self, statements, maintenance=None):
        self.maintenance = maintenance or Maintenance()
        self.primitives = {words[1] for words in statements if words[0] == "primitive" and len(words) > 1}
        self.nodes = {name_of_node(words) for words in statements if words[0] == "node"}
        self.with_utilization = any("utilization" in words for words in statements)
        self.with_health = any(re.match(r"#health|node-health-base=", word) for words in statements for word in words)
        properties = [word for words in statements if words[0] == "property" for word in words]
        self.with_fencing = is_true(value(properties, "stonith-enabled") or "true")


def rewrite(words, configuration, notes):
    """The statement in the form that the program takes, or nothing where it says nothing."""
    if len(words) == 1:
        return words
    if words[0] in ("primitive", "group") + CLONES:
        return resource(words, configuration, notes)
    if words[0] == "node":
        return node(words, configuration, notes)
    if words[0] == "property":
        return properties(words, configuration, notes)
    if words[0] == "order":
        return order(words, notes)
    if words[0] == "location":
        return location(words, configuration, notes)
    return words


def properties(words, configuration, notes):
    """Strategies that have nothing to work on."""
    kept = []
    for word in words:
        key, _, text = word.partition("=")
        if key == "placement-strategy" and text in ("utilization", "balanced") and not configuration.with_utilization:
            notes.add(f"left out: {word}; nothing has a utilization")
        elif key == "node-health-strategy" and text != "none" and not configuration.with_health:
            notes.add(f"left out: {word}; no node has an attribute of health")
        else:
            kept.append(word)
    return kept if any("=" in word for word in kept) else None


def node(words, configuration, notes):
    """The number, the name and the sections of a node, without its type and description."""
    kept, name = [], name_of_node(words)
    if name in configuration.maintenance.nodes:
        words = [word for word in words if not word.startswith("standby=")]
        words = ["standby=on" if word.startswith("maintenance=") else word for word in words]
    for word in words:
        typed = word.startswith(name + ":") and not word.endswith(":")
        if word.startswith("$id="):
            kept.append(word[4:] + ":")
        elif typed or word.startswith("description="):
            kept += [name] if typed else []
            notes.add(f"node {name}: left out: {word}; it has no effect here")
        else:
            kept.append(word)
    return kept


def order(words, notes):
    if not any(word.lower() == "serialize:" for word in words) or not any(map(SYMMETRICAL.match, words)):
        return words
    notes.add(f"{words[1]}: left out: symmetrical=true; it says nothing with Serialize")
    return [word for word in words if not SYMMETRICAL.match(word)]


def location(words, configuration, notes):
    """A location of a node that isn't there is passed over, as Pacemaker does."""
    named = words[-1] if len(words) > 3 and words[-2].endswith(":") and "rule" not in words else None
    if named is None or named in configuration.nodes:
        return words
    notes.add(f"left out: location {words[1]}; there is no node {named}")
    return None


def resource(words, configuration, notes):
    head, rest = sections(unmanaged(words) if words[1] in configuration.maintenance.unmanaged else words)
    rest = meta_of_operations([part for part in rest if not is_parameters(part, words[1], notes)], words[1], notes)
    return head + [word for part in rest for word in section(part, words, configuration, notes)]


def unmanaged(words):
    """A primitive that nobody manages."""
    kept = [word for word in words if not word.startswith("is-managed=")]
    at = kept.index("meta") + 1 if "meta" in kept else len(kept)
    return kept[:at] + ([] if "meta" in kept else ["meta"]) + ["is-managed=false"] + kept[at:]


def is_parameters(part, name, notes):
    if part[0] != "op_params":
        return False
    notes.add(f"left out: parameters of operations, as of {name}; they have no effect here")
    return True


def meta_of_operations(parts, name, notes):
    """What `op_meta` says of an operation is said by the operation; alone it stands before a rule, and stays."""
    kept = []
    for part in parts:
        if part[0] == "op_meta" and len(part) > 1 and kept and kept[-1][0] == "op":
            keys = {word.partition("=")[0] for word in kept[-1]}
            kept[-1] = kept[-1] + [word for word in part[1:] if word.partition("=")[0] not in keys]
            notes.add(f"{name}: written in its operation: {' '.join(part)}")
        else:
            kept.append(part)
    return kept


def section(part, words, configuration, notes):
    """A section without the meta attributes that say nothing, and with those that stand for others behind it; `meta`
    alone stays."""
    if part[0] != "meta" or len(part) == 1:
        return part
    kept, others = [], []
    for word in part:
        other, reason = meta(word, part, words, configuration)
        if reason:
            notes.add(f"{words[1]}: " + (f"written as {other}: {word}" if other else f"left out: {word}") + f"; {reason}")
            others += [other] if other else []
        else:
            kept.append(word)
    keys = {other.partition("=")[0] for other in others}
    kept = [word for word in kept if word.partition("=")[0] not in keys] + others
    return kept if len(kept) > 1 else []


def meta(word, part, words, configuration):
    """What stands in the place of a meta attribute, if anything does, and why; no reason where it stays."""
    key, _, text = word.partition("=")
    single = words[0] in CLONES and len(words) > 2 and words[2] in configuration.primitives
    if key == "ordered" and is_true(text) and single and is_true(value(part, "interleave")):
        return None, "copies of one primitive don't wait for each other here"
    if key == "requires" and text == "quorum" and not configuration.with_fencing:
        return None, "without fencing it says nothing"
    if key == "maintenance" and is_true(text):
        return "is-managed=false", "here it is the same"
    return None, None
