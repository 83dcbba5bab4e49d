"""Reads a CIB: its elements, the pairs of their sets, and what refers to other elements. `Notes` keeps what there is to
say."""
import bz2
import time
import xml.etree.ElementTree as ElementTree

from . import nodes
from .rules import rule_words
from .truth import rule_holds
from .unsaid import Unknown

# Their `id` is that of the element that they name.
NAMING = ("resource_ref", "obj_ref", "role", "lrm_resource")
TRUE = ("true", "on", "yes", "y", "1")
MOST_DEPTH = 100
SIMILAR = "answers for a similar cluster, in which --near has changed this:"


def is_true(text):
    return text is not None and text.lower() in TRUE


def parsed(data):
    try:
        root = ElementTree.fromstring(data)
    except LookupError as error:
        raise ValueError(str(error)) from error
    level = [root]
    for _ in range(MOST_DEPTH):
        level = [inner for element in level for inner in element]
    if level:
        raise ValueError(f"its elements are nested more than {MOST_DEPTH} deep")
    return root


class Notes:
    """What was left out or written in another way, each with its reason, in the order in which it was met."""

    def __init__(self):
        self.said, self.of_similar = [], []

    def add(self, note):
        if note not in self.said:
            self.said.append(note)

    def near(self, note):
        """What makes another cluster of it."""
        if note not in self.of_similar:
            self.of_similar.append(note)

    def lines(self):
        return ([SIMILAR] + self.of_similar if self.of_similar else []) + self.said


class Cib:
    def __init__(self, data, notes, moment=None):
        root = parsed(bz2.decompress(data) if data.startswith(b"BZh") else data)
        self.root = root if root.tag == "cib" else root.find(".//cib")
        if self.root is None or self.root.find("configuration") is None:
            raise ValueError("there is no element `cib` with a `configuration`")
        self.notes, self.moment_is_told, self._seen = notes, True, None
        self.moment = self.moment_of(moment)
        self.by_id = {element.get("id"): element for element in self.root.iter() if element.get("id") and element.tag not in NAMING}

    def moment_of(self, moment):
        """The moment that is given, or that of a saved scheduler input, or now."""
        if moment is None and (self.root.get("execution-date") or "").isdigit():
            return int(self.root.get("execution-date"))
        self.moment_is_told = moment is not None
        return int(time.time()) if moment is None else moment

    @property
    def seen(self):
        """The nodes as rules see them; they are found when they are first asked for."""
        if self._seen is None:
            self._seen = nodes.seen(self)
        return self._seen

    def all(self, path):
        return [self.meant(element) for element in self.root.findall("configuration/" + path)]

    def meant(self, element):
        """The element that another stands for by `id-ref`."""
        return self.by_id.get(element.get("id-ref"), element)

    def sets(self, element, tag):
        """The sets of an element, the one that goes first in front: the cluster's own, then by greater score, then by
        place."""
        found = [self.meant(one) for one in element.findall(tag)]
        return sorted(found, key=lambda one: (one.get("id") != "cib-bootstrap-options", -points(one.get("score", "0"))))

    def pairs(self, element, tag):
        """The pairs of the sets without a rule, or whose rule holds now; of equal names the first counts."""
        found = {}
        for one in self.sets(element, tag):
            if self.counts(one):
                for name, value in self.own_pairs(one).items():
                    found.setdefault(name, value)
        return found

    def counts(self, one):
        """Whether a set counts now; nothing where that isn't known. A rule of meta attributes sees no attributes of
        nodes, as in Pacemaker."""
        rules = [self.meant(rule) for rule in one.findall("rule")]
        if one.tag == "instance_attributes" and any(rule.find(".//expression") is not None for rule in rules):
            return None
        try:
            holds = not rules or any([rule_holds(rule, {}, self.moment) for rule in rules])
        except Unknown:
            return None
        for rule in rules:
            said = " ".join(rule_words(rule)[2:])
            self.notes.add(f"{one.get('id')}: written without its rule `{said}`, which holds now" if holds else
                           f"left out: {one.get('id')}; its rule `{said}` doesn't hold now")
        return holds

    def own_pairs(self, one):
        """The pairs of one set."""
        found = map(self.meant, one.findall("nvpair"))
        return {pair.get("name"): pair.get("value", "") for pair in found if pair.get("name") and pair.get("value") != "#default"}

    def transient(self, state):
        """The attributes of a node that last until it leaves, from its state, if it has one."""
        found = {}
        for one in state.findall("transient_attributes") if state is not None else []:
            found.update(self.pairs(one, "instance_attributes"))
        return found

    def attributes(self, name, state):
        """The attributes of the node of this name; those that last until it leaves override the permanent ones."""
        found = self.transient(state)
        for element in self.all("nodes/node"):
            if element.get("uname") == name:
                found = {**self.pairs(element, "instance_attributes"), **found}
        return found

    def all_under_rules(self, element, tag, word):
        """The words of the sets whose rules can't be judged; they are refused."""
        return [part for one in self.unknown_sets(element, tag) for part in self.under_rule(one, word)]

    def unknown_sets(self, element, tag):
        return [one for one in self.sets(element, tag) if self.counts(one) is None]

    def under_rule(self, one, word):
        return [word] + rule_words(self.meant(one.find("rule"))) + [f"{name}={value}" for name, value in self.own_pairs(one).items()]


def points(text):
    """A score as a number, as far as it serves to compare scores."""
    text = text.strip().lower().lstrip("+")
    if text.lstrip("-") in ("infinity", "inf"):
        return -1000000 if text.startswith("-") else 1000000
    try:
        return max(-1000000, min(1000000, int(text)))
    except ValueError:
        return 0
