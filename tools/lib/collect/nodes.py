"""The nodes of a CIB: their statements, and the attributes that rules test of them."""
import re

from .words import section

# Attributes that Pacemaker keeps for itself; the status tells what matters of them.
OWN_ATTRIBUTE = re.compile(r"fail-count-|last-failure-|master-|promotion-|#(?!health)|(probe_complete|shutdown|terminate)$")


class Seen:
    """A node as a rule sees it: its name, its attributes in Pacemaker, and those that are written."""

    def __init__(self, cib, element):
        self.name = element.get("uname")
        state = state_of(cib, self.name)
        tested = tested_of(cib, element)
        known = {key: value for key, value in cib.attributes(self.name, state).items() if value}
        self.attributes = {**known, **tested, "#uname": self.name}
        self.shown = {**written_attributes(cib, element, state), **tested, "#uname": self.name}


def state_of(cib, name):
    return next((one for one in cib.root.findall("status/node_state") if one.get("uname") == name), None)


def is_member(element):
    return element.get("type", "member") in ("member", "normal")


def seen(cib):
    return [Seen(cib, element) for element in cib.all("nodes/node") if is_member(element)]


def written_attributes(cib, element, state):
    """The attributes of the statement; those that last until the node reboots go first, and override the permanent
    ones."""
    attributes = cib.transient(state)
    if attributes.get("shutdown", "0") != "0":
        attributes["standby"] = "on"
        cib.notes.add(f"node {element.get('uname')} is shutting down: written as in standby")
    for key, value in cib.pairs(element, "instance_attributes").items():
        attributes.setdefault(key, value)
    return {key: value for key, value in attributes.items() if not OWN_ATTRIBUTE.match(key)}


def node(cib, element):
    """The statement of a node."""
    name = element.get("uname")
    shown = {**written_attributes(cib, element, state_of(cib, name)), **tested_of(cib, element)}
    number = [element.get("id") + ":"] if (element.get("id") or "").isdigit() else []
    words = section("attributes", shown) + cib.all_under_rules(element, "instance_attributes", "attributes")
    words += section("utilization", cib.pairs(element, "utilization")) + cib.all_under_rules(element, "utilization", "utilization")
    return ["node"] + number + [name] + words


def tested_of(cib, element):
    """What rules may test of a node beside its attributes, where one does; the program knows its name alone."""
    tested = {one.get("attribute") for one in cib.root.iter("expression")}
    properties = cib.root.find("configuration/crm_config")
    cluster = cib.pairs(properties, "cluster_property_set").get("cluster-name") if properties is not None else None
    known = {"#id": element.get("id"), "#kind": "cluster", "#is_dc": str(element.get("id") == cib.root.get("dc-uuid")).lower(),
             "#cluster-name": cluster, "#site-name": cib.pairs(element, "instance_attributes").get("site-name", cluster)}
    return {key: value for key, value in known.items() if key in tested and value}
