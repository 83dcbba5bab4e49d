"""The statements of nodes, resources and settings of a CIB. Constraints are in `constraints`."""
import re

from .nodes import is_member, node
from .words import section

SECRET = re.compile(r"(?i)pass|secret|^token$")
KEPT = {"fencing-topology": "fencing levels", "alerts": "alerts", "acls": "access rights"}
SETTINGS = (("crm_config", "cluster_property_set", "property"), ("rsc_defaults", "meta_attributes", "rsc_defaults"),
            ("op_defaults", "meta_attributes", "op_defaults"))


def statements(cib):
    """All statements but those of constraints, each a list of words."""
    for element in cib.all("nodes/node"):
        if is_member(element):
            yield node(cib, element)
        else:
            cib.notes.add(f"left out: node {element.get('uname')}; it is a {element.get('type')} node, which this program doesn't have")
    for element in cib.all("resources/*"):
        yield from resource(cib, element)
    for tag, what in KEPT.items():
        if cib.all(tag + "/*"):
            cib.notes.add(f"left out: {what}; they have no effect here")


def settings(cib):
    """The statements of properties and defaults."""
    for tag, sets, word in SETTINGS:
        for element in cib.root.findall("configuration/" + tag):
            pairs = cib.pairs(element, sets)
            if pairs:
                yield [word] + [f"{name}={value}" for name, value in pairs.items()]
            for one in cib.unknown_sets(element, sets):
                yield cib.under_rule(one, word)


def resource(cib, element):
    """The statements of a resource and of those in it; a kind that this program doesn't have keeps its word, and is
    refused."""
    if element.tag == "template":
        return
    if element.tag == "primitive":
        yield primitive(cib, element)
        return
    children = [child for child in element if child.tag in ("primitive", "group")] if element.tag != "bundle" else []
    for child in children:
        yield from resource(cib, child)
    word = {"master": "ms"}.get(element.tag, element.tag)
    yield [word, element.get("id")] + [child.get("id") for child in children] + own_sections(cib, [element])


def primitive(cib, element):
    """A primitive, with what its template has."""
    template = cib.by_id.get(element.get("template"))
    sources = [element] + ([template] if template is not None else [])
    if template is not None:
        cib.notes.add(f"{element.get('id')}: written with what its template {template.get('id')} has")
    kind = sources[-1]
    agent = ":".join(filter(None, (kind.get("class"), kind.get("provider"), kind.get("type"))))
    words = ["primitive", element.get("id"), agent] + own_sections(cib, sources)
    return words + [word for one in operations(cib, sources) for word in operation(cib, one)]


def operations(cib, sources):
    """The operations of a primitive: those of its template go first, unless it has one of the same name and role."""
    found, own = {}, {watched(one) for one in operations_of(cib, sources[0])}
    for source in reversed(sources):
        for one in operations_of(cib, source):
            if source is sources[0] or watched(one) not in own:
                found[one.get("name"), one.get("interval", "0"), one.get("role")] = one
    return found.values()


def operations_of(cib, source):
    return [one for box in source.findall("operations") for one in map(cib.meant, cib.meant(box).findall("op"))]


def watched(operation):
    """The name of an operation and the role that it is of, in one word of each meaning."""
    role = (operation.get("role") or "started").lower()
    return operation.get("name"), {"slave": "started", "unpromoted": "started", "master": "promoted"}.get(role, role)


def own_sections(cib, sources):
    """The sections of a resource; of several sources the first that has a key counts."""
    words = []
    for tag, word in (("instance_attributes", "params"), ("meta_attributes", "meta"), ("utilization", "utilization")):
        pairs = {}
        for source in sources:
            for key, value in cib.pairs(source, tag).items():
                pairs.setdefault(key, value)
            words += rules_of(cib, source, tag, word)
        words += section(word, {key: masked(cib, word, key, value) for key, value in pairs.items()})
    return words


def masked(cib, word, key, value):
    """Parameters have no effect, so passwords are left out."""
    if word != "params" or not SECRET.search(key):
        return value
    cib.notes.add("passwords are written as ******; parameters have no effect here")
    return "******"


def rules_of(cib, source, tag, word):
    """Sets with a rule: meta attributes are written, to be refused, since they have an effect; parameters have none."""
    if word == "meta":
        return cib.all_under_rules(source, tag, word)
    if cib.unknown_sets(source, tag):
        cib.notes.add(f"{source.get('id')}: left out: {word} with a rule; they have no effect here")
    return []


def operation(cib, element):
    """An operation; what its own meta attributes say counts unless it says so itself."""
    pairs = {key: value for key, value in element.attrib.items() if key not in ("id", "name", "description")}
    for key, value in cib.pairs(element, "meta_attributes").items():
        pairs.setdefault(key, value)
    if element.find("instance_attributes") is not None:
        cib.notes.add(f"left out: parameters of operations, as of {element.get('id')}; they have no effect here")
    words = ["op", element.get("name", "")] + [f"{key}={value}" for key, value in pairs.items()]
    return words + cib.all_under_rules(element, "meta_attributes", "op_meta")
