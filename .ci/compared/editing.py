"""Changes of a CIB: what an event leaves in it."""
import xml.etree.ElementTree as ElementTree


def added(parent, tag, **attributes):
    return ElementTree.SubElement(parent, tag, attributes)


def put(parent, tag, name, value):
    """A pair in the first set of an element."""
    own = parent.find(tag)
    if own is None:
        own = added(parent, tag, id=f"of-{parent.get('id', 'all')}-{tag}")
    pair = own.find(f"nvpair[@name='{name}']")
    if pair is None:
        pair = added(own, "nvpair", id=f"{own.get('id')}-{name}", name=name)
    pair.set("value", value)


def set_property(cib, name, value):
    put(cib.find("configuration/crm_config"), "cluster_property_set", name, value)


def set_attribute(cib, node, name, value):
    put(cib.find(f"configuration/nodes/node[@uname='{node}']"), "instance_attributes", name, value)


def state_of(cib, node):
    return cib.find(f"status/node_state[@uname='{node}']")


def set_transient(cib, node, name, value):
    state = state_of(cib, node)
    box = state.find("transient_attributes")
    put(added(state, "transient_attributes", id=state.get("id")) if box is None else box, "instance_attributes", name, value)


def transient(cib, node):
    """The attributes of a node that last until it leaves."""
    return {pair.get("name"): pair for pair in state_of(cib, node).iterfind("transient_attributes/instance_attributes/nvpair")}


def set_meta(cib, resource, name, value):
    put(cib.find(f"configuration/resources//*[@id='{resource}']"), "meta_attributes", name, value)


def leave(cib, node, expected):
    state = state_of(cib, node)
    state.attrib.update(in_ccm="false", crmd="offline", join="down", expected=expected)


def come_back(cib, node):
    """A node that has just joined; nothing is known of it."""
    state = state_of(cib, node)
    state.attrib.update(in_ccm="true", crmd="online", join="member", expected="member")
    for element in list(state):
        state.remove(element)


def add_location(cib, resource, node, score):
    added(cib.find("configuration/constraints"), "rsc_location", id=f"cli-{resource}", rsc=resource, role="Started", node=node, score=score)


def history(cib, node, resource):
    """What is known of a resource, or of its copy, on a node."""
    return next(one for one in state_of(cib, node).iter("lrm_resource") if one.get("id").split(":")[0] == resource)


def interval_of(cib, node, resource):
    return max(int(one.get("interval")) for one in history(cib, node, resource))


def add_failure(cib, node, resource, operation, interval, code, times=1):
    """An operation that has failed, and its fail count."""
    own, now = history(cib, node, resource), int(cib.get("execution-date"))
    expected = "8" if operation == "monitor" and (resource, interval) in promoted_monitors(cib) else "0"
    last = max(int(one.get("call-id")) for one in state_of(cib, node).iter("lrm_rsc_op"))
    call = next((one.get("call-id") for one in own if operation == "monitor" and one.get("interval") == str(interval)), str(last + 1))
    name = f"{resource}_last_failure_0" if operation == "monitor" else f"{resource}_last_0"
    for one in own.findall(f"lrm_rsc_op[@id='{name}']"):
        own.remove(one)
    ElementTree.SubElement(own, "lrm_rsc_op", {
        "id": name, "operation": operation, "operation_key": f"{resource}_{operation}_{interval}", "crm_feature_set": "3.16.1",
        "transition-key": f"9:9:{expected}:00000000-0000-0000-0000-000000000000", "call-id": call, "rc-code": str(code), "op-status": "0",
        "interval": str(interval), "last-rc-change": str(now - 60)})
    set_transient(cib, node, f"fail-count-{resource}#{operation}_{interval}", str(times))
    set_transient(cib, node, f"last-failure-{resource}#{operation}_{interval}", str(now - 60))


def promoted_monitors(cib):
    """The monitors of promoted copies, whose expected exit code is 8."""
    ids = {one.get("id"): one for one in cib.iter("primitive")}
    return {(name, milliseconds(op.get("interval"))) for name, one in ids.items() for op in one.iterfind("operations/op[@name='monitor']")
            if op.get("role") in ("Promoted", "Master")}


def milliseconds(text):
    number = int("".join(letter for letter in text if letter.isdigit()) or 0)
    return number * (60000 if "m" in text else 1000)
