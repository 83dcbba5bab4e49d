"""What the names of a constraint stand for."""


def tagged(cib, name):
    """The resources that a tag names or that are of a template, or the resource of that name."""
    element = cib.by_id.get(name)
    if element is not None and element.tag == "tag":
        return [one.get("id") for one in element.findall("obj_ref")]
    if element is not None and element.tag == "template":
        return [one.get("id") for one in cib.root.findall("configuration/resources//primitive") if one.get("template") == name]
    return [name]


def members(cib, one):
    return [name for reference in one.findall("resource_ref") for name in tagged(cib, reference.get("id"))]
