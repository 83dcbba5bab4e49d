"""The statements of the constraints of a CIB: sets, patterns and tags become statements for each resource or pair."""
from .cib import points
from .locations import locations
from .references import members, tagged


def constraints(cib):
    """All constraints, each a list of words."""
    for element in cib.all("constraints/*"):
        make = {"rsc_location": locations, "rsc_colocation": colocations, "rsc_order": orders}.get(element.tag)
        is_alive = lives(cib, element)
        if is_alive is False:
            continue
        made = list(make(cib, element)) if make else [[element.tag, element.get("id", "")]]
        if is_alive is None:
            made = [words + ["lifetime"] for words in made]
        if not made:
            cib.notes.add(f"left out: {element.get('id')}; it says nothing")
        if len(made) > 1:
            cib.notes.add(f"{element.get('id')}: written as {len(made)} statements")
        for number, words in enumerate(made, 1):
            yield words if len(made) == 1 else [words[0], f"{words[1]}-{number}"] + words[2:]


def lives(cib, element):
    """Whether the lifetime of a constraint isn't over; nothing where that isn't known."""
    lifetime = element.find("lifetime")
    return True if lifetime is None else cib.counts(lifetime)


def with_role(name, role):
    return f"{name}:{role}" if role and role.lower() != "started" else name


def extra(element, *keys):
    """Attributes as they are; those that have an effect and no word here are refused."""
    return [f"{key}={element.get(key)}" for key in keys if element.get(key) is not None]


def required(element):
    """That one copy or resource of several is enough has an effect."""
    return extra(element, "require-all") if element.get("require-all", "true") != "true" else []


def colocations(cib, element):
    score, sets = element.get("score", "0"), [cib.meant(one) for one in element.findall("resource_set")]
    refused = extra(element, "node-attribute", "influence", "rsc-instance", "with-rsc-instance")
    if not sets:
        pairs = [((one, element.get("rsc-role")), (other, element.get("with-rsc-role")))
                 for one in tagged(cib, element.get("rsc", "")) for other in tagged(cib, element.get("with-rsc", ""))]
        scores = [score] * len(pairs)
    else:
        within = [(pair, one.get("score", score)) for one in sets for pair in pairs_within(cib, one, one.get("score", score))]
        between = [(pair, score) for one, other in zip(sets, sets[1:]) for pair in pairs_between(cib, one, other)]
        pairs, scores = [pair for pair, _ in within + between], [own for _, own in within + between]
    for (first, second), own in zip(pairs, scores):
        yield ["colocation", element.get("id"), own + ":", with_role(*first), with_role(*second)] + refused


def in_sequence(one):
    return one.get("sequential", "true").lower() in ("true", "1", "yes", "on", "y")


def pairs_within(cib, one, score):
    """In a set each resource goes to the one before it (or after it, as it is ordered); if they are to be apart, to all
    before it."""
    names = [(name, one.get("role")) for name in members(cib, one)]
    if not in_sequence(one) or points(score) == 0:
        return []
    if points(score) < 0:
        return [(names[at], other) for at in range(len(names)) for other in names[:at]]
    if one.get("ordering", "group") == "group":
        return list(zip(names[1:], names))
    return list(zip(names, names[1:]))


def pairs_between(cib, one, other):
    """The first of a set goes to the last of the next; without sequence, each does."""
    names = [(name, one.get("role")) for name in members(cib, one)]
    others = [(name, other.get("role")) for name in members(cib, other)]
    names, others = (names[:1] if in_sequence(one) else names), (others[-1:] if in_sequence(other) else others)
    return [(first, second) for first in names for second in others]


def orders(cib, element):
    kind = element.get("kind") or element.get("score") or "Mandatory"
    sets = [cib.meant(one) for one in element.findall("resource_set")]
    head = ["order", element.get("id"), kind + ":"]
    tail = extra(element, "symmetrical") + [word for one in [element] + sets for word in required(one)]
    if not sets:
        first, then = element.get("first-action", "start"), element.get("then-action")
        for one in tagged(cib, element.get("first", "")):
            for other in tagged(cib, element.get("then", "")):
                yield head + [f"{one}:{first}", f"{other}:{then or first}"] + tail
        return
    steps = [[f"{name}:{one.get('action', 'start')}" for name in members(cib, one)] for one in sets]
    all_steps = [step for own in steps for step in own]
    if kind.lower() == "serialize":
        found = [[first, then] for at, first in enumerate(all_steps) for then in all_steps[at + 1:]]
    elif all(in_sequence(one) or len(own) == 1 for one, own in zip(sets, steps)):
        found = [all_steps]
    else:
        found = chains(sets, steps)
    for chain in found:
        yield head + chain + tail


def chains(sets, steps):
    """Orders that say the same as sets where one isn't in sequence."""
    found = [own for one, own in zip(sets, steps) if in_sequence(one) and len(own) > 1]
    for (one, own), (other, next_own) in zip(zip(sets, steps), zip(sets[1:], steps[1:])):
        firsts, thens = (own[-1:] if in_sequence(one) else own), (next_own[:1] if in_sequence(other) else next_own)
        found += [[first, then] for first in firsts for then in thens]
    return found
