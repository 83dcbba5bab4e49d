"""The `%status` of a CIB: states of nodes, quorum, the moment, operations, failures that count more than once,
promotion scores."""
import re

from .cib import is_true
from .history import operations
from .words import name_of_node, value

PROMOTION = re.compile(r"(?:master|promotion)-([^:]+)(:\d+)?$")


class Facts:
    """What the status must know of the configuration: nodes, primitives, those that are promotable, and whether nodes
    are fenced."""

    def __init__(self, statements):
        kinds = {}
        for words in statements:
            kinds.setdefault(words[0] if len(words) > 1 else "", []).append(words)
        self.nodes = [name_of_node(words) for words in kinds.get("node", [])]
        self.primitives = [words[1] for words in kinds.get("primitive", [])]
        clones = kinds.get("clone", []) + kinds.get("ms", []) + kinds.get("master", [])
        self.promotable = {words[2] for words in clones if len(words) > 2 and is_promotable(words)}
        properties = [words for words in kinds.get("property", []) if value(words, "stonith-enabled") is not None]
        self.fencing = not properties or is_true(value(properties[0], "stonith-enabled"))


def is_promotable(words):
    return words[0] != "clone" or is_true(value(words, "promotable"))


def status(cib, facts):
    """The lines of the status."""
    yield "%status"
    yield f"now {now(cib)}"
    yield f"quorum {'yes' if is_true(cib.root.get('have-quorum')) else 'no'}"
    states = {one.get("uname"): one for one in cib.root.findall("status/node_state")}
    for name in facts.nodes:
        if name in states:
            yield f"node {name} {state_of(cib, name, states[name], facts.fencing)}"
        else:
            cib.notes.add(f"no line for node {name}: the cluster hasn't seen it")
    for name, state in states.items():
        if name in facts.nodes:
            yield from operations(cib, facts, name, state)
    for name in facts.nodes:
        yield from promotions(cib, facts, name, states.get(name))
    for name in states:
        if name not in facts.nodes:
            cib.notes.add(f"left out: the state of {name}, which is none of the nodes")


def now(cib):
    if not cib.moment_is_told:
        cib.notes.add("the moment is that of this conversion; --now SECONDS gives another")
    return cib.moment


def is_up(text):
    """A membership: a word, or since Pacemaker 2.1.7 the moment at which it began."""
    return text is not None and (text.lower() in ("true", "online", "yes", "1") or text.isdigit() and int(text) > 0)


def state_of(cib, name, state, fencing):
    """online, offline or unclean, as Pacemaker's scheduler finds it."""
    member, peer = is_up(state.get("in_ccm")), is_up(state.get("crmd"))
    join, expected = state.get("join"), state.get("expected", "down")
    if fencing and cib.transient(state).get("shutdown", "0") != "0":
        return "online" if peer else "offline"
    doomed = fencing and is_doomed(cib.attributes(name, state).get("terminate", ""))
    found = state_with_fencing(state, member, peer, join, expected, doomed) if fencing else state_without(member, peer, join, expected)
    if doomed and found == "unclean":
        cib.notes.add(f"node {name} is to be fenced, as its attribute terminate asks: written as unclean")
    if found == "joining":
        cib.notes.add(f"node {name} is joining: written as offline, since nothing runs there yet")
    return "offline" if found == "joining" else found


def is_doomed(text):
    """Whether the attribute `terminate` asks for fencing: it is true, or the moment at which that was asked."""
    return is_true(text) or text[:1] in tuple("123456789")


def state_with_fencing(state, member, peer, join, expected, doomed):
    """A node that was never seen, was turned away, has left without a word or is doomed is unclean, unless it was just
    shot."""
    if state.get("in_ccm") is None or join == "banned":
        return "unclean"
    if expected == "down" and not doomed:
        return "joining" if member or peer else "offline"
    if doomed and join == "down" and not member and not peer:
        return "offline"
    if doomed or not member or not peer:
        return "unclean"
    return {"member": "online", "pending": "joining", "down": "joining"}.get(join, "unclean")


def state_without(member, peer, join, expected):
    if not member or not peer:
        return "unclean" if member and expected == "member" else "offline"
    return "online" if join == "member" else "joining"


def promotions(cib, facts, name, state):
    """The scores by which agents ask to be promoted; those that last until the node leaves go first."""
    told = set()
    for key, score in cib.attributes(name, state).items():
        match = PROMOTION.match(key)
        if match and match[1] not in told:
            told.add(match[1])
            if match[1] in facts.promotable and match[1] in facts.primitives:
                yield f"promotion {name} {match[1]} {score}"
            else:
                cib.notes.add(f"left out: the promotion score of {match[1]} on {name}; no promotable clone has it")
