"""The action graph for Graphviz: nodes by kind, fences in red; in brief without probes and monitors, and a frame for
each node."""

LOOKS = {
    "fence": 'shape=octagon color="red" fontcolor="red"',
    "probe": 'style=dashed color="gray50" fontcolor="gray30"',
    "start": 'style=bold color="green4"',
    "stop": 'style=bold color="orange3"',
    "promote": 'style=bold color="blue" peripheries=2',
    "demote": 'style=bold color="purple" peripheries=2',
    "monitor": 'style=dotted color="gray50"',
    "migrate_to": 'style=bold color="turquoise4"',
    "migrate_from": 'style=bold color="turquoise4"',
}
ASIDE = ("probe", "monitor")


def drawing(actions, every):
    """The lines of the drawing; of two arrows behind each other the one that goes past both is left out, unless every
    one is asked for."""
    yield 'digraph "actions" {'
    yield "  node [shape=box]"
    for action in actions:
        yield box(action, label(action))
    yield from drawn(arrows(actions, every))
    yield "}"


def brief_drawing(actions, every):
    """The same without probes and monitors, with their arrows passed on, and a frame for what is done on one node."""
    kept = without_asides(actions)
    yield 'digraph "actions" {'
    yield "  node [shape=box margin=\"0.1,0.04\" height=0.3]"
    yield "  nodesep=0.15 ranksep=0.3 newrank=true"
    for number, (node, own) in enumerate(by_node(kept).items()):
        yield f"  subgraph cluster_{number} {{"
        yield f'    label="{quoted(node)}" style=rounded color="gray50"'
        yield from ("  " + box(action, short_label(action)) for action in own)
        yield "  }"
    yield from drawn(arrows(kept, every))
    yield "}"


def box(action, text):
    return f'  {action["number"]} [label="{text}" {LOOKS[action["action"]]}]'


def drawn(pairs):
    return (f"  {before} -> {number}" for number, before in pairs)


def quoted(name):
    """A name within a text of Graphviz."""
    return name.replace("\\", "\\\\").replace('"', '\\"')


def place(action):
    """The node on which an action is done; a migration is sent off on one and taken in on the other."""
    return action.get("node") or action["source" if action["action"] == "migrate_to" else "target"]


def by_node(actions):
    found = {}
    for action in actions:
        found.setdefault(place(action), []).append(action)
    return found


def label(action):
    """Two lines: what is done, and where."""
    if action["action"] == "fence":
        return f"fence\\n{quoted(action['node'])}"
    if "source" in action:
        return f"{action['action']} {quoted(action['resource'])}\\n{quoted(action['source'])} to {quoted(action['target'])}"
    interval = f" {action['interval']} ms" if "interval" in action else ""
    return f"{action['action']} {quoted(action['resource'])}{interval}\\n{quoted(action['node'])}"


def short_label(action):
    """One line: the frame says where."""
    if "resource" not in action:
        return "fence"
    return f"{action['action']} {quoted(action['resource'])}"


def without_asides(actions):
    """The actions but probes and monitors; what comes after one of these comes after what that one comes after."""
    passed, kept = {}, []
    for action in actions:
        before = {}
        for number in action.get("after", []):
            before.update(dict.fromkeys(passed.get(number, [number])))
        if action["action"] in ASIDE:
            passed[action["number"]] = list(before)
        else:
            kept.append(dict(action, after=list(before)))
    return kept


def arrows(actions, every):
    """Pairs of an action and one among them that must come before it. Each set of what comes before an action is a
    number, bit by bit."""
    before, known = {}, {action["number"] for action in actions}
    for action in actions:
        own = [number for number in action.get("after", []) if number in known]
        beyond = 0
        for number in own:
            beyond |= before.get(number, 0)
        before[action["number"]] = beyond
        for number in own:
            before[action["number"]] |= 1 << number
            if every or not beyond >> number & 1:
                yield action["number"], number
