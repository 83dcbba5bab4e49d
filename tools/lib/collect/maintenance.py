"""Nodes in maintenance: nothing may start there, and what runs there is left alone. To say so, it is written as
`standby` of the node and `is-managed=false` of the resources."""
from .cib import is_true
from .history import operations
from .nodes import state_of
from .status import state_of as word_of_state
from .words import name_of_node, value

NOT_RUNNING = (5, 7)


class Maintenance:
    """The nodes that are written so, and the primitives that nobody manages because of it."""

    def __init__(self, cib=None, statements=(), facts=None, is_near=False):
        self.nodes, self.unmanaged = set(), set()
        named = {name_of_node(words) for words in statements if words[0] == "node" and is_true(value(words, "maintenance"))}
        if not named:
            return
        online = {name for name in facts.nodes if online_now(cib, facts, name)}
        copied = {name for words in statements if words[0] in ("clone", "ms", "master") for name in leaves(words[2:3], statements)}
        for name in sorted(named):
            self.add(cib, name, named, online, copied, running(cib, facts, online), is_near)

    def add(self, cib, name, named, online, copied, where, is_near):
        own = [leaf for leaf, places in where.items() if name in places]
        shared = [leaf for leaf in own if not where[leaf] <= named or leaf in copied and not online <= named]
        if shared and not is_near:
            cib.notes.add(f"node {name}: maintenance stays, to be refused; {' '.join(shared)} may run elsewhere too, and --near takes all "
                          "copies as unmanaged")
            return
        if shared:
            cib.notes.near(f"node {name} is in maintenance: all copies of {' '.join(shared)} are unmanaged, elsewhere too")
        self.nodes.add(name)
        self.unmanaged.update(own)
        cib.notes.add(f"node {name} is in maintenance: written as in standby, with is-managed=false of what runs there: "
                      f"{' '.join(own) or 'nothing'}")


def online_now(cib, facts, name):
    state = state_of(cib, name)
    return state is not None and word_of_state(cib, name, state, facts.fencing) != "offline"


def leaves(names, statements):
    """The primitives of a primitive or a group."""
    members = {words[1]: words[2:] for words in statements if words[0] == "group" and len(words) > 1}
    return [leaf for name in names for leaf in members.get(name, [name])]


def running(cib, facts, online):
    """For each primitive the nodes where it runs or may run."""
    found = {}
    for name in sorted(online):
        last = {}
        for line in operations(cib, facts, name, state_of(cib, name)):
            _, _, leaf, task, _, code, _ = line.split(" ")
            last[leaf] = runs(task, int(code) if code.isdigit() else code)
        for leaf, is_running in last.items():
            if is_running:
                found.setdefault(leaf, set()).add(name)
    return found


def runs(task, code):
    """Whether a resource runs, or may run, after an operation that ended so."""
    return code != 0 if task == "stop" else code not in NOT_RUNNING
