"""Plans as the program's lines tell them: targets, what has none and why, and actions."""


class Plan:
    """One plan: of an input, of a transition of a run, or after a loss. `acts` says whether its actions are known."""

    def __init__(self, title="", acts=False):
        self.title, self.acts, self.end, self.cut = title, acts, "", None
        self.targets, self.without, self.pinned, self.actions, self.order = {}, {}, {}, [], []
        self.probes = self.monitors = 0
        self.now = None         # of a loss: the plan without it
        self.before = {}        # where each resource was before, as far as it is known
        self.gone = set()       # the nodes that were lost since

    @property
    def done(self):
        """Whether all its actions are known: of a transition, whether it is complete."""
        return self.acts and (self.end == "complete" or not (self.title or self.end or self.cut))

    def resource(self, name):
        if name not in self.targets:
            self.targets[name] = []
            self.order.append(name)
        return self.targets[name]

    def take(self, line):
        """What a line says of the plan."""
        kind = line["kind"]
        if kind == "target":
            self.resource(line["resource"]).append((line["node"], line["role"]))
        elif kind == "none":
            self.resource(line["resource"])
            self.without[line["resource"]] = (line["reason"], line.get("rule"))
        elif kind == "pinned":
            self.resource(line["resource"])
            self.pinned[line["resource"]] = line["reason"]
        elif kind in ("action", "begin"):
            self.acts = True
            self.take_action(line)
        elif kind in ("complete", "aborted"):
            self.end = kind
        elif kind in ("unexpected", "refused"):
            self.cut = line


    def take_action(self, action):
        """Probes and monitors are only counted: there may be very many."""
        if action["action"] == "probe":
            self.probes += 1
        elif action["action"] == "monitor":
            self.monitors += 1
        else:
            self.actions.append(action)

    def left_behind(self, name):
        """The nodes that a resource leaves without a stop, since they are lost or fenced."""
        gone = self.gone | {action["node"] for action in self.actions if action["action"] == "fence"}
        return [node for node in self.before.get(name, ()) if node in gone]

    def after(self):
        """Where each resource is once the plan is carried out; of what an aborted one began with, that isn't known."""
        begun = {action["resource"] for action in self.actions if "resource" in action}
        where = {name: [node for node, _ in targets] for name, targets in self.targets.items()}
        return where if self.done else {name: self.before.get(name, nodes) for name, nodes in where.items() if name not in begun}


def next_transition(number, last, events):
    """The plan of a transition, with what happened since the last one in its title."""
    plan = Plan(f"Transition {number}" + (", after " + ", ".join(map(event, events)) if events else ""), acts=True)
    plan.before = last.after()
    plan.gone = {line["node"] for line in events if line["kind"] == "lost"}
    return plan


def event(line):
    """What happened, in the words of its line."""
    fields = [value for name, value in line.items() if name != "kind"]
    return " ".join([line["kind"], *("yes" if value is True else "no" if value is False else str(value) for value in fields)])


EVENTS = ("lost", "up", "quorum", "wait", "report")


def plans(lines):
    """The plans that the lines tell, in order."""
    found, events = [Plan()], []
    for line in lines:
        if line["kind"] in EVENTS:
            events.append(line)
        elif line["kind"] == "transition":
            found.append(next_transition(line["number"], found[-1], events))
            events = []
        elif line["kind"] == "loss":
            found.append(Plan(f"After the loss of {line['node']}"))
            found[-1].now = found[0] if found[0].order else None
        else:
            found[-1].take(line)
    return [plan for plan in found if plan.order or plan.actions or plan.probes or plan.title]
