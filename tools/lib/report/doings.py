"""What a plan does with each resource: on each node, and in a sentence."""
from show.summaries import REASONS

from .markup import Markup, code, count, joined, names
from .status import MAYBE, PROMOTED, RUNS

LEFT = {"unmanaged": "it isn't managed", "blocked": "an operation failed whose on-fail is block"}


def because(reason):
    """The reason why a resource has no place."""
    why, *rule = reason
    return REASONS.get(why, why).format(*rule)


class Doing:
    """What is done with one resource: its kind for a glance, a sentence, and a word for each node that has to do with
    it."""

    def __init__(self, kind, sentence, cells):
        self.kind, self.sentence, self.cells = kind, sentence, cells


class Doings:
    """The actions of a plan by resource."""

    def __init__(self, actions):
        self.by_resource, self.fenced = {}, []
        for one in actions:
            if one["action"] == "fence":
                self.fenced.append(one["node"])
            else:
                where = one.get("node") or (one["source"], one["target"])
                self.by_resource.setdefault(one["resource"], {}).setdefault(one["action"], []).append(where)

    def of(self, resource):
        return self.by_resource.get(resource, {})


def cells(own, places, state):
    """For each node what happens to a resource there, in a word."""
    found = {}
    moved = own.get("migrate_to", [])
    for source, target in moved:
        found[source], found[target] = "leaves", "arrives"
    for node in dict.fromkeys(own.get("stop", []) + own.get("start", []) + own.get("demote", []) + own.get("promote", [])):
        if node not in found:
            found[node] = verb(node, own)
    for node, role in places.items():
        if node not in found:
            stays = "stays promoted" if role == "promoted" else "stays"
            found[node] = stays if state(node) in (RUNS, PROMOTED, MAYBE) else "goes here"
    for node in own.get("probe", []):
        found.setdefault(node, "is probed")
    return found


def verb(node, own):
    stops, starts = node in own.get("stop", []), node in own.get("start", [])
    promotes = node in own.get("promote", [])
    if starts:
        return ("restarts" if stops else "starts") + (", promotes" if promotes else "")
    if stops:
        return "stops"
    return "promotes" if promotes else "demotes"


def doing(case, doings, resource):
    own, targets = doings.of(resource), case.places.get(resource, {})

    def state(node):
        return case.status.state(resource, node)

    found = cells(own, targets, state)
    for node in case.configuration.nodes:
        if node not in found and node in doings.fenced and state(node) in (RUNS, PROMOTED, MAYBE):
            found[node] = "cut off"
    if resource in case.pinned:
        reason = LEFT.get(case.pinned[resource], case.pinned[resource])
        return Doing("left", joined(["Is left as it is: ", reason]), found)
    sentence = sentence_of(found, targets)
    if resource in case.none:
        sentence = joined([sentence, "no place: " if sentence else "No place: ", because(case.none[resource])])
    return Doing(kind_of(found, targets), sentence, found)


def kind_of(found, targets):
    said = {word.split(",")[0] for word in found.values()}
    if not targets:
        return "down"
    if said & {"starts", "arrives"} and said & {"stops", "leaves", "cut off"}:
        return "moves"
    if "restarts" in said:
        return "restarts"
    if said & {"promotes", "demotes"}:
        return "promotes"
    if said & {"starts", "goes here"}:
        return "starts"
    return "stops" if "stops" in said or "cut off" in said else "stays"


def sentence_of(found, targets):
    """One sentence for what happens on all nodes. A single copy that leaves one node for another moves."""
    by_word = {}
    for node, word in found.items():
        by_word.setdefault(word, []).append(node)
    by_word.pop("is probed", None)
    come, go = (dict((word, by_word[word]) for word in words if word in by_word)
                for words in (("starts", "starts, promotes", "arrives"), ("stops", "leaves", "cut off")))
    parts = []
    if len(targets) == 1 and len(come) == len(go) == 1 and all(len(own) == 1 for own in (*come.values(), *go.values())):
        (to_word, (to,)), (from_word, (source,)) = *come.items(), *go.items()
        verb = "Migrates live" if to_word == "arrives" else "Moves"
        tail = " and is promoted there" if "promotes" in to_word else ""
        fenced = " (its old node is cut off first)" if from_word == "cut off" else ""
        parts.append(joined([verb, " from ", code(source), " to ", code(to), tail, fenced]))
        by_word = {word: own for word, own in by_word.items() if word not in come and word not in go}
    for word, own in by_word.items():
        parts.append(joined([said(word), " ", names(own, 4) if len(own) < 5 else count(len(own), "node")]))
    parts = [part if at == 0 else part[:1].lower() + part[1:] for at, part in enumerate(map(str, parts))]
    return joined([joined(list(map(Markup, parts)), "; "), ". " if parts else ""])


def said(word):
    return {"goes here": "Goes to", "cut off": "Is cut off with", "arrives": "Arrives on", "leaves": "Leaves", "demotes": "Is demoted on",
            "promotes": "Is promoted on", "starts, promotes": "Starts and is promoted on", "restarts, promotes": "Restarts and is promoted on",
            }.get(word, word.capitalize() + " on")
