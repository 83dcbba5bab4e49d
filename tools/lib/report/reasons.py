"""Why a resource goes where it goes, in sentences. All that the page says of it comes from `reason`, here from the
totals of `scores`."""
import functools

from .causes import Ban, Chain, failed
from .doings import because
from .markup import code, joined, names, tag, text

NEVER = "-INFINITY"


class Reason:
    """A short answer, and sentences for whoever opens it."""

    def __init__(self, short, sentences):
        self.short, self.sentences = short, sentences


@functools.lru_cache(maxsize=None)
def value(total):
    """A total as a number, to compare."""
    return {"INFINITY": 10**6, NEVER: -10**6}.get(total) or int(total if total.lstrip("-").isdigit() else 0)


def shown(total):
    return total.replace("INFINITY", "\u221e").replace("-", "\u2212")


def reason(case, resource):
    totals = {node: case.totals[resource, node] for node in case.configuration.nodes if (resource, node) in case.totals}
    if resource in case.pinned:
        return Reason(text("no decision is made for it"), facts(case, resource, totals))
    if resource in case.none:
        short = text(because(case.none[resource]))
        if case.none[resource][0] == "NoNode":
            short = joined([short, ": ", against_all(case, totals)])
        return Reason(short, [of_totals(case, totals), *facts(case, resource, totals)])
    short = joined([for_chosen(case, resource, totals), *for_promoted(case, resource)])
    return Reason(short, [of_totals(case, totals), *of_promotion(case, resource), *facts(case, resource, totals)])


def against_all(case, totals):
    """What stands against each node, where none could be chosen."""
    below = [node for node in totals if value(totals[node]) < 0]
    barred = [node for node in totals if node not in below and case.usable(node)]
    left = [node for node in totals if node not in below and node not in barred]
    parts = [joined([names(own, 4), said]) for own, said in
             ((below, " has a total below 0" if len(below) == 1 else " have totals below 0"),
              (barred, " isn't usable" if len(barred) == 1 else " aren't usable"), (left, ": a rule isn't met there")) if own]
    return joined(parts, "; ")


def for_chosen(case, resource, totals):
    """Why the chosen nodes go before the others."""
    places = case.places.get(resource, {})
    chosen = [node for node in totals if node in places]
    others = [node for node in totals if node not in places]
    if not chosen:
        return text("it is there")
    if not others:
        return joined([names(chosen, 4), ": every node has one" if len(chosen) > 1 else ": the only node"])
    least = min(value(totals[node]) for node in chosen)
    open_to = [node for node in others if value(totals[node]) >= 0 and not case.usable(node)]
    ban = Ban.of(case, resource, [node for node in others if totals[node] == NEVER])
    if ban and len(others) == len(chosen) == 1:
        return joined([ban.words(), "; ", code(chosen[0]), " is next"])
    head = joined([*([ban.words(), "; "] if ban else []), names(chosen, 4), " with a total of " if len(chosen) == 1 else " with totals of ",
                   ", ".join(dict.fromkeys(shown(totals[node]) for node in chosen))])
    if not open_to:
        return joined([head, "; ", shut_out(case, resource, others, totals)])
    greatest = max(value(totals[node]) for node in open_to)
    best = [node for node in open_to if value(totals[node]) == greatest]
    if greatest < least:
        return joined([head, "; the next is ", names(best, 2), " with ", shown(totals[best[0]])])
    if greatest == least:
        return joined([head, ", as ", names(best, 3), " has" if len(best) == 1 else " have",
                       "; of equal ones that with fewer resources goes first, then the earlier one"])
    chain = Chain.of(case, resource, best[0], chosen[0]) if len(chosen) == len(best) == 1 else None
    if chain:
        return chain.words()
    return joined([head, "; ", names(best, 3), " had more (", shown(totals[best[0]]), "), but ", unmet(case, resource, best[0])])


def unmet(case, resource, node):
    """The rule that keeps a resource from a node, as far as it can be told from where everything is at the end."""
    group = case.configuration.group_of.get(resource)
    for rule in case.configuration.rules_of(resource):
        if rule.kind != "colocation" or rule.rest[0] not in ("INFINITY:", "-INFINITY:"):
            continue
        if rule.names[1] == group and case.configuration.groups[group][0] != resource:
            continue  # of a group it means the first member, which the others go after
        sides = rule.rest[1:3] if rule.names[1] in case.configuration.aliases(resource) else rule.rest[2:0:-1]
        there = holds(case, sides[1], node)
        if rule.is_together and sides == rule.rest[1:3] and not there:
            return joined([code(rule.id), " isn't met there"])
        if not rule.is_together and there:
            return joined([code(rule.id), " isn't met there"])
    if group and any(node not in case.places.get(leaf, {}) for leaf in case.configuration.groups[group] if leaf != resource):
        return joined(["its group ", code(group), " isn't there"])
    return text("a rule isn't met there")


def holds(case, side, node):
    """Whether one side of a colocation is on a node in its role."""
    name, _, role = side.partition(":")
    roles = [case.places.get(leaf, {}).get(node) for leaf in case.configuration.leaves_of(name)]
    return "promoted" in roles if role else any(roles)


def for_promoted(case, resource):
    """Why a copy is promoted where it is."""
    totals = {node: total for (leaf, node), total in case.promotions.items() if leaf == resource} if resource in case.promotable else {}
    promoted = [node for node, role in case.places.get(resource, {}).items() if role == "promoted"]
    if not promoted:
        return []
    others = sorted((node for node in totals if node not in promoted), key=lambda node: -value(totals[node]))
    rest = joined(["; the next is ", code(others[0]), " with ", shown(totals[others[0]])]) if others else None
    own = ", ".join(dict.fromkeys(shown(totals[node]) for node in promoted if node in totals))
    return [joined(["; promoted on ", names(promoted, 3), " with ", own, rest])]


def shut_out(case, resource, others, totals):
    never = [node for node in others if value(totals[node]) < 0]
    clue = known_against(case, resource, never[0]) if len(never) == 1 else ""
    barred = [node for node in others if node not in never]
    parts = []
    if never:
        least = ", ".join(dict.fromkeys(shown(totals[node]) for node in never))
        parts.append(joined([names(never, 3), " with ", least, " may not have it", clue]))
    if barred:
        states = dict.fromkeys(case.usable(node) for node in barred)
        parts.append(joined([names(barred, 3), " is " if len(barred) == 1 else " are ", ", ".join(states)]))
    return joined(parts, "; ")


def known_against(case, resource, node):
    """The plainest thing that is known to stand against a node: a rule of its own, or a failure."""
    for rule in case.configuration.rules_of(resource):
        if rule.kind == "location" and rule.rest[-2:] == ["-INFINITY:", node]:
            return joined([" (", code(rule.id), ")"])
    for leaf in [resource, *bound(case, resource)]:
        for failure in case.failures.get(leaf, []):
            if failure.node == node:
                return joined([" (the ", failed(failure), " of ", code(leaf), " ", "took too long" if failure.code is None else "failed", " there)"])
    return ""


def of_totals(case, totals):
    """The nodes by their totals, the greatest first."""
    return joined(["Totals: ", by_total(totals)]) if totals else text("There are no totals.")


def by_total(totals):
    found = {}
    for node, total in totals.items():
        found.setdefault(total, []).append(node)
    parts = [joined([shown(total), " on ", names(nodes, 12)]) for total, nodes in sorted(found.items(), key=lambda pair: -value(pair[0]))]
    return joined([joined(parts, "; "), "."])


def of_promotion(case, resource):
    totals = {node: case.promotions[resource, node] for node in case.configuration.nodes if (resource, node) in case.promotions}
    return [joined(["Totals for the promotion: ", by_total(totals)])] if totals else []


def facts(case, resource, totals):
    """What is known that may have a say: nodes, failures of the resource and of what must be with it, and the rules
    that name it."""
    for node in totals:
        state = case.usable(node)
        if state:
            yield joined([code(node), " is ", state, ", so nothing new goes there."])
    for leaf in [resource, *bound(case, resource)]:
        for failure in case.failures.get(leaf, []):
            yield joined(["The ", failed(failure), " of ", code(leaf), " on ", code(failure.node), " ", ended(failure.code),
                          "" if leaf == resource else ", and the two must be together", "."])
    rules = case.configuration.rules_of(resource)
    if rules:
        yield joined(["Rules that name it: ", joined([linked(case, rule) for rule in rules[:12]], ", "),
                      f" and {len(rules) - 12} more" if len(rules) > 12 else "", "."])


def ended(outcome):
    return "took too long" if outcome is None else f"failed with exit code {outcome}"


def linked(case, rule):
    return tag("a", code(rule.id), href=f"#line-{rule.line + 1}", title=case.configuration.lines[rule.line])


def bound(case, resource):
    """What must be on the node of a resource: the members of its group, and what colocations of INFINITY tie to it."""
    found, left = [], [resource]
    while left:
        own = left.pop()
        group = case.configuration.group_of.get(own)
        near = list(case.configuration.groups.get(group, []))
        for rule in case.configuration.rules_of(own):
            if rule.is_together:
                near += [leaf for name in rule.names[1:] for leaf in case.configuration.leaves_of(name)]
        for leaf in near:
            if leaf not in found and leaf != resource:
                found.append(leaf)
                left.append(leaf)
    return found
