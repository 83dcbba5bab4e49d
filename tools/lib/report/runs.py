"""The simulated run over the given results: transition after transition, what begins and how it ends."""
from .case import action, placed
from .doings import because
from .markup import Markup, code, count, joined, tag, text
from .timeline import Bar, counted, label

EVENTS = ("lost", "up", "quorum", "wait", "report")
MOST = 250


class Transition:
    def __init__(self, number, cause):
        self.number, self.cause, self.steps, self.lines, self.end, self.actions = number, cause, [], [], "not complete", {}


def transitions(lines):
    """The transitions of a run, with the event that made each due, and the line that ends the run too early, if there
    is one."""
    found, cause, last = [], None, None
    for line in lines:
        words = line.split(" ")
        kind = words[0]
        if kind == "transition":
            found.append(Transition(words[1], cause))
            cause = None
        elif kind in ("unexpected", "refused"):
            last = words
        elif not found:
            continue
        elif kind in ("target", "none", "pinned"):
            found[-1].lines.append(line)
        elif kind == "begin":
            one = action(words[1:])
            found[-1].actions[words[1]] = one
            found[-1].steps.append([one, None])
        elif kind in ("end", "timeout"):
            cause = end(found[-1], words) or cause
        elif kind in EVENTS:
            cause = event(words)
            found[-1].steps.append([None, cause])
        elif kind in ("complete", "aborted"):
            found[-1].end = kind
    return found, last


def end(transition, words):
    """Notes how an action ended; gives words where it ended as it shouldn't."""
    one = transition.actions.get(words[1])
    code_ = "timeout" if words[0] == "timeout" else words[2]
    for step in reversed(transition.steps):
        if step[0] is one:
            step[1] = code_
            break
    if one is None or is_fine(one, code_):
        return None
    return joined([plainly(one), " ", "took too long" if code_ == "timeout" else f"ended with exit code {code_}"])


def is_fine(one, code_):
    return code_ in {"probe": ("7",), "monitor": ("0", "8", "190", "191")}.get(one["action"], ("0",))


def event(words):
    if words[0] == "quorum":
        return text("quorum is there" if words[1] == "yes" else "quorum is lost")
    if words[0] == "wait":
        return text(f"{count(int(words[1]), 'second')} pass")
    if words[0] == "report":
        return joined(["the monitor of ", code(words[2]), " on ", code(words[1]), f" finds exit code {words[4]}"])
    return joined([code(words[1]), " is lost" if words[0] == "lost" else " joins"])


def plainly(one):
    node = one.get("node") or one["source"]
    said = label(Bar(node, one, 0, 0))
    return said if one["action"] == "fence" else joined([said, " on ", code(node if one["action"] != "migrate_from" else one["target"])])


def outcome(one, code_):
    if code_ is None:
        return Markup('<span class="chip">no end</span>')
    if is_fine(one, code_):
        return Markup('<span class="chip">not running</span>' if one["action"] == "probe" else '<span class="chip">as expected</span>')
    return tag("span", "took too long" if code_ == "timeout" else f"exit code {code_}", class_="chip down")


def step_rows(transition):
    """The steps. Of many, those that end as they should are left out behind the first ones; probes are counted."""
    probes = [step for step in transition.steps if step[0] and step[0]["action"] == "probe" and step[1] == "7"]
    if len(probes) > 8:
        yield tag("li", f"{len(probes):,} probes find nothing running")
    told = 0
    for one, said in transition.steps:
        if one is None:
            yield tag("li", tag("strong", said), class_="event")
            continue
        fine = said is not None and is_fine(one, said)
        if one["action"] == "probe" and fine and len(probes) > 8:
            continue
        told += 1
        if told <= MOST or not fine:
            number = tag("b", str(one["number"]), class_="number")
            yield tag("li", number, " ", plainly(one), " ", outcome(one, said), data_find=one.get("resource", one.get("node")))
    if told > MOST:
        yield tag("li", f"and {told - MOST:,} more, each of which ends as it should, unless it stands above")


def shown(case, transition):
    places, none, pinned = placed(transition.lines)
    down = [joined([code(name), ": ", tag("small", because(reason))]) for name, reason in list(none.items())[:20]]
    if len(none) > 20:
        down.append(text(f"{len(none) - 20} more"))
    words = {"complete": "would be completed", "aborted": "would be broken off", "not complete": "wouldn't be completed"}[transition.end]
    cause = joined([" after: ", transition.cause]) if transition.cause else ""
    head = tag("summary", tag("h3", f"Simulated transition {transition.number}", tag("small", cause, ", ", words)))
    moves = tag("p", counted(transition.actions.values()), " begins. " if len(transition.actions) == 1 else " begin. ",
                joined(["Without a place: ", joined(down, "; "), "."]) if down else "Everything has a place.")
    return tag("details", head, moves, tag("ol", *step_rows(transition), class_="steps") if transition.steps else None, open=True, class_="transition")


def section(case):
    found, last = transitions(case.run)
    given = case.status.results
    ends = f"as the given results say, and after the last of them as expected. The input has {count(given, 'result')}." if given \
        else "as expected. The input has no results."
    parts = [tag("p", tag("strong", "Nothing here has happened yet:"), f" each action ends {ends}"), *[shown(case, one) for one in found[:60]]]
    if len(found) > 60:
        parts.append(tag("p", f"and {len(found) - 60:,} more transitions"))
    if last:
        why = "doesn't apply" if last[0] == "unexpected" else f"is refused ({last[-1]})"
        words = f"the result in line {last[1]} {why}"
        parts.append(tag("p", tag("strong", f"The run ends here: {words}."), class_="warning"))
    return joined(parts)
