"""The `op` lines of a node: its operations in the order of their call ids, and failures that its history no longer has.
All runs of a recurring monitor have one call id, so of these the moments decide."""
import re

TASKS = ("start", "stop", "promote", "demote", "monitor")
PENDING, CANCELLED, TIMED_OUT = "-1", "1", "2"
FAIL_COUNT = re.compile(r"fail-count-([^:#]+)(?::\d+)?(?:#(\w+)_(\d+))?$")
MOST_FAILURES = 1000
NOT_INSTALLED = 5
HARD = (2, 3, 4, 5, 6)


class Operation:
    def __init__(self, leaf, task, interval, code, moment, call=-1):
        self.leaf, self.task, self.interval = leaf, task, interval if task == "monitor" else 0
        self.code, self.moment, self.call = code, moment, call

    @property
    def failed(self):
        """A monitor may find a promoted or degraded copy, and a probe may find none."""
        if self.task != "monitor":
            return self.code != 0
        return self.code not in (0, 190, 8, 191) and (self.interval > 0 or self.code != 7)

    def line(self, node):
        return f"op {node} {self.leaf} {self.task} {self.interval} {self.code} {self.moment}"


def operations(cib, facts, node, state):
    """The lines of one node."""
    found = {}
    for element in state.findall("lrm/lrm_resources/lrm_resource"):
        leaf = element.get("id", "").split(":")[0]
        if leaf not in facts.primitives:
            cib.notes.add(f"left out: what ran of {leaf} on {node}; it isn't in the configuration")
            continue
        for one in element.findall("lrm_rsc_op"):
            operation = told(cib, facts, node, leaf, one)
            if operation:
                found[operation.line(node), operation.call] = operation
    ended = sorted(found.values(), key=lambda operation: (operation.call, operation.moment))
    for operation in earlier_failures(cib, facts, node, state, ended) + ended:
        yield operation.line(node)


def number(text, least=0):
    """A number from the least on, which stands for what is none."""
    try:
        return max(least, int(text or least))
    except ValueError:
        return least


def told(cib, facts, node, leaf, element):
    """An operation of the history as the program reads it, or nothing."""
    task, what = element.get("operation", ""), f"{element.get('operation')} of {leaf} on {node}"
    status, code = element.get("op-status", "0"), number(element.get("rc-code"))
    call, moment = number(element.get("call-id"), -1), number(element.get("last-rc-change") or element.get("last-run"))
    if status == PENDING:
        return in_flight(cib, leaf, task, what, moment)
    if status == CANCELLED or watches_stopped(element, code):
        return None
    if status == TIMED_OUT:
        code = "timeout"
    elif status != "0" and code == 0:
        code = 1
    if task in ("migrate_to", "migrate_from"):
        return migration(cib, leaf, task, what, code, moment, call)
    if task not in TASKS or task in ("promote", "demote") and leaf not in facts.promotable:
        cib.notes.add(f"left out: {what}; the program has no such operation of it")
        return None
    return Operation(leaf, task, number(element.get("interval")), code, moment, call)


def watches_stopped(element, code):
    """Whether a recurring monitor finds that nothing runs, and was to find it."""
    return code == 7 and element.get("interval", "0") != "0" and element.get("transition-key", "").split(":")[2:3] == ["7"]


def in_flight(cib, leaf, task, what, moment):
    """What Pacemaker takes as done while it is in flight is written so; else the last known stands."""
    if task in ("start", "promote"):
        cib.notes.add(f"{what} is in flight: written as if it had succeeded, as Pacemaker takes it")
        return Operation(leaf, task, 0, 0, moment, 1 << 40)
    cib.notes.add(f"left out: {what}; it is in flight")
    return None


def migration(cib, leaf, task, what, code, moment, call):
    """An arrival is a start; a departure leaves the resource where it was until it is stopped there; a failure is that
    of a probe."""
    if code != 0:
        cib.notes.add(f"{what} failed: written as a failed probe, since it may run there")
        return Operation(leaf, "monitor", 0, code, moment, call)
    if task == "migrate_from":
        return Operation(leaf, "start", 0, 0, moment, call)
    cib.notes.add(f"left out: {what}; it stays until it is stopped there")
    return None


def earlier_failures(cib, facts, node, state, ended):
    """Failures that count more than once, where the history keeps the last alone: they come before all others."""
    attributes, found = cib.transient(state), []
    for key, count in attributes.items():
        match = FAIL_COUNT.match(key)
        if match and match[1] in facts.primitives and count != "0":
            moment = number(attributes.get(key.replace("fail-count-", "last-failure-")))
            own = [operation for operation in ended if operation.leaf == match[1]]
            task, interval = (match[2], number(match[3])) if match[2] else likely(own)
            if not own or task not in TASKS or task in ("promote", "demote") and match[1] not in facts.promotable:
                cib.notes.add(f"left out: {key} on {node}; no such operation is known there")
            else:
                found += repeated(cib, node, Operation(match[1], task, interval, 1, moment), count, own, match[2] is None)
    return found


def likely(own):
    """The operation whose failures an older Pacemaker counts without its name: one that failed, or else a monitor."""
    known = [other for other in own if other.failed] + [other for other in own if other.interval > 0]
    return (known[0].task, known[0].interval) if known else ("monitor", 0)


def repeated(cib, node, failure, count, own, of_any):
    """As many failures as are missing among the resource's own operations; for an infinity one after which the node
    isn't tried again."""
    known = [other for other in own if other.failed and (of_any or (other.task, other.interval) == (failure.task, failure.interval))]
    if count.upper() in ("INFINITY", "1000000"):
        banned = any(other.task in ("start", "stop") or other.code in HARD for other in known)
        return [] if banned else [Operation(failure.leaf, "start", 0, NOT_INSTALLED, failure.moment)]
    missing = number(count) - len(known)
    if missing > MOST_FAILURES:
        cib.notes.add(f"{failure.leaf} failed {count} times on {node}; of these {MOST_FAILURES} are written")
    return [failure] * min(missing, MOST_FAILURES)
