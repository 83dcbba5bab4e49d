"""What the status of an input says: the moment, the nodes, and what is known of each resource on each node."""
import datetime
import re

WORD = re.compile(r"""(?:"(?:[^"\\]|\\.)*"|'[^']*'|[^ \t"'])+""")
EARLIEST = 10**9  # a smaller moment counts from a beginning of its own
RUNS, PROMOTED, MAYBE, STOPPED = "runs", "promoted", "may run", "stopped"
OF_PROBE = {0: RUNS, 190: RUNS, 8: PROMOTED, 191: PROMOTED, 7: STOPPED, 5: STOPPED}


def logical(text):
    """Lines as they are read: without comments, each with those that go on with it."""
    pending = None
    for line in text.split("\n"):
        line = line.rstrip("\r")
        if pending is None and line.lstrip(" \t").startswith("#"):
            continue
        whole = line if pending is None else pending + line
        pending = whole[:-1] + " " if line.endswith("\\") else None
        if pending is None:
            yield whole
    if pending is not None:
        yield pending


def words_of(line):
    if '"' not in line and "'" not in line:
        return line.split()
    return [re.sub(r"""["']""", "", word) for word in WORD.findall(line)]


class Failure:
    """An operation that failed."""

    def __init__(self, resource, node, operation, interval, code):
        self.resource, self.node, self.operation, self.interval, self.code = resource, node, operation, interval, code


class Status:
    def __init__(self, data):
        self.now, self.quorum, self.nodes, self.cells, self.failures, self.results = None, None, {}, {}, [], 0
        self.given = False
        section = None
        for line in logical(data.decode("utf-8", "replace")):
            words = words_of(line)
            if not words:
                continue
            if words[0] in ("%status", "%results"):
                section, self.given = words[0], self.given or words[0] == "%status"
            elif section == "%status":
                self.take(words)
            elif section == "%results":
                self.results += 1

    def take(self, words):
        kind = words[0]
        if kind == "op":
            self.take_operation(*words[1:6])
        elif kind == "node":
            self.nodes[words[1]] = words[2]
        elif kind == "cleanup":
            self.cells.pop((words[2], words[1]), None)
            self.failures = [one for one in self.failures if (one.node, one.resource) != (words[1], words[2])]
        elif kind == "now":
            self.now = int(words[1])
        elif kind == "quorum":
            self.quorum = words[1] == "yes"

    def take_operation(self, node, resource, operation, interval, code):
        code = None if code == "timeout" else int(code)
        before = self.cells.get((resource, node))
        self.cells[resource, node] = after(operation, int(interval), code, before)
        if is_failure(operation, int(interval), code):
            self.failures.append(Failure(resource, node, operation, int(interval), code))

    def state(self, resource, node):
        """What is known of a resource on a node, or nothing."""
        if self.nodes.get(node) == "offline":
            return STOPPED
        return self.cells.get((resource, node))

    @property
    def moment(self):
        if self.now is None or self.now < EARLIEST:
            return None
        try:
            return datetime.datetime.fromtimestamp(self.now, datetime.timezone.utc).strftime("%Y-%m-%d %H:%M:%S UTC")
        except (ValueError, OverflowError, OSError):
            return f"{self.now} s since 1970"


def after(operation, interval, code, before):
    """What is known of a cell after an operation that ended with this code (nothing: it took too long)."""
    if operation == "monitor":
        return OF_PROBE.get(code, MAYBE) if interval == 0 or code != 5 else MAYBE
    if operation == "stop":
        return STOPPED if code == 0 else MAYBE
    if code != 0:
        return MAYBE
    return PROMOTED if operation == "promote" else RUNS


def is_failure(operation, interval, code):
    if operation == "monitor":
        return code not in (0, 190, 8, 191) and not (interval == 0 and code == 7)
    return code != 0
