"""The failures that the status has of a resource on a node: how many count, what they do, and when they are
forgotten."""
import datetime

from show.times import milliseconds, operations

from .configured import at

INFINITY = 1000000
EARLIEST = 10**9  # a smaller moment counts from a beginning of its own
NEVER_AGAIN, NOWHERE = (2, 3, 4, 5), 6  # the exit codes that ban a resource from its node, and from each
GOOD = {"monitor": (0, 8, 190, 191), "probe": (0, 7, 8, 190, 191)}


class Failures:
    """Those of a resource on a node since its history was last cleaned up, none of them ignored."""

    def __init__(self, configured, known, resource, node, found):
        self.resource, self.node, self.found = resource, node, found
        self.last, self.now = found[-1], known.now
        self.threshold = configured.meta(resource, "migration-threshold")
        self.timeout = configured.meta(resource, "failure-timeout")
        self.is_fatal = not configured.is_off("start-failure-is-fatal")
        self.on_fail = {on_fail(configured, one) for one in found}

    @property
    def expiry(self):
        """The last moment at which they count, or nothing where they are never forgotten."""
        time = milliseconds(self.timeout.value)
        return self.last.seconds + time / 1000 if time else None

    @property
    def count_now(self):
        return self.expiry is None or self.now <= self.expiry

    @property
    def limit(self):
        """How many of them ban the resource; 0 where no number does, as INFINITY of failures never are."""
        digits = self.threshold.value.lstrip("+")
        return min(int(digits), INFINITY) if digits.isdigit() else INFINITY

    def sentences(self):
        times = {1: "once", 2: "twice"}.get(len(self.found), f"{len(self.found)} times")
        last = "" if len(self.found) == 1 else "at last "
        yield f"{self.resource} failed on {self.node} {times}, {last}{ended(self.last)}{since(self.now - self.last.seconds)} ({at(self.last.line)})."
        if not self.count_now:
            yield f"That is forgotten, by {self.timeout}."
            return
        yield self.of_ban()
        for value, does in (("stop", "stops it everywhere"), ("block", "leaves it alone from then on"), ("fence", "has the node fenced")):
            if value in self.on_fail:
                yield f"The on-fail={value} of an operation that failed {does}."
        if self.expiry is None:
            yield "Only a cleanup makes that forgotten: it has no failure-timeout."
        else:
            yield f"That is forgotten in {self.expiry - self.now:g} s{date(self.expiry)}, by {self.timeout}."

    def of_ban(self):
        codes = {one.code for one in self.found}
        if NOWHERE in codes:
            return "Code 6 bans it from every node."
        if codes & set(NEVER_AGAIN):
            return f"Code {min(codes & set(NEVER_AGAIN))} bans it there."
        if self.limit and self.is_fatal and any(one.kind == "start" for one in self.found):
            return "A failed start bans it there (start-failure-is-fatal)."
        if self.limit in (0, INFINITY):
            return f"No number of failures bans it there{f', by {self.threshold}' if self.threshold.line else ': it has no migration-threshold'}."
        return f"It is banned there, by {self.threshold}." if len(self.found) >= self.limit else f"It isn't banned there, by {self.threshold}."

    def fields(self):
        found = {"resource": self.resource, "node": self.node, "count": len(self.found), "counts": self.count_now,
                 "last": {"operation": self.last.kind, "code": self.last.code, "seconds": self.last.seconds, "line": self.last.line}}
        return found if self.expiry is None else dict(found, until=self.expiry)


def ended(operation):
    return f"by a {kind_of(operation)} that timed out" if operation.code is None else f"by a {kind_of(operation)} with code {operation.code}"


def kind_of(operation):
    return "probe" if operation.kind == "monitor" and not operation.interval else operation.kind


def since(seconds):
    return f", {seconds} s ago" if seconds >= 0 else ""


def date(seconds):
    if not EARLIEST <= seconds < 253402300800:
        return ""
    return datetime.datetime.fromtimestamp(int(seconds), datetime.timezone.utc).strftime(" (%Y-%m-%d %H:%M:%S UTC)")


def on_fail(configured, operation):
    """What a failure of this operation leads to, as the configuration has it."""
    statement = configured.resources.get(operation.resource)
    default = "restart"
    if operation.kind == "stop":
        default = "block" if configured.is_off("stonith-enabled") else "fence"
    for name, pairs in operations([word.text for word in statement.words]) if statement else ():
        if name == operation.kind and milliseconds(pairs.get("interval", "0")) == operation.interval:
            default = pairs.get("on-fail", default)
    return "block" if default == "fence" and configured.is_off("stonith-enabled") else default


def is_failure(configured, operation):
    if operation.code in GOOD.get(kind_of(operation), (0,)):
        return False
    return kind_of(operation) != "monitor" or on_fail(configured, operation) != "ignore"


def failures(configured, known, names):
    """The failures of some resources, for each of them and each node that has any."""
    found = {}
    for one in known.history:
        if is_failure(configured, one):
            found.setdefault((one.resource, one.node), []).append(one)
    return [Failures(configured, known, name, node, ones) for (name, node), ones in sorted(found.items(), key=lambda item: names.index(item[0][0]))]
