"""How long a plan takes, at most by the timeouts of its operations, and by the times that they took last: the longest
way through it."""
from show.times import longest, times


class Measured:
    """The times that operations took last; of what wasn't measured on a node the longest elsewhere, or else its
    timeout."""

    def __init__(self, found, timeouts):
        self.on, self.anywhere, self.timeouts = found, {}, timeouts
        for (name, kind, _), time in found.items():
            self.anywhere[name, kind] = max(time, self.anywhere.get((name, kind), 0))

    def known(self, action):
        """The measured time of an action, or nothing."""
        name, kind = action.get("resource"), action["action"]
        node = action.get("node") or action["target" if kind == "migrate_from" else "source"]
        return self.on.get((name, kind, node), self.anywhere.get((name, kind)))

    def of_action(self, action):
        known = self.known(action)
        return self.timeouts.of_action(action) if known is None or action["action"] == "monitor" else known


def way(actions, length):
    """The actions of the longest way, each with its own time and the time at which it ends at most."""
    found, by_number = times(actions, length), {action["number"]: action for action in actions}
    return [(by_number[number], found[number][1] - found[number][0], found[number][1]) for number in longest(found)]


def seconds(time):
    return f"{time / 1000:g}"


def lines(found, head, measured=None):
    """The longest way as people read it."""
    yield head.format(seconds(found[-1][2] if found else 0))
    for action, own, end in found:
        where = action.get("node") or f"{action['source']} -> {action['target']}"
        words = [action["action"], *([action["resource"]] if "resource" in action else []), where]
        of_timeout = ", by its timeout" if measured and own and measured.known(action) is None else ""
        yield f"  {seconds(end):>6} s  {'(+' + seconds(own) + ')':>8}  {' '.join(words)}{of_timeout}"


AT_MOST = "It takes at most {} s, by the timeouts on the longest way:"
AS_MEASURED = "By the times that these actions took last it takes some {} s:"
