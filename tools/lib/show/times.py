"""How long a plan takes: times as configurations write them, the timeouts of operations, and the longest way through a
plan's actions."""
from explain.differences import FALSE
from explain.hints import SECTIONS

UNITS = {"": 1000, "s": 1000, "sec": 1000, "ms": 1, "msec": 1, "m": 60000, "min": 60000, "h": 3600000, "hr": 3600000}
DEFAULT, FENCING = 20000, 60000  # Pacemaker's own, in milliseconds


def milliseconds(time):
    """A time in milliseconds; 0 where it is none."""
    digits = time.rstrip("abcdefghijklmnopqrstuvwxyz")
    return int(digits) * UNITS.get(time[len(digits):], 0) if digits.isdigit() else 0


def pairs(words):
    return dict(word.partition("=")[::2] for word in words if "=" in word)


def operations(words):
    """The operations of a primitive, by its words: the name and the pairs of each."""
    heads = [at for at, word in enumerate(words) if at > 2 and word in SECTIONS] + [len(words)]
    for at, end in zip(heads, heads[1:]):
        if words[at] == "op" and at + 1 < len(words):
            yield words[at + 1], pairs(words[at + 2:end])


def monitor_of(words):
    """The interval of the first recurring monitor of a primitive, or 0."""
    for name, own in operations(words):
        interval = milliseconds(own.get("interval", "0"))
        if name == "monitor" and interval and own.get("enabled", "true").lower() not in FALSE:
            return interval
    return 0


class Timeouts:
    """The timeouts of a configuration in milliseconds, by its statements, each a list of words."""

    def __init__(self, statements=()):
        self.of, self.default, self.fencing = {}, DEFAULT, FENCING
        for words in statements:
            self.take(words)

    def take(self, words):
        """The timeouts of a statement; of several monitors of a primitive the longest."""
        if words[0] == "op_defaults":
            self.default = milliseconds(pairs(words).get("timeout", "")) or self.default
        elif words[0] == "property":
            self.fencing = milliseconds(pairs(words).get("stonith-timeout", "")) or self.fencing
        elif words[0] == "primitive":
            for name, own in operations(words):
                key = words[1], name
                self.of[key] = max(milliseconds(own.get("timeout", "")), self.of.get(key, 0))

    def of_action(self, action):
        """Nothing waits for a recurring monitor to end."""
        kind = action["action"]
        if kind == "monitor":
            return 0
        if kind == "fence":
            return self.fencing
        return self.of.get((action["resource"], "monitor" if kind == "probe" else kind)) or self.default


def times(actions, length):
    """For each action by its number when it begins and ends at the latest, and the one before it that it waits for
    longest."""
    found = {}
    for action in actions:
        before = [(found[number][1], number) for number in action.get("after", []) if number in found]
        begin, last = max(before, default=(0, None))
        found[action["number"]] = (begin, begin + length(action), last)
    return found


def longest(found):
    """The numbers of the actions that make the longest path, in order."""
    path, number = [], max(found, key=lambda one: (found[one][1], -one), default=None)
    while number is not None:
        path.append(number)
        number = found[number][2]
    return path[::-1]
