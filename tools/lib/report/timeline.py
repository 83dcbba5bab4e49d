"""The plan as a timeline: a lane for each node, in it what is done there, as long as it may take by the timeouts."""
from show.times import longest, times

from .markup import Markup, code, count, joined, names, tag, text

WORDS = {"migrate_to": "send off live", "migrate_from": "take in live", "fence": "cut off"}


class Bar:
    """What one line of a lane shows: an action, or several probes or monitors together."""

    def __init__(self, node, action, begin, end):
        self.node, self.action, self.begin, self.end = node, action, begin, end
        self.resources, self.monitored = [action.get("resource", "")], []

    @property
    def what(self):
        return self.action["action"]


class Timeline:
    def __init__(self, case):
        self.case, actions = case, case.actions
        self.actions = {one["number"]: one for one in actions}
        self.times = times(actions, case.configuration.timeout)
        self.total = max((end for _, end, _ in self.times.values()), default=0.0)
        self.critical = set(longest(self.times))
        self.bars = list(self.joined_bars(actions))
        if all(bar.action["number"] in self.critical for bar in self.bars if bar.what != "monitor"):
            self.critical = set()  # a mark on everything would tell nothing

    def joined_bars(self, actions):
        """A bar for each action. The probes of a node share a bar, and a monitor stands beside the start that it
        follows."""
        probes, starts, found = {}, {}, []
        for one in actions:
            begin, end, _ = self.times[one["number"]]
            node = one.get("node") or one["target" if one["action"] == "migrate_from" else "source"]
            if one["action"] == "monitor" and (one["resource"], node) in starts:
                starts[one["resource"], node].monitored.append(one["interval"])
                continue
            if one["action"] == "probe" and node in probes:
                probes[node].resources.append(one["resource"])
                probes[node].end = max(end, probes[node].end)
                continue
            bar = Bar(node, one, begin, end)
            if one["action"] == "probe":
                probes[node] = bar
            elif one["action"] in ("start", "promote", "migrate_from", "demote"):
                starts[one["resource"], node] = bar
            found.append(bar)
        return found

    @property
    def first(self):
        return [bar for bar in self.bars if bar.begin == 0 and bar.action["action"] != "monitor"
                and not bar.action["after"]]

    def before(self, bar):
        """What a bar waits for, without what it waits for anyhow, and without probes, which stand together."""
        own, beyond = bar.action["after"], set()
        if len(own) > 200:
            own = sorted(own, key=lambda number: -self.times[number][1])[:200]
        for number in own:
            beyond.update(self.actions[number]["after"] if number in self.actions else ())
        kept = [number for number in own if number not in beyond]
        return [number for number in kept if number in self.actions and self.actions[number]["action"] != "probe"], \
            any(self.actions[number]["action"] == "probe" for number in kept if number in self.actions)

    def lanes(self):
        """The nodes with something to do, each with its bars."""
        found = {node: [] for node in self.case.configuration.nodes}
        for bar in self.bars:
            found.setdefault(bar.node, []).append(bar)
        return [(node, sorted(own, key=lambda bar: (bar.begin, bar.action["number"]))) for node, own in found.items()]


def duration(seconds):
    """A time as people say it."""
    if seconds < 1 and seconds:
        return f"{seconds * 1000:.0f} ms"
    minutes, rest = divmod(round(seconds), 60)
    hours, minutes = divmod(minutes, 60)
    parts = [f"{hours} h"] * bool(hours) + [f"{minutes} min"] * bool(minutes) + [f"{rest} s"] * bool(rest or not (hours or minutes))
    return " ".join(parts)


def counted(actions):
    """How many actions there are; probes and monitors, which aren't listed one by one, are counted apart."""
    kinds = [{"probe": "probe", "monitor": "monitor"}.get(one["action"], "action") for one in actions]
    parts = [count(kinds.count(kind), kind) for kind in ("action", "probe", "monitor") if kind in kinds] or ["0 actions"]
    return " and ".join([", ".join(parts[:-1])] * (len(parts) > 1) + parts[-1:])


def label(bar, watched=True):
    """What a bar does, in words; and how it is watched from there on."""
    if bar.what == "fence":
        return joined(["cut off ", code(bar.node), " (fence)"])
    if bar.what == "probe":
        return probe_label(bar)
    word = WORDS.get(bar.what, bar.what)
    tail = {"migrate_to": " to ", "migrate_from": " from "}.get(bar.what)
    where = joined([tail, code(bar.action["target" if bar.what == "migrate_to" else "source"])]) if tail else None
    every = f", every {duration(int(bar.action['interval']) / 1000)}" if bar.what == "monitor" else None
    then = f", then monitor every {' and '.join(duration(int(ms) / 1000) for ms in bar.monitored)}" if bar.monitored and watched else None
    return joined([word, " ", code(bar.action["resource"]), where, every, tag("small", then) if then else None])


def probe_label(bar):
    if len(bar.resources) <= 4:
        return joined(["probe ", joined([code(name) for name in bar.resources], ", ")])
    return joined(["probe ", count(len(bar.resources), "resource")])


def row(timeline, bar):
    number = bar.action["number"]
    before, probes = timeline.before(bar)
    after = joined([tag("a", str(one), href=f"#action-{one}") for one in before[:6]], ", ")
    if len(before) > 6:
        after = joined([after, f" and {len(before) - 6} more"])
    waits = [after] * bool(before) + [text("its probes")] * probes
    length = "" if bar.what == "monitor" else f"up to {duration(bar.end - bar.begin)}"
    told = joined([joined(["after ", joined(waits, " and ")]) if waits else None, ", " if waits and length else None, length])
    scale = 100 / (timeline.total or 1)
    place = f"left:{bar.begin * scale:.2f}%;width:{(bar.end - bar.begin) * scale:.2f}%"
    words = tag("span", tag("b", str(number), class_="number"), " ", label(bar), " ", tag("small", told, class_="told"), class_="label")
    track = tag("span", tag("span", class_="bar", style=place), class_="track")
    return tag("li", words, track, id=f"action-{number}", class_=f"{bar.what}{' long' if number in timeline.critical else ''}",
               data_after=" ".join(map(str, before)) or None, data_find=" ".join(bar.resources[:1] if len(bar.resources) > 400 else bar.resources))


def mark(place, said):
    """A mark of the scale; the words of the last ones stand before it."""
    return Markup(f'<span style="left:{place:.2f}%"{" class=end" if place > 93 else ""}>{said}</span>')


def axis(timeline):
    """The scale: at most six marks at even times."""
    total = timeline.total
    step = next((one for one in (1, 5, 10, 20, 30, 60, 120, 300, 600, 1800, 3600, 7200, 21600, 86400, 604800) if total / one <= 5), total or 1)
    marks = [mark(at * step / (total or 1) * 100, duration(at * step)) for at in range(int(total // step) + 1)]
    return tag("div", tag("span", class_="label"), tag("span", *marks, class_="track"), class_="axis", aria_hidden="true")


def section(timeline):
    """The section of the page."""
    if not timeline.actions:
        return tag("p", "Nothing has to be done: everything is as it should be.")
    lanes = [(node, own) for node, own in timeline.lanes() if own]
    idle = [node for node, own in timeline.lanes() if not own]
    head = tag("p", counted(timeline.case.actions), ", numbered in an order in which they may run. A bar is as long as its action may take: "
               "by the timeouts all is done after at most ", tag("strong", duration(timeline.total)), ". ",
               joined(["What makes it last so long is marked: ", path(timeline), "."] if timeline.critical
                      else ["Every action shown is on the longest path, so none is marked."]))
    parts = [tag("section", tag("h3", "On ", code(node)), tag("ol", *[row(timeline, bar) for bar in own]), class_="lane", data_find=node)
             for node, own in lanes]
    none = tag("p", "Nothing is done on ", names(idle, 20), ".") if idle else None
    return joined([head, tag("div", axis(timeline), *parts, class_="timeline"), none])


def path(timeline):
    """Links to the actions of the longest path that have a bar of their own."""
    shown = {bar.action["number"] for bar in timeline.bars}
    own = [number for number in longest(timeline.times) if number in shown and timeline.actions[number]["action"] != "monitor"]
    return tag("span", joined([tag("a", str(number), href=f"#action-{number}") for number in own[:30]], ", "), class_="path")
