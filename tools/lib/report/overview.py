"""What a reader wants first: what happens first, what goes where, and what a loss brings down."""
from .doings import because
from .markup import code, count, joined, names, tag, text
from .timeline import counted, duration, label

HEADS = (("moves", "move"), ("starts", "start"), ("restarts", "restart"), ("promotes", "change role"), ("stops", "lose a copy"), ("stays", "stay"),
         ("left", "are left alone"))
ONE = {"are left alone": "is left alone", "change role": "changes role", "lose a copy": "loses a copy"}


def at(bar):
    return label(bar) if bar.what == "fence" else joined([label(bar, watched=False), " on ", code(bar.node)])


def first(timeline):
    """The first actions, and what comes after them."""
    if not timeline.actions:
        return tag("p", "Nothing has to be done. Everything is where it should be.")
    own = timeline.first
    rest = [bar for bar in timeline.bars if bar not in own and bar.what != "monitor"]
    shown = tag("ol", *[tag("li", at(bar)) for bar in own[:4]], tag("li", f"and {len(own) - 4} more at once") if len(own) > 4 else None,
                class_="first", title="These begin at once" if len(own) > 1 else None)
    others = f"; and {len(rest) - 3} more" if len(rest) > 3 else ""
    then = tag("p", "Then: ", joined([at(bar) for bar in rest[:3]], "; "), others, ".") if rest else None
    total = tag("p", counted(timeline.case.actions), ", at most ", tag("strong", duration(timeline.total)), " by the timeouts. ",
                tag("a", "The whole plan", href="#plan"), class_="small")
    return joined([tag("p", "At once:") if len(own) > 1 else None, shown, then, total])


def places(case, doings):
    found = {}
    for leaf in case.leaves:
        found.setdefault(doings[leaf].kind, []).append(leaf)
    lines = []
    for kind, said in HEADS:
        own = found.get(kind, [])
        if own:
            verb = said if len(own) > 1 else ONE.get(said, said + "s")
            lines.append(tag("li", tag("strong", f"{len(own)} {verb}: "), names(own, 6)))
    for leaf in found.get("down", [])[:6]:
        lines.append(tag("li", tag("strong", "no place: ", class_="bad"), code(leaf), ": ", tag("small", because(case.none.get(leaf, ["it has none"])))))
    if len(found.get("down", [])) > 6:
        lines.append(tag("li", tag("strong", f"{len(found['down']) - 6} more have no place", class_="bad")))
    return joined([tag("ul", *lines), more("Where everything goes, and why", "placement")])


def each_lost(loss):
    """What one loss brings down, and what it moves."""
    gone, moving = loss.of("down"), loss.of("moves")
    said = gone_down(gone, 5) if gone else tag("span", "nothing goes down", class_="good")
    moves = ["; ", names(moving, 4), " moves" if len(moving) == 1 else " move"] if moving else []
    return tag("li", tag("strong", "Loss of ", code(loss.node), ": "), said, *moves)


def gone_down(gone, most):
    return joined([names(gone, most), tag("strong", " goes down" if len(gone) == 1 else " go down", class_="bad")])


def lost(losses):
    """The losses that bring something down, and how many don't."""
    if not losses:
        return tag("p", "No node is online, so none can be lost.")
    harmful = [loss for loss in losses if loss.of("down")]
    if len(losses) <= 6:
        return joined([tag("ul", *map(each_lost, losses)), nowhere(losses), more("What each loss does", "losses")])
    lines = [tag("li", tag("strong", code(loss.node), ": "), gone_down(loss.of("down"), 5)) for loss in harmful[:8]]
    if len(harmful) > 8:
        lines.append(tag("li", f"{len(harmful) - 8} more bring something down"))
    fine = [loss.node for loss in losses if not loss.of("down")]
    if fine:
        lines.append(tag("li", tag("strong", names(fine, 4), ": "), tag("span", "nothing goes down", class_="good")))
    return joined([tag("ul", *lines), nowhere(losses), more("What each loss does", "losses")])


def nowhere(losses):
    """What has no place, whichever node is lost."""
    own = [leaf for leaf in losses[0].of("none") if all(loss.becomes[leaf][0] == "none" for loss in losses)]
    return tag("p", names(own, 6), " has" if len(own) == 1 else " have", " no place in any case.") if own else None


def more(said, section_id):
    return tag("p", tag("a", said, href=f"#{section_id}"), class_="small")


def card(title, body):
    return tag("section", tag("h3", title), body, class_="card")


def section(case, timeline, doings, losses):
    return tag("div", card("What happens first", first(timeline)), card("What goes where", places(case, doings)),
               card("If a node is lost, once this plan is done", lost(losses)), class_="cards")


def state(case):
    """A sentence on the moment that the input tells of."""
    status = case.status
    if not status.given:
        return text("The input tells no status, so no node is known to be online.")
    nodes = {}
    for node in case.configuration.nodes:
        nodes.setdefault(case.usable(node) or "online", []).append(node)
    parts = [joined([names(own, 5) if len(own) < 6 else count(len(own), "node"), " ", "are" if len(own) > 1 else "is", " ", said]) for said, own in nodes.items()]
    moment = status.moment
    quorum = "There is quorum." if status.quorum else "There is no quorum."
    return joined([f"As of {moment}: " if moment else "", joined(parts, "; "), ". ", quorum])
