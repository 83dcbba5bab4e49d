"""What the loss of each node does: a row for each node, and a matrix of all."""
from .doings import because
from .markup import Markup, code, count, joined, names, tag, text
from .placement import wide


HEADS = ("When this node is lost", "goes down", "moves", "the rest")


class Loss:
    """What becomes of each resource when a node is lost: a class for a glance and words."""

    def __init__(self, case, node):
        self.node, self.becomes = node, {}
        places, none, _ = case.losses[node]
        for leaf in case.leaves:
            self.becomes[leaf] = becomes(case.places.get(leaf, {}), places.get(leaf, {}), none.get(leaf))

    def of(self, kind):
        return [leaf for leaf, (own, _) in self.becomes.items() if own == kind]


def becomes(before, after, reason):
    if not before and not after:
        return "none", "no place before either"
    if not after:
        return "down", because(reason) if reason else "it isn't there any more"
    if before == after:
        return "stays", ""
    come = [node for node in after if node not in before]
    promoted = [node for node, role in after.items() if role == "promoted" and before.get(node) != "promoted"]
    if promoted:
        return "moves", "promoted on " + ", ".join(promoted)
    if come:
        return "moves", "to " + ", ".join(come)
    demoted = [node for node, role in after.items() if before.get(node) == "promoted" and role != "promoted"]
    if demoted:
        return "fewer", "no longer promoted on " + ", ".join(demoted)
    return "fewer", f"{len(after)} of {len(before)} copies left"


def down(loss):
    """The names of what goes down, each with its reason."""
    found = {}
    for leaf in loss.of("down"):
        found.setdefault(loss.becomes[leaf][1], []).append(leaf)
    if not found:
        return Markup('<span class="chip fine">nothing</span>')
    return joined([joined([names(own, 12), ": ", tag("small", why)]) for why, own in found.items()], "; ")


def moving(loss):
    found = {}
    for leaf in loss.of("moves"):
        found.setdefault(loss.becomes[leaf][1], []).append(leaf)
    parts = [joined([names(own, 6), tag("small", " ", where)]) for where, own in found.items()]
    return joined([joined(parts[:8], "; "), f" and to {len(parts) - 8} more nodes" if len(parts) > 8 else ""]) if parts else text("nothing")


def summary_row(loss):
    stays, fewer = len(loss.of("stays")), len(loss.of("fewer"))
    rest = joined([count(stays, "stays", "stay"), f"; {count(fewer, 'clone loses', 'clones lose')} a copy" if fewer else ""])
    gone = tag("td", down(loss), class_="down" if loss.of("down") else None, data_head=HEADS[1])
    return tag("tr", tag("th", code(loss.node), scope="row", data_head=HEADS[0]), gone, tag("td", moving(loss), data_head=HEADS[2]),
               tag("td", rest, data_head=HEADS[3]), data_find=loss.node)


SHORT = {"stays": "stays", "down": "down", "none": "no place", "fewer": "fewer copies"}


def matrix_cell(becomes):
    kind, words = becomes
    said = SHORT.get(kind, words)
    if kind in ("stays", "none"):
        return f"<td class={kind[0]}>{said}</td>"
    told = f' title="{text(words)}"' if kind != "moves" else ""
    return f'<td class="{kind}"{told}>{text(said)}</td>'


def matrix(case, losses):
    head = tag("thead", tag("tr", tag("th", "Resource", scope="col"), *[tag("th", "loss of ", code(loss.node), scope="col") for loss in losses]))
    rows = [tag("tr", tag("th", code(leaf), scope="row"), Markup("".join(matrix_cell(loss.becomes[leaf]) for loss in losses)),
                data_find=" ".join(case.configuration.aliases(leaf))) for leaf in case.leaves]
    table = tag("table", tag("caption", "Each resource, and what becomes of it when a node is lost"), head, tag("tbody", *rows), class_="losses")
    swipe = tag("p", "The table may be wider than the screen: move it sideways \u2194", class_="hint swipe") if len(losses) > 2 else None
    return joined([swipe, tag("div", table, class_=wide(case), tabindex="0", role="region", aria_label="Losses of each resource, a wide table")])


def section(case, losses):
    if not losses:
        return tag("p", "No node is online, so none can be lost.")
    head = tag("thead", tag("tr", *[tag("th", word, scope="col") for word in HEADS]))
    caption = tag("caption", "What the loss of each node does, once this plan is done")
    table = tag("table", caption, head, tag("tbody", *map(summary_row, losses)), class_="summary")
    whole = tag("details", tag("summary", "Each resource at each loss"), matrix(case, losses), open=len(losses) <= 6 and len(case.leaves) <= 30)
    moment = tag("p", "This is said of the state ", tag("strong", "once this plan is done"), ", not of where everything is now.")
    hint = tag("p", "The node leaves without a word, and is cut off where fencing is on. Quorum stays as the status says it.", class_="hint")
    region = tag("div", table, class_="wide", tabindex="0", role="region", aria_label="Losses")
    return joined([moment, hint, region, whole])
