"""What a changed configuration does otherwise, beside the configuration of the input."""
from .markup import code, joined, names, tag, text


def rows(old, new, old_doings, new_doings):
    for leaf in dict.fromkeys([*old.leaves, *new.leaves]):
        before = old_doings[leaf].sentence if leaf in old_doings else text("isn't there")
        after = new_doings[leaf].sentence if leaf in new_doings else gone(old, leaf)
        if before != after or old.places.get(leaf) != new.places.get(leaf):
            yield tag("tr", tag("th", code(leaf), scope="row"), tag("td", before), tag("td", after), data_find=leaf)


def gone(old, leaf):
    """A resource that the changed configuration doesn't have. Nothing is planned for it, and Pacemaker stops it."""
    places = old.places.get(leaf)
    return joined(["It is taken out; Pacemaker stops it on ", names(places)]) if places else text("It is taken out")


def losses_changed(old_losses, new_losses):
    before = {loss.node: set(loss.of("down")) for loss in old_losses}
    for loss in new_losses:
        if loss.node not in before:
            continue
        more = [leaf for leaf in loss.of("down") if leaf not in before[loss.node]]
        fewer = [leaf for leaf in before[loss.node] if leaf in loss.becomes and loss.becomes[leaf][0] not in ("down", "none")]
        if more:
            yield tag("li", "The loss of ", code(loss.node), " would bring down ", names(more), ", which it doesn't now.")
        if fewer:
            yield tag("li", "The loss of ", code(loss.node), " would no longer bring down ", names(sorted(fewer)), ".")


def section(old, new, old_doings, new_doings, old_losses, new_losses, gone_names):
    found = list(rows(old, new, old_doings, new_doings))
    head = tag("thead", tag("tr", *[tag("th", word, scope="col") for word in ("Resource", "As it is", "With the change")]))
    table = tag("div", tag("table", tag("caption", "What is done otherwise with the change"), head, tag("tbody", *found), class_="summary changes"),
                class_="wide", tabindex="0", role="region", aria_label="Changes") if found \
        else tag("p", "The same is done with each resource.")
    down = list(losses_changed(old_losses, new_losses))
    said = tag("ul", *down) if down else tag("p", "Of what has a place with the change, the loss of a single node brings down the same as now.")
    out = tag("p", "Not in the changed configuration, so their status is left out: ", names(gone_names), ".") if gone_names else None
    return joined([out, table, tag("h3", "Losses, once the plan is done"), said])
