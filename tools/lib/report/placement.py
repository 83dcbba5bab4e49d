"""Where everything is and goes: a row for each resource, a column for each node."""
from .markup import Markup, code, joined, tag, text
from .reasons import shown

MOST_UNROLLED = 30
KINDS = {"moves": "moves", "starts": "starts", "stops": "stops", "stays": "stays", "down": "no place", "left": "left alone",
         "restarts": "restarts", "promotes": "changes role"}
CLASSES = {"stays": "stay", "stays promoted": "stay", "starts": "come", "starts, promotes": "come", "arrives": "come", "goes here": "come",
           "stops": "go", "leaves": "go", "cut off": "go", "restarts": "turn", "restarts, promotes": "turn", "promotes": "turn", "demotes": "turn",
           "is probed": "ask"}
TOPS = {"group": "group", "clone": "clone", "ms": "promotable clone"}


def head(case):
    nodes = [tag("th", code(node), tag("small", " ", case.usable(node)) if case.usable(node) else None, scope="col", class_="node")
             for node in case.configuration.nodes]
    return tag("thead", tag("tr", tag("th", "Resource", scope="col"), tag("th", "What happens, and why", scope="col"), *nodes))


def cell(case, resource, node, doing):
    """What happens to a resource on a node, with the total, which is shown when asked for."""
    total = case.totals.get((resource, node))
    promotion = case.promotions.get((resource, node))
    said = shown(total) if total is not None else ""
    if promotion is not None:
        said += f", promoted {shown(promotion)}"
    told = f' data-total="{said}"' if said else ""
    told += f' data-node="{text(node)}"'
    if node not in doing.cells:
        return f'<td{told} class="idle"></td>'
    word = doing.cells[node]
    if word == "stays" and doing.kind == "left":
        word = "stays as it is"
    return f'<td{told} class="{CLASSES.get(word, "stay")}">{text(word)}</td>'


def why(reason):
    return tag("details", tag("summary", tag("span", "Why: ", class_="lead"), reason.short), tag("ul", *[tag("li", one) for one in reason.sentences]))


def row(case, resource, doing, reason, inside):
    cells = Markup("".join(cell(case, resource, node, doing) for node in case.configuration.nodes))
    kind = tag("span", KINDS[doing.kind], class_=f"chip {doing.kind}")
    happens = tag("td", kind, " ", doing.sentence, why(reason), class_="happens")
    return tag("tr", tag("th", code(resource), scope="row", class_="inside" if inside else None, id=f"resource-{resource}"), happens, cells,
               data_find=" ".join(case.configuration.aliases(resource)))


def body(case, top, doings, reasons):
    """The rows of one resource that stands alone, or of a group or clone under its name."""
    nested = top.kind != "primitive"
    rows = [row(case, leaf, doings[leaf], reasons[leaf], nested) for leaf in top.leaves]
    if nested:
        title = tag("th", TOPS[top.kind], " ", code(top.name), scope="rowgroup", colspan=len(case.configuration.nodes) + 2)
        rows.insert(0, tag("tr", title, class_="top", data_find=" ".join([top.name, *top.leaves])))
    return tag("tbody", *rows)


def section(case, doings, reasons):
    tops = case.configuration.tops.values()
    if not tops:
        return tag("p", "The configuration has no resource.")
    table = tag("table", tag("caption", "Each resource, and what happens to it on each node"), head(case),
                *[body(case, top, doings, reasons) for top in tops], class_="places")
    switch = Markup('<input type="checkbox" id="totals"><label for="totals">Show the total of each cell</label>')
    hint = tag("p", "A total says how much speaks for a node: below 0 it can't be chosen, and \u2212\u221e stands for a ban. "
               "Pointing at a cell shows its total too.", class_="hint")
    region = tag("div", table, class_=wide(case), tabindex="0", role="region", aria_label="Placement, a wide table")
    return joined([switch, hint, region])


def wide(case):
    """The classes of what holds a table with a row for each resource: of many rows the head stays in sight."""
    return "wide tall" if len(case.leaves) > MOST_UNROLLED else "wide"
