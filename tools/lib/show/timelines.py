"""The lines of `graph` or `replay` as a table for a terminal: a column for each node, a row for each round."""
from .rounds import rounds

WIDEST = 28


def place(line):
    """The node that a line speaks of, or nothing."""
    if "source" in line:
        return line["source" if line["action"] == "migrate_to" else "target"]
    return line.get("node")


def said(line):
    """What begins, in brackets until it has ended."""
    return "[fence]" if line["action"] == "fence" else f"[{line['action']} {line['resource']}]"


def ended(line, action):
    """How an action ended."""
    how = "too long" if line["kind"] == "timeout" else "ok" if line["code"] == expected(action) else f"failed {line['code']}"
    return f"{action.get('resource', 'fence')}: {how}"


def expected(action):
    return 7 if action["action"] == "probe" else 0


def rows_of_graph(lines):
    """Each round is a row; behind its number stand the entries by node."""
    found = rounds(lines)
    table = {}
    for line in lines:
        table.setdefault(found[line["number"]], []).append((place(line), said(line)))
    return [(str(number), table[number]) for number in sorted(table)]


def rows_of_run(lines):
    """A row for what begins together, and one for what ends behind it; events stand in the column of their node, or in
    the first one."""
    rows, kind, actions = [], None, {}
    for line in lines:
        if line["kind"] == "transition":
            rows.append((f"Transition {line['number']}", []))
            kind, actions = None, {}
        elif line["kind"] in ("complete", "aborted"):
            rows.append((line["kind"], []))
            kind = None
        elif line["kind"] == "begin":
            actions[line["number"]] = line
            kind = add(rows, kind, "begin", place(line), said(line))
        elif line["kind"] in ("end", "timeout"):
            action = actions.get(line["number"], {"action": "", "node": None})
            kind = add(rows, kind, "end", place(action), ended(line, action))
        elif line["kind"] in ("lost", "up", "report"):
            code = f" {line['resource']}: {line['code']}" if line["kind"] == "report" else ""
            kind = add(rows, None, "event", line["node"], line["kind"] + code)
        elif line["kind"] in ("quorum", "wait"):
            words = f"wait {line['seconds']} s" if line["kind"] == "wait" else f"quorum {'yes' if line['quorum'] else 'no'}"
            kind = add(rows, None, "event", None, words)
    return rows


def add(rows, before, kind, node, words):
    """Adds to the last row if it is of the same kind; gives the kind."""
    if before != kind:
        rows.append(("", []))
    rows[-1][1].append((node, words))
    return kind


def cut(words):
    return words if len(words) <= WIDEST else words[:WIDEST - 2] + ".."


def timeline(lines):
    """The lines of the table. The answers of several words are told apart by the kinds of their lines."""
    graph = [line for line in lines if line["kind"] == "action"]
    rows = rows_of_graph(graph) if graph else rows_of_run(lines)
    nodes = list(dict.fromkeys(node for _, entries in rows for node, _ in entries if node))
    nodes.sort(key=natural)
    columns = {node: max([len(node), *(len(cut(words)) for _, own in rows for at, words in own if at == node)]) for node in nodes}
    front = max([len(head) for head, own in rows if own] + [len(words) for _, own in rows for node, words in own if not node] + [5 if graph else 0])
    yield "  ".join([("round" if graph else "").ljust(front), *(node.ljust(columns[node]) for node in nodes)]).rstrip()
    for head, entries in rows:
        yield from lines_of_row(head, entries, nodes, columns, front)


def lines_of_row(head, entries, nodes, columns, front):
    """A row has as many lines as the node with the most entries."""
    if not entries:
        yield head
        return
    own = {node: [cut(words) for at, words in entries if at == node] for node in nodes}
    none = [words for at, words in entries if not at]
    for number in range(max([len(none), *map(len, own.values())])):
        first = head if number == 0 and head else none[number] if number < len(none) else ""
        cells = [(own[node][number] if number < len(own[node]) else "").ljust(columns[node]) for node in nodes]
        yield "  ".join([first.ljust(front), *cells]).rstrip()


def natural(name):
    """n2 comes before n10."""
    digits = "".join(char if char.isdigit() else " " for char in name).split()
    return ["".join(char for char in name if not char.isdigit()), *map(int, digits)]
