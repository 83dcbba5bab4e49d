"""Tries the filters over the program's lines, `tools/dot`, `tools/json` and `tools/summary`, and `tools/what-if`."""
import json
import os
import resource
import shutil
import subprocess
import textwrap

from expecting import ENVIRONMENT, TOP, WRAPPER, expect, kept, own, plain, tool

GRAPH = """action 1 fence web1
action 2 start vip web2 after 1
action 3 start site web2 after 1 2
action 4 monitor vip web2 10000 after 2
action 5 migrate_to vm web3 web2 after 1
"""
DRAWN = """digraph "actions" {
  node [shape=box]
  1 [label="fence\\nweb1" shape=octagon color="red" fontcolor="red"]
  2 [label="start vip\\nweb2" style=bold color="green4"]
  3 [label="start site\\nweb2" style=bold color="green4"]
  4 [label="monitor vip 10000 ms\\nweb2" style=dotted color="gray50"]
  5 [label="migrate_to vm\\nweb3 to web2" style=bold color="turquoise4"]
  1 -> 2
  2 -> 3
  2 -> 4
  1 -> 5
}
"""

# Lines of each word, and the fields that JSON has of them.
FIELDS = {
    "node 1: n1 attributes \"a b\"=\"x \\\"y\\\" \\\\z\"":
        {"kind": "statement", "statement": "node", "words": ["1:", "n1", "attributes", "a b=x \"y\" \\z"]},
    "fencing_topology": {"kind": "statement", "statement": "fencing_topology", "words": []},
    "acl_group": {"kind": "statement", "statement": "acl_group", "words": []},
    "# nodes 2 leaves 4 rules 5": {"kind": "counts", "nodes": 2, "leaves": 4, "rules": 5},
    "place vip": {"kind": "place", "resource": "vip"},
    "promote disk": {"kind": "promote", "resource": "disk"},
    "score vip n1 -INFINITY": {"kind": "score", "resource": "vip", "node": "n1", "score": "-INFINITY"},
    "score vip n2 -50": {"kind": "score", "resource": "vip", "node": "n2", "score": -50},
    "none a Held o": {"kind": "none", "resource": "a", "reason": "Held", "rule": "o"},
    "none a NoNode": {"kind": "none", "resource": "a", "reason": "NoNode"},
    "action 7 monitor a n1 10000 after 2 3":
        {"kind": "action", "number": 7, "action": "monitor", "resource": "a", "node": "n1", "interval": 10000, "after": [2, 3]},
    "begin 1 migrate_from vm n1 n2":
        {"kind": "begin", "number": 1, "action": "migrate_from", "resource": "vm", "source": "n1", "target": "n2"},
    "end 1 7": {"kind": "end", "number": 1, "code": 7},
    "quorum no": {"kind": "quorum", "quorum": False},
    "report n1 a 10000 1": {"kind": "report", "node": "n1", "resource": "a", "interval": 10000, "code": 1},
    "refused 3 BadScore": {"kind": "refused", "line": 3, "cause": "BadScore"},
    "unlawful 3 begin": {"kind": "unlawful", "line": 3, "clause": "begin"},
}
NO_LINES = ["frobnicate", "node", "property", "place", "place a b", "score vip n1 many", "action 1 start vip", "action 1 start vip n1 2", "end 1"]

# Lines of the program, and the summary of them.
SUMMARIES = {
    # A group moves, a resource is restarted, one stays, one has no place, one is left as it is, a copy is promoted.
    "target a n2 started\ntarget b n1 started\ntarget c n1 started\nnone d Held o\npinned e blocked\ntarget e n2 started\n"
    "target f n1 started\ntarget f n2 promoted\n"
    "action 1 probe b n2\naction 2 stop a n1\naction 3 stop b n1\naction 4 start a n2 after 2\n"
    "action 5 start b n1 after 1 3\naction 6 demote f n1\naction 7 promote f n2 after 6\naction 8 stop d n2\n":
        "Summary:\n  * Move       a                ( n1 -> n2 )\n  * Restart    b                ( n1 )\n"
        "  * Stay       c                ( n1 )\n"
        "  * Stop       d                ( n2 ) held back by o: what it needs has no place\n"
        "  * Leave      e                ( n2 ) an operation failed whose on-fail is block\n"
        "  * Demote     f                ( Promoted -> Started n1 )\n  * Promote    f                ( Started -> Promoted n2 )\n"
        "  * Probe      1 times          does a resource run there?\n",
    # A run: what was meant in a transition that was aborted isn't there yet.
    "transition 1\ntarget vip n2 started\nbegin 1 stop vip n1\nend 1 1\naborted 1\ntransition 2\ntarget vip n2 started\nbegin 1 fence n1\n"
    "end 1 0\nbegin 2 start vip n2\nend 2 0\ncomplete 2\n":
        "Transition 1 (aborted):\n  * Stop       vip              ( n1 )\n  * Place      vip              ( n2 )\n"
        "Transition 2:\n  * Fence      n1\n  * Start      vip              ( n2 )\n",
    # Runs that end before a transition is complete: what no action leads to yet isn't there. One ends after it.
    "transition 1\ntarget vip n1 started\nbegin 1 probe vip n1\nbegin 2 probe vip n2\nunexpected 10\n":
        "Transition 1 (not complete):\n  * Place      vip              ( n1 )\n"
        "  * Probe      2 times          does a resource run there?\nThe run ends here: the result in line 10 doesn't apply.\n",
    "transition 1\ntarget vip n1 started\nbegin 1 probe vip n1\nrefused 11 UnknownStatement\n":
        "Transition 1 (not complete):\n  * Place      vip              ( n1 )\n"
        "  * Probe      1 times          does a resource run there?\n"
        "The run ends here: the result in line 11 is refused (UnknownStatement).\n",
    "transition 1\ntarget vip n1 started\nbegin 1 fence n2\n":
        "Transition 1 (not complete):\n  * Fence      n2\n  * Place      vip              ( n1 )\n",
    "transition 1\ntarget vip n1 started\ncomplete 1\nunexpected 13\n":
        "Transition 1:\n  * Stay       vip              ( n1 )\nThe run ends here: the result in line 13 doesn't apply.\n",
    # The graph alone.
    "action 1 fence n2\naction 2 start vip n1 after 1\n": "Summary:\n  * Fence      n2\n  * Start      vip              ( n1 )\n",
    "transition 1\ncomplete 1\n": "Transition 1:\n  * nothing to do\n",
    "loss n1\ntarget vip n2 promoted\nloss n2\nnone vip NoNode\n":
        "After the loss of n1:\n  * Place      vip              ( Promoted n2 )\n"
        "After the loss of n2:\n  * No place   vip              no node could be chosen\n",
    "transition 1\ntarget vm n2 started\nbegin 1 migrate_to vm n1 n2\nend 1 0\nbegin 2 migrate_from vm n1 n2\nend 2 0\n"
    "begin 3 stop vm n1\nend 3 0\ncomplete 1\n": "Transition 1:\n  * Migrate    vm               ( n1 -> n2 )\n",
}

# What happened since the last transition is in the title; what leaves a lost node moves, and a wide name pushes no
# column.
SUMMARIES["transition 1\ntarget vip db1 started\nbegin 1 start vip db1\nend 1 0\ncomplete 1\nlost db1\nquorum no\ntransition 2\n"
          "target vip db2 started\nbegin 1 fence db1\nend 1 0\nbegin 2 start vip db2\nend 2 0\ncomplete 2\n"] = \
    "Transition 1:\n  * Start      vip              ( db1 )\n" \
    "Transition 2, after lost db1, quorum no:\n  * Fence      db1\n  * Move       vip              ( db1 -> db2 )\n"
SUMMARIES["target a-name-of-twenty-two- n1 started\nnone b Stopped\ntarget c n2 started\nloss n1\nnone a-name-of-twenty-two- NoNode\n"
          "none b Stopped\ntarget c n2 started\n"] = \
    "Summary:\n  * Place      a-name-of-twenty-two- ( n1 )\n  * No place   b                     its target-role\n" \
    "  * Place      c                     ( n2 )\n" \
    "After the loss of n1:\n  * No place   a-name-of-twenty-two- ( n1 ) no node could be chosen\n  * Stay       c\n"

# Commands with standard streams that are closed: the status, the output, and what is said.
CLOSED = {
    "tools/json <&-": (1, "", "json: standard input is closed\n"),
    "tools/dot <&-": (1, "", "dot: standard input is closed\n"),
    "tools/summary examples/nothing <&-": (1, "", "summary: [Errno 2] No such file or directory: 'examples/nothing'\n"),
    "tools/what-if examples/first-run.crm <&-": (1, "", "what-if: standard input is closed\n"),
    "tools/json <(echo place vip) <&-": (0, '{"kind": "place", "resource": "vip"}\n', ""),
    "echo end 1 7 | tools/json >&-": (1, "", "json: standard output is closed\n"),
}

# What is said of the kept CIB two-nodes when the site may no longer be on web1, without `graph` and with it.
PLACED = """What is done now (-), and with {0} (+):
-   * Place      site-address     ( web1 )
+   * Place      site-address     ( web2 )
-   * Place      site-server      ( web1 )
+   * Place      site-server      ( web2 )
    * Place      fence            ( web2 )
"""
PLANNED = """What is done now (-), and with {0} (+):
-   * Stay       site-address     ( web1 )
+   * Move       site-address     ( web1 -> web2 )
-   * Stay       site-server      ( web1 )
+   * Move       site-server      ( web1 -> web2 )
    * Stay       fence            ( web2 )
"""
LOST = """After the loss of web2, with {0}: site-address would no longer have a place (no node could be chosen)
After the loss of web2, with {0}: site-server would no longer have a place (no node could be chosen)
"""

# A cluster in which a runs on n1 and can't run on n2, and what changed configurations do there.
HEAD = "node n1\nnode n2\nprimitive a Dummy\nlocation l a -inf: n2\n"
STATE = "%status\nnow 10\nquorum yes\nnode n1 online\nnode n2 online\nop n1 a start 0 0 5\nop n2 a monitor 0 7 4\n"
STAYS = "-   * Stay       a                ( n1 )\n+   * "
SAME = "Of what has a place with {0}, the loss of a single node would bring down the same as now.\n"
NO_STATUS = "what-if: n1 isn't in {0}: its status is left out\n"
SAYS_MORE = "; `cekpayo check` says more\n"
PROMOTED = HEAD.replace("primitive", "ms m a\nprimitive") + STATE + "\n# The agent's.\npromotion n1 a 5\n"

# What is tried, NEW.crm, INPUT, the status, the output behind its first line, and what is said.
CHANGES = [
    ("what is stopped has no place after a loss", HEAD.replace("Dummy", "Dummy meta target-role=Stopped"), HEAD + STATE,
     0, STAYS + "Stop       a                ( n1 ) its target-role\n" + SAME, ""),
    ("a node that is gone isn't lost", "node n2\nprimitive a Dummy\n", HEAD + STATE,
     0, STAYS + "Start      a                ( n2 )\n"
     "After the loss of n2, with {0}: a would no longer have a place (no node could be chosen)\n", NO_STATUS),
    ("what isn't managed is lost with its node", HEAD.replace("Dummy", "Dummy meta is-managed=false"), HEAD + STATE,
     0, STAYS + "Leave      a                ( n1 ) it isn't managed\n" + SAME, ""),
    ("what survives more", HEAD.replace("-inf: n2", "5: n1"), HEAD + STATE,
     0, "    * Stay       a                ( n1 )\nAfter the loss of n1, with {0}: a would have a place, which it hasn't now\n", ""),
    ("a misspelt %status", HEAD, HEAD + STATE.replace("%status", "%statu"),
     5, "", "what-if: standard input: refused 5 UnknownStatement" + SAYS_MORE),
    ("a line of an input with comments", HEAD, HEAD + STATE + "\n# A comment.\nop n3 a start 0 0 5\n",
     5, "", "what-if: standard input: refused 14 UnknownName" + SAYS_MORE),
    ("two that are refused", "nod n1\n", "nod n2\n",
     5, "", "what-if: standard input: refused 1 UnknownStatement" + SAYS_MORE + "what-if: {0}: refused 1 UnknownStatement" + SAYS_MORE),
    ("a section that NEW.crm can't have", HEAD + "%more\n", HEAD + STATE,
     5, "", "what-if: {0}: refused 5 UnknownStatement" + SAYS_MORE),
    ("a status that doesn't fit", "# A comment.\n" + HEAD, PROMOTED,
     5, "", "what-if: standard input: refused 15 BadValue: its status doesn't fit {0}\n"),
]


def try_dot():
    expect("dot", tool("dot", data=GRAPH.encode()) == (0, DRAWN, ""), tool("dot", data=GRAPH.encode())[1])
    expect("dot --all", "  1 -> 3\n" in tool("dot", "--all", data=GRAPH.encode())[1])
    expect("dot of other lines", tool("dot", data=b"target a n1 started\n")[0] == 1)
    if shutil.which("dot"):
        done = subprocess.run(["dot", "-Tsvg"], input=DRAWN.encode(), stdout=subprocess.PIPE, stderr=subprocess.PIPE)
        expect("dot -Tsvg", done.returncode == 0 and not done.stderr and b"start vip" in done.stdout, done.stderr.decode())


def try_json():
    status, output, _ = tool("json", data="\n".join(FIELDS).encode())
    expect("json", status == 0 and [json.loads(line) for line in output.splitlines()] == list(FIELDS.values()), output)
    for line in NO_LINES:
        expect(f"json of {line}", tool("json", data=line.encode())[0] == 1)
    expect("json of nothing", tool("json") == (0, "", ""))


def try_summary():
    for lines, said in SUMMARIES.items():
        expect(f"summary of {lines[:30]}", tool("summary", data=lines.encode()) == (0, said, ""), tool("summary", data=lines.encode())[1])


    lines = b"target a n1 started\nloss n2\ntarget a n1 started\n"
    expect("summary --all", tool("summary", "--all", data=lines)[1].endswith("After the loss of n2:\n  * Place      a                ( n1 )\n"))
    for name in ("summary", "json", "dot"):
        status, output, said = tool(name, "--help")
        expect(f"{name} --help", status == 0 and output.startswith(f"Usage: tools/{name} [FILE..]\n") and said == "", output + said)


def try_closed():
    for command, expected in CLOSED.items():
        done = subprocess.run(["bash", "-c", command], cwd=TOP, env=ENVIRONMENT, stdout=subprocess.PIPE, stderr=subprocess.PIPE)
        found = done.returncode, done.stdout.decode(), done.stderr.decode()
        expect(command, found == expected, str(found))


def try_what_if(folder):
    old, path = kept("cibs", "two-nodes.crm"), os.path.join(folder, "new.crm")
    new = old.partition("%status")[0].replace("site-prefers-web1 site 50:", "site-not-on-web1 site -inf:")
    with open(path, "w", encoding="utf-8") as file:
        file.write(new)
    expected = (PLACED if own(b"", "graph")[0] == 2 else PLANNED) + ("" if own(b"", "survive")[0] == 2 else LOST)
    found = tool("what-if", path, data=old.encode())
    expect("what-if", found == (0, expected.format(path), ""), found[1] + found[2])
    page = textwrap.dedent(kept("..", "docs", "TOOLS.md").partition("tools/what-if new.crm <")[2].partition("\n\n")[0].partition("\n")[2])
    expect("what-if in docs/TOOLS.md", page + "\n" in (PLACED.format("new.crm"), (PLANNED + LOST).format("new.crm")), page)
    with open(path, "w", encoding="utf-8") as file:
        file.write(new.replace("node 2: web2\n", ""))
    status, _, said = tool("what-if", path, data=old.encode())
    expect("what-if without a node", status == 0 and said.startswith("what-if: web2 isn't in "), said)
    expect("what-if that is refused", tool("what-if", path, data=b"nod n1\n")[0] == 5)
    expect("what-if of no file", tool("what-if", "/nonexistent")[0] == 1)
    expect("what-if without a file", tool("what-if")[0] == 2)


def try_changes(folder):
    path = os.path.join(folder, "changed.crm")
    for name, new, old, status, output, said in CHANGES:
        with open(path, "w", encoding="utf-8") as file:
            file.write(new)
        head = "What is done now (-), and with {0} (+):\n" if output else ""
        found = tool("what-if", path, data=old.encode())
        expect("what-if: " + name, found == (status, (head + output).format(path), said.format(path)), found[1] + found[2])


def try_many(folder):
    """What moves many resources is shown without much work of the processor, each line next to the other of its
    resource."""
    path, names = os.path.join(folder, "many.crm"), [f"r{number}" for number in range(200)]
    places = {node: "node n1\nnode n2\n" + "".join(f"primitive {one} Dummy\nlocation l-{one} {one} 5: {node}\n" for one in names)
              for node in ("n1", "n2")}
    state = STATE.partition("op")[0] + "".join(f"op n1 {one} start 0 0 5\nop n2 {one} monitor 0 7 4\n" for one in names)
    with open(path, "w", encoding="utf-8") as file:
        file.write(places["n2"])
    before = resource.getrusage(resource.RUSAGE_CHILDREN).ru_utime
    output = tool("what-if", path, data=(places["n1"] + state).encode())[1]
    expect("what-if of many that move: time", resource.getrusage(resource.RUSAGE_CHILDREN).ru_utime - before < 5)
    lines = [f"-   * Stay       {one:<16} ( n1 )\n+   * Move       {one:<16} ( n1 -> n2 )\n" for one in names]
    expect("what-if of many that move", "".join(lines) in output, output)


def try_without_program(folder):
    """The status and the words are those of the script `cekpayo`, here in a copy where nothing is built or can be."""
    top = os.path.join(folder, "unbuilt")
    shutil.copytree(os.path.join(TOP, "tools"), os.path.join(top, "tools"))
    shutil.copy(WRAPPER, top)
    places = [(TOP, dict(ENVIRONMENT, CEKPAYO_PROGRAM="/nonexistent"), "cekpayo: CEKPAYO_PROGRAM names /nonexistent, ")]
    if not shutil.which("rt", path=plain()["PATH"]):
        places.append((top, plain(), "cekpayo: the program is not built, "))
    for place, environment, said in places:
        words = [os.path.join(place, "tools", "what-if"), "/dev/null"]
        done = subprocess.run(words, input=b"", env=environment, stdout=subprocess.PIPE, stderr=subprocess.PIPE)
        found = done.stderr.decode()
        as_said = found.startswith(said) and found.count("\n") == 1
        expect("what-if without a program", (done.returncode, done.stdout) == (127, b"") and as_said, found)


def try_all(folder):
    try_dot()
    try_json()
    try_summary()
    try_closed()
    try_what_if(folder)
    try_changes(folder)
    try_many(folder)
    try_without_program(folder)
