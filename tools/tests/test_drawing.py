"""Tries `tools/dot` in brief and on lines that others were taken out of, and the timeline of `tools/summary`."""
import re
import shutil
import subprocess
import textwrap

from expecting import expect, kept, tool

GRAPH = """action 1 fence web3
action 2 probe vip web1
action 3 probe vip web2
action 4 stop site web1 after 1
action 5 start vip web2 after 1 2 3
action 6 monitor vip web2 10000 after 5
action 7 start site web2 after 1 4 6
action 8 migrate_to vm web1 web2 after 1
action 9 migrate_from vm web1 web2 after 8
"""
BRIEF = """digraph "actions" {
  node [shape=box margin="0.1,0.04" height=0.3]
  nodesep=0.15 ranksep=0.3 newrank=true
  subgraph cluster_0 {
    label="web3" style=rounded color="gray50"
    1 [label="fence" shape=octagon color="red" fontcolor="red"]
  }
  subgraph cluster_1 {
    label="web1" style=rounded color="gray50"
    4 [label="stop site" style=bold color="orange3"]
    8 [label="migrate_to vm" style=bold color="turquoise4"]
  }
  subgraph cluster_2 {
    label="web2" style=rounded color="gray50"
    5 [label="start vip" style=bold color="green4"]
    7 [label="start site" style=bold color="green4"]
    9 [label="migrate_from vm" style=bold color="turquoise4"]
  }
  1 -> 4
  1 -> 5
  4 -> 7
  5 -> 7
  1 -> 8
  8 -> 9
}
"""
ROUNDS = """round  web1             web2               web3
1      [probe vip]      [probe vip]        [fence]
2      [stop site]      [start vip]
       [migrate_to vm]
3                       [monitor vip]
                        [migrate_from vm]
4                       [start site]
"""
RUN = """transition 1
target vip n1 started
begin 1 probe vip n1
begin 2 probe vip n2
end 1 7
end 2 7
begin 3 start vip n1
lost n1
aborted 1
transition 2
target vip n2 started
begin 1 fence n1
end 1 0
begin 2 start vip n2
quorum no
timeout 2
aborted 2
"""
ROUNDS_OF_RUN = """           n1           n2
Transition 1
           [probe vip]  [probe vip]
           vip: ok      vip: ok
           [start vip]
           lost
aborted
Transition 2
           [fence]
           fence: ok
                        [start vip]
quorum no
                        vip: too long
aborted
"""


def cold_start(resources, nodes):
    """A plan that probes everything, then starts and watches one after the other."""
    lines, number, last = [], 0, None
    for resource in range(resources):
        for node in range(nodes):
            number += 1
            lines.append(f"action {number} probe r{resource} n{node}")
    for resource in range(resources):
        probes = " ".join(str(1 + resource * nodes + node) for node in range(nodes))
        number += 2
        lines.append(f"action {number - 1} start r{resource} n{resource % nodes} after {probes}" + (f" {last}" if last else ""))
        lines.append(f"action {number} monitor r{resource} n{resource % nodes} 10000 after {number - 1}")
        last = number - 1
    return "\n".join(lines) + "\n"


def size_of(drawing):
    """The width and height of a drawing in points."""
    done = subprocess.run(["dot", "-Tsvg"], input=drawing.encode(), stdout=subprocess.PIPE, stderr=subprocess.PIPE)
    expect("dot -Tsvg of a brief drawing", done.returncode == 0 and not done.stderr, done.stderr.decode())
    found = re.search(rb'width="(\d+)pt" height="(\d+)pt"', done.stdout)
    return tuple(map(int, found.groups())) if found else (0, 0)


def try_brief():
    output = tool("dot", "--brief", data=GRAPH.encode())
    expect("dot --brief", output == (0, BRIEF, ""), output[1] + output[2])
    expect("dot --brief --all", "  1 -> 7\n" in tool("dot", "--brief", "--all", data=GRAPH.encode())[1])
    if shutil.which("dot"):
        lines = cold_start(12, 3)
        width, height = size_of(tool("dot", "--brief", data=lines.encode())[1])
        expect("a cold start in brief fits a page", lines.count("\n") == 60 and 0 < width < 800 and 0 < height < 1200, f"{width} x {height}")


def try_taken_out():
    """An arrow from what isn't there isn't drawn, so that there is no box without words; and a name is quoted."""
    some = "".join(line for line in GRAPH.splitlines(True) if " probe " not in line)
    output = tool("dot", data=some.encode())[1]
    boxes = set(re.findall(r"^  (\d+) \[", output, re.M))
    expect("dot of some lines", set(re.findall(r"\d+", " ".join(re.findall(r"^  \d+ -> \d+$", output, re.M)))) <= boxes and "1 -> 5" in output, output)
    backwards = "".join(GRAPH.splitlines(True)[::-1])
    expect("dot of lines in another order", tool("dot", data=backwards.encode())[1].count("->") >= 8)
    for words in ([], ["--brief"]):
        output = tool("dot", *words, data=b'action 1 start "a\\"b" "n 1"\n')[1]
        expect("dot of a name with quotes", r'start \"a\\\"b\"' in output and r'\"n 1\"' in output, output)


def try_timeline():
    output = tool("summary", "--timeline", data=GRAPH.encode())
    expect("summary --timeline of a plan", output == (0, ROUNDS, ""), output[1] + output[2])
    output = tool("summary", "--timeline", data=RUN.encode())
    expect("summary --timeline of a run", output == (0, ROUNDS_OF_RUN, ""), output[1] + output[2])
    expect("summary --timeline of nothing", tool("summary", "--timeline")[0] == 0)
    shown = kept("..", "docs", "TOOLS.md").partition("tools/summary --timeline\n")[2].partition("\n- ")[0] + "\n"
    graph = kept("answers", "group-moves").partition("== graph\n")[2].partition("== ")[0]
    output = tool("summary", "--timeline", data=graph.encode())[1]
    expect("summary --timeline in docs/TOOLS.md", textwrap.dedent(shown) == output, output)


def try_all(_folder):
    try_brief()
    try_taken_out()
    try_timeline()
