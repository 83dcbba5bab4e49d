"""Tries `why`: the word of the program, and what the script tells of one resource by it."""
import json
import os
import pty
import subprocess

from expecting import ENVIRONMENT, WRAPPER, expect, own, tool

HEAD = """node n1
node n2 attributes \\
  standby=off
primitive a Dummy op monitor interval=10s meta resource-stickiness=3
primitive b Dummy
group g a b
primitive c Dummy
ms k c
location l g 5: n1
colocation bk 20: c:Promoted b
property stonith-enabled=false
"""
STATE = """%status
now 1772366400
quorum yes
node n1 online
node n2 online
op n1 a start 0 0 1772366300
promotion n2 c 7
"""
INPUT = HEAD + STATE
TOLD = """g is a group, line 6. In it: a, b.

a goes to n1.
  n1: chosen, with 8.
    location l, line 9: 5
    resource-stickiness, line 4: 3 (it runs there)
  n2: not chosen, with 0: n1 has more, 8.

b goes to n1.
  n1: chosen, with 0.
  n2: not chosen, with 0: group g, line 6: a isn't there.
"""
PROMOTED = """k is an ms, line 8. In it: c.

c goes to n1 and n2, promoted on n1.
Where it runs:
  n1 and n2: chosen, with 0.
Where it is promoted:
  n1: chosen, with 19.
    promotion score: -1 (none is told)
    colocation bk, line 10: 20 (b is there)
  n2: not chosen, with 7: n1 has more, 19.
    promotion score, line 18: 7
"""

# What is changed in the input, whose account is asked for, and a part of what is told.
NODES = [
    (("standby=off", "standby=on"), "a", "  n2: not chosen, with 0: in standby, line 3.\n"),
    (("node n2 online", "node n2 offline"), "a", "  n2: not chosen, with 0: offline, line 16.\n"),
    (("node n2 online\n", ""), "a", "  n2: not chosen, with 0: the status doesn't tell of it.\n"),
    (("quorum yes", "quorum no"), "b", "  n1 and n2: not chosen, with 0: there is no quorum, line 14.\n"),
    (("quorum yes", "quorum no"), "b", "b has no place: there is no quorum.\n"),
    (("property", "property stop-all-resources=true"), "b", "  n1 and n2: not chosen, with 0: stop-all-resources=true, line 11.\n"),
    (("property", "property maintenance-mode=true"), "a", "a is left as it is on n1: it isn't managed (maintenance-mode=true, line 11).\n"),
    (("stickiness=3", "stickiness=3 target-role=Stopped"), "a", "a has no place: target-role=Stopped, line 4.\n"),
    (("ms k c", "ms k c meta target-role=Slave"), "c", "  n1: not chosen, with 19: target-role=Slave, line 8.\n"),
    (("property", "property symmetric-cluster=false"), "a", "    symmetric-cluster=false, line 11: -INFINITY (no location takes a there)\n"),
    (("location l g 5: n1", "location l g rule $id=x 5: #uname eq n1"), "a", "    location l, line 9: 5 (#uname eq n1)\n"),
    (("location l g 5: n1", "location l b -inf: n1"), "a", "    lent by b, location l, line 9: -INFINITY\n"),
    (("location l g 5: n1", "location l b -inf: n1"), "a", "  What b counts, counts here too: it must be where a is (group g, line 6).\n"),
    (("property", "primitive d Dummy\ncolocation ad -inf: d a\nproperty"), "d", "  n1: not chosen, with 0: colocation ad, line 12: a is there.\n"),
    (("property", "primitive d Dummy\norder o k:promote d:start\nlocation e k role=Master -inf: n1\nlocation f k role=Master -inf: n2\nproperty"), "d",
     "  n2: chosen, with 0, but held back by order o, line 12: k isn't promoted.\n"),
    (("property", "primitive d Dummy\norder o k:promote d:start\nlocation e k role=Master -inf: n1\nlocation f k role=Master -inf: n2\nproperty"), "d",
     "d has no place: held back by order o, line 12: k isn't promoted.\n"),
]

# The meta attributes of `a`, what the status adds, and what is told of the failures.
FAILED = "op n1 a monitor 10000 7 17723663{}\n"
FAILURES = [
    ("", "op n1 a start 0 1 1772366390\n", ["a failed on n1 once, by a start with code 1, 10 s ago (line 19).", "A failed start bans it there (start-failure-is-fatal).",
                                           "Only a cleanup makes that forgotten: it has no failure-timeout."]),
    ("migration-threshold=2", FAILED.format(80) + FAILED.format(90), ["a failed on n1 twice, at last by a monitor with code 7, 10 s ago (line 20).",
                                                                      "It is banned there, by migration-threshold=2, line 4."]),
    ("migration-threshold=3", FAILED.format(80) + FAILED.format(90), ["It isn't banned there, by migration-threshold=3, line 4."]),
    ("", FAILED.format(90), ["No number of failures bans it there: it has no migration-threshold."]),
    ("failure-timeout=1min", FAILED.format(90), ["That is forgotten in 50 s (2026-03-01 12:00:50 UTC), by failure-timeout=1min, line 4."]),
    ("failure-timeout=10s", FAILED.format(90), ["That is forgotten in 0 s (2026-03-01 12:00:00 UTC), by failure-timeout=10s, line 4."]),
    ("failure-timeout=9s", FAILED.format(90), ["That is forgotten, by failure-timeout=9s, line 4."]),
    ("", "op n1 a monitor 10000 timeout 1772366390\n", ["a failed on n1 once, by a monitor that timed out, 10 s ago (line 19)."]),
    ("", "op n2 a monitor 0 5 1772366390\n", ["a failed on n2 once, by a probe with code 5, 10 s ago (line 19).", "Code 5 bans it there."]),
    ("", "op n2 a monitor 0 6 1772366390\n", ["Code 6 bans it from every node."]),
    ("", "op n1 a stop 0 1 1772366390\n", ["The on-fail=block of an operation that failed leaves it alone from then on."]),
]
NO_FAILURES = [FAILED.format(90) + "cleanup n1 a\nop n1 a start 0 0 1772366395\n", "op n2 a monitor 0 7 1772366390\n", "op n1 a monitor 10000 190 1772366390\n"]


def run(*words, data=INPUT, folder=None):
    done = subprocess.run([WRAPPER, *words], input=data.encode(), env=ENVIRONMENT, cwd=folder, stdout=subprocess.PIPE, stderr=subprocess.PIPE)
    return done.returncode, done.stdout.decode(), done.stderr.decode()


def try_nodes():
    status, output, said = run("-q", "why", "g")
    expect("why of a group", (status, output, said) == (0, TOLD, ""), output + said)
    expect("why of a clone", run("-q", "why", "k")[1] == PROMOTED, run("-q", "why", "k")[1])
    for (old, new), name, part in NODES:
        output = run("-q", "why", name, data=INPUT.replace(old, new, 1))[1]
        expect(f"why {name} with {new}", part in output, output)
    many = INPUT.replace("node n1\n", "node n1\n" + "".join(f"node m{at}\n" for at in range(9)), 1)
    expect("equal nodes", "  m0, m1, m2, m3, m4 and 4 more: not chosen, with 0: the status" in run("-q", "why", "b", data=many)[1])
    expect("equal nodes, all of them", ", m7 and m8: not chosen, with 0: the status" in run("-q", "why", "b", "--all", data=many)[1])


def try_failures():
    for meta, lines, told in FAILURES:
        output = run("-q", "why", "a", data=INPUT.replace("stickiness=3", f"stickiness=3 {meta}") + lines)[1]
        found = [line.strip() for line in output.partition("\nFailures:\n")[2].splitlines()]
        expect(f"failures with {meta} and {lines}", all(line in found for line in told), output)
    for lines in NO_FAILURES:
        expect(f"no failures with {lines}", "Failures:" not in run("-q", "why", "a", data=INPUT + lines)[1])
    ignored = INPUT.replace("interval=10s", "interval=10s on-fail=ignore") + FAILED.format(90)
    expect("a failure that is ignored", "Failures:" not in run("-q", "why", "a", data=ignored)[1])
    output = run("-q", "why", "a", data=INPUT + "op n1 b start 0 1 1772366390\n")[1]
    expect("a failure of what lends", "\n    lent by b, failures: -INFINITY (they ban b there)\n" in output and "\n  b failed on n1 once" in output, output)


# What stands in the place of `location l g 5: n1` or of another part, and what is told of leaving it out.
LEFT_OUT = [
    ("location l g 5: n1", "location l g -inf: n1", "without `location l g -inf: n1`: on n1"),
    ("location l g 5: n1", "location l g rule -inf: #uname eq n1", "without `location l g rule -inf: #uname eq n1`: on n1"),
    ("node n1 online", "node n1 offline", "if n1 were online: on n1"),
    ("quorum yes", "quorum no", "with quorum: on n1"),
    ("node n1\n", "node n1 attributes standby=on\n", "if n1 weren't in standby: on n1"),
    ("stickiness=3", "stickiness=3 target-role=Stopped", "without `target-role=Stopped` of a: on n1"),
    ("promotion n2", "op n1 a start 0 1 1772366390\npromotion n2", "without the failure of a on n1: on n1"),
]


def try_changes():
    """What would change the place is told behind the account."""
    for old, new, line in LEFT_OUT:
        data = INPUT.replace(old, new, 1)
        status, output, _ = run("-q", "why", "a", "--change", data=data)
        told, _, change = output.partition("\nWhat would change that, each left out alone:\n")
        expect(f"why --change: {new}", status == 0 and told == run("-q", "why", "a", data=data)[1] and f"  {line}\n" in change, output)
    data = INPUT.replace("location l g 5: n1\n", "")
    expect("nothing would change it", "no rule, state or failure changes that" in run("why", "a", "--change", data=data)[1])


def try_json():
    found = json.loads(run("-q", "--json", "why", "g", "--change")[1])
    a, b = found["primitives"]
    expect("why --json", [found["kind"], found["resource"], a["targets"], b["resource"]] == ["why", "g", [{"node": "n1", "role": "started"}], "b"], str(found))
    n1, n2 = a["decisions"][0]["nodes"]
    expect("why --json: parts", n1["parts"][0] == {"score": 5, "origin": "location", "rule": "l", "line": 9} and n1["chosen"] is True, str(n1))
    expect("why --json: a reason", n2 == {"node": "n2", "score": 0, "chosen": False, "reason": "less", "other": "n1", "parts": []}, str(n2))
    expect("why --json: what it needs", b["decisions"][0]["nodes"][1]["line"] == 6, str(b))
    expect("why --json: what changes it", found["now"] == "a on n1; b on n1" and isinstance(found["changed"], list), str(found))
    failed = json.loads(run("-q", "why", "--json", "a", data=INPUT.replace("stickiness=3", "stickiness=3 failure-timeout=1min") + FAILED.format(90))[1])["failures"]
    expect("why --json: failures", [(one["count"], one["counts"], one["until"], one["last"]["line"]) for one in failed] == [(1, True, 1772366450, 19)], str(failed))


def try_words(folder):
    """A resource or a file may come first; without a resource the lines are the program's own."""
    with open(os.path.join(folder, "input.crm"), "w", encoding="utf-8") as file:
        file.write(INPUT)
    os.mkdir(os.path.join(folder, "g"))
    lines = own(INPUT.encode(), "why")[1].decode()
    expect("the lines of the word", lines.startswith("place ") and "\nchosen a n1\n" in lines)
    path = os.path.join(folder, "input.crm")
    for words in (["why"], ["why", path], ["why", "--", "input.crm"], ["why", "input.crm"], ["--json", "why", "input.crm", "-q"], ["--online", "why"]):
        status, output, said = run("-q", *words, folder=folder)
        expect(f"{words}", (status, output, said) == (0, lines, ""), output + said)
    expect("two files", run("-q", "why", "input.crm", path, folder=folder)[1] == 2 * lines)
    for words in (["why", "g"], ["why", "g", "input.crm"], ["why", "-q", "g", path], ["why", "g", "input.crm", "-q"], ["--online", "why", "g", path]):
        status, output, _ = run(*words, folder=folder)
        expect(f"{words}", (status, output) == (0, TOLD), output)
    status, output, said = run("-q", "why", "g", path, "/nonexistent", path)
    expect("a resource in several files", (status, output) == (3, 2 * f"{path}:\n{TOLD}"), output + said)
    expect("why of no resource", run("why", "x")[:2] == (2, "") and "no resource `x`, nor a file of this name" in run("why", "x")[2])
    expect("why with a wrong option", [run("why", "--change")[0], run("why", "g", "--chnge")[0]] == [2, 2])
    expect("why of what is refused", [run("why", *name, data="nod n1\n")[:2] for name in ([], ["g"])] == [(5, "refused 1 UnknownStatement\n"), (5, "")])


def try_filters():
    """The filters read the lines of the word."""
    lines = own((INPUT + "op n1 b start 0 1 1772366390\n").encode(), "why")[1]
    status, output, said = tool("json", data=lines)
    part = {"kind": "part", "resource": "a", "node": "n1", "score": "-INFINITY", "lender": "b", "origin": "banned"}
    expect("why as JSON", status == 0 and part in [json.loads(line) for line in output.splitlines()], output + said)
    scores = own((INPUT + "op n1 b start 0 1 1772366390\n").encode(), "scores")[1]
    expect("a summary of why", tool("summary", data=lines) == tool("summary", data=scores))
    kept = [line for line in lines.splitlines() if line.split()[0] not in (b"part", b"chosen", b"not", b"held", b"unpromoted")]
    expect("the lines of scores are among those of why", kept == scores.splitlines())


def on_terminal(**environment):
    """What is written to a terminal."""
    master, slave = pty.openpty()
    subprocess.run([WRAPPER, "-q", "why", "a"], input=INPUT.encode(), stdout=slave, env=dict(ENVIRONMENT, **environment))
    os.close(slave)
    output = b""
    try:
        while True:
            output += os.read(master, 1 << 16)
    except OSError:
        os.close(master)
        return output


def try_colours():
    expect("colours on a terminal", b"\x1b[32mchosen\x1b[0m" in on_terminal(TERM="xterm", NO_COLOR=""))
    for environment in ({"NO_COLOR": "1", "TERM": "xterm"}, {"TERM": "dumb", "NO_COLOR": ""}):
        expect(f"no colours with {environment}", b"\x1b" not in on_terminal(**environment))


def try_all(folder):
    try_nodes()
    try_failures()
    try_changes()
    try_json()
    try_words(folder)
    try_filters()
    try_colours()
