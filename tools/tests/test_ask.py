"""Tries the questions `plan`, `what-if` and `losses`, CIBs as inputs, `--online`, `--json`, and the notes on what
differs from Pacemaker."""
import bz2
import json
import os
import subprocess

from expecting import ENVIRONMENT, TOP, WRAPPER, expect, kept, own

from ask.edits import edited

HEAD = """node n1
node n2
primitive a Dummy op monitor interval=10s timeout=30s op start timeout=60s op stop timeout=100s meta resource-stickiness=1
primitive wide-name-of-an-instance Dummy meta resource-stickiness=1
location l a 5: n1
colocation w inf: wide-name-of-an-instance a
"""
STATE = """%status
now 10
quorum yes
node n1 online
node n2 online
op n1 a start 0 0 5
op n2 a monitor 0 7 4
op n1 a monitor 10000 0 6
op n1 wide-name-of-an-instance start 0 0 5
op n2 wide-name-of-an-instance monitor 0 7 4
"""
INPUT = HEAD + STATE
MOVED = ("-   * Stay       a                        ( n1 )\n+   * Move       a                        ( n1 -> n2 )\n"
         "-   * Stay       wide-name-of-an-instance ( n1 )\n+   * Move       wide-name-of-an-instance ( n1 -> n2 )\n")

# Changes, a part of what is written of them, and the status with --fail-on-loss and --fail-on-change.
CHANGES = [
    ("--standby n1", MOVED, 9, 9),
    ("--standby n2", "    * nothing is done otherwise\n    * Stay       a, wide-name-of-an-instance\n", 9, 0),
    ("--lost n1", MOVED + "+   * Fence      n1\n", 9, 9),
    ("--fail a@n1=1", "+   * Restart    a ", 0, 9),
    ("--fail a@n1=7", "+   * Start      a ", 0, 9),
    ("--move a n2", MOVED, 0, 9),
    ("--ban a n1", MOVED, 9, 9),
    ("--ban a n1 --clear a", "nothing is done otherwise", 0, 0),
    ("--stop a", "+   * Stop       a                        ( n1 ) its target-role\n", 9, 9),
    ("--start a", "nothing is done otherwise", 0, 0),
    ("--maintenance", "+   * Leave      a                        ( n1 ) it isn't managed\n", 9, 9),
    ("--ban a n1 --standby n2", "+   * Stop       a                        ( n1 ) no node could be chosen\n", 9, 9),
    ("--standby n2 --online n2", "nothing is done otherwise", 0, 0),
    ("--lost n2 --online n2", "+   * Probe      2 times ", 0, 9),
]
NO_CHANGES = [("--standby n3", "there is no node `n3`"), ("--stop b", "there is no resource `b`"), ("--lost n3", "there is no node `n3`"),
              ("--fail wide-name-of-an-instance@n1=1", "has no recurring monitor"), ("", "which change?")]

# The locations that a text has of `crm resource`, a change, and those that it then has.
PREFER, BAN = "location cli-prefer-a a inf: {}\n", "location cli-ban-a-on-{0} a -inf: {0}\n"
MOVES = [
    ("", ("move", "a", "n2"), PREFER.format("n2")),
    (PREFER.format("n1"), ("move", "a", "n2"), PREFER.format("n2")),
    (BAN.format("n2"), ("move", "a", "n2"), PREFER.format("n2")),
    (BAN.format("n1"), ("move", "a", "n2"), BAN.format("n1") + PREFER.format("n2")),
    (PREFER.format("n1"), ("ban", "a", "n1"), PREFER.format("n1") + BAN.format("n1")),
    (PREFER.format("n1") + BAN.format("n1") + BAN.format("n2"), ("clear", "a"), ""),
    (PREFER.format("n1").replace("-a", "-ab"), ("clear", "a"), PREFER.format("n1").replace("-a", "-ab")),
]

# What an accepted text has, and what is noted of it beside an answer.
CLONE = "node n1\nnode n2\nprimitive a Dummy\nprimitive b Dummy meta resource-stickiness=1\n"
NOTED = [
    (CLONE + "clone k a\norder o k b\n", "when a copy of `k` starts or stops anywhere, `b` is restarted here", "Orders after a clone"),
    (CLONE + "ms k a\norder o Mandatory: k:promote b:start\n", "when a copy of `k` starts", "Orders after a clone"),
    (CLONE + "ms k a\ncolocation c 5: b k:Promoted\n", "`b` has no say here in which copy of `k` is promoted", "A group after a promoted role"),
    (CLONE + "order o a b symmetrical=false\n", "while `a` has no place, `b` has none here", "Orders that aren't symmetrical"),
    (CLONE + "primitive m Dummy meta allow-migrate=true\norder o a m\n", "`primitive m`: it migrates live only", "Live migration"),
    (CLONE, "`primitive a`: it has no stickiness", "Equal nodes"),
]
QUIET = [CLONE + "rsc_defaults resource-stickiness=1\nclone k a\norder o Optional: k b\n",
         CLONE + "rsc_defaults resource-stickiness=1\nclone k a\nclone j b meta interleave=true\norder o k j\n",
         CLONE + "rsc_defaults resource-stickiness=1\nms k a\ncolocation c 5: k:Promoted b\norder o 0: a b symmetrical=false\n"]


def run(*words, data=INPUT):
    data = data if isinstance(data, bytes) else data.encode()
    done = subprocess.run([WRAPPER, *words], input=data, env=ENVIRONMENT, stdout=subprocess.PIPE, stderr=subprocess.PIPE)
    return done.returncode, done.stdout.decode(), done.stderr.decode()


def try_plan():
    expect("plan where nothing is done", run("plan") == (0, "Nothing has to be done now.\n  * Stay       a, wide-name-of-an-instance\n", ""), run("plan")[1])
    every = "Nothing has to be done now.\n  * Stay       a                        ( n1 )\n  * Stay       wide-name-of-an-instance ( n1 )\n"
    expect("plan --all", run("plan", "--all")[1] == every, run("plan", "--all")[1])
    banned = INPUT.replace("location l a 5: n1", "location l a -inf: n1")
    status, output, said = run("plan", "--time", data=banned)
    expect("plan --time", status == 0 and "It takes at most 160 s, by" in output and "\n     160 s     (+60)  start a n2\n" in output, output)
    found = json.loads(run("--json", "plan", "--time", data=banned)[1])
    expect("plan --json", found["entries"][0] == {"what": "Move", "name": "a", "nodes": ["n1", "n2"]} and found["milliseconds"] == 160000, str(found))
    expect("plan of what is refused", run("plan", data="nod n1\n")[:2] == (5, ""))
    expect("plan of no file", run("plan", "/nonexistent")[:2] == (3, ""))
    expect("plan with a wrong option", run("plan", "--tme")[0] == 2)


def try_changes():
    for words, part, on_loss, on_change in CHANGES:
        status, output, said = run("what-if", *words.split())
        expect(f"what-if {words}", status == 0 and part in output and output.startswith(f"What is done now (-), and with {words} (+):\n"), output + said)
        expect(f"what-if {words} --fail-on-loss", run("-q", "what-if", "--fail-on-loss", *words.split())[0] == on_loss)
        expect(f"what-if {words} --fail-on-change", run("-q", "what-if", "--fail-on-change", *words.split())[0] == on_change)
    for words, part in NO_CHANGES:
        status, output, said = run("what-if", *words.split())
        expect(f"what-if {words}", (status, output) == (2, "") and part in said, said)
    found = json.loads(run("what-if", "--standby", "n1", "--json")[1])
    expect("what-if --json", found["then"][0]["nodes"] == ["n1", "n2"] and found["losses"][0]["survives"] is False, str(found))
    expect("what-if of what is refused", run("what-if", "--maintenance", data="nod n1\n")[:2] == (5, ""))
    expect("what-if without a status", "it has no `%status`" in run("what-if", "--lost", "n1", data=HEAD)[2])
    expect("--online what-if", "( n2 )" in run("--online", "what-if", "--lost", "n1", data=HEAD)[1])


def try_moves():
    """What moves and bans leave of earlier ones is what `crm_resource` leaves."""
    for own, change, then in MOVES:
        text = edited((HEAD + own + STATE).encode(), [change]).decode()
        found = "".join(line + "\n" for line in text.splitlines() if "cli-" in line)
        expect(f"{change} after {own}", found == then and text.count("location l a 5: n1") == 1, text)


def try_config(folder):
    """A changed configuration, and what is taken out in it."""
    path = os.path.join(folder, "without.crm")
    with open(path, "w", encoding="utf-8") as file:
        file.write("".join(line for line in HEAD.splitlines(True) if "wide-name" not in line))
    output = run("what-if", "--config", path)[1]
    expect("what is taken out", "+   * Removed    wide-name-of-an-instance ( n1 ) Pacemaker stops it; here nothing is done with it\n" in output, output)
    status, output, _ = run("what-if", "--config", path, "--standby", "n1", "--fail-on-change")
    expect("a configuration and a change", status == 9 and "Move       a " in output, output)


def try_losses():
    status, output, _ = run("losses")
    moves = "After the loss of n1:\n  * Move       a                        ( n1 -> n2 )\n  * Move       wide-name-of-an-instance ( n1 -> n2 )\n"
    expect("losses", (status, output) == (0, moves + "After the loss of n2:\n  * Stay       a, wide-name-of-an-instance\n"), output)
    banned = INPUT.replace("location l a 5: n1", "location l a -inf: n2")
    status, output, _ = run("losses", "--fail-on-loss", data=banned)
    expect("losses --fail-on-loss", status == 9 and "No place   a                        ( n1 ) no node could be chosen\n" in output, output)
    expect("losses --json", json.loads(run("losses", "--json")[1])["losses"][0]["entries"][0]["what"] == "Move")


def try_cibs(folder):
    """A CIB gives every word what the text that is kept of it gives, from a file, packed, and from a pipe."""
    text, path = kept("cibs", "two-nodes.crm").encode(), os.path.join(TOP, ".ci", "cibs", "two-nodes.xml")
    packed = os.path.join(folder, "cib.xml.bz2")
    with open(path, "rb") as file, open(packed, "wb") as other:
        cib = file.read()
        other.write(bz2.compress(cib))
    for word in ("check", "scores", "graph", "survive"):
        for words, data in (([word, path], b""), ([word, packed], b""), ([word], cib)):
            status, output, said = run(*words, data=data)
            expect(f"{words} of a CIB", (status, output) == (0, own(text, word)[1].decode()) and "collect: passwords are" in said, output + said)
    expect("replay of a CIB", run("-q", "replay", path) == (0, own(text, "replay")[1].decode(), ""))
    expect("plan of a CIB", run("-q", "plan", path) == (0, "Nothing has to be done now.\n  * Stay       site-address, site-server, fence\n", ""))
    expect("a CIB that can't be read", run("check", data=b"<cib>")[:2] == (3, ""))


def try_runs_of_cibs(folder):
    """Words that take one FILE take a CIB too, with the results or the run that stand behind it."""
    text, path = kept("cibs", "two-nodes.crm"), os.path.join(TOP, ".ci", "cibs", "two-nodes.xml")
    with open(path, "rb") as file:
        cib = file.read()
    for words, data in (([path], b""), ([], cib)):
        status, output, said = run("world", "7", *words, data=data)
        expect(f"world 7 of a CIB {words}", (status, output) == (0, own(text.encode(), "world", "7")[1].decode()) and "collect: passwords are" in said, said)
        status, output, said = run("audit", *words, data=data)
        lines = own(text.encode(), "audit")
        expect(f"audit of a CIB {words}", (status, output) == (lines[0], lines[1].decode()) and "collect: passwords are" in said, output + said)
    lost = b"%results\nlost web1\n"
    written = own(text.encode() + lost, "replay")[1]
    both = os.path.join(folder, "lost.xml")
    for data in (cib, bz2.compress(cib)):
        with open(both, "wb") as file:
            file.write(data + lost)
        expect("results behind a CIB", run("-q", "replay", both)[:2] == (0, written.decode()), run("replay", both)[2])
        run_of_it = data + b"%trace\n" + own(text.encode(), "replay")[1]
        expect("a run behind a CIB", run("-q", "audit", data=run_of_it) == (0, "lawful\n", ""), str(run("audit", data=run_of_it)))
    expect("a plan of a CIB with results", run("-q", "plan", both) == run("-q", "plan", path))
    expect("a CIB that can't be read", [run(word, *number, data=b"<cib>")[:2] for word, *number in (["audit"], ["world", "7"])] == [(3, "")] * 2)


def try_measured(folder):
    """The times that a CIB's history has."""
    path = os.path.join(folder, "measured.xml")
    with open(os.path.join(TOP, ".ci", "cibs", "lost-node.xml"), encoding="utf-8") as file:
        cib = file.read()
    with open(path, "w", encoding="utf-8") as file:
        file.write(cib.replace('operation="start"', 'exec-time="250" operation="start"'))
    output = run("-q", "plan", "--time", path)[1]
    part = ("It takes at most 100 s, by the timeouts on the longest way:\n      60 s     (+60)  fence web1\n      80 s     (+20)  start site-address web2\n"
            "     100 s     (+20)  start site-server web2\nBy the times that these actions took last it takes some 60.5 s:\n"
            "      60 s     (+60)  fence web1, by its timeout\n   60.25 s   (+0.25)  start site-address web2\n    60.5 s   (+0.25)  start site-server web2\n")
    expect("measured times", output.endswith(part), output)
    expect("measured times as JSON", json.loads(run("-q", "plan", "--time", "--json", path)[1])["measured"] == 60500)
    expect("no measured times", "took last" not in run("-q", "plan", "--time", os.path.join(TOP, ".ci", "cibs", "lost-node.xml"))[1])


def try_online():
    status, output, said = run("--online", "scores", data=HEAD)
    expect("--online", status == 0 and "target a n1 started" in output and "%status" not in said, output + said)
    expect("--online with a status", run("--online", "scores")[1] == run("scores")[1])
    status, output, said = run("scores", data=HEAD)
    expect("no status", "none a NoQuorum" in output and "no `%status` follows, so no node is online and there is no quorum" in said, said)
    expect("check without a status", run("check", data=HEAD)[2] == "")


def try_notes():
    for text, note, section in NOTED:
        said = run("scores", data=text + STATE.partition("op")[0])[2]
        lines = [line for line in said.splitlines() if note in line]
        expect(f"noted of {text}", len(lines) == 1 and f'docs/PACEMAKER.md, "{section}")' in lines[0], said)
        expect(f"check of {text}", run("check", data=text)[2] == "")
    for text in QUIET:
        expect(f"nothing is noted of {text}", run("scores", data=text + STATE.partition("op")[0])[2] == "")
    with open(os.path.join(TOP, "docs", "PACEMAKER.md"), encoding="utf-8") as page:
        titles = page.read()
    for _, _, section in NOTED:
        expect(f"the section {section}", f"### {section}\n" in titles)
    many = CLONE + "clone k a\n" + "".join(f"primitive p{n} Dummy\norder o{n} k p{n}\n" for n in range(30)) + STATE.partition("op")[0]
    said = run("scores", data=many)[2]
    expect("notes on many", said.count("\n") == 4 and "the same holds for `order o3`, `order o4`" in said and "and 22 more" in said, said)


def try_json():
    status, output, said = run("--json", "scores", data=CLONE + "clone k a\norder o k b\n")
    found = [json.loads(line) for line in said.splitlines()]
    expect("notes as JSON", status == 0 and [one["kind"] for one in found] == ["note", "note"] and found[1]["line"] == 6, said)
    status, output, said = run("--json", "--all", "check", data="node n1\nlocation l a 5 n1\nprimitive a Dummy\nnod n2\n")
    found = [json.loads(line) for line in said.splitlines()]
    expect("refusals as JSON", status == 5 and [(one["line"], one["cause"]) for one in found] == [(2, "BadScore"), (4, "UnknownStatement")], said)
    expect("a refusal's remedies", found[0]["column"] == 14 and found[0]["remedies"][-1] == "A colon is missing: `5:`.", said)


def try_all(folder):
    try_plan()
    try_changes()
    try_moves()
    try_config(folder)
    try_losses()
    try_cibs(folder)
    try_runs_of_cibs(folder)
    try_measured(folder)
    try_online()
    try_notes()
    try_json()
