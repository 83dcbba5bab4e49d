"""Tries the script `cekpayo`: help and version, wrong words, trials, and the name of another program."""
import os
import re
import subprocess

from copied import CUT, INPUT, Copy
from expecting import ENVIRONMENT, PROGRAM, TOP, WRAPPER, expect, own, script, tool

WORDS = ("plan", "what-if", "losses", "why", "check", "scores", "graph", "survive", "replay", "audit", "world", "gen", "help", "explain")


def try_words():
    """Usage, explanations and wrong words build nothing, so they do without a program."""
    without = dict(ENVIRONMENT, CEKPAYO_PROGRAM="/nonexistent")
    for words in ([], ["chek"], ["gen"], ["check", "--al"], ["--build", "x"]):
        status, output, said = script(words, environment=without)
        expect(f"words {words}", (status, output) == (2, b"") and "Usage:" in said, said)
        expect(f"words {words}: what is wrong can be seen", said.count("\n") == 2 or not words, said)
    status, output, _ = script(["explain", "badtime"], environment=without)
    expect("explain", status == 0 and output.startswith(b"BadTime: A time belongs here"))
    expect("explain of no cause", script(["explain", "BadTmie"], environment=without)[0] == 2)
    expect("--help without a program", script(["--help"], environment=without)[:2][0] == 0)
    for program in ("/nonexistent", "/", os.path.join(TOP, "README.md")):
        expect(f"the program {program}", script(["check"], environment=dict(ENVIRONMENT, CEKPAYO_PROGRAM=program))[0] == 127)
    expect("a file that isn't there", script(["check", "/nonexistent"])[:2] == (3, b""))


def try_help(folder):
    copy = Copy(folder, "help")
    for words in (["--help"], ["-h"], ["help"]):
        status, output, said = copy.run(*words)
        expect(f"{words}", status == 0 and output.startswith("Usage: ./cekpayo") and said == "", output + said)
    for word in WORDS:
        status, output, said = copy.run("help", word)
        expect(f"help {word}", status == 0 and output.startswith(word) and output.count("\n") > 1 and "\\" not in output and said == "", output + said)
    for words in (["check", "--help"], ["check", "-h"], ["--help", "check"]):
        expect(f"{words}", copy.run(*words) == copy.run("help", "check"))
    expect("plan --help", copy.run("plan", "--help") == copy.run("help", "plan"))
    expect("help of no word", copy.run("help", "chek")[0] == 2)
    status, output, said = copy.run("--version")
    expect("--version where nothing is built", status == 0 and re.fullmatch(r"cekpayo [\d.]+\n", output) and "not built" in said, output + said)
    expect("what builds nothing", copy.asked() == [], str(copy.asked()))


def try_trial(folder):
    copy = Copy(folder, "trial")
    for word in ("check", "scores", "graph"):
        status, output, said = copy.run("--try", word)
        expect(f"--try {word}", (status, output) == (0, own(INPUT, word)[1].decode()), output + said)
        expect(f"--try {word}: what it is", said.startswith("cekpayo: a trial of ") and "no proof" in said.splitlines()[0], said)
    asked = len(copy.asked())
    status, output, said = copy.run("--try", "plan", "--all")
    expect("--try plan", status == 0 and "Start      vip              ( n1 )" in output and len(copy.asked()) == asked + 1, output + said)
    status, output, said = copy.run("--try", "check", data=b"node n1\nnod n2\n")
    expect("--try of what is refused", (status, output) == (5, "refused 2 UnknownStatement\n") and ":2:1: UnknownStatement" in said, said)
    expect("--try gen", copy.run("--try", "gen", "7")[1] == own(b"", "gen", "7")[1].decode())
    expect("a trial builds nothing", all(call.startswith("try --cases ") for call in copy.asked()), str(copy.asked()))
    cut = Copy(folder, "cut", ended=CUT)
    for word in ("graph", "plan"):
        status, _, said = cut.run("--try", word)
        expect(f"--try {word} that is cut", status == 124 and "60 seconds and 1 MiB" in said, said)


def try_usage():
    """Each script says how it is called, and one that wants words says so where it gets none."""
    for name in ("ask", "causes", "collect", "dot", "explain", "install", "json", "prove", "release", "report", "summary", "what-if"):
        status, output, said = tool(name, "--help")
        expect(f"{name} --help", status == 0 and name in output and said == "", output + said)
    for name in ("ask", "explain", "install", "prove", "what-if"):
        status, output, said = tool(name)
        expect(f"{name} without words", (status, output) == (2, "") and said and "Traceback" not in said, said)


def try_names(folder):
    own_folder = os.path.join(folder, "names")
    os.mkdir(own_folder)
    os.symlink(PROGRAM, os.path.join(own_folder, "prog"))
    for command in ("check", "plan"):
        done = subprocess.run([WRAPPER, "-q", command], cwd=own_folder, env=dict(ENVIRONMENT, CEKPAYO_PROGRAM="prog"), input=INPUT, stdout=subprocess.PIPE)
        expect(f"CEKPAYO_PROGRAM without a slash: {command}", done.returncode == 0 and done.stdout)


def try_all(folder):
    try_words()
    try_help(folder)
    try_trial(folder)
    try_usage()
    try_names(folder)
