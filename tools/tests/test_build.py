"""Tries how `cekpayo` has the program built: when it does, what it says, the lock between two calls, and how a build is
ended."""
import os
import re
import shutil
import signal
import time

from copied import INPUT, Copy
from expecting import PROGRAM, expect


# A stand-in's library of a crate: the name of the crate, or of a crate that stands on others the libraries of these.
LIBRARIES = "[ $1 = lib ] && mkdir -p out/rlib && { [ \"${PWD##*/}\" = sim_core ] && cat ../{lemmas,listed}/out/rlib/stamp || echo \"${PWD##*/}\"; } > out/rlib/stamp"


def try_build(folder):
    """The script builds when it must, and only then."""
    copy = Copy(folder, "build")
    for words in ([], ["chek"], ["explain"], ["--help"], ["plan", "--tme"], ["what-if"], ["why", "a", "--tme"]):
        expect(f"{words} builds nothing", copy.run(*words)[0] == (0 if words[:1] in (["explain"], ["--help"]) else 2))
    for words in (["check", "/nonexistent"], ["plan", "/nonexistent"], ["world", "7", "/nonexistent"], ["what-if", "--config", "/nonexistent"]):
        expect(f"{words} builds nothing", copy.run(*words)[:2] == (3, ""))
    expect("what never builds", copy.asked() == [], str(copy.asked()))
    expect("a failed build", copy.run("check")[:2] == (126, ""))
    before = len(copy.asked())
    copy.put_rt(f"{LIBRARIES} || cp {PROGRAM} out/sim_cli")
    expect("--build", copy.run("--build")[:2] == (0, ""))
    for crate, built in (("lemmas", "lemmas\n"), ("listed", "listed\n"), ("sim_core", "lemmas\nlisted\n")):
        expect(f"the library of {crate}", copy.read("crates", crate, "out", "rlib", "stamp") == built)
    expect("the lanes are gone", not os.path.exists(os.path.join(copy.top, "crates", "sim_cli", "out", "lanes")))
    proved = [re.sub(r"--jobs [1-4] ", "", call) for call in copy.asked()[before:]]
    expect("what builds", sorted(proved[:2]) == ["lib in lemmas", "lib in listed"] and proved[2:] == ["lib in sim_core", "run -- --version in sim_cli"], str(proved))
    copy.put_rt("exit 1")
    expect("a built program", copy.run("check", data=b"node n1\n")[:2] == (0, "node n1\n# nodes 1 leaves 0 rules 0\n"))
    expect("a built program isn't built again", len(copy.asked()) == before + len(proved), str(copy.asked()))


def try_no_rt(folder):
    """Without the kit and without a program, the script says what is missing."""
    copy = Copy(folder, "no-rt")
    os.remove(os.path.join(copy.commands, "rt"))
    if shutil.which("rt", path=copy.environment["PATH"]):
        return
    for words, told in ((["check"], "the program is not built, and the command rt of the Rattle kit that builds it is not on the PATH"),
                        (["--try", "check"], "a trial compiles the program, and the command rt")):
        status, output, said = copy.run(*words)
        expect(f"no rt: {words}", (status, output) == (127, "") and told in said and "tools/release" in said, said)


BUILDS = f'[ "$1" = lib ] && sleep 2.5; [ "$1" = lib ] || {{ mkdir -p out; cp {PROGRAM} out/sim_cli; }}'


def try_lock(folder):
    """Two calls at once: one builds, says what it takes and how far it is, and both answer."""
    copy = Copy(folder, "lock", build=BUILDS)
    both = [copy.begin("check"), copy.begin("check")]
    for process in both:
        process.stdin.write(INPUT)
        process.stdin.close()
    said = [process.stderr.read().decode() for process in both]
    expect("two calls at once", [process.wait() for process in both] == [0, 0] and len(copy.asked()) == 4, str(said) + str(copy.asked()))
    builds, waits = sorted(said, key=len, reverse=True)
    for told in ("4.8 GB of memory", "13 GB of disk", "processor minutes", "`./cekpayo --try WORD FILE`", " of 4"):
        expect(f"a build says {told}", told in builds, builds)
    expect("a build in a log", re.search(r"^cekpayo: 0 minutes, 0 of \d+ crates$", builds, re.M), builds)
    expect("who waits", "another call is building the program" in waits, waits)


def runs(number):
    """Whether a process still runs; one that has ended may not have been waited for."""
    try:
        with open(f"/proc/{number}/stat", encoding="utf-8") as file:
            return file.read().rpartition(")")[2].split()[0] != "Z"
    except OSError:
        return False


def try_end(folder):
    """What ends the script ends the build, or the trial, that it began."""
    for name, words, told in (("a build", ["check"], "the build was ended"), ("a trial", ["--try", "plan"], "a trial of")):
        for ending in (signal.SIGTERM, signal.SIGINT):
            try_end_of(folder, f"{name} by {ending.name}", words, told, ending)


def try_end_of(folder, name, words, told, ending):
    path = os.path.join(folder, name, "pid")
    stays = f'echo $$ > "{path}"; exec sleep 60'
    copy = Copy(folder, name, build=stays, tries=stays)
    process = copy.begin(*words)
    process.stdin.write(INPUT)
    process.stdin.close()
    for _ in range(100):
        if os.path.exists(path) and os.path.getsize(path):
            break
        time.sleep(0.1)
    process.send_signal(ending)
    said = process.stderr.read().decode()
    with open(path, encoding="utf-8") as file:
        number = file.read().strip()
    expect(f"the status of {name}", process.wait() == 128 + ending, str(process.returncode))
    for _ in range(100):  # a signal that was sent takes its time where others work too
        if not runs(number):
            break
        time.sleep(0.1)
    expect(f"the end of {name}", not runs(number), said)
    expect(f"what is said of the end of {name}", told in said and "Traceback" not in said, said)


def try_all(folder):
    try_build(folder)
    try_no_rt(folder)
    try_lock(folder)
    try_end(folder)
