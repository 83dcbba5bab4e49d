"""Tries how long the script takes beside the program, and how much memory: at most ten times the processor time of the
runs of the program that an answer needs, and 100 MB of its own."""
import os
import subprocess
import sys
import time

from expecting import ENVIRONMENT, PROGRAM, TOP, WRAPPER, expect

# What is asked, and the words of the program that its answer needs; those of `what-if` for now and for then.
QUESTIONS = {
    "check": ["check"],
    "scores": ["scores"],
    "why": ["why"],
    "why p1": ["check", "why"],
    "plan": ["check", "graph", "scores"],
    "losses": ["check", "graph", "scores", "survive"],
    "what-if --standby n1": ["check"] + 2 * ["graph", "scores", "survive"],
}
MOST_TIMES, MOST_MEMORY = 10, 100
START = 0.5  # of Python and of its modules, in seconds
FAULTS = 100  # each of them is found by asking the program again


def large_case(nodes, resources, state="warm"):
    made = subprocess.run([sys.executable, os.path.join(TOP, "bench", "large-case"), str(nodes), str(resources), state],
                          stdout=subprocess.PIPE, check=True)
    return made.stdout


def peak(number):
    """The most memory of a process so far, in MB, or nothing once it has ended."""
    try:
        with open(f"/proc/{number}/status", encoding="utf-8") as file:
            return max((int(line.split()[1]) / 1024 for line in file if line.startswith("VmHWM:")), default=0)
    except OSError:
        return 0


def cost(command, path):
    """The processor seconds of a command on a file, with those of all that it starts, and its own most memory."""
    most = 0
    with open(path, "rb") as file:
        process = subprocess.Popen(command, stdin=file, stdout=subprocess.DEVNULL, stderr=subprocess.DEVNULL, env=ENVIRONMENT)
        while True:
            most = max(most, peak(process.pid))
            number, status, used = os.wait4(process.pid, os.WNOHANG)
            if number:
                process.returncode = os.WEXITSTATUS(status)
                return used.ru_utime + used.ru_stime, most
            time.sleep(0.02)


def costs(path):
    """Each question, the seconds of the program and of the script, and the memory of the script."""
    alone = {word: cost([PROGRAM, word], path)[0] for word in ("check", "graph", "scores", "survive", "why")}
    for question, words in QUESTIONS.items():
        yield question, sum(alone[word] for word in words), *cost([WRAPPER, *question.split()], path)


def with_faults(text):
    """The text with lines among its own that are refused, each at another place."""
    lines = text.split(b"%status")[0].splitlines(True)
    step = max(1, len(lines) // FAULTS)
    for number in range(FAULTS):
        lines.insert(number * (step + 1), b"location wrong%d p%d high: n0\n" % (number, number))
    return b"".join(lines) + b"%status" + text.split(b"%status")[1]


def try_questions(folder):
    path = os.path.join(folder, "large.crm")
    text = large_case(60, 400)
    with open(path, "wb") as file:
        file.write(text)
    for question, program, script, memory in costs(path):
        said = f"program {program:.2f} s, script {script:.2f} s, {memory:.0f} MB"
        expect(f"the time of {question}", script <= MOST_TIMES * program + START, said)
        expect(f"the memory of {question}", memory <= MOST_MEMORY, said)
    with open(path, "wb") as file:
        file.write(with_faults(text))
    program = cost([PROGRAM, "check"], path)[0]
    script, memory = cost([WRAPPER, "--all", "check"], path)
    said = f"program {program:.2f} s, script {script:.2f} s, {memory:.0f} MB"
    expect(f"the time of {FAULTS} faults", script <= MOST_TIMES * FAULTS * max(program, 0.01), said)
    expect(f"the memory of {FAULTS} faults", memory <= MOST_MEMORY, said)


def try_all(folder):
    try_questions(folder)
