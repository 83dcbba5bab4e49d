"""Asks the sources as they stand, which the kit's `rt try` compiles without their proofs. One compilation answers many
questions."""
import os
import re
import signal
import subprocess
import sys
import tempfile

from .report import tell
from .tables import FOLDER

CRATE = os.path.join(os.path.dirname(FOLDER), "crates", "sim_cli")
NAMED = "a trial of the sources as they stand, compiled anew, which takes some two minutes: no proof covers its answer"
ENDED = re.compile(r"^case=(\S+) run=ended status=(\d+) ", re.M)
LIMITS = "a trial has 60 seconds and 1 MiB of output"
CUT = 124


class Trial:
    """The answers to questions, each the words and the input: for each its status and output, or None where a limit cut
    it."""

    def __init__(self, questions):
        self.questions = list(dict.fromkeys(questions))
        tell(NAMED)
        with tempfile.TemporaryDirectory() as folder:
            for number, (words, data) in enumerate(self.questions):
                write(folder, f"q{number}", data)
                write(folder, f"q{number}.args", "".join(f"{word}\n" for word in words).encode())
            self.read(*cases(folder))

    def read(self, output, said):
        self.said = said.decode("utf-8", "replace")
        status = {name: int(number) for name, number in ENDED.findall(self.said + output.decode("utf-8", "replace"))}
        outputs = dict(re.findall(rb"^== (q\d+)\n(.*?)(?=^== q\d+\n|\Z)", output, re.M | re.S))
        self.answers = {}
        for number, question in enumerate(self.questions):
            name = f"q{number}"
            found = outputs.get(name.encode(), b"")
            self.answers[question] = (status[name], found) if name in status else None

    def answer(self, words, data):
        """The status and the output of one question; a limit that cut it is said."""
        found = self.answers[words, data]
        if found is None:
            self.say_cut(" ".join(words))
        return found or (CUT, b"")

    def say_cut(self, words):
        lines = [line for line in self.said.splitlines() if not line.startswith("cases=")]
        if re.search(r"^case=", self.said, re.M):
            own = [line.split(" ", 1)[1] for line in lines if line.startswith("case=") and "run=ended" not in line]
            tell(f"the trial of `{words}` was cut off: {LIMITS} ({'; '.join(own[:1])}); the built program has no such limits")
        else:
            tell(f"the sources could not be tried: {lines[-1] if lines else 'rt said nothing'}")


def cases(folder):
    """What `rt` writes and says of the cases in a folder. A signal that ends this process ends the trial."""
    for number in (signal.SIGTERM, signal.SIGHUP):
        if signal.getsignal(number) == signal.SIG_DFL:
            signal.signal(number, lambda number, _: sys.exit(128 + number))
    trial = subprocess.Popen(["rt", "try", "--cases", folder], cwd=CRATE, stdin=subprocess.DEVNULL, stdout=subprocess.PIPE, stderr=subprocess.PIPE)
    try:
        return trial.communicate()
    except BaseException:
        trial.terminate()
        trial.wait()
        raise


def write(folder, name, data):
    with open(os.path.join(folder, name), "wb") as file:
        file.write(data)
