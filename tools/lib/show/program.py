"""Runs the proved program on a text, or, where CEKPAYO_TRIAL is set, tries the sources on it."""
import functools
import os
import shutil
import subprocess
import sys
import tempfile

from explain.tables import FOLDER
from explain.trials import CUT, Trial

TOP = os.path.dirname(FOLDER)
BUILT = os.path.join(TOP, "crates", "sim_cli", "out", "sim_cli")
INSTALLED = os.path.join(TOP, "sim_cli")
REFUSED, UNKNOWN_WORD, NOT_RUN = 5, 2, 127
trials = []


class Refused(Exception):
    """The program refuses a text; the message is its line, which names a line of the text."""

    @property
    def line(self):
        words = str(self).split()
        return int(words[1]) if len(words) > 1 and words[1].isdigit() else 0

    @property
    def cause(self):
        return str(self).split()[-1]


class Stopped(Exception):
    """The program, or a trial of it, didn't answer; the status is the argument."""


def is_run(path):
    return os.path.isfile(path) and os.access(path, os.X_OK)


def is_fresh():
    """Whether the built program is younger than its sources, as the script `cekpayo` sees it."""
    crates = os.path.join(TOP, "crates")
    own = [os.path.join(crates, name, part) for name in os.listdir(crates) for part in ("src", "specs", "proofs")] if os.path.isdir(crates) else []
    files = [os.path.join(folder, file) for place in own for folder, _, files in os.walk(place) for file in files]
    built = os.path.getmtime(BUILT)
    return all(os.path.getmtime(file) <= built for file in [os.path.join(TOP, "crates.txt"), *files] if os.path.exists(file))


@functools.lru_cache(maxsize=None)
def path():
    """The program: the one that CEKPAYO_PROGRAM names, an installed or the repository's own. No tool builds it."""
    named = os.environ.get("CEKPAYO_PROGRAM")
    if named:
        named = named if "/" in named else os.path.join(".", named)
        return named if is_run(named) else end(f"CEKPAYO_PROGRAM names {named}, which can't be run")
    if is_run(INSTALLED):
        return INSTALLED
    if is_run(BUILT) and is_fresh():
        return BUILT
    how = "`./cekpayo --build` builds it" if shutil.which("rt") else "the command rt of the Rattle kit that builds it is not on the PATH; tools/release makes an archive elsewhere"
    return end(f"the program is not built, or older than its sources, and {how}")


def end(message):
    print(f"cekpayo: {message}", file=sys.stderr)
    sys.exit(NOT_RUN)


def prepare(questions):
    """Has all questions, each a word and a text, answered by one trial. The program itself is asked when it is due."""
    if os.environ.get("CEKPAYO_TRIAL"):
        trials[:] = [Trial([((word,), text) for word, text in questions])]


def tried(word, text):
    if not any(((word,), text) in trial.answers for trial in trials):
        trials.append(Trial([((word,), text)]))
    trial = next(trial for trial in trials if ((word,), text) in trial.answers)
    status, output = trial.answer((word,), text)
    if status == CUT:
        raise Stopped(CUT)
    return status, output


def lines_of(word, text):
    """The lines of the program's answer, as they come."""
    last = "refused"
    if os.environ.get("CEKPAYO_TRIAL"):
        status, output = tried(word, text)
        lines = output.decode("utf-8").splitlines()
        last = lines[-1] if lines else last
        yield from lines if status != REFUSED else []
    else:
        with tempfile.TemporaryFile() as source:
            source.write(text)
            source.seek(0)
            with subprocess.Popen([path(), word], stdin=source, stdout=subprocess.PIPE, encoding="utf-8") as process:
                for line in process.stdout:
                    last = line.rstrip("\n")
                    if not last.startswith("refused "):
                        yield last
        status = process.returncode
    if status == REFUSED:
        raise Refused(last)
    if status != 0:
        raise OSError(f"the program ended with status {status}")


def answer(word, text):
    return list(lines_of(word, text))


@functools.lru_cache(maxsize=None)
def has_word(word):
    """Whether the program knows a word; an older one may not."""
    if os.environ.get("CEKPAYO_TRIAL"):
        return True
    done = subprocess.run([path(), word], stdin=subprocess.DEVNULL, stdout=subprocess.DEVNULL)
    return done.returncode != UNKNOWN_WORD
