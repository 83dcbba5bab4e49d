"""What an input is: a text, or a CIB that `tools/collect` turns into one; and the status of a cluster that isn't there
yet."""
import os
import re
import subprocess
import sys

from .report import AS_JSON, forms, say, say_json
from .tables import FOLDER
from .texts import RESULTS, STATUS, Text

COMPRESSED, BLANK = b"BZh", b"\xef\xbb\xbf \t\r\n"
LOOK = 64
BEHIND = rb"%(?:results|trace)[ \t]*\r?$"
TRACE = b"%trace"


class NoInput(Exception):
    """A CIB that can't be read; what collects has said why."""


def is_cib(data):
    """No statement begins with `<`, nor a text with what a compressed CIB begins with."""
    return data[:LOOK].lstrip(BLANK)[:1] == b"<" or data.startswith(COMPRESSED)


def cut(data):
    """A CIB, and the results or the run that stand behind it."""
    found = re.search(BEHIND if data.startswith(COMPRESSED) else b"^" + BEHIND, data, re.M)
    end = found.start() if found else len(data)
    return data[:end], data[end:]


def collected(data, file=None, quiet=False):
    """The text that a CIB makes, with what stands behind it, or nothing where it can't be read; and the lines of what
    is to be said."""
    cib, behind = cut(data)
    own = file if file and not behind and os.path.isfile(file) else None
    words = [sys.executable, "-B", os.path.join(FOLDER, "collect"), *["-q"] * quiet, *(["--", own] if own else [])]
    done = subprocess.run(words, input=None if own else cib, stdout=subprocess.PIPE, stderr=subprocess.PIPE)
    return done.stdout + behind if done.returncode == 0 else None, done.stderr.decode("utf-8", "replace").splitlines()


def from_cib(data, file, quiet):
    """The text that a CIB makes, whose notes are said."""
    text, notes = collected(data, file, quiet)
    for note in notes:
        if forms[AS_JSON]:
            say_json(kind="note", file=file or "standard input", note=note.partition(": ")[2])
        else:
            say(note)
    if text is None:
        raise NoInput
    return text


def all_online(data):
    """The text with a status in which each node is online and there is quorum, unless it has a status."""
    text = Text(data)
    if STATUS in text.heads:
        return data
    trace = next((at for at, line in enumerate(text.lines) if line.strip() == TRACE), len(text.lines))
    at = text.heads.get(RESULTS, trace)
    status = [b"%status", b"quorum yes", *(b"node " + name.encode() + b" online" for name in text.defined(("node",)))]
    return b"\n".join([*text.lines[:at], *status, *text.lines[at:]])
