"""The input of a question: it is read whole, and what there is to say of it is said as of any other word."""
import os
import stat
import sys

from explain.asking import Program, Told
from explain.differences import differences
from explain.inputs import all_online, cut, from_cib, is_cib
from explain.notes import notes
from explain.refusals import LONGEST_EXPLAINED, explain
from explain.report import say_note, tell
from explain.texts import Text
from show.program import Refused, answer, path

NO_ACCESS = "it can't be read"


class Source:
    """An input by its FILE, or standard input; a CIB becomes a text."""

    def __init__(self, file, options):
        self.name = file or "standard input"
        if file is None and os.isatty(0) and not options.q:
            tell("reads from the terminal; Ctrl-D on a line of its own ends the input")
        self.data, self.cib = read(file), None
        if is_cib(self.data):
            self.cib = cut(self.data)[0]
            self.data = from_cib(self.data, file, options.q)
            self.name += ", collected"
        if options.online:
            self.data = all_online(self.data)
        self.quiet, self.every = options.q, getattr(options, "all", False)

    def is_accepted(self):
        """Whether `check` takes the text. Its refusal is explained, or what is to be noted of it is said."""
        try:
            answer("check", self.data)
        except Refused as refused:
            if not self.quiet:
                self.explain(refused)
            return False
        if not self.quiet and len(self.data) <= LONGEST_EXPLAINED:
            text = Text(self.data)
            for word, note in [*notes(text), *differences(text)]:
                say_note(self.name, word, note)
        return True

    def explain(self, refused):
        program = Told(str(refused).encode()) if os.environ.get("CEKPAYO_TRIAL") else Program(path())
        refusal = program.refusal(self.data)
        if refusal:
            explain(program, self.data, self.name, refusal, False)


def read(file):
    if file is not None:
        with open(file, "rb") as opened:
            return opened.read()
    if sys.stdin is None:
        raise OSError("standard input is closed")
    if stat.S_ISDIR(os.fstat(0).st_mode):
        raise OSError("standard input can't be read")
    return sys.stdin.buffer.read()
