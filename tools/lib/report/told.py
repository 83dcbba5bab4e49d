"""Notes and refusals, each with the line of the input and the word that it is about marked, and the text at the end."""
import re

from explain.asking import Program
from explain.hints import hints
from explain.notes import notes
from explain.refusals import LONGEST_EXPLAINED, MOST_LISTED, every_finding
from explain.tables import causes
from explain.texts import Text
from show.program import path

from .markup import code, count, joined, tag, text

SECRET = re.compile(r"""(?i)((?:^|[\s"'])[\w-]*(?:passw|secret|token|community|private_key)[\w-]*=)("(?:[^"\\]|\\.)*"|'[^']*'|[^\s]*)""")
HIDDEN = "\u2022\u2022\u2022\u2022\u2022\u2022"
WIDTH = 400


class Hiding:
    """Hides the values of passwords, unless they are to be shown, and counts them."""

    def __init__(self, secrets):
        self.secrets, self.hidden = secrets, 0

    def __call__(self, line):
        if self.secrets:
            return line
        shown, hidden = SECRET.subn(lambda match: match[1] + HIDDEN, line)
        self.hidden += hidden
        return shown


def line_of(text_, word, hide):
    """The line of a word with the word marked."""
    line = text_.lines[word.first].rstrip(b"\r")
    end = word.end if word.last == word.first else len(line)
    before, faulty, after = (part.decode("utf-8", "replace") for part in (line[:word.start], line[word.start:end], line[end:]))
    return joined([hide(before)[-WIDTH:], tag("mark", hide(faulty)[:WIDTH] or " "), hide(after)[:WIDTH]])


def source(number, line):
    return tag("pre", tag("span", f"{number + 1:5}  ", class_="at"), line)


def of_notes(data, hide):
    configuration = re.split(rb"(?m)^[ \t]*%(?:status|results)", data)[0]
    if len(configuration) > LONGEST_EXPLAINED:
        return
    text_ = Text(configuration)
    for word, said in notes(text_):
        yield tag("li", tag("p", ticks(hide(said))), source(word.first, line_of(text_, word, hide)))


def ticks(said):
    """A sentence in which what stands between backquotes is code."""
    parts = re.split(r"`([^`]*)`", said)
    return joined([code(part) if at % 2 else text(part) for at, part in enumerate(parts)])


def of_finding(finding, written, hide):
    cause = causes()[finding.cause]
    line = finding.word.first if finding.word else finding.line
    found = hints(finding.text, finding.statement, finding.word, finding.cause) if finding.statement else []
    remedies = found if found and found[0].startswith("Not carried out") else [cause.remedy] + found
    shown = line_of(written, finding.word, hide) if finding.word else text(hide(written.lines[line].decode("utf-8", "replace"))[:WIDTH])
    others = [*finding.loop, *([finding.earlier] if finding.earlier else [])]
    more = [tag("p", "These make the loop:" if finding.loop else "The earlier one:"),
            *[source(one.first, text(hide(written.lines[one.first].decode("utf-8", "replace"))[:WIDTH])) for one in others]] if others else []
    return tag("li", tag("p", tag("strong", f"Line {line + 1}: {finding.cause}. "), ticks(cause.meaning)), source(line, shown), *more,
               tag("p", ticks(hide(" ".join(remedies)))))


def of_refusals(data, hide):
    """All refusals of an input, or of a very long one the first alone, without its word."""
    program = Program(path())
    refusal = program.refusal(data)
    if len(data) > LONGEST_EXPLAINED:
        cause = causes()[refusal[1]]
        return [tag("li", tag("p", tag("strong", f"Line {refusal[0] + 1}: {refusal[1]}. "), ticks(f"{cause.meaning} {cause.remedy}")))]
    text_ = Text(data)
    found = sorted(every_finding(program, text_, refusal)[:MOST_LISTED], key=lambda one: one.line)
    return [of_finding(one, text_, hide) for one in found]


def section(found, said):
    """The section of notes; `said` are those of `tools/collect`."""
    told = [tag("li", tag("p", one)) for one in said]
    parts = [tag("ul", *told)] if told else []
    if found:
        parts.append(tag("ul", *found, class_="notes"))
    return joined(parts) or tag("p", "There is nothing to note.")


def canonical(lines, hide):
    """The configuration as `check` writes it, with a number and an anchor for each line."""
    before = hide.hidden
    rows = [tag("li", hide(line), id=f"line-{number}") for number, line in enumerate(lines, 1)]
    hidden = hide.hidden - before
    said = tag("p", f"Hidden here: {count(hidden, 'value')} of passwords and the like.", class_="hint") if hidden else None
    return joined([said, tag("ol", *rows, class_="text")])
