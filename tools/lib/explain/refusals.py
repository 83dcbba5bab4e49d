"""Explains why a text is refused, or lists every refusal of it."""
from .asking import OutOfTime
from .faulty import earlier, faulty_word
from .hints import hints
from .loops import RULES, rules_of_loop
from .report import AS_JSON, forms, numbered, paragraph, place, say, say_json, show, tell
from .tables import causes
from .texts import Text

SETTINGS = ("property", "rsc_defaults", "op_defaults")
LONGEST_EXPLAINED = 1 << 20
MOST_LISTED = 100
ENDS_LIST = ("TooManyNodes", "TooManyLeaves", "TooManyRules", "TooManyResults")


class Finding:
    def __init__(self, program, text, refusal):
        self.text, (self.line, self.cause) = text, refusal
        self.statement = text.statement_at(self.line)
        self.word, self.loop, self.earlier = None, [], None
        try:
            self.look(program, refusal)
        except OutOfTime:
            pass
        self.hints = hints(text, self.statement, self.word, self.cause) if self.statement else []

    def look(self, program, refusal):
        """Finds the faulty word, and what else belongs to the refusal."""
        program.restart_clock()
        if self.statement and self.cause in RULES:
            self.loop = rules_of_loop(program, self.text, self.statement, refusal)
        self.word = faulty_word(program, self.text, self.statement, refusal)
        if self.word:
            self.earlier = earlier(self.text, self.statement, self.word, self.cause)

    def release(self):
        """Keeps what is said of it alone, and no longer the text."""
        self.text = None
        for one in (self.statement, self.earlier, *self.loop):
            if one:
                one.release()

    def say(self, name, written):
        """Says the refusal, with the lines as they are written in the text that was given."""
        cause = causes()[self.cause]
        line = self.word.first if self.word else self.line
        if forms[AS_JSON]:
            self.say_json(name, line, cause)
            return
        say(*paragraph(f"{place(name, line, self.word)}: {self.cause}: {cause.meaning}"))
        if self.cause != "LineTooLong":
            say(*show(written, self.statement, self.word, self.line))
        if self.loop:
            say("  These make the loop:", *(numbered(written.lines, rule.first) for rule in self.loop))
        if self.earlier:
            say("  The earlier one:", numbered(written.lines, self.earlier.first))
        say(*paragraph(" ".join(self.remedies(cause)), "  "))

    def remedies(self, cause):
        is_all = self.hints and self.hints[0].startswith("Not carried out")
        return self.hints if is_all else [cause.remedy] + self.hints

    def say_json(self, name, line, cause):
        say_json(kind="refusal", file=name, line=line + 1, column=self.word.start + 1 if self.word else None, cause=self.cause,
                 word=self.word.text if self.word else None, meaning=cause.meaning, remedies=self.remedies(cause),
                 loop=[rule.first + 1 for rule in self.loop], earlier=self.earlier.first + 1 if self.earlier else None)


def explain(program, data, name, refusal, every):
    """Says one refusal, or with `every` all that can be told apart. Of a very long text only the cause is said."""
    if len(data) > LONGEST_EXPLAINED:
        cause = causes()[refusal[1]]
        if forms[AS_JSON]:
            say_json(kind="refusal", file=name, line=refusal[0] + 1, cause=refusal[1], meaning=cause.meaning, remedies=[cause.remedy])
            return
        say(*paragraph(f"{place(name, refusal[0])}: {refusal[1]}: {cause.meaning}"), *paragraph(cause.remedy, "  "))
        return
    text = Text(data)
    found = every_finding(program, text, refusal) if every else [Finding(program, text, refusal)]
    for finding in sorted(found[:MOST_LISTED], key=lambda finding: finding.line):
        finding.say(name, text)
    if len(found) > MOST_LISTED:
        tell(f"{name}: there may be more than these {MOST_LISTED} refusals")


def every_finding(program, text, refusal):
    """Takes out what is refused and asks again. What only misses a statement that was taken out isn't among them."""
    found, gone = [], set()
    while refusal and len(found) <= MOST_LISTED:
        finding = Finding(program, text, refusal)
        if finding.cause != "UnknownName" or not finding.word or finding.word.name not in gone:
            found.append(finding)
        if finding.cause in ENDS_LIST or not (finding.statement or finding.word):
            break
        if finding.statement and finding.statement.id:
            gone.add(finding.statement.id.text)
        text = Text(without_refused(finding))
        finding.release()
        program.restart_clock()
        refusal = program.refusal(b"\n".join(text.lines))
    return found


def without_refused(finding):
    """The text without a refused line of no statement, a refused pair of settings, the refused statement, or a section
    whose line is refused."""
    text, statement, word = finding.text, finding.statement, finding.word
    if statement is None:
        return b"\n".join(text.lines[:finding.line] + [b""] + text.lines[finding.line + 1:])
    if word and word.key and statement.kind in SETTINGS and word.first == word.last \
            and sum(1 for other in statement.words if other.key) > 1:
        return text.with_word(word, " " * (word.end - word.start))
    if statement.words and statement.kind.startswith("%"):
        return text.without([other for other in text.statements if other.first >= statement.first])
    return text.without([statement])
