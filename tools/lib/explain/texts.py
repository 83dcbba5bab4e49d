"""The statements of an input and the words of each, with the places where they stand."""
import itertools
import re

CONFIGURATION, STATUS, RESULTS = "configuration", "%status", "%results"
PLAIN_WORD, PLAIN_FIELD = re.compile(rb"[^ \t]+"), re.compile(r"[^ \t]+")
MAY_BEGIN_SECTION = (b"%", b"\\", b'"', b"'")
FIRST_BYTE = re.compile(rb"[ \t]*\r?$|[ \t]*(.)", re.DOTALL)


class Word:
    """A word without its quotes; it begins at `start` of the line `first` and ends before `end` of the line `last`."""

    def __init__(self, text, first, start, last, end):
        self.text, self.first, self.start, self.last, self.end = text, first, start, last, end

    @property
    def name(self):
        """The word without what follows its first colon, as the resource in `RESOURCE:ROLE`."""
        return self.text.split(":")[0]

    @property
    def key(self):
        """The key of a pair, or nothing."""
        return self.text.split("=")[0] if "=" in self.text else ""

    @property
    def value(self):
        return self.text.partition("=")[2]


class Statement:
    """One logical line: `first` and `last` are the numbers of its lines from 0. Its words are read when they are asked
    for."""

    __slots__ = ("first", "last", "section", "_lines", "_read")

    def __init__(self, lines, first, last, section):
        self.first, self.last, self.section = first, last, section
        self._lines, self._read = lines, None

    def _all(self):
        if self._read is None:
            self._read = read_words(self._lines, self.first, self.last)
        return self._read

    @property
    def words(self):
        return self._all()[0]

    @property
    def open_quote(self):
        """The place of a quote that is never closed, if there is one."""
        return self._all()[1]

    def release(self):
        """Keeps its words alone, and no longer the text that they are part of."""
        self._all()
        self._lines = None

    def fields(self):
        """The texts of the words; they aren't kept, since a status has very many."""
        if self._read is None and is_plain(self._lines, self.first, self.last):
            return PLAIN_FIELD.findall(content(self._lines[self.first]).decode("utf-8", "replace"))
        return [word.text for word in self.words]

    @property
    def kind(self):
        if self._read is None and is_plain(self._lines, self.first, self.last):
            return PLAIN_WORD.search(content(self._lines[self.first]))[0].decode("utf-8", "replace")
        return self.words[0].text if self.words else ""

    @property
    def id(self):
        """The word that holds the name of a node or the id of a resource or rule, where there is one."""
        if self.kind == "node" and self.section == CONFIGURATION:
            names = [word for word in self.words[1:3] if not word.text.endswith(":")]
            return names[0] if names else None
        return self.words[1] if len(self.words) > 1 and self.section == CONFIGURATION else None


class Text:
    """A text. Its statements are read when they are asked for, since a status has very many, and most questions are
    about others."""

    def __init__(self, data):
        self.lines = data.split(b"\n")
        self._statements = self._configuration = self._heads = None

    @classmethod
    def of(cls, lines):
        """The text of these lines, which it shares."""
        text = cls(b"")
        text.lines = lines
        return text

    def each(self):
        """All statements, one after another; they aren't kept, unless they were before."""
        return statements(self.lines) if self._statements is None else iter(self._statements)

    @property
    def statements(self):
        if self._statements is None:
            self._statements = list(self.each())
        return self._statements

    @property
    def configuration(self):
        """The statements of the configuration."""
        if self._configuration is None:
            found = self.each() if self._statements is None else self._statements
            self._configuration = list(itertools.takewhile(lambda one: one.section == CONFIGURATION, found))
        return self._configuration

    @property
    def heads(self):
        """The lines of `%status` and `%results`, where they are."""
        if self._heads is None:
            self._heads, section = {}, CONFIGURATION
            for one in self.each():
                if one.section != section:
                    section = one.section
                    self._heads[section] = one.first
        return self._heads

    def statement_at(self, line):
        """The statement that the line is part of."""
        found = next((one for one in self.each() if one.last >= line), None)
        return found if found and found.first <= line else None

    def lines_without(self, dropped):
        """The lines, those of some statements left empty, so that the others keep their numbers."""
        lines = list(self.lines)
        for statement in dropped:
            for line in range(statement.first, statement.last + 1):
                lines[line] = b""
        return lines

    def without(self, dropped):
        return b"\n".join(self.lines_without(dropped))

    def cut_behind(self, statement, word):
        """The text in which the statement ends with the word."""
        lines = list(self.lines)
        lines[word.last] = lines[word.last][:word.end]
        for line in range(word.last + 1, statement.last + 1):
            lines[line] = b""
        return b"\n".join(lines)

    def lines_with_word(self, word, text):
        """The lines with another word in the place of one that stands on one line."""
        lines = list(self.lines)
        line = lines[word.first]
        lines[word.first] = line[:word.start] + text.encode() + line[word.end:]
        return lines

    def with_word(self, word, text):
        return b"\n".join(self.lines_with_word(word, text))

    def defined(self, kinds):
        """The ids that statements of these kinds define, with their statements; of equal ones the first."""
        found = {}
        for statement in self.configuration:
            if statement.kind in kinds and statement.id:
                found.setdefault(statement.id.text, statement)
        return found


def content(line):
    return line[:-1] if line.endswith(b"\r") else line


def statements(lines):
    number, section, count = 0, CONFIGURATION, len(lines)
    while number < count:
        first = number
        begin = FIRST_BYTE.match(lines[first])
        if begin[1] and begin[1] != b"#":
            while ends_in_backslash(lines[number]) and number + 1 < count:
                number += 1
            one = Statement(lines, first, number, section)
            if begin[1] != b"\\" or one.words or one.open_quote:
                if begin[1] in MAY_BEGIN_SECTION and one.kind in (STATUS, RESULTS):
                    one.section = section = one.kind
                yield one
        number += 1


def ends_in_backslash(line):
    return line.endswith((b"\\", b"\\\r"))


def is_plain(lines, first, last):
    """Whether the words are what stands between blanks, and all on one line."""
    line = lines[first]
    return first == last and b'"' not in line and b"'" not in line and not ends_in_backslash(line)


def joined(lines, first, last):
    """The bytes of a logical line with their places; the backslash at a line's end counts as a blank."""
    for line in range(first, last + 1):
        bytes_of_line = content(lines[line])
        goes_on = bytes_of_line.endswith(b"\\")
        for column, byte in enumerate(bytes_of_line[:-1] if goes_on else bytes_of_line):
            yield line, column, byte
        if goes_on:
            yield line, len(bytes_of_line) - 1, 0x20


def plain_words(lines, first, last):
    """The words of a logical line without quotes."""
    for number in range(first, last + 1):
        line = content(lines[number])
        line = line[:-1] if line.endswith(b"\\") else line
        for found in PLAIN_WORD.finditer(line):
            yield Word(found[0].decode("utf-8", "replace"), number, found.start(), number, found.end())


def read_words(lines, first, last):
    """The words of a logical line, and the place of a quote that is never closed, if there is one."""
    if not any(b'"' in line or b"'" in line for line in lines[first:last + 1]):
        return list(plain_words(lines, first, last)), None
    places = list(joined(lines, first, last))
    words, at = [], 0
    while at < len(places):
        if places[at][2] in b" \t":
            at += 1
            continue
        begin, text, at, open_quote = at, *read_word(places, at)
        if open_quote is not None:
            return words, places[open_quote][:2]
        words.append(Word(text, *places[begin][:2], places[at - 1][0], places[at - 1][1] + 1))
    return words, None


def read_word(places, at):
    """A word that begins at a place: its text, where it ends, and the place of a quote that is never closed."""
    text, quote, opened = bytearray(), None, None
    while at < len(places):
        byte = places[at][2]
        following = places[at + 1][2] if at + 1 < len(places) else None
        if quote is None and byte in b" \t":
            break
        if quote is None and byte in b"\"'":
            quote, opened = byte, at
        elif byte == quote:
            quote, opened = None, None
        elif quote == 0x22 and byte == 0x5C and following in (0x22, 0x5C):
            text.append(following)
            at += 1
        else:
            text.append(byte)
        at += 1
    return text.decode("utf-8", "replace"), at, opened
