"""POSIX extended regular expressions, as the C library reads those of `rsc-pattern`. All ways to match are followed at
once, so that no pattern takes more time than its length and that of the name. `Wrong` says that the C library refuses
the pattern too, `Unsaid` that it may take it."""
from .brackets import CLASSES, Unsaid, Wrong, bracket

MOST_STATES, MOST_DEPTH, MOST_REPEATS = 5000, 50, 32767
BEGIN, END = "^", "$"
WORD = CLASSES["alnum"] | {"_"}
ESCAPED = {"w": (WORD, False), "W": (WORD, True), "s": (CLASSES["space"], False), "S": (CLASSES["space"], True)}
UNSAID_ESCAPES = "123456789bB<>`'"


class Parser:
    """Reads a pattern into a tree: ("set", members, inverted), ("at", BEGIN or END), ("all", parts), ("any", parts) or
    ("repeat", part, least, most or None)."""

    def __init__(self, text):
        self.text, self.at, self.depth = text, 0, 0

    @property
    def next(self):
        return self.text[self.at:self.at + 1]

    def tree(self):
        branches = [self.branch()]
        while self.next == "|":
            self.at += 1
            branches.append(self.branch())
        return ("any", branches)

    def branch(self):
        parts = []
        while self.next and self.next != "|" and not (self.next == ")" and self.depth):
            parts.append(self.piece())
        return ("all", parts)

    def piece(self):
        letter = self.next
        if letter in "*+?{":
            raise Wrong("nothing stands before a repetition")
        if letter in (BEGIN, END):
            self.at += 1
            return ("at", letter)
        part = self.atom(letter)
        for _ in range(MOST_DEPTH):
            if not self.next or self.next not in "*+?{":
                return part
            part = self.repeated(part)
        raise Unsaid(f"a part of it is repeated more than {MOST_DEPTH} times over")

    def atom(self, letter):
        self.at += 1
        if letter == "(":
            return self.inner()
        if letter == "[":
            members, inverted, self.at = bracket(self.text, self.at)
            return ("set", members, inverted)
        if letter == ".":
            return ("set", frozenset(), True)
        if letter == "\\":
            return self.escaped()
        return ("set", frozenset(letter), False)

    def inner(self):
        self.depth += 1
        if self.depth > MOST_DEPTH:
            raise Unsaid(f"it is nested more than {MOST_DEPTH} deep")
        tree = self.tree()
        if self.next != ")":
            raise Wrong("a parenthesis isn't closed")
        self.at, self.depth = self.at + 1, self.depth - 1
        return tree

    def escaped(self):
        letter = self.next
        if not letter:
            raise Wrong("it ends with a backslash")
        if letter in UNSAID_ESCAPES:
            raise Unsaid(f"`\\{letter}` isn't carried out")
        self.at += 1
        return ("set", *ESCAPED.get(letter, (frozenset(letter), False)))

    def repeated(self, part):
        letter = self.next
        self.at += 1
        if letter != "{":
            return ("repeat", part, int(letter == "+"), 1 if letter == "?" else None)
        least = self.number()
        if least is None and self.next != ",":
            raise Wrong("a number is missing in `{}`")
        most = least
        if self.next == ",":
            self.at += 1
            most = self.number()
        if self.next != "}" or most is not None and (least or 0) > most:
            raise Wrong("the numbers in `{}` are none")
        self.at += 1
        if max(least or 0, most or 0) > MOST_REPEATS:
            raise Wrong("a number in `{}` is too great")
        return ("repeat", part, least or 0, most)

    def number(self):
        begin = self.at
        while self.next and self.next in "0123456789":
            self.at += 1
        return int(self.text[begin:self.at][-9:]) if self.at > begin else None


class Pattern:
    """An automaton: each state has steps, which are a test and the state behind it; a step without a test takes no
    letter."""

    def __init__(self, text):
        self.steps, self.known = [], {}
        self.last = self.state()
        self.first = self.built(Parser(text).tree(), self.last)

    def state(self, *steps):
        if len(self.steps) >= MOST_STATES:
            raise Unsaid("it is too large")
        self.steps.append(list(steps))
        return len(self.steps) - 1

    def built(self, tree, then):
        """The state from which the tree is matched and `then` reached."""
        kind = tree[0]
        if kind == "set":
            return self.state((tree[1:], then))
        if kind == "at":
            return self.state((tree[1], then))
        if kind == "all":
            for part in reversed(tree[1]):
                then = self.built(part, then)
            return then
        if kind == "any":
            return self.state(*((None, self.built(part, then)) for part in tree[1]))
        return self.repeating(*tree[1:], then)

    def repeating(self, part, least, most, then):
        if most is None:
            around = self.state((None, then))
            self.steps[around].append((None, self.built(part, around)))
            then = around
        for _ in range((most or least) - least):
            then = self.state((None, then), (None, self.built(part, then)))
        for _ in range(least):
            then = self.built(part, then)
        return then

    def reached(self, states, ends):
        """The states that are reached without a letter, at an end of the name or between its letters."""
        found, open_states = set(states), list(states)
        while open_states:
            for test, then in self.steps[open_states.pop()]:
                if (test is None or isinstance(test, str) and test in ends) and then not in found:
                    found.add(then)
                    open_states.append(then)
        return frozenset(found)

    def behind(self, states, letter):
        return frozenset(then for state in states for test, then in self.steps[state]
                         if isinstance(test, tuple) and (letter in test[0]) != test[1])

    def step(self, states, letter, ends):
        key = states, letter, ends
        if key not in self.known:
            reached = self.reached(states | {self.first}, ends)
            self.known[key] = self.last in reached, self.behind(reached, letter) if letter else frozenset()
        return self.known[key]

    def is_in(self, name):
        """Whether some part of the name matches."""
        states = frozenset()
        for at in range(len(name) + 1):
            ends = (BEGIN if at == 0 else "") + (END if at == len(name) else "")
            found, states = self.step(states, name[at:at + 1], ends)
            if found:
                return True
        return False
