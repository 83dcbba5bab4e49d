"""Notes on what makes an answer another one than Pacemaker's: by what an accepted text has, each with its section of
docs/PACEMAKER.md."""
from .tables import page
from .texts import STATUS

CLONES, ORDERED = ("clone", "ms", "master"), ("start", "stop", "promote", "demote")
FALSE, TRUE = ("false", "off", "no", "n", "0"), ("true", "on", "yes", "y", "1")
MOST_NAMED = 5
NO_STATUS = "no `%status` follows, so no node is online and there is no quorum; a CIB has it, and `--online` takes each node as online"


class Configuration:
    """What the notes ask of the statements of a text."""

    def __init__(self, text):
        self.statements, self.has_status = text.configuration, STATUS in text.heads
        self.above, self.by_kind = {}, {}
        for one in self.statements:
            self.by_kind.setdefault(one.kind, []).append(one)
        for one in self.of_kind("group", *CLONES):
            for word in members(one):
                self.above.setdefault(word.text, one)
        self.clones = {one.words[1].text for one in self.of_kind(*CLONES)}

    def of_kind(self, *kinds):
        """The statements of some kinds, in the order of the text."""
        return sorted((one for kind in kinds for one in self.by_kind.get(kind, ())), key=lambda one: one.first)

    def is_cloned(self, name):
        own = self.above.get(name)
        return own is not None and (own.kind in CLONES or self.is_cloned(own.words[1].text)) or name in self.clones


def members(statement):
    """The words of a group or a clone that name what is in it."""
    for word in statement.words[2:3] if statement.kind in CLONES else statement.words[2:]:
        if word.key or word.text in ("params", "meta"):
            return
        yield word


def pair_of(statement, key):
    """The pair of a key in a statement, or nothing."""
    for word in statement.words[2 if statement.kind != "rsc_defaults" else 1:]:
        if word.key == key:
            return word
    return None


def is_mandatory(order):
    kind = order.words[2].text.rstrip(":").lower() if order.words[2].text.endswith(":") else "mandatory"
    return kind not in ("optional", "serialize") and not kind.lstrip("+").strip("0") == ""


def resources_of(order):
    """The resources that an order names, without their actions."""
    words = [word for word in order.words[2:] if not word.key and not word.text.endswith(":")]
    return [word.name for word in words]


def is_symmetrical(order):
    pair = pair_of(order, "symmetrical")
    return pair is None or pair.value.lower() not in FALSE


class Note:
    """A note on a statement, with the section of the page that says more."""

    def __init__(self, statement, sentence, section):
        self.word, self.name = statement.words[0], f"`{statement.kind} {statement.words[1].text}`"
        self.sentence, self.section = sentence, section

    def said(self, others):
        more = "" if not others else f"; the same holds for {listed([note.name for note in others])}"
        return self.word, f'{self.name}: {self.sentence}{more} ({page("PACEMAKER.md")}, "{self.section}")'


def listed(names):
    """Some names, and how many more there are."""
    shown = names[:MOST_NAMED]
    return ", ".join(shown) + (f" and {len(names) - len(shown)} more" if len(names) > len(shown) else "")


def after_clones(found):
    for order in found.of_kind("order"):
        if not is_mandatory(order) or not is_symmetrical(order):
            continue
        names = resources_of(order)
        for first, then in zip(names, names[1:]):
            if found.is_cloned(first) and not found.is_cloned(then):
                yield Note(order, f"when a copy of `{first}` starts or stops anywhere, `{then}` is restarted here; Pacemaker leaves it alone",
                           "Orders after a clone")


def with_promoted(found):
    for rule in found.of_kind("colocation", "collocation"):
        names = [word for word in rule.words[2:] if not word.key and not word.text.endswith(":")]
        if len(names) == 2 and names[1].text.lower().endswith((":promoted", ":master")):
            yield Note(rule, f"`{names[0].name}` has no say here in which copy of `{names[1].name}` is promoted; in Pacemaker it has",
                       "A group after a promoted role")


def without_symmetry(found):
    for order in found.of_kind("order"):
        names = resources_of(order)
        if is_mandatory(order) and not is_symmetrical(order) and len(names) > 1:
            yield Note(order, f"while `{names[0]}` has no place, `{names[1]}` has none here; Pacemaker lets it stay where it runs",
                       "Orders that aren't symmetrical")


def migrating(found):
    ordered = {name for order in found.of_kind("order") if is_mandatory(order) for name in resources_of(order)}
    for one in found.of_kind("primitive"):
        pair = pair_of(one, "allow-migrate")
        own = found.above.get(one.words[1].text)
        named = ordered & {one.words[1].text, *([own.words[1].text] if own else [])}
        if pair and pair.value.lower() in TRUE and named:
            yield Note(one, "it migrates live only while nothing that it is ordered with does anything, and what comes after it is restarted; "
                            "Pacemaker restarts nothing", "Live migration")


def without_stickiness(found):
    """One note for all: what may move between equal nodes."""
    if len(found.of_kind("node")) < 2 or any(pair_of(one, "resource-stickiness") for one in found.of_kind("rsc_defaults")):
        return
    for one in found.of_kind("primitive"):
        own = found.above.get(one.words[1].text)
        if not found.is_cloned(one.words[1].text) and not pair_of(one, "resource-stickiness") \
                and not (own and pair_of(own, "resource-stickiness")):
            yield Note(one, "it has no stickiness, so it may move between equal nodes; Pacemaker lets it stay", "Equal nodes")


def differences(text):
    """Pairs of a word and a note. Of one kind the first few are said in full, and the others named with the last of
    them."""
    found = Configuration(text)
    if not found.has_status and found.statements:
        yield found.statements[-1].words[0], NO_STATUS
    for of_kind, most in ((after_clones, 3), (with_promoted, 3), (without_symmetry, 3), (migrating, 1), (without_stickiness, 1)):
        notes = list(of_kind(found))
        yield from (note.said(notes[most:] if note is notes[:most][-1] else []) for note in notes[:most])

