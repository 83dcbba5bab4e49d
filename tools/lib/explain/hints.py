"""What to do about one refusal, beyond the sentence that its cause has: a near name, the values of a key, what to write
instead."""
import difflib
import functools
import re

from .faulty import RESOURCES, named
from .tables import known, plain, rows
from .texts import CONFIGURATION, RESULTS, STATUS

SECTIONS = ("params", "meta", "utilization", "operations", "op", "attributes")
SCORE = re.compile(r"(?i)[-+]?(\d+|inf|infinity)$")
WITH_SECTIONS = ("node", "primitive", "group", "clone", "ms", "master")
WITH_SCORE = ("location", "colocation", "collocation", "order")


def near(word, names):
    """The name that the word was probably meant to be, or nothing."""
    return None if word in names else nearest(word, tuple(names))


@functools.lru_cache(maxsize=4096)
def nearest(word, names):
    """The same; what is asked again and again is worked out once."""
    lower = {name.lower(): name for name in names}
    found = difflib.get_close_matches(word.lower(), lower, 1, 0.75)
    return lower[found[0]] if found else None


def hints(text, statement, word, cause):
    """Sentences about the faulty word, the most telling first."""
    if word is None or not word.text:
        return []
    found = [of(text, statement, word, cause) for of in (instead, missing_colon, of_clone, near_name, missing_section, values, exit_code)]
    return [hint for hint in found if hint]


def instead(_text, statement, word, cause):
    before = statement.words[statement.words.index(word) - 1].text if word is not statement.words[0] else ""
    for kinds, pattern, form, of_cause, remedy in rows("refused.tsv"):
        if cause == of_cause and (kinds == "*" or statement.kind in kinds.split()) \
                and re.search(pattern, before + " " + word.text):
            what = f"`{word.text}`" if kinds == "*" else plain(form)
            how = remedy if remedy.startswith("nothing") else f"instead, {plain(remedy)}"
            return f"Not carried out: {what}; {how}."
    return None


def missing_colon(_text, statement, word, cause):
    if statement.section != CONFIGURATION or statement.kind not in WITH_SCORE or cause not in ("BadScore", "UnknownName"):
        return None
    if SCORE.match(word.text) or statement.kind == "order" and word.text in known("kind"):
        return f"A colon is missing: `{word.text}:`."
    return None


def of_clone(text, statement, word, cause):
    """Lines of the status and the results name primitives, where a group or a clone was named."""
    if cause != "UnknownName" or statement.section == CONFIGURATION:
        return None
    kind = text.defined(RESOURCES).get(word.text)
    if kind is None or kind.kind == "primitive":
        return None
    inside = ", ".join(f"`{name}`" for name in primitives_of(text, kind))
    return f"`{word.text}` is a {kind.kind}; this line names a primitive in it: {inside}."


def primitives_of(text, statement):
    """The primitives in a group or a clone, in the order of the text."""
    if statement.kind == "primitive":
        return [statement.id.text]
    inside = [text.defined(RESOURCES).get(word.text) for word, _ in named(statement)]
    return [name for one in inside if one and one.first != statement.first for name in primitives_of(text, one)]


def near_name(text, statement, word, cause):
    found = near(word.key or word.name, candidates(text, statement, word, cause)) if not word.key else None
    return f"Is `{found}` meant?" if found else None


def candidates(text, statement, word, cause):
    """The names that may stand in the place of the faulty word."""
    if cause == "UnknownName":
        for own, kinds in named(statement):
            if own is word:
                return list(text.defined(kinds))
    if cause == "UnknownStatement":
        return known("statement") if statement.section == CONFIGURATION else known(statement.section)
    if cause == "BadScore":
        return ["role", "resource-discovery", "inf", "rule"]
    if cause == "BadValue" and statement.section in (STATUS, RESULTS):
        return ["online", "offline", "unclean", "start", "stop", "promote", "demote", "monitor", "timeout", "yes", "no"]
    if cause in ("ExtraWord", "BadValue"):
        return known("section") + known("kind") + known("action") + known("test")
    return []


def missing_section(_text, statement, word, cause):
    """A pair that stands where no section has begun yet."""
    if cause not in ("BadValue", "ExtraWord") or not is_before_sections(statement, word):
        return None
    usual = "attributes" if statement.kind == "node" else "meta" if word.key in known("meta") else "params"
    return f"A section word is missing before it: `{usual} {word.text}`."


def is_before_sections(statement, word):
    before = [own.text for own in statement.words[:statement.words.index(word)]]
    return bool(statement.section == CONFIGURATION and statement.kind in WITH_SECTIONS and word.key and not set(before) & set(SECTIONS))


def values(_text, statement, word, cause):
    """The values that a key takes here, and the near one."""
    if cause not in ("BadValue", "Unsupported") or not word.key or statement.kind == "op_defaults" or is_before_sections(statement, word):
        return None
    key, scope = word.key.lstrip("$"), operation_of(statement, word) or statement.kind
    taken = known(f"={scope}.{key}") or known(f"={key}")
    if not taken or word.value.lower() in [value.lower() for value in taken]:
        return None
    found = near(word.value, taken)
    meant = f" Is `{found}` meant?" if found else ""
    return f"Here `{word.key}` takes {', '.join(f'`{value}`' for value in taken)}.{meant}"


def operation_of(statement, word):
    """The name of the operation that a pair of a primitive belongs to, or nothing."""
    place = ""
    for before, own in zip(statement.words, statement.words[1:]):
        if own is word:
            return place
        if before.text in SECTIONS:
            place = own.text if before.text == "op" else ""
    return ""


def exit_code(_text, statement, word, cause):
    codes = {"end": 2, "report": 4, "op": 5}
    at = codes.get(statement.kind)
    if cause == "BadValue" and statement.section != CONFIGURATION and at and statement.words[at:at + 1] == [word]:
        return "An exit code is a number from 0 to 255."
    return None
