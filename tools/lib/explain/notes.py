"""Notes on an accepted text: settings that Pacemaker acts on and this program keeps without effect, and near misses of
known words."""
import functools
import re

from .hints import SECTIONS, WITH_SECTIONS, near
from .tables import agents, known, rows

SETTINGS = {"property": "property", "rsc_defaults": "meta", "op_defaults": "op"}


def notes(text):
    """Pairs of a word and what there is to say of it, in the order of the text."""
    kept = list(rows("kept.tsv"))
    for statement in text.configuration:
        if statement.kind == "primitive":
            yield from near_agent(statement)
        for word, place in settings(statement):
            said = kept_note(statement, word, place, kept) or near_note(word, place)
            if said:
                yield word, said


def settings(statement):
    """The pairs of a statement and the names of its operations, each with its place, as `meta`."""
    if statement.kind in SETTINGS:
        yield from ((word, SETTINGS[statement.kind]) for word in statement.words[1:] if word.key)
    if statement.kind not in WITH_SECTIONS:
        return
    place, before = "", ""
    for word in statement.words[2:]:
        if before == "op":
            yield word, "operation"
        elif word.text in SECTIONS:
            place = word.text
        elif word.key and place:
            yield word, place
        before = word.text


def kept_note(statement, word, place, kept):
    for where, key, harmless, effect in kept:
        here = where == place or where == "group" == statement.kind and place == "meta"
        if here and key == word.key and not (harmless and re.fullmatch(harmless, word.value, re.IGNORECASE)):
            return f"`{word.text}` is kept without effect here; {effect}"
    return None


def near_note(word, place):
    """Of params and utilization any key may be right, so nothing is said of them."""
    name = word.key or word.text
    names = known(place) if place not in ("params", "utilization", "operations") else []
    meant = near(name, names)
    return f"`{name}` is kept without effect; is `{meant}` meant?" if meant else None


@functools.lru_cache(maxsize=None)
def usual_agents(family):
    """The names of the usual agents of a class and provider."""
    return tuple(agent.rpartition(":")[2] for agent in agents() if agent.rpartition(":")[0] == family)


def near_agent(statement):
    """A note on an agent whose name is near a usual one of its class."""
    word = statement.words[2]
    written, _, name = word.text.rpartition(":")
    meant = near(name, usual_agents(written or "ocf:heartbeat"))
    if meant:
        full = f"{written}:{meant}" if written else meant
        yield word, f"`{word.text}` is none of the usual agents; is `{full}` meant?"
