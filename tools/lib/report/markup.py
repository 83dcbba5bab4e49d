"""Makes markup. Whatever comes from an input goes through `text`, or through `tag`, which does the same."""
import functools
from html import escape


class Markup(str):
    """A text that is markup already."""


def visible(value):
    """The text with a name for each character that doesn't show, or that turns the direction of what follows."""
    return "".join(char if char == "\t" or char.isprintable() else f"\u27e8U+{ord(char):04X}\u27e9" for char in str(value))


@functools.lru_cache(maxsize=None)  # a page says the same words many times
def escaped(value):
    return Markup(escape(value if value.isprintable() else visible(value), quote=True))


def text(value):
    return value if isinstance(value, Markup) else escaped(str(value))


def tag(name, *children, **attributes):
    """An element. `class_` stands for `class`, `data_node` for `data-node`; what is None or False is left out, True is
    a bare name."""
    said = "".join(f" {attribute(key)}" if value is True else f' {attribute(key)}="{text(value)}"'
                   for key, value in attributes.items() if value is not None and value is not False)
    return Markup(f"<{name}{said}>{joined(children)}</{name}>")


@functools.lru_cache(maxsize=None)
def attribute(key):
    return key.rstrip("_").replace("_", "-")


def joined(children, between=""):
    return Markup(between.join(text(child) for child in children if child is not None))


def code(value):
    return tag("code", value)


def names(values, most=8):
    """Names one after the other, of many the first ones and how many more there are."""
    values = list(values)
    shown = [code(value) for value in values[:most]]
    if len(values) > most:
        return joined([joined(shown, ", "), f" and {len(values) - most} more"])
    return joined([joined(shown[:-1], ", "), " and ", shown[-1]]) if len(shown) > 1 else joined(shown)


def count(number, one, many=None):
    return f"{number:,} {one if number == 1 else many or one + 's'}"
