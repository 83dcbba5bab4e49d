"""The tables in the folder of the scripts: causes, what is refused, what is kept without effect, known words."""
import functools
import os
import re

FOLDER = os.path.dirname(os.path.dirname(os.path.dirname(os.path.abspath(__file__))))


def rows(name):
    """The rows of a table, each a list of its columns; lines that begin with `#` are comments."""
    with open(os.path.join(FOLDER, name), encoding="utf-8") as table:
        for line in table:
            if line.strip() and not line.startswith("#"):
                yield line.rstrip("\n").split("\t")


def is_installed():
    return os.path.exists(os.path.join(os.path.dirname(FOLDER), "sim_cli"))


def page(name):
    """Where a page is: its place in the repository, or the whole path of an installed one."""
    return os.path.join(os.path.dirname(FOLDER), "docs", name) if is_installed() else "docs/" + name


def command(tool=""):
    """How the script, or a tool beside it, is called."""
    if not tool:
        return "cekpayo" if is_installed() else "./cekpayo"
    return f"cekpayo-{tool}" if is_installed() else f"tools/{tool}"


def plain(text):
    """The text without what only a page needs: a link becomes its words."""
    return re.sub(r"\[([^]]*)\]\([^)]*\)", lambda link: f'"{link[1]}" in {page("USAGE.md")}', text)


class Cause:
    def __init__(self, name, meaning, remedy):
        self.name, self.meaning, self.remedy = name, plain(meaning), plain(remedy)


def causes():
    return {row[0]: Cause(*row) for row in rows("causes.tsv")}


@functools.lru_cache(maxsize=None)
def known(place):
    """The known words of a place, as `meta` or `statement`."""
    return [word for row in rows("known.tsv") if row[0] == place for word in row[1].split()]


@functools.lru_cache(maxsize=None)
def agents():
    return [row[0] for row in rows("agents.txt")]
