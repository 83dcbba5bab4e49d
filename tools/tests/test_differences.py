"""Tries what docs/PACEMAKER.md says of each difference: the lines that it names are those of the program."""
import os
import re

from expecting import TOP, expect, own, tool

NAMED = re.compile(r"^\[(\S+)\]\(\.\./examples/differences/\1\):.*?^- cekpayo: (.*?)\n\n", re.M | re.S)
LINE = re.compile(r"`((?:target|none|pinned|action) [^`]*)`")
NOT_BUILT = 2


def try_differences():
    with open(os.path.join(TOP, "docs", "PACEMAKER.md"), encoding="utf-8") as page:
        told = NAMED.findall(page.read())
    folder = os.path.join(TOP, "examples", "differences")
    expect("the differences of docs/PACEMAKER.md", sorted(name for name, _ in told) == sorted(os.listdir(folder)))
    for name, said in told:
        text = tool("collect", "-q", os.path.join(folder, name))[1].encode()
        answers = [own(text, word) for word in ("scores", "graph")]
        written = [line for _, answer in answers for line in answer.decode().splitlines()]
        lines = [" ".join(line.split()) for line in LINE.findall(said)]
        expect(f"{name}: lines that are named", len(lines) >= 2)
        for line in lines:
            built = not line.startswith("action") or answers[1][0] != NOT_BUILT
            expect(f"docs/PACEMAKER.md: {name}: {line}", line in written or not built, "\n".join(written))


def try_all(_folder):
    try_differences()
