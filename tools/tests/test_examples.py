"""Tries what the examples answer: as is kept of a reference program apart from this one, and as examples/README.md
shows."""
import os
import re
import shlex
import subprocess
import textwrap

from expecting import ENVIRONMENT, TOP, WRAPPER, expect, kept, own, tool

EXAMPLES = os.path.join(TOP, "examples")
WORDS = ("scores", "why", "graph", "survive", "replay")
SHOWN = re.compile(r"^ +\$ (?:cat |\./cekpayo scores )(examples/\S+) \|(?: \./cekpayo scores \|)? tools/summary\n((?:    .*\n)+)", re.M)
RUN = re.compile(r"^ +\$ cat (examples/\S+) \| \./cekpayo replay\n((?:    .*\n)+)", re.M)
WALK = re.compile(r"^ +\$ \{ cat (examples/\S+); printf '%s\\n' (.*); \} \| \./cekpayo replay(?: \| tail -n \+(\d+))?\n((?:    .*\n)+)", re.M)
PIPE = re.compile(r"^    \$ mkfifo told\n((?:    .*\n)+)", re.M)


def read(path):
    with open(os.path.join(TOP, path), "rb") as file:
        return file.read()


def inputs():
    """Each example with a status, and those that have results too: a name, and the text."""
    names = sorted(os.listdir(EXAMPLES))
    for front in (os.path.splitext(name)[0] for name in names if name.endswith(".crm")):
        text = read(f"examples/{front}.crm")
        if front + ".status" in names:
            text += read(f"examples/{front}.status")
        if b"\n%status" not in text:
            continue
        yield front, text
        if front + ".results" in names:
            yield front + "-results", text + read(f"examples/{front}.results")


def try_answers():
    """Each word answers as is kept, and each run is lawful."""
    count = 0
    for name, text in inputs():
        known = dict(re.findall(r"^== (\w+)\n((?:(?!== ).*\n)*)", kept("answers", name), re.M))
        for word in WORDS:
            status, answer = own(text, word)
            count += 1
            expect(f"{word} of the example {name}", status == 0 and answer.decode() == known.get(word), answer.decode())
        run = text.split(b"%results\n")[0] + b"%trace\n" + own(text, "replay")[1]
        expect(f"audit of the run of the example {name}", own(run, "audit") == (0, b"lawful\n"))
    expect("answers of examples", count >= 75)


def parts_of(path):
    """The text of the files that a page names, as `examples/NAME.{crm,status}`."""
    front, braces, ends = path.partition(".{")
    paths = [f"{front}.{end}" for end in ends.rstrip("}").split(",")] if braces else [path]
    return b"".join(map(read, paths))


def try_page():
    """What these pages show is what the program and tools/summary write."""
    pages = [read(page).decode() for page in ("examples/README.md", "docs/USAGE.md", "docs/TOOLS.md")]
    shown, runs = [[found.findall(page) for page in pages] for found in (SHOWN, RUN)]
    expect("what the pages show", len(shown[0]) >= 5 and len(shown[2]) >= 1 and len(runs[0]) >= 6)
    for path, lines in sum(shown, []):
        output = tool("summary", data=own(parts_of(path), "scores")[1])[1]
        expect(f"what is shown of {path}", textwrap.dedent(lines) == output, output)
    for path, lines in sum(runs, []):
        output = own(parts_of(path), "replay")[1].decode()
        expect(f"the run that is shown of {path}", textwrap.dedent(lines) == output, output)
    walks = WALK.findall(pages[1])
    expect("the runs to walk through", len(walks) >= 2)
    for path, results, first, lines in walks:
        text = read(path) + "".join(line + "\n" for line in shlex.split(results)).encode()
        output = own(text, "replay")[1].decode()
        behind = "".join(output.splitlines(keepends=True)[int(first or 1) - 1 :])
        expect(f"the run of {path} with {results}", textwrap.dedent(lines) == behind, output)


def try_pipe():
    """What docs/USAGE.md shows behind each command of a live pipe is there before the next one is given."""
    shown = PIPE.search(read("docs/USAGE.md").decode())
    steps = re.split(r"^\$ (.*)\n", textwrap.dedent(shown[1]), flags=re.M)[1:] if shown else []
    expect("the live pipe", len(steps) >= 10)
    process = subprocess.Popen(["timeout", "60", WRAPPER, "replay"], stdin=subprocess.PIPE, stdout=subprocess.PIPE, text=True, bufsize=1, env=ENVIRONMENT)
    for step, lines in zip(steps[::2], steps[1::2]):
        if step.startswith("{ cat "):
            process.stdin.write(read("examples/first-run.crm").decode() + "%results\n")
        elif step.startswith("echo "):
            process.stdin.write(shlex.split(step)[1] + "\n")
        elif step == "exec 3>&-":
            process.stdin.close()
        told = "".join(process.stdout.readline() for _ in lines.splitlines())
        expect(f"what the live pipe says behind {step}", lines == told, told)
    expect("the live pipe ends there", process.stdout.read() == "" and process.wait() == 0)


def try_all(_folder):
    try_answers()
    try_page()
    try_pipe()
