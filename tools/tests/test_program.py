"""The program by itself, over real descriptors: each status that it ends with, what it has written then, and what it
refuses of words."""
import os
import resource
import subprocess

from expecting import PROGRAM, expect, kept

CLUSTER = "node n1\nnode n2\nprimitive vip IPaddr2\n"
STATUS = "%status\nnow 1000\nquorum yes\nnode n1 online\nnode n2 online\n"
RUN = "transition 1\ntarget vip n1 started\nbegin 1 probe vip n1\nbegin 2 probe vip n2\n"
CANONICAL = "node n1\nnode n2\nprimitive vip ocf:heartbeat:IPaddr2\n# nodes 2 leaves 1 rules 0\n"
MOST_BYTES = 16777216

# What is wanted of words with an input: the status and the whole output.
ANSWERS = {
    "an input that is accepted": ("check", CLUSTER, 0, CANONICAL),
    "no words": ("", CLUSTER, 2, ""),
    "a word that is none": ("chek", CLUSTER, 2, ""),
    "an empty word": (" ", CLUSTER, 2, ""),
    "a word too many": ("check check", CLUSTER, 2, ""),
    "a number too many": ("gen 7 8", "", 2, ""),
    "a file behind a number": ("world 7 file", CLUSTER, 2, ""),
    "three words": ("check a b", CLUSTER, 2, ""),
    "a number that is none": ("gen seven", "", 2, ""),
    "a number past the last": ("gen 4294967296", "", 2, ""),
    "no number": ("gen", "", 2, ""),
    "an input that is refused": ("check", CLUSTER + "location l vip 5 n1\n", 5, "refused 4 BadScore\n"),
    "a result that doesn't apply": ("replay", CLUSTER + STATUS + "%results\nend 3 0\n", 6, RUN + "unexpected 10\n"),
    "a result line that isn't one": ("replay", CLUSTER + STATUS + "%results\nend 1 x\n", 5, RUN + "refused 10 BadValue\n"),
    "an input past the most bytes": ("check", "#" * 100 + "\n" + "\n" * (MOST_BYTES - 100), 7, ""),
    "a run that isn't lawful": ("audit", CLUSTER + STATUS + "%trace\n" + RUN + "complete 1\n", 8, "unlawful 14 Answer\n"),
}


def answer(words, data=b"", **streams):
    """The status and the output of the program with these words, over the bytes or over other streams."""
    given = {"input": data} if "stdin" not in streams else {}
    if "stdout" not in streams:
        streams["stdout"] = subprocess.PIPE
    done = subprocess.run([PROGRAM, *words], stderr=subprocess.PIPE, **given, **streams)
    return done.returncode, done.stdout, done.stderr


def try_answers():
    for name, (line, text, status, output) in ANSWERS.items():
        words = [""] if line == " " else line.split()
        got = answer(words, text.encode())
        expect(f"the program: {name}", got == (status, output.encode(), b""), f"{got[0]}: {got[1][:300]!r}")


def try_unlisted_words():
    """A word that isn't UTF-8 can't be listed, and is refused as any other that isn't one."""
    expect("the program: a word that isn't UTF-8", answer([b"\xff"])[:2] == (2, b""))
    expect("the program: a word behind another that isn't UTF-8", answer(["check", b"\xff"], CLUSTER.encode())[:2] == (2, b""))


def try_own_texts():
    """Help and version are those of a file of their own, and nothing is read for them."""
    for word in ("help", "version"):
        with open(os.devnull, "rb") as nothing:
            got = answer(["--" + word], stdin=nothing)
        expect(f"the program: --{word}", got == (0, kept("texts", word).encode(), b""), got[1].decode())


def try_failing_streams():
    """A failed read is status 3, a failed write 4; of a run what was written before stays."""
    folder = os.open("/", os.O_RDONLY)
    expect("the program: a folder as input", answer(["check"], stdin=folder)[:2] == (3, b""))
    os.close(folder)
    for words in (["check"], ["replay"]):
        closed = subprocess.run(["bash", "-c", 'exec "$0" "$@" <&-', PROGRAM, *words], stdout=subprocess.PIPE)
        expect(f"the program: {words[0]}, a closed input", (closed.returncode, closed.stdout) == (3, b""))
    for words, text in ((["check"], CLUSTER), (["replay"], CLUSTER + STATUS), (["gen", "7"], ""), (["--help"], "")):
        with open("/dev/full", "wb") as full:
            expect(f"the program: {words[0]}, a full output", answer(words, text.encode(), stdout=full)[0] == 4)
        closed = subprocess.run(["bash", "-c", 'exec "$0" "$@" >&-', PROGRAM, *words], input=text.encode())
        expect(f"the program: {words[0]}, a closed output", closed.returncode == 4)


def try_little_memory():
    """Where memory runs out the status is 1, and nothing is written of what the whole input decides."""
    text = (CLUSTER + "".join(f"primitive r{k} Dummy\n" for k in range(300000))).encode()
    done = subprocess.run([PROGRAM, "check"], input=text, stdout=subprocess.PIPE,
                          preexec_fn=lambda: resource.setrlimit(resource.RLIMIT_AS, (64 << 20, 64 << 20)))
    expect("the program: little memory", (done.returncode, done.stdout) == (1, b""), f"{done.returncode}: {done.stdout[:100]!r}")


def try_generated():
    """The whole summary of a generated case."""
    expect("the program: gen 7", answer(["gen", "7"])[:2] == (0, kept("texts", "gen-7").encode()))


def try_all(_folder):
    try_answers()
    try_unlisted_words()
    try_own_texts()
    try_failing_streams()
    try_little_memory()
    try_generated()
