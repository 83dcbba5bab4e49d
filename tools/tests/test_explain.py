"""Tries what `cekpayo` says on standard error of typical mistakes, and what it notes of accepted texts."""
import os
import re

from expecting import expect, own, script

HEAD = "node n1\nnode n2\nprimitive apple Dummy\nprimitive berry Dummy\nprimitive cherry Dummy\n"

# Each mistake: its name, the text behind HEAD, the faulty word as the mark shows it (nothing where none is), and what
# is said.
MISTAKES = [
    ("misspelt word", "primitiv date Dummy\n", "primitiv", "Is `primitive` meant?"),
    ("unknown node", "location l apple 5: n9\n", "n9", "There is no node"),
    ("unknown resource in a group", "group g apple bery\n", "bery", "Is `berry` meant?"),
    ("member in two groups", "group g apple\ngroup h berry apple\n", "apple", "The earlier one:\n     6 | group g apple"),
    ("loop of orders", "order o apple berry\norder x apple cherry\norder p berry apple\n", "",
     "These make the loop:\n     6 | order o apple berry\n     8 | order p berry apple"),
    ("missing colon", "location l apple 5 n1\n", "5", "A colon is missing: `5:`."),
    ("role of a plain resource", "location l apple role=Promoted 5: n1\n", "role=Promoted", "isn't promotable"),
    ("repeated key", "property maintenance-mode=no \\\n\tstonith-enabled=yes maintenance-mode=yes\n", "maintenance-mode=yes",
     "The key was given before"),
    ("bad time", "primitive date Dummy \\\n\top monitor interval=10sek timeout=20s\n", "interval=10sek", "A time belongs here"),
    ("bad score", "location l apple high: n1\n", "high:", "A score belongs here"),
    ("open quote", "primitive date Dummy params x=\"1 y=2\n", "\"1 y=2", "Close the quote"),
    ("section out of place", "%results\n%status\n", "%status", "`%status` comes before `%results`"),
    ("op on a clone's name", "clone k apple\n%status\nop n1 k monitor 0 0 5\n", "k",
     "`k` is a clone; this line names a primitive in it: `apple`."),
    ("status of an unknown node", "%status\nnode n1 online\nnode n3 online\n", "n3", "There is no node"),
    ("result out of range", "%results\nend 1 256\n", "256", "An exit code is a number from 0 to 255."),
    ("unsupported option", "primitive date Dummy meta critical=false\n", "critical=false", "Not carried out: `critical=false`"),
    ("third resource in a colocation", "colocation k inf: apple berry cherry\n", "cherry", "two colocations of two"),
    ("pcs's location", "location apple prefers n1=5\n", "n1=5", "as pcs has them; instead, `location ID RESOURCE SCORE: NODE`"),
    ("pcs's order", "order start apple then start berry\n", "then", "as pcs has it; instead, `order ID A:promote B:start`"),
    ("pcs's colocation", "colocation add apple with berry 5\n", "apple", "as pcs has it; instead, `colocation ID SCORE: A B`"),
    ("mixed and, or", "location l apple rule 5: defined a and defined b or defined c\n", "or", "several rules, each with one of them"),
]

# Mistakes at which the program is asked in another way, or the place is another.
MORE = [
    ("missing word at the end", "ms m\n", " ", "The statement or the section ends too early"),
    ("missing word within", "primitive date Dummy params meta x=1\n", "params", "Add what is missing"),
    ("role of the first in an order", "order o apple:promote berry\n", "apple:promote", "isn't promotable"),
    ("name in use", "primitive apple Dummy\n", "apple", "The earlier one:\n     3 | primitive apple Dummy"),
    ("misspelt value", "primitive date Dummy meta target-role=Startd\n", "target-role=Startd", "Is `Started` meant?"),
    ("misspelt section", "primitive date Dummy parms x=1\n", "parms", "Is `params` meant?"),
    ("told twice", "%status\nnode n1 online\nnode n1 offline\n", "n1", "The earlier one:\n     7 | node n1 online"),
    ("control byte", "user a\x07b\n", "\ufffd", "Take the byte out"),
    ("control byte in a comment", "# \x07\n", "\ufffd", "Take the byte out"),
    ("pair without a section", "group g apple berry target-role=Started\n", "target-role=Started",
     "A section word is missing before it: `meta target-role=Started`."),
    ("what collect takes out by itself", "primitive date Dummy op monitor interval=10s op_params a=1\n", "op_params",
     "as `tools/collect --config` does"),
    ("key of one value", "ms m apple meta promotable=false\n", "promotable=false", "Correct the word. Here `promotable` takes `true`."),
]

# Accepted texts, and what is noted of them.
NOTED = [
    ("property stonith-enabeld=false\n", "7:10: note: `stonith-enabeld` is kept without effect; is `stonith-enabled` meant?"),
    ("rsc_defaults resource-stickyness=1\n", "is `resource-stickiness` meant?"),
    ("primitive date IPadr2\n", "7:16: note: `IPadr2` is none of the usual agents; is `IPaddr2` meant?"),
    ("primitive date Dummy op montior interval=10s\n", "is `monitor` meant?"),
    ("primitive date Dummy meta remote-node=guest\n", "Pacemaker makes a node of this resource"),
    ("property enable-startup-probes=false\n", "Pacemaker doesn't probe"),
    ("group g apple berry meta ordered=false\n", "starts the members of the group at the same time"),
]
SILENT = ["property enable-startup-probes=true no-quorum-policy=stop\n", "primitive date ocf:mine:IPadr2 op monitor interval=1 timeout=2\n",
          "primitive date Dummy params stonith-enabeld=1\n"]


def from_file_and_pipe(name, data, folder):
    """What is said of a text in a file and from a pipe, which is the same but for the name, beside the program's own
    answer."""
    path = os.path.join(folder, "input.crm")
    with open(path, "wb") as file:
        file.write(data)
    *file_answer, said = script(["check", path])
    *pipe_answer, said_of_pipe = script(["check"], data)
    expect(name + ": status and output", file_answer == pipe_answer == list(own(data)))
    flat = " ".join(said.replace(path, "standard input").split())
    expect(name + ": from a pipe", flat == " ".join(said_of_pipe.split()), said_of_pipe)
    return said


def marked_part(said):
    """What the mark stands under."""
    lines = said.split("\n")
    for shown, mark in zip(lines, lines[1:]):
        if re.match(r" +\| [ \t]*\^+$", mark):
            return shown[mark.index("^"):mark.rindex("^") + 1] or " "
    return ""


def try_mistakes(folder):
    for name, text, faulty, sentence in MISTAKES + MORE:
        said = from_file_and_pipe(name, (HEAD + text).encode(), folder)
        expect(name + ": the mark", marked_part(said) == faulty, said)
        expect(name + ": the sentence", " ".join(sentence.split()) in " ".join(said.split()), said)
    said = from_file_and_pipe("value of another kind", (HEAD + "order o Serialize: apple berry symmetrical=true\n").encode(), folder)
    expect("value of another kind", "leave it out" in said and "Here" not in said, said)
    faults = "primitiv a Dummy\nlocation l apple 5: n9\nproperty batch-limit=x placement-strategy=y\n# \x07\n"
    said = script(["check", "--all"], (HEAD + faults).encode())[2]
    causes = re.findall(r"^standard input:([\d:]+): (\w+)", said, re.M)
    expect("--all", causes == [("6:1", "UnknownStatement"), ("7:21", "UnknownName"), ("8:10", "BadValue"), ("8:24", "Unsupported"), ("9:3", "ControlByte")], said)
    expect("-q", script(["check", "-q"], b"nod n1\n") == (5, b"refused 1 UnknownStatement\n", ""))


def try_notes(folder):
    for text, note in NOTED:
        said = from_file_and_pipe(text, (HEAD + "\n" + text).encode(), folder)
        expect(text, note in said, said)
    for text in SILENT:
        said = from_file_and_pipe(text, (HEAD + text).encode(), folder)
        expect(text, said == "", said)


def try_all(folder):
    try_mistakes(folder)
    try_notes(folder)
