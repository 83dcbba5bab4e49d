"""Tries the script `cekpayo` on inputs from files, pipes and several files, and on outputs that can't be written."""
import os
import subprocess

from expecting import ENVIRONMENT, TOP, WRAPPER, expect


def try_inputs(folder):
    """Inputs that can't be read, an output that can't be written, an input that is too large, one that was begun,
    several."""
    path = os.path.join(folder, "begun.crm")
    with open(path, "w", encoding="utf-8") as file:
        file.write("node\nnod n1\n")
    first = os.path.join(TOP, "examples", "first-run.crm")
    script = {
        "a folder": ('"$0" check < /', 3, ""),
        "no input": ('"$0" check <&-', 3, ""),
        "a full device": ('echo node n1 | "$0" check > /dev/full', 4, ""),
        "no standard error": ('echo nod n1 | "$0" check 2>&-', 5, "refused 1 UnknownStatement\n"),
        "a full standard error": ('echo nod n1 | "$0" check 2> /dev/full', 5, "refused 1 UnknownStatement\n"),
        "a file that begins as an option": (f'cd {folder} && echo node > -q && "$0" check -- -q', 5, "refused 1 MissingWord\n"),
        "too large": ("head -c 16777217 /dev/zero | tr '\\0' '\\n' | \"$0\" check", 7, ""),
        "begun": (f'{{ head -c 5 > /dev/null; "$0" check; }} < {path}', 5, "refused 1 UnknownStatement\n"),
        "several": (f'echo node n1 | "$0" check -q /dev/stdin {path}', 5, "node n1\n# nodes 1 leaves 0 rules 0\nrefused 1 MissingWord\n"),
        "scores of a pipe": ('printf "node n1\\n" | "$0" scores', 0, ""),
        "scores that are refused": ('printf "nod n1\\n" | "$0" scores', 5, "refused 1 UnknownStatement\n"),
        "a graph of a pipe": ('printf "node n1\\n" | "$0" graph', 0, ""),
        "what survives nothing": ('printf "node n1\\n" | "$0" survive', 0, ""),
        "a first run": (f'"$0" replay < {TOP}/crates/sim_cli/stdin | tail -n 1', 0, "complete 1\n"),
        "an audit": (f'{{ cat {first}; echo %trace; "$0" replay < {first}; }} | "$0" audit', 0, "lawful\n"),
        "an audit where an end is missing": (
            f'{{ cat {first}; echo %trace; "$0" replay < {first}; }} | grep -v "^end 2 7" | "$0" audit', 8, "unlawful 15 Answer\n"),
        "an audit of a file": (f'"$0" audit {first}', 8, "unlawful 9 Transition\n"),
        "a simulated cluster": (f'"$0" world 7 < {first} | tail -n 2', 0, "real vip n1 started\nended complete\n"),
        "a simulated cluster of a file": (f'"$0" world 7 {first} | tail -n 1', 0, "ended complete\n"),
        "a simulated cluster without a number": (f'"$0" world', 2, ""),
    }
    for name, (command, status, output) in script.items():
        done = subprocess.run(["bash", "-c", command, WRAPPER], env=ENVIRONMENT, stdout=subprocess.PIPE, stderr=subprocess.PIPE, text=True)
        expect(name, (done.returncode, done.stdout) == (status, output) and "Traceback" not in done.stderr, done.stdout + done.stderr)


def try_all(folder):
    try_inputs(folder)
