"""All that the program answers to one input, asked at the same time."""
import os
import subprocess
from concurrent.futures import ThreadPoolExecutor

from show.lines import ACTIONS
from show.program import answer, path

from .configuration import Configuration
from .status import Status

WORDS = ("scores", "graph", "survive", "replay")


class Case:
    """An accepted input: its configuration, its status, and the answers as they are looked up."""

    def __init__(self, source):
        self.source = source
        os.environ["CEKPAYO_PROGRAM"] = path()  # it is built once, before several are run
        with ThreadPoolExecutor(len(WORDS)) as pool:
            asked = {word: pool.submit(lines_of, word, source.data) for word in WORDS}
            self.configuration = Configuration(answer("check", source.data))
            self.leaves = [leaf for top in self.configuration.tops.values() for leaf in top.leaves]
            self.status = Status(source.data)
            self.take_scores(asked["scores"].result())
            self.actions = [action(line.split(" ")[1:]) for line in asked["graph"].result()]
            self.losses = losses(asked["survive"].result())
            self.run = asked["replay"].result()
        self.failures = {}
        for failure in self.status.failures:
            self.failures.setdefault(failure.resource, []).append(failure)

    def take_scores(self, lines):
        """The totals of each decision by resource and node, and where everything goes."""
        self.totals, self.promotions = {}, {}
        now = self.totals
        for line in lines:
            words = line.split(" ")
            if words[0] == "score":
                now[words[1], words[2]] = words[3]
            elif words[0] in ("place", "promote"):
                now = self.totals if words[0] == "place" else self.promotions
        self.promotable = {leaf for leaf, _ in self.promotions}
        self.places, self.none, self.pinned = placed(lines)

    def usable(self, node):
        """Why nothing may go to a node, or an empty text."""
        state = self.status.nodes.get(node)
        if state == "online":
            return "in standby" if node in self.configuration.standby else ""
        return state or "not known to be online"


def lines_of(word, data):
    """The answer to a word. A run may end with a result that doesn't apply, or that is refused; then its last line says
    so."""
    if word != "replay":
        return answer(word, data) or []
    return run_of(data)


def run_of(data):
    done = subprocess.run([path(), "replay"], input=data, stdout=subprocess.PIPE)
    if done.returncode not in (0, 5, 6):
        raise OSError(f"the program ended with status {done.returncode}")
    return done.stdout.decode("utf-8").splitlines()


def placed(lines):
    """From lines of targets: the roles of each resource by node, why one has none, and why one is left as it is."""
    places, none, pinned = {}, {}, {}
    for line in lines:
        words = line.split(" ")
        if words[0] == "target":
            places.setdefault(words[1], {})[words[2]] = words[3]
        elif words[0] == "none":
            none[words[1]] = words[2:]
        elif words[0] == "pinned":
            pinned[words[1]] = words[2]
    return places, none, pinned


def action(words):
    """The fields of an action from the words behind `action` or `begin`."""
    number, what, *rest = words
    fields = ACTIONS[what].split()
    found = {"number": int(number), "action": what, **dict(zip(fields, rest))}
    found["after"] = [int(word) for word in rest[len(fields) + 1:]]
    return found


def losses(lines):
    """For each node that may be lost, where everything is then."""
    found, own = {}, []
    for line in lines:
        if line.startswith("loss "):
            own = found[line[5:]] = []
        else:
            own.append(line)
    return {node: placed(lines) for node, lines in found.items()}
