"""`losses`: what the loss of each node would change."""
import json

from show.changing import losses_of, plan_of
from show.program import prepare
from show.summaries import changes, shown

from .sources import Source

REFUSED, FOUND = 5, 9


def options(parser):
    parser.add_argument("--fail-on-loss", action="store_true", help=f"the status is {FOUND} where something would lose its place")
    parser.add_argument("file", nargs="?", metavar="FILE")


def ask(words):
    source = Source(words.file, words)
    prepare([(word, source.data) for word in ("check", "scores", "graph", "survive")])
    if not source.is_accepted():
        return REFUSED
    now, down, told = plan_of(source.data), False, []
    for loss in losses_of(source.data):
        loss.now = now
        down = down or any(now.targets.get(name) and not loss.targets[name] for name in loss.order)
        if words.json:
            told.append({"loss": loss.title.split()[-1], "entries": [entry.fields() for entry in changes(loss)]})
        else:
            print(*shown(loss, words.all), sep="\n")
    if words.json:
        print(json.dumps({"kind": "losses", "losses": told}, ensure_ascii=False))
    return FOUND if down and words.fail_on_loss else 0
