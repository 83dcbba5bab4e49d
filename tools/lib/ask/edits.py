"""Changes of an input that are asked about: each takes the text and gives the changed one."""
from explain.differences import FALSE, members
from explain.faulty import RESOURCES
from explain.hints import SECTIONS
from explain.texts import CONFIGURATION, RESULTS, STATUS, Text
from show.times import monitor_of

NOTHING_RUNS = ("op", "cleanup", "promotion")


class NoChange(Exception):
    """What is asked about can't be done to this input."""


def inserted(text, line, column, addition):
    lines = list(text.lines)
    lines[line] = lines[line][:column] + addition.encode() + lines[line][column:]
    return Text.of(lines)


def with_lines(text, lines, section):
    """The text with further lines at the end of its configuration or its status."""
    ends = [text.heads[end] for end in (STATUS, RESULTS)[section == STATUS:] if end in text.heads]
    at = ends[0] if ends else len(text.lines)
    added = [line.encode() for line in lines]
    return Text.of([*text.lines[:at], *added, *text.lines[at:]])


def pair_in(statement, section, key):
    """The pair of a key in a section of a statement, or nothing."""
    place = ""
    for word in statement.words[1:]:
        if word.text in SECTIONS:
            place = word.text
        elif word.key == key and place == section:
            return word
    return None


def with_pair(text, statement, section, key, value):
    """The text in which a statement has this pair in a section."""
    pair = pair_in(statement, section, key)
    if pair:
        return Text.of(text.lines_with_word(pair, f"{key}={value}"))
    heads = [word for word in statement.words[2:] if word.text == section]
    if heads:
        return inserted(text, heads[0].last, heads[0].end, f" {key}={value}")
    last = statement.id if statement.kind == "node" else statement.words[-1]
    return inserted(text, last.last, last.end, f" {section} {key}={value}")


def the_node(text, name):
    found = text.defined(("node",)).get(name)
    if found is None:
        raise NoChange(f"there is no node `{name}`")
    return found


def the_resource(text, name):
    found = text.defined(RESOURCES).get(name)
    if found is None:
        raise NoChange(f"there is no resource `{name}`")
    return found


def with_status(text):
    """The text, whose status is needed."""
    if STATUS not in text.heads:
        raise NoChange("it has no `%status`; `--online` before the word takes each node as online")
    return text


def status_of(text, name):
    """The line of the status on a node, or nothing."""
    for one in text.each():
        if one.section == STATUS and one.kind == "node" and one.fields()[1:2] == [name]:
            return one
    return None


def with_state(text, name, state):
    found = status_of(with_status(text), name)
    if found:
        return Text.of(text.lines_with_word(found.words[2], state))
    return with_lines(text, [f"node {name} {state}"], STATUS)


def standby(text, name):
    return with_pair(text, the_node(text, name), "attributes", "standby", "on")


def online(text, name):
    """The node is there, and not in standby. One that joins comes with nothing on it, and nothing is known of it."""
    node = the_node(text, name)
    if pair_in(node, "attributes", "standby"):
        text = with_pair(text, node, "attributes", "standby", "off")
    found = status_of(with_status(text), name)
    if found is None or found.fields()[2] != "online":
        known = [one for one in text.each() if one.section == STATUS and one.kind in NOTHING_RUNS and one.fields()[1:2] == [name]]
        text = Text.of(text.lines_without(known))
    return with_state(text, name, "online")


def lost(text, name):
    """The node left without a word: it is unclean where there is fencing, and taken as down where there is none."""
    the_node(text, name)
    return with_state(text, name, "unclean" if is_fencing(text) else "offline")


def is_fencing(text):
    pairs = [word for one in text.configuration if one.kind == "property" for word in one.words]
    return not any(word.key == "stonith-enabled" and word.value.lower() in FALSE for word in pairs)


def fail(text, told):
    """RESOURCE@NODE=CODE: its recurring monitor ends there with this exit code."""
    name, _, rest = told.partition("@")
    node, _, code = rest.partition("=")
    the_node(text, node)
    resource = the_resource(text, name)
    if resource.kind != "primitive":
        inside = [word.text for word in members(resource)]
        raise NoChange(f"`{name}` is a {resource.kind}; name a primitive in it: {', '.join(inside)}")
    interval = monitor_of([word.text for word in resource.words])
    if not interval:
        raise NoChange(f"`{name}` has no recurring monitor that could fail")
    now = [one.fields()[1] for one in with_status(text).each() if one.section == STATUS and one.kind == "now"]
    return with_lines(text, [f"op {node} {name} monitor {interval} {code or 1} {now[0] if now else 0}"], STATUS)


def without_id(text, name):
    """The text without the location of this id, which a new one replaces."""
    return Text.of(text.lines_without([one for one in text.defined(("location",)).values() if one.id.text == name]))


def move(text, name, node):
    """As `crm resource move` with a node does: an earlier move is taken back, and a ban from this node; one from
    another node stays."""
    the_node(text, node)
    the_resource(text, name)
    text = without_id(without_id(text, f"cli-prefer-{name}"), f"cli-ban-{name}-on-{node}")
    return with_lines(text, [f"location cli-prefer-{name} {name} inf: {node}"], CONFIGURATION)


def ban(text, name, node):
    the_node(text, node)
    the_resource(text, name)
    text = without_id(text, f"cli-ban-{name}-on-{node}")
    return with_lines(text, [f"location cli-ban-{name}-on-{node} {name} -inf: {node}"], CONFIGURATION)


def clear(text, name):
    """As `crm resource clear` does: earlier moves and bans are taken back."""
    the_resource(text, name)
    for one in [f"cli-prefer-{name}", *(f"cli-ban-{name}-on-{node}" for node in text.defined(("node",)))]:
        text = without_id(text, one)
    return text


def with_role(text, name, role):
    """The target-role of a resource; what is in it gets the same where it has one of its own."""
    text = with_pair(text, the_resource(text, name), "meta", "target-role", role)
    for own in [word.text for word in members(the_resource(text, name))] if the_resource(text, name).kind != "primitive" else []:
        if pair_in(the_resource(text, own), "meta", "target-role") or the_resource(text, own).kind == "group":
            text = with_role(text, own, role)
    return text


def stop(text, name):
    return with_role(text, name, "Stopped")


def start(text, name):
    return with_role(text, name, "Started")


def maintenance(text):
    for one in text.configuration:
        for word in one.words if one.kind == "property" else []:
            if word.key == "maintenance-mode":
                return Text.of(text.lines_with_word(word, "maintenance-mode=true"))
    return with_lines(text, ["property maintenance-mode=true"], CONFIGURATION)


EDITS = {"standby": standby, "online": online, "lost": lost, "fail": fail, "move": move, "ban": ban, "clear": clear, "stop": stop,
         "start": start, "maintenance": maintenance}
ARGUMENTS = {"standby": ["NODE"], "online": ["NODE"], "lost": ["NODE"], "fail": ["RESOURCE@NODE=CODE"], "move": ["RESOURCE", "NODE"],
             "ban": ["RESOURCE", "NODE"], "clear": ["RESOURCE"], "stop": ["RESOURCE"], "start": ["RESOURCE"], "maintenance": []}
MEANINGS = {
    "standby": "the node is put in standby", "online": "the node is there, and not in standby", "lost": "the node leaves without a word",
    "fail": "a recurring monitor ends with this exit code", "move": "as `crm resource move`; a ban from another node stays", "ban": "as `crm resource ban`",
    "clear": "as `crm resource clear`", "stop": "target-role=Stopped", "start": "target-role=Started",
    "maintenance": "maintenance-mode=true",
}


def edited(data, changes):
    """The text after changes, each the name of one and its arguments."""
    text = Text(data)
    for name, *arguments in changes:
        text = EDITS[name](text, *arguments)
    return b"\n".join(text.lines)
