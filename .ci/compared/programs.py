"""What the two programs answer to a CIB: the actions of the first transition, and where each resource is after it.
Actions are fences, starts, stops, promotions, demotions and migrations; probes and recurring monitors aren't
counted."""
import os
import subprocess
import xml.etree.ElementTree as ElementTree

TOP = os.path.dirname(os.path.dirname(os.path.dirname(os.path.abspath(__file__))))
PROGRAM = os.environ.get("CEKPAYO_PROGRAM", os.path.join(TOP, "crates", "sim_cli", "out", "sim_cli"))
COUNTED = ("fence", "start", "stop", "promote", "demote", "migrate_to", "migrate_from")
MOST_STEPS = 8


def simulated(path, *words):
    """What crm_simulate writes of a CIB in a file."""
    done = subprocess.run(["crm_simulate", "-S", "--output-as", "xml", "-x", path, *words], stdout=subprocess.PIPE, stderr=subprocess.DEVNULL,
                          env=dict(os.environ, TZ="UTC"))
    return ElementTree.fromstring(done.stdout)


def settled(cib, folder):
    """The CIB after all that Pacemaker has to do."""
    path, after = os.path.join(folder, "before.xml"), os.path.join(folder, "after.xml")
    ElementTree.ElementTree(cib).write(path)
    for _ in range(MOST_STEPS):
        actions = simulated(path, "-O", after).find("transition")
        os.replace(after, path)
        if actions is None or actions.find("rsc_action") is None:
            break
    found = ElementTree.parse(path).getroot()
    found.set("execution-date", cib.get("execution-date"))
    return found


def of_pacemaker(path):
    """The actions and the places, each as a set."""
    found = simulated(path)
    actions = set()
    for one in found.find("transition") if found.find("transition") is not None else []:
        if one.tag == "rsc_action" and one.get("op") in COUNTED:
            actions.add((one.get("op"), one.get("resource").split(":")[0], one.get("node")))
        elif one.tag.startswith("fenc"):
            actions.add(("fence", one.get("target") or one.get("node")))
    places = set()
    after = found.find("revised_cluster_status")
    if after is None:
        raise ValueError(f"crm_simulate says nothing of {path}")
    for one in after.iter("resource"):
        for node in one.findall("node") if one.get("active") == "true" else []:
            places.add((one.get("id").split(":")[0], node.get("name"), "promoted" if one.get("role") in ("Promoted", "Master") else "started"))
    return actions, places


def asked(words, data):
    done = subprocess.run(words, input=data, stdout=subprocess.PIPE, stderr=subprocess.PIPE)
    return done.stdout


def of_this(path):
    text = asked([os.path.join(TOP, "tools", "collect"), "-q", "--near", path], b"")
    graph, scores = (asked([PROGRAM, word], text).decode().splitlines() for word in ("graph", "scores"))
    if any(line.startswith("refused") for line in graph + scores):
        return None
    actions = set()
    for line in graph:
        word, _, task, *rest = line.split(" after ")[0].split()
        if word == "action" and task in COUNTED:
            actions.add((task, *(rest[:1] + rest[2:] if task == "migrate_from" else rest[:2])))
    places = {tuple(line.split()[1:]) for line in scores if line.startswith("target ")}
    return actions, places
