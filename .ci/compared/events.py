"""Everyday events: each changes the CIB of a cluster at rest into what it would be then. Rows are those of the table in
docs/PACEMAKER.md."""
from .editing import (add_failure, add_location, come_back, interval_of, leave, set_attribute, set_meta, set_property, set_transient,
                      transient)


def fenced(cib, yes):
    set_property(cib, "stonith-enabled", "true" if yes else "false")


def lost(node, with_fencing):
    def change(cib, cluster, _):
        fenced(cib, with_fencing)
        leave(cib, getattr(cluster, node), "member")
    return change


def down(with_fencing):
    """The node has left after it stopped all that ran there."""
    def change(cib, cluster, _):
        fenced(cib, with_fencing)
        come_back(cib, cluster.active)
        leave(cib, cluster.active, "down")
    return change


def shutting_down(node):
    def change(cib, cluster, _):
        set_transient(cib, getattr(cluster, node), "shutdown", str(int(cib.get("execution-date")) - 5))
    return change


def in_standby(node):
    return lambda cib, cluster, _: set_attribute(cib, getattr(cluster, node), "standby", "on")


def passive_in_maintenance_and_active_lost(cib, cluster, _):
    set_attribute(cib, cluster.passive, "maintenance", "on")
    leave(cib, cluster.active, "member")


def returned(node):
    """The node left cleanly, what it ran was taken over by the others, and it is back."""
    def change(cib, cluster, settle):
        gone = getattr(cluster, node)
        other = cluster.passive if node == "active" else cluster.active
        scores = {key: pair.get("value") for key, pair in transient(cib, gone).items() if key.startswith("master-")}
        come_back(cib, gone)
        leave(cib, gone, "down")
        for key, value in scores.items() if node == "active" else []:
            set_transient(cib, other, key, value)
        cib = settle(cib)
        come_back(cib, gone)
        return cib
    return change


def sides_changed(cib, cluster, _):
    here, there = transient(cib, cluster.active), transient(cib, cluster.passive)
    key = "master-" + cluster.promoted[1]
    one, other = here[key].get("value"), there[key].get("value")
    here[key].set("value", other)
    there[key].set("value", one)


def moved(cib, cluster, _):
    add_location(cib, cluster.moved, cluster.passive, "INFINITY")


def banned(cib, cluster, _):
    add_location(cib, cluster.moved, cluster.active, "-INFINITY")


def monitor_ends(code, times="1"):
    def change(cib, cluster, _):
        own = times if times != "threshold" else str(cluster.threshold)
        add_failure(cib, cluster.active, cluster.service, "monitor", interval_of(cib, cluster.active, cluster.service), code, own)
    return change


def promoted_ends(code):
    def change(cib, cluster, _):
        _, leaf, interval = cluster.promoted
        add_failure(cib, cluster.active, leaf, "monitor", interval, code)
    return change


def stop_failed(cib, cluster, _):
    add_failure(cib, cluster.active, cluster.service, "stop", 0, 1, "INFINITY")


def with_quorum_lost(cib, *_):
    cib.set("have-quorum", "0")


def of(name):
    """Whether a cluster has what an event needs."""
    return lambda cluster: bool(getattr(cluster, name))


def always(_):
    return True


def has_fences(cluster):
    return cluster.cib().find("configuration/resources//primitive[@class='stonith']") is not None


SAME = "at rest; a node lost or cleanly down, with fencing and without; no quorum; maintenance-mode; target-role=Stopped"
OTHERS = "a monitor ends with 1; a failed stop; demote by target-role; ping lost; terminate; unmanaged; a clone in maintenance"
MAINTENANCE = "a node in maintenance; the same while another is lost"

# Each event: the row that it counts in, its name, whether a cluster has it, and its change.
EVENTS = [
    (SAME, "at rest", always, lambda *_: None),
    (SAME, "active node lost, fencing", has_fences, lost("active", True)),
    (SAME, "active node lost, no fencing", always, lost("active", False)),
    (SAME, "active node cleanly down, fencing", has_fences, down(True)),
    (SAME, "active node cleanly down, no fencing", always, down(False)),
    (SAME, "passive node lost", has_fences, lost("passive", True)),
    (SAME, "no quorum", always, with_quorum_lost),
    (SAME, "maintenance-mode", always, lambda cib, *_: set_property(cib, "maintenance-mode", "true")),
    (SAME, "target-role=Stopped", always, lambda cib, cluster, _: set_meta(cib, cluster.moved, "target-role", "Stopped")),
    (OTHERS, "monitor ends with 1", always, monitor_ends(1)),
    (OTHERS, "failed stop", always, stop_failed),
    (OTHERS, "demote by target-role", of("promoted"), lambda cib, cluster, _: set_meta(cib, cluster.promoted[0], "target-role", "Slave")),
    (OTHERS, "ping lost", of("ping"), lambda cib, cluster, _: set_transient(cib, cluster.active, cluster.ping, "0")),
    (OTHERS, "terminate", has_fences, lambda cib, cluster, _: set_transient(cib, cluster.active, "terminate", "true")),
    (OTHERS, "unmanaged", always, lambda cib, cluster, _: set_meta(cib, cluster.moved, "is-managed", "false")),
    (OTHERS, "clone in maintenance", of("clone"), lambda cib, cluster, _: set_meta(cib, cluster.clone, "maintenance", "true")),
    (MAINTENANCE, "active node in maintenance", always, lambda cib, cluster, _: set_attribute(cib, cluster.active, "maintenance", "on")),
    (MAINTENANCE, "passive node in maintenance, active node lost", always, passive_in_maintenance_and_active_lost),
    ("standby of the active node", "standby of the active node", always, in_standby("active")),
    ("standby of the passive node", "standby of the passive node", always, in_standby("passive")),
    ("shutdown of a node", "shutdown of the active node", always, shutting_down("active")),
    ("shutdown of a node", "shutdown of the passive node", always, shutting_down("passive")),
    ("a node comes back", "the active node comes back", always, returned("active")),
    ("a node comes back", "the passive node comes back", always, returned("passive")),
    ("promotion scores change sides", "promotion scores change sides", of("promoted"), sides_changed),
    ("`crm resource move` and `ban` of the service", "move", always, moved),
    ("`crm resource move` and `ban` of the service", "ban", always, banned),
    ("failures reach `migration-threshold`", "failures reach migration-threshold", of("threshold"), monitor_ends(1, "threshold")),
    ("a recurring monitor ends with 7", "monitor ends with 7", always, monitor_ends(7)),
    ("a monitor of the promoted copy ends with 1 or 9", "monitor of the promoted copy ends with 1", of("promoted"), promoted_ends(1)),
    ("a monitor of the promoted copy ends with 1 or 9", "monitor of the promoted copy ends with 9", of("promoted"), promoted_ends(9)),
]
