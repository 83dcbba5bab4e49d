"""How long operations took when they ran last, as the history of a CIB has it."""
import bz2

from .cib import parsed

KINDS = {"start", "stop", "promote", "demote", "migrate_to", "migrate_from", "monitor"}


def measured(data):
    """For each resource, operation and node how many milliseconds it took, of what succeeded. A monitor without an
    interval is a probe."""
    root, found = parsed(bz2.decompress(data) if data.startswith(b"BZh") else data), {}
    for state in root.iter("node_state"):
        for element in state.iter("lrm_resource"):
            for one in element.findall("lrm_rsc_op"):
                kind, time = one.get("operation"), one.get("exec-time", "")
                if kind not in KINDS or not time.isdigit() or one.get("op-status", "0") != "0" or one.get("rc-code") not in ("0", "7", "8"):
                    continue
                kind = "probe" if kind == "monitor" and one.get("interval", "0") == "0" else kind
                found[element.get("id", "").split(":")[0], kind, state.get("uname")] = int(time)
    return found
