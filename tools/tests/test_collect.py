"""Tries `tools/collect`: six CIBs become the texts that are kept beside them, and `check` accepts these."""
import bz2
import os
import subprocess

from expecting import TOP, expect, kept, own, tool

CIBS = os.path.join(TOP, ".ci", "cibs")

# A configuration as `crm configure show` prints it, and the lines of it that are written in another way.
TEXT = """# Kept as it is.
node $id=1 web1:member description="on the left"
node 2: web2
primitive disk  Filesystem \\
    op monitor interval=20s op_params OCF_CHECK_LEVEL=20 op_meta timeout=40s
clone disks disk meta ordered=yes interleave=true
primitive spare Dummy meta is-managed=true maintenance=true priority=1
order one-by-one serialize: disk spare symmetrical=yes
location elsewhere disk 5: web9
property placement-strategy=utilization stonith-enabled=false
property placement-strategy=balanced
%status
now 5
"""
REWRITTEN = """# Kept as it is.
node 1: web1
node 2: web2
primitive disk Filesystem \\
\top monitor interval=20s timeout=40s
clone disks disk \\
\tmeta interleave=true
primitive spare Dummy \\
\tmeta priority=1 is-managed=false
order one-by-one serialize: disk spare
property stonith-enabled=false
%status
now 7
quorum yes
"""
SMALL = ("<cib><configuration><nodes><node id='1' uname='n'/></nodes><resources><primitive id='a' class='ocf' provider='p' type='D'/>"
         "</resources><constraints>{}</constraints></configuration></cib>")
AGENT = "class='ocf' provider='p' type='D'"
SEVERAL = (f"<cib><configuration><nodes><node id='1' uname='n'/></nodes><resources><template id='t' {AGENT}/><primitive id='a' template='t'/>"
           f"<group id='g'><primitive id='b' {AGENT}/></group><master id='k'><primitive id='c' {AGENT}/></master></resources><constraints>{{}}"
           "</constraints><tags><tag id='named'><obj_ref id='t'/></tag></tags></configuration></cib>")
EMPTY = b"<cib have-quorum='1'><configuration/><status/></cib>"

# What stays, to be refused, since it has an effect: statements, and words that stand in the text.
REFUSED = {
    "<rsc_colocation id='k' score='5' rsc='a' with-rsc='a' node-attribute='rack'/>": "colocation k 5: a a node-attribute=rack",
    "<rsc_order id='o' first='a' then='a' require-all='false'/>": "order o Mandatory: a:start a:start require-all=false",
    "<rsc_ticket id='t' rsc='a' ticket='x'/>": "rsc_ticket t",
    "<rsc_location id='l' rsc='a' node='n' score='1' resource-discovery='never'/>": "location l a resource-discovery=never 1: n",
    "<rsc_location id='l' rsc='a'><rule id='r' score='1'><date_expression id='d' operation='date_spec'><date_spec id='s' moon='0'/>"
    "</date_expression></rule></rsc_location>": "\trule 1: date spec moon=0",
}

# Sets with a rule that isn't known to hold, each within a node and within a primitive, and the word in front of it; all
# are refused.
RULE = "<rule id='r' score='5'><rsc_expression id='e' class='ocf'/></rule><nvpair id='p' name='priority' value='4'/>"
RULED = [
    (f"<instance_attributes id='i'>{RULE}</instance_attributes>", "", "attributes"),
    (f"<utilization id='i'>{RULE}</utilization>", "", "utilization"),
    ("", f"<meta_attributes id='i'>{RULE}</meta_attributes>", "meta"),
    ("", f"<operations><op id='o' name='monitor' interval='9s'><meta_attributes id='i'>{RULE}</meta_attributes></op></operations>", "op_meta"),
]
WITH_SETS = ("<cib><configuration><nodes><node id='1' uname='n'>{}</node></nodes><resources>"
             f"<primitive id='a' {AGENT}>{{}}</primitive></resources></configuration></cib>")

# The name of the cluster and the site of a node, and the attributes that a rule finds of the node.
SITES = [
    ("<nvpair id='p' name='cluster-name' value='c'/>", "", ['\tattributes "#cluster-name=c" "#site-name=c"']),
    ("<nvpair id='p' name='cluster-name' value='c'/>", "<nvpair id='q' name='site-name' value='s'/>",
     ['\tattributes site-name=s "#cluster-name=c" "#site-name=s"']),
    ("", "<nvpair id='q' name='site-name' value='s'/>", ['\tattributes site-name=s "#site-name=s"']),
    ("", "", []),
]
SITE = ("<cib><configuration><crm_config><cluster_property_set id='o'>{}</cluster_property_set></crm_config><nodes><node id='1' uname='n'>"
        f"<instance_attributes id='i'>{{}}</instance_attributes></node></nodes><resources><primitive id='a' {AGENT}/></resources><constraints>"
        "<rsc_location id='l' rsc='a'><rule id='r' score='1'><expression id='e' attribute='#cluster-name' operation='eq' value='c'/>"
        "<expression id='f' attribute='#site-name' operation='eq' value='s'/></rule></rsc_location></constraints></configuration></cib>")

# Constraints of several resources, and the lines that they become; all are accepted.
CONSTRAINTS = [
    ("<rsc_location id='l' node='n' score='9'><resource_set id='s' score='-INFINITY'><resource_ref id='a'/><resource_ref id='g'/>"
     "</resource_set></rsc_location>", ["location l-1 a -INFINITY: n", "location l-2 g -INFINITY: n"]),
    ("<rsc_location id='l' node='n' score='9' role='Started'><resource_set id='s' role='Promoted'><resource_ref id='k'/></resource_set>"
     "<resource_set id='u' score='3'><resource_ref id='a'/></resource_set></rsc_location>",
     ["location l-1 k role=Promoted 9: n", "location l-2 a role=Started 3: n"]),
    ("<rsc_location id='l' rsc-pattern='.' node='n' score='1'/>", ["location l-1 a 1: n", "location l-2 g 1: n", "location l-3 k 1: n"]),
    ("<rsc_location id='l' rsc-pattern='!^[ak]$' node='n' score='1'/>", ["location l g 1: n"]),
    ("<rsc_location id='l' rsc-pattern='!!|[ag]' node='n' score='1'/>", ["location l k 1: n"]),
    ("<rsc_location id='l' rsc-pattern='[' node='n' score='1'/>", []),
    ("<rsc_location id='l' rsc='t' node='n' score='1'/>", ["location l a 1: n"]),
    ("<rsc_colocation id='l' score='2'><resource_set id='s'><resource_ref id='g'/><resource_ref id='t'/></resource_set></rsc_colocation>",
     ["colocation l 2: a g"]),
]

# Operations of a template and of its primitive, and those that the primitive has.
TEMPLATES = [
    (["name='monitor' interval='10s'", "name='start' interval='0'"], ["name='monitor' interval='30s' role='Slave'"],
     ["start interval=0", "monitor interval=30s role=Slave"]),
    (["name='monitor' interval='10s' role='Unpromoted'", "name='monitor' interval='11s' role='Master'"],
     ["name='monitor' interval='20s' role='Promoted'", "name='monitor' interval='21s' role='Promoted'"],
     ["monitor interval=10s role=Unpromoted", "monitor interval=20s role=Promoted", "monitor interval=21s role=Promoted"]),
]
TEMPLATE = (f"<cib><configuration><resources><template id='t' {AGENT}><operations>{{}}</operations></template><primitive id='a' template='t'>"
            "<operations>{}</operations></primitive></resources></configuration></cib>")

# The state of a node with fencing and without, by what the CIB has of it.
STATES = [
    ("in_ccm='true' crmd='online' join='member' expected='member'", "online", "online"),
    ("in_ccm='1772360000' crmd='1772360010' join='member' expected='member'", "online", "online"),
    ("in_ccm='false' crmd='offline' join='down' expected='down'", "offline", "offline"),
    ("in_ccm='false' crmd='offline' join='down' expected='member'", "unclean", "offline"),
    ("in_ccm='0' crmd='0' join='down' expected='member'", "unclean", "offline"),
    ("in_ccm='true' crmd='offline' join='down' expected='member'", "unclean", "unclean"),
    ("in_ccm='true' crmd='online' join='down' expected='member'", "offline", "offline"),
    ("in_ccm='true' crmd='online' join='down' expected='down'", "offline", "offline"),
    ("in_ccm='true' crmd='online' join='banned' expected='member'", "unclean", "offline"),
    ("crmd='online' join='down'", "unclean", "offline"),
]
# The same of nodes with the attribute `terminate`, whose value goes first.
TERMINATED = [
    ("true", "in_ccm='true' crmd='online' join='member' expected='member'", "unclean", "online"),
    ("1772360000", "in_ccm='true' crmd='online' join='member' expected='down'", "unclean", "online"),
    ("yes", "in_ccm='true' crmd='online' join='pending' expected='member'", "unclean", "offline"),
    ("true", "in_ccm='false' crmd='offline' join='down' expected='member'", "offline", "offline"),
    ("true", "in_ccm='false' crmd='offline' join='member' expected='down'", "unclean", "offline"),
    ("0", "in_ccm='true' crmd='online' join='member' expected='member'", "online", "online"),
    ("false", "in_ccm='false' crmd='offline' join='down' expected='member'", "unclean", "offline"),
]
ATTRIBUTE = ("<transient_attributes id='1'><instance_attributes id='i'><nvpair id='v' name='terminate' value='{}'/></instance_attributes>"
             "</transient_attributes>")
STATE = ("<cib><configuration><crm_config><cluster_property_set id='o'><nvpair id='f' name='stonith-enabled' value='{}'/>"
         "</cluster_property_set></crm_config><nodes><node id='1' uname='n'/></nodes><resources/></configuration>"
         "<status><node_state uname='n' {}>{}</node_state></status></cib>")

# Operations of a resource on a node, and the lines that they become.
HISTORIES = [
    # A monitor that failed has the call id of its first run; a start behind it goes on.
    ("operation='start' call-id='5' rc-code='0' interval='0' last-rc-change='10'",
     "operation='monitor' call-id='6' rc-code='0' interval='9' last-rc-change='11'",
     "operation='monitor' call-id='6' rc-code='7' interval='9' last-rc-change='20'",
     ["start 0 0 10", "monitor 9 0 11", "monitor 9 7 20"]),
    # The order is that of the call ids; a timeout and an error without a code; what was cancelled and what isn't known
    # is left out.
    ("operation='stop' call-id='8' rc-code='1' op-status='2' interval='0' last-rc-change='9'",
     "operation='start' call-id='7' rc-code='0' op-status='4' interval='0' last-rc-change='8'",
     "operation='monitor' call-id='9' rc-code='0' op-status='1' interval='9' last-rc-change='9'", ["start 0 1 8", "stop 0 timeout 9"]),
    ("operation='notify' call-id='1' rc-code='0' interval='0'", "operation='promote' call-id='2' rc-code='0' interval='0'",
     "operation='monitor' call-id='-1' rc-code='193' op-status='-1' interval='9'", []),
    # Without a call id an operation is the first; what is no number is 0.
    ("operation='monitor' call-id='1' rc-code='7' interval='0' last-rc-change='6'",
     "operation='start' call-id='' rc-code='&#178;' interval='0' last-rc-change='-5'", ["start 0 0 0", "monitor 0 7 6"]),
    # Migrations: an arrival, a departure, a failure.
    ("operation='migrate_from' call-id='1' rc-code='0' interval='0' last-rc-change='5'",
     "operation='migrate_to' call-id='2' rc-code='0' interval='0'",
     "operation='migrate_from' call-id='3' rc-code='1' interval='0' last-rc-change='7'", ["start 0 0 5", "monitor 0 1 7"]),
    # A monitor of what is stopped finds nothing, as it should.
    ("operation='monitor' call-id='1' rc-code='7' interval='0' last-rc-change='5'",
     "operation='monitor' call-id='2' rc-code='7' interval='9' last-rc-change='6' transition-key='1:2:7:x'", ["monitor 0 7 5"]),
    # In flight.
    ("operation='monitor' call-id='4' rc-code='7' interval='0' last-rc-change='5'",
     "operation='start' call-id='-1' rc-code='193' op-status='-1' interval='0' last-rc-change='6'",
     "operation='stop' call-id='-1' rc-code='193' op-status='-1' interval='0' last-rc-change='7'",
     ["monitor 0 7 5", "start 0 0 6"]),
]
HISTORY = ("<cib><configuration><nodes><node id='1' uname='n'/></nodes><resources><primitive id='a' class='ocf' provider='p' type='D'/>"
           "</resources></configuration><status><node_state uname='n'><lrm><lrm_resources><lrm_resource id='a:0'>{}</lrm_resource>"
           "</lrm_resources></lrm></node_state></status></cib>")


def try_states():
    for terminate, attributes, fenced, unfenced in [("", *row) for row in STATES] + TERMINATED:
        inner = ATTRIBUTE.format(terminate) if terminate else ""
        for value, state in (("true", fenced), ("false", unfenced)):
            lines = tool("collect", "-q", "--now", "7", data=STATE.format(value, attributes, inner).encode())[1].splitlines()
            expect(f"the state of {attributes} {terminate} with fencing {value}", f"node n {state}" in lines, "\n".join(lines))


def try_histories():
    for *operations, lines in HISTORIES:
        xml = "".join(f"<lrm_rsc_op id='{at}' {one}/>" for at, one in enumerate(operations))
        output = tool("collect", "-q", "--now", "7", data=HISTORY.format(xml).encode())[1]
        found = [line[len("op n a "):] for line in output.splitlines() if line.startswith("op n a ")]
        expect(f"the history {operations}", found == lines, output)


def try_kept():
    names = sorted(name[:-4] for name in os.listdir(CIBS) if name.endswith(".xml"))
    expect("the CIBs that are kept", len(names) == 6)
    for name in names:
        text = kept("cibs", name + ".crm")
        status, output, said = tool("collect", os.path.join(CIBS, name + ".xml"))
        notes = "".join(f"# {line[9:]}\n" for line in said.splitlines())
        expect(f"collect {name}", (status, output) == (0, text) and text.startswith(notes), output + said)
        expect(f"check of {name}", own(text.encode())[0] == 0)


def try_text(folder):
    path = os.path.join(folder, "shown.crm")
    with open(path, "w", encoding="utf-8") as file:
        file.write(TEXT)
    status, output, said = tool("collect", "-q", "--now", "7", "--config", path, data=EMPTY)
    lines = "".join(line for line in output.splitlines(True) if not line.startswith("# ") or line in TEXT)
    expect("collect --config", (status, lines, said) == (0, REWRITTEN, ""), output + said)
    expect("check of what --config gives", own(output.encode())[0] == 0)


def try_begun(folder):
    """Statements that have only their word stay, to be refused."""
    path = os.path.join(folder, "begun.crm")
    for word in ("node", "primitive", "group", "clone", "location", "order", "property"):
        with open(path, "w", encoding="utf-8") as file:
            file.write(word + "\n")
        status, output, said = tool("collect", "-q", "--now", "7", "--config", path, data=EMPTY)
        expect(f"{word} alone", (status, output, said) == (0, word + "\n%status\nnow 7\nquorum yes\n", ""), output + said)


def try_health(folder):
    """A strategy of health stays where a node has an attribute of health."""
    path = os.path.join(folder, "health.crm")
    for attribute, stays in (("#health-disk=red", True), ("health=red", False)):
        with open(path, "w", encoding="utf-8") as file:
            file.write(f"node n attributes {attribute}\nproperty node-health-strategy=only-green\n")
        output = tool("collect", "-q", "--config", path, data=EMPTY)[1]
        expect(f"health with {attribute}", ("property node-health-strategy=only-green" in output.splitlines()) == stays, output)


def try_refused():
    for xml, line in REFUSED.items():
        status, output, said = tool("collect", data=SMALL.format(xml).encode())
        expect(f"what stays: {line}", status == 0 and line in output.splitlines(), output + said)
        expect(f"what is refused: {line}", own(output.encode())[0] == 5)


def try_rules():
    for node, primitive, word in RULED:
        output = tool("collect", "-q", data=WITH_SETS.format(node, primitive).encode())[1]
        expect(f"a rule of {word}", f"\t{word} \\\n\trule 5: rsc_expression priority=4\n" in output, output)
        expect(f"a rule of {word} is refused", own(output.encode())[1].endswith(b" Unsupported\n"), output)
    for cluster, site, lines in SITES:
        output = tool("collect", "-q", data=SITE.format(cluster, site).encode())[1]
        found = [line for line in output.splitlines() if line.startswith("\tattributes")]
        expect(f"the site of {cluster} {site}", found == lines and own(output.encode())[0] == 0, output)


def try_constraints():
    for xml, lines in CONSTRAINTS:
        status, output, said = tool("collect", data=SEVERAL.format(xml).encode())
        found = [line for line in output.splitlines() if line.startswith(("location ", "colocation ", "order "))]
        expect(f"constraints: {xml}", status == 0 and found == lines and "primitive a ocf:p:D" in output.splitlines(), output + said)
        expect(f"check of constraints: {xml}", own(output.encode())[0] == 0)


def try_templates():
    for *sources, lines in TEMPLATES:
        boxes = ("".join(f"<op id='{at}-{len(source)}' {one}/>" for at, one in enumerate(source)) for source in sources)
        output = tool("collect", "-q", data=TEMPLATE.format(*boxes).encode())[1]
        found = [line.strip("\\ \t")[len("op "):] for line in output.splitlines() if line.startswith("\top ")]
        expect(f"operations with a template: {lines}", found == lines, output)


def try_inputs():
    packed = tool("collect", "-q", "--now", "7", data=bz2.compress(EMPTY))
    expect("a packed CIB", packed == (0, "%status\nnow 7\nquorum yes\n", ""), str(packed))
    broken = "<rsc_location id='l&#10;x' rsc='a&#10;%results' node='gone&#10;lost n' score='1'/>"
    status, output, _ = tool("collect", data=SMALL.format(broken).encode())
    expect("names over several lines", status == 0 and not {"x", "%results", "lost n"} & set(output.splitlines()), output)
    nameless = SMALL.replace("id='a'", "").format("").encode()
    for data in (b"", b"node n1\n", b"<crm_mon/>", b"<?xml version='1.0' encoding='none'?><cib/>", nameless):
        status, output, said = tool("collect", data=data)
        expect("no CIB", (status, output, said.count("\n")) == (1, "", 1) and said.startswith("collect: standard input: "), said)
    expect("no file", tool("collect", "/nonexistent")[0] == 1)
    for command, place in (('"$0" <&-', "standard input"), ('"$0" "$1" >&-', "the output"), ('"$0" "$1" > /dev/full', "the output")):
        done = subprocess.run(["bash", "-c", command, os.path.join(TOP, "tools", "collect"), os.path.join(CIBS, "lost-node.xml")],
                              stdout=subprocess.PIPE, stderr=subprocess.PIPE)
        said = done.stderr.decode("utf-8")
        expect(command, (done.returncode, said.count("\n")) == (1, 1) and said.startswith(f"collect: {place}: "), said)


def try_all(folder):
    try_kept()
    try_text(folder)
    try_begun(folder)
    try_health(folder)
    try_refused()
    try_rules()
    try_constraints()
    try_templates()
    try_states()
    try_histories()
    try_inputs()
