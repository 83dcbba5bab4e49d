"""Tries what `tools/collect` makes of what depends on the moment and on attributes: rules, scores by attribute,
patterns, nodes in maintenance; and what --near leaves out."""
import ctypes
import os
import random

from expecting import TOP, expect, own, tool

from collect.patterns import Pattern, Unsaid, Wrong

NOW = "1796000000"  # Monday 2026-11-30, 00:53:20 UTC
AGENT = "class='ocf' provider='p' type='D'"
NAMES = ("vm1", "vm2", "vmx", "db")
CIB = ("<cib have-quorum='1'><configuration><nodes>"
       "<node id='1' uname='n1'><instance_attributes id='i1'><nvpair id='r1' name='rack' value='north'/><nvpair id='p1' name='ping' value='100'/>"
       "</instance_attributes></node>"
       "<node id='2' uname='n2'><instance_attributes id='i2'><nvpair id='r2' name='rack' value='01'/><nvpair id='p2' name='ping' value='5.5'/>"
       "</instance_attributes></node><node id='3' uname='n3'/></nodes><resources>"
       + "".join(f"<primitive id='{name}' {AGENT}>{{{name}}}</primitive>" for name in NAMES)
       + "</resources><constraints>{constraints}</constraints></configuration></cib>")


def cib(constraints="", **inner):
    return CIB.format(constraints=constraints, **{name: inner.get(name, "") for name in NAMES}).encode()


def collected(data, *words):
    """The status, the statements that aren't nodes or primitives, each on one line, and the notes."""
    status, output, said = tool("collect", "--now", NOW, *words, data=data)
    lines = output.split("%status")[0].replace(" \\\n\t", " ").splitlines()
    return status, [line for line in lines if not line.startswith(("#", "node", "primitive"))], said


def expression(attribute, operation, value=None, kind=None):
    more = (f" value='{value}'" if value is not None else "") + (f" type='{kind}'" if kind else "")
    return f"<expression id='e-{attribute}-{operation}' attribute='{attribute}' operation='{operation}'{more}/>"


def date(operation, inner="", **attributes):
    return f"<date_expression id='d' operation='{operation}' {' '.join(f'{key}={value!r}' for key, value in attributes.items())}>{inner}</date_expression>"


def spec(**attributes):
    return date("date_spec", f"<date_spec id='s' {' '.join(f'{key}={value!r}' for key, value in attributes.items())}/>")


def rule(*tests, joined="and", score="score='-INFINITY'"):
    return f"<rule id='r' boolean-op='{joined}' {score}>{''.join(tests)}</rule>"


EVERY, NO_RACK = spec(hours="0-23"), expression("rack", "not_defined")
# Rules of a location, and what stands behind `location l vm1`; nothing where it is left out.
RULES = [
    (rule(expression("rack", "ne", "north")), ["rule -INFINITY: not_defined rack or rack ne north"]),
    (rule(expression("rack", "ne", "north"), expression("ping", "defined"), joined="or"),
     ["rule -INFINITY: not_defined rack or rack ne north or defined ping"]),
    (rule(expression("rack", "ne", "north"), expression("ping", "not_defined")), ['rule -INFINITY: "#uname" ne n1 and not_defined ping']),
    (rule(expression("rack", "ne", "north"), expression("ping", "defined")), ['rule -INFINITY: "#uname" ne n1 and defined ping']),
    (rule(expression("#uname", "ne", "n1")), ['rule -INFINITY: "#uname" ne n1']),
    (rule(expression("rack", "eq", "North")), ['rule -INFINITY: "#uname" eq n1']),
    (rule(expression("#uname", "eq", "N2")), ['rule -INFINITY: "#uname" eq n2']),
    (rule(expression("rack", "eq", "1")), []),
    (rule(expression("rack", "eq", "north")), ["rule -INFINITY: rack eq north"]),
    (rule(expression("ping", "gt", "5", "number")), ['rule -INFINITY: "#uname" eq n1 or "#uname" eq n2']),
    (rule(expression("ping", "gt", "5.2")), ['rule -INFINITY: "#uname" eq n1 or "#uname" eq n2']),
    (rule(expression("ping", "lt", "100")), ['rule -INFINITY: "#uname" eq n2']),
    (rule(expression("ping", "lt", "50")), ["rule -INFINITY: ping lt 50"]),
    (rule(rule(expression("rack", "eq", "north"), NO_RACK, joined="or"), expression("ping", "defined")),
     ['rule -INFINITY: "#uname" ne n2 and defined ping']),
    (rule(EVERY, NO_RACK), ["rule -INFINITY: not_defined rack"]),
    (rule(EVERY, NO_RACK, joined="or"), ['rule -INFINITY: defined "#uname"']),
    (rule(spec(years="2000"), NO_RACK), []),
    (rule(spec(years="2000"), NO_RACK, joined="or"), ["rule -INFINITY: not_defined rack"]),
    (rule(spec(hours="0-1", weekdays="1", months="11", monthdays="30", weeks="49")), ['rule -INFINITY: defined "#uname"']),
    (rule(spec(moon="0")), ["rule -INFINITY: date spec moon=0"]),
    (rule(date("in_range", start="2026-11-30")), ["rule -INFINITY: date in start=2026-11-30 end=9999-12-31"]),
    (rule(date("in_range", end="2026-11-30 +01:00")), ["rule -INFINITY: date in start=0001-01-01 end=2026-11-30T00:00:00+01:00"]),
    (rule(date("in_range", "<duration id='u' hours='5' months='1'/>", start="2026-10-31 10:00:00 +0100")),
     ["rule -INFINITY: date in start=2026-10-31T10:00:00+01:00 end=2026-11-30T14:00:00Z"]),
    (rule(expression("ping", "defined"), score="score-attribute='ping'"), ["100: n1", "5: n2"]),
    (rule(NO_RACK, score="score-attribute='ping'"), ["-INFINITY: n3"]),
    (rule(expression("rack", "eq", "nowhere"), score="score-attribute='ping'"), []),
    (rule(expression("ping", "version"), score="score-attribute='ping'"), ["rule ping: ping version \"\""]),
]


def try_rules():
    for xml, rests in RULES:
        status, lines, said = collected(cib(f"<rsc_location id='l' rsc='vm1'>{xml}</rsc_location>"))
        found = [line.partition(" vm1 ")[2] for line in lines]
        expect(f"the rule {xml}", (status, found) == (0, rests), "\n".join(lines) + said)


# Sets with a rule, and what the resource says of it.
SETS = [
    (rule(EVERY, score="score='0'"), "9", ["meta priority=4 is-managed=true"]),
    (rule(EVERY, score="score='0'"), "-9", ["meta priority=1 is-managed=true"]),
    (rule(spec(hours="5-9"), score="score='0'"), "9", ["meta priority=1"]),
    (rule(expression("rack", "eq", "north")), "9", ["meta priority=1"]),
    (rule(expression("rack", "not_defined")), "9", ["meta priority=4 is-managed=true"]),
]


def try_sets():
    for xml, score, parts in SETS:
        inner = (f"<meta_attributes id='m1'><nvpair id='v1' name='priority' value='1'/></meta_attributes><meta_attributes id='m2' score='{score}'>"
                 f"{xml}<nvpair id='v2' name='priority' value='4'/><nvpair id='v3' name='is-managed' value='true'/></meta_attributes>")
        output = tool("collect", "-q", "--now", NOW, data=cib(vm1=inner))[1].replace(" \\\n\t", " ")
        expect(f"a set with the rule {xml}", [line for line in output.splitlines() if line.startswith("primitive vm1 ")] ==
               [" ".join(["primitive vm1 ocf:p:D", *parts])], output)


# Patterns, and the names that they match; nothing where the location stays, to be refused.
PATTERNS = [
    ("^vm[[:digit:]]+$", ["vm1", "vm2"]), ("!^vm[[:digit:]]+$", ["vmx", "db"]), ("(m+)+$", []), ("vm{1}[^0-9]", ["vmx"]), ("[]d]b|^vmx", ["vmx", "db"]),
    ("^*", []), ("[[:digits:]]", []), (r"(v)\1", None), (r"\<vm", None), ("(" * 1500 + "v" + ")" * 1500, None), ("(v{99}){99}", None),
]


def try_patterns():
    for pattern, names in PATTERNS:
        xml = f"<rsc_location id='l' rsc-pattern='{pattern.replace('<', '&lt;')}' node='n1' score='-INFINITY'/>"
        status, lines, said = collected(cib(xml))
        found = [line.split()[2] for line in lines if line.startswith("location l")]
        shown = names if names is not None else found[:1]
        expect(f"the pattern {pattern}", status == 0 and found == shown and len(found) >= (names is None), "\n".join(lines) + said)
        expect(f"what is said of the pattern {pattern}", bool(names) or f"pattern {pattern}" in said, said)
    text = tool("collect", "-q", data=cib("<rsc_location id='l' rsc-pattern='(v)\\1' node='n1' score='1'/>"))[1]
    expect("a pattern that stays is refused", own(text.encode())[0] == 5, text)
    long = "m" * 250 + "x"
    expect("a pattern that could be tried in many ways", not Pattern("(m+)+$").is_in(long) and not Pattern("(m*)*(m*)*(m*)*y").is_in(long))


def try_library():
    """The same as the C library finds, where it is that of GNU."""
    library = ctypes.CDLL(None)
    if not hasattr(library, "gnu_get_libc_version"):
        return
    draws = random.Random(5)
    pieces = list("ab1-_.^$|()*+?[]{},\\") + ["[[:digit:]]", "[^a]", "[a-b]", "{2}", "{1,2}", "{,1}", "[]a]", "[[=a=]]", "\\w", "(a|b)", "[^", "[:"]
    for _ in range(3000):
        text = "".join(draws.choice(pieces) for _ in range(draws.randint(0, 8)))
        names = ["".join(draws.choice("ab1-_.") for _ in range(draws.randint(0, 6))) for _ in range(5)]
        expression_of_library = ctypes.create_string_buffer(256)
        is_wrong = library.regcomp(expression_of_library, text.encode(), 1) != 0
        try:
            found = [Pattern(text).is_in(name) for name in names]
        except Wrong:
            found = None
        except Unsaid:
            continue
        known = None if is_wrong else [library.regexec(expression_of_library, name.encode(), 0, None, 0) == 0 for name in names]
        expect(f"the pattern {text} of {names}", found == known, f"{found} {known}")


def try_nesting():
    groups = "<group id='g'>" * 1500 + "</group>" * 1500
    for data in (cib(f"<rsc_location id='l' rsc='vm1'>{'<rule>' * 1500}{'</rule>' * 1500}</rsc_location>"),
                 f"<cib><configuration><resources>{groups}</resources></configuration></cib>".encode()):
        status, output, said = tool("collect", data=data)
        expect("1,500 levels", (status, output, said.count("\n")) == (1, "", 1) and "nested more than" in said, said)


def try_lifetimes():
    for text, stays in (("2026-12-01", 1), ("2026-11-29", 0)):
        lifetime = f"<lifetime>{rule(date('lt', end=text))}</lifetime>"
        for xml in (f"<rsc_location id='l' rsc='vm1' node='n1' score='1'>{lifetime}</rsc_location>",
                    f"<rsc_colocation id='l' rsc='vm1' with-rsc='db' score='1'>{lifetime}</rsc_colocation>"):
            _, lines, said = collected(cib(xml))
            expect(f"a lifetime until {text}", len(lines) == stays and not any("lifetime" in line for line in lines), said)
    unknown = f"<rsc_location id='l' rsc='vm1' node='n1' score='1'><lifetime>{rule(spec(moon='0'))}</lifetime></rsc_location>"
    expect("a lifetime that isn't known", collected(cib(unknown))[1] == ["location l vm1 1: n1 lifetime"], collected(cib(unknown))[2])


STATE = ("<node_state uname='{0}' in_ccm='true' crmd='online' join='member' expected='member'><lrm><lrm_resources>{1}</lrm_resources></lrm>"
         "</node_state>")


def state(node, *running):
    return STATE.format(node, "".join(f"<lrm_resource id='{name}'><lrm_rsc_op id='o' operation='start' call-id='1' rc-code='0'/></lrm_resource>"
                                      for name in running))


def try_maintenance():
    """What runs on a node in maintenance is left alone; where copies run elsewhere too, --near says so of all."""
    found = cib(vm2="<meta_attributes id='m'><nvpair id='w' name='is-managed' value='true'/></meta_attributes>").decode()
    found = found.replace("name='rack' value='north'", "name='maintenance' value='on'")
    found = found.replace("</cib>", f"<status>{state('n1', 'vm1', 'vm2')}{state('n2', 'db')}</status></cib>")
    output = tool("collect", "--now", NOW, data=found.encode())[1]
    for line in ("primitive vm1 ocf:p:D \\\n\tmeta is-managed=false\n", "primitive vm2 ocf:p:D \\\n\tmeta is-managed=false\n", "primitive db ocf:p:D\n",
                 "node 1: n1 \\\n\tattributes standby=on ping=100\n",
                 "# node n1 is in maintenance: written as in standby, with is-managed=false of what runs there: vm1 vm2\n"):
        expect(f"a node in maintenance: {line}", line in output, output)
    expect("a node in maintenance is accepted", own(output.encode())[0] == 0, output)
    copied = found.replace(f"<primitive id='db' {AGENT}></primitive>", f"<clone id='c'><primitive id='db' {AGENT}/></clone>")
    copied = copied.replace(state("n1", "vm1", "vm2"), state("n1", "vm1", "db"))
    output = tool("collect", "--now", NOW, data=copied.encode())[1]
    expect("copies on a node in maintenance", "maintenance=on" in output and own(output.encode())[0] == 5, output)
    output = tool("collect", "--near", "--now", NOW, data=copied.encode())[1]
    expect("the same with --near", own(output.encode())[0] == 0 and output.startswith("# answers for a similar cluster"), output)


# Statements, and what --near makes of them; nothing where they are left out. Those that stay are refused.
NEAR = [
    ("colocation k 200: a m:Unpromoted", None), ("colocation k inf: a m:Unpromoted", "colocation k inf: a m:Unpromoted"),
    ("colocation k -5: m:Slave a", None), ("colocation k 5: a m:Promoted", "colocation k 5: a m:Promoted"),
    ("clone c g meta ordered=yes interleave=true", "clone c g meta interleave=true"), ("clone c g meta ordered=true", "clone c g"),
    ("op_defaults timeout=5 on-fail=restart", "op_defaults timeout=5"), ("op_defaults on-fail=restart", None),
    ("op_defaults on-fail=fence", "op_defaults on-fail=fence"), ("property no-quorum-policy=suicide", "property no-quorum-policy=stop"),
    ("primitive z D op monitor interval=9 on-fail=standby", "primitive z D op monitor interval=9 on-fail=fence"),
    ("primitive z D op stop on-fail=ignore timeout=9", "primitive z D op stop timeout=9"),
    ("primitive z D op monitor interval=9 on-fail=ignore", "primitive z D op monitor interval=9 on-fail=ignore"),
    ("primitive z D op monitor interval=9 role=Stopped op start timeout=1", "primitive z D op start timeout=1"),
    ("location l a resource-discovery=never -inf: n1", "location l a -inf: n1"),
]
HEAD = "node n1\nprimitive a D\nprimitive b D\nprimitive d D\ngroup g b\nms m d\n"


def try_near(folder):
    path = os.path.join(folder, "near.crm")
    for text, other in NEAR:
        with open(path, "w", encoding="utf-8") as file:
            file.write(HEAD + text + "\n")
        status, output, _ = tool("collect", "-q", "--near", "--now", NOW, "--config", path, data=b"<cib><configuration/></cib>")
        said, body = output.split("node n1\n")
        lines = body.split("%status")[0].replace(" \\\n\t", " ").splitlines()[HEAD.count("\n") - 1:]
        expect(f"--near: {text}", (status, lines) == (0, [other] if other else []), output)
        expect(f"the head of --near: {text}", said.startswith("# answers for a similar cluster") == (other != text), output)


def try_everyday():
    """The nine clusters get an answer, by which nothing has to be done; five of them without --near."""
    folder = os.path.join(TOP, ".ci", "cibs", "everyday")
    names, plain = sorted(os.listdir(folder)), []
    for name in names:
        text = tool("collect", "-q", "--near", os.path.join(folder, name))[1].encode()
        expect(f"{name} is accepted", own(text)[0] == 0, text.decode())
        expect(f"{name} is at rest", own(text, "graph") == (0, b"") and own(text, "scores")[0] == 0, own(text, "graph")[1].decode())
        plain += [name] if own(tool("collect", "-q", os.path.join(folder, name))[1].encode())[0] == 0 else []
    expect("the nine clusters", (len(names), len(plain)) == (9, 5), f"{names} {plain}")


def try_all(folder):
    try_rules()
    try_sets()
    try_patterns()
    try_library()
    try_nesting()
    try_lifetimes()
    try_maintenance()
    try_near(folder)
    try_everyday()
