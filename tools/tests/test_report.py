"""Tries `tools/report`: the structure of its pages, that nothing of an input becomes markup, and how they look where
Chromium is installed."""
import html.parser
import os
import re
import shutil
import subprocess

from expecting import ENVIRONMENT, TOP, WRAPPER, expect, problems, tool

EXAMPLES = os.path.join(TOP, "examples")
VOID = ("meta", "input", "br")
SECTIONS = ["short", "placement", "plan", "losses", "run", "notes", "text"]

# Names that aren't to become markup, where an input may have them.
EVIL = '<script>alert(1)</script>'
WORSE = '"><img src=x onerror=alert(1)>'
HOSTILE = f"""node n1 attributes "a{EVIL}"="{WORSE.replace('"', chr(92) + '"')}"
node n2
primitive vip IPaddr2 description='{WORSE}' params ip=192.0.2.1 password=swordfish "note={EVIL}" passwd="two words"
primitive disk Filesystem meta remote-node='{EVIL}'
location l-{{}} vip 5: n1
%status
now 10
quorum yes
node n1 online
node n2 online
"""


class Page(html.parser.HTMLParser):
    """The elements of a page: which are open where, ids, links, headings and cells."""

    def __init__(self, text):
        super().__init__()
        self.open, self.problems, self.ids, self.links, self.headings, self.elements, self.words = [], [], [], [], [], {}, []
        self.feed(text)
        self.close()
        self.problems += [f"{name} isn't closed" for name in self.open]

    def handle_starttag(self, name, attributes):
        found = dict(attributes)
        self.elements.setdefault(name, []).append(found)
        if "id" in found:
            self.ids.append(found["id"])
        if name == "a":
            self.links.append(found.get("href", ""))
        if re.fullmatch("h[1-6]", name):
            self.headings.append(int(name[1]))
        if name not in VOID:
            self.open.append(name)

    def handle_endtag(self, name):
        if not self.open or self.open.pop() != name:
            self.problems.append(f"{name} is closed where it isn't open, at {self.getpos()}")

    def handle_data(self, data):
        if "script" not in self.open and "style" not in self.open:
            self.words.append(data)


def check_structure(name, text, sections=SECTIONS):
    """What each page has: one main heading, no level left out, headers with their scope, links that lead somewhere,
    nothing from elsewhere."""
    page = Page(text)
    expect(f"{name}: elements", not page.problems, str(page.problems[:5]))
    expect(f"{name}: ids", len(set(page.ids)) == len(page.ids), str([one for one in page.ids if page.ids.count(one) > 1][:5]))
    lost = [link for link in page.links if not link.startswith("#") or link[1:] not in page.ids]
    expect(f"{name}: links", not lost, str(lost[:5]))
    steps = list(zip(page.headings, page.headings[1:]))
    expect(f"{name}: headings", page.headings[:1] == [1] and page.headings.count(1) == 1 and all(new <= old + 1 for old, new in steps), str(page.headings))
    expect(f"{name}: sections", [found["id"] for found in page.elements["section"] if "id" in found] == sections)
    expect(f"{name}: table headers", all("scope" in found for found in page.elements.get("th", [])))
    expect(f"{name}: captions", len(page.elements.get("caption", [])) == len(page.elements.get("table", [])))
    expect(f"{name}: one script, one style", len(page.elements["script"]) == len(page.elements["style"]) == 1 and not page.elements["script"][0])
    loading = [name for name in ("img", "link", "iframe", "object", "embed", "base", "form") if name in page.elements]
    handlers = [key for found in page.elements.values() for own in found for key in own if key.startswith("on") or key == "src"]
    expect(f"{name}: nothing from elsewhere", not loading and not handlers and "http" not in re.sub(r"http-equiv|http://127", "", text), str(loading + handlers))
    return " ".join(" ".join(page.words).split())


def report(*words, data=b""):
    return tool("report", *words, data=data)


def example(*names):
    return [os.path.join(EXAMPLES, name) for name in names]


def try_examples():
    """What a reader looks for is said on the pages of examples."""
    said = {
        ("group-moves.crm", "group-moves.results"): ["What happens first stop db on db1", "Loss of db1 : nothing goes down", "Loss of db2 : db goes down",
                                                     "Moves from db1 to db2", "took too long"],
        ("web-server.crm", "web-server.status"): ["group site", "Moves from web1 to web2", "its start failed with exit code 1 on web1; web2 is next",
                                                  "The input has no results", "Nothing here has happened yet"],
        ("drbd-postgresql.crm", "drbd-postgresql.status"): [
            "its group postgresql must be where data-copies is promoted ( postgresql-where-promoted ), and that becomes db2",
            "8 actions and 5 monitors, at most", "8 actions and 5 monitors begin", "database-address : no node could be chosen", "so none is marked"],
        ("failed-start.crm",): ["If a node is lost, once this plan is done", "archive and report have no place in any case",
                                "archive : no node could be chosen",
                                "the start of site, which is in its group, failed with exit code 1 on web1; web2 is next"],
        ("sap-hana.crm",): ["promotable clone", "is promoted on hana2", "Totals for the promotion"],
    }
    for names, words in said.items():
        status, text, error = report(*example(*names))
        expect(f"report of {names[0]}", status == 0 and not error, error)
        shown = check_structure(f"report of {names[0]}", text) if text else ""
        for word in words:
            expect(f"report of {names[0]}: {word}", word in re.sub(r" ([.,;])", r"\1", shown) or word in shown, shown[:3000])


# What must be with what is elsewhere; a rule that may bar a node too makes the cause uncertain.
CHAIN = """node n1
node n2
primitive a Dummy
primitive b Dummy
primitive c Dummy
primitive d Dummy
colocation b-with-a inf: b a
colocation c-with-b inf: c b
location a-n2 a 500: n2
rsc_defaults resource-stickiness=10
property stonith-enabled=no
{}%status
now 2000
quorum yes
node n1 online
node n2 online
op n1 a start 0 0 1000
op n1 b start 0 0 1000
op n1 c start 0 0 1000
op n2 d start 0 {} 1000
op n2 a monitor 0 7 990
op n2 b monitor 0 7 990
op n2 c monitor 0 7 990
op n1 d monitor 0 7 990
"""


def try_causes():
    """A cause is named first where it is certain, to the end of the chain; else the totals are."""
    whole = "it must be where b is ( c-with-b ), which must be where a is ( b-with-a ), and that becomes n2"
    for more, code, said, unsaid in (("", 0, whole, "its start failed"), ("colocation d-not-c -inf: d c\n", 0, "c-with-b isn't met there", whole),
                                     ("", 1, "its start failed with exit code 1 on n2; n1 is next", "may not have it"),
                                     ("location d-not-n2 d -inf: n2\n", 1, "may not have it ( d-not-n2 )", "its start failed")):
        shown = check_structure("report of a chain", report(data=CHAIN.format(more, code).encode())[1])
        expect(f"report of a chain {more}{code}", said in re.sub(r" ([.,;])", r"\1", shown) and unsaid not in shown, shown[:2500])


def try_hostile(folder):
    """Nothing that an input says becomes markup, and passwords are hidden."""
    data = HOSTILE.format("a").encode()
    status, text, _ = report(data=data)
    expect("report of names like markup", status == 0, text[-500:])
    shown = check_structure("report of names like markup", text)
    expect("report: names are shown as they are", EVIL in shown and "img src=x onerror" in shown and "<img" not in text, shown[-1500:])
    expect("report: passwords", "swordfish" not in text and "two words" not in text and "two words" in report("--secrets", data=data)[1])
    status, text, error = report(data=f"node n1\nprimitiv {EVIL} '{WORSE}'\nlocation l {EVIL} \u202e5: n1\n".encode())
    expect("report of a refused input", status == 5 and "refused" in error, error)
    shown = check_structure("report of a refused input", text, ["refusals", "notes", "text"])
    expect("report: the marked word", "<mark>primitiv</mark>" in text and EVIL in shown and "\u202e" not in text, shown[:800])
    path = os.path.join(folder, EVIL.replace("/", "") + ".crm")
    with open(path, "w", encoding="utf-8") as file:
        file.write("node n1\nproperty stonith-enabeld=no\n")
    shown = check_structure("report of a file with such a name", report(path)[1])
    expect("report: a note with its word", "is stonith-enabled meant?" in re.sub(" +", " ", shown), shown[:1500])


def try_change(folder):
    """A changed configuration: what is done otherwise comes first."""
    cib = os.path.join(TOP, ".ci", "cibs", "two-nodes.xml")
    with open(os.path.join(TOP, ".ci", "cibs", "two-nodes.crm"), encoding="utf-8") as file:
        new = file.read().partition("%status")[0].replace("site-prefers-web1 site 50:", "site-not-on-web1 site -inf:")
    path = os.path.join(folder, "changed.crm")
    with open(path, "w", encoding="utf-8") as file:
        file.write(new)
    status, text, error = report("--change", path, cib)
    expect("report of a change", status == 0, error)
    shown = check_structure("report of a change", text, ["change", *SECTIONS])
    expect("report of a change: what changes", "The loss of web2 would bring down site-address and site-server , which it doesn't now" in shown, shown[:1500])
    status, text, error = report("--standby", "web1", cib)
    shown = check_structure("report of a standby", text, ["change", *SECTIONS])
    expect("report of a standby", status == 0 and "Change report: --standby web1 for two-nodes.xml" in shown and "Moves from web1 to web2" in shown, error + shown[:1500])
    status, text, error = report("--change", path, "--lost", "web2", cib)
    expect("report of a change and a loss", status == 0 and "<title>Change report: changed.crm --lost web2 for" in text, error + text[:300])
    for change, told in CHANGED.items():
        text = report(*change.split(), cib)[1]
        expect(f"report {change}", told in check_structure(f"report {change}", text, ["change", *SECTIONS]), text[-1500:])
    expect("report of a change that can't be", report("--lost", "web9", cib)[:2] == (2, ""))
    expect("report of a change without a file", report("--change", "/nonexistent", cib)[0] == 3)
    expect("report of no file", report("/nonexistent")[0] == 3)
    expect("report of wrong words", report("--nonsense")[0] == 2)


CHANGED = {
    "--fail site-server@web1=1": "Restarts on web1", "--move site web2": "Moves from web1 to web2", "--ban site web1": "Moves from web1 to web2",
    "--clear site": "The same is done with each resource", "--stop site": "Stops on web1", "--start site": "The same is done with each resource",
    "--maintenance": "it isn't managed", "--online web1": "The same is done with each resource",
}

REPORTS = {
    "failed-start": ["failed-start.crm", "failed-start.results"], "group-moves": ["group-moves.crm", "group-moves.results"],
    "lost-node": ["lost-node.crm", "lost-node.results"], "drbd-postgresql": ["drbd-postgresql.crm", "drbd-postgresql.status"],
    "web-server": ["web-server.crm", "web-server.status", "web-server.results"],
}


def make_reports(folder):
    """Reports of five examples and of a change, in a folder: how many there are, and what isn't as it should be."""
    os.makedirs(folder, exist_ok=True)
    new = os.path.join(folder, "drained.crm")
    with open(os.path.join(EXAMPLES, "web-server.crm"), encoding="utf-8") as file, open(new, "w", encoding="utf-8") as changed:
        changed.write(file.read().replace("standby=off", "standby=on", 1))
    words = {name: example(*files) for name, files in REPORTS.items()}
    words["change"] = ["--change", new, *example("web-server.crm", "web-server.status")]
    for name, own in words.items():
        with open(os.path.join(folder, name + ".html"), "w+", encoding="utf-8") as page:
            status = subprocess.run([WRAPPER, "report", *own], stdout=page, env=ENVIRONMENT).returncode
            expect(f"report {name}: status", status == 0, str(status))
            page.seek(0)
            check_structure(f"report {name}", page.read(), ["change"] * (name == "change") + SECTIONS)
    return len(words), problems


def browser():
    return next(filter(None, map(shutil.which, ("chromium", "chromium-browser", "google-chrome"))), None)


LOOK = """<script>onload = () => { const frame = document.querySelector("iframe"), page = frame.contentDocument, box = page.getElementById("filter");
  const wide = page.documentElement.scrollWidth, hidden = () => page.querySelectorAll(".places tr[data-find][hidden]").length;
  const places = page.querySelector("#placement .wide"), whole = places.scrollWidth <= places.clientWidth;
  const low = [...page.querySelectorAll("summary, #totals, .told a, nav a")].filter(one => one.getBoundingClientRect().height < 24).length;
  box.value = "fence"; box.dispatchEvent(new Event("input"));
  setTimeout(() => { document.title = [wide <= frame.clientWidth, hidden() > 0, !box.parentNode.hidden, whole, low === 0].join(" "); }, 600); };</script>"""


def try_looks(folder):
    """In a browser, on a phone's width: neither the page nor its table is wider than the screen, what is tapped is high
    enough, the filter finds a resource."""
    if not browser():
        print("report: Chromium isn't installed, so no page is looked at")
        return
    page, frame = os.path.join(folder, "page.html"), os.path.join(folder, "frame.html")
    with open(page, "w", encoding="utf-8") as file:
        file.write(report(*example("web-server.crm", "web-server.status"))[1])
    with open(frame, "w", encoding="utf-8") as file:
        file.write(f'<!DOCTYPE html><iframe src="page.html" style="width:400px;height:2000px;border:0"></iframe>{LOOK}')
    words = [browser(), "--headless=new", "--no-sandbox", "--disable-gpu", "--allow-file-access-from-files", "--virtual-time-budget=4000",
             f"--user-data-dir={folder}/profile", "--dump-dom", "file://" + frame]
    try:
        done = subprocess.run(words, stdout=subprocess.PIPE, stderr=subprocess.PIPE, env=ENVIRONMENT, timeout=240)
    except subprocess.TimeoutExpired:
        expect("report in Chromium", False, "it took longer than four minutes")
        return
    found = re.search(rb"<title>(.*?)</title>", done.stdout)
    expect("report in Chromium", found and found[1] == b"true true true true true", str(found and found[1]) + done.stderr.decode()[-500:])


def try_same():
    """The page of an input is always the same, whatever order Python gives the members of a set."""
    path = os.path.join(TOP, "examples", "drbd-postgresql.crm")
    pages = [subprocess.run([WRAPPER, "report", path], env=dict(ENVIRONMENT, PYTHONHASHSEED=seed), stdout=subprocess.PIPE).stdout for seed in "123456"]
    expect("the same report each time", len(set(pages)) == 1 and pages[0].startswith(b"<!"))


def try_all(folder):
    try_examples()
    try_same()
    try_causes()
    try_hostile(folder)
    try_change(folder)
    try_looks(folder)
