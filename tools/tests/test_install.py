"""Tries `tools/install`, its uninstall, `tools/release` and the hook for git, as on a machine that has nothing else."""
import os
import shutil
import subprocess

from expecting import ENVIRONMENT, PROGRAM, TOP, expect, plain, tool

PLACES = ["bin/cekpayo", "bin/cekpayo-collect", "bin/cekpayo-dot", "bin/cekpayo-json", "bin/cekpayo-summary",
          "bin/cekpayo-what-if", "lib/cekpayo/sim_cli", "lib/cekpayo/docs/USAGE.md", "lib/cekpayo/docs/TOOLS.md", "lib/cekpayo/docs/CAUSES.md",
          "share/man/man1/cekpayo.1", "share/bash-completion/completions/cekpayo"]
ACCEPTED = "node n1\nprimitive vip ocf:heartbeat:IPaddr2\n# nodes 1 leaves 1 rules 0\n"


def run(command, folder, environment=None):
    done = subprocess.run(["bash", "-c", command], cwd=folder, env=environment or plain(), stdout=subprocess.PIPE,
                          stderr=subprocess.PIPE, text=True)
    return done.returncode, done.stdout, done.stderr


def files_below(folder):
    return sorted(os.path.relpath(os.path.join(here, name), folder) for here, _, names in os.walk(folder) for name in names)


def try_install(folder):
    prefix = os.path.join(folder, "a prefix")
    os.makedirs(os.path.join(prefix, "bin"))
    with open(os.path.join(prefix, "own"), "w", encoding="utf-8"):
        pass
    for _ in range(2):
        status, _, said = tool("install", prefix)
        expect("install", status == 0 and set(PLACES) <= set(files_below(prefix)), said)
    before = files_below(prefix)
    expect("no tests are installed", not any("tests" in place for place in before), str(before))
    status, _, said = tool("install", prefix, environment=dict(ENVIRONMENT, CEKPAYO_PROGRAM="/nonexistent"))
    expect("install of no program", status == 1 and files_below(prefix) == before, said)
    status, _, said = run('lib/cekpayo/tools/install "$PWD"', prefix)
    expect("install onto itself", status == 0 and files_below(prefix) == before, said)
    answer = run("printf 'node n1\\nprimitive vip IPaddr2\\n' | bin/cekpayo check -q && bin/cekpayo explain badtime >&2", prefix)
    expect("an installed program", answer[:2] == (0, ACCEPTED) and "BadTime" in answer[2], str(answer))
    cib = os.path.join(TOP, ".ci", "cibs", "two-nodes.xml")
    answer = run(f"bin/cekpayo-collect -q {cib} | bin/cekpayo scores | bin/cekpayo-summary | tail -n 1", prefix)
    expect("installed tools", answer == (0, "  * Place      fence            ( web2 )\n", ""), str(answer))
    answer = run(f"bin/cekpayo -q plan {cib} && bin/cekpayo --help | head -n 1 && bin/cekpayo help check | head -n 1", prefix)
    shown = "Nothing has to be done now.\n  * Stay       site-address, site-server, fence\nUsage: cekpayo [OPTION..] WORD [FILE..]    reads the FILEs, or standard input\ncheck [FILE..]\n"
    expect("installed questions", answer == (0, shown, ""), str(answer))
    said = run("printf 'node n1\\nclone k a\\nprimitive a Dummy\\nprimitive b Dummy\\norder o k b\\n' | bin/cekpayo scores > /dev/null", prefix)[2]
    expect("an installed page", f'({os.path.realpath(prefix)}/lib/cekpayo/docs/PACEMAKER.md, "Orders after a clone")' in said, said)
    status, _, said = run('lib/cekpayo/tools/install --uninstall "$PWD"', prefix)
    expect("uninstall", (status, files_below(prefix), sorted(os.listdir(prefix))) == (0, ["own"], ["bin", "own"]), said)
    expect("uninstall of nothing", tool("install", "--uninstall", prefix)[0] == 1)
    expect("install of no prefix", tool("install")[0] == 2 and tool("install", "--x")[0] == 2)


def try_release(folder):
    first, second = os.path.join(folder, "first"), os.path.join(folder, "second")
    status, sum_of_first, said = tool("release", first)
    expect("release", status == 0 and sum_of_first.endswith(".tar.gz\n"), said)
    expect("what a release needs", "needs bash, python3" in said, said)
    expect("the same release", tool("release", second)[1] == sum_of_first)
    try_packages(first, sum_of_first)
    answer = run("tar -xzf *.tar.gz && rm *.tar.gz && echo node n1 | */bin/cekpayo check", first)
    expect("an unpacked release", answer == (0, "node n1\n# nodes 1 leaves 0 rules 0\n", ""), str(answer))
    answer = run("*/lib/cekpayo/tools/install elsewhere >&2 && echo node n1 | elsewhere/bin/cekpayo check", first)
    expect("a release that installs itself", answer[:2] == (0, "node n1\n# nodes 1 leaves 0 rules 0\n"), str(answer))


def try_packages(folder, sums):
    """The packages that this machine can make hold the command, and are in the sums."""
    for ending, maker, show in (("deb", "dpkg-deb", "dpkg-deb -c *.deb"), ("rpm", "rpmbuild", "rpm -qpl *.rpm")):
        made = shutil.which(maker) is not None
        expect(f"a .{ending}", (f".{ending}\n" in sums) == made, sums)
        status, output, said = run(show, folder) if made else (0, "/usr/bin/cekpayo", "")
        expect(f"what is in the .{ending}", status == 0 and "/usr/bin/cekpayo" in output and "lib/cekpayo/installed" not in output, output + said)


def try_hook(folder):
    if not shutil.which("git"):
        return
    own = os.path.join(folder, "configurations")
    os.mkdir(own)
    hook = os.path.join(TOP, "tools", "hooks", "pre-commit")
    environment = dict(plain(), CEKPAYO=os.path.join(TOP, "cekpayo"), CEKPAYO_PROGRAM=PROGRAM, HOME=folder)
    commit = "git add . && git -c user.name=a -c user.email=a@example.com commit -qm x"
    answer = run(f"git init -q && cp '{hook}' .git/hooks && echo node n1 > 'a b.crm' && echo x > c.txt && {commit}", own, environment)
    expect("a commit that is accepted", answer[0] == 0, str(answer))
    near = {name: os.path.relpath(environment[name], own) for name in ("CEKPAYO", "CEKPAYO_PROGRAM")}
    answer = run(f"echo node n1 > ./-x.crm && ln -s nowhere.crm link.crm && {commit}", own, dict(environment, **near))
    expect("a commit with names of other kinds", answer[0] == 0, str(answer))
    answer = run(f"echo nod n1 > 'a b.crm' && {commit}", own, environment)
    expect("a commit that is refused", answer[0] != 0 and "a b.crm:1:1: UnknownStatement" in answer[2], str(answer))
    answer = run(f"git rm -qf 'a b.crm' && echo y > c.txt && {commit}", own, environment)
    expect("a commit without a configuration", answer[0] == 0, str(answer))
    answer = run(f"echo nod n1 > d.crm && {commit}", own, dict(environment, CEKPAYO="/nonexistent"))
    expect("a commit without cekpayo", answer[0] == 0 and "no .crm file was checked" in answer[2], str(answer))


def try_all(folder):
    try_install(folder)
    try_release(folder)
    try_hook(folder)
