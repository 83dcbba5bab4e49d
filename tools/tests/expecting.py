"""What the tests share: where things are, how they are run, and what was not as expected."""
import os
import shutil
import subprocess
import sys

TOP = os.path.dirname(os.path.dirname(os.path.dirname(os.path.abspath(__file__))))
WRAPPER = os.path.join(TOP, "cekpayo")
PROGRAM = os.environ.get("CEKPAYO_PROGRAM", os.path.join(TOP, "crates", "sim_cli", "out", "sim_cli"))
ENVIRONMENT = dict(os.environ, CEKPAYO_PROGRAM=PROGRAM)
problems = []
sys.path.append(os.path.join(TOP, "tools", "lib"))  # the packages of the tools, for tests of their modules


def expect(name, holds, said=""):
    if not holds:
        problems.append(f"{name}: not as expected" + (":\n" + said if said else ""))


def tool(name, *words, data=b"", environment=None):
    """The status, the output and the standard error of one of the scripts in tools/."""
    done = subprocess.run([os.path.join(TOP, "tools", name), *words], input=data, stdout=subprocess.PIPE, stderr=subprocess.PIPE,
                          env=environment or ENVIRONMENT)
    return done.returncode, done.stdout.decode("utf-8"), done.stderr.decode("utf-8")


def script(words, data=b"", environment=None):
    """The status, the output and the standard error of the script `cekpayo`."""
    done = subprocess.run([WRAPPER, *words], input=data, stdout=subprocess.PIPE, stderr=subprocess.PIPE, env=environment or ENVIRONMENT)
    return done.returncode, done.stdout, done.stderr.decode("utf-8")


def plain():
    """An environment that doesn't name the program, so that a built or installed one must be found."""
    found = {key: value for key, value in os.environ.items() if not key.startswith(("CEKPAYO", "GIT_"))}
    return dict(found, PATH="/usr/bin:/bin:" + os.path.dirname(shutil.which("python3")))


def own(data, *words):
    """The status and the output of the program alone, by default of `check`."""
    done = subprocess.run([PROGRAM, *(words or ["check"])], input=data, stdout=subprocess.PIPE)
    return done.returncode, done.stdout


def kept(*path):
    """A file that a test keeps."""
    with open(os.path.join(TOP, ".ci", *path), encoding="utf-8") as file:
        return file.read()
