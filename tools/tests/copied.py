"""A copy of the script and its tools where nothing is built, with a stand-in for the command `rt`."""
import os
import shutil
import signal
import subprocess

from expecting import PROGRAM, TOP, WRAPPER, plain

INPUT = b"node n1\nnode n2\nprimitive vip IPaddr2\n%status\nnow 1\nquorum yes\nnode n1 online\nnode n2 online\n"

# A crate of tests is the last, which the program doesn't need.
CRATES = "lemmas:\nlisted:\nsim_core: lemmas listed\nsim_cli: sim_core\nrun_cases: sim_core\n"

# A stand-in for `rt` writes down its words and the folder; `rt try --cases FOLDER` runs the program as the kit's own
# does.
RT = """#!/bin/bash
echo "$@" in "${{PWD##*/}}" >> "{folder}/asked"
if [ "$1" = try ]; then
  {tries}
  for file in "$3"/*; do
    case $file in *.args) continue ;; esac
    echo "== ${{file##*/}}"
    "{program}" $(cat "$file.args") < "$file"
    {ended}
  done
  echo 'cases=1 ended=1 fault=0 differs=0 no-answer=0 proved=no' >&2
  exit 0
fi
{build}
"""
ENDED = 'echo "case=${file##*/} run=ended status=$? runners=1 proved=no" >&2'
CUT = 'echo "case=${file##*/} run=no-answer proved=no" >&2'


class Copy:
    """The script in a copy of its folder, where nothing is built, with a stand-in for `rt`, or without any."""

    def __init__(self, folder, name, build="exit 1", **tries):
        self.folder = os.path.join(folder, name)
        self.top, self.commands = os.path.join(self.folder, "top"), os.path.join(self.folder, "commands")
        for crate in ("lemmas", "listed", "sim_core", "sim_cli"):
            os.makedirs(os.path.join(self.top, "crates", crate, "src"))
        shutil.copytree(os.path.join(TOP, "tools"), os.path.join(self.top, "tools"))
        shutil.copy(WRAPPER, self.top)
        shutil.copy(os.path.join(TOP, "crates", "sim_core", "src", "help.rt"), os.path.join(self.top, "crates", "sim_core", "src"))
        with open(os.path.join(self.top, "crates.txt"), "w", encoding="utf-8") as crates:
            crates.write(CRATES)
        shutil.copy(os.path.join(TOP, "HANDLES"), self.top)
        os.mkdir(self.commands)
        self.environment = dict(plain(), CEKPAYO_PROGRESS="1")
        self.environment["PATH"] = self.commands + ":" + self.environment["PATH"]
        self.put_rt(build, **tries)

    def put_rt(self, build, ended=ENDED, tries=":"):
        """Has `rt` build by these commands, which run in the folder of the crate, and do others before a trial and
        behind each case."""
        path = os.path.join(self.commands, "rt")
        with open(path, "w", encoding="utf-8") as file:
            file.write(RT.format(folder=self.folder, program=PROGRAM, build=build, ended=ended, tries=tries))
        os.chmod(path, 0o755)

    def begin(self, *words):
        """Begins the script; it can be interrupted, even if these tests can't."""
        return subprocess.Popen([os.path.join(self.top, "cekpayo"), *words], env=self.environment, stdin=subprocess.PIPE, stdout=subprocess.PIPE,
                                stderr=subprocess.PIPE, preexec_fn=lambda: signal.signal(signal.SIGINT, signal.SIG_DFL))

    def run(self, *words, data=INPUT):
        process = self.begin(*words)
        output, said = process.communicate(data)
        return process.returncode, output.decode(), said.decode()

    def read(self, *path):
        with open(os.path.join(self.top, *path), encoding="utf-8") as file:
            return file.read()

    def asked(self):
        """What `rt` was asked so far."""
        path = os.path.join(self.folder, "asked")
        if not os.path.exists(path):
            return []
        with open(path, encoding="utf-8") as file:
            return file.read().splitlines()
