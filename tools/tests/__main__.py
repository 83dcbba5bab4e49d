"""tests [SUBJECT..]: tries the script `cekpayo` and its tools. Each module test_SUBJECT.py tries one subject. The
program is built first where it isn't; CEKPAYO_PROGRAM names another one."""
import importlib
import os
import subprocess
import sys
import tempfile
import traceback

sys.dont_write_bytecode = True

from expecting import WRAPPER, problems

FOLDER = os.path.dirname(os.path.abspath(__file__))
SUBJECTS = sorted(name[len("test_"):-len(".py")] for name in os.listdir(FOLDER) if name.startswith("test_") and name.endswith(".py"))


def main(subjects):
    unknown = [subject for subject in subjects if subject not in SUBJECTS]
    if unknown:
        print(f"no subject is {', '.join(unknown)}; there are {', '.join(SUBJECTS)}", file=sys.stderr)
        return 2
    if "CEKPAYO_PROGRAM" not in os.environ and subprocess.run([WRAPPER, "--build"]).returncode != 0:
        return 1
    for subject in subjects or SUBJECTS:
        with tempfile.TemporaryDirectory() as folder:
            try:
                importlib.import_module("test_" + subject).try_all(folder)
            except Exception:
                problems.append(f"{subject} was cut short:\n{traceback.format_exc()}")
    for problem in problems:
        print(problem)
    return 1 if problems else 0


sys.exit(main(sys.argv[1:]))
