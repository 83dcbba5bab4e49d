"""Tries the man page, and the completion for bash."""
import os
import re
import shutil
import subprocess

from expecting import TOP, expect, script


def try_man_page():
    if not shutil.which("man"):
        return
    page = os.path.join(TOP, "tools", "cekpayo.1")
    done = subprocess.run(["man", "--warnings", "-l", page], stdout=subprocess.PIPE, stderr=subprocess.PIPE,
                          env=dict(os.environ, MANWIDTH="80", LC_ALL="C.UTF-8"))
    expect("the man page names what is installed", not re.search(rb"tools/|\./cekpayo|docs/", done.stdout))
    expect("the man page", done.returncode == 0 and not done.stderr and b"EXIT STATUS" in done.stdout, done.stderr.decode())


def completed(line, folder):
    """What a shell offers for the last word of a line."""
    script = '''source "$1"; COMP_WORDS=($2); [[ $2 == *" " ]] && COMP_WORDS+=("")
        COMP_CWORD=$((${#COMP_WORDS[@]} - 1)); _cekpayo; echo "${COMPREPLY[@]}"'''
    words = ["bash", "-c", script, "bash", os.path.join(TOP, "tools", "cekpayo.bash"), line]
    done = subprocess.run(words, cwd=folder, stdout=subprocess.PIPE, text=True)
    return done.stdout.split()


def try_completion(folder):
    os.mkdir(os.path.join(folder, "sub"))
    with open(os.path.join(folder, "input.crm"), "w", encoding="utf-8"):
        pass
    expect("completion of a word", completed("cekpayo che", folder) == ["check"])
    expect("completion of an option", completed("cekpayo check --", folder) == ["--all", "--json", "--online", "--try", "--help"])
    expect("completion of an option of a question", completed("cekpayo why --ch", folder) == ["--change"])
    expect("completion of a file", completed("cekpayo check inp", folder) == ["input.crm"])
    expect("completion of a folder", completed("cekpayo check su", folder) == ["sub"])
    expect("completion of a cause", completed("cekpayo explain BadT", folder) == ["BadTime"])
    expect("completion of causes", completed("cekpayo explain ", folder) == script(["explain"])[1].decode().split())
    expect("completion of a number", completed("cekpayo world ", folder) == [])
    expect("completion behind a number", completed("cekpayo world 7 inp", folder) == ["input.crm"])
    expect("completion of words", "explain" in completed("cekpayo ", folder))


def try_all(folder):
    try_man_page()
    try_completion(folder)
