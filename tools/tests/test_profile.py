"""Tries what docs/PROFILE.md says of each setting: that it is taken, or refused."""
import os
import re

from expecting import TOP, expect, own

HEAD = "node n1\nnode n2\nprimitive apple Dummy\nprimitive berry Dummy\nprimitive cherry Dummy\n"

# The statement that tries a setting of each table of docs/PROFILE.md.
SETTING_OF = {
    "Properties": "property {}", "Meta attributes": "ms m date meta {}", "Clones": "clone m date meta {}",
    "Operations": "primitive extra Dummy op monitor {}", "Nodes": "node extra attributes {}",
}


def profile_rows():
    """The settings that docs/PROFILE.md names: the title of the table, key=value, and whether it is taken."""
    with open(os.path.join(TOP, "docs", "PROFILE.md"), encoding="utf-8") as page:
        for line in page:
            if line.startswith("## "):
                title = line[3:].strip()
            columns = [column.strip() for column in line.split("|")]
            if len(columns) == 7 and columns[1].startswith("`"):
                for column, taken in ((2, True), (4, False)):
                    for value in re.findall(r"`([^`]*)`", columns[column]):
                        yield title, f"{columns[1].strip('`')}={value}", taken


def try_profile():
    """Each value that the profile names is taken or refused, as the page says."""
    rows = list(profile_rows())
    expect("the settings of docs/PROFILE.md", len(rows) > 100)
    for title, setting, taken in rows:
        text = HEAD + "primitive date Dummy\n" + SETTING_OF[title].format(setting) + "\n"
        expect(f"docs/PROFILE.md: {title}: {setting}", own(text.encode()) == (5, b"refused 7 Unsupported\n") or taken)
        expect(f"docs/PROFILE.md: {title}: {setting}", own(text.encode())[0] == 0 or not taken)


def try_all(_folder):
    try_profile()
