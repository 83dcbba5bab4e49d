"""Colours on a terminal; a pipe or a file gets none, nor who sets NO_COLOR."""
import os
import sys

CODES = {"bold": "1", "green": "32", "yellow": "33", "red": "31"}


def are_shown():
    return sys.stdout is not None and sys.stdout.isatty() and not os.environ.get("NO_COLOR") and os.environ.get("TERM") != "dumb"


def coloured(text, colour):
    return f"\033[{CODES[colour]}m{text}\033[0m" if text and are_shown() else text
