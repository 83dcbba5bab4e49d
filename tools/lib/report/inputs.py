"""The input of a report: files behind each other, or standard input; what is a CIB is turned into an input by
`tools/collect`."""
import os
import sys

from explain.inputs import collected, is_cib


class Input:
    """A text with its name, and what `tools/collect` says of it where it was a CIB."""

    def __init__(self, name, data, said=()):
        self.name, self.data, self.said = name, data, list(said)


def read(files):
    """The input that the files make, each behind the one before."""
    if not files:
        if sys.stdin is None:
            raise OSError("standard input is closed")
        return of_data("standard input", sys.stdin.buffer.read())
    parts = []
    for name in files:
        with open(name, "rb") as file:
            parts.append(file.read())
    ended = [part if part.endswith(b"\n") or not part else part + b"\n" for part in parts[:-1]] + parts[-1:]
    return of_data(title(files), b"".join(ended))


def title(files):
    """The names of the files; of those that differ in their endings alone, the endings."""
    names = [os.path.basename(name) for name in files]
    fronts = {os.path.splitext(name)[0] for name in names}
    return names[0] + "".join(f", {os.path.splitext(name)[1]}" for name in names[1:]) if len(fronts) == 1 else ", ".join(names)


def of_data(name, data):
    if not is_cib(data):
        return Input(name, data)
    text, notes = collected(data)
    said = [note.partition(": ")[2] for note in notes]
    if text is None:
        raise OSError(f"{name}: {said[-1] if said else 'tools/collect fails'}")
    return Input(name, text, said)
