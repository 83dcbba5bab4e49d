"""How a filter runs: it reads files or standard input, and says on standard error what it can't read."""
import io
import signal
import sys

from explain.tables import command

from .lines import NotALine

OPTIONS = ("--all", "--brief", "--timeline")


def opened(stream, name):
    """A standard stream, unless it was closed before the script began."""
    if stream is None:
        raise OSError(f"standard {name} is closed")
    return stream


def lines_of(files):
    if not files:
        yield from io.TextIOWrapper(opened(sys.stdin, "input").buffer, encoding="utf-8")
        return
    for name in files:
        with open(name, encoding="utf-8") as file:
            yield from file


def filtered(name, work):
    """Gives the lines to the work; the status is 1 where one isn't a line of the program, or a file can't be read."""
    signal.signal(signal.SIGPIPE, signal.SIG_DFL)
    signal.signal(signal.SIGINT, signal.SIG_DFL)
    if sys.argv[1:] in (["--help"], ["-h"]):
        print(f"Usage: {command(name)} [FILE..]", "", sys.modules["__main__"].__doc__.strip(), sep="\n")
        return 0
    try:
        output = opened(sys.stdout, "output")
        sys.stdout = io.TextIOWrapper(output.buffer, encoding="utf-8", line_buffering=output.line_buffering)
        work(line.rstrip("\n") for line in lines_of([word for word in sys.argv[1:] if word not in OPTIONS]) if line.strip())
        return 0
    except NotALine as error:
        print(f"{name}: no line that it reads: {error}", file=sys.stderr)
    except (OSError, UnicodeDecodeError) as error:
        print(f"{name}: {error}", file=sys.stderr)
    return 1
