"""What the tools share: the program, a run of it, and how bytes are shown."""
import os
import subprocess
import sys
from pathlib import Path

TOP = Path(__file__).resolve().parent.parent
DIRTY = 1


def program():
    """The program: PADS_BIN, or what lies beside the folder of the tools."""
    return os.environ.get("PADS_BIN") or str(TOP / "pads")


def page(name):
    """A page of docs/, which lies beside the tools, or where it is installed below the prefix."""
    folders = [os.environ.get("PADS_DOCS"), TOP / "docs", TOP.parent.parent / "share" / "doc" / "pads"]
    found = next((path for path in (Path(folder) / name for folder in folders if folder) if path.is_file()), None)
    if found is None:
        sys.exit(f"pads: the page {name} isn't there: set PADS_DOCS to its folder")
    return found.read_text(encoding="utf-8")


def usage(doc, options):
    """The usage of a tool: on standard output where it is asked for, and else as an error."""
    asked = "--help" in options
    print(doc.strip(), file=sys.stdout if asked else sys.stderr)
    return 0 if asked else 2


def split_words(words):
    """The words of a command line that are options of `pads parse`, and the others."""
    options = [word for word in words if word.startswith("--") and word != "--"]
    return options, [word for word in words if word not in options and word != "--"]


def option(options, name, default):
    return next((word.split("=", 1)[1] for word in options if word.startswith(f"--{name}=")), default)


class Run:
    """A run of `pads parse`: its lines as they come, and then its status and its last words."""

    def __init__(self, description, options, source):
        words = [program(), "parse", description, *options]
        self.process = subprocess.Popen(words, stdin=source, stdout=subprocess.PIPE, stderr=subprocess.PIPE)
        self.status = self.notes = None

    def lines(self):
        yield from self.process.stdout
        self.notes = self.process.stderr.read().decode(errors="replace")
        self.status = self.process.wait()


def told(run, description):
    """Passes on the last words of a run that couldn't be completed."""
    sys.stderr.write(run.notes)
    if run.status == 3:
        sys.stderr.write(f"pads: `pads explain {description}` shows the place, and how it is mended\n")


ESCAPES = {"\n": "\\n", "\r": "\\r", "\t": "\\t", "\\": "\\\\", "'": "\\'"}


def shown(data, coding, most=40):
    """Bytes between single quotes: what can't be printed as `\\xHH`, and at most so many of them."""
    text = data[:most].decode("cp037" if coding == "ebcdic" else "latin-1")
    printable = [ESCAPES.get(c) or (c if " " <= c <= "~" else f"\\x{byte:02x}") for c, byte in zip(text, data)]
    return "'" + "".join(printable) + ("'.." if len(data) > most else "'")


def guarded(main):
    """Runs a tool's `main`; a reader that goes away, as `head` does, ends it quietly."""
    try:
        status = main(sys.argv[1:])
        sys.stdout.flush()
    except BrokenPipeError:
        os.dup2(os.open(os.devnull, os.O_WRONLY), sys.stdout.fileno())
        status = DIRTY
    except KeyboardInterrupt:
        status = 130
    sys.exit(status)
