"""What the examples have in common: how they end, what they print, and where they find the program."""

import argparse
import os
import pathlib
import re
import shutil
import sys

INTERRUPTED = 130  # the status that a shell gives to a program which an interrupt has ended
HERE = pathlib.Path(__file__).resolve().parent


class Wrong(Exception):
    """What keeps an example from its work, in a line that says what to do."""


def shown(text):
    """A text as it is printed: in one line, and without what would move a terminal's cursor."""
    text = text.decode("utf-8", "replace") if isinstance(text, bytes) else str(text)
    return "".join(one if one.isprintable() else "?" for one in text)


class Words(argparse.ArgumentParser):
    """The words of an example, whose help is its own text."""

    def __init__(self, doc):
        super().__init__(usage=re.search(r"usage: (.*?)\n\n", doc, re.S)[1].replace("%", "%%"))
        self.doc = doc

    def format_help(self):
        return self.doc + "\n"


def run(name, main):
    """Runs an example. Whatever keeps it from its work becomes a line on standard error and a status; it never returns."""
    for stream in (sys.stdout, sys.stderr):
        if stream is not None:
            stream.reconfigure(errors="backslashreplace")
    try:
        status = main()
        if sys.stdout is not None:
            sys.stdout.flush()
        sys.exit(status)
    except Wrong as fault:
        ended(name, fault, 1)
    except KeyboardInterrupt:
        ended(name, "interrupted", INTERRUPTED)
    except BrokenPipeError:
        ended(name, "nobody reads the output any more", 1)
    except OSError as fault:
        ended(name, f"the output can't be written: {fault.strerror or fault}", 1)


def ended(name, why, status):
    """Ends with a line. What is still to be written to a standard output that failed goes nowhere."""
    try:
        if sys.stdout is not None:
            os.dup2(os.open(os.devnull, os.O_WRONLY), sys.stdout.fileno())
        if sys.stderr is not None:
            print(f"{name}: {shown(why)}", file=sys.stderr, flush=True)
    except (OSError, ValueError):
        os._exit(status)  # standard error is gone too
    sys.exit(status)


def read_file(name, most=None):
    """The bytes of a file, at most so many."""
    try:
        with open(name, "rb") as file:
            return file.read() if most is None else file.read(most)
    except (OSError, ValueError) as fault:
        raise Wrong(f"{name} can't be read: {reason(fault)}") from fault


def write_file(name, data):
    """Puts bytes into a file that is not there yet."""
    try:
        with open(name, "xb") as file:
            file.write(data)
    except FileExistsError as fault:
        raise Wrong(f"{name} is there already: give another name, or move it away first") from fault
    except (OSError, ValueError) as fault:
        raise Wrong(f"{name} can't be written: {reason(fault)}") from fault


def put(data):
    """Puts bytes on standard output."""
    if sys.stdout is None:
        raise Wrong("the output is closed")
    sys.stdout.buffer.write(data)
    sys.stdout.buffer.flush()


def reason(fault):
    return getattr(fault, "strerror", None) or fault


def program():
    """The program: the one of CUTROOM, or of this folder's checkout, or the one that is installed."""
    told = os.environ.get("CUTROOM")
    found = told or next(filter(os.path.isfile, [HERE.parent / "cutroom"]), None) or shutil.which("cutroom")
    if not found:
        raise Wrong("there is no program cutroom: put it into the PATH, or name it by CUTROOM=FILE")
    return str(found)
