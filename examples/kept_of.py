#!/usr/bin/env python3
"""Writes a journal as a file that `store` keeps, to standard output, so that a room goes on after its entries.

usage: examples/kept_of.py JOURNAL > FILE

JOURNAL is the text that `serve` and `run` write: `journal COUNT`, and then a line for each entry. What its entries say is
seen by the program, once it opens the file. A text that is no journal is refused with its line, and nothing is written. It
needs nothing but Python's standard library. `examples/journal_of.py` does the reverse.

>>> kept_file(entries_in(b"journal 0\\n"))
b'cutroom journal 1\\n-'
>>> kept_file(entries_in(b"journal 2\\n0 1 slice 0 5\\n1 1 remove 0 0\\n"))
b'cutroom journal 1\\n+0 1 slice 0 5\\n+1 1 remove 0 0\\n-'
>>> entries_in(b"0 1 slice 0 5\\n")
Traceback (most recent call last):
journal_of.Refused: line 1: wanted is journal COUNT
>>> entries_in(b"journal 2\\n0 1 slice 0 5\\n")
Traceback (most recent call last):
journal_of.Refused: line 1: COUNT is 2, and 1 entries follow
>>> entries_in(b"journal 1\\n0 1 slice 0 5")
Traceback (most recent call last):
journal_of.Refused: line 2: it has no line feed
"""

import re
import sys

from journal_of import HEADER, LF, MOST_LINE, MOST_RECORDS, OPEN, Refused, is_line
from shared import Wrong, put, read_file, run

CLOSED = b"-"
MOST_BYTES = 64 * 1024 * 1024


def entries_in(text):
    """The lines of a journal's entries."""
    if len(text) > MOST_BYTES:
        raise Refused("it has more than 64 MiB")
    head, *lines = text.split(LF)
    spelled = re.fullmatch(rb"journal (0|[1-9][0-9]*)", head)
    if not spelled:
        raise Refused("line 1: wanted is journal COUNT")
    if not lines or lines.pop():
        raise Refused(f"line {text.count(LF) + 1}: it has no line feed")
    for number, line in enumerate(lines, start=2):
        if not is_line(line):
            raise Refused(f"line {number}: wanted is an entry of 1 to {MOST_LINE} bytes")
    if int(spelled[1]) != len(lines):
        raise Refused(f"line 1: COUNT is {int(spelled[1])}, and {len(lines)} entries follow")
    if len(lines) > MOST_RECORDS:
        raise Refused(f"line 1: COUNT is above {MOST_RECORDS}")
    return lines


def kept_file(lines):
    """A header, each line as a record, and a closed gate."""
    return HEADER + b"".join(OPEN + line + LF for line in lines) + CLOSED


def main():
    if sys.argv[1:] == ["--help"]:
        return print(__doc__.split("\n\n>>>")[0])
    if len(sys.argv) != 2:
        raise Wrong("usage: examples/kept_of.py JOURNAL > FILE")
    try:
        kept = kept_file(entries_in(read_file(sys.argv[1], MOST_BYTES + 1)))
    except Refused as fault:
        raise Wrong(f"{sys.argv[1]}: {fault}") from fault
    put(kept)
    return 0


if __name__ == "__main__":
    run("kept_of", main)
