#!/usr/bin/env python3
"""Prints the journal of a file that `store` keeps, as `serve` writes it and `list` reads it.

usage: examples/journal_of.py FILE

The first line is `journal COUNT`, and then each entry has a line, as docs/PROTOCOL.md says. An entry counts once its
append was done: what an append that was cut short has left is not taken. A file that is no kept one, or is damaged, is
refused with the place where it breaks off, in bytes, and nothing is printed. It needs nothing but Python's standard
library. `examples/kept_of.py` makes such a file of a journal.

>>> records_in(b"")
[]
>>> records_in(HEADER + b"-")
[]
>>> records_in(HEADER + b"+0 1 slice 0 5\\n+1 1 remove 0 0\\n-")
[b'0 1 slice 0 5', b'1 1 remove 0 0']
>>> records_in(HEADER + b"+0 1 slice 0 5\\n-1 1 remo")
[b'0 1 slice 0 5']
>>> records_in(HEADER + b"+0 1 slice 0 5\\n+1 1 remo")
Traceback (most recent call last):
journal_of.Refused: it breaks off at byte 33
>>> records_in(b"journal 1\\n0 1 slice 0 5\\n")
Traceback (most recent call last):
journal_of.Refused: it begins as no kept file does
>>> journal_text([b"0 1 slice 0 5"])
b'journal 1\\n0 1 slice 0 5\\n'
"""

import sys

from shared import Wrong, put, read_file, run

HEADER = b"cutroom journal 1\n"
OPEN, LF = b"+", b"\n"

# A file of so few bytes counts as new: it has a header and a closed gate at most.
MOST_NEW = len(HEADER) + 1

MOST_LINE = 1024
MOST_RECORDS = 100_000
MOST_BYTES = 128 * 1024 * 1024


class Refused(Wrong):
    """Why a file is none that the program goes on from."""


def is_line(line):
    return 0 < len(line) <= MOST_LINE and LF not in line


def records_in(data):
    """The lines of the records of a kept file, up to its gate: the first byte after a record that is no plus."""
    if len(data) > MOST_BYTES:
        raise Refused("it has more than 128 MiB")
    if len(data) <= MOST_NEW:
        return []
    if not data.startswith(HEADER):
        raise Refused("it begins as no kept file does")
    lines, at = [], len(HEADER)
    while data[at : at + 1] == OPEN:
        end = data.find(LF, at)
        line = data[at + 1 : max(end, at)]
        if not is_line(line):
            break
        lines.append(line)
        at = end + 1
    if data[at : at + 1] in (b"", OPEN):
        raise Refused(f"it breaks off at byte {at}")
    if len(lines) > MOST_RECORDS:
        raise Refused(f"it has {len(lines)} records, more than {MOST_RECORDS}")
    return lines


def journal_text(lines):
    return b"".join(line + LF for line in [b"journal %d" % len(lines), *lines])


def main():
    if sys.argv[1:] == ["--help"]:
        return print(__doc__.split("\n\n>>>")[0])
    if len(sys.argv) != 2:
        raise Wrong("usage: examples/journal_of.py FILE")
    data = read_file(sys.argv[1], MOST_BYTES + 1)
    try:
        text = journal_text(records_in(data))
    except Refused as fault:
        raise Wrong(f"{sys.argv[1]}: {fault}") from fault
    if len(data) <= MOST_NEW and not (HEADER + b"-").startswith(data):
        print(f"{sys.argv[1]} has {len(data)} bytes and no header, and counts as new", file=sys.stderr)
    put(text)
    return 0


if __name__ == "__main__":
    run("journal_of", main)
