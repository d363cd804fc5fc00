#!/usr/bin/env python3
"""Writes the cut at a point as an OpenTimelineIO file: of a room that is served, or of a document and its journal.

usage: examples/save.py HOST:PORT POINT FILE
       examples/save.py --document DOC RATE DROP JOURNAL POINT FILE

POINT is how many edits are done in the cut: 0 is the document as it was opened, `last` is the cut after all edits there are.
FILE must not be there yet.

The first form asks a room that is served, while others work. It takes a seat of the room, as every connection does, and
the seat is gone once the file is written; so count it among the STATIONS of the room. A station that is at work needs none
of this: it sends `otio POINT` itself.

The second form needs no room: it has the program open the document DOC at RATE and DROP and do the first POINT edits of
JOURNAL again. JOURNAL is a journal's text, as `run` and `serve` write it, or the file that `store` keeps, also while it
grows. It needs nothing but Python's standard library, and the program cutroom."""

import re
import subprocess

import kept_of
from journal_of import HEADER, Refused, records_in
from shared import Words, Wrong, program, read_file, reason, run, shown, write_file
from station import station_at

LAST = "last"


def point_in(word):
    if word != LAST and not re.fullmatch("[0-9]{1,6}", word):
        raise Wrong(f"{word} is no point: a number of edits, or last")
    return word


def of_room(address, point):
    """The document of a point, by asking a room for it."""
    line = station_at(address)
    if point == LAST:
        point = point_in(line.ask("point")[-1])
    reply = line.told(b"otio " + point.encode())
    line.leave()
    return document_in(reply, point)


def document_in(reply, point):
    """The document in the reply to `otio`."""
    begin = f"otio {point} ".encode()
    if not reply.startswith(begin):
        raise Wrong(f"there is no document of point {point}: {shown(reply[:200])}: {WHY.get(reply.split(b' ')[-1], 'ask again')}")
    return reply[len(begin) :]


WHY = {b"V3": "so many edits there are not; `last` is the latest point", b"V4": "it would have more than 32 MiB"}


def entries_in(name):
    """The entries of a journal's text, or of a kept file."""
    data = read_file(name, kept_of.MOST_BYTES * 2 + 1)
    try:
        return records_in(data) if data.startswith(HEADER) else kept_of.entries_in(data)
    except Refused as fault:
        raise Wrong(f"{name} is no journal: {fault}") from fault


def of_journal(words, journal, point):
    """The document of a point, by having the program do the entries before it again."""
    entries = entries_in(journal)
    count = len(entries) if point == LAST else int(point)
    if count > len(entries):
        raise Wrong(f"{journal} has {len(entries)} edits, and {count} are asked for; `last` is the latest point")
    calls = [entry.split(b" ", 2)[-1] for entry in entries[:count]]
    replies = answered(words, b"".join(call + b"\n" for call in calls) + b"otio %d\n" % count)
    for place, reply in enumerate(replies[:count]):
        if not re.match(rb"ok %d\b" % place, reply):
            raise Wrong(f"edit {place} of {journal} is not done by {words[0]}: {shown(reply)}: they belong to each other, at one RATE?")
    return document_in(replies[count], count)


def answered(words, lines):
    """What the program answers to lines in the room of a document."""
    try:
        ran = subprocess.run([program(), "run", *words], input=lines, stdout=subprocess.PIPE)
    except (OSError, ValueError) as fault:
        raise Wrong(f"the program can't be run: {reason(fault)}") from fault
    replies = ran.stdout.split(b"\n")
    if ran.returncode != 0 or len(replies) < lines.count(b"\n"):
        why = f"{shown(replies[0])}: examples/explain.py {words[0]} {shown(replies[0])} says why" if ran.stdout else "it says above why"
        raise Wrong(f"{words[0]} can't be opened, status {ran.returncode}: {why}")
    return replies


def words_of():
    ask = Words(__doc__)
    ask.add_argument("--document", nargs=3, metavar=("DOC", "RATE", "DROP"))
    ask.add_argument("of", metavar="HOST:PORT or JOURNAL")
    ask.add_argument("point", metavar="POINT")
    ask.add_argument("file", metavar="FILE")
    return ask.parse_args()


def main():
    words = words_of()
    point = point_in(words.point)
    text = of_journal(words.document, words.of, point) if words.document else of_room(words.of, point)
    write_file(words.file, text + b"\n")


if __name__ == "__main__":
    run("save", main)
