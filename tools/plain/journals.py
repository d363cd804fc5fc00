"""The text of a journal, read as docs/PROTOCOL.md says it is written, and done again on the room of plain lists."""

import re

import room

MOST_BYTES = 64 * 1024 * 1024
MOST_STATION = 15
MOST_NUMBER = 4_294_967_295
NUMBER = rb"(0|[1-9][0-9]*)"


class Fault(Exception):
    def __init__(self, code, at):
        super().__init__(f"{code} {at}")


def entry(plain, line):
    """The station, number and call of a line, or none where it is not spelled as a journal's."""
    spelled = re.fullmatch(NUMBER + b" " + NUMBER + b" ([a-z].*)", line, re.S)
    if not spelled or len(line) > room.MOST_LINE:
        return None
    station, number = int(spelled[1]), int(spelled[2])
    try:
        call = plain.read(spelled[3])
    except room.Bad:
        return None
    if station > MOST_STATION or number > MOST_NUMBER or call[0] in room.QUESTIONS:
        return None
    return (station, number, call) if room.call_text(call).encode() == spelled[3] else None


def read(plain, data):
    """The entries of a journal: first all lines are spelled, then they are counted, then their numbers rise."""
    if len(data) > MOST_BYTES:
        raise Fault("H1", 0)
    lines = data.split(b"\n")
    whole, rest = lines[:-1], lines[-1]
    head = re.fullmatch(b"journal " + NUMBER, whole[0]) if whole else None
    if not head or int(head[1]) > MOST_NUMBER:
        raise Fault("H1", 1)
    entries = [entry(plain, line) for line in whole[1:]] + ([None] if rest else [])
    if None in entries:
        raise Fault("H1", entries.index(None) + 2)
    if int(head[1]) != len(entries) or len(entries) > room.MOST_ENTRIES:
        raise Fault("H2", 1)
    last = {}
    for at, (station, number, _) in enumerate(entries):
        if number <= last.get(station, -1):
            raise Fault("H4", at + 2)
        last[station] = number
    return entries


def replay(plain, entries, point):
    """Does the first entries again, up to the point."""
    if point > len(entries):
        raise Fault("H5", len(entries))
    for at, entry in enumerate(entries[:point]):
        try:
            plain.enter(*entry, plain.apply(entry[2], entry[0])[0])
        except room.Refused:
            raise Fault("H3", at)
