"""What `follow` answers to a stream of replies, over the room of plain lists, as docs/PROTOCOL.md says it.

usage: python3 tools/plain/mirror.py DOC RATE DROP < STREAM"""

import pathlib
import re
import sys

import documents
import edl
import journals
import room

MOST_BYTES = 64 * 1024 * 1024
NUMBER = journals.NUMBER.decode()
NEWS = re.compile(f"news {NUMBER} {NUMBER}(?: (.*))?".encode(), re.S)


class Refused(Exception):
    """M1 to M6, with the number that it carries."""


def lines_of(data):
    """The lines of a stream with their numbers from 1, as a room reads its lines: of one that is too long nothing."""
    lines = data.split(b"\n")
    for number, line in enumerate(lines, 1):
        whole = number < len(lines)
        if len(line) <= room.MOST_LINE and (whole or line):
            yield number, line[:-1] if whole and line.endswith(b"\r") else line, whole


def first_word(line):
    return next((word for word in re.split(b"[ \t]", line) if word), b"")


def news_of(plain, line):
    """The place of a reply to `news`, and its entry where it has one; nothing where the line is no such reply."""
    spelled = NEWS.fullmatch(line)
    if not spelled:
        return None
    place, length = int(spelled[1]), int(spelled[2])
    if max(place, length) > journals.MOST_NUMBER or (spelled[3] is None) == (place < length):
        return None
    entry = journals.entry(plain, spelled[3]) if spelled[3] is not None else None
    return None if spelled[3] is not None and entry is None else (place, entry)


class Mirror:
    """A room that takes the entries of another, in their order."""

    def __init__(self, plain):
        self.plain, self.last = plain, {}

    def take(self, place, entry):
        point = len(self.plain.journal)
        if place > point:
            raise Refused(f"M2 {point}")
        if place < point:
            if self.plain.journal[place] != entry:
                raise Refused(f"M4 {place}")
            return
        station, number, call = entry
        if point == room.MOST_ENTRIES:
            raise Refused(f"M5 {point}")
        if number <= self.last.get(station, -1):
            raise Refused(f"M6 {point}")
        try:
            named, _ = self.plain.apply(call, station)
        except room.Refused:
            raise Refused(f"M3 {point}")
        self.plain.enter(*entry, named)
        self.last[station] = number

    def text(self):
        tracks = [" ".join(["track", str(t), *room.items_text(track.cells)]) for t, track in enumerate(self.plain.tracks)]
        return "".join(line + "\n" for line in [f"point {len(self.plain.journal)}", *tracks])


def follow(mirror, stream):
    """The answer to a stream and the status."""
    over = len(stream) > MOST_BYTES
    try:
        for number, line, whole in lines_of(stream[:MOST_BYTES]):
            if first_word(line) != b"news" or over and not whole:
                continue
            news = news_of(mirror.plain, line) if whole else None
            if news is None:
                raise Refused(f"M1 {number}")
            if news[1]:
                mirror.take(*news)
    except Refused as refused:
        return f"refused {refused}\n", 4
    return ("", 7) if over else (mirror.text(), 0)


def follow_answer(data, rate, drop, stream):
    """What `follow` puts and its status, by the bytes of its document and of its input."""
    try:
        plain = documents.read(data, rate, drop)
    except documents.Fault as fault:
        return f"refused {fault}\n", 4
    return follow(Mirror(plain), stream)


def main():
    if sys.argv[1:] == ["--help"]:
        print(__doc__)
        return 0
    words = sys.argv[1:]
    text, status = "refused words\n", 3
    if len(words) == 3 and edl.rate_in(words[1]) and words[2] in ("ndf", "drop"):
        data, stream = pathlib.Path(words[0]).read_bytes(), sys.stdin.buffer.read()
        text, status = follow_answer(data, edl.rate_in(words[1]), words[2] == "drop", stream)
    sys.stdout.write(text)
    return status


if __name__ == "__main__":
    sys.exit(main())
