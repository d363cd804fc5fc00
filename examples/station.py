#!/usr/bin/env python3
"""A station of a cutting room: sends lines, shows each reply beside its line, and can draw the tracks.

usage: examples/station.py [--document DOC RATE [--drop]] [--picture FILE] [--lines FILE]
                           [--log NAME | --seat FILE] HOST:PORT
       examples/station.py [--document DOC RATE [--drop]] [--picture FILE] [--lines FILE]
                           [--log NAME] -- COMMAND ..

It talks to a room that is served at an address, or to a COMMAND that reads lines and answers them, such as
`./cutroom run 2 1`. Lines come from the terminal, or from the file of --lines. Each line is sent when the one before it
has its reply. The point is what the room last told of its journal. --picture draws all tracks at the end, as an SVG
timeline: items and gaps to scale, dissolves as crossed boxes, linked items joined by lines. --document names the document
that the room was opened with and its rate: then replies and picture have the name of a reel or nest with each @m and #j,
and the picture has timecode on its ruler, by drop-frame with --drop, and V1, A1 and so on beside the tracks. --log writes
what is sent into the new file NAME.lines and what comes back into NAME.replies, for an audit of the room. --seat is for a
room with a crew: the first line of FILE is the station's line NAME KEY of the crew. Where its connection breaks the station
sits down again, says so, and goes on; `lost` is shown for a reply that a restart of the room has lost.

It needs nothing but Python's standard library."""

import re
import socket
import subprocess
import sys
import threading
from contextlib import nullcontext
from dataclasses import dataclass
from typing import Optional

from media import read
from picture import Picture
from seats import LOST, Seat, member_of
from shared import Words, Wrong, reason, run, shown, write_file

REPLIES = "ok no bad memory seen items point otio news".split()
PATIENCE = 3  # seconds without a reply, after which it says what a room waits for


class Closed(Wrong):
    """The room has closed the line."""


class Log:
    """What is sent and what comes back, each in a file of its own from the first byte on."""

    def __init__(self, name):
        self.lines, self.replies = (self.begun(f"{name}.{what}") for what in ("lines", "replies"))

    @staticmethod
    def begun(name):
        write_file(name, b"")
        return name

    def sent(self, line):
        self.add(self.lines, line)

    def came(self, reply):
        self.add(self.replies, reply)

    @staticmethod
    def add(name, data):
        try:
            with open(name, "ab") as file:
                file.write(data)
        except OSError as fault:
            raise Wrong(f"{name} can't be written: {reason(fault)}") from fault


class NoLog:
    """Nothing is written down."""

    def sent(self, line):
        pass

    def came(self, reply):
        pass


class Line:
    """Two ends of one line: bytes are written to one and whole lines read from the other."""

    log = NoLog()

    def __init__(self, source, sink, end, status=lambda: 0, patience=None):
        self.source, self.sink, self.end, self.status = source, sink, end, status
        self.patience = patience or nullcontext()  # until the first reply
        self.point = 0

    def told(self, line):
        """The reply to a line of bytes, which may not hold a line feed, without its own."""
        self.log.sent(line + b"\n")
        try:
            self.sink.write(line + b"\n")
            self.sink.flush()
            with self.patience:
                reply = self.source.readline()
            self.log.came(reply)
        except (OSError, ValueError) as fault:
            raise self.closed(reason(fault)) from fault
        if not reply.endswith(b"\n"):
            raise self.closed("no reply came" if not reply else "the reply was cut off")
        self.patience = nullcontext()
        return reply[:-1]

    def closed(self, why):
        return Closed(f"the room has ended the line at point {self.point}: {why}")

    def ask(self, line):
        """The words of the reply to a line."""
        reply = self.told(line if isinstance(line, bytes) else line.encode())
        words = reply.decode("utf-8", "replace").split(" ")
        if words[0] == "refused":
            raise Wrong(f"{' '.join(words)}: examples/explain.py FILE {' '.join(words)} says why")
        if words[0] not in (*REPLIES, LOST):
            raise Wrong(f"that is no room: it answers {' '.join(words)[:60]}")
        self.point = point_of(words, self.point)
        return words

    def leave(self):
        """Ends the own half of the line, and answers what still comes: the journal, where a command writes one."""
        try:
            self.end()
            return self.source.read()
        except (OSError, ValueError) as fault:
            raise self.closed(reason(fault)) from fault


def point_of(words, before):
    """How many entries the journal has, by the words of a reply; those that tell nothing of it leave what was known."""
    told = {"news": words[2:3], "otio": []}.get(words[0], words[1:2])
    return int(told[0]) + (words[0] == "ok") if told and re.fullmatch("[0-9]{1,9}", told[0]) else before


def connected(address):
    """A connection to HOST:PORT."""
    host, _, port = address.rpartition(":")
    if not host or not re.fullmatch("[0-9]{1,5}", port) or int(port) > 65_535:
        raise Wrong(f"{address} is no HOST:PORT, as 127.0.0.1:7000")
    try:
        line = socket.create_connection((host.strip("[]"), int(port)))
        line.setsockopt(socket.IPPROTO_TCP, socket.TCP_NODELAY, 1)
        return line
    except ConnectionRefusedError as fault:
        raise Wrong(f"{address}: nobody listens there: start `serve` or `store`, or take the port that it tells") from fault
    except socket.gaierror as fault:
        raise Wrong(f"{address}: there is no such host: {reason(fault)}") from fault
    except UnicodeError as fault:
        raise Wrong(f"{shown(address)[:80]}: that is no host's name") from fault
    except OSError as fault:
        raise Wrong(f"{address}: {reason(fault)}") from fault


def station_at(address):
    line = connected(address)
    end = lambda: line.shutdown(socket.SHUT_WR)  # noqa: E731
    return Line(line.makefile("rb"), line.makefile("wb"), end, patience=Patience())


def seated_at(address, seat):
    """A line to a seat of a room with a crew, by the file that has its name and key."""
    try:
        line = Seat(lambda: connected(address), *member_of(seat))
    except OSError as fault:
        raise Wrong(f"{address}: {reason(fault)}") from fault
    return Line(line, line, line.leave)


def station_of(command):
    """A line to a command, which an interrupt of the terminal reaches too."""
    try:
        process = subprocess.Popen(command, stdin=subprocess.PIPE, stdout=subprocess.PIPE)
    except (OSError, ValueError) as fault:
        raise Wrong(f"{command[0]}: {reason(fault)}") from fault
    return Line(process.stdout, process.stdin, process.stdin.close, process.wait)


class Patience:
    """Says what a room waits for, where its first reply takes long."""

    TEXT = "no reply yet: a room answers once all its stations have connected, and who comes after these gets none"

    def __enter__(self):
        self.timer = threading.Timer(PATIENCE, lambda: print(self.TEXT, file=sys.stderr))
        self.timer.daemon = True
        self.timer.start()

    def __exit__(self, *_):
        self.timer.cancel()


# ---------------------------------------------------------------------------------------------------- what a track consists of


@dataclass
class Piece:
    """An item or a gap, with the dissolve at its head and the link that it has."""

    start: int
    length: int
    item: Optional[int] = None
    shows: str = ""
    source: int = 0
    mark: Optional[tuple] = None
    link: Optional[str] = None


def pieces_of(words):
    """The words of a reply to `items`, after the point."""
    pieces, start, mark = [], 0, None
    words = list(words)
    while words:
        word = words.pop(0)
        if word == "mark":
            mark = (int(words.pop(0)), int(words.pop(0)))
            continue
        if word == "dark":
            piece = Piece(start, int(words.pop(0)), mark=mark)
        else:
            shows, source, length = words.pop(0), int(words.pop(0)), int(words.pop(0))
            if not re.fullmatch("[@#][0-9]+", shows):
                raise ValueError
            piece = Piece(start, length, int(word), shows, source, mark)
            if words[:1] == ["link"]:
                piece.link = words[1]
                del words[:2]
        pieces.append(piece)
        start, mark = start + piece.length, None
    return pieces


def named(word, names):
    """A word, with its name after it where it is an @m or #j that has one."""
    return f"{word}({names[word]})" if word in names else word


def in_words(words, names):
    """The words of a reply as they are shown: a document's own words stay."""
    return " ".join(named(word, names) for word in words) if words[0] in ("items", "seen", "news") else " ".join(words)


def tracks_of(line):
    """All tracks of the room, asked for one by one until one is not there."""
    tracks = []
    while len(tracks) < 32:
        words = line.ask(f"items {len(tracks)}")
        if words[0] != "items":
            break
        try:
            tracks.append(pieces_of(words[2:]))
        except (ValueError, IndexError) as fault:
            raise Wrong(f"no room answers so: {' '.join(words)[:60]}") from fault
    return tracks


# ------------------------------------------------------------------------------------------------------------------------ main


def lines_of(name):
    """The lines of a file, or those that are typed, as bytes."""
    try:
        if name:
            with open(name, "rb") as file:
                yield from (line.rstrip(b"\n") for line in file)
        elif sys.stdin is not None:
            if sys.stdin.isatty():
                print("lines of edits and questions; an end of input (Ctrl-D) ends the station", file=sys.stderr)
            yield from (line.rstrip(b"\n") for line in sys.stdin.buffer)
    except (OSError, ValueError) as fault:
        raise Wrong(f"{name or 'the input'} can't be read: {reason(fault)}") from fault


def draw(line, name, table, drop):
    picture = Picture(tracks_of(line), line.point, table, drop).text()
    try:
        with open(name, "w", encoding="utf-8") as file:
            file.write(picture)
    except (OSError, ValueError) as fault:
        raise Wrong(f"{name} can't be written: {reason(fault)}") from fault


def words_of(asked=None):
    ask = Words(__doc__)
    ask.add_argument("--document", nargs=2, metavar=("DOC", "RATE"))
    ask.add_argument("--drop", action="store_true")
    ask.add_argument("--picture", metavar="FILE")
    ask.add_argument("--lines", metavar="FILE")
    ask.add_argument("--log", metavar="NAME")
    ask.add_argument("--seat", metavar="FILE")
    ask.add_argument("room", nargs="+", metavar="HOST:PORT or COMMAND")
    return ask.parse_args(asked)


def line_to(words):
    """The line to the room that the words name."""
    if words.seat and words.log:
        raise Wrong("--log is of a station without a seat: what an earlier connection sent and got is not in it")
    log = Log(words.log) if words.log else NoLog()
    line = unlogged_line_to(words)
    line.log = log
    return line


def unlogged_line_to(words):
    if len(words.room) > 1:
        return station_of(words.room)
    return seated_at(words.room[0], words.seat) if words.seat else station_at(words.room[0])


def main():
    words = words_of()
    table = read(*words.document) if words.document else None
    names = table.names() if table else {}
    line = line_to(words)
    for text in lines_of(words.lines):
        print(f"{shown(text):<40}  {shown(in_words(line.ask(text), names))}", flush=True)
    if words.picture:
        draw(line, words.picture, table, words.drop)
    for rest in line.leave().split(b"\n"):
        if rest:
            print(shown(rest))
    return line.status()


if __name__ == "__main__":
    run("station", main)
