#!/usr/bin/env python3
"""Follows a room that is served: prints each edit as it comes, with the number of the station that sent it.

usage: examples/follow.py [--document DOC RATE] [--stream FILE] [--every SECONDS] [--once] HOST:PORT

It is a station that asks `news N` for entry N of the journal: for a thousand at once while there are more, then for the
next one every SECONDS, 0.25 where none are given. Each entry is a line: its place in the journal, its station, the edit.
--document names the document that the room was opened with and its rate: then each @m and #j is followed by the name of its
reel or nest. --stream writes each reply that has an entry into FILE, as it came: that is the stream which `cutroom follow`
reads. It has a seat, and keeps the room open, until it is interrupted (Ctrl-C), or with --once until it has all that is
there. It needs nothing but Python's standard library."""

import re
import socket
import sys
import time

from media import names_of
from shared import Words, Wrong, reason, run, shown
from station import connected, named

BULK = 1_000  # questions that are sent at once
MOST_REPLY = 2_048  # bytes, more than any reply to `news` has
NEWS = re.compile(rb"news ([0-9]+) ([0-9]+)(?: ([0-9]+) [0-9]+ (.+))?")


class Ended(Wrong):
    """Why nothing more can be followed, in a line."""


class Room:
    """A station of the room at an address, which asks for nothing but news."""

    def __init__(self, address):
        self.line = connected(address)
        self.replies = self.line.makefile("rb")

    def ask(self, places):
        """The replies to `news` of each place, without their line ends."""
        try:
            self.line.sendall(b"".join(b"news %d\n" % place for place in places))
            return [self.reply() for _ in places]
        except OSError as fault:
            raise Ended(f"the room has ended the line: {reason(fault)}") from fault

    def reply(self):
        reply = self.replies.readline(MOST_REPLY)
        if not reply.endswith(b"\n"):
            raise Ended("the room has ended the line" if len(reply) < MOST_REPLY else "the room's reply is longer than any to `news`")
        return reply[:-1]

    def leave(self):
        self.line.close()


def news_in(reply, place):
    """The journal's length, and the station and the edit of the entry at the place, where it is there."""
    found = NEWS.fullmatch(reply)
    if not found or int(found[1]) != place or (found[4] is not None) != (place < int(found[2])):
        raise Ended(f"no reply to `news {place}`: {shown(reply)}")
    return int(found[2]), found[4] and (int(found[3]), found[4])


class Sink:
    """Where entries go: a line each on standard output, and their replies into a stream."""

    def __init__(self, names, stream):
        self.names, self.stream = names, stream

    def put(self, place, reply, entry):
        station, call = entry
        words = " ".join(named(word, self.names) for word in shown(call).split(" "))
        print(f"{place:>6}  station {station:>2}  {shown(words)}")
        if self.stream:
            self.stream.write(reply + b"\n")

    def flush(self):
        sys.stdout.flush()
        if self.stream:
            self.stream.flush()


def follow(room, sink, every, once):
    """Asks for one entry after another; a question that finds no memory is asked again."""
    point = length = 0
    while True:
        places = range(point, max(point + 1, min(length, point + BULK)))
        for place, reply in zip(places, room.ask(places)):
            if reply == b"memory":
                length = point
                break
            length, entry = news_in(reply, place)
            if entry:
                sink.put(place, reply, entry)
                point = place + 1
        sink.flush()
        if point == length:
            if once and reply != b"memory":
                return
            time.sleep(every)


def seconds(word):
    value = float(word)
    if not 0.01 <= value <= 86_400:
        raise ValueError
    return value


def opened(name):
    try:
        return open(name, "wb")
    except (OSError, ValueError) as fault:
        raise Ended(f"{name} can't be written: {reason(fault)}") from fault


def main():
    ask = Words(__doc__)
    ask.add_argument("--document", nargs=2, metavar=("DOC", "RATE"))
    ask.add_argument("--stream", metavar="FILE")
    ask.add_argument("--every", type=seconds, default=0.25, metavar="SECONDS")
    ask.add_argument("--once", action="store_true")
    ask.add_argument("room", metavar="HOST:PORT")
    words = ask.parse_args()
    try:
        names = names_of(*words.document) if words.document else {}
        room = Room(words.room)
        sink = Sink(names, words.stream and opened(words.stream))
        follow(room, sink, words.every, words.once)
        room.leave()
    except KeyboardInterrupt:  # how who follows ends it
        return 0


if __name__ == "__main__":
    run("follow", main)
