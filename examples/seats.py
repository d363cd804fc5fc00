"""A line to a seat of a room with a crew: it outlives its connections.

`Seat` is both ends of a line, as `station.Line` wants them: whole lines are written to it one at a time, and after each
the reply to it is read. Where the connection breaks it sits down again, says so on standard error, and sends the line again
where the room has not taken it. It needs nothing but Python's standard library."""

import contextlib
import sys
import time

from shared import Wrong, read_file, shown

NOTHING_OLD = 4_294_967_295  # who has no memory of a day wants none of its old replies
BETWEEN_TRIES = 1.0  # seconds
LOST = "lost"  # in place of a reply that a restart of the room has lost


class NoSeat(Wrong):
    """The room has no seat for this name and key, or the station has left."""


def member_of(name):
    """The name and the key in the first line of a file."""
    words = read_file(name, 1_000).split(b"\n")[0].split(b"#")[0].split()
    if len(words) != 2:
        raise Wrong(f"{name}: wanted is a line NAME KEY, as in the crew's file")
    return words


class Seat:
    """The seat of a member of the crew, over whatever connection there is. `connect` makes one, or raises Wrong."""

    def __init__(self, connect, name, key):
        self.connect, self.name, self.key = connect, name, key
        self.line = self.replies = None
        self.pending = b""  # the line whose reply is waited for
        self.number = 0  # its number
        self.coming = 0  # the number of the next reply that comes
        self.open(connect())
        self.sit(NOTHING_OLD)
        self.number = self.taken

    def open(self, line):
        self.line, self.replies = line, line.makefile("rb")

    def sit(self, got):
        """Sits down over the connection that is there, and learns how many lines were taken and which reply comes next."""
        self.line.sendall(b"sit %s %s %d\n" % (self.name, self.key, got))
        answer = self.replies.readline()
        if not answer.endswith(b"\n"):
            raise ConnectionError("no answer came")
        words = answer.split()
        if words[:1] != [b"seat"] or len(words) != 4 or not all(word.isdigit() for word in words[1:]):
            why = "is the name and key those of the room's crew, and has the station not left?" if words == [b"no", b"seat"] else ""
            raise NoSeat(f"the room answers {shown(answer.strip())[:60]}: {why or 'that is no room with a crew'}")
        station, self.taken, self.coming = map(int, words[1:])
        print(f"station: sits on seat {station}, {self.taken} lines taken", file=sys.stderr, flush=True)

    def resume(self):
        """Sits down again, as often as it takes. The line that waits is sent again where it was not taken."""
        print("station: the connection has broken; sitting down again", file=sys.stderr, flush=True)
        while True:
            self.line.close()
            try:
                self.open(self.connect())
                self.sit(max(self.number - 1, 0))
                if self.taken < self.number:
                    self.number = self.taken + 1
                    self.line.sendall(self.pending)
                return
            except NoSeat:
                raise
            except (OSError, Wrong):
                time.sleep(BETWEEN_TRIES)

    def write(self, text):
        """Sends one line, with its line feed."""
        self.pending, self.number = text, self.number + 1
        try:
            self.line.sendall(text)
        except OSError:
            self.resume()

    def flush(self):
        """Nothing is held back."""

    def readline(self):
        """The reply to the line that was sent last; those to earlier lines are passed over. `lost` where the room no longer
        has it, as after a restart: the journal tells whether the line was done."""
        while self.coming <= self.number:
            try:
                reply = self.replies.readline()
            except OSError:
                reply = b""
            if not reply.endswith(b"\n"):
                self.resume()
                continue
            self.coming += 1
            if self.coming > self.number:
                return reply
        return LOST.encode() + b"\n"

    def leave(self):
        """Leaves the room; the seat is given up."""
        with contextlib.suppress(OSError):
            self.line.sendall(b"/leave\n")

    def read(self):
        """What still comes to the end of the line. Where the room has not heard that the station leaves it is told again."""
        while True:
            got = b""
            with contextlib.suppress(OSError):
                got = self.replies.read()
            self.line.close()
            try:
                self.open(self.connect())
                self.sit(self.number)
                self.line.sendall(b"/leave\n")
            except (OSError, Wrong):
                return got  # it has no seat any more, or the room has ended
