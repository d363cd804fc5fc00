"""What the tools that try a room with a crew share: a crew's file, a server, and a client of a seat that loses nothing."""

import collections
import os
import random
import select
import socket
import struct

import serving
import storing

MOST_AT_ONCE = 40  # lines that a client has on their way


def crew(stations, seed=1):
    """Names and keys of so many stations."""
    chance = random.Random(seed)
    return [(f"edit-{station}", "".join(chance.choices("abcdefghijklmnopqrstuvwxyz0123456789", k=32))) for station in range(stations)]


def crew_file(folder, members, mode=0o600):
    """Writes a crew's file, and answers its name."""
    file = folder / "crew"
    file.touch(mode=0o600)
    file.write_text("# the crew\n\n" + "".join(f"{name} {key}  # station {at}\n" for at, (name, key) in enumerate(members)))
    os.chmod(file, mode)
    return file


class Serve(serving.Server):
    """The program, serving a document's room to a crew. Options are those of its process."""

    def __init__(self, program, folder, members, text=None, port=0, **options):
        file = crew_file(folder, members)
        super().__init__(program, folder, text or storing.document(), len(members), f"{file}@127.0.0.1:{port}", **options)

    def descriptors(self):
        return len(os.listdir(f"/proc/{self.ran.pid}/fd"))

    def memory(self):
        """The most memory that it had, in KiB."""
        with open(f"/proc/{self.ran.pid}/status") as status:
            return next(int(line.split()[1]) for line in status if line.startswith("VmHWM"))

    def processor(self):
        """The seconds of a processor that it has taken."""
        with open(f"/proc/{self.ran.pid}/stat") as stat:
            fields = stat.read().rsplit(")", 1)[1].split()
        return (int(fields[11]) + int(fields[12])) / os.sysconf("SC_CLK_TCK")


class Store(Serve):
    command = "store"


class NoSeat(Exception):
    """What came in place of a seat."""


class Told:
    """A line that was sent, its number, and its reply; none where the reply was lost by a restart."""

    def __init__(self, number, line, reply):
        self.number, self.line, self.reply = number, line, reply


class Client:
    """A station that keeps to the rules of a seat, whatever becomes of its connections. `pending` are the lines without a
    reply; the first of them has the number after `got`."""

    def __init__(self, port, name, key, lines=()):
        self.port, self.name, self.key = port, name, key
        self.pending, self.got = collections.deque(lines), 0
        self.told = []
        self.line, self.rest, self.sent, self.out = None, b"", 0, b""
        self.breaks = 0

    # ---- a connection

    def sit(self, timeout=20):
        """Sits down over a new connection, and has its lines sent from LINES + 1 on."""
        line = socket.create_connection(("127.0.0.1", self.port), timeout=timeout)
        line.setsockopt(socket.IPPROTO_TCP, socket.TCP_NODELAY, 1)
        line.sendall(f"sit {self.name} {self.key} {self.got}\n".encode())
        rest = b""
        while b"\n" not in rest:
            piece = line.recv(65_536)
            if not piece:
                line.close()
                raise ConnectionError(f"no answer but {rest!r}")
            rest += piece
        answer, self.rest = rest.split(b"\n", 1)
        words = answer.split()
        if words[:1] != [b"seat"] or len(words) != 4:
            line.close()
            raise NoSeat(answer.decode())
        self.line, self.seat = line, int(words[1])
        self.go_on(int(words[2]), int(words[3]))
        self.take(b"")  # replies may have come with the answer

    def go_on(self, lines, first):
        """So many lines were taken, and the reply of this number comes first."""
        self.got = min(self.got, lines)
        while self.got + 1 < first:
            self.got += 1
            self.told.append(Told(self.got, self.pending.popleft(), None))
        if self.got + 1 != first:
            raise AssertionError(f"the first reply is {first}, and {self.got} were got")
        self.sent = max(lines - self.got, 0)
        self.out = b""

    def drop(self, way):
        """Ends the connection that is there: by a reset, by its end, or not at all."""
        if self.line is None:
            return
        if way == "reset":
            self.line.setsockopt(socket.SOL_SOCKET, socket.SO_LINGER, struct.pack("ii", 1, 0))
        if way != "none":
            self.line.close()
        self.line, self.rest, self.out = None, b"", b""
        self.breaks += 1

    # ---- lines and replies

    def fill(self):
        """Has lines wait to be sent, not too many at once."""
        while self.sent < min(len(self.pending), MOST_AT_ONCE):
            self.out += self.pending[self.sent].encode() + b"\n"
            self.sent += 1

    def take(self, piece):
        self.rest += piece
        *replies, self.rest = self.rest.split(b"\n")
        for reply in replies:
            self.got += 1
            self.sent -= 1
            self.told.append(Told(self.got, self.pending.popleft(), reply.decode()))

    def turn(self, most_out, most_in, wait=5):
        """Sends and reads once what the connection takes and gives, at most so much. It answers how many bytes went out and
        came in."""
        self.fill()
        asked = [self.line] if self.out and most_out else []
        can_read, can_write, _ = select.select([self.line], asked, [], wait)
        out = came = 0
        if can_write:
            out = self.line.send(self.out[:most_out])
            self.out = self.out[out:]
        if can_read:
            piece = self.line.recv(min(most_in, 65_536))
            if not piece:
                raise ConnectionError("the connection has ended")
            self.take(piece)
            came = len(piece)
        if not can_read and not can_write:
            raise AssertionError(f"{self.name}: nothing came for {wait} seconds, {len(self.pending)} lines wait")
        return out, came

    def talk(self, out=1 << 60, came=1 << 60):
        """Talks until no line waits, or so many bytes went out or came in."""
        while self.pending and out > 0 and came > 0:
            one, other = self.turn(out, came)
            out, came = out - one, came - other

    def ask(self, line):
        """The reply to a line."""
        self.pending.append(line)
        self.talk()
        return self.told[-1].reply

    def leave(self):
        """Leaves, and reads to the end."""
        self.line.sendall(b"/leave\n")
        got = b""
        while piece := self.line.recv(65_536):
            got += piece
        self.line.close()
        return got


def edit(station, number, chance):
    """An edit that is done, and that no other is like: its source frame names it."""
    at = (station * 5_000 + number) % 86_000
    return f"overwrite {station % storing.TRACKS} {chance.randrange(400)} @0 {at} {1 + station // storing.TRACKS}"


def lines_of(station, count, chance):
    """Edits, each of which is done, and some questions and lines that are none."""
    lines = []
    for number in range(count):
        other = chance.random()
        if other < 0.1:
            lines.append(chance.choice(("point", "items 0", "view 1 0 100", "?", "", "/", "/got", "x" * 3_000)))
        else:
            lines.append(edit(station, number, chance))
    return lines


def fault_of(clients, entries):
    """What the entries of a journal and what the clients were told do not agree on; none where they agree."""
    calls = {}
    for place, (station, number, call) in enumerate(entries):
        if (station, call) in calls:
            return f"entry {place} is entry {calls[station, call]} again: {station} {call}"
        calls[station, call] = place
    told_places = set()
    for station, client in enumerate(clients):
        for told in client.told:
            place = calls.get((station, told.line))
            words = (told.reply or "").split(" ")
            if told.reply is None:
                told_places.add(place)
            elif words[0] == "ok":
                if place != int(words[1]) or entries[place][1] != told.number:
                    return f"{client.name} was told {told.reply} of line {told.number}, {told.line}; it is entry {place}"
                told_places.add(place)
            elif place is not None:
                return f"{client.name} was told {told.reply} of {told.line}, which is entry {place}"
    untold = set(range(len(entries))) - told_places
    return f"entry {min(untold)} is nobody's" if untold else None


def entries_of(text):
    """The entries of a journal's text."""
    head, *lines = text.splitlines()
    if head != f"journal {len(lines)}":
        raise AssertionError(f"{head}, and {len(lines)} lines follow")
    return [storing.parts_of(line) for line in lines]
