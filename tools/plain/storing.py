"""What the tools that try `cutroom store` share: a kept file read by hand, a server, and stations that keep what they were
told. The records are read here apart from the program and from the examples."""

import os
import random
import resource
import socket
import threading

import serving

HEADER = b"cutroom journal 1\n"
MOST_NEW = len(HEADER) + 1
MOST_LINE = 1_024
TRACKS = 4


class Damaged(Exception):
    """A file that is no kept file, with the place."""


def records_in(data):
    """The lines of a kept file's records."""
    if len(data) <= MOST_NEW:
        return []
    if not data.startswith(HEADER):
        raise Damaged(0)
    records, at = [], len(HEADER)
    while data[at : at + 1] == b"+":
        end = data.find(b"\n", at, at + MOST_LINE + 2)
        if end <= at + 1:
            raise Damaged(at)
        records.append(data[at + 1 : end].decode())
        at = end + 1
    if at == len(data):
        raise Damaged(at)
    return records


def kept_file(records):
    """The bytes of a kept file with these records."""
    return HEADER + b"".join(b"+%s\n" % record.encode() for record in records) + b"-"


def records_of(file):
    """The records of a file, none where there is no file."""
    return records_in(file.read_bytes()) if file.exists() else []


def parts_of(record):
    """The station, the number and the call of a record."""
    station, number, call = record.split(" ", 2)
    return int(station), int(number), call


def last_numbers(records, stations):
    """The number of the last entry of each station, 0 where it has none."""
    last = [0] * stations
    for station, number, _ in map(parts_of, records):
        last[station] = number
    return last


def document(reel="A"):
    return serving.document([[serving.clip(reel, 400)] for _ in range(TRACKS)])


class Server(serving.Server):
    """The program, storing the journal of a document's room. Options are those of its process."""

    command = "store"

    def seat(self, count, base=()):
        """So many stations, each with the number of its last line, in the order of their seats."""
        return [Station(self, seat, base[seat] if base else 0) for seat in range(count)]


def line_of(chance):
    """An edit that mostly applies and keeps its track short, as the journal spells it, or a question, or no line."""
    track, at = chance.randrange(TRACKS), chance.randrange(400)
    return chance.choice((
        f"overwrite {track} {at} @0 {chance.randrange(1000)} {chance.randint(1, 40)}",
        f"slice {track} {at}",
        f"roll {track} {at} {chance.randint(-9, 9)}",
        f"trim {track} {chance.randrange(60)} tail {chance.randint(-9, 9)}",
        f"insert {track} {track} {at} @0 {chance.randrange(1000)} 3",
        f"extract {track} {track} {chance.randrange(60)}",
        f"remove {track} {chance.randrange(60)}",
        f"view {track} {at} {at + 30}",
        f"back {track}",
        f"back {track}",
        f"items {track}",
        f"news {chance.randrange(60)}",
        "point",
        "?" * chance.randint(1, 40),
    ))


def point_in(reply):
    """How many entries a reply says that there are, by its words: `news` names the place that was asked for first."""
    return int(reply[2] if reply[0] == "news" else reply[1])


class Station:
    """A station that keeps each line that it sends and each reply that came whole."""

    def __init__(self, server, seat, base):
        self.line = server.connect(timeout=60)
        self.line.setsockopt(socket.IPPROTO_TCP, socket.TCP_NODELAY, 1)
        self.seat, self.base = seat, base
        self.sent, self.replies, self.rest = [], [], b""

    def send(self, lines):
        self.sent += lines
        self.line.sendall("".join(line + "\n" for line in lines).encode())

    def hear(self):
        """The next reply, or None where the connection has ended."""
        while b"\n" not in self.rest:
            try:
                piece = self.line.recv(65_536)
            except ConnectionError:
                piece = b""
            if not piece:
                return None
            self.rest += piece
        reply, self.rest = self.rest.split(b"\n", 1)
        self.replies.append(reply.decode())
        return self.replies[-1]

    def ask(self, line):
        self.send([line])
        return self.hear()

    def leave(self):
        """Closes the writing half, hears all that comes, and closes."""
        try:
            self.line.shutdown(socket.SHUT_WR)
        except OSError:
            pass  # the room was first
        while self.hear() is not None:
            pass
        self.line.close()

    def number(self, at):
        """The number of a line of this connection: line numbers go on after those of the entries that were there."""
        return self.base + at + 1

    def record(self, at):
        """How the line is spelled in the journal."""
        return f"{self.seat} {self.number(at)} {self.sent[at]}"

    def see(self, least, after):
        """What of its replies does not fit a journal that had so many entries at first and has these now, and the records
        that it was told of as its own, by their places."""
        told, point, most = {}, least, len(after)
        for at, (line, reply) in enumerate(zip(self.sent, self.replies)):
            words = reply.split(" ")
            if (words[0] == "bad") != line.startswith("?") or words[0] not in ("bad", "ok", "no", "seen", "items", "point", "news"):
                return f"station {self.seat} sent {line} and got {reply}", told
            if words[0] == "bad":
                continue
            if not point <= point_in(words) <= most:
                return f"station {self.seat} is told of {reply} after the point {point}, and {most} records are there", told
            point = point_in(words)
            if words[0] == "news" and words[3:] != (after[int(words[1])].split(" ") if int(words[1]) < point else []):
                return f"station {self.seat} is told {reply}, which is no record there", told
            if words[0] == "ok":
                told[point] = self.record(at)
                point += 1
        return None, told


class Pour(threading.Thread):
    """A station that sends lines in bursts and hears the reply to each, until the connection ends or it is told to stop.
    `look`, where there is one, is called after each reply; what it answers is a fault."""

    def __init__(self, station, seed, burst, look=None):
        super().__init__(daemon=True)
        self.station, self.chance, self.burst, self.look = station, random.Random(seed), burst, look
        self.over, self.fault = threading.Event(), None
        self.start()

    def run(self):
        try:
            while not self.over.is_set() and self.is_answered():
                pass
        except (ConnectionError, BrokenPipeError):
            while self.station.hear() is not None:
                pass
        except (AssertionError, OSError, Damaged) as fault:
            self.fault = f"station {self.station.seat}: {type(fault).__name__} {fault}"

    def is_answered(self):
        """Whether a burst of lines is answered to its end."""
        lines = [line_of(self.chance) for _ in range(self.chance.randint(1, self.burst))]
        self.station.send(lines)
        for _ in lines:
            if self.station.hear() is None:
                return False
            self.fault = self.fault or (self.look and self.look(self.station))
        return not self.fault


def sees_itself(file):
    """A look at the file right after a reply: what the reply tells of has to stand in it."""

    def look(station):
        at, reply = len(station.replies) - 1, station.replies[-1].split(" ")
        if reply[0] == "bad":
            return None
        records = records_in(file.read_bytes())
        if len(records) < point_in(reply):
            return f"{station.replies[-1]} is told, and the file has {len(records)} records"
        if reply[0] == "ok" and records[int(reply[1]) : int(reply[1]) + 1] != [station.record(at)]:
            return f"{station.replies[-1]} is told of {station.record(at)}, which the file does not have there"
        return None

    return look


def see(before, after, stations):
    """What does not fit of the records that were there, of what these stations were told, and of the records that are
    there now; and how many were told and how many were not. A record that nobody was told of may only be of the first
    line of its station that has no reply."""
    if after[: len(before)] != before:
        return f"of {len(before)} records {common(before, after)} are left as they were", 0, 0
    told = {}
    for station in stations:
        fault, records = station.see(len(before), after)
        twice = told.keys() & records.keys()
        if fault or twice:
            return fault or f"record {min(twice)} is told to two stations", 0, 0
        told |= records
    more = 0
    for at in range(len(before), len(after)):
        if at in told:
            if told[at] != after[at]:
                return f"record {at} is {after[at]}, and {told[at]} was told", 0, 0
            continue
        seat = parts_of(after[at])[0]
        station = next((station for station in stations if station.seat == seat), None)
        if station is None or len(station.replies) == len(station.sent) or station.record(len(station.replies)) != after[at]:
            return f"record {at} is {after[at]}, which nobody sent as its next line", 0, 0
        more += 1
    return None, len(told), more


def common(first, second):
    """How many records two lists have in common from the first on."""
    return next((at for at, pair in enumerate(zip(first, second)) if pair[0] != pair[1]), min(len(first), len(second)))


def limit_files(size):
    """A limit of the bytes of a file, for a process that is to be started."""
    return lambda: resource.setrlimit(resource.RLIMIT_FSIZE, (size, size))


def environment(**more):
    """The environment with these more; a library that is to be loaded comes after those that are."""
    if "LD_PRELOAD" in more and os.environ.get("LD_PRELOAD"):
        more["LD_PRELOAD"] = f"{os.environ['LD_PRELOAD']}:{more['LD_PRELOAD']}"
    return os.environ | {name: str(value) for name, value in more.items()}
