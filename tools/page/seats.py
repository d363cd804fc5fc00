"""Seats that outlive a connection, in front of a room that `cutroom serve` or `cutroom store` opens, and their HTTP.

A stand-in for trials of the page: the program serves one TCP connection a station today. This holds these connections,
and speaks to clients as follows. Who connects sends `sit NAME KEY GOT`, as a line of TCP or as a message of a WebSocket
at `/station`, and is answered `seat S LINES FROM`: the station's number, the number of the last of its lines that was
taken, and the number of the first reply that comes. Then lines and replies go both ways, in a WebSocket without their
line feeds. A seat's lines and replies have one numbering, which goes on when a connection breaks and another one sits
down; with `store` also when the room is started again: then it begins after the station's last entry in the kept file.
`/got N` lets go of replies up to N, `/leave` ends the station. A wrong name or key gets `no seat`."""

import collections
import contextlib
import hmac
import http.client
import io
import pathlib
import re
import socket
import struct
import subprocess
import threading
import time

import frames

MOST_KEPT = 4 << 20  # bytes of replies that a seat keeps, and at least the last reply
MOST_HEAD = 8_192  # bytes of a head of HTTP
MOST_WAIT = 5  # seconds for a head, and for a first line
MOST_LINE = 64 << 10  # bytes of a message that comes
STAYS_DOWN = (3, 4, 9)  # words, a document or a file that is refused; a disk that failed
LISTENS = re.compile(r"cutroom: listening at 127\.0\.0\.1:([0-9]+)$")


def crew_of(text):
    """The names and keys of a crew's file, a station a line."""
    rows = [line.split("#")[0].split() for line in text.splitlines()]
    return [(name, key) for name, key in filter(None, rows)]


# ----------------------------------------------------------------------------------------------------------------- one seat


class Seat:
    """A station's connection to the room, how many of its lines were taken, and its last replies."""

    def __init__(self, number, name, key):
        self.number, self.name, self.key = number, name.encode(), key.encode()
        self.changed = threading.Condition()
        self.sending = threading.Lock()
        self.room = self.client = None
        self.begin_after(0)

    def begin_after(self, base):
        self.lines, self.first, self.replies, self.bytes = base, base + 1, collections.deque(), 0

    def open(self, room, base):
        """A room's new connection takes this station's lines, of which the last had the number `base`."""
        with self.changed:
            self.begin_after(base)
            self.room = room
            self.changed.notify_all()
        threading.Thread(target=self.read, args=(room,), daemon=True).start()

    def shut(self):
        """The room is gone, and who sits here with it."""
        with self.changed:
            client, self.room, self.client = self.client, None, None
            self.changed.notify_all()
        if client:
            client.drop()

    def read(self, room):
        """Keeps the replies that a room gives."""
        with contextlib.suppress(OSError), room.makefile("rb") as replies:
            for reply in replies:
                if not reply.endswith(b"\n"):
                    break
                with self.changed:
                    self.changed.wait_for(lambda: self.room is not room or self.has_room())
                    if self.room is not room:
                        return
                    self.replies.append(reply[:-1])
                    self.bytes += len(reply)
                    self.let_go(0)
                    self.changed.notify_all()
        with self.changed:
            gone, self.client = self.room is room and self.client, None if self.room is room else self.client
        if gone:
            gone.drop()

    def has_room(self):
        """Nobody sits here, or who sits here has all but so many bytes of the replies."""
        return self.client is None or self.client.next > self.first or self.bytes < MOST_KEPT

    def let_go(self, got):
        """Lets go of replies up to `got`, and of the oldest where there are too many; the last stays."""
        unsent = self.client.next if self.client else self.end()
        while len(self.replies) > 1 and (self.first <= got or self.bytes > MOST_KEPT and self.first < unsent):
            self.bytes -= len(self.replies.popleft()) + 1
            self.first += 1

    def end(self):
        """The number of the next reply."""
        return self.first + len(self.replies)

    def sit(self, client, got):
        """Who comes has this seat from now on: the number of the last line taken, and of the first reply to be sent."""
        with self.changed:
            self.changed.wait_for(lambda: self.room)
            before, self.client = self.client, client
            client.next = min(max(got + 1, self.first), self.end())
            self.changed.notify_all()
            told = self.lines, client.next
        if before:
            before.drop()
        return told

    def take(self, client, line):
        """Hands a line to the room, where the client still sits here."""
        with self.sending:
            with self.changed:
                if self.client is not client:
                    return False
                room = self.room
                self.lines += 1
            with contextlib.suppress(OSError):
                room.sendall(line + b"\n")
        return True

    def put_replies(self, client):
        """Sends replies as they come, until somebody else sits here."""
        with contextlib.suppress(frames.Closed):
            while True:
                with self.changed:
                    self.changed.wait_for(lambda: self.client is not client or client.next < self.end())
                    if self.client is not client:
                        return
                    reply = self.replies[client.next - self.first]
                client.send(reply)
                with self.changed:
                    client.next += 1
                    self.let_go(0)
                    self.changed.notify_all()

    def own_line(self, line):
        """A line that is the seat's and not the room's."""
        words = line.split(b" ")
        if words[0] == b"/got" and words[1:] and words[1].isdigit():
            with self.changed:
                self.let_go(int(words[1]))
        if words == [b"/leave"]:
            with contextlib.suppress(OSError):
                self.room.shutdown(socket.SHUT_WR)

    def stand_up(self, client):
        with self.changed:
            self.client = None if self.client is client else self.client
            self.changed.notify_all()


# -------------------------------------------------------------------------------------------------------------- connections


class Plain:
    """A connection whose lines end with a line feed."""

    def __init__(self, line, front):
        self.line, self.rest = line, front

    def receive(self):
        while b"\n" not in self.rest:
            try:
                piece = self.line.recv(65_536)
            except OSError as fault:
                raise frames.Closed(str(fault)) from fault
            if not piece:
                raise frames.Closed("its end")
            self.rest += piece
        line, _, self.rest = self.rest.partition(b"\n")
        return line

    def send(self, data):
        try:
            self.line.sendall(data + b"\n")
        except OSError as fault:
            raise frames.Closed(str(fault)) from fault


class Client:
    """Who sits on a seat over a connection."""

    def __init__(self, talk, line):
        self.talk, self.line, self.next = talk, line, 0
        self.tears = self.is_mute = False  # what a trial does to it

    def send(self, data):
        if self.is_mute:
            return
        if self.tears:  # half of it, and then nothing more
            with contextlib.suppress(OSError):
                self.line.sendall(data[: len(data) // 2])
            self.reset()
            raise frames.Closed("torn")
        self.talk.send(data)

    def drop(self):
        with contextlib.suppress(OSError):
            self.line.shutdown(socket.SHUT_RDWR)

    def reset(self):
        """Breaks the connection as a network does, without a word."""
        with contextlib.suppress(OSError):
            self.line.setsockopt(socket.SOL_SOCKET, socket.SO_LINGER, struct.pack("ii", 1, 0))
            self.line.shutdown(socket.SHUT_RD)
            self.line.close()


# ----------------------------------------------------------------------------------------------------------------- the room


class Room:
    """The program, serving or storing a room on a port of its own; it is started again where it ends and is to."""

    def __init__(self, words, stations):
        self.command = words[-5]
        self.kept = pathlib.Path(words[-1])
        self.words = [*words[:-1], str(stations), "127.0.0.1:0", words[-1]]
        self.told = []

    def start(self):
        """Starts the program, and waits until it listens."""
        self.process = subprocess.Popen(self.words, stderr=subprocess.PIPE, text=True)
        for line in self.process.stderr:
            self.told.append(line)
            if found := LISTENS.match(line):
                self.port = int(found[1])
                threading.Thread(target=self.listen, args=(self.process.stderr,), daemon=True).start()
                return True
        self.process.wait()
        return False

    def listen(self, stream):
        self.told.extend(stream)

    def connect(self):
        line = socket.create_connection(("127.0.0.1", self.port))
        line.setsockopt(socket.IPPROTO_TCP, socket.TCP_NODELAY, 1)
        return line

    def bases(self):
        """For each station that has an entry in the kept file the number of its last line there."""
        last = {}
        if self.command == "store" and self.kept.exists():
            for record in self.kept.read_bytes().split(b"\n")[1:]:
                if not record.startswith(b"+") or not record[1:]:
                    break
                station, number, _ = record[1:].split(b" ", 2)
                last[int(station)] = int(number)
        return last


# ----------------------------------------------------------------------------------------------------------------- the hall


class Hall:
    """The seats of a crew at a port: plain lines, and HTTP with the page and WebSockets."""

    def __init__(self, crew, room, page, port=0):
        self.room, self.page = room, page
        self.seats = [Seat(number, *row) for number, row in enumerate(crew)]
        self.door = socket.create_server(("127.0.0.1", port))
        self.port = self.door.getsockname()[1]
        self.is_open = False

    def open(self):
        """Starts the room and seats its stations; answers whether that was done."""
        if not self.seated():
            return False
        self.is_open = True
        for work in (self.receive, self.watch):
            threading.Thread(target=work, daemon=True).start()
        return True

    def seated(self):
        if not self.room.start():
            return False
        bases = self.room.bases()
        for seat in self.seats:
            seat.open(self.room.connect(), bases.get(seat.number, 0))
        return True

    def watch(self):
        """Starts a stored room again when it has ended, unless somebody has to look first."""
        while True:
            status = self.room.process.wait()
            for seat in self.seats:
                seat.shut()
            if not self.is_open or self.room.command != "store" or status in STAYS_DOWN:
                return
            with contextlib.suppress(OSError):  # it may be killed again before its stations are seated
                self.seated()

    def close(self):
        """Ends the room's process, without a word to anybody."""
        self.is_open = False
        self.door.close()
        self.room.process.kill()
        self.room.process.wait()

    def receive(self):
        while True:
            try:
                line, _ = self.door.accept()
            except OSError:
                return
            line.setsockopt(socket.IPPROTO_TCP, socket.TCP_NODELAY, 1)
            threading.Thread(target=self.met, args=(line,), daemon=True).start()

    def met(self, line):
        """One connection, told by its first bytes."""
        with contextlib.suppress(frames.Closed, OSError), line:
            line.settimeout(MOST_WAIT)
            front = line.recv(4_096)
            if front[:4] in (b"sit ", b"ping"):
                self.talk(Plain(line, front), line)
            elif front:
                self.answer(line, front)

    # ------------------------------------------------------------------------------------------------------------------ HTTP

    def answer(self, line, front):
        while b"\r\n\r\n" not in front:
            piece = line.recv(4_096)
            if not piece or len(front) > MOST_HEAD:
                return self.put(line, 400)
            front += piece
        head, _, rest = front.partition(b"\r\n\r\n")
        first, _, fields = head.partition(b"\r\n")
        words = first.split(b" ")
        if len(words) != 3 or not words[2].startswith(b"HTTP/1."):
            return self.put(line, 400)
        fields = http.client.parse_headers(io.BytesIO(fields + b"\r\n\r\n"))
        places = {b"/": self.put_page, b"/station": self.upgrade, b"/health": self.healthy}
        if words[1] not in places:
            return self.put(line, 404)
        return places[words[1]](line, fields, rest) if words[0] == b"GET" else self.put(line, 405, [b"Allow: GET"])

    def put(self, line, status, fields=(), body=b""):
        reason = http.client.responses[status].encode()
        head = [b"HTTP/1.1 %d %s" % (status, reason), b"Content-Length: %d" % len(body), b"Connection: close", *fields]
        line.sendall(b"\r\n".join(head) + b"\r\n\r\n" + body)

    def healthy(self, line, _fields, _rest):
        self.put(line, 200, [b"Content-Type: text/plain"], b"ok\n")

    def put_page(self, line, _fields, _rest):
        text = self.page.read_bytes()
        fields = [b"Content-Type: text/html; charset=utf-8", b"X-Content-Type-Options: nosniff"]
        fields += [b"Referrer-Policy: no-referrer", b"Cache-Control: no-cache"]
        fields += [b"Content-Security-Policy: " + policy_in(text) + b"; frame-ancestors 'none'"]
        self.put(line, 200, fields, text)

    def upgrade(self, line, fields, rest):
        key = fields.get("Sec-WebSocket-Key")
        if not key or fields.get("Upgrade", "").lower() != "websocket":
            return self.put(line, 400)
        head = [b"HTTP/1.1 101 Switching Protocols", b"Upgrade: websocket", b"Connection: Upgrade"]
        head += [b"Sec-WebSocket-Accept: " + frames.accept_of(key.encode()), b"", b""]
        line.sendall(b"\r\n".join(head))
        messages = frames.Messages(line, False, MOST_LINE, rest)
        try:
            self.talk(messages, line)
            messages.close(1000)
        except frames.Wrong as wrong:
            messages.close(wrong.args[0])

    # ------------------------------------------------------------------------------------------------------------------ talk

    def talk(self, talk, line):
        first = talk.receive()
        if first == b"ping":
            return talk.send(b"cutroom")
        seat, got = self.seat_of(first.split(b" "))
        if not seat:
            time.sleep(1)
            return talk.send(b"no seat")
        line.settimeout(None)
        client = Client(talk, line)
        lines, first = seat.sit(client, got)
        talk.send(b"seat %d %d %d" % (seat.number, lines, first))
        threading.Thread(target=seat.put_replies, args=(client,), daemon=True).start()
        try:
            self.hear(seat, client)
        finally:
            seat.stand_up(client)

    def hear(self, seat, client):
        while True:
            text = client.talk.receive()
            if b"\n" in text:
                raise frames.Wrong(1008)
            if text.startswith(b"/"):
                seat.own_line(text)
            elif not seat.take(client, text):
                return

    def seat_of(self, words):
        if len(words) != 4 or words[0] != b"sit" or not words[3].isdigit():
            return None, 0
        for seat in self.seats:
            if hmac.compare_digest(seat.name, words[1]) and hmac.compare_digest(seat.key, words[2]):
                return seat, int(words[3])
        return None, 0


def policy_in(page):
    """The policy that a page says of itself."""
    return b" ".join(re.search(rb'http-equiv="Content-Security-Policy"\s+content="([^"]*)"', page)[1].split())
