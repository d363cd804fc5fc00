"""The program itself, serving a crew by `store`, behind a relay that breaks connections as networks do. For trials of the
page: it has the same parts as `seats`, which stands in for the program."""

import contextlib
import os
import pathlib
import re
import socket
import struct
import subprocess
import threading
import time

LISTENS = re.compile(r"cutroom: listening at 127\.0\.0\.1:([0-9]+)$")
SAT = re.compile(rb"seat ([0-9]+) [0-9]+ [0-9]+")
STAYS_DOWN = (2, 3, 4, 5, 9)  # words, a document, a crew or a file that is refused; a disk that failed


class Link:
    """A connection and the one to the program that goes with it."""

    def __init__(self, near, far, seats):
        self.near, self.far, self.seats = near, far, seats
        self.begun = b""  # what the program said, until somebody sat down
        self.has_sat = self.tears = self.is_mute = False
        for work in (self.go_up, self.come_down):
            threading.Thread(target=work, daemon=True).start()

    def go_up(self):
        with contextlib.suppress(OSError):
            while piece := self.near.recv(65_536):
                self.far.sendall(piece)
            self.far.shutdown(socket.SHUT_WR)

    def come_down(self):
        with contextlib.suppress(OSError):
            while piece := self.far.recv(65_536):
                if not self.has_sat:
                    self.note(piece)
                if self.tears:  # half of it, and then nothing more
                    self.near.sendall(piece[: len(piece) // 2])
                    return self.reset()
                if not self.is_mute:
                    self.near.sendall(piece)
        with contextlib.suppress(OSError):
            self.near.shutdown(socket.SHUT_WR)

    def note(self, piece):
        """Notes who sits here, once the program has said it."""
        self.begun = (self.begun + piece)[-4_096:]
        if found := SAT.search(self.begun):
            self.has_sat = True
            self.seats[int(found[1])].client = self

    def reset(self):
        """Breaks the connection as a network does, without a word."""
        with contextlib.suppress(OSError):
            self.near.setsockopt(socket.SOL_SOCKET, socket.SO_LINGER, struct.pack("ii", 1, 0))
            self.near.shutdown(socket.SHUT_RD)
            self.near.close()
        with contextlib.suppress(OSError):
            self.far.shutdown(socket.SHUT_RDWR)


class Seat:
    """Who sits here."""

    def __init__(self):
        self.client = None


class Room:
    """The program's process; it is started again where it ends and is to."""

    def __init__(self, program, folder, rate, drop, crew):
        self.kept = pathlib.Path(folder) / "kept"
        keys = pathlib.Path(folder) / "crew"
        keys.touch(mode=0o600)
        keys.write_text("".join(f"{name} {key}\n" for name, key in crew))
        os.chmod(keys, 0o600)
        words = [program, "store", str(pathlib.Path(folder) / "doc.otio"), rate, drop, str(len(crew))]
        self.words = [*words, f"{keys}@127.0.0.1:0", str(self.kept)]
        self.told, self.port = [], None

    def start(self):
        """Starts the program, and waits until it listens."""
        self.process = subprocess.Popen(self.words, stderr=subprocess.PIPE, text=True)
        for line in self.process.stderr:
            self.told.append(line)
            if found := LISTENS.match(line):
                self.port = int(found[1])
                threading.Thread(target=self.listen, args=(self.process.stderr,), daemon=True).start()
                return True
        self.process.wait()
        return False

    def listen(self, stream):
        with contextlib.suppress(ValueError):
            self.told.extend(stream)


class Hall:
    """The seats of a crew at a port, each connection of which goes to the program."""

    def __init__(self, crew, room):
        self.room, self.seats = room, [Seat() for _ in crew]
        self.door = socket.create_server(("127.0.0.1", 0))
        self.port = self.door.getsockname()[1]
        self.is_open = False

    def open(self):
        if not self.room.start():
            return False
        self.is_open = True
        for work in (self.receive, self.watch):
            threading.Thread(target=work, daemon=True).start()
        return True

    def watch(self):
        """Starts the program again when it has ended, unless somebody has to look first."""
        while True:
            status = self.room.process.wait()
            if not self.is_open or status in STAYS_DOWN or not self.room.start():
                return

    def receive(self):
        while True:
            try:
                near, _ = self.door.accept()
            except OSError:
                return
            near.setsockopt(socket.IPPROTO_TCP, socket.TCP_NODELAY, 1)
            threading.Thread(target=self.join, args=(near,), daemon=True).start()

    def join(self, near):
        """Connects to the program, which may be about to start again."""
        for _ in range(100):
            with contextlib.suppress(OSError):
                far = socket.create_connection(("127.0.0.1", self.room.port))
                far.setsockopt(socket.IPPROTO_TCP, socket.TCP_NODELAY, 1)
                Link(near, far, self.seats)
                return
            time.sleep(0.05)
        near.close()

    def close(self):
        """Ends the program's process, without a word to anybody."""
        self.is_open = False
        self.door.close()
        self.room.process.kill()
        self.room.process.wait()
