"""Messages of a WebSocket (RFC 6455) over a connection of the system, for both of its ends.

Written for trials alone: what a client or a server needs to try the page, on nothing but Python's standard library."""

import base64
import hashlib
import os
import struct
import threading

GUID = b"258EAFA5-E914-47DA-95CA-C5AB0DC85B11"  # of RFC 6455, section 1.3
MORE, TEXT, BINARY, CLOSE, PING, PONG = 0, 1, 2, 8, 9, 10


class Closed(Exception):
    """The other end has closed, or the connection is broken."""


class Wrong(Exception):
    """What came is no WebSocket frame that this end takes; its number is the status of the close."""


def accept_of(key):
    """What a server answers to the key of an upgrade."""
    return base64.b64encode(hashlib.sha1(key + GUID).digest())


def new_key():
    return base64.b64encode(os.urandom(16))


def masked(data, mask):
    """The bytes under a mask of four, or without it."""
    if not data:
        return data
    whole = mask * (len(data) // 4 + 1)
    return (int.from_bytes(data, "big") ^ int.from_bytes(whole[: len(data)], "big")).to_bytes(len(data), "big")


class Messages:
    """One end of a WebSocket: whole texts are sent and received; pings are answered, pongs passed over."""

    def __init__(self, line, is_client, most=None, front=b""):
        self.line, self.is_client, self.most = line, is_client, most
        self.rest = front  # bytes that came and are not read
        self.sending = threading.Lock()

    def send(self, data, kind=TEXT):
        head = bytes([0x80 | kind])
        flag = 0x80 if self.is_client else 0
        if len(data) < 126:
            head += bytes([flag | len(data)])
        elif len(data) < 65_536:
            head += bytes([flag | 126]) + struct.pack(">H", len(data))
        else:
            head += bytes([flag | 127]) + struct.pack(">Q", len(data))
        if self.is_client:
            mask = os.urandom(4)
            head, data = head + mask, masked(data, mask)
        try:
            with self.sending:
                self.line.sendall(head + data)
        except OSError as fault:
            raise Closed(str(fault)) from fault

    def take(self, count):
        """The next so many bytes."""
        pieces, got = [self.rest], len(self.rest)
        while got < count:
            try:
                piece = self.line.recv(max(65_536, min(count - got, 1 << 20)))
            except OSError as fault:
                raise Closed(str(fault)) from fault
            if not piece:
                raise Closed("the connection has ended")
            pieces.append(piece)
            got += len(piece)
        whole = b"".join(pieces)
        self.rest = whole[count:]
        return whole[:count]

    def frame(self):
        """Whether it is a message's last frame, its kind, and its bytes."""
        first, second = self.take(2)
        is_masked, count = second >> 7, second & 127
        if first & 0x70 or is_masked == self.is_client:
            raise Wrong(1002)
        if count > 125:
            if first & 8:
                raise Wrong(1002)
            count = int.from_bytes(self.take(2 if count == 126 else 8), "big")
        if self.most is not None and count > self.most:
            raise Wrong(1009)
        mask = self.take(4) if is_masked else None
        data = self.take(count)
        return bool(first & 0x80), first & 15, masked(data, mask) if mask else data

    def receive(self):
        """The next whole text, as bytes that are UTF-8."""
        parts = []
        while True:
            is_last, kind, data = self.frame()
            if kind == PING:
                self.send(data, PONG)
            elif kind == CLOSE:
                self.close(1000)
                raise Closed("it was closed")
            elif kind == (MORE if parts else TEXT):
                parts.append(data)
                if self.most is not None and sum(map(len, parts)) > self.most:
                    raise Wrong(1009)
                if is_last:
                    return text_of(b"".join(parts))
            elif kind != PONG:
                raise Wrong(1003 if kind == BINARY else 1002)

    def close(self, status):
        try:
            self.send(struct.pack(">H", status), CLOSE)
        except Closed:
            pass


def text_of(data):
    try:
        data.decode()
    except UnicodeDecodeError as fault:
        raise Wrong(1007) from fault
    return data


def joined(line, host, path):
    """The client's end of a WebSocket at a path of a host, over a connection that is open."""
    key = new_key()
    words = [b"GET %s HTTP/1.1" % path.encode(), b"Host: " + host.encode(), b"Upgrade: websocket", b"Connection: Upgrade"]
    words += [b"Sec-WebSocket-Key: " + key, b"Sec-WebSocket-Version: 13", b"", b""]
    line.sendall(b"\r\n".join(words))
    head = b""
    while b"\r\n\r\n" not in head:
        piece = line.recv(65_536)
        if not piece:
            raise Closed("the upgrade was not answered")
        head += piece
    head, _, front = head.partition(b"\r\n\r\n")
    if b" 101 " not in head.split(b"\r\n")[0] or accept_of(key) not in head:
        raise Closed(f"no upgrade: {head.decode('latin-1')}")
    return Messages(line, True, front=front)
