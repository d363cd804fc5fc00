"""Decision lists, written, read and played as docs/LISTS.md says, over the room of plain lists.

usage: python3 tools/plain/edl.py list DOC RATE DROP JOURNAL POINT [numbered | names TEXT=NAME ..]
       python3 tools/plain/edl.py tape LIST RATE

With words it is a plain program for these two commands: it puts on output what `cutroom` does, and has its status."""

import pathlib
import re
import sys
from dataclasses import dataclass
from typing import Optional

import channels
import documents
import journals
import room
from channels import Refused

MOST_BYTES = 32 * 1024 * 1024
MOST_EVENTS = 999
MOST_DISSOLVE = 999
MOST_NUMBERED = 999


# ------------------------------------------------------------------------------------------------------------ counting


def counting(fps, drop):
    """The labels of a day: a room that begins at 0 has them."""
    return room.Room([], [], fps=fps, drop=drop)


def counted_text(drop):
    return "DROP FRAME" if drop else "NON-DROP FRAME"


def day(count):
    return 24 * 3600 * count.fps - (2 * (24 * 60 - 24 * 6) if count.drop else 0)


def label(count, frame):
    """The label of a frame of the day. Its number is the frame's, and one more for each number left out before it."""
    number = frame
    while True:
        f, s = number % count.fps, number // count.fps
        text = f"{s // 3600:02}:{s // 60 % 60:02}:{s % 60:02}:{f:02}"
        at = count.place_of(text.encode())
        if at == frame:
            return text
        number += 1 if at is None else frame - at


# ------------------------------------------------------------------------------------------------------------- written


def fits(name):
    """Whether a list that is written can have this name."""
    return re.fullmatch("[A-Z0-9_]{1,8}", name) and name != "BL"


class Namer:
    """The names given so far, by the number of the reel."""

    def __init__(self):
        self.names = {}

    def name(self, reel, text):
        if reel not in self.names:
            name = self.new(text)
            if not fits(name) or name in self.names.values():
                raise Refused(f"L4 {reel}")
            self.names[reel] = name
        return self.names[reel]


class AsIs(Namer):
    def new(self, text):
        return text


class Numbered(Namer):
    def new(self, text):
        count = len(self.names) + 1
        return f"R{count:03}" if count <= MOST_NUMBERED else ""


class Tabled(Namer):
    """Names out of a table, by the texts of reels."""

    def __init__(self, table):
        super().__init__()
        self.table = table

    def new(self, text):
        return self.table.get(text, "")


def table_in(words):
    """The table that words TEXT=NAME give, or none where one of them can't."""
    table = {}
    for word in words:
        text, _, name = word.rpartition("=")
        if not text or not fits(name) or text in table or name in table.values():
            return None
        table[text] = name
    return table


def namer_in(words):
    """The namer that the words behind POINT ask for, or none."""
    if words[:1] == ["names"] and len(words) > 1:
        table = table_in(words[1:])
        return table and Tabled(table)
    return {(): AsIs, ("numbered",): Numbered}.get(tuple(words), lambda: None)()


def lines_of(events, start):
    """Each line of the events: number, channel, side, frames of a dissolve, source in and out, record in and out."""
    for number, (place, _, channel, event) in enumerate(events, 1):
        at, count = start + place, event.count
        if event.frames:
            source = event.left[1] if event.left else 0
            yield number, channel, event.left, 0, (source, source, at, at)
        source = event.right[1] if event.right else 0
        yield number, channel, event.right, event.frames, (source, source + count, at, at + count)


def write(plain, tracks, namer):
    """The list of a cut, or the first of its refusals in their order."""
    shown = channels.Shown(plain, tracks).channels()
    rows = {channel: channels.segments(frames) for channel, frames in shown.items()}
    for row in rows.values():
        for event in row:
            if event.frames > MOST_DISSOLVE:
                raise Refused(f"L3 {event.at}")
    order = list(rows)
    events = sorted((event.at, order.index(channel), channel, event) for channel, row in rows.items() for event in row)
    if len(events) > MOST_EVENTS:
        raise Refused(f"L5 {len(events)}")
    lines = list(lines_of(events, plain.start))
    count = counting(plain.fps, plain.drop)
    for *_, times in lines:
        for time in times:
            if time >= day(count):
                raise Refused(f"L6 {time}")
    text = ["TITLE: CUT", f"FCM: {counted_text(plain.drop)}"]
    for number, channel, side, frames, times in lines:
        reel = namer.name(side[0], plain.reels[side[0]]) if side else "BL"
        kind = f"D    {frames:03} " if frames else "C        "
        text.append(f"{number:03}  {reel:8} {channel:5} {kind}{' '.join(label(count, time) for time in times)}")
    return "".join(line + "\n" for line in text)


# ---------------------------------------------------------------------------------------------------------------- read


CHANNELS = {
    b"V": ("V",),
    b"A": ("A",),
    b"A2": ("A2",),
    b"B": ("A", "V"),
    b"AA": ("A", "A2"),
    b"A2/V": ("A2", "V"),
    b"AA/V": ("A", "A2", "V"),
}


class Fault(Exception):
    def __init__(self, code, *lines):
        super().__init__(" ".join([code, *map(str, lines)]))


@dataclass
class Event:
    """An event as its line has it; `left` is the side that a dissolve leaves."""

    line: int
    number: int
    channels: tuple
    right: tuple
    place: int
    count: int
    frames: int = 0
    left: Optional[tuple] = None

    def meets(self, other):
        """Whether the two have a record frame of one channel."""
        if set(self.channels).isdisjoint(other.channels):
            return False
        return self.place < other.place + other.count and other.place < self.place + self.count


def lines_in(data):
    """The lines, each with how long it is."""
    pieces = data.split(b"\n")
    for at, piece in enumerate(pieces):
        is_last = at == len(pieces) - 1
        if not is_last or piece:
            yield (piece[:-1] if piece.endswith(b"\r") and not is_last else piece), len(piece)


class Reader:
    def __init__(self, rate_name):
        self.rate, self.fps = documents.RATES[rate_name]
        self.count = counting(self.fps, False)
        self.events = []
        self.waiting = None  # a cut of no length whose dissolve has not come
        self.line = 0

    def read(self, data):
        if len(data) > MOST_BYTES:
            raise Fault("P13", 0)
        for self.line, (text, length) in enumerate(lines_in(data), 1):
            words = [word for word in re.split(b"[ \t]", text) if word]
            if not words or words[0].startswith(b"*") or words[0] == b"TITLE:":
                continue
            if words[0] == b"FCM:":
                self.counted(words[1:], length)
            else:
                self.event(words, length)
        self.nothing_waits()
        return self.events

    def fault(self, code, *others):
        raise Fault(code, self.line, *others)

    def nothing_waits(self):
        if self.waiting:
            raise Fault("P9", self.waiting.line)

    def counted(self, words, length):
        drop = words == [b"DROP", b"FRAME"]
        if not drop and words != [b"NON-DROP", b"FRAME"] or drop and self.rate != documents.RATES["29.97"][0]:
            self.fault("P12")
        if length > room.MOST_LINE:
            self.fault("P1")
        self.nothing_waits()
        self.count = counting(self.fps, drop)

    def event(self, words, length):
        event = self.spelled(words, length)
        if words[3] == b"D":
            cut = self.waiting
            if not cut or (cut.number, cut.channels, cut.place) != (event.number, event.channels, event.place):
                self.fault("P9")
            event.left, self.waiting = cut.right, None
        else:
            self.nothing_waits()
            if event.count == 0:
                self.waiting = event
                return
        met = [earlier.line for earlier in self.events if earlier.meets(event)]
        if met:
            self.fault("P10", min(met))
        self.events.append(event)

    def spelled(self, words, length):
        if words[0] == b"M2":
            self.fault("P7")
        if not re.fullmatch(b"[0-9]{1,6}", words[0]):
            self.fault("P2")
        if int(words[0]) > MOST_EVENTS:
            self.fault("P11")
        kind = words[3] if len(words) > 3 else b""
        for letter, code in ((b"W", "P5"), (b"K", "P6")):
            if kind.startswith(letter):
                self.fault(code)
        if length > room.MOST_LINE or len(words) != {b"C": 8, b"D": 9}.get(kind):
            self.fault("P1")
        if not re.fullmatch(b"[!-~]{1,32}", words[1]) or kind == b"D" and not re.fullmatch(b"[0-9]{1,3}", words[4]):
            self.fault("P1")
        if words[2] not in CHANNELS:
            self.fault("P8")
        times = [self.count.place_of(word) for word in words[-4:]]
        if None in times:
            self.fault("P3")
        frames = int(words[4]) if kind == b"D" else 0
        return self.timed(words, frames, kind == b"D", *times)

    def timed(self, words, frames, is_dissolve, source, source_out, place, place_out):
        count = place_out - place
        if count < 0 or source_out - source != count or is_dissolve and not 1 <= frames <= count:
            self.fault("P4")
        reel = words[1].decode()
        side = None if reel == "BL" else (reel, source)
        return Event(self.line, int(words[0]), CHANNELS[words[2]], side, place, count, frames)


def read(data, rate_name):
    return Reader(rate_name).read(data)


# -------------------------------------------------------------------------------------------------------------- played


def play(events):
    """The tape: a frame for each channel and record frame that is not dark."""
    tape = {}
    for event in events:
        for k in range(event.count):
            frame = ("pic", room.later(event.right, k))
            if k < event.frames:
                frame = ("mix", room.later(event.left, k), frame[1], k + 1, event.frames + 1)
            for channel in event.channels:
                if frame != channels.DARK:
                    tape[channel, event.place + k] = frame
    return tape


def side_text(side):
    return f"{side[0]} {side[1]}" if side else "BL"


def frame_text(frame):
    if frame[0] == "pic":
        return side_text(frame[1])
    return f"mix {side_text(frame[1])} {side_text(frame[2])} {frame[3]} {frame[4]}"


def tape_text(tape):
    """Each run of the tape as a line."""
    lines = []
    for channel in ("V", "A", "A2"):
        runs = []
        for at in sorted(place for key, place in tape if key == channel):
            before = tape.get((channel, at - 1))
            if before and room.goes_on(before, tape[channel, at]):
                runs[-1][1] += 1
            else:
                runs.append([at, 1])
        lines += [f"{channel} {at} {count} {frame_text(tape[channel, at])}\n" for at, count in runs]
    return "".join(lines)


# ---------------------------------------------------------------------------------------------------- the two commands


def rate_in(word):
    """The name of the rate that a word stands for, if it is one of the five."""
    if not re.fullmatch(r"-?(0|[1-9][0-9]*)(\.[0-9]+)?([eE][+-]?[0-9]+)?", word):
        return None
    numeral = documents.numeral_of(word)
    exact = None if numeral is documents.WIDE else documents.rate_of(numeral)
    return next((name for name, (rate, _) in documents.RATES.items() if rate == exact), None)


def number_in(word):
    return int(word) if re.fullmatch("[0-9]+", word) and int(word) <= journals.MOST_NUMBER else None


def list_answer(document, rate, drop, journal, point, namer):
    """What `list` answers, and its status. The journal is a call, since it is read once the document is open."""
    try:
        plain = documents.read(document, rate, drop)
        journals.replay(plain, journals.read(plain, journal()), point)
        return write(plain, plain.tracks, namer), 0
    except (documents.Fault, journals.Fault) as fault:
        return f"refused {fault}\n", 4
    except Refused as refused:
        return f"refused {refused}\n", 8


def tape_answer(data, rate):
    try:
        return tape_text(play(read(data, rate))), 0
    except Fault as fault:
        return f"refused {fault}\n", 4


def answer(words):
    """What the program has to put on output for its words, and its status."""
    if len(words) == 3 and words[0] == "tape" and rate_in(words[2]):
        return tape_answer(pathlib.Path(words[1]).read_bytes(), rate_in(words[2]))
    if len(words) >= 6 and words[0] == "list" and namer_in(words[6:]):
        _, document, rate, drop, journal, point = words[:6]
        rate, point = rate_in(rate), number_in(point)
        if rate and point is not None and (drop == "ndf" or drop == "drop" and rate == "29.97"):
            journal, namer = pathlib.Path(journal), namer_in(words[6:])
            document = pathlib.Path(document).read_bytes()
            return list_answer(document, rate, drop == "drop", journal.read_bytes, point, namer)
    return "refused words\n", 3


def main():
    if sys.argv[1:] == ["--help"]:
        print(__doc__)
        return 0
    try:
        text, status = answer(sys.argv[1:])
    except OSError:
        text, status = "", 1
    sys.stdout.buffer.write(text.encode())
    return status


if __name__ == "__main__":
    sys.exit(main())
