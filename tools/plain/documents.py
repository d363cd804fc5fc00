"""OpenTimelineIO documents, read and written as docs/DOCUMENTS.md says, over the room of plain lists.

JSON is read by hand, since each fault has a place and each value too. Times are fractions."""

from dataclasses import dataclass
from fractions import Fraction
from math import floor, ceil

import room

MOST_BYTES = 32 * 1024 * 1024
MOST_LEVELS = 64
MOST_SOURCE = 16_777_216
MOST_TRACKS = 32
MOST_NESTS = 8
FAR = 2_147_483_647

RATES = {
    "23.976": (Fraction(24000, 1001), 24),
    "24.0": (Fraction(24), 24),
    "25.0": (Fraction(25), 25),
    "29.97": (Fraction(30000, 1001), 30),
    "30.0": (Fraction(30), 30),
}
USUAL = [Fraction(24000, 1001), Fraction(24), Fraction(25), Fraction(30000, 1001), Fraction(30), Fraction(48000, 1001), Fraction(60000, 1001)]


class Fault(Exception):
    def __init__(self, code, at):
        super().__init__(f"{code} {at}")


# ------------------------------------------------------------------------------------------------------------------ JSON


@dataclass
class Value:
    at: int
    kind: str  # null, bool, numeral, wide, text, list, object
    value: object = None

    def member(self, name):
        found = None
        for key, value in self.value:
            if key == name:
                found = value
        return found


WIDE = object()


def numeral_of(text):
    """(mantissa, places) with the fewest places, or WIDE."""
    body, _, power = text.lower().partition("e")
    sign = -1 if body.startswith("-") else 1
    whole, _, part = body.lstrip("-").partition(".")
    digits = (whole + part).lstrip("0")
    if not digits:
        return (0, 0)
    places = len(part)
    stripped = digits.rstrip("0")
    places -= len(digits) - len(stripped)
    places -= int(power) if power else 0
    if places < 0:
        if -places + len(stripped) > 18:
            return WIDE
        stripped, places = stripped + "0" * -places, 0
    if len(stripped) > 18 or places > 18:
        return WIDE
    return (sign * int(stripped), places)


class Reader:
    def __init__(self, data):
        self.data, self.at = data, 0

    def peek(self):
        return self.data[self.at] if self.at < len(self.data) else None

    def fault(self, at=None):
        raise Fault("J1", self.at if at is None else at)

    def blanks(self):
        while self.peek() in (32, 9, 13, 10):
            self.at += 1

    def word(self, word):
        for byte in word:
            if self.peek() != byte:
                self.fault()
            self.at += 1

    def document(self):
        self.blanks()
        value = self.value(MOST_LEVELS)
        self.blanks()
        if self.at < len(self.data):
            self.fault()
        return value

    def value(self, levels):
        at, byte = self.at, self.peek()
        if byte == ord("n"):
            self.word(b"null")
            return Value(at, "null")
        if byte == ord("t"):
            self.word(b"true")
            return Value(at, "bool", True)
        if byte == ord("f"):
            self.word(b"false")
            return Value(at, "bool", False)
        if byte == ord('"'):
            return Value(at, "text", self.text())
        if byte in b"[{" if byte is not None else False:
            if levels == 0:
                raise Fault("J2", at)
            return self.several(at, byte, levels)
        if byte is not None and (byte == ord("-") or 48 <= byte <= 57):
            text = self.numeral()
            found = numeral_of(text)
            return Value(at, "wide") if found is WIDE else Value(at, "numeral", found)
        self.fault()

    def several(self, at, opening, levels):
        is_list = opening == ord("[")
        closing = ord("]") if is_list else ord("}")
        self.at += 1
        found = []
        self.blanks()
        if self.peek() == closing:
            self.at += 1
            return Value(at, "list" if is_list else "object", found)
        while True:
            self.blanks()
            if is_list:
                found.append(self.value(levels - 1))
            else:
                if self.peek() != ord('"'):
                    self.fault()
                name = self.text()
                self.blanks()
                if self.peek() != ord(":"):
                    self.fault()
                self.at += 1
                self.blanks()
                found.append((name, self.value(levels - 1)))
            self.blanks()
            if self.peek() == closing:
                self.at += 1
                return Value(at, "list" if is_list else "object", found)
            if self.peek() != ord(","):
                self.fault()
            self.at += 1

    def digits(self):
        if self.peek() is None or not 48 <= self.peek() <= 57:
            self.fault()
        while self.peek() is not None and 48 <= self.peek() <= 57:
            self.at += 1

    def numeral(self):
        start = self.at
        if self.peek() == ord("-"):
            self.at += 1
        if self.peek() == ord("0"):
            self.at += 1
        else:
            self.digits()
        if self.peek() == ord("."):
            self.at += 1
            self.digits()
        if self.peek() in (ord("e"), ord("E")):
            self.at += 1
            if self.peek() in (ord("+"), ord("-")):
                self.at += 1
            self.digits()
        return self.data[start : self.at].decode()

    def hexadecimal(self):
        value = 0
        for _ in range(4):
            byte = self.peek()
            if byte is None or chr(byte) not in "0123456789abcdefABCDEF":
                self.fault()
            value = value * 16 + int(chr(byte), 16)
            self.at += 1
        return value

    def text(self):
        self.at += 1
        found = []
        while True:
            byte = self.peek()
            if byte is None or byte < 32:
                self.fault()
            if byte == ord('"'):
                self.at += 1
                return "".join(found)
            if byte == ord("\\"):
                found.append(self.escape())
            elif byte < 128:
                found.append(chr(byte))
                self.at += 1
            else:
                found.append(self.utf8())

    def escape(self):
        start = self.at
        self.at += 1
        byte = self.peek()
        plain = {'"': '"', "\\": "\\", "/": "/", "b": "\b", "f": "\f", "n": "\n", "r": "\r", "t": "\t"}
        if byte is None:
            self.fault()
        if chr(byte) in plain:
            self.at += 1
            return plain[chr(byte)]
        if byte != ord("u"):
            self.fault()
        self.at += 1
        first = self.hexadecimal()
        if 0xDC00 <= first < 0xE000:
            self.fault(start)
        if not 0xD800 <= first < 0xDC00:
            return chr(first)
        for byte in b"\\u":
            if self.peek() is None:
                self.fault()
            if self.peek() != byte:
                self.fault(start)
            self.at += 1
        second = 0
        hexadecimal = "0123456789abcdefABCDEF"
        for allowed in ("dD", "cdefCDEF", hexadecimal, hexadecimal):
            byte = self.peek()
            if byte is None:
                self.fault()
            if chr(byte) not in allowed:
                self.fault(start)
            second = second * 16 + int(chr(byte), 16)
            self.at += 1
        return chr(0x10000 + (first - 0xD800) * 0x400 + second - 0xDC00)

    def utf8(self):
        start, first = self.at, self.data[self.at]
        if 0xC2 <= first < 0xE0:
            bounds = [(0x80, 0xBF)]
        elif 0xE0 <= first < 0xF0:
            bounds = [(0xA0 if first == 0xE0 else 0x80, 0x9F if first == 0xED else 0xBF), (0x80, 0xBF)]
        elif 0xF0 <= first < 0xF5:
            bounds = [(0x90 if first == 0xF0 else 0x80, 0x8F if first == 0xF4 else 0xBF), (0x80, 0xBF), (0x80, 0xBF)]
        else:
            raise Fault("J4", start)
        self.at += 1
        for least, most in bounds:
            if self.peek() is None:
                self.fault()
            if not least <= self.peek() <= most:
                raise Fault("J4", start)
            self.at += 1
        return self.data[start : self.at].decode()


# ------------------------------------------------------------------------------------------------------------- the walk


def asked(value, kind):
    if value.kind != kind:
        raise Fault("O3", value.at)
    return value


def needed(value, name):
    found = value.member(name)
    if found is None:
        raise Fault("O2", value.at)
    return found


def optional(value, name):
    """The member, or none where it is missing or null."""
    found = value.member(name)
    return None if found is None or found.kind == "null" else found


CLIPS = {"Clip.1", "Clip.2"}
ITEMS = CLIPS | {"Gap.1", "Stack.1", "Track.1"}
KNOWN = ITEMS | {"Timeline.1", "Transition.1", "RationalTime.1", "TimeRange.1"}


def schema_of(value, wanted):
    """The schema of an object, one of those wanted."""
    asked(value, "object")
    text = needed(value, "OTIO_SCHEMA")
    asked(text, "text")
    if text.value in wanted:
        return text.value
    raise Fault("O3" if text.value in KNOWN else "O1", text.at)


def rate_of(numeral):
    mantissa, places = numeral
    exact = Fraction(mantissa, 10**places)
    for rate in USUAL:
        if abs(exact - rate) <= Fraction(1, 200):
            return rate
    if 0 < mantissa < 10**12 and places <= 6:
        return exact
    return None


def number_in(value, name):
    found = needed(value, name)
    if found.kind == "wide":
        raise Fault("J3", found.at)
    return asked(found, "numeral")


@dataclass
class Time:
    at: int
    moment: Fraction


def time_of(value):
    """A moment, with the place of its object."""
    schema_of(value, {"RationalTime.1"})
    rate = number_in(value, "rate")
    found = rate_of(rate.value)
    if found is None:
        raise Fault("O5", rate.at)
    number = number_in(value, "value")
    return Time(value.at, Fraction(number.value[0], 10 ** number.value[1]) / found)


def frame_of(time, rate):
    frames = time.moment * rate
    if frames.denominator != 1 or abs(frames) > FAR:
        raise Fault("O4", time.at)
    return int(frames)


@dataclass
class Part:
    """An item or gap as it is read: `shows` is none for a gap."""

    at: int
    shows: object
    source: int
    count: int
    is_nest: bool = False


class Walk:
    def __init__(self, rate, fps, drop):
        self.rate, self.fps, self.drop = rate, fps, drop
        self.reels, self.media, self.nests, self.nest_layers = [], [], [], []

    def timeline(self, value):
        schema_of(value, {"Timeline.1"})
        start = 0
        given = optional(value, "global_start_time")
        if given:
            start = frame_of(time_of(given), self.rate)
            day = 24 * 3600 * self.fps - (2 * (24 * 60 - 24 * 6) if self.drop else 0)
            if not 0 <= start < day:
                raise Fault("O11", given.at)
        stack = needed(value, "tracks")
        schema_of(stack, {"Stack.1"})
        self.untrimmed(stack)
        children = asked(needed(stack, "children"), "list")
        if not 1 <= len(children.value) <= MOST_TRACKS:
            raise Fault("O10", children.at)
        kinds, tracks = [], []
        for child in children.value:
            kind, cells = self.track(child)
            kinds.append(kind)
            tracks.append(cells)
        found = room.Room(kinds, [(low, high) for _, low, high in self.media], self.nests, self.fps, self.drop, start)
        found.reels, found.media_reels, found.layers, found.rate = self.reels, [reel for reel, _, _ in self.media], self.nest_layers, self.rate
        found.open([room.Track(cells, 1 + max([c.item for c in cells if c.item is not None], default=-1)) for cells in tracks])
        return found

    def untrimmed(self, value):
        given = optional(value, "source_range")
        if given:
            raise Fault("O16", given.at)

    def enabled(self, value):
        given = optional(value, "enabled")
        if given and asked(given, "bool").value is False:
            raise Fault("O7", given.at)

    def effects(self, value):
        given = optional(value, "effects")
        if given:
            for effect in asked(given, "list").value:
                if effect.kind == "object":
                    schema = effect.member("OTIO_SCHEMA")
                    if schema and schema.kind == "text" and schema.value.startswith(("LinearTimeWarp.", "FreezeFrame.", "TimeEffect.")):
                        raise Fault("O6", effect.at)

    def track(self, value):
        schema_of(value, {"Track.1"})
        self.enabled(value)
        self.untrimmed(value)
        kind = asked(needed(value, "kind"), "text")
        if kind.value not in ("Video", "Audio"):
            raise Fault("O3", kind.at)
        children = asked(needed(value, "children"), "list")
        row = self.row(children, 1, kind.value == "Audio")
        return kind.value.lower(), self.cells_of(row, value.at)

    def row(self, children, depth, is_audio):
        """Parts, and the marks between them: a transition is looked at when the item after it has been read."""
        row, waiting = [], []
        for child in children.value:
            if schema_of(child, ITEMS | {"Transition.1"}) == "Transition.1":
                waiting.append(child)
                continue
            part = self.item(child, depth, is_audio)
            if waiting:
                if len(waiting) > 1 or not row:
                    raise Fault("O8", waiting[0].at)
                self.transition(row, waiting[0], part)
                waiting = []
            row.append(part)
        if waiting:
            raise Fault("O8", waiting[0].at)
        return row

    def item(self, value, depth, is_audio):
        schema = schema_of(value, ITEMS)
        if schema in ("Stack.1", "Track.1"):
            if depth > MOST_NESTS:
                raise Fault("O13", value.at)
            if is_audio:
                raise Fault("O12", value.at)
        return self.part(value, schema, depth)

    def span(self, given):
        """A range's start and duration, in frames, with the place of the duration's object."""
        schema_of(given, {"TimeRange.1"})
        start = frame_of(time_of(needed(given, "start_time")), self.rate)
        duration = time_of(needed(given, "duration"))
        count = frame_of(duration, self.rate)
        if count < 0:
            raise Fault("O14", duration.at)
        return start, count

    def part(self, value, schema, depth):
        self.enabled(value)
        self.effects(value)
        given = optional(value, "source_range")
        if schema == "Gap.1":
            if not given:
                raise Fault("O14", value.at)
            return self.gap(value, given)
        span = None
        if given:
            span = self.span(given)
        if schema in CLIPS:
            return self.clip(value, schema, given, span)
        return self.nest(value, schema, given, span, depth)

    def gap(self, value, given):
        schema_of(given, {"TimeRange.1"})
        duration = time_of(needed(given, "duration"))
        count = frame_of(duration, self.rate)
        if count < 0:
            raise Fault("O14", duration.at)
        return Part(value.at, None, 0, count)

    def clip(self, value, schema, given, span):
        if span and span[1] > 0 and not (0 <= span[0] and span[0] + span[1] <= MOST_SOURCE):
            raise Fault("O11", given.at)
        available = None
        reference = self.active(value) if schema == "Clip.2" else optional(value, "media_reference")
        if reference:
            asked(reference, "object")
            given_range = optional(reference, "available_range")
            if given_range:
                available = self.available(given_range)
        reel = self.reel(value)
        if available and available[0] < available[1]:
            low, high = available
            if span is None:
                span = (low, high - low)
            elif span[1] > 0:
                low, high = min(low, span[0]), max(high, span[0] + span[1])
        elif span is not None:
            low, high = 0, MOST_SOURCE
        else:
            raise Fault("O14", value.at)
        if reel not in self.reels:
            self.reels.append(reel)
        entry = (self.reels.index(reel), low, high)
        if entry not in self.media:
            self.media.append(entry)
        return Part(value.at, ("@", self.media.index(entry)), span[0], span[1])

    def active(self, value):
        """Of several media references by their keys the active one."""
        keyed = optional(value, "media_references")
        if keyed:
            asked(keyed, "object")
        key = optional(value, "active_media_reference_key")
        name = asked(key, "text").value if key else "DEFAULT_MEDIA"
        return optional(keyed, name) if keyed else None

    def available(self, given):
        schema_of(given, {"TimeRange.1"})
        start = time_of(needed(given, "start_time"))
        duration = time_of(needed(given, "duration"))
        if duration.moment < 0:
            raise Fault("O14", duration.at)
        low, high = ceil(start.moment * self.rate), floor(start.moment * self.rate) + floor(duration.moment * self.rate)
        if abs(low) > FAR or abs(high) > FAR:
            raise Fault("O4", given.at)
        return max(low, 0), min(high, MOST_SOURCE)

    def reel(self, value):
        found = value
        for name in ("metadata", "cmx_3600", "reel"):
            found = found.member(name) if found is not None and found.kind == "object" else None
        if found is not None and found.kind == "text":
            return found.value
        name = value.member("name")
        if name is not None and name.kind == "text" and name.value:
            return name.value
        return "AX"

    def nest(self, value, schema, given, span, depth):
        if schema == "Track.1":
            layers = [self.layer_of_row(value, depth)]
        else:
            children = asked(needed(value, "children"), "list")
            layers = [self.layer(child, depth) for child in children.value]
        length = max([high - low for _, low, high in layers], default=0)
        number = len(self.nests)
        self.nests.append(length)
        self.nest_layers.append(layers)
        start, count = (0, length) if span is None else self.within(span, length, given)
        return Part(value.at, ("#", number), start, count, True)

    def within(self, span, length, given):
        start, count = span
        if not (0 <= start and start + count <= length):
            raise Fault("O14", given.at)
        return start, count

    def layer_of_row(self, value, depth):
        """The children of a Track as a layer, whole."""
        children = asked(needed(value, "children"), "list")
        cells = self.cells_of(self.row(children, depth + 1, False), value.at)
        return cells, 0, len(cells)

    def layer(self, value, depth):
        schema = schema_of(value, ITEMS)
        if schema == "Track.1":
            self.enabled(value)
            self.effects(value)
            given = optional(value, "source_range")
            span = self.span(given) if given else None
            cells, low, high = self.layer_of_row(value, depth)
            if span is not None:
                start, count = self.within(span, len(cells), given)
                low, high = start, start + count
            return cells, low, high
        part = self.item(value, depth + 1, False)
        cells = self.cells_of([part], value.at)
        return cells, 0, len(cells)

    def transition(self, row, value, after):
        before = row[-1]
        if before.shows is None and after.shows is None:
            raise Fault("O8", value.at)
        if before.is_nest or after.is_nest:
            raise Fault("O15", value.at)
        kind = asked(needed(value, "transition_type"), "text")
        if kind.value != "SMPTE_Dissolve":
            raise Fault("O3", kind.at)
        one = time_of(needed(value, "in_offset"))
        a = frame_of(one, self.rate)
        two = time_of(needed(value, "out_offset"))
        b = frame_of(two, self.rate)
        for offset, frames in ((one, a), (two, b)):
            if frames < 0:
                raise Fault("O9", offset.at)
        if a + b > 0:
            if after.count == 0 or not self.has_room(row, after, a, b):
                raise Fault("O9", value.at)
            row.append((a, b))

    def has_room(self, row, after, a, b):
        """The mark lies within the items or gaps at its cut, past the footprint before, and both sides have handles."""
        before = row[-1]
        count = 0
        used = 0
        for part in reversed(row):
            if isinstance(part, tuple):
                used = part[1]
                break
            if part is not before and (before.shows is not None or part.shows is not None and part.count):
                break
            count += part.count
        if count == 0 or a + used > count or b > after.count:
            return False
        if before.shows is not None and before.source + before.count + b > self.media[before.shows[1]][2]:
            return False
        return after.shows is None or after.source - a >= self.media[after.shows[1]][1]

    def cells_of(self, row, at):
        cells, mark, item = [], None, 0
        total = sum(part.count for part in row if isinstance(part, Part))
        if total > room.MOST_FRAMES:
            raise Fault("O11", at)
        for part in row:
            if isinstance(part, tuple):
                mark = part
                continue
            if part.count == 0:
                continue
            if part.shows is None:
                new = [room.DARK] * part.count
            else:
                new = room.new_item(item, part.shows, part.source, part.count)
                item += 1
            if mark:
                new[0] = room.replace(new[0], mark=mark)
                mark = None
            cells += new
        if len(room.pieces(cells)) > room.MOST_ITEMS:
            raise Fault("O11", at)
        return cells


def read(data, rate_name, drop=False):
    if len(data) > MOST_BYTES:
        raise Fault("J5", 0)
    rate, fps = RATES[rate_name]
    return Walk(rate, fps, drop).timeline(Reader(data).document())


# ---------------------------------------------------------------------------------------------------------------- writing


def text(value):
    out = []
    for char in value:
        if char in '"\\':
            out.append("\\" + char)
        elif ord(char) < 32:
            out.append(f"\\u00{ord(char):02x}")
        else:
            out.append(char)
    return '"' + "".join(out) + '"'


REST = '"effects":[],"markers":[]'


class Writer:
    def __init__(self, source):
        self.room = source
        rate = getattr(source, "rate", Fraction(24))
        self.rate = next(name for name, (exact, _) in RATES.items() if exact == rate)

    def time(self, frame):
        return f'{{"OTIO_SCHEMA":"RationalTime.1","rate":{self.rate},"value":{frame}.0}}'

    def range(self, frame, count):
        return f'{{"OTIO_SCHEMA":"TimeRange.1","duration":{self.time(count)},"start_time":{self.time(frame)}}}'

    def timeline(self, tracks):
        children = ",".join(self.track(track.cells, kind.capitalize(), "null") for track, kind in zip(tracks, self.room.kinds))
        stack = f'{{"OTIO_SCHEMA":"Stack.1","name":"tracks","metadata":{{}},"source_range":null,{REST},"children":[{children}]}}'
        return f'{{"OTIO_SCHEMA":"Timeline.1","name":"","metadata":{{}},"global_start_time":{self.time(self.room.start)},"tracks":{stack}}}'

    def track(self, cells, kind, trimmed):
        children = ",".join(self.child(cells, x, y) for x, y in room.pieces(cells))
        return f'{{"OTIO_SCHEMA":"Track.1","name":"","metadata":{{}},"source_range":{trimmed},{REST},"kind":"{kind}","children":[{children}]}}'

    def child(self, cells, x, y):
        cell, out = cells[x], ""
        if cell.mark:
            a, b = cell.mark
            out = f'{{"OTIO_SCHEMA":"Transition.1","name":"","metadata":{{}},"transition_type":"SMPTE_Dissolve","in_offset":{self.time(a)},"out_offset":{self.time(b)}}},'
        if cell.item is None:
            return out + f'{{"OTIO_SCHEMA":"Gap.1","name":"","metadata":{{}},"source_range":{self.range(0, y - x)},{REST}}}'
        span = self.range(cell.source, y - x)
        if cell.shows[0] == "@":
            reel = text(self.reel(cell.shows[1]))
            low, high = self.room.media[cell.shows[1]]
            media = f'{{"OTIO_SCHEMA":"MissingReference.1","name":"","metadata":{{}},"available_range":{self.range(low, high - low)}}}'
            clip = f'{{"OTIO_SCHEMA":"Clip.2","name":{reel},"metadata":{{"cmx_3600":{{"reel":{reel}}}}},"source_range":{span},{REST}'
            return out + f'{clip},"media_references":{{"DEFAULT_MEDIA":{media}}},"active_media_reference_key":"DEFAULT_MEDIA"}}'
        layers = []
        for layer, low, high in self.room.layers[cell.shows[1]]:
            layers.append(self.track(layer, "Video", "null" if (low, high) == (0, len(layer)) else self.range(low, high - low)))
        return out + f'{{"OTIO_SCHEMA":"Stack.1","name":"","metadata":{{}},"source_range":{span},{REST},"children":[{",".join(layers)}]}}'

    def reel(self, media):
        reels = getattr(self.room, "reels", None)
        return reels[self.room.media_reels[media]] if reels is not None else f"R{media}"


def write(source, tracks):
    return Writer(source).timeline(tracks)
