"""Documents and journals made at random for decision lists: cuts of stacked pictures, sounds, dissolves and nests,
with lines of edits, a few of them with what no list can say."""

import json
from dataclasses import dataclass

import beside
import documents
import edl

compare = beside.tool("compare")
ENOUGH = 3_000
NAMES = "A B TAPE1 TAPE_2 X99 12345678".split()
UNFIT = ["", "BL", "a", "shot a", "TAPE-1", "123456789", "é", "A\n"]
EDITS = "overwrite insert remove extract slice fill trim slip ripple roll slide".split()
EDITS += "dissolve undissolve link unlink back".split()
STATIONS = 3


def length(part):
    """How many frames an item, a gap or a layer has; a dissolve has none."""
    if "source_range" in part:
        return part["source_range"]["duration"]["value"]
    return sum(map(length, part.get("children", [])))


def rows(r):
    """Words of a table of names, for most texts of reels; one in five tables has a row that it may not have."""
    texts = [text for text in NAMES + UNFIT if text and "\n" not in text]
    names = r.sample([*NAMES, *"C D E F G H I J".split()], len(texts))
    words = [f"{text}={name}" for text, name in zip(texts, names) if r.random() < 0.95]
    if r.random() < 0.2:
        text, name = r.choice(texts), r.choice(names)
        spoiled = [f"{text}={name}", text, f"={name}", f"{text}={r.choice(UNFIT[1:])}", f"{text}==Z1", ""]
        words.insert(r.randint(0, len(words)), r.choice(spoiled).replace("\n", ""))
    return words


class Maker:
    """Makes a document at a rate. `late` is a frame that its sources begin near."""

    def __init__(self, r, rate_name, late=0):
        self.r, self.rate, self.late = r, float(rate_name), late
        self.names = r.sample(NAMES, r.randint(1, 4)) + ([r.choice(UNFIT)] if r.random() < 0.15 else [])

    def time(self, frames):
        return {"OTIO_SCHEMA": "RationalTime.1", "rate": self.rate, "value": frames}

    def span(self, start, count):
        return {"OTIO_SCHEMA": "TimeRange.1", "start_time": self.time(start), "duration": self.time(count)}

    def gap(self, count):
        return {"OTIO_SCHEMA": "Gap.1", "source_range": self.span(0, count)}

    def clip(self, count, before=None):
        """A clip; where one is before it, it may go on from that one."""
        name, start = self.r.choice(self.names), self.late + self.r.randint(20, 70)
        if before and before["OTIO_SCHEMA"] == "Clip.2" and self.r.random() < 0.2:
            last = before["source_range"]
            name, start = before["name"], last["start_time"]["value"] + last["duration"]["value"]
        media = {"OTIO_SCHEMA": "ExternalReference.1", "available_range": self.span(self.late, ENOUGH)}
        clip = {"OTIO_SCHEMA": "Clip.2", "name": name, "source_range": self.span(start, count)}
        return {**clip, "media_references": {"DEFAULT_MEDIA": media}}

    def nest(self, count, depth):
        layers = []
        for _ in range(self.r.randint(1, 3)):
            row = self.row(depth - 1, 4)
            layer = {"OTIO_SCHEMA": "Track.1", "children": row}
            frames = length(layer)
            if frames > 2 and self.r.random() < 0.5:
                low = self.r.randint(0, frames - 1)
                layer["source_range"] = self.span(low, self.r.randint(1, frames - low))
            layers.append(layer)
        longest = max(map(length, layers))
        count = min(count, longest)
        span = self.span(self.r.randint(0, longest - count), count)
        return {"OTIO_SCHEMA": "Stack.1", "source_range": span, "children": layers}

    def row(self, depth, most, dark=0.25):
        """Items, gaps, and dissolves with room between them."""
        row, used, before = [], 0, None
        for _ in range(self.r.randint(0, most)):
            count = self.r.choice([1, 2, self.r.randint(1, 9), self.r.randint(4, 16)])
            part = self.part(count, depth, before, dark)
            count, after = length(part), 0
            if before and self.r.random() < 0.35 and "Stack.1" not in (before["OTIO_SCHEMA"], part["OTIO_SCHEMA"]):
                a, after = self.r.randint(0, min(4, length(before) - used)), self.r.randint(0, min(4, count))
                row.append(self.dissolve(a, after))
            row.append(part)
            before, used = part, after
        return row

    def part(self, count, depth, before, dark):
        """A gap, where there is none before it, a nest or a clip."""
        if self.r.random() < dark and (not before or before["OTIO_SCHEMA"] != "Gap.1"):
            return self.gap(count)
        return self.nest(count, depth) if depth and self.r.random() < 0.2 else self.clip(count, before)

    def dissolve(self, a, b):
        offsets = {"in_offset": self.time(a), "out_offset": self.time(b)}
        return {"OTIO_SCHEMA": "Transition.1", "transition_type": "SMPTE_Dissolve", **offsets}

    def long_row(self):
        """Two clips or a clip and a gap, and a dissolve about as long as a list can say."""
        a, b = self.r.randint(400, 500), self.r.choice([499, 500, 501, 599])
        one = self.clip(600)
        one["source_range"]["start_time"]["value"] += 600
        two = self.r.choice([self.gap(600), self.clip(600)])
        two["source_range"]["start_time"]["value"] += 600
        return [one, self.dissolve(999 - b if self.r.random() < 0.5 else a, b), two]

    def many_row(self):
        """About as many short clips as a list has events; now and then one goes on from the one before."""
        row = []
        for at in range(self.r.randint(992, 1012)):
            row.append(self.clip(1, row[-1] if row else None))
            row[-1]["source_range"]["start_time"]["value"] += 0 if self.r.random() < 0.02 else 2 * at
        return row

    def document(self, start, special):
        """Video under sparser video, and mostly not more than two tracks of audio; a special row is the first."""
        rows = [("Video", special(self))] if special else []
        rows += [("Video", self.row(2, 8, 0.2 + 0.3 * at)) for at in range(self.r.choice([0, 1, 1, 2, 2, 3]))]
        rows += [("Audio", self.row(0, 6)) for _ in range(self.r.choice([0, 0, 1, 1, 2, 2, 2, 3]))]
        tracks = [{"OTIO_SCHEMA": "Track.1", "kind": kind, "children": row} for kind, row in rows or [("Video", [])]]
        stack = {"OTIO_SCHEMA": "Stack.1", "children": tracks}
        timeline = {"OTIO_SCHEMA": "Timeline.1", "global_start_time": self.time(start), "tracks": stack}
        return json.dumps(timeline).encode()


@dataclass
class Cut:
    """What `list` is given: a document, how it is counted, a journal and a point."""

    document: bytes
    rate: str
    drop: bool
    journal: bytes
    point: int

    def words(self, document, journal):
        return [document, self.rate, "drop" if self.drop else "ndf", journal, str(self.point)]


def edit(r, plain, station=0):
    """A line by which a station asks for an edit, of nests too."""
    if plain.nests and r.random() < 0.05:
        number = r.randrange(len(plain.nests))
        return f"overwrite 0 {r.randint(0, 30)} #{number} 0 {max(1, plain.nests[number])}".encode()
    return compare.line_of(r, plain, EDITS, station)


def journal(r, plain, most):
    for _ in range(r.randint(0, most)):
        station = r.randrange(STATIONS)
        plain.answer(edit(r, plain, station), station=station)
    return plain.journal_text().encode()


def spoiled(r, text):
    """A journal with a line gone, twice, elsewhere or changed, mostly with its count put right, or cut off."""
    lines, bad = text.split(b"\n"), [b"", b"0", b"00", b"16", b"1 ", b"x", b"point", b"4294967296", b"-0"]
    at, how = r.randrange(min(1, len(lines) - 2), max(1, len(lines) - 1)), r.randrange(8)
    words = lines[at].split(b" ")
    if how == 0:
        del lines[at]
    elif how == 1:
        lines.insert(at, lines[at])
    elif how == 2:
        lines.insert(r.randrange(len(lines)), lines.pop(at))
    elif how == 3:
        words[r.randrange(len(words))] = r.choice(bad)
        lines[at] = b" ".join(words)
    elif how == 4:
        lines[at] = b" ".join([*words[:-1], r.choice([b"0" + words[-1], b" " + words[-1], words[-1] + b" "])])
    elif how == 5:
        lines[at] = b" ".join([r.choice([b"15", b"16"]), *words[1:]])
    if how < 2 and r.random() < 0.7:
        lines[0] = b"journal %d" % (len(lines) - 2)
    text = b"\n".join(lines)
    at = r.randrange(len(text) + 1)
    if how == 6:
        return text[:at]
    if how == 7:
        return text[:at] + bytes([r.choice(b"\r\n 0x@-,\x00\xff")]) + text[at + 1 :]
    return text


def made(r):
    """A cut, mostly one that has a list."""
    rate = r.choice(list(documents.RATES))
    drop, fps = rate == "29.97" and r.random() < 0.7, documents.RATES[rate][1]
    day = edl.day(edl.counting(fps, drop))
    start = r.choice([0, 1, 3600 * fps, 59 * fps + r.randint(0, 2 * fps)])
    if r.random() < 0.08:
        start = day - r.randint(1, 60)
    late = day - r.randint(0, 300) if r.random() < 0.05 else 0
    special = r.choice([Maker.long_row, Maker.many_row]) if r.random() < 0.06 else None
    document = Maker(r, rate, late).document(start, special)
    plain = documents.read(document, rate, drop)
    text = journal(r, plain, r.choice([0, 0, 10, 40]) if not special else 2)
    count = len(plain.journal)
    if r.random() < 0.1:
        text = spoiled(r, text)
    point = r.choice([count, count, count, r.randint(0, count), 0])
    return Cut(document, rate, drop, text, count + 1 if r.random() < 0.02 else point)
