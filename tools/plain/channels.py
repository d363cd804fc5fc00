"""What a cut shows on the channels of a decision list, frame by frame, and the segments of a channel, as docs/LISTS.md
says, over the room of plain lists; and the places at which a fade hides a picture.

A frame is as the room has it, ("pic", side) or ("mix", left, right, num, den), with the number of a reel where the
room has what it shows: a side is none for dark, or (reel, source frame)."""

from dataclasses import dataclass

import room

DARK = ("pic", None)


class Refused(Exception):
    """A cut that has no list, with its words: L1 to L6."""


def stacked(rows):
    """At each place the topmost frame that is not dark; the last row is on top."""
    places = range(max(map(len, rows), default=0))
    return [next((row[at] for row in reversed(rows) if at < len(row) and row[at] != DARK), DARK) for at in places]


def hiding(layers):
    """At each place whether a fade hides a picture, over layers, each with what it shows, and where a fade within its nests
    hides one."""
    found = []
    for at in range(max((len(shown) for shown, _ in layers), default=0)):
        below, hides = DARK, False
        for shown, within in layers:
            if at < len(shown) and shown[at] != DARK:
                is_fade = shown[at][0] == "mix" and None in shown[at][1:3]
                hides, below = within[at] or (is_fade and below != DARK), shown[at]
        found.append(hides)
    return found


class Shown:
    """The channels of a room as it stands, or of its first so many entries, and of the nests that it has."""

    def __init__(self, plain, tracks):
        self.plain, self.nests, self.hidings = plain, {}, {}
        rows = [(kind, self.frames(track.cells)) for kind, track in zip(plain.kinds, tracks)]
        self.video = stacked([row for kind, row in rows if kind == "video"])
        self.audio = [row for kind, row in rows if kind == "audio"]
        cells = [track.cells for kind, track in zip(plain.kinds, tracks) if kind == "video"]
        self.hides = hiding([(self.frames(row), self.within(row)) for row in cells])

    def frames(self, cells):
        return [self.through(frame) for frame in room.frames_shown(cells)]

    def through(self, frame):
        """The frame with reels for media, and of a nest what the nest shows there."""
        if frame[0] == "mix":
            return ("mix", self.side(frame[1]), self.side(frame[2]), *frame[3:])
        if frame[1] and frame[1][0][0] == "#":
            return self.nest(frame[1][0][1])[frame[1][1]]
        return ("pic", self.side(frame[1]))

    def side(self, side):
        return side and (self.plain.media_reels[side[0][1]], side[1])

    def nest(self, number):
        if number not in self.nests:
            layers = self.plain.layers[number]
            self.nests[number] = stacked([self.frames(cells)[low:high] for cells, low, high in layers])
        return self.nests[number]

    def within(self, cells):
        """At each place whether a fade within a nest hides a picture of it."""
        sides = [frame[1] if frame[0] == "pic" else None for frame in room.frames_shown(cells)]
        return [bool(side) and side[0][0] == "#" and self.hiding_nest(side[0][1])[side[1]] for side in sides]

    def hiding_nest(self, number):
        if number not in self.hidings:
            layers = [(self.frames(cells)[low:high], self.within(cells)[low:high]) for cells, low, high in self.plain.layers[number]]
            self.hidings[number] = hiding(layers)
        return self.hidings[number]

    def channels(self):
        if len(self.audio) > 2:
            raise Refused(f"L1 {len(self.audio)}")
        return dict(zip(("V", "A", "A2"), [self.video, *self.audio]))


@dataclass
class Segment:
    """Pictures that go on, or a dissolve of so many frames and what its right side shows after it."""

    at: int
    count: int
    frames: int
    left: object
    right: object


def segments(frames):
    """The segments that are not dark, in order; a run of mixed frames that is no whole dissolve has none."""
    found, at = [], 0
    while at < len(frames):
        start, first = at, frames[at]
        at += 1
        while at < len(frames) and room.goes_on(frames[at - 1], frames[at]):
            at += 1
        if first == DARK:
            continue
        if first[0] == "pic":
            found.append(Segment(start, at - start, 0, None, first[1]))
            continue
        mixed, side = at - start, frames[at - 1][2]
        if first[3] != 1 or first[4] != mixed + 1:
            raise Refused(f"L2 {start}")
        while at < len(frames) and frames[at] == ("pic", room.later(side, 1)):
            side = room.later(side, 1)
            at += 1
        found.append(Segment(start, at - start, mixed, first[1], first[2]))
    return found
