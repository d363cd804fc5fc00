"""Decision lists as documents, as docs/LISTS.md says, over the plain reader of lists and the plain writer of documents.

usage: python3 tools/plain/imports.py LIST RATE DROP

It puts on output what `cutroom import` does, and has its status."""

import pathlib
import sys

import documents
import edl
import room
from room import Cell

MOST_SOURCE = 16_777_216


class Refused(Exception):
    """A list that makes no document, with its words: I1 to I5."""


def reels_of(events):
    """The names but black's, in order of the events, a dissolve's outgoing one first."""
    found = []
    for event in events:
        for side in ([event.left] if event.frames else []) + [event.right]:
            if side and side[0] not in found:
                found.append(side[0])
    return found


def checked(events):
    for event in events:
        if event.frames == event.count == 1:
            raise Refused(f"I1 {event.line}")
        if event.frames and not event.left and not event.right:
            raise Refused(f"I2 {event.line}")


def cells_of(event, reels, item):
    """The cells of an event, and the number of the next item."""

    def some(side, first, last, item):
        if not side:
            return [room.DARK] * (last - first), item
        what = ("@", reels.index(side[0]))
        return [Cell(item, what, side[1] + k) for k in range(first, last)], item + 1

    if not event.frames:
        return some(event.right, 0, event.count, item)
    cut = event.frames if event.frames < event.count else event.frames - 1
    before, item = some(event.left, 0, cut, item)
    behind, item = some(event.right, cut, event.count, item)
    behind[0] = room.replace(behind[0], mark=(cut, event.frames - cut))
    return before + behind, item


def track_of(events, channel, start, reels):
    cells, item = [], 0
    for event in sorted((event for event in events if channel in event.channels), key=lambda event: event.place):
        cells += [room.DARK] * (event.place - start - len(cells))
        new, item = cells_of(event, reels, item)
        cells += new
    return room.Track(cells, item)


def opening(data, rate_name, drop):
    """The room that a list is."""
    events = edl.read(data, rate_name)
    checked(events)
    start = min((event.place for event in events), default=0)
    rate, fps = documents.RATES[rate_name]
    if start >= edl.day(edl.counting(fps, drop)):
        raise Refused(f"I3 {start}")
    reels = reels_of(events)
    made = room.Room(["video", "audio", "audio"], [(0, MOST_SOURCE)] * len(reels), fps=fps, drop=drop, start=start)
    made.rate, made.reels, made.media_reels, made.layers = rate, reels, list(range(len(reels))), []
    made.tracks = [track_of(events, channel, start, reels) for channel in ("V", "A", "A2")]
    for number, track in enumerate(made.tracks):
        if len(room.pieces(track.cells)) > room.MOST_ITEMS:
            raise Refused(f"I4 {number}")
    return made


def import_answer(data, rate_name, drop):
    """What `import` answers, and its status."""
    try:
        made = opening(data, rate_name, drop)
        text = documents.write(made, made.tracks) + "\n"
        if len(text.encode()) > documents.MOST_BYTES:
            raise Refused("I5 0")
        return text, 0
    except (edl.Fault, Refused) as fault:
        return f"refused {fault}\n", 4


def main():
    if len(sys.argv) != 4:
        print(__doc__)
        return 0 if sys.argv[1:] == ["--help"] else 3
    name, rate, drop = sys.argv[1:]
    text, status = import_answer(pathlib.Path(name).read_bytes(), edl.rate_in(rate), drop == "drop")
    sys.stdout.buffer.write(text.encode())
    return status


if __name__ == "__main__":
    sys.exit(main())
