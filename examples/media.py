#!/usr/bin/env python3
"""What @m and #j name in the room of a document.

usage: examples/media.py DOC RATE

A line for each media entry, `@m FROM TO REEL`, of the source frames from FROM up to before TO, and for each nest,
`#j LENGTH NAME`, numbered as docs/DOCUMENTS.md says. The document is taken as one that the program opens at this RATE:
nothing is checked. It needs nothing but Python's standard library."""

import json
import sys
from decimal import Decimal
from fractions import Fraction
from math import ceil, floor

from shared import Wrong, run, shown

USUAL = [Fraction(24000, 1001), 24, 25, Fraction(30000, 1001), 30, Fraction(48000, 1001), Fraction(60000, 1001)]
ALL = (0, 16_777_216)


def rate_of(number):
    """The usual rate that a number stands for, or the number."""
    return next((usual for usual in USUAL if abs(Fraction(number) - usual) <= Fraction(1, 200)), Fraction(number))


def member(value, *names):
    """What stands at these names, one in the other, or none."""
    for name in names:
        value = value.get(name) if isinstance(value, dict) else None
    return value


def reference_of(clip):
    """The media reference of a clip: of a `Clip.2` the one that its key names."""
    if clip["OTIO_SCHEMA"] == "Clip.1":
        return member(clip, "media_reference")
    key = member(clip, "active_media_reference_key")
    return member(clip, "media_references", "DEFAULT_MEDIA" if key is None else key)


def reel_of(clip):
    for name in (member(clip, "metadata", "cmx_3600", "reel"), member(clip, "name") or None, "AX"):
        if isinstance(name, str):
            return name


class Table:
    """The media, as reel and range, each with its number, and the nests, as length and name, in the order of their numbers;
    the kind of each track, and the frame of the day at which the record starts."""

    def __init__(self, document, rate):
        self.rate, self.media, self.nests = rate_of(rate), {}, []
        self.start = int(self.frames(document["global_start_time"])) if document.get("global_start_time") else 0
        self.kinds = [track.get("kind") for track in document["tracks"]["children"]]
        for track in document["tracks"]["children"]:
            self.row(track)

    def frames(self, time):
        return Fraction(time["value"]) / rate_of(time["rate"]) * self.rate

    def span(self, item):
        """The start and the length of what an item is trimmed to, or none."""
        given = item.get("source_range")
        return given and (int(self.frames(given["start_time"])), int(self.frames(given["duration"])))

    def available(self, clip):
        """The whole frames that are available, from the first up to before the last, or none."""
        given = member(reference_of(clip), "available_range")
        if given:
            start, length = self.frames(given["start_time"]), self.frames(given["duration"])
            first, end = max(ceil(start), ALL[0]), min(floor(start) + floor(length), ALL[1])
            return (first, end) if first < end else None

    def clip(self, clip):
        shown, there = self.span(clip), self.available(clip)
        if shown and shown[1] and there:
            there = (min(there[0], shown[0]), max(there[1], sum(shown)))
        first, end = there or ALL
        self.media.setdefault((reel_of(clip), first, end), len(self.media))
        return shown[1] if shown else end - first

    def item(self, item):
        """How many frames it has, when what is in it stands in the table."""
        schema = item["OTIO_SCHEMA"]
        if schema.startswith("Clip."):
            return self.clip(item)
        if schema == "Gap.1":
            return int(self.frames(item["source_range"]["duration"]))
        length = self.row(item) if schema == "Track.1" else max(map(self.layer, item["children"]), default=0)
        self.nests.append((length, item.get("name")))
        return self.shown(item, length)

    def layer(self, layer):
        return self.shown(layer, self.row(layer)) if layer["OTIO_SCHEMA"] == "Track.1" else self.item(layer)

    def shown(self, item, length):
        return self.span(item)[1] if self.span(item) else length

    def row(self, track):
        return sum(self.item(child) for child in track["children"] if child["OTIO_SCHEMA"] != "Transition.1")

    def names(self):
        """What each @m and #j is called: a reel, or a nest that has a name."""
        media = {f"@{number}": reel for (reel, _, _), number in self.media.items()}
        nests = {f"#{number}": name for number, (_, name) in enumerate(self.nests) if isinstance(name, str) and name}
        return {**media, **nests}


def table_of(name, rate):
    with open(name, encoding="utf-8") as file:
        return Table(json.load(file, parse_float=Decimal, parse_int=Decimal), rate)


def read(name, rate):
    """The table of a document."""
    try:
        return table_of(name, rate)
    except OSError as fault:
        raise Wrong(f"{name} can't be read: {fault.strerror}") from fault
    except (ValueError, ArithmeticError, LookupError, TypeError, AttributeError, RecursionError) as fault:
        how = f"`cutroom run {name} {rate} ndf` says what is wrong with it"
        raise Wrong(f"{name} is no timeline of OpenTimelineIO, or {rate} is no rate: {how}") from fault


def names_of(name, rate):
    return read(name, rate).names()


def main():
    if sys.argv[1:] == ["--help"]:
        return print(__doc__)
    if len(sys.argv) != 3:
        raise Wrong("usage: examples/media.py DOC RATE")
    table = read(*sys.argv[1:])
    names = table.names()
    for (reel, first, end), number in table.media.items():
        print(shown(f"@{number} {first} {end} {reel}"))
    for number, (length, _) in enumerate(table.nests):
        print(shown(f"#{number} {length} {names.get(f'#{number}', '')}".rstrip()))


if __name__ == "__main__":
    run("media", main)
