#!/usr/bin/env python3
"""Writes a document of JSON to standard output, about as large as the second argument says (in bytes). The first says of
which kind: 'clips', without blanks; 'indented', the same clips as OpenTimelineIO's own writer lays them out, by four
blanks a level; 'zeros', a list of zeros; 'deep', lists of one list each, 64 levels, one such after another."""
import json
import sys

CLIP = {
    "OTIO_SCHEMA": "Clip.1",
    "metadata": {},
    "name": "",
    "source_range": {
        "OTIO_SCHEMA": "TimeRange.1",
        "start_time": {"OTIO_SCHEMA": "RationalTime.1", "rate": 23.976, "value": 0.0},
        "duration": {"OTIO_SCHEMA": "RationalTime.1", "rate": 23.976, "value": 0.0},
    },
    "effects": [],
    "markers": [],
    "enabled": True,
    "media_reference": {"OTIO_SCHEMA": "ExternalReference.1", "target_url": "", "available_range": None},
}


def clip(number):
    it = dict(CLIP)
    it["metadata"] = {"note": f'take {number} \u2014 "good", caf\u00e9 \u65e5\u672c'}
    it["name"] = f"clip {number}"
    span = it["source_range"]
    it["source_range"] = dict(
        span,
        start_time=dict(span["start_time"], value=float(number * 24)),
        duration=dict(span["duration"], value=float(number % 90 * 10 + 50)),
    )
    it["media_reference"] = dict(it["media_reference"], target_url=f"file:///media/A{number % 1000:03d}.mov")
    return it


def track(clips):
    return {"OTIO_SCHEMA": "Track.1", "name": "V1", "children": [clip(number) for number in range(clips)]}


def clips_text(most, text):
    """As many clips as fit, written so."""
    few = len(text(track(10)).encode())
    each = (len(text(track(110)).encode()) - few) / 100
    return text(track(max(1, int((most - few) / each))))


def row(most, item):
    """A list of as many of the item as fit."""
    count = (most - 2 + 1) // (len(item) + 1)
    return "[" + ",".join([item] * count) + "]"


KINDS = {
    "clips": lambda most: clips_text(most, lambda it: json.dumps(it, separators=(",", ":"), ensure_ascii=True)),
    "indented": lambda most: clips_text(most, lambda it: json.dumps(it, indent=4, ensure_ascii=False)),
    "zeros": lambda most: row(most, "0"),
    "deep": lambda most: row(most, "[" * 63 + "]" * 63),
}


def main():
    kind, most = sys.argv[1], int(sys.argv[2])
    sys.stdout.buffer.write(KINDS[kind](most).encode())


main()
