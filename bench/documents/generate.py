#!/usr/bin/env python3
"""Writes a timeline to standard output, about as large as the first argument says (in bytes), indented by four as
OpenTimelineIO's own writer does. Every clip shows another range of its reel, so each is a media entry of its own."""
import json
import sys

RATE = 24.0


def time(value):
    return {"OTIO_SCHEMA": "RationalTime.1", "rate": RATE, "value": float(value)}


def frames(start, duration):
    return {"OTIO_SCHEMA": "TimeRange.1", "duration": time(duration), "start_time": time(start)}


def clip(number):
    reel = f"A{number % 1000:03d}"
    return {
        "OTIO_SCHEMA": "Clip.1",
        "metadata": {"cmx_3600": {"reel": reel}, "log": {"take": number % 9, "note": "caf\u00e9, \"good\""}},
        "name": f"clip {number}",
        "source_range": frames(number * 3, 12 + number % 36),
        "effects": [],
        "markers": [],
        "enabled": True,
        "media_reference": {
            "OTIO_SCHEMA": "ExternalReference.1",
            "metadata": {},
            "name": "",
            "available_range": frames(number * 3, 60),
            "target_url": f"file:///media/{reel}.mov",
        },
    }


def track(name, kind, first, count):
    return {
        "OTIO_SCHEMA": "Track.1",
        "metadata": {},
        "name": name,
        "source_range": None,
        "effects": [],
        "markers": [],
        "enabled": True,
        "kind": kind,
        "children": [clip(number) for number in range(first, first + count)],
    }


def timeline(clips):
    """A picture and two sounds, each of so many clips."""
    tracks = [("V1", "Video"), ("A1", "Audio"), ("A2", "Audio")]
    stack = {
        "OTIO_SCHEMA": "Stack.1",
        "metadata": {},
        "name": "tracks",
        "source_range": None,
        "effects": [],
        "markers": [],
        "enabled": True,
        "children": [track(name, kind, at * clips, clips) for at, (name, kind) in enumerate(tracks)],
    }
    return {
        "OTIO_SCHEMA": "Timeline.1",
        "metadata": {},
        "name": "long",
        "global_start_time": time(86400),
        "tracks": stack,
    }


def text(clips):
    return json.dumps(timeline(clips), indent=4, ensure_ascii=False)


def main():
    most = int(sys.argv[1]) if len(sys.argv) > 1 else 30_000_000
    few = len(text(10).encode())
    each = (len(text(110).encode()) - few) / 100
    sys.stdout.buffer.write(text(max(1, int((most - few) / each))).encode())


main()
