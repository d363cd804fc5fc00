#!/usr/bin/env python3
"""Writes a timeline to standard output: one video track of so many clips as the first argument says, each of 20 frames,
with a dissolve of two frames on each side at each second cut."""
import json
import sys

FRAMES = 20
REACH = 2
RATE = 24.0


def time(value):
    return {"OTIO_SCHEMA": "RationalTime.1", "rate": RATE, "value": float(value)}


def frames(start, duration):
    return {"OTIO_SCHEMA": "TimeRange.1", "start_time": time(start), "duration": time(duration)}


def clip(number):
    return {
        "OTIO_SCHEMA": "Clip.1",
        "name": f"R{number % 2}",
        "source_range": frames(50, FRAMES),
        "media_reference": {"OTIO_SCHEMA": "ExternalReference.1", "available_range": frames(0, 100)},
    }


def transition():
    return {
        "OTIO_SCHEMA": "Transition.1",
        "transition_type": "SMPTE_Dissolve",
        "in_offset": time(REACH),
        "out_offset": time(REACH),
    }


def children(count):
    for number in range(count):
        if number % 2 == 1:
            yield transition()
        yield clip(number)


def main():
    track = {"OTIO_SCHEMA": "Track.1", "kind": "Video", "children": list(children(int(sys.argv[1])))}
    stack = {"OTIO_SCHEMA": "Stack.1", "children": [track]}
    json.dump({"OTIO_SCHEMA": "Timeline.1", "tracks": stack}, sys.stdout)


main()
