#!/usr/bin/env python3
"""The fades of a cut that hide a picture, by their record times: what a list of it shows otherwise than an editing system.

usage: examples/fades.py DOC RATE DROP JOURNAL POINT

The words are those of `cutroom list`. A title or shot on an upper track that fades in or out is a mix with black here, and
in a list, for the frames of its fade; an editing system mixes it with the picture on the track below. Each such fade is a
line: the record times from which and up to which it hides a picture, what fades, and what is hidden. Fades within compound
clips count, and so does what a compound clip hides. It ends with 1 where there is one, else with 0. What to do is in
docs/LISTS.md. It needs nothing but Python's standard library, and the program cutroom."""

import json
import sys

import save
from media import reel_of
from picture import label_at
from shared import Wrong, run, shown

# What is seen over a range of frames: runs, each as the frame at which it ends and what is there. That is nothing where it
# is dark, or a name, how it fades if it does, and the name of what the fade hides.


def merged(one, other, choose):
    """The runs that two make: what each has at a frame decides what is there."""
    runs, at, ends = [], [0, 0], [one, other]
    for end in sorted({end for end, _ in one + other}):
        there = [runs_of[place][1] if place < len(runs_of) else None for runs_of, place in zip(ends, at)]
        runs.append((end, choose(*there)))
        at = [place + (place < len(runs_of) and runs_of[place][0] == end) for runs_of, place in zip(ends, at)]
    return runs


def over(top, below):
    """What is seen of a layer on another: what is below only where the layer is dark; a fade hides it."""
    if top is None:
        return below
    name, fade, hidden = top
    return name, fade, hidden or (below[0] if fade and below else None)


def frames(time):
    return int(time["value"])


def trimmed(runs, item):
    """What an item shows of the runs that it is trimmed to."""
    given = item.get("source_range")
    if not given:
        return runs
    first, length = frames(given["start_time"]), frames(given["duration"])
    ends = [(min(end - first, length), what) for end, what in runs if end > first]
    return [run_of for at, run_of in enumerate(ends) if at == 0 or ends[at - 1][0] < length]


def shown_by(item):
    """The runs of an item, a gap, a layer or a nest, by what it is trimmed to."""
    schema = item["OTIO_SCHEMA"]
    if schema == "Gap.1":
        return [(frames(item["source_range"]["duration"]), None)]
    if schema.startswith("Clip."):
        return [(frames(item["source_range"]["duration"]), (reel_of(item), None, None))]
    return trimmed(row(item["children"]) if schema == "Track.1" else stacked(item["children"]), item)


def stacked(layers):
    runs = []
    for layer in layers:
        runs = merged(shown_by(layer), runs, over)
    return runs


def row(children):
    """The runs of a track: its items, and over them the fades at their cuts."""
    runs, fades, at, left, waits = [], [], 0, None, None
    for child in children:
        if child["OTIO_SCHEMA"] == "Transition.1":
            waits = child
            continue
        if waits:
            fades += fade(waits, at, left, child, fades[-1][0] if fades else 0)
        runs += [(at + end, what) for end, what in shown_by(child)]
        at, left, waits = runs[-1][0] if runs else 0, child, None
    return merged(fades, runs, lambda mixed, plain: mixed or plain)


def fade(transition, cut, left, right, since):
    """A dissolve with a gap as one side, over its frames, and nothing before it since the last one; a dissolve of two pictures
    is none, since it hides what is below as any picture does."""
    dark = [side["OTIO_SCHEMA"] == "Gap.1" for side in (left, right)]
    if not any(dark):
        return []
    what = (reel_of(right), "fades in", None) if dark[0] else (reel_of(left), "fades out", None)
    first, end = cut - frames(transition["in_offset"]), cut + frames(transition["out_offset"])
    return [*([(first, None)] if first > since else []), (end, what)]


def hidden_in(document):
    """Where fades of the picture hide one: first frame, frame after the last, name, how it fades, what is hidden."""
    layers = [track for track in document["tracks"]["children"] if track["kind"] == "Video"]
    found, start = [], 0
    for end, what in stacked(layers):
        if what and what[2] is not None and start < end:
            if found and found[-1][1:] == (start, *what):
                start = found.pop()[0]
            found.append((start, end, *what))
        start = end
    return found


def told(words):
    """A line for each such fade of the cut that the words of `list` name."""
    document = json.loads(save.of_journal(words[:3], words[3], save.point_in(words[4])))
    start, numbers, drop = frames(document["global_start_time"]), round(float(document["global_start_time"]["rate"])), words[2] == "drop"
    for first, end, name, how, hidden in hidden_in(document):
        times = " to ".join(label_at(start + frame, numbers, drop).replace(";", ":") for frame in (first, end))
        yield shown(f"{times}: {name} {how} and hides {hidden}")


def main():
    if sys.argv[1:] == ["--help"]:
        return print(__doc__)
    if len(sys.argv) != 6:
        raise Wrong("usage: examples/fades.py DOC RATE DROP JOURNAL POINT")
    found = list(told(sys.argv[1:]))
    print(*found or ["no fade hides a picture"], sep="\n")
    return 1 if found else 0


if __name__ == "__main__":
    run("fades", main)
