"""What the bench of lists works on: a document whose list has as many events as one may have, and long lists."""

import json

RATE = 24
EVENTS, CLIPS = 999, 65
FRAMES = 20
REELS = 9


def time_of(value):
    return {"OTIO_SCHEMA": "RationalTime.1", "rate": RATE, "value": value}


def span(start, frames):
    return {"OTIO_SCHEMA": "TimeRange.1", "start_time": time_of(start), "duration": time_of(frames)}


def clip(reel, start, frames=FRAMES):
    return {"OTIO_SCHEMA": "Clip.1", "name": reel, "source_range": span(start, frames)}


def clips(reel, start, count, frames):
    """Clips that go on from one another."""
    return [clip(reel, start + at * frames, frames) for at in range(count)]


def gap(frames):
    return {"OTIO_SCHEMA": "Gap.1", "source_range": span(0, frames)}


def dissolve():
    """A dissolve of two frames, one on each side of its cut."""
    offsets = {"in_offset": time_of(1), "out_offset": time_of(1)}
    return {"OTIO_SCHEMA": "Transition.1", "transition_type": "SMPTE_Dissolve", **offsets}


def nest(reel, frames):
    """A nest of two layers, the lower of which is covered."""
    layers = [{"OTIO_SCHEMA": "Track.1", "children": [clip(name, 7, frames)]} for name in ("Z", reel)]
    return {"OTIO_SCHEMA": "Stack.1", "source_range": span(0, frames), "children": layers}


def track(kind, children):
    return {"OTIO_SCHEMA": "Track.1", "kind": kind, "children": children}


def timeline(tracks):
    stack = {"OTIO_SCHEMA": "Stack.1", "children": tracks}
    return json.dumps({"OTIO_SCHEMA": "Timeline.1", "tracks": stack}, separators=(",", ":"))


def document():
    """One track of 64,935 clips, 65 of which each go on from one another and so are one event."""
    row = [clip(f"R{event % REELS}", event * 2000 + k * FRAMES) for event in range(EVENTS) for k in range(CLIPS)]
    return timeline([track("Video", row)])


def picture(items, frames):
    """The topmost picture: of each 50 items two runs of clips with a dissolve between them, a nest, and a gap."""
    for at in range(items // 50):
        yield from clips("AB"[at % 2], 9, 24, frames)
        yield dissolve()
        yield from clips("CD"[at % 2], 9, 24, frames)
        yield nest("EF"[at % 2], frames)
        yield gap(frames)


def lower(items, frames):
    """Clips and gaps by turns, of which the topmost picture shows one in each of its gaps at most."""
    for at in range(items // 2):
        yield gap(frames)
        yield clip("G", at % 9, frames)


def sound(items, frames):
    """Runs of 125 clips."""
    for at in range(items // 125):
        yield from clips("HI"[at % 2], 9, 125, frames)


def layers(items, frames):
    """16 tracks of so many items and gaps: thirteen under the topmost picture, and two of sound."""
    pictures = [*(lower for _ in range(13)), picture]
    tracks = [track("Video", list(row(items, frames))) for row in pictures]
    return timeline(tracks + [track("Audio", list(sound(items, frames))) for _ in range(2)])


def label(frame):
    s, f = divmod(frame, RATE)
    return f"{s // 3600:02}:{s // 60 % 60:02}:{s % 60:02}:{f:02}"


def scattered(count):
    """The numbers below count, each once; the step is a prime, and no divisor of a count that is used here."""
    return (at * 7919 % count for at in range(count))


def events(count, is_scattered):
    """Events of four frames, one after another in three channels, each third a dissolve of two lines."""
    for number, at in enumerate(scattered(count) if is_scattered else range(count)):
        channel, place = ("V", "A", "A2")[at % 3], at // 3 * 4
        source, name = at * 7 % 1_000_000, f"{number % 999 + 1:03}  R{at % REELS:03}     {channel:5}"
        times = f"{label(source)} {label(source + 4)} {label(place)} {label(place + 4)}"
        if at % 3 == 0:
            left = f"{name[:5]}BL       {channel:5}" if at % 2 else name
            yield f"{left} C        {label(source)} {label(source)} {label(place)} {label(place)}\n"
            yield f"{name} D    002 {times}\n"
        else:
            yield f"{name} C        {times}\n"


def notes(most):
    """A list of about so many bytes, nearly all of them notes."""
    note = "* FROM CLIP NAME:  A NAME AS LONG AS NAMES OF CLIPS ARE\n"
    head = "TITLE: CUT\nFCM: NON-DROP FRAME\n" + "".join(events(1, False))
    return head + note * ((most - len(head)) // len(note))


def tape_list(most, is_scattered=False):
    """A list of about so many bytes."""
    head = "TITLE: CUT\nFCM: NON-DROP FRAME\n"
    line = len(next(events(1, False)))
    return head + "".join(events((most - len(head)) // line * 3 // 4, is_scattered))
