#!/usr/bin/env python3
"""A list whose events have the reel AX, as Premiere writes them, with a reel for each clip.

usage: examples/reels_of_notes.py LIST [REEL] > NEW

Each event of the reel AX, or REEL, gets the name of its clip as its reel: the one that a note after it tells, as
`* FROM CLIP NAME:`, of a dissolve's incoming side `* TO CLIP NAME:`. In the name each character that no reel has is `_`; of
a long name the last 32 characters stay, with a number where two clips would have one. An event whose clip no note tells
keeps its reel. What was changed is told on standard error, `REEL CLIP` a line. It needs nothing but Python's standard
library."""

import re
import sys

from shared import Wrong, put, read_file, run, shown

NOTE = re.compile(r"\*\s*(FROM|TO) CLIP NAME:\s*(.*\S)")
EVENT = re.compile(r"\s*\d+\s+\S+\s+\S+\s+[CD]\s")
MOST = 32 << 20


def reels_of(clips, taken):
    """A reel for each of these clips, none of which is taken."""
    reels = {}
    for clip in clips:
        base = re.sub("[^!-~]", "_", clip)
        tries = (base[max(0, len(base) + len(end) - 32) :] + end for end in ("", *(f"_{number}" for number in range(1, 999_999))))
        reels[clip] = next(reel for reel in tries if reel not in taken)
        taken = {*taken, reels[clip]}
    return reels


def clips_of(lines):
    """The clip of each event's line, by its number from 0, where a note tells one."""
    found, event = {}, []
    for at, line in enumerate(lines):
        note = NOTE.match(line.strip())
        if EVENT.match(line):
            same = event and lines[event[-1]].split()[0] == line.split()[0] and line.split()[3] == "D"
            event = [*event[-1:], at] if same else [at]
        elif note and event:
            found[event[-1] if note[1] == "TO" or len(event) == 1 else event[0]] = note[2]
    return found


def main():
    if sys.argv[1:] == ["--help"]:
        return print(__doc__)
    if len(sys.argv) not in (2, 3):
        raise Wrong("usage: examples/reels_of_notes.py LIST [REEL] > NEW")
    old = sys.argv[2] if len(sys.argv) == 3 else "AX"
    lines = read_file(sys.argv[1], MOST + 1).decode("latin-1").split("\n")
    clips = {at: clip for at, clip in clips_of(lines).items() if lines[at].split()[1] == old}
    if not clips:
        raise Wrong(f"no event of the reel {old} in {sys.argv[1]} has a note `* FROM CLIP NAME:`; another reel is named after LIST")
    reels = reels_of(dict.fromkeys(clips.values()), {"BL", old, *(line.split()[1] for line in lines if EVENT.match(line))})
    for at, clip in clips.items():
        lines[at] = re.sub(rf"^(\s*\d+\s+){re.escape(old)}(?=\s)", lambda m: m[1] + reels[clip], lines[at], count=1)
    put("\n".join(lines).encode("latin-1"))
    for clip, reel in reels.items():
        print(f"{reel} {shown(clip.encode('latin-1'))}", file=sys.stderr)
    return 0


if __name__ == "__main__":
    run("reels_of_notes", main)
