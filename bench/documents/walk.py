#!/usr/bin/env python3
"""What the program does with a document at its opening, by Python's own reader of JSON: the file is read, and each track's
items are put into a list with their media entries. It asks no more of the document than it needs for that, and looks for
no fault."""
import json
import sys


def frames(found):
    return int(found["start_time"]["value"]), int(found["duration"]["value"])


def item(clip, reels, media):
    start, length = frames(clip["source_range"])
    first, available = frames(clip["media_reference"]["available_range"])
    name = clip["metadata"]["cmx_3600"]["reel"]
    reel = reels.setdefault(name, len(reels))
    entry = media.setdefault((reel, min(first, start), max(first + available, start + length)), len(media))
    return entry, start, length


def main():
    with open(sys.argv[1], encoding="utf-8") as file:
        timeline = json.load(file)
    reels, media = {}, {}
    tracks = [[item(clip, reels, media) for clip in track["children"]] for track in timeline["tracks"]["children"]]
    print(len(tracks), sum(map(len, tracks)), len(reels), len(media))


main()
