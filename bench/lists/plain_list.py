"""Writes the list of a document of one track of clips, by json.load, a walk, and a line for each event."""

import json
import sys

from generate import label


def main():
    with open(sys.argv[1], "rb") as file:
        [track] = json.load(file)["tracks"]["children"]
    events, place = [], 0
    for clip in track["children"]:
        start = clip["source_range"]["start_time"]["value"]
        count = clip["source_range"]["duration"]["value"]
        if events and events[-1][:1] + [events[-1][1] + events[-1][3]] == [clip["name"], start]:
            events[-1][3] += count
        else:
            events.append([clip["name"], start, place, count])
        place += count
    print("TITLE: CUT\nFCM: NON-DROP FRAME")
    for number, (reel, source, place, count) in enumerate(events, 1):
        times = " ".join(map(label, (source, source + count, place, place + count)))
        print(f"{number:03}  {reel:8} V     C        {times}")


main()
