"""Processor time of cutroom beside that of a plain program, on the same lines, and the memory of an edited track.
bench/README.md says what each row measures."""

import os
import subprocess
import sys
import tempfile
import time

PLACE_FRAMES = 100
ITEM_FRAMES = 50
# A prime: its multiples reach each of the places once, and in scattered order.
STRIDE = 7919

# An item or gap of the program, with its dissolve and its link.
ITEM_BYTES = 56

# A row is measured so often, and its least time is told.
ROUNDS = 3


def scattered(count):
    places = (number * STRIDE % count * PLACE_FRAMES for number in range(count))
    return [f"overwrite 0 {place} @0 0 {ITEM_FRAMES}" for place in places]


def views(count, items, frames):
    last = items * PLACE_FRAMES - frames
    starts = (number * STRIDE * PLACE_FRAMES % last for number in range(count))
    return [f"view 0 {start} {start + frames}" for start in starts]


def inserts_in_the_middle(count, items):
    middle = items // 2 * PLACE_FRAMES
    return [f"insert 0 0 {middle} @0 0 {ITEM_FRAMES}"] * count


def extracts_in_the_middle(count, items):
    # Scattered items are numbered in the order in which they came; those of the middle places are taken out.
    number_at = {number * STRIDE % items: number for number in range(items)}
    first = (items - count) // 2
    return [f"extract 0 0 {number_at[place]}" for place in range(first, first + count)]


def first_source(lines, source):
    """The same overwrites, whose items begin with this source frame and so can reach back."""
    return [line.replace(" @0 0 ", f" @0 {source} ") for line in lines]


def deltas_in_the_middle(items):
    """For each edit by a delta, lines that move the same item or cut in the middle there and back."""
    place = items // 2
    item = next(number for number in range(items) if number * STRIDE % items == place)
    head = place * PLACE_FRAMES
    return {
        "trim": (f"trim 0 {item} tail 3", f"trim 0 {item} tail -3"),
        "slip": (f"slip 0 0 {item} 5", f"slip 0 0 {item} -5"),
        "roll": (f"roll 0 {head} 1", f"roll 0 {head + 1} -1"),
        "slide": (f"slide 0 0 {item} 2", f"slide 0 0 {item} -2"),
        "ripple": (f"ripple 0 0 {item} tail 1", f"ripple 0 0 {item} tail -1"),
    }


def fills_of_gaps(count, items):
    places = (number * STRIDE % (items - 1) * PLACE_FRAMES + PLACE_FRAMES - 1 for number in range(count))
    return [f"fill 0 {place} @0 0 source 10" for place in places]


def run(program, lines, tracks=1):
    """Runs the program on the lines. Answers its replies and the processor seconds that it took."""
    with tempfile.TemporaryFile() as text, tempfile.TemporaryFile() as replies:
        text.write("".join(f"{line}\n" for line in lines).encode())
        text.seek(0)
        process = subprocess.Popen([program, "run", str(tracks), "1"], stdin=text, stdout=replies)
        _, status, used = os.wait4(process.pid, 0)
        process.returncode = status
        if status != 0:
            raise SystemExit(f"bench: {program} ended with {status}")
        replies.seek(0)
        return replies.read(), used.ru_utime + used.ru_stime


def seconds_of(program, before, lines, tracks=1):
    """The least processor time for the lines behind those before them, which are not counted."""
    whole = min(run(program, [*before, *lines], tracks)[1] for _ in range(ROUNDS))
    return max(whole - min(run(program, before, tracks)[1] for _ in range(ROUNDS)), 1e-6)


def compare(ours, plain, name, lines, before=(), tracks=1):
    before = list(before)
    if run(ours, [*before, *lines], tracks)[0] != run(plain, [*before, *lines], tracks)[0]:
        raise SystemExit(f"bench: {name}: the replies differ")
    one, other = seconds_of(ours, before, lines, tracks), seconds_of(plain, before, lines, tracks)
    print(f"{name:<52}{len(lines):>8}{one:>10.3f}{other:>10.3f}{one / other:>8.1f}", flush=True)


def linked_pairs(items):
    """Two tracks with the same scattered items, each linked with that of its number on the other."""
    first = scattered(items)
    second = [line.replace("overwrite 0 ", "overwrite 1 ") for line in first]
    return first + second, [f"link 0,1 {number},{number}" for number in range(items)]


def edits_of_two_tracks(count, items):
    """For each kind, so many edits of two tracks in the middle; of inserts, which make them longer, a fifth."""
    place = items // 2
    middle = place * PLACE_FRAMES
    item = next(number for number in range(items) if number * STRIDE % items == place)
    return {
        "insert into two tracks": [f"insert 0,1 0 {middle} @0 0 {ITEM_FRAMES}"] * (count // 5),
        "slip of two tracks": [f"slip 0,1 0 {item} 5", f"slip 0,1 0 {item} -5"] * (count // 2),
        "ripple of two tracks": [f"ripple 0,1 0 {item} tail 1", f"ripple 0,1 0 {item} tail -1"] * (count // 2),
    }


def compare_links(ours, items, count):
    """Edits of two tracks beside the same where each item has a link."""
    tracks, links = linked_pairs(items)
    bare = first_source(tracks, 1_000)
    for name, lines in edits_of_two_tracks(count, items).items():
        one = seconds_of(ours, bare, lines, tracks=2)
        other = seconds_of(ours, bare + links, lines, tracks=2)
        print(f"{name + f' with {items:,} links':<52}{len(lines):>8}{other:>10.3f}{one:>10.3f}{other / one:>8.1f}", flush=True)


def lines_of(file):
    """How many lines a file has, which another process writes."""
    return os.pread(file, os.fstat(file).st_size, 0).count(b"\n")


def memory_of(ours, lines, tracks=1):
    """The memory of the program itself once it has answered these lines, in bytes."""
    with tempfile.TemporaryFile() as replies:
        process = subprocess.Popen([ours, "run", str(tracks), "1"], stdin=subprocess.PIPE, stdout=replies)
        process.stdin.write("".join(f"{line}\n" for line in lines).encode())
        process.stdin.flush()
        answered = 0
        while answered < len(lines):
            time.sleep(0.05)
            answered = lines_of(replies.fileno())
        with open(f"/proc/{process.pid}/status", encoding="ascii") as status:
            kilobytes = next(int(line.split()[1]) for line in status if line.startswith("VmRSS"))
        process.stdin.close()
        process.wait()
        return kilobytes * 1024


def tell_memory(ours):
    """What the items of eight tracks take, beside what as many edits of one place of each take."""
    tracks, edits = 8, 10_000
    one_place = [f"overwrite {track} 0 @0 0 {ITEM_FRAMES}" for track in range(tracks) for _ in range(edits)]
    all_over = [line.replace(" 0 ", f" {track} ", 1) for track in range(tracks) for line in scattered(edits)]
    taken = memory_of(ours, all_over, tracks) - memory_of(ours, one_place, tracks)
    count = tracks * (2 * edits - 1)
    print(f"memory of {count:,} items and gaps {taken / 1e6:.2f} MB, by count {count * ITEM_BYTES / 1e6:.2f} MB, ratio {taken / (count * ITEM_BYTES):.2f}", flush=True)
    for count in (1_000, 100_000):
        most = memory_of(ours, [f"overwrite 0 0 @0 0 {ITEM_FRAMES}"] * count)
        print(f"memory after {count:>7,} edits of one small track {most / 1e6:>10.1f} MB", flush=True)


def main():
    ours, plain = sys.argv[1:]
    print(f"{'lines':<52}{'count':>8}{'ours':>10}{'plain':>10}{'ratio':>8}")
    compare(ours, plain, "point", ["point"] * 200_000)
    compare(ours, plain, "items of a track of 10 items", ["items 0"] * 100_000, scattered(10))
    compare(ours, plain, "overwrite, scattered over one track", scattered(5_000))
    compare(ours, plain, "view of 1,000 frames in a track of 1,000 items", views(10_000, 1_000, 1_000), scattered(1_000))
    items = scattered(10_000)
    try:
        compare(ours, plain, "insert in the middle of 10,000 items", inserts_in_the_middle(2_000, 10_000), items)
        compare(ours, plain, "extract in the middle of 10,000 items", extracts_in_the_middle(2_000, 10_000), items)
    except SystemExit as end:
        print(end)
    for items in (1_000, 10_000):
        before = first_source(scattered(items), 1_000)
        for name, there_and_back in deltas_in_the_middle(items).items():
            compare(ours, plain, f"{name} in the middle of {items:,} items", there_and_back * 10_000, before)
        compare(ours, plain, f"fill of gaps between {items:,} items", fills_of_gaps(2_000, items), before)
    tracks, links = linked_pairs(10_000)
    compare(ours, plain, "link of two of 10,000 items each", links, tracks, tracks=2)
    compare_links(ours, 10_000, 20_000)
    tell_memory(ours)


if __name__ == "__main__":
    main()
