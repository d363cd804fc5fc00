"""Times appends to a kept file beside two plain programs. README.md of the folder above says what each column measures."""

import os
import statistics
import subprocess
import sys
import time

# So many appends a run. A run with one append is taken off, so that starting and opening are left out.
COUNT = 2_000

# The programs take turns; the least time of each is told, and the middle one.
ROUNDS = 7


def run(words):
    """Runs a program. Answers its seconds by the clock."""
    start = time.perf_counter()
    subprocess.run(words, check=True)
    return time.perf_counter() - start


def timed(words_of, file):
    """The seconds of so many appends to a new file."""
    seconds = []
    for count in (1, COUNT + 1):
        seconds.append(run(words_of(file, str(count))))
        size = os.path.getsize(file)
        os.remove(file)
    return seconds[1] - seconds[0], size


def main():
    ours, plain, folder = sys.argv[1:]
    file = os.path.join(folder, "kept")
    ways = {
        "kept file": lambda name, count: [ours, name, "append", count],
        "plain, two syncs": lambda name, count: [plain, name, count, "2"],
        "plain, one sync": lambda name, count: [plain, name, count, "1"],
    }
    times = {way: [] for way in ways}
    sizes = set()
    for _ in range(ROUNDS):
        for way, words_of in ways.items():
            seconds, size = timed(words_of, file)
            times[way].append(seconds)
            sizes.add(size)
    if len(sizes) != 1:
        raise SystemExit(f"bench: files of {sorted(sizes)} bytes, which are to be one")
    print(f"{'':<20}{'a second, best':>16}{'middle':>10}")
    for way, seconds in times.items():
        print(f"{way:<20}{COUNT / min(seconds):>16,.0f}{COUNT / statistics.median(seconds):>10,.0f}")
    mine = times["kept file"]
    for way in list(ways)[1:]:
        best, middle = min(times[way]) / min(mine), statistics.median(times[way]) / statistics.median(mine)
        print(f"of {way}: {best:.2f} of the best, {middle:.2f} of the middle")


if __name__ == "__main__":
    main()
