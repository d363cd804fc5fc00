"""Times `flatten` on sixteen long tracks, and on nests in one another. README.md of the folder above says what each row
measures."""

import os
import subprocess
import sys

# A call is the difference of runs with so many calls and with one, so that laying the tracks is left out.
CALLS = 21

# A run is repeated so often, and its least time is told.
ROUNDS = 3

ROWS = [
    *(("tracks", 16, items) for items in (2_500, 5_000, 10_000, 20_000)),
    *(("nests", depth, items) for depth in (1, 8) for items in (10_000, 20_000, 40_000)),
]


def run(words):
    """Runs a program. Answers what it prints and its processor seconds."""
    process = subprocess.Popen(words, stdout=subprocess.PIPE)
    output = process.stdout.read()
    _, status, used = os.wait4(process.pid, 0)
    process.returncode = status
    if status != 0:
        raise SystemExit(f"bench: {words} ended with {status}")
    return int(output), used.ru_utime + used.ru_stime


def best(words):
    """The same with the least time of several runs."""
    return min((run(words) for _ in range(ROUNDS)), key=lambda ran: ran[1])


def main():
    bench = sys.argv[1]
    print(f"{'what':<16}{'items each':>12}{'runs':>10}{'ms a call':>12}")
    for kind, count, items in ROWS:
        runs, once = best([bench, kind, str(count), str(items), "1"])
        _, often = best([bench, kind, str(count), str(items), str(CALLS)])
        each = (often - once) / (CALLS - 1) * 1000
        print(f"{count:>3} {kind:<12}{items:>12,}{runs:>10,}{each:>12.2f}", flush=True)


if __name__ == "__main__":
    main()
