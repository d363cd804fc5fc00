"""Processor time of looks at a long track with many dissolves: cutroom beside a plain program. README.md of the folder
above says what each row measures."""

import os
import subprocess
import sys

ITEMS = 10_000
ITEM_FRAMES = 20
FRAMES = ITEMS * ITEM_FRAMES
# A prime: its multiples reach places all over the track, and in scattered order.
STRIDE = 7919

# A run is repeated so often, and its least time is told.
ROUNDS = 3


def views(count, frames):
    starts = (number * STRIDE % (FRAMES - frames + 1) for number in range(count))
    return "".join(f"view 0 {start} {start + frames}\n" for start in starts)


ROWS = [
    ("the whole track", 200, FRAMES),
    ("half of it", 400, FRAMES // 2),
    ("1,000 frames", 20_000, 1_000),
    ("three frames", 50_000, 3),
]


def run(words, text):
    """Runs a program on this input. Answers its output, and its processor seconds."""
    with open("input", "w+b") as given, open("output", "w+b") as taken:
        given.write(text.encode())
        given.seek(0)
        process = subprocess.Popen(words, stdin=given, stdout=taken)
        _, status, used = os.wait4(process.pid, 0)
        process.returncode = status
        if status != 0:
            raise SystemExit(f"bench: {words[0]} ended with {status}")
        taken.seek(0)
        return taken.read(), used.ru_utime + used.ru_stime


def seconds(words, text=""):
    return min(run(words, text)[1] for _ in range(ROUNDS))


def main():
    program, plain, document = sys.argv[1:]
    with open("document.otio", "wb") as file:
        subprocess.run([sys.executable, document, str(ITEMS)], stdout=file, check=True)
    ours = [program, "run", "document.otio", "24", "ndf"]
    other = [plain, str(ITEMS)]
    opened, begun = seconds(ours), seconds(other)
    print(f"opening a track of {ITEMS:,} items: {opened:.3f} s")
    print(f"{'view of':<20}{'lines':>8}{'ms a line':>12}{'plain':>10}{'ratio':>8}")
    for name, count, frames in ROWS:
        lines = views(count, frames)
        if run(ours, lines)[0] != run(other, lines)[0] + b"journal 0\n":
            raise SystemExit(f"bench: {name}: the replies differ")
        one = max(seconds(ours, lines) - opened, 1e-6) / count * 1000
        two = max(seconds(other, lines) - begun, 1e-6) / count * 1000
        print(f"{name:<20}{count:>8,}{one:>12.4f}{two:>10.4f}{one / two:>8.1f}", flush=True)


if __name__ == "__main__":
    main()
