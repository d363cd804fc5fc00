"""Times lines through the program `cutroom` and prints lines a second. bench/README.md says what each row measures."""

import os
import select
import subprocess
import sys
import tempfile
import time

# A run that takes longer is ended, and what it answered until then is told.
LONGEST_RUN_SECONDS = 120

# Places are this many frames apart, and an item is half as long, so that gaps stand between items.
PLACE_FRAMES = 100
ITEM_FRAMES = 50
# A prime: its multiples reach each of 10,000 places once, and in scattered order.
STRIDE = 7919

VIEWED_ITEMS = 10_000
VIEWED_FRAMES = 1_000


class BenchFault(Exception):
    """The program did not do what was to be timed."""


def points(count):
    return ["point"] * count


def overwrites_spread(count):
    places = (number * STRIDE % count * PLACE_FRAMES for number in range(count))
    return [f"overwrite 0 {place} @0 0 {ITEM_FRAMES}" for place in places]


def overwrites_at_one_place(count):
    return [f"overwrite 0 0 @0 0 {ITEM_FRAMES}"] * count


def views(count):
    last = VIEWED_ITEMS * PLACE_FRAMES - VIEWED_FRAMES
    starts = (number * STRIDE * PLACE_FRAMES % last for number in range(count))
    return [f"view 0 {start} {start + VIEWED_FRAMES}" for start in starts]


def replies_with_times(program, lines, marks):
    """Runs the program on the lines, and ends it where it takes too long. Answers what it wrote, and for each of the
    ascending numbers `marks` the time at which so many replies had come, or None where they had not come in time."""
    with tempfile.TemporaryFile() as text:
        text.write("".join(f"{line}\n" for line in lines).encode())
        text.seek(0)
        process = subprocess.Popen([program, "run", "1", "1"], stdin=text, stdout=subprocess.PIPE)
        output = process.stdout.fileno()
        deadline = time.monotonic() + LONGEST_RUN_SECONDS
        pieces, answered, times = [], 0, []
        while select.select([output], [], [], max(0, deadline - time.monotonic()))[0]:
            piece = os.read(output, 1 << 16)
            if not piece:
                break
            pieces.append(piece)
            answered += piece.count(b"\n")
            while len(times) < len(marks) and marks[len(times)] <= answered:
                times.append(time.monotonic())
        else:
            process.kill()
            times += [None] * (len(marks) - len(times))
        status = process.wait()
        process.stdout.close()
        if len(times) < len(marks):
            raise BenchFault(f"{answered} replies, then the end with status {status}")
        return b"".join(pieces), times


def check_replies(output, first_words):
    """Each reply begins with the word that its line is to be answered with: a refusal is not what is timed."""
    replies = output.split(b"\n")[:-1]
    for number, (reply, first_word) in enumerate(zip(replies, first_words), start=1):
        if reply.split(b" ")[0] != first_word:
            raise BenchFault(f"line {number} is answered {reply.decode(errors='replace')!r}")


def time_lines(program, name, lines, first_word, before=(), parts=1):
    """Prints lines a second for each of so many equal parts of the lines. The overwrites `before` are sent ahead and
    not timed; without them the clock begins with the first reply."""
    marks = [max(len(before), 1)] + [len(before) + len(lines) * part // parts for part in range(1, parts + 1)]
    output, times = replies_with_times(program, [*before, *lines], marks)
    check_replies(output, [b"ok"] * len(before) + [first_word] * len(lines))
    for part in range(parts):
        label = name if parts == 1 else f"{name}, part {part + 1} of {parts}"
        count = marks[part + 1] - marks[part]
        begin, end = times[part : part + 2]
        if end is None:
            print(f"{label:<42}{count:>8}  not in {LONGEST_RUN_SECONDS} seconds", flush=True)
        else:
            seconds = max(end - begin, 1e-6)
            print(f"{label:<42}{count:>8}{seconds:>10.3f}{count / seconds:>14,.0f}", flush=True)


def halved_and_doubled(count):
    return [count // 2, count, count * 2]


def main():
    program = sys.argv[1]
    print(f"{'lines':<42}{'count':>8}{'seconds':>10}{'a second':>14}")
    for count in halved_and_doubled(100_000):
        time_lines(program, "point", points(count), b"point")
    for count in halved_and_doubled(10_000):
        time_lines(program, "overwrite, spread", overwrites_spread(count), b"ok")
    for count in halved_and_doubled(50_000):
        time_lines(program, "overwrite, one place", overwrites_at_one_place(count), b"ok", parts=2)
    items = overwrites_spread(VIEWED_ITEMS)
    for count in halved_and_doubled(10_000):
        time_lines(program, "view of 1,000 frames", views(count), b"seen", before=items)


if __name__ == "__main__":
    try:
        main()
    except BenchFault as fault:
        sys.exit(f"bench: {fault}")
