"""Times `read_journal` and `replay` on the journals of scattered overwrites that `cutroom run` wrote, beside that run.
README.md of the folder above says what each column measures."""

import os
import subprocess
import sys

# Places of one track, this many frames apart; an item is half as long, so that gaps stand between items.
PLACES = 1_000
PLACE_FRAMES = 100
ITEM_FRAMES = 50
# A prime: its multiples reach each of the places once, and in scattered order.
STRIDE = 7919

COUNTS = (12_500, 25_000, 50_000, 100_000)

# A program is run so often, and its least time is told.
ROUNDS = 3


def overwrites(count):
    places = (number * STRIDE % PLACES * PLACE_FRAMES for number in range(count))
    return "".join(f"overwrite 0 {place} @0 0 {ITEM_FRAMES}\n" for place in places).encode()


def run(words, text):
    """Runs a program on this input. Answers its output, its processor seconds, and its most memory in bytes."""
    with open("input", "w+b") as given, open("output", "w+b") as taken:
        given.write(text)
        given.seek(0)
        process = subprocess.Popen(words, stdin=given, stdout=taken)
        _, status, used = os.wait4(process.pid, 0)
        process.returncode = status
        if status != 0:
            raise SystemExit(f"bench: {words[0]} ended with {status}")
        taken.seek(0)
        return taken.read(), used.ru_utime + used.ru_stime, used.ru_maxrss * 1024


def best(words, text=b""):
    """The same with the least time of several runs."""
    return min((run(words, text) for _ in range(ROUNDS)), key=lambda ran: ran[1])


def check(output, want):
    if output != want:
        raise SystemExit(f"bench: {output[:200].decode(errors='replace')!r} is told, not {want.decode()!r}")


def row(program, bench, count):
    output, ran, _ = best([program, "run", "1", "1"], overwrites(count))
    with open("journal.txt", "wb") as journal:
        journal.write(output[output.rindex(f"journal {count}\n".encode()) :])
    output, read, reading = best([bench])
    check(output, f"read {count}\n".encode())
    output, both, most = best([bench, "replay"])
    check(output, f"read {count}\nreplayed to 1\n".encode())
    replayed = max(both - read, 1e-6)
    print(
        f"{count:>8,}{ran:>10.3f}{read:>10.3f}{replayed:>10.3f}{replayed / ran:>10.2f}"
        f"{reading / 1e6:>12.1f}{most / 1e6:>12.1f}",
        flush=True,
    )


def main():
    program, bench = sys.argv[1:]
    print(f"{'entries':>8}{'run':>10}{'read':>10}{'replay':>10}{'of run':>10}{'MB to read':>12}{'with replay':>12}")
    for count in COUNTS:
        row(program, bench, count)


if __name__ == "__main__":
    main()
