"""Times `list` of a long cut and `tape` of long lists, beside plain programs that do the same, and sees that both
print the same. README.md of the folder above says what each row measures."""

import pathlib
import subprocess
import sys

import generate

HERE = pathlib.Path(__file__).resolve().parent
MIB = 1024 * 1024

NEWLINE = b"\n"

# A program is run so often, and its least time is told.
ROUNDS = 3


def run(words, lines=b""):
    """Runs a program over these lines. Answers its output, its processor seconds, and its most memory in MB."""
    timed = ["/usr/bin/time", "-o", "timed", "-f", "%U %S %M", *words]
    ran = subprocess.run(timed, input=lines, stdout=subprocess.PIPE)
    if ran.returncode != 0:
        raise SystemExit(f"bench: {words} ended with {ran.returncode}: {ran.stdout[:200]!r}")
    user, system, memory = map(float, pathlib.Path("timed").read_text().split())
    return ran.stdout, user + system, memory * 1024 / 1e6


def best(words, lines=b""):
    """The same with the least time of several runs."""
    return min((run(words, lines) for _ in range(ROUNDS)), key=lambda ran: ran[1])


def row(what, size, ours, plain=None):
    """A row of the table: ours, and where there is one a plain program's run that has to print the same."""
    got, seconds, memory = best(ours)
    text = f"{what:<34}{size:>12,}{got.count(NEWLINE):>10,}{seconds:>9.2f}{memory:>8.0f}"
    if plain:
        wanted, plain_seconds, plain_memory = plain
        if got != wanted:
            raise SystemExit(f"bench: {what}: the two programs print different texts")
        ratio = f"{seconds / plain_seconds:.2f}" if plain_seconds else "-"
        text += f"{plain_seconds:>9.2f}{plain_memory:>8.0f}{ratio:>8}"
    print(text, flush=True)


def put(name, text):
    pathlib.Path(name).write_text(text)
    return len(text)


def list_rows(program):
    """Lists of a long track, and of 16 tracks of which items and then frames are more."""
    put("none.journal", "journal 0\n")
    words = ["list", "doc.otio", "24", "ndf", "none.journal", "0"]
    size = put("doc.otio", generate.document())
    row("list, 64,935 clips", size, [program, *words], best([sys.executable, HERE / "plain_list.py", "doc.otio"]))
    opens = [program, "run", "doc.otio", "24", "ndf"]
    print(f"  of which {best(opens)[1]:.2f} s open the document")
    plain = [sys.executable, HERE.parent.parent / "tools/plain/edl.py", *words]
    for items, frames in ((5_000, 4), (10_000, 4), (10_000, 40)):
        size = put("doc.otio", generate.layers(items, frames))
        what = f"list, 16 tracks of {items:,}, {frames} frames"
        row(what, size, [program, *words], run(plain) if frames == 4 else None)
        print(f"  of which {best(opens)[1]:.2f} s open the document")


def tape_rows(program, plain_tape):
    for most, is_scattered in ((8 * MIB, False), (16 * MIB, False), (32 * MIB, False), (32 * MIB, True)):
        size = put("cut.edl", generate.tape_list(most, is_scattered))
        what = "tape, scattered" if is_scattered else "tape, in order"
        row(what, size, [program, "tape", "cut.edl", "24"], best([plain_tape, "cut.edl"]))


def note_rows(program):
    """A list of notes, and the same bytes as lines of a station."""
    text = generate.notes(32 * MIB)
    size = put("cut.edl", text)
    row("tape, of notes", size, [program, "tape", "cut.edl", "24"])
    _, seconds, memory = best([program, "run", "1", "1"], text.encode())
    print(f"{'  the same as lines of a station':<34}{size:>12,}{'':>10}{seconds:>9.2f}{memory:>8.0f}")


def main():
    program, plain_tape = sys.argv[1:]
    head = f"{'what':<34}{'bytes':>12}{'lines':>10}{'ours, s':>9}{'MB':>8}{'plain, s':>9}{'MB':>8}{'ratio':>8}"
    print(head)
    list_rows(program)
    tape_rows(program, plain_tape)
    note_rows(program)


if __name__ == "__main__":
    main()
