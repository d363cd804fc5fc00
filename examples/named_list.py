#!/usr/bin/env python3
"""The list of a cut by names that fit a list, with a note of each reel's name in the document.

usage: examples/named_list.py [--long] DOC RATE DROP JOURNAL POINT

Each reel of the document gets a name of its own of at most 8 characters of A-Z, 0-9 and _, made of its name there, and
`cutroom list .. names` writes the list. A reel whose name fits keeps it. After each event stands the reel's name in the
document, as `* FROM CLIP NAME:`, of a dissolve's incoming side as `* TO CLIP NAME:`; who reads lists by events passes these
over, so the list plays as it did, and programs that link media by clip name find them. With --long a reel whose name in the
document has up to 32 printable characters and no blank stands in the lines whole; then columns are moved, and reels that
are too long for CMX 3600 are in the list. Where a fade hides a picture, standard error says at which record time, as
examples/fades.py does. It needs nothing but Python's standard library, and the program cutroom."""

import re
import subprocess
import sys

import fades
import media
from shared import Words, Wrong, program, reason, run, shown

LONG = re.compile("[!-~]{9,32}")
FITS = re.compile("[A-Z0-9_]{1,8}")


def names_of(texts):
    """A name for each text: itself where it fits, else its first 8 characters in a form that fits, or with a number after
    it where that is taken. The number is set off, so that no reel is called as another reel of the shoot may be."""
    names = {text: text for text in texts if FITS.fullmatch(text) and text != "BL"}
    taken = {"BL", *names}
    for text in texts:
        if text not in names:
            base = re.sub("[^A-Z0-9_]", "_", text.upper()) or "_"
            tries = (base[: 8 - len(end)] + end for end in ("", *(f"_{number}" for number in range(1, 10_000))))
            names[text] = next(name for name in tries if name not in taken)
            taken.add(names[text])
    return names


def noted(text, reels, long):
    """The list with its notes, by the reel of each name."""
    lines, left = [], None
    for line in text.splitlines():
        lines.append(line)
        if not line[:3].isdigit():
            continue
        words = line.split()
        reel = "BLACK" if words[1] == "BL" else shown(reels.get(words[1], words[1]))
        if long and LONG.fullmatch(reel):
            lines[-1] = line[:5] + reel + line[13:]
        if words[3] == "D":
            lines += [f"* FROM CLIP NAME:  {left}", f"* TO CLIP NAME:  {reel}"]
        elif words[-1] != words[-2]:
            lines.append(f"* FROM CLIP NAME:  {reel}")
        left = reel
    return "\n".join(lines) + "\n"


def listed(words, names):
    """What the program answers, and its status."""
    rows = [f"{text}={name}" for text, name in names.items() if text]
    try:
        ran = subprocess.run([program(), "list", *words, *(["names", *rows] if rows else [])], stdout=subprocess.PIPE)
    except (OSError, ValueError) as fault:
        raise Wrong(f"the program can't be run: {reason(fault)}") from fault
    return ran.stdout.decode("utf-8", "replace"), ran.returncode


def main():
    ask = Words(__doc__)
    ask.add_argument("--long", action="store_true")
    ask.add_argument("words", nargs=5)
    asked = ask.parse_args()
    names = names_of(dict.fromkeys(reel for reel, _, _ in media.read(*asked.words[:2]).media))
    text, status = listed(asked.words, names)
    if status:
        print(text, end="")
        return status
    print(noted(text, {name: reel for reel, name in names.items()}, asked.long), end="")
    for line in fades.told(asked.words):
        print(f"named_list: {line}", file=sys.stderr)
    return 0


if __name__ == "__main__":
    run("named_list", main)
