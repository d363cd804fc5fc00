#!/usr/bin/env python3
"""Says in words why a file, an edit or a question is refused, and what can be done.

usage: examples/explain.py FILE [REFUSAL]
       examples/explain.py REFUSAL

In the first form FILE is the document, list, journal or kept file, and REFUSAL the line that the program answers, such as
`refused O1 669`. Without it the line is read from standard input:

    ./cutroom run DOC 24 ndf < /dev/null | examples/explain.py DOC
    ./cutroom tape LIST 24 | examples/explain.py LIST

Of a document it says on which line and column the fault is, what is there and what is around it, from the timeline down,
each object by its schema and name; of a list or a journal it shows the line. Then it says what such a fault comes from, with
the cure of each and the commands that do it. A list that is read is looked through for what may be meant otherwise. In the
second form REFUSAL is a reply, such as `no 3 E16 0` or `bad B3`, or the line that `follow` or `audit` answers: it says where
that code comes, with an example.

What it says stands in docs/DOCUMENTS.md, LISTS.md, PROTOCOL.md and SERVING.md. It needs nothing but Python's standard
library."""

import json
import os
import pathlib
import re
import shlex
import sys

import media
from journal_of import HEADER
from shared import HERE, Wrong, read_file, run, shown

PAGES = HERE.parent / "docs"
FILE_REFUSAL = re.compile(r"refused (([JOPIHKL])\d+) (\d+)(?: (\d+))?")
REPLY = re.compile(r"(?:no \d+ ([EV]\d+)|refused ([AM]\d+)|bad (B\d+))(?: .*)?")
MOST = 130 << 20  # bytes, more than any file that the program reads
SHOWN = 60  # characters of a value, or around a fault of the JSON
HERE_MARK = "\0cutroom looks here"


# ------------------------------------------------------------------------------------------------- what the pages say


def rows(page):
    """The rows of the tables of a page, as their cells."""
    for line in (PAGES / page).read_text(encoding="utf-8").splitlines():
        if line.startswith("|"):
            yield [cell.strip().replace("\\|", "|") for cell in re.split(r" \|(?= |$)", line.removeprefix("|"))[:-1]]


def plain(text):
    """A cell without its links."""
    return re.sub(r"\[([^]]*)\]\([^)]*\)", r"\1", text)


def typed(page):
    """The commands of a page under each title in bold type."""
    found = {}
    for part in re.split(r"^(?=\*\*|#)", (PAGES / page).read_text(encoding="utf-8"), flags=re.M)[1:]:
        if part.startswith("#"):
            continue
        title = re.match(r"\*\*(.*?)\*\*", part)[1]
        found[title.lower().rstrip(".")] = re.findall(r"^    (\S.*)", part, re.M)
    return found


def commands(page, title, name):
    """The commands with this title, for the file of this name."""
    for command in next((all_of for whole, all_of in typed(page).items() if title and whole.startswith(title.lower())), []):
        yield for_file(command, name)


def for_file(command, name):
    """A command of a page, which reads in.KIND and writes out.KIND, for a file of its own."""
    same = re.fullmatch(r"out\.\w+", os.path.basename(name))
    command = re.sub(r"\bout\.(\w+)$", r"out2.\1" if same else r"out.\1", command)
    return re.sub(r"\bin\.\w+", lambda _: shlex.quote(name), command)


def brought(page, code):
    """What files of the field bring that have this code: what it is, the cure, the title of commands."""
    for cells in rows(page):
        if len(cells) == 4 and re.search(rf"\b{code}\b", cells[1]) and not re.match(rf"{code}\b", cells[0]):
            yield plain(cells[0]), plain(cells[2]), cells[3]


def tell(what, cure, title, page, name):
    """A cause with its cure, and the commands that do it."""
    print(f"- {what}: {cure}" if cure else f"- {what}")
    for command in commands(page, title, name):
        print(f"      {command}")


# ------------------------------------------------------------------------------------------------ files of another kind

EVENT = re.compile(rb"(?:TITLE:|FCM:|\*|\d{1,6}\s+\S+\s+\S+\s+[CDWK])")
KINDS = {
    "gzip": "FILE is packed by gzip. Unpack it: gunzip -c < FILE > out",
    "zip": "FILE is a zip, as .otioz files are: the timeline is in it. Take it out: unzip -p FILE content.otio > out.otio",
    "utf16": "FILE is in UTF-16. Make it UTF-8: iconv -f UTF-16 -t UTF-8 FILE > out",
    "mark": "FILE begins with a byte order mark. Take it out: sed '1s/^\\xef\\xbb\\xbf//' FILE > out",
    "xml": "FILE is XML, as of Final Cut. Export the sequence as OpenTimelineIO, or as a CMX 3600 list",
    "ole": "FILE is an AAF or another binary file. Export the sequence as OpenTimelineIO, or as a CMX 3600 list",
    "document": "FILE is a document. Open it: cutroom run FILE RATE DROP",
    "list": "FILE is a decision list. Make a document of it: cutroom import FILE RATE DROP > out.otio",
    "journal": "FILE is a journal: a document goes with it, as in cutroom list DOC RATE DROP FILE POINT. A kept file of it: examples/kept_of.py FILE > out",
    "kept": "FILE is a kept file of `store`. The journal in it: examples/journal_of.py FILE > out.journal",
    "empty": "FILE is empty. Copy or export it again",
}
OWN = {"J": "document", "O": "document", "L": "document", "P": "list", "I": "list", "H": "journal", "K": "kept"}


def kind_of(data):
    """What a file is by its first bytes, where that can be told."""
    head = data[:4096]
    for kind, begin in (("gzip", b"\x1f\x8b"), ("zip", b"PK\x03\x04"), ("mark", b"\xef\xbb\xbf"), ("ole", b"\xd0\xcf\x11\xe0"), ("kept", HEADER)):
        if head.startswith(begin):
            return kind
    if head.startswith((b"\xff\xfe", b"\xfe\xff")) or (b"\0" in head and head[:40].count(b"\0") * 3 > len(head[:40])):
        return "utf16"
    front = head.lstrip()
    if not front:
        return "empty" if len(head) < 4096 else None
    if re.match(rb"journal \d+\s", front):
        return "journal"
    if EVENT.match(front):
        return "list"
    return {b"{": "document", b"<": "xml"}.get(front[:1])


def is_other(data, family, name):
    """Says what the file is, where it is none that could have been meant."""
    kind = kind_of(data)
    if kind in (None, OWN[family]) or family == "H" and kind == "kept" and not data.endswith(b"\n"):
        return False
    print(KINDS[kind].replace("FILE is", f"{shown(name)} is").replace("FILE", shown(shlex.quote(name))))
    return True


# -------------------------------------------------------------------------------------------------------------- documents


def marked(data, place):
    """The text of the document with a mark in the value that begins at the place."""
    first = data[place : place + 1]
    if first in (b"{", b"["):
        rest = data[place + 1 :]
        comma = b"" if rest.lstrip()[:1] in (b"}", b"]") else b","
        mark = json.dumps(HERE_MARK).encode() + (b":0" if first == b"{" else b"")
        return data[: place + 1] + mark + comma + rest
    token = re.compile(rb'"(?:[^"\\]|\\.)*"|[^\s{}\[\],:"]+').match(data, place)
    if not token:
        raise ValueError("no value is there")
    return data[:place] + json.dumps(HERE_MARK).encode() + data[token.end() :]


def is_here(value):
    if isinstance(value, dict):
        return HERE_MARK in value
    return value == HERE_MARK or isinstance(value, list) and value[:1] == [HERE_MARK]


def way_to(root):
    """The members and indices that lead to the marked value, each with the value there."""
    open_values = [(root, None, None)]  # a value, what it is called in the one that holds it, and that one's own entry
    while open_values:
        entry = open_values.pop()
        value = entry[0]
        if is_here(value):
            way = []
            while entry[2]:
                way.append((entry[1], entry[0]))
                entry = entry[2]
            return way[::-1]
        if isinstance(value, dict):
            open_values += [(inner, name, entry) for name, inner in value.items() if isinstance(inner, (dict, list, str))]
        elif isinstance(value, list):
            open_values += [(inner, at, entry) for at, inner in enumerate(value) if isinstance(inner, (dict, list, str))]
    raise ValueError("the place is in no value that counts")


def called(value):
    """An object by its schema and name."""
    schema, name = value.get("OTIO_SCHEMA"), value.get("name")
    schema = schema if isinstance(schema, str) and schema != HERE_MARK else "an object without a schema"
    return f"{schema} {json.dumps(name, ensure_ascii=False)}" if isinstance(name, str) and name not in ("", HERE_MARK) else schema


def around(data, place):
    """A line for each object on the way to a value, with the members that lead on from it."""
    sys.set_int_max_str_digits(0) if hasattr(sys, "set_int_max_str_digits") else None
    root = json.loads(marked(data, place))
    lines, members = [called(root)], []
    for name, value in way_to(root):
        members.append(f"[{name}]" if isinstance(name, int) else f".{name}")
        if isinstance(value, dict) and "OTIO_SCHEMA" in value:
            lines.append("".join(members)[1:] + ": " + called(value))
            members = []
    return lines + (["".join(members)[1:]] if members else [])


def value_at(data, place):
    """The beginning of the value at a place."""
    text = data[place : place + 4 * SHOWN].decode("utf-8", "replace")
    try:
        text = text[: json.JSONDecoder().raw_decode(text)[1]]
    except ValueError:
        pass  # longer than what is shown
    return short(text)


def short(text):
    text = shown(" ".join(text.split()))
    return text if len(text) <= SHOWN else text[:SHOWN] + " .."


def place_in(data, place):
    before = data[:place]
    return f"line {before.count(10) + 1}, column {place - before.rfind(10)}"


def explain_document(data, code, place, name):
    print(f"{code} at byte {place}: {place_in(data, place)}")
    if code.startswith("O") or code == "J3":
        print(f"There is {value_at(data, place)}")
        try:
            for depth, line in enumerate(around(data, place)):
                print("  " * (depth + 1) + shown(line))
        except (ValueError, RecursionError, AttributeError) as fault:
            print(f"What is around it can't be told: {shown(fault)}")
    elif code != "J5":
        print(f"Before it: {short(data[max(0, place - SHOWN):place].decode('utf-8', 'replace'))[-SHOWN:]}")
        print(f"From there: {short(data[place:place + SHOWN].decode('utf-8', 'replace')) or 'nothing, the document ends'}")
    print(f"What {code} comes from, each with its cure (docs/DOCUMENTS.md has examples):")
    for cells in rows("DOCUMENTS.md"):
        if len(cells) == 5 and cells[0] == code:
            print(f"- {plain(cells[1])}: {plain(cells[4])}")
    typed_ones = [row for row in brought("DOCUMENTS.md", code) if row[2]]
    if typed_ones:
        print("Commands, where the document brings one of these:")
    for what, _, title in typed_ones:
        tell(what, "", title, "DOCUMENTS.md", name)


# ------------------------------------------------------------------------------------------------------- lists and journals


def meaning(page, code):
    """What a code of a list or journal means, and what to do, as the page's tables have it."""
    for cells in rows(page):
        if len(cells) >= 3 and re.fullmatch(rf"(?:`refused )?{code}\b.*", cells[0]):
            return plain(cells[1]), plain(cells[-1])
    raise Wrong(f"{code} is no code of docs/{page}")


def line_of(data, number):
    """A line of a file, from 1, and all of what it shows."""
    lines = data.split(b"\n", number)
    return lines[number - 1].rstrip(b"\r") if 0 < number <= len(lines) else b""


def samples(what):
    """What a row has in backticks, each as an expression: a number in it stands for any as long, but in a timecode."""
    for sample in re.findall(r"`([^`]+)`", what):
        pattern = re.escape(sample)
        pattern = pattern.replace("\\ ", r"\s+")
        pattern = pattern if re.search(r"\d:\d", sample) else re.sub(r"\d+", lambda digits: rf"\d{{{len(digits[0])},}}", pattern)
        edges = r"(?<![A-Za-z0-9])" if sample[0].isalnum() else "", r"(?![A-Za-z0-9])" if sample[-1].isalnum() else ""
        yield edges[0] + pattern + edges[1]


def fitting(found, line):
    """The rows that have a sample of what the line has, or that its words fit, or all where there is none."""
    text = line.decode("latin-1")
    fit = [row for row in found if any(re.search(one, text) for one in samples(row[0]))]
    fit = fit or [row for row in found if row[0].startswith(wrong_words(line.split()))]
    return fit or found


def wrong_words(words):
    """How the row begins that tells what is wrong with the words of an event."""
    if len(words) > 1 and (len(words[1]) > 32 or not words[1].isascii()):
        return "a reel of more than 32"
    if len(words) < 8:
        return "an event without"
    if len(words) > 8 and words[3] == b"C" and words[4].isdigit():
        return "a length after a cut"
    return "a reel with a blank"


def explain_list(data, code, numbers, name):
    what, cure = meaning("LISTS.md", code)
    print(f"{code}: {what}")
    line = b""
    if code not in ("P13", "I3", "I4", "I5"):
        for number in filter(None, numbers):
            line = line or line_of(data, number)
            print(f"Line {number}: {short(line_of(data, number).decode('utf-8', 'replace'))}")
    found = fitting(list(brought("LISTS.md", code)), line)
    if not found:
        print(f"What to do: {cure}")
    for row in found:
        tell(*row, "LISTS.md", name)


def explain_journal(data, code, number, name):
    kept = data.startswith(HEADER) or code[0] == "K" or code in ("H6", "H7", "H8")
    what, cure = meaning("SERVING.md" if kept else "LISTS.md", code)
    print(f"{code}: {what}")
    lines = data.removeprefix(HEADER).split(b"\n") if kept else data.split(b"\n")
    at = {"H1": number - 1, "H4": number - 1, "H6": number - 1, "H7": number - 1, "H3": number + (not kept)}.get(code)
    if at is not None and 0 <= at < len(lines):
        print(f"{'Record' if kept else 'Line'} {at + 1}: {short(lines[at].decode('utf-8', 'replace'))}")
    if code == "K1":
        print(f"From byte {number}: {short(data[number:number + SHOWN].decode('utf-8', 'replace')) or 'nothing, the file ends'}")
    print(f"What to do: {cure}")


def explain_cut(data, code, number, name):
    """Of a cut that has no list; the file is its document."""
    what, cure = meaning("LISTS.md", code)
    print(f"{code}: {what}")
    if code == "L4":
        reel = reels_in(data)[number : number + 1]
        print(f"Reel {number}: {shown(*reel)}" if reel else f"Reel {number} is not in {shown(name)}")
    print(f"What to do: {cure}")


def reels_in(data):
    """The reels of a document, in the order in which it names them."""
    try:
        return list(dict.fromkeys(reel for reel, _, _ in media.Table(json.loads(data), "24").media))
    except (ValueError, LookupError, TypeError, AttributeError, ArithmeticError, RecursionError):
        return []


# ------------------------------------------------------------------------------------------------- lists that are read


def strange(data):
    """What in a list that is read may be meant otherwise: the beginnings of the rows of docs/LISTS.md that say what."""
    lines = [line.split() for line in re.split(rb"\r\n?|\n", data)]
    events = [words for words in lines if len(words) in (8, 9) and words[0].isdigit()]
    if b"\r" in data and b"\n" not in data:
        yield "carriage returns alone"
    elif not events:
        yield "no event"
    if sum(words[1] == b"AX" for words in events) > 1:
        yield "`AX`"
    if any(words[1] in (b"BLACK", b"BLK") for words in events):
        yield "`BLACK`"
    first = next((at for at, words in enumerate(lines) if words in events), 0)
    if any(words[:1] == [b"FCM:"] for words in lines[first:]) and events:
        yield "`FCM:`"
    if any(b";" in words[-1] for words in events) and not any(words[:2] == [b"FCM:", b"DROP"] for words in lines):
        yield "`;`"


def explain_read(data, name):
    found = list(strange(data))
    print("It is read." + ("" if found else " Nothing in it is often meant otherwise."))
    for begin in found:
        for cells in rows("LISTS.md"):
            if len(cells) == 4 and cells[0].startswith(begin):
                print(f"- {plain(cells[0])}: {plain(cells[1])}. {plain(cells[2])[:1].upper()}{plain(cells[2])[1:]}")
                for command in commands("LISTS.md", cells[3], name):
                    print(f"      {command}")


# ------------------------------------------------------------------------------------------------------------------- main


def explain_reply(code):
    found = False
    for cells in rows("PROTOCOL.md"):
        if len(cells) == 3 and re.match(rf"(`(no (N|\d+)|refused) )?{code}\b", cells[0]):
            print(f"{plain(cells[0]).strip('`')} comes exactly where: {plain(cells[1])}")
            print(f"For example: {plain(cells[2])}" if cells[2] else "", end="\n" if cells[2] else "")
            found = True
    if not found:
        raise Wrong(f"there is no code {code}")


def explain_file(name, line):
    refusal = FILE_REFUSAL.fullmatch(line)
    data = read_file(name, MOST)
    if refusal is None:
        if not line.startswith("refused") and kind_of(data) in ("list", "empty") and re.fullmatch(r"((V|A2?) \d+ .*)?", line):
            return explain_read(data, name)
        raise Wrong(f"{line} is no refusal that is known here" if line else "no refusal came: what the program put on standard error says why")
    code, family, number = refusal[1], refusal[2], int(refusal[3])
    if is_other(data, family, name):
        return None
    if family in "JO":
        return explain_document(data, code, number, name)
    if family in "PI":
        return explain_list(data, code, [number, int(refusal[4] or 0)], name)
    return (explain_cut if family == "L" else explain_journal)(data, code, number, name)


def main():
    words = sys.argv[1:]
    if words == ["--help"]:
        return print(__doc__)
    if not words:
        raise Wrong("usage: examples/explain.py FILE [REFUSAL]; examples/explain.py --help says more")
    reply = REPLY.fullmatch(" ".join(words))
    if reply is None and pathlib.Path(words[0]).is_dir():
        raise Wrong(f"{words[0]} is a folder: of an .otiod take the content.otio in it")
    line = "" if reply else " ".join(words[1:]) or first_line()
    reply = reply or REPLY.fullmatch(line)
    return explain_reply(next(filter(None, reply.groups()))) if reply else explain_file(words[0], line)


def first_line():
    """What the program has answered, as far as it is needed."""
    if sys.stdin is None:
        return ""
    if sys.stdin.isatty():
        print("explain: the line that the program answered, as `refused O1 669`:", file=sys.stderr)
    line = sys.stdin.buffer.readline(65_536)
    while sys.stdin.buffer.read(65_536):
        pass  # so that the program which writes it is not broken off
    return shown(line.rstrip(b"\r\n"))


if __name__ == "__main__":
    run("explain", main)
