"""Whether the history of a room explains what was recorded of its stations, by the room of plain lists.

A recording is what a station sent and what it got, as bytes. Each reply but `bad` and `memory` names its point in
the journal, and has to be what the entries before that point give, as docs/PROTOCOL.md says."""

import re
from dataclasses import dataclass
from itertools import zip_longest

import documents
import journals
import room

MOST_LINES = 64 * 1024 * 1024
MOST_STATIONS = 16


class Refused(Exception):
    """A1 to A5, with the station and the number of a line or an entry, and why in words."""

    def __init__(self, code, station, number, why):
        super().__init__(f"{code} {station} {number}")
        self.code, self.station, self.number, self.why = code, station, number, why


class Unexplained(Exception):
    """Why a reply is not explained, in words."""


@dataclass
class Recording:
    """The lines of a station, None for one that is too long, and its replies; cut where it ended by a fault."""

    lines: list
    replies: list
    cut: bool = False

    @classmethod
    def of(cls, sent, got, cut=False):
        """Of the bytes that it sent and got: a last reply without its line feed counts as none."""
        return cls(lines_of(sent), got.split(b"\n")[:-1], cut)


def lines_of(data):
    """The lines of what a station sent, as a room reads them."""
    *whole, rest = data.split(b"\n")
    lines = [line[:-1] if line.endswith(b"\r") and len(line) <= room.MOST_LINE else line for line in whole]
    return [line if len(line) <= room.MOST_LINE else None for line in lines + [rest] * (rest != b"")]


def words_of(text):
    return [word for word in re.split(b"[ \t]", text) if word]


def number_in(words):
    """The number that the first of the words is."""
    number = int(words[0]) if words and words[0].isdigit() else None
    return number if number is not None and number <= journals.MOST_NUMBER else None


def point_named(reply):
    """The point that a reply names: its second word, and of news its third."""
    words = words_of(reply)
    return number_in(words[2:] if words[:1] == [b"news"] else words[1:])


class History:
    """The entries of a journal's text, and the room after each of them."""

    def __init__(self, plain, data):
        self.plain = plain
        self.entries = journals.read(plain, data)
        self.states = [plain.state()]
        for at, (station, _, call) in enumerate(self.entries):
            try:
                plain.put(call, plain.apply(call, station)[0], station)
            except room.Refused:
                raise journals.Fault("H3", at)
            self.states.append(plain.state())
        self.borne = {entry[:2] for entry in self.entries}
        self.documents = {}

    def asked(self, line):
        """The call, the question or the wish of a line."""
        if line is None:
            raise room.Bad("B5")
        return self.plain.read(line)

    def at(self, point):
        """The room at a point."""
        self.plain.go_to(self.states[point])
        return self.plain

    def document(self, n):
        """The reply with the document after so many entries, which is made once."""
        if n not in self.documents:
            text = documents.write(self.at(n), self.states[n][0])
            self.documents[n] = f"no {n} V4" if len(text.encode()) > documents.MOST_BYTES else f"otio {n} {text}"
        return self.documents[n]

    def news(self, place, length):
        """The reply with the entry at a place where there are so many."""
        return f"news {place} {length}" + (f" {room.entry_text(*self.entries[place])}" if place < length else "")

    def takes_memory(self, line):
        """Whether a line may be answered `memory`: it needs some to be read or to be answered."""
        if line is not None and words_of(line)[:1] == [b"link"]:
            return True
        try:
            call = self.asked(line)
        except room.Bad:
            return False
        if call[0] in room.QUESTIONS:
            return call[0] != "point"
        tracks, own = names_of(call)
        return own in tracks and all(t < len(self.plain.tracks) for t in tracks)


def names_of(call):
    """The tracks that an edit names, and its own among them."""
    if not isinstance(call[1], list):
        return [call[1]], call[1]
    return call[1], call[1][0] if call[0] in ("link", "back") else call[2]


@dataclass
class Reply:
    """A reply to a line of a station, where the station had been told of so many entries."""

    history: History
    station: int
    number: int
    line: object
    text: bytes
    told: int

    def explained(self):
        """How many entries the station has been told of after it; raises Unexplained where that has no answer."""
        if self.text == b"memory" and self.history.takes_memory(self.line) and not self.is_borne():
            return self.told
        try:
            call = self.history.asked(self.line)
        except room.Bad as bad:
            self.must_be(f"bad {bad}")
            return self.told
        return getattr(self, "to_" + call[0], self.to_edit)(call)

    def is_borne(self):
        """Whether an entry of the station bears the line's number."""
        return (self.station, self.number) in self.history.borne

    def must_be(self, want):
        if self.text != want.encode():
            raise Unexplained(f"wanted {want}")

    def point(self):
        """The point that it names, from what the station had been told of to the end of the journal."""
        n = point_named(self.text)
        if n is None or n > len(self.history.entries):
            raise Unexplained("the reply names no point of the journal")
        if n < self.told:
            raise Unexplained(f"the station had been told of {self.told} entries")
        return n

    def to_point(self, call):
        n = self.point()
        self.must_be(f"point {n}")
        return n

    def to_view(self, call):
        n = self.point()
        plain = self.history.at(n)
        try:
            word, words = getattr(plain, "ask_" + call[0])(*call[1:])
            self.must_be(" ".join([word, str(n), *words]))
        except room.Refused as refused:
            self.must_be(f"no {n} {refused}")
        return n

    to_items = to_view

    def past_end(self, asked):
        """A reply that there are fewer entries than were asked for."""
        n = self.point()
        self.must_be(f"no {n} V3")
        if n >= asked:
            raise Unexplained(f"at point {n} there is what was asked for")
        return n

    def to_otio(self, call):
        n = call[1]
        if self.text.endswith(b" V3") or n > len(self.history.entries):
            return self.past_end(n)
        self.must_be(self.history.document(n))
        return max(self.told, n)

    def to_news(self, call):
        place = call[1]
        if words_of(self.text)[:1] == [b"no"]:
            return self.past_end(place)
        n = self.point()
        if place > n:
            raise Unexplained(f"at point {n} there is no such place")
        self.must_be(self.history.news(place, n))
        return n

    def to_edit(self, call):
        n, entries = self.point(), self.history.entries
        try:
            _, words = self.history.at(n).apply(call, self.station)
        except room.Refused as refused:
            self.must_be(f"no {n} {refused}")
            return n
        if n == room.MOST_ENTRIES:
            self.must_be(f"no {n} E15")
            return n
        self.must_be(f"ok {n}{words}")
        if n == len(entries) or entries[n] != (self.station, self.number, call):
            raise Unexplained("the entry at the point is another")
        return n + 1

    def is_own(self, n):
        """Whether the entry at a point is the line's."""
        try:
            return self.history.entries[n : n + 1] == [(self.station, self.number, self.history.asked(self.line))]
        except room.Bad:
            return False

    def code(self):
        """Why it is not explained: of A2, A3 and A1 the first that holds."""
        first, n = words_of(self.text)[:1], point_named(self.text)
        if n is not None and n < self.told and first != [b"otio"]:
            return "A2"
        return "A3" if first == [b"ok"] and n is not None and not self.is_own(n) else "A1"


def is_left(history, recording, entry):
    """Whether an entry is of a line that was sent after those that have replies, and is what that line asks for."""
    _, number, call = entry
    if not len(recording.replies) < number <= len(recording.lines):
        return False
    try:
        return history.asked(recording.lines[number - 1]) == call
    except room.Bad:
        return False


def explain_lines(history, station, recording):
    """The points of a station's own entries that its replies tell of; refuses the first reply that is not explained."""
    told, points = 0, []
    for number, (line, text) in enumerate(zip(recording.lines, recording.replies), 1):
        reply = Reply(history, station, number, line, text, told)
        try:
            told = reply.explained()
        except Unexplained as why:
            raise Refused(reply.code(), station, number, str(why))
        if words_of(text)[:1] == [b"ok"]:
            points.append(told - 1)
    return points


def explain_station(history, station, recording):
    """Refuses what of a station is not explained first: a reply, a line or reply alone, an entry without `ok`."""
    points = explain_lines(history, station, recording)
    lines, replies = len(recording.lines), len(recording.replies)
    if replies > lines or replies < lines and not recording.cut:
        raise Refused("A4", station, min(lines, replies) + 1, f"{lines} lines have {replies} replies")
    own = [place for place, entry in enumerate(history.entries) if entry[0] == station]
    for place, point in zip_longest(own, points):
        entry = history.entries[place]
        if place != point and not (point is None and recording.cut and is_left(history, recording, entry)):
            raise Refused("A5", station, entry[1], f"entry {place} has no ok")


def explain(history, recordings):
    """Refuses what is not explained first, in order of stations; last an entry of a station that is not there."""
    for station, recording in enumerate(recordings):
        explain_station(history, station, recording)
    for station, number, _ in history.entries:
        if station >= len(recordings):
            raise Refused("A5", station, number, f"there are {len(recordings)} stations")


def audited(plain, journal, recordings):
    """How many entries and replies are explained, or the first refusal: the line that is printed, and the status."""
    try:
        history = History(plain, journal)
        explain(history, recordings)
    except (journals.Fault, Refused) as refused:
        return f"refused {refused}\n", 4
    return f"legal {len(history.entries)} {sum(len(one.replies) for one in recordings)}\n", 0
