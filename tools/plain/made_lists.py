"""Decision lists made at random, of every kind of line that one may have, and spoiled."""

from dataclasses import dataclass

import documents
import edl

REELS = ["A", "B", "TAPE1", "AX", "A001C002-0815", "bl", "!~", "x" * 32, "BL", "BL"]
BAD_REELS = ["x" * 33, "\u00e9", "A\x7f", "A\x00", "A\x0bB"]
BAD_CHANNELS = ["X", "A3", "NONE", "VA1", "v", "A/V", "V,"]
BAD_KINDS = ["W001", "K", "KB", "W", "c", "D", "C", "X", "M2", "CC"]
BAD_LENGTHS = ["000", "1", "1000", "0x", "003", "-1", ""]
BAD_NUMBERS = "M2 AUD 1000 999999 1000000 0000999 000999 SPLIT: >>> x1 -1 FCM title: M2x".split()
BAD_TIMES = ["24:00:00:00", "00:60:00:00", "00:00:60:00", "00:00:00:24", "00:00:00:30", "00:01:00;00", "00:01:00:01"]
BAD_TIMES += ["00:00:00.00", "00;00:00:00", "00:00:00:0", "00:00:00:000", "0000:00:00", "00:10:00:00", "+0:00:00:00"]
NOTES = ["", "  ", "\t", "*", "* FROM CLIP NAME: SHOT", "*M2 TAPE1", "TITLE: A B", "TITLE:"]
NOTES += ["* " + "x" * 2_000, "TITLE: " + "y" * 1_030]
COUNTED = ["FCM:", "FCM: DROP", "FCM: DROP FRAME", "FCM: DROP FRAME X", "FCM: drop frame", "FCM:DROP FRAME"]
COUNTED += ["FCM: NON-DROP FRAME", "FCM: NON DROP FRAME"]


@dataclass
class Event:
    number: int
    channel: str
    place: int
    count: int
    left: tuple
    right: tuple
    frames: int  # of a dissolve, 0 for a cut


class Maker:
    """Makes a list at a rate: `drop` is how its lines are counted as it goes."""

    def __init__(self, r, rate_name):
        self.r, self.is_drop_rate, self.fps = r, rate_name == "29.97", documents.RATES[rate_name][1]
        self.countings = [edl.counting(self.fps, drop) for drop in (False, True)]
        self.drop, self.first, self.most = False, 0, 0

    def base(self):
        """A frame of the day: its first, near the end of a minute, where numbers may be left out, or any."""
        minute = 60 * self.fps
        near = self.r.randint(1, 12) * minute - self.r.randint(0, 25)
        return self.r.choice([0, 60 * minute, near, self.r.randint(0, 1_400 * minute)])

    def events(self):
        ends, found, base = dict.fromkeys(("V", "A", "A2"), 0), [], self.base()
        for number in range(1, 1 + self.r.randint(0, 9)):
            channel = self.r.choice(list(edl.CHANNELS))
            on, channel = edl.CHANNELS[channel], channel.decode()
            count = self.r.choice([1, 2, self.r.randint(1, 9), self.r.randint(1, 80)])
            place = max(ends[key] for key in on) + self.r.choice([0, 0, 0, 1, self.r.randint(0, 30)])
            if self.r.random() < 0.03:
                place = max(0, place - self.r.randint(1, 5))
            before = [event for event in found if set(on) & set(edl.CHANNELS[event.channel.encode()])][-1:]
            frames = self.r.choice([count, 1, self.r.randint(1, count)]) if self.r.random() < 0.35 else 0
            found.append(Event(number, channel, base + place, count, self.side(before), self.side(before), frames))
            ends.update(dict.fromkeys(on, place + count))
        if self.r.random() < 0.3:
            self.r.shuffle(found)
        return found

    def side(self, before):
        """A reel and its source frame; it may go on from the event before on the channel, if there is one."""
        if before and self.r.random() < 0.4:
            return before[0].right[0], before[0].right[1] + before[0].count
        return self.r.choice(REELS), self.r.choice([self.r.randint(0, 60), self.base()])

    def time(self, frame):
        text = edl.label(self.countings[self.drop], frame)
        return text[:8] + ";" + text[9:] if self.r.random() < 0.2 else text

    def line(self, words):
        """The words as a line, mostly in columns."""
        how = self.r.randrange(4)
        if how == 0:
            spaced = [self.r.choice([" ", "  ", "\t", " \t"]) + word for word in words]
            return "".join(spaced) + self.r.choice(["", " ", "\t"])
        if how == 1:
            return " ".join(words)
        return f"{words[0]}  {words[1]:8} {words[2]:5} {words[3]:4} {' '.join(words[4:])}"

    def number(self, number):
        return self.r.choice([f"{number:03}", f"{number:03}", f"{number:03}", str(number), f"{number:06}"])

    def lines_of(self, event):
        last = [event.place, event.place + event.count]
        reel, source = event.right
        if not event.frames:
            times = map(self.time, [source, source + event.count, *last])
            return [self.line([self.number(event.number), reel, event.channel, "C", *times])]
        cut = map(self.time, [event.left[1]] * 2 + [event.place] * 2)
        times = map(self.time, [source, source + event.count, *last])
        length = self.r.choice([f"{event.frames:03}", str(event.frames)])
        first = self.line([self.number(event.number), event.left[0], event.channel, "C", *cut])
        between = [self.r.choice(NOTES) for _ in range(self.r.choice([0, 0, 0, 1, 2]))]
        return [first, *between, self.line([self.number(event.number), reel, event.channel, "D", length, *times])]

    def lines(self):
        found = [self.r.choice(NOTES)] if self.r.random() < 0.5 else ["TITLE: CUT"]
        for event in self.events():
            if self.r.random() < 0.25:
                self.drop = self.is_drop_rate and self.r.random() < 0.6
                found.append(self.r.choice(["FCM: ", "FCM:\t", " FCM:  "]) + edl.counted_text(self.drop))
            found += self.lines_of(event)
            if self.r.random() < 0.3:
                found.append(self.r.choice(NOTES))
        return found


def respelled(r, line):
    """A line with one of its words gone, twice, or another."""
    words = line.split() or [""]
    at, how = min(r.choice([0, 1, 2, 3, 3, 4, 4, r.randrange(len(words))]), len(words) - 1), r.randrange(6)
    if how == 0:
        del words[at]
    elif how == 1:
        words.insert(at, r.choice([words[at], "0", "V"]))
    else:
        bad = [BAD_NUMBERS, BAD_REELS, BAD_CHANNELS + [key.decode() for key in edl.CHANNELS], BAD_KINDS, BAD_LENGTHS]
        words[at] = r.choice(bad[at] if at < (5 if "D" in words else 4) else BAD_TIMES)
    return " ".join(words)


def nudged(r, line):
    """A line with one digit changed, and now and then another: in time, number or length."""
    at = [k for k, letter in enumerate(line) if letter.isdigit()]
    for k in r.sample(at, min(len(at), r.choice([1, 1, 2]))):
        line = line[:k] + str((int(line[k]) + r.choice([1, 9])) % 10) + line[k + 1 :]
    return line


def padded(r, line):
    """A line about as long as one may be."""
    count = r.choice([1_023, 1_024, 1_025]) - len(line.encode())
    return line + r.choice([" ", "\t", "x"]) * count


def spoil(r, lines):
    at, how = r.randrange(len(lines)), r.randrange(11)
    if how > 5:
        events = [k for k, line in enumerate(lines) if line[:3].strip().isdigit()]
        dissolves = [k for k in events if "D" in lines[k].split()]
        at = r.choice(r.choice([events, dissolves]) or [at])
    if how == 0:
        del lines[at]
    elif how == 1:
        lines.insert(r.choice([at, r.randrange(len(lines))]), lines[at])
    elif how == 2:
        lines.insert(r.randrange(len(lines)), lines.pop(at))
    elif how == 3:
        lines.insert(at, r.choice(COUNTED))
    elif how == 4:
        lines[at] = padded(r, lines[at])
    elif how in (5, 6):
        lines[at] = nudged(r, lines[at])
    else:
        lines[at] = respelled(r, lines[at])
    return lines or [""]


def text_of(r, lines):
    """The lines with their ends; a byte may be changed, or what is behind it cut off."""
    end, others = r.choice([b"\n", b"\n", b"\r\n"]), [b"\n", b"\r\n", b"\r\r\n", b"\r"]
    text = b"".join(line.encode() + (end if r.random() < 0.98 else r.choice(others)) for line in lines)
    if r.random() < 0.2:
        text = text[: len(text) - len(end)]
    how, at = r.randrange(12), r.randrange(len(text) + 1)
    if how == 0:
        return text[:at]
    if how == 1:
        return text[:at] + bytes([r.choice(b"\r\n \t*0:;VDC\x00\xff\x0b\xa0")]) + text[at + 1 :]
    return text


def made(r):
    """A rate and the bytes of a list."""
    rate = r.choice([*documents.RATES, "29.97"])
    lines = Maker(r, rate).lines()
    for _ in range(r.choice([0, 0, 1, 1, 1, 2, 3])):
        lines = spoil(r, lines)
    return rate, text_of(r, lines)
