"""A room of plain lists, as slow as it is plain: every track is a list of cells, one for each frame.

It answers lines as docs/PROTOCOL.md says, was written from the rules and not from the code, and stands on nothing but
Python. tools/plain/compare sends the same lines to it and to the program and compares the replies."""

from dataclasses import dataclass, field, replace
from typing import Optional

MOST_FRAMES = 2_592_000
MOST_ITEMS = 65_536
MOST_ENTRIES = 100_000
MOST_LINE = 1_024


class Bad(Exception):
    """A line that is none: B1 to B6."""


class Refused(Exception):
    """An edit, a taking back or a question that is refused, with its words: E1 to E14, E16, E17, V1 to V3."""


@dataclass(frozen=True)
class Cell:
    item: Optional[int] = None
    shows: Optional[tuple] = None  # ("@", number) or ("#", number)
    source: int = 0
    mark: Optional[tuple] = None  # (a, b), of the dissolve at the cut before this cell
    link: Optional[tuple] = None  # (home, number, tracks as a tuple)


DARK = Cell()


@dataclass
class Track:
    cells: list = field(default_factory=list)
    next_item: int = 0
    next_link: int = 0


@dataclass(frozen=True)
class Former:
    """What a track was before the edit that changed it last: the tracks that this edit named, and who sent it."""

    track: Track
    names: frozenset
    by: int


# ------------------------------------------------------------------------------------------------ what a track consists of


def belong_together(left, right):
    return left.item == right.item


def is_cut(cells, p):
    return 0 < p < len(cells) and not belong_together(cells[p - 1], cells[p])


def pieces(cells):
    """The items and gaps, as (from, to)."""
    found, start = [], 0
    for p in range(1, len(cells) + 1):
        if p == len(cells) or is_cut(cells, p):
            found.append((start, p))
            start = p
    return found


def piece_at(cells, p):
    """The item or gap that holds the place, as (from, to)."""
    x, y = p, p + 1
    while x > 0 and not is_cut(cells, x):
        x -= 1
    while y < len(cells) and not is_cut(cells, y):
        y += 1
    return x, y


def item_range(cells, item):
    places = [p for p, cell in enumerate(cells) if cell.item == item]
    return (places[0], places[-1] + 1) if places else None


def new_item(item, shows, source, count, link=None):
    return [Cell(item, shows, source + k, None, link) for k in range(count)]


def going_on(cell, count):
    """The cells that go on behind this one: of its item, or dark."""
    return [DARK] * count if cell.item is None else new_item(cell.item, cell.shows, cell.source + 1, count, cell.link)


def reaching_back(cell, count):
    return [DARK] * count if cell.item is None else new_item(cell.item, cell.shows, cell.source - count, count, cell.link)


# ------------------------------------------------------------------------------------------------------- splice and shift


def mark_beside(mark, p, x, y, keep):
    """What an edit of the places [x, y) leaves of a dissolve at p."""
    a, b = mark
    if p < x:
        room = x - p
        return mark if b <= room else (a, room) if keep else None
    if p > y:
        room = p - y
        return mark if a <= room else (room, b) if keep else None
    return None


def splice(track, x, y, middle, keep=False):
    """`middle` in place of the places [x, y). Dissolves beside them are kept as far as there is room for them, or not."""
    cells = list(track.cells)
    for p, cell in enumerate(track.cells):
        if cell.mark:
            cells[p] = replace(cell, mark=mark_beside(cell.mark, p, x, y, keep))
    left, right = cells[:x], cells[y:]
    if left and right and left[-1].item is not None and left[-1].item == right[0].item:
        later = track.next_item
        track.next_item += 1
        right = [replace(cell, item=later) if cell.item == left[-1].item else cell for cell in right]
    track.cells = left + list(middle) + right


def refuse_links(named, x, y):
    """A moved cell's link has a track that is not named: the least link, and its least such track."""
    links = {cell.link for track in named.values() for cell in track.cells[y:] if cell.link}
    for home, number, tracks in sorted(links):
        for t in tracks:
            if t not in named:
                raise Refused(f"E11 {home}.{number} {t}")


def split_links(named, x, y):
    """The moved cells of each link that also has a cell before x take a new link."""
    before = {cell.link for track in named.values() for cell in track.cells[:x] if cell.link}
    moved = {cell.link for track in named.values() for cell in track.cells[y:] if cell.link}
    for link in sorted(before & moved):
        home = named[link[0]]
        new = (link[0], home.next_link, link[2])
        home.next_link += 1
        for track in named.values():
            track.cells[y:] = [replace(cell, link=new) if cell.link == link else cell for cell in track.cells[y:]]


def shift(named, own, x, y, middle, keep=False):
    """`middle` in place of [x, y) of the own track, and as much dark on the others; what is behind moves."""
    moves = len(middle) != y - x
    if moves:
        refuse_links(named, x, y)
        split_links(named, x, y)
    for t, track in named.items():
        length = len(track.cells)
        if t == own:
            if moves and middle and middle[0].link and y < length and track.cells[y].item == middle[0].item:
                middle = [replace(cell, link=track.cells[y].link) for cell in middle]
            splice(track, x, y, middle, keep)
        else:
            splice(track, min(x, length), min(y, length), [DARK] * len(middle) if x < length else [], keep)


# ------------------------------------------------------------------------------------------------------- the frames shown


def later(side, count):
    return side if side is None else (side[0], side[1] + count)


def side_of(cell):
    return None if cell.item is None else (cell.shows, cell.source)


def frames_shown(cells):
    """For each place ("pic", side) or ("mix", left, right, num, den)."""
    frames = [("pic", side_of(cell)) for cell in cells]
    for p, cell in enumerate(cells):
        if cell.mark:
            a, b = cell.mark
            for q in range(p - a, p + b):
                left = later(side_of(cells[p - 1]), q - (p - 1))
                right = later(side_of(cell), q - p)
                frames[q] = ("mix", left, right, q - (p - a) + 1, a + b + 1)
    return frames


def goes_on(one, two):
    if one[0] != two[0]:
        return False
    if one[0] == "pic":
        return two[1] == later(one[1], 1)
    return two[1:3] == (later(one[1], 1), later(one[2], 1)) and one[4] == two[4] and two[3] == one[3] + 1


def runs(frames):
    found = []
    for at, frame in enumerate(frames):
        if at and goes_on(frames[at - 1], frame):
            found[-1][1] += 1
        else:
            found.append([frame, 1])
    return found


def side_text(side):
    return "dark" if side is None else f"{side[0][0]}{side[0][1]} {side[1]}"


def run_text(frame, count):
    if frame[0] == "pic":
        return f"{side_text(frame[1])} {count}"
    return f"mix {side_text(frame[1])} {side_text(frame[2])} {frame[3]} {frame[4]} {count}"


def items_text(cells):
    words = []
    for x, y in pieces(cells):
        cell = cells[x]
        if cell.mark:
            words.append(f"mark {cell.mark[0]} {cell.mark[1]}")
        if cell.item is None:
            words.append(f"dark {y - x}")
        else:
            words.append(f"{cell.item} {side_text(side_of(cell))} {y - x}")
            if cell.link:
                words.append(f"link {cell.link[0]}.{cell.link[1]}")
    return words


# ---------------------------------------------------------------------------------------------------------------- the room


class Room:
    """Tracks with their kinds, media and nests with their ranges of source frames, and a journal."""

    def __init__(self, kinds, media, nests=(), fps=24, drop=False, start=0):
        self.kinds, self.media, self.nests = list(kinds), list(media), list(nests)
        self.fps, self.drop, self.start = fps, drop, start
        self.open([Track() for _ in kinds])
        self.line = 0

    def open(self, tracks):
        """The room as it begins, with these tracks and an empty journal; nothing can be taken back."""
        self.tracks, self.former = list(tracks), [None] * len(tracks)
        self.points = [list(self.tracks)]
        self.journal = []

    @classmethod
    def plain(cls, tracks, reels):
        return cls(["video"] * tracks, [(0, 86_400)] * reels)

    def bounds(self, what):
        table = self.media if what[0] == "@" else [(0, length) for length in self.nests]
        return table[what[1]] if what[1] < len(table) else None

    # ------------------------------------------------------------------------------------------------- one edit on its tracks

    def named(self, tracks, own):
        for t in tracks:
            if t >= len(self.tracks):
                raise Refused(f"E1 {t}")
        if own not in tracks:
            raise Refused(f"E1 {own}")
        return {t: Track(list(self.tracks[t].cells), self.tracks[t].next_item, self.tracks[t].next_link) for t in tracks}

    def refuse_source(self, what, track, start, count):
        bounds = self.bounds(what)
        if bounds is None or what[0] == "#" and self.kinds[track] == "audio":
            raise Refused("E3")
        if count == 0:
            raise Refused("E4")
        self.refuse_range(what, start, count)

    def refuse_range(self, what, start, count):
        least, most = self.bounds(what)
        if not (least <= start and start + count <= most):
            raise Refused("E5")

    def source_room(self, cell, before=0, after=0):
        """How many source frames the thing has before this cell's and after it; without end for dark."""
        if cell.item is None:
            return 10**9, 10**9
        least, most = self.bounds(cell.shows)
        return cell.source - before - least, most - cell.source - 1 - after

    def apply(self, call, by=0):
        """The new named tracks and the words of the answer to a call of a station."""
        if call[0] == "back":
            return self.taken_back(call[1], by), ""
        named, words = getattr(self, "do_" + call[0])(*call[1:])
        for t in sorted(named):
            if len(named[t].cells) > MOST_FRAMES:
                raise Refused(f"E13 {t}")
        for t in sorted(named):
            if len(named[t].cells) > 1000 and len(pieces(named[t].cells)) > MOST_ITEMS:
                raise Refused(f"E14 {t}")
        return named, words

    def taken_back(self, tracks, by):
        """These tracks as they were before the last edit of each, which has to be this station's and of these tracks."""
        for t in tracks:
            if t >= len(self.tracks):
                raise Refused(f"E1 {t}")
        for t in tracks:
            if not self.former[t] or self.former[t].by != by:
                raise Refused(f"E16 {t}")
        for t in tracks:
            if self.former[t].names != frozenset(tracks):
                raise Refused(f"E17 {t}")
        return {t: self.former[t].track for t in tracks}

    def can_be_taken_back(self, by=0):
        """The sets of tracks whose last edit was one of all of them and of this station."""
        sets = {former.names for former in self.former if former and former.by == by}
        return [tracks for tracks in sorted(map(sorted, sets)) if all(self.former[t] and self.former[t].names == frozenset(tracks) for t in tracks)]

    def state(self):
        return list(self.tracks), list(self.former)

    def go_to(self, state):
        self.tracks, self.former = map(list, state)

    def put(self, call, named, by=0):
        """The room goes on with these tracks, which the call has left."""
        for t, track in named.items():
            self.former[t] = None if call[0] == "back" else Former(self.tracks[t], frozenset(named), by)
            self.tracks[t] = track

    def enter(self, station, number, call, named):
        """A call that has left these tracks is the next entry of the journal."""
        self.put(call, named, station)
        self.journal.append((station, number, call))
        self.points.append(list(self.tracks))

    def do_overwrite(self, t, at, what, start, count, keep):
        named = self.named([t], t)
        self.refuse_source(what, t, start, count)
        track = named[t]
        self.refuse_long({t: max(len(track.cells), at + count)})
        self.pad(track, at)
        item = self.new_number(track)
        splice(track, at, min(at + count, len(track.cells)), new_item(item, what, start, count), keep)
        return named, f" item {item}"

    def do_insert(self, tracks, t, at, what, start, count, keep):
        named = self.named(tracks, t)
        self.refuse_source(what, t, start, count)
        refuse_links(named, at, at)
        self.refuse_long({u: (max(len(v.cells), at) if u == t else len(v.cells)) + (count if u == t or at < len(v.cells) else 0) for u, v in named.items()})
        self.pad(named[t], at)
        item = self.new_number(named[t])
        shift(named, t, at, at, new_item(item, what, start, count), keep)
        return named, f" item {item}"

    def refuse_long(self, lengths):
        for t in sorted(lengths):
            if lengths[t] > MOST_FRAMES:
                raise Refused(f"E13 {t}")

    def pad(self, track, at):
        track.cells += [DARK] * (at - len(track.cells))

    def new_number(self, track):
        track.next_item += 1
        return track.next_item - 1

    def own_item(self, track, item):
        found = item_range(track.cells, item)
        if not found:
            raise Refused("E2")
        return found

    def do_remove(self, t, item, keep):
        named = self.named([t], t)
        x, y = self.own_item(named[t], item)
        splice(named[t], x, y, [DARK] * (y - x), keep)
        return named, ""

    def do_extract(self, tracks, t, item, keep):
        named = self.named(tracks, t)
        x, y = self.own_item(named[t], item)
        shift(named, t, x, y, [], keep)
        return named, ""

    def do_slice(self, t, at, keep):
        named = self.named([t], t)
        if at >= len(named[t].cells):
            raise Refused("E2")
        splice(named[t], at, at, [], keep)
        return named, ""

    def do_fill(self, t, at, what, start, count, keep):
        named = self.named([t], t)
        cells = named[t].cells
        gap = piece_at(cells, at) if at < len(cells) and cells[at].item is None else None
        bounds = self.bounds(what)
        if bounds is None or what[0] == "#" and self.kinds[t] == "audio":
            raise Refused("E3")
        if count == 0:
            raise Refused("E4")
        if count is None and gap:
            self.refuse_range(what, start, gap[1] - gap[0])
        if count is not None:
            self.refuse_range(what, start, count)
        if not gap:
            raise Refused(f"E6 {at}")
        g, h = gap
        k = h - g if count is None else min(count, h - g)
        item = self.new_number(named[t])
        splice(named[t], g, g + k, new_item(item, what, start, k), keep)
        return named, f" item {item}"

    def do_trim(self, t, item, end, by):
        named = self.named([t], t)
        track = named[t]
        cells = track.cells
        x, y = self.own_item(track, item)
        if end == "head":
            dark = 0
            while x - dark > 0 and cells[x - dark - 1].item is None:
                dark += 1
            d = max(min(by, y - x - 1), -min(dark, self.source_room(cells[x])[0]))
            if d > 0:
                splice(track, x, x + d, [DARK] * d)
            elif d < 0:
                splice(track, x + d, x, reaching_back(cells[x], -d))
        else:
            dark = 0
            while y + dark < len(cells) and cells[y + dark].item is None:
                dark += 1
            if y + dark == len(cells):
                dark = MOST_FRAMES - y
            d = min(max(by, -(y - x - 1)), min(dark, self.source_room(cells[y - 1])[1]))
            if d < 0:
                splice(track, y + d, y, [DARK] * -d)
            elif d > 0:
                splice(track, y, min(y + d, len(cells)), going_on(cells[y - 1], d))
        return named, f" by {d}"

    def do_slip(self, tracks, t, item, by):
        named = self.named(tracks, t)
        x, y = self.own_item(named[t], item)
        link = named[t].cells[x].link
        self.refuse_outside(link, named)
        moving = [(t, x, y)]
        if link:
            moving = [(u, v, w) for u, track in named.items() for v, w in pieces(track.cells) if track.cells[v].link == link]
        d = by
        for u, v, w in moving:
            cells = named[u].cells
            a = cells[v].mark[0] if cells[v].mark else 0
            b = cells[w].mark[1] if w < len(cells) and cells[w].mark else 0
            d = max(min(d, self.source_room(cells[w - 1], after=b)[1]), -self.source_room(cells[v], before=a)[0])
        for u, v, w in moving:
            cells = named[u].cells
            cells[v:w] = [replace(cell, source=cell.source + d) for cell in cells[v:w]]
        return named, f" by {d}"

    def refuse_outside(self, link, named):
        if link:
            for u in link[2]:
                if u not in named:
                    raise Refused(f"E11 {link[0]}.{link[1]} {u}")

    def do_ripple(self, tracks, t, item, end, by):
        named = self.named(tracks, t)
        cells = named[t].cells
        x, y = self.own_item(named[t], item)
        place = y if end == "tail" else x
        growth = min([MOST_FRAMES - len(v.cells) for u, v in named.items() if u == t or place < len(v.cells)])
        least = -(y - x - 1)
        if end == "tail":
            d = min(max(by, least), min(growth, self.source_room(cells[y - 1])[1]))
            if d > 0:
                shift(named, t, y, y, going_on(cells[y - 1], d))
            elif d < 0:
                shift(named, t, y + d, y, [])
        else:
            d = max(min(by, -least), -min(growth, self.source_room(cells[x])[0]))
            if d > 0:
                shift(named, t, x, x + d, [])
            elif d < 0:
                shift(named, t, x, x, reaching_back(cells[x], -d))
        return named, f" by {d}"

    def do_roll(self, t, at, by):
        named = self.named([t], t)
        cells = named[t].cells
        if not is_cut(cells, at):
            raise Refused(f"E7 {at}")
        left, right = piece_at(cells, at - 1), piece_at(cells, at)
        most = min(right[1] - right[0] - 1, self.source_room(cells[at - 1])[1])
        least = min(left[1] - left[0] - 1, self.source_room(cells[at])[0])
        d = max(min(by, most), -least)
        if d > 0:
            splice(named[t], at, at + d, going_on(cells[at - 1], d))
        elif d < 0:
            splice(named[t], at + d, at, reaching_back(cells[at], -d))
        return named, f" by {d}"

    def do_slide(self, tracks, t, item, by):
        named = self.named(tracks, t)
        cells = named[t].cells
        x, y = self.own_item(named[t], item)
        link = cells[x].link
        self.refuse_outside(link, named)
        d = 0
        if x > 0 and y < len(cells):
            left, right = piece_at(cells, x - 1), piece_at(cells, y)
            most = min(right[1] - right[0] - 1, self.source_room(cells[x - 1])[1])
            least = min(left[1] - left[0] - 1, self.source_room(cells[y])[0])
            d = max(min(by, most), -least)
        if d and link:
            others = [c for u, v in named.items() for c in v.cells if c.link == link and not (u == t and c.item == item)]
            if others:
                offset = x - cells[x].source
                raise Refused(f"E12 {link[0]}.{link[1]} {offset} {offset + d}")
        bare = [replace(cell, mark=None) for cell in cells[x:y]]
        if d > 0:
            splice(named[t], x, y + d, going_on(cells[x - 1], d) + bare)
        elif d < 0:
            splice(named[t], x + d, y, bare + reaching_back(cells[y], -d))
        return named, f" by {d}"

    def do_dissolve(self, t, at, a, b):
        named = self.named([t], t)
        cells = named[t].cells
        if a + b == 0:
            raise Refused("E4")
        if not is_cut(cells, at):
            raise Refused(f"E7 {at}")
        left, right = piece_at(cells, at - 1), piece_at(cells, at)
        head = cells[left[0]].mark
        tail = cells[right[1]].mark if right[1] < len(cells) else None
        one, two = cells[at - 1], cells[at]
        if one.shows and one.shows[0] == "#" or at - a < left[0] + (head[1] if head else 0) or b > self.source_room(one)[1]:
            raise Refused("E8 left")
        if two.shows and two.shows[0] == "#" or at + b > right[1] - (tail[0] if tail else 0) or a > self.source_room(two)[0]:
            raise Refused("E8 right")
        cells[at] = replace(two, mark=(a, b))
        return named, ""

    def do_undissolve(self, t, at):
        named = self.named([t], t)
        cells = named[t].cells
        if not (at < len(cells) and cells[at].mark):
            raise Refused(f"E7 {at}")
        cells[at] = replace(cells[at], mark=None)
        return named, ""

    def do_link(self, tracks, items):
        named = self.named(tracks, tracks[0])
        ranges = [self.own_item(named[t], item) for t, item in zip(tracks, items)]
        firsts = [named[t].cells[x] for t, (x, _) in zip(tracks, ranges)]
        offsets = [x - cell.source for cell, (x, _) in zip(firsts, ranges)]
        for offset in offsets:
            if offset != offsets[0]:
                raise Refused(f"E9 {offsets[0]} {offset}")
        for t, item, cell in zip(tracks, items, firsts):
            if cell.link:
                raise Refused(f"E10 {t} {item}")
        home = named[tracks[0]]
        link = (tracks[0], home.next_link, tuple(tracks))
        home.next_link += 1
        for t, (x, y) in zip(tracks, ranges):
            named[t].cells[x:y] = [replace(cell, link=link) for cell in named[t].cells[x:y]]
        return named, f" link {link[0]}.{link[1]}"

    def do_unlink(self, t, item):
        named = self.named([t], t)
        x, y = self.own_item(named[t], item)
        named[t].cells[x:y] = [replace(cell, link=None) for cell in named[t].cells[x:y]]
        return named, ""

    # -------------------------------------------------------------------------------------------------------------- questions

    def asked(self, t):
        if t >= len(self.tracks):
            raise Refused(f"V1 {t}")
        return self.tracks[t].cells

    def ask_view(self, t, a, b):
        cells = self.asked(t)
        if a > b or b > len(cells):
            raise Refused(f"V2 {len(cells)}")
        return "seen", [run_text(*run) for run in runs(frames_shown(cells)[a:b])]

    def ask_items(self, t):
        return "items", items_text(self.asked(t))

    # ------------------------------------------------------------------------------------------------------------ whole lines

    def answer(self, line, last=False, station=0):
        """The reply to a line, handed in without its line feed; `last` where it had none."""
        self.line += 1
        point = len(self.journal)
        try:
            if len(line) > MOST_LINE:
                raise Bad("B5")
            call = self.read(line if last or not line.endswith(b"\r") else line[:-1])
            if call[0] == "point":
                return f"point {point}"
            if call[0] == "otio":
                return self.document(call[1], point)
            if call[0] == "news":
                return self.news(call[1], point)
            if call[0] in ("view", "items"):
                word, words = getattr(self, "ask_" + call[0])(*call[1:])
                return " ".join([word, str(point), *words])
            named, words = self.apply(call, station)
            if point == MOST_ENTRIES:
                return f"no {point} E15"
            self.enter(station, self.line, call, named)
            return f"ok {point}{words}"
        except Bad as bad:
            return f"bad {bad}"
        except Refused as refused:
            return f"no {point} {refused}"

    def document(self, n, point):
        if n > point:
            raise Refused("V3")
        written = documents.write(self, self.points[n])
        if len(written.encode()) > documents.MOST_BYTES:
            return f"no {n} V4"
        return f"otio {n} {written}"

    def news(self, n, point):
        """The entry at a point, where it is there by now."""
        if n > point:
            raise Refused("V3")
        return f"news {n} {point}" + (f" {entry_text(*self.journal[n])}" if n < point else "")

    def journal_text(self):
        lines = [f"journal {len(self.journal)}", *(entry_text(*entry) for entry in self.journal)]
        return "".join(text + "\n" for text in lines)

    def read(self, line):
        words = [word for word in line.replace(b"\t", b" ").split(b" ") if word]
        if not words:
            raise Bad("B2")
        rows = ROWS.get(words[0])
        if not rows:
            raise Bad("B1")
        rows = [row for row in rows if len(row) == len(words) - 1]
        if not rows:
            raise Bad("B2")
        row = rows[0]
        if words[0] == b"fill":  # `sequence keep` and `source LEN` are of one length
            row = next((one for one in rows if one[4] == (words[5].decode("latin-1"),)), row)
        read = []
        for kind, word in zip(row, words[1:]):
            read.append(self.word(kind, word))
        if words[0] == b"link" and len(read[0]) != len(read[1]):
            raise Bad("B2")
        if words[0] in KEEPING:
            keep = row[-1] == KEEP
            read = (read[:-1] if keep else read) + [keep]
        if words[0] == b"fill":
            read = read[:4] + [read[5] if read[4] == "source" else None, read[-1]]
        return (words[0].decode(), *read)

    def word(self, kind, word):
        if isinstance(kind, tuple):
            if word.decode("latin-1") not in kind:
                raise Bad("B1")
            return word.decode()
        return getattr(self, "word_" + kind)(word)

    def word_number(self, word, most=4_294_967_295):
        if not word.isdigit():
            raise Bad("B3")
        if int(word) > most:
            raise Bad("B4")
        return int(word)

    def word_track(self, word):
        return self.word_number(word, 31)

    def word_tracks(self, word):
        tracks = []
        for part in word.split(b","):
            track = self.word_track(part)
            if tracks and track <= tracks[-1]:
                raise Bad("B6")
            tracks.append(track)
        return tracks

    def word_numbers(self, word):
        return [self.word_number(part) for part in word.split(b",")]

    def word_delta(self, word):
        digits = word[1:] if word.startswith(b"-") else word
        if not digits.isdigit():
            raise Bad("B3")
        value = -int(digits) if word.startswith(b"-") else int(word)
        if not -(2**31) <= value < 2**31:
            raise Bad("B4")
        return value

    def word_what(self, word):
        if word[:1] not in (b"@", b"#"):
            raise Bad("B3")
        return word[:1].decode(), self.word_number(word[1:])

    def word_place(self, word):
        if word.isdigit():
            return self.word_number(word)
        place = self.place_of(word)
        if place is None:
            raise Bad("B3")
        return place

    def place_of(self, word):
        parts = [word[at : at + 2] for at in (0, 3, 6, 9)]
        if len(word) != 11 or not all(part.isdigit() for part in parts):
            return None
        if word[2:3] != b":" or word[5:6] != b":" or word[8:9] not in (b":", b";"):
            return None
        h, m, s, f = (int(part) for part in parts)
        if h > 23 or m > 59 or s > 59 or f >= self.fps:
            return None
        frame = ((h * 60 + m) * 60 + s) * self.fps + f
        if self.drop:
            if s == 0 and f < 2 and m % 10:
                return None
            minutes = h * 60 + m
            frame -= 2 * (minutes - minutes // 10)
        return frame - self.start if frame >= self.start else None


KEEP = ("keep",)  # the last word of an edit that keeps dissolves beside it as far as there is room for them


def keeping(*rows):
    """These rows, and each with that word behind it."""
    return [*rows, *((*row, KEEP) for row in rows)]


ROWS = {
    b"overwrite": keeping(("track", "place", "what", "number", "number")),
    b"insert": keeping(("tracks", "track", "place", "what", "number", "number")),
    b"remove": keeping(("track", "number")),
    b"extract": keeping(("tracks", "track", "number")),
    b"slice": keeping(("track", "place")),
    b"fill": keeping(("track", "place", "what", "number", ("sequence",)), ("track", "place", "what", "number", ("source",), "number")),
    b"trim": [("track", "number", ("head", "tail"), "delta")],
    b"slip": [("tracks", "track", "number", "delta")],
    b"ripple": [("tracks", "track", "number", ("head", "tail"), "delta")],
    b"roll": [("track", "place", "delta")],
    b"slide": [("tracks", "track", "number", "delta")],
    b"dissolve": [("track", "place", "number", "number")],
    b"undissolve": [("track", "place")],
    b"link": [("tracks", "numbers")],
    b"unlink": [("track", "number")],
    b"back": [("tracks",)],
    b"view": [("track", "place", "place")],
    b"items": [("track",)],
    b"point": [()],
    b"otio": [("number",)],
    b"news": [("number",)],
}

QUESTIONS = {"view", "items", "point", "otio", "news"}


KEEPING = {word for word, rows in ROWS.items() if rows[-1][-1:] == (KEEP,)}


def call_text(call):
    def text(word):
        if isinstance(word, tuple):
            return f"{word[0]}{word[1]}"
        return ",".join(map(str, word)) if isinstance(word, list) else str(word)

    words = list(call)
    if call[0].encode() in KEEPING:
        words = words[:-1] + ["keep"] * call[-1]
    if call[0] == "fill":
        words[5:6] = ["sequence"] if call[5] is None else ["source", call[5]]
    return " ".join(text(word) for word in words)


def entry_text(station, number, call):
    return f"{station} {number} {call_text(call)}"


import documents  # noqa: E402  (documents stand on the room, and the room writes them)
