"""The picture of a cut: an SVG timeline of its tracks, as examples/station.py draws it."""

from html import escape

WIDTH, ROW, GAP, LEFT, TOP = 1200, 46, 14, 60, 56
MARKS, MARKS_OF_LABELS = 24, 13  # on the ruler at most, as numbers of frames and as timecode
COLOURS = ["#8ecae6", "#ffb703", "#a7c957", "#e5989b", "#b8a1e3", "#f4a261", "#90be6d", "#cdb4db"]
SIZE = 11  # of the text in an item


def label_at(frame, numbers, drop):
    """The timecode of a frame of the day, with so many numbers a second; drop-frame leaves out two each minute but the tenth."""
    if drop:
        tens, rest = divmod(frame, 17_982)
        frame += 18 * tens + 2 * max(0, (rest - 2) // 1_798)
    seconds, number = divmod(frame, numbers)
    mark = ";" if drop else ":"
    return f"{seconds // 3600 % 24:02}:{seconds // 60 % 60:02}:{seconds % 60:02}{mark}{number:02}"


def steps(numbers):
    """How many frames may stand between two marks of the ruler: some frames, and then seconds, minutes and hours."""
    seconds = (1, 2, 5, 10, 30, 60, 120, 300, 600, 1_800, 3_600, 7_200, 18_000, 43_200)
    return [1, 2, 5, 10, *(numbers * count for count in seconds)]


def width_of(text):
    """At most how wide a text is: a sans-serif capital takes more than a digit."""
    return sum(0.78 if one.isupper() or one in "@%&" or ord(one) > 0x2000 else 0.6 for one in text) * SIZE


def fitting(text, room):
    """As many words of a text as have room: whole words alone, since a part of a number would be another number."""
    while text and width_of(text) > room:
        text = text.rpartition(" ")[0].rstrip()
    return text


class Picture:
    """An SVG timeline of tracks. With a document's table video tracks are above the sound, the last on top, as they are seen."""

    def __init__(self, tracks, point, table=None, drop=False):
        self.tracks, self.table, self.drop = tracks, table, drop
        self.names = table.names() if table else {}
        self.called = called(table.kinds if table else [], len(tracks))
        self.rows = rows_of(self.called)
        self.length = max([p.start + p.length for pieces in tracks for p in pieces], default=0) or 1
        self.parts = []
        self.draw(point)

    def x(self, frame):
        return LEFT + frame * (WIDTH - LEFT - 20) / self.length

    def y(self, track):
        return TOP + self.rows.index(track) * (ROW + GAP)

    def put(self, text):
        self.parts.append(text)

    def rect(self, piece, track, fill, extra=""):
        x, width = self.x(piece.start), self.x(piece.length) - self.x(0)
        self.put(f'<rect x="{x:.2f}" y="{self.y(track)}" width="{width:.2f}" height="{ROW}" fill="{fill}" {extra}/>')

    def label(self, x, y, text, size=SIZE, extra=""):
        text = "".join(one if one.isprintable() else "?" for one in text)
        self.put(f'<text x="{x:.2f}" y="{y}" font-size="{size}" {extra}>{escape(text)}</text>')

    def draw(self, point):
        self.label(LEFT, 18, f"point {point}", 13, 'font-weight="bold"')
        self.ruler()
        for track, pieces in enumerate(self.tracks):
            self.head(track)
            for piece in pieces:
                self.piece(piece, track)
            for piece in pieces:
                if piece.mark:
                    self.dissolve(piece, track)
        self.links()

    def head(self, track):
        """What a track is called, and its number, by which lines name it."""
        kind = self.called[track]
        self.label(8, self.y(track) + ROW / 2 + (0 if kind else 4), kind or f"{track}", 14, 'font-weight="bold"')
        if kind:
            self.label(8, self.y(track) + ROW / 2 + 15, f"track {track}", 10, 'fill="#777"')

    def ruler(self):
        bottom = TOP + len(self.tracks) * (ROW + GAP)
        numbers = round(self.table.rate) if self.table else 24
        most = MARKS_OF_LABELS if self.table else MARKS
        step = next((step for step in steps(numbers) if self.length / step <= most), self.length)
        for frame in range(0, self.length + 1, step):
            x = self.x(frame)
            text = label_at(self.table.start + frame, numbers, self.drop) if self.table else str(frame)
            self.put(f'<line x1="{x:.2f}" y1="{TOP - 12}" x2="{x:.2f}" y2="{bottom}" stroke="#ddd"/>')
            if x + width_of(text) < WIDTH:
                self.label(x + 2, TOP - 16, text, 10, 'fill="#777"')

    def piece(self, piece, track):
        lines = self.said(piece)
        title = f"frames [{piece.start}, {piece.start + piece.length}), {piece.length} long"
        self.put(f"<g><title>{escape('; '.join([title, *lines]))}</title>")
        if piece.item is None:
            self.rect(piece, track, "#f4f4f4", 'stroke="#bbb" stroke-dasharray="3 3"')
        else:
            colour = COLOURS[int(piece.shows[1:]) % len(COLOURS)]
            self.rect(piece, track, colour, 'stroke="#333"' + (' stroke-width="2.5"' if piece.shows[0] == "#" else ""))
            for below, text in zip((16, 30, 42), lines):
                self.clipped(piece, track, text, below)
        self.put("</g>")

    def said(self, piece):
        """The lines of text in an item: its reel or nest, its number with its source frames, its link."""
        if piece.item is None:
            return []
        name = self.names.get(piece.shows)
        source = f"item {piece.item}  {piece.shows} {piece.source}+{piece.length}"
        return [*([name] if name else []), source, *([f"link {piece.link}"] if piece.link else [])]

    def clipped(self, piece, track, text, below):
        """A text in a piece, after the dissolve at its head, as far as there is room."""
        start = piece.start + (piece.mark[1] if piece.mark else 0)
        text = fitting(text, self.x(piece.start + piece.length) - self.x(start) - 6)
        if text:
            self.label(self.x(start) + 4, self.y(track) + below, text)

    def dissolve(self, piece, track):
        a, b = piece.mark
        left, right = self.x(piece.start - a), self.x(piece.start + b)
        top, bottom = self.y(track), self.y(track) + ROW
        self.put(f"<g><title>dissolve {a} {b} at {piece.start}</title>")
        self.put(
            f'<rect x="{left:.2f}" y="{top}" width="{right - left:.2f}" height="{ROW}" fill="#fff" fill-opacity="0.55" '
            'stroke="#000"/>'
        )
        self.put(f'<path d="M{left:.2f} {bottom} L{right:.2f} {top} M{left:.2f} {top} L{right:.2f} {bottom}" stroke="#000"/>')
        self.put("</g>")

    def links(self):
        """Each link as a line through the middles of its items."""
        found = {}
        for track, pieces in enumerate(self.tracks):
            for piece in pieces:
                if piece.link:
                    middle = self.x(piece.start + piece.length / 2), self.y(track) + ROW / 2
                    found.setdefault(piece.link, []).append(middle)
        for link, middles in found.items():
            points = " ".join(f"{x:.2f},{y}" for x, y in middles)
            self.put(f'<g><title>link {link}</title><polyline points="{points}" fill="none" stroke="#c1121f" stroke-width="2"/>')
            for x, y in middles:
                self.put(f'<circle cx="{x:.2f}" cy="{y}" r="4" fill="#c1121f"/>')
            self.put("</g>")

    def text(self):
        height = TOP + len(self.tracks) * (ROW + GAP) + 10
        return (
            f'<svg xmlns="http://www.w3.org/2000/svg" width="{WIDTH}" height="{height}" font-family="sans-serif">\n'
            '<rect width="100%" height="100%" fill="#fff"/>\n' + "\n".join(self.parts) + "\n</svg>\n"
        )


def called(kinds, count):
    """V1, V2, A1 and so on for tracks of these kinds; nothing for tracks whose kind nobody has told."""
    letters = {"Video": "V", "Audio": "A"}
    known = [letters.get(kind, "") for kind in kinds[:count]] + [""] * (count - len(kinds))
    return [letter and f"{letter}{known[: track + 1].count(letter)}" for track, letter in enumerate(known)]


def rows_of(called):
    """The tracks from the top row down: those of picture with the last on top, then those of sound with the first on top."""
    sound = [track for track, name in enumerate(called) if name.startswith("A")]
    return [track for track in reversed(range(len(called))) if track not in sound] + sound
