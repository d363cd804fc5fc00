"""What the tools that serve a room over real connections share: documents laid by hand, and a server."""

import json
import pathlib
import socket
import subprocess

TOP = pathlib.Path(__file__).resolve().parent.parent.parent
PROGRAM = str(TOP / "crates/cutroom/out/cutroom")
REEL_FRAMES = 86_400


def time_of(value):
    return {"OTIO_SCHEMA": "RationalTime.1", "rate": 24, "value": value}


def span(start, count):
    return {"OTIO_SCHEMA": "TimeRange.1", "start_time": time_of(start), "duration": time_of(count)}


def clip(reel, count):
    """The first frames of a reel."""
    reference = {"OTIO_SCHEMA": "ExternalReference.1", "target_url": reel, "available_range": span(0, REEL_FRAMES)}
    return {"OTIO_SCHEMA": "Clip.1", "name": reel, "source_range": span(0, count), "media_reference": reference}


def document(rows):
    """A document of a video track for each list of clips."""
    tracks = [{"OTIO_SCHEMA": "Track.1", "kind": "Video", "children": row} for row in rows]
    return json.dumps({"OTIO_SCHEMA": "Timeline.1", "tracks": {"OTIO_SCHEMA": "Stack.1", "children": tracks}})


LISTENS = "cutroom: listening at "


def port_in(line, host="127.0.0.1"):
    """The port that a line of a server names, if it says where the server listens. That has to be at this host: a client
    of the same machine also reaches a server that listens for every network."""
    if not line.startswith(LISTENS):
        return None
    told, port = line.removeprefix(LISTENS).rsplit(":", 1)
    if told != host:
        raise AssertionError(f"it listens at {told}, and {host} was asked for")
    return int(port)


class Server:
    """The program, serving a document to so many stations. Options are those of its process."""

    command = "serve"

    def __init__(self, program, folder, text, stations, address="127.0.0.1:0", **options):
        self.journal = folder / "journal"
        (folder / "doc.otio").write_text(text)
        begun = program if isinstance(program, list) else [program]
        words = begun + [self.command, folder / "doc.otio", "24", "ndf", str(stations), address, self.journal]
        options = {"stdout": subprocess.PIPE, "stderr": subprocess.PIPE, "text": True} | options
        self.ran = subprocess.Popen(words, **options)
        self.told = []
        self.port = None

    def line(self):
        """The next line of standard error."""
        line = self.ran.stderr.readline()
        self.told.append(line)
        return line

    def listen(self):
        """Waits until it says where it listens, or has ended."""
        while self.port is None and (line := self.line()):
            self.port = port_in(line)
        return self

    def connect(self, timeout=None):
        return socket.create_connection(("127.0.0.1", self.port), timeout=timeout)

    def end(self, timeout=60):
        """Waits for its end, and answers its status, its output and all of standard error."""
        out, err = self.ran.communicate(timeout=timeout)
        self.told.append(err)
        return self.ran.returncode, out, "".join(self.told)


def audited(program, folder, files):
    """What the program's `audit` prints of the room in a folder, and its status. The files are what each station sent and
    got, and whether its session was cut."""
    words = [program, "audit", "doc.otio", "24", "ndf", "journal"]
    for station, (sent, got, cut) in enumerate(files):
        (folder / f"{station}.lines").write_bytes(sent)
        (folder / f"{station}.replies").write_bytes(got)
        words += [f"{station}.lines", f"{station}.replies", *["cut"] * cut]
    ran = subprocess.run(words, cwd=folder, capture_output=True, text=True)
    return ran.stdout, ran.returncode
