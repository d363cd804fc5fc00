#!/usr/bin/env python3
"""A crew with random keys: a line NAME KEY for each station of a room, in the order of the names.

usage: examples/crew.py NAME .. > FILE

NAME has 1 to 32 of letters, digits, `.`, `_` and `-`. A key has 32 of them. Give each member of the crew its own line, and
keep FILE for yourself: `umask 077` before the command, or `chmod 600 FILE` after it, since a room takes no file that others
can read. It needs nothing but Python's standard library."""

import re
import secrets
import sys

from shared import Wrong, put, run, shown

KEY_BYTES = 24  # 32 characters, of which there are 64 kinds


def key():
    """A random key: letters, digits, `_` and `-`."""
    return secrets.token_urlsafe(KEY_BYTES)


def check(names):
    """Each is a name, and no two are one."""
    for number, name in enumerate(names):
        if not re.fullmatch(r"[A-Za-z0-9._-]{1,32}", name):
            raise Wrong(f"{shown(name)[:60]} is no name: 1 to 32 of letters, digits, `.`, `_` and `-`")
        if name in names[:number]:
            raise Wrong(f"{name} is named twice")


def main():
    names = sys.argv[1:]
    if names == ["--help"]:
        return print(__doc__)
    if not names or names[0].startswith("--"):
        raise Wrong("usage: examples/crew.py NAME .. > FILE")
    check(names)
    put("".join(f"{name} {key()}\n" for name in names).encode())


if __name__ == "__main__":
    run("crew", main)
