"""The words of a tool that runs the program and takes none but `--program FILE`."""

import argparse
import pathlib
import sys

import serving


def program_of(doc, words=None):
    """The program that the words name, or the built one of this checkout; `--help` prints the tool's own text."""
    ask = argparse.ArgumentParser(usage=doc.replace("%", "%%"))
    ask.add_argument("--program", default=serving.PROGRAM, metavar="FILE")
    program = pathlib.Path(ask.parse_args(words).program).resolve()
    if not program.is_file():
        sys.exit(f"{program} is not there: ./cutroom --version builds it")
    return program
