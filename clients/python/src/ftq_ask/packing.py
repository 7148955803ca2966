"""Packs XML files into a session for ftq, on standard output.

Each file becomes a `load` command after a comment with its path; a folder gives all its files that begin as XML documents do, in the
order of their paths. Files are read as `ask` reads them: document types, CDATA sections, entities and encodings are no hindrance. What can't
be taken is named on standard error with its line and the reason; the rest goes on, and the status is then 1.
"""

from __future__ import annotations

import argparse
import sys
from pathlib import Path
from typing import BinaryIO

from ftq_client import LATEST_FORMAT, Names, command_bytes, name_word
from ftq_client.names import OPENINGS

from .calls import add_arguments
from .choosing import Choice, rules_of
from .reading import MOST_BYTES, Reading, read_file
from .trees import Untaken

MOST_DOCUMENTS = 4_096


class Packing:
    """A session that is being written."""

    def __init__(self, out: BinaryIO, session_format: int) -> None:
        """Begins a session of that format."""
        self.out = out
        self.session_format = session_format
        self.documents = 0
        self.bytes = 0
        self.write(OPENINGS[session_format])

    def document(self, name: str, reading: Reading) -> None:
        """Writes a document after a comment with its file."""
        comment = f"# {reading.path}".replace("\n", " ").encode("utf-8", errors="replace") + b"\n"
        self.write(comment + self.command(f"load {name_word(name, self.session_format)}", reading.content))
        self.documents += 1

    def command(self, line: str, block: bytes | None = None) -> bytes:
        """A command as this session has it."""
        return command_bytes(line, block, self.session_format)

    def write(self, part: bytes) -> None:
        """Writes a part of the session, and counts its bytes."""
        self.out.write(part)
        self.bytes += len(part)

    def faults(self) -> list[str]:
        """What is too much for one session."""
        found = []
        if self.documents > MOST_DOCUMENTS:
            found.append(f"a session holds {MOST_DOCUMENTS:,} documents at once, and these are {self.documents:,}")
        if self.bytes > MOST_BYTES:
            found.append(f"a session has at most {MOST_BYTES:,} bytes, and this one has {self.bytes:,}")
        return found


def main(arguments: list[str]) -> int:
    """The tool: 0, or 1 where something was left out or is too much."""
    parser = argparse.ArgumentParser(prog="pack", description=__doc__, formatter_class=argparse.RawDescriptionHelpFormatter)
    parser.add_argument("paths", nargs="+", type=Path, metavar="FILE|FOLDER")
    parser.add_argument(
        "--session-format", type=int, choices=sorted(OPENINGS), default=LATEST_FORMAT, metavar="1|2", help=f"writes a session of this format, {LATEST_FORMAT} otherwise"
    )
    parser.add_argument("--query", action="append", default=[], metavar="PATH", help="adds a query after the documents; may be given again")
    add_arguments(parser)
    options = parser.parse_args(arguments)
    choice, names, status = Choice(options.glob), Names(options.session_format), 0
    packing = Packing(sys.stdout.buffer, options.session_format)
    for shown, path in choice.files_of(options.paths):
        try:
            if isinstance(path, Untaken):
                raise path
            packing.document(names.name_for(shown), read_file(path, rules_of(options)))
        except Untaken as untaken:
            print(f"pack: {untaken}", file=sys.stderr)
            status = 1
    for query in options.query:
        packing.write(packing.command(f"query {query}"))
    packing.out.flush()
    for line in choice.lines(options.verbose):
        print(f"pack: {line}", file=sys.stderr)
    for fault in packing.faults():
        print(f"pack: {fault}", file=sys.stderr)
        status = 1
    return status
