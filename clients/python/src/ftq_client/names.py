"""Names of documents, lists and marks, as the lines of commands have them."""

from __future__ import annotations

import re
from pathlib import PurePath

LATEST_FORMAT = 2
"""The latest format of sessions that the program reads, in which sessions are written where nothing else is said."""

OPENINGS = {1: b"", 2: b"session 2\n"}
"""The line that begins a session of each format, without a reply."""

MOST_CHARACTERS = 64
"""How many characters a name may have."""

_BARE = re.compile(r"[A-Za-z0-9._-]+")
_WORD = re.compile(r'"((?:[^"]|"")*)"(?=[ \t]|\Z)|([^ \t]+)')


def is_bare(name: str) -> bool:
    """Whether a name is one of those that stand in a command as they are, in each format."""
    return bool(_BARE.fullmatch(name)) and len(name) <= MOST_CHARACTERS


def name_word(name: str, session_format: int = LATEST_FORMAT) -> str:
    """A name as a command of a session has it: in format 2 between quotes, with its own doubled, where it can't stand as it is."""
    return name if session_format == 1 or is_bare(name) else '"' + name.replace('"', '""') + '"'


def command_words(line: str, session_format: int = LATEST_FORMAT) -> list[str]:
    """The words of a command's line; in format 2 a name between quotes is one word, without them."""
    text = line.removeprefix("\ufeff").removesuffix("\r")
    if session_format == 1:
        return [it for it in re.split(r"[ \t]+", text) if it]
    return [it[2] or it[1].replace('""', '"') for it in _WORD.finditer(text)]


class Names:
    """Names for the documents of files, each another one."""

    def __init__(self, session_format: int = 1) -> None:
        """As sessions of that format have them."""
        self._of_path = _bare_name if session_format == 1 else _path_name
        self._taken: set[str] = set()

    def name_for(self, path: PurePath) -> str:
        """A name for the document of a file whose path from the folder that was asked for is this.

        In format 1 the path is without .xml, with a period for each slash and a hyphen for what a bare name may not hold; where it is too long its
        end is kept. In format 2 it is the path itself, with a hyphen for each control character; where it is too long, two periods stand for its
        middle. Where the name is taken it gets a number.
        """
        name, number = self._of_path(path.as_posix(), 1), 1
        while name in self._taken:
            number += 1
            name = self._of_path(path.as_posix(), number)
        self._taken.add(name)
        return name


def _bare_name(path: str, number: int) -> str:
    stem = path[:-4] if path.lower().endswith(".xml") else path
    ending = "" if number == 1 else f"-{number}"
    stem = re.sub(r"[^A-Za-z0-9._-]", "-", stem.replace("/", "."))[-MOST_CHARACTERS:] or "document"
    return stem[: MOST_CHARACTERS - len(ending)] + ending


def _path_name(path: str, number: int) -> str:
    ending = "" if number == 1 else f" ({number})"
    name = re.sub(r"[\x00-\x1f\x7f]", "-", path.encode("utf-8", errors="surrogateescape").decode("utf-8", errors="replace"))
    most = MOST_CHARACTERS - len(ending)
    half = most // 2 - 1
    return (name if len(name) <= most else f"{name[: most - half - 2]}..{name[-half:]}") + ending
