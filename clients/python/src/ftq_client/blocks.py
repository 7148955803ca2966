"""Commands as the bytes of a session: a line, and after some lines a block."""

from __future__ import annotations

from typing import Union

from .names import LATEST_FORMAT

_BLOCK_WORDS = frozenset({"load", "insert", "replace", "stop", "stems", "thesaurus"})

BLOCK_WORDS = {1: _BLOCK_WORDS, 2: _BLOCK_WORDS | {"abbreviations"}}
"""The first words of the lines that a block follows, in sessions of each format."""

MOST_LINE_BYTES = 65_536
MOST_BLOCK_BYTES = 67_108_864
"""How many bytes a line may have, and the greatest length of a block in format 2. A line beyond them is refused, and takes no block there."""

Content = Union[bytes, str]
"""What a block holds: bytes as they are, or a text, which is sent as UTF-8."""


def block_bytes(content: bytes) -> bytes:
    """The lines of a block of format 1 that holds `content`, and the line that ends it.

    A line that begins with a period gets one more before it, so that any bytes can stand in a block.
    """
    lines = content.split(b"\n")
    quoted = [b"." + line if line.startswith(b".") else line for line in lines]
    return b"\n".join(quoted) + b"\n.\n"


def command_bytes(line: str, block: Content | None = None, session_format: int = LATEST_FORMAT) -> bytes:
    """One command as a session of that format has it. The line is the same in both: in format 2 the length of the block is put behind its first
    word here, and the block follows as it is. A block that is neither bytes nor a text is a `TypeError`.

    A `ValueError` tells of a line that the program would not answer, or for whose block it would wait: one that holds a line
    feed, is empty or a comment, one whose first word wants a block that isn't given, and one with a block that it doesn't take.
    """
    if "\n" in line:
        raise ValueError("a command is one line")
    words = line.removeprefix("\ufeff").removesuffix("\r").strip(" \t")
    if not words or words.startswith("#"):
        raise ValueError("an empty line and a comment are no commands")
    first = words.replace("\t", " ").split(" ", 1)[0]
    takes_block = first in BLOCK_WORDS[session_format]
    if takes_block and block is None:
        raise ValueError(f"{first} wants a block")
    if not takes_block and block is not None:
        raise ValueError(f"{first} takes no block in a session of format {session_format}")
    head = line.removeprefix("\ufeff").encode("utf-8") + b"\n"
    if block is None:
        return head
    content = block.encode("utf-8") if isinstance(block, str) else block
    if not isinstance(content, (bytes, bytearray)):
        raise TypeError(f"a block is bytes or a text, and no {type(block).__name__}")
    return head + block_bytes(bytes(content)) if session_format == 1 else _counted(words, first, bytes(content))


def _counted(words: str, first: str, content: bytes) -> bytes:
    """A command of format 2 with its block. Where the program takes none, since the line is too long or the length none, none is sent: its bytes
    would be read as commands."""
    head = f"{first} {len(content)}{words[len(first) :]}".encode("utf-8")
    takes = len(head) <= MOST_LINE_BYTES and len(content) <= MOST_BLOCK_BYTES
    return head + b"\n" + (content + b"\n" if takes else b"")
