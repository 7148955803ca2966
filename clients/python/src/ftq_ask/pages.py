"""Answers as a page by itself: XHTML, which programs read as XML and browsers open as a file."""

from __future__ import annotations

import re
from typing import Iterable, Iterator
from urllib.parse import quote
from xml.sax.saxutils import escape, quoteattr

from .locating import Located
from .showing import Piece

_NO_CHARACTER = re.compile("[^\t\n\r\u0020-\ud7ff\ue000-\ufffd\U00010000-\U0010ffff]")

_STYLE = """:root { color-scheme: light dark; }
body { max-width: 48rem; margin: 2rem auto; padding: 0 1rem; font: 1rem/1.5 serif; }
h1 { font-size: 1.1rem; overflow-wrap: anywhere; }
code, .place, .count, .hint { font-family: sans-serif; font-size: .85rem; }
li { margin: 1rem 0; }
p { margin: .2rem 0; }
.text { white-space: pre-line; }
mark { background: #ffe08a; color: #000; }"""

FRONT = f"""<?xml version="1.0" encoding="UTF-8"?>
<html xmlns="http://www.w3.org/1999/xhtml" lang="en">
<head><meta charset="utf-8"/><meta name="viewport" content="width=device-width, initial-scale=1"/><title>Answers</title>
<style>
{_STYLE}
</style></head>
<body>
"""

BACK = "</body>\n</html>\n"


def answer(path: str, counted: str, elements: Iterable[str], first: int, hints: Iterable[str]) -> Iterator[str]:
    """The section of a question: how many elements it has found, in words, those that are shown, of which the first has that number, and hints."""
    yield f'<section><h1><code>{_text(path)}</code></h1>\n<p class="count">{counted}</p>\n<ol start="{first}">\n'
    yield from elements
    yield "</ol>\n"
    yield from (f'<p class="hint">{_text(it)}</p>\n' for it in hints)
    yield "</section>\n"


def element(located: Located, line: int | None, rows: Iterable[list[Piece]], attributes: str) -> str:
    """An element: where it stands, be its first mark on another line, its path, and the stretches of its text, or else its attributes."""
    told = {"document": located.element.document, "file": located.path, "line": located.line, "marked-line": line}
    data = "".join(f" data-{name}={quoteattr(_clean(str(value)))}" for name, value in told.items() if value is not None)
    place = _text(located.place)
    if located.path is not None:
        address = ("file://" if located.path.is_absolute() else "") + quote(str(located.path), errors="surrogateescape")
        place = f"<a href={quoteattr(address)}>{place}</a>"
    texts = "".join(f'<p class="text">{"".join(map(_piece, row))}</p>' for row in rows) or f'<p class="text attributes">{_text(attributes)}</p>'
    note = f'<p class="note">{_text(located.note)}</p>' if located.note else ""
    return f'<li{data}><p class="place">{place} <code>{_text(located.element.line)}</code></p>{note}{texts}</li>\n'


def _piece(piece: Piece) -> str:
    return f"<mark>{_text(piece.text)}</mark>" if piece.asked else _text(piece.text)


def _clean(text: str) -> str:
    """A text with a sign in the place of each character that no XML can hold."""
    return _NO_CHARACTER.sub("\ufffd", text)


def _text(text: str) -> str:
    return escape(_clean(text))
