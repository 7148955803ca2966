"""Pages, written part after part as the answer comes. Whatever comes from a question or a document is text: the templates escape it all."""

from __future__ import annotations

import os
from functools import lru_cache
from pathlib import Path
from typing import Any, Iterator

from jinja2 import Environment, FileSystemLoader, StrictUndefined

from ..showing import Piece

ASSETS = Path(__file__).parent / "assets"

FLUSH = "\0"
"""What a template writes where what stands before it is sent; no text that is shown has it."""

SHORT = 12
LONG = 400
"""How many names and files a filter shows at first, and at most."""

FILES = {"page.css": "text/css; charset=utf-8", "page.js": "text/javascript; charset=utf-8", "icon.svg": "image/svg+xml"}
"""What a page needs beside itself."""


@lru_cache(maxsize=1)
def _environment() -> Environment:
    it = Environment(loader=FileSystemLoader(ASSETS), autoescape=True, undefined=StrictUndefined, trim_blocks=True, lstrip_blocks=True)
    it.filters["shown_path"] = shown_path
    it.filters["beneath"] = lambda path, folder: path.removeprefix(folder.rstrip("/") + "/")
    it.filters["number"] = lambda count: f"{count:,}"
    it.tests["part"] = lambda part, name: type(part).__name__ == name
    it.globals.update(flush=FLUSH, SHORT=SHORT, LONG=LONG)
    it.tests["piece"] = lambda part: isinstance(part, Piece)
    return it


def written(template: str, **values: Any) -> Iterator[str]:
    """A page in the parts in which it is sent."""
    held: list[str] = []
    for piece in _environment().get_template(template).generate(**values):
        before, flush, behind = piece.partition(FLUSH)
        held.append(before)
        if flush:
            yield "".join(held)
            held = [behind]
    yield "".join(held)


def shown_path(path: Path | str | None) -> str:
    """A file's path as a text that any page and any JSON can hold."""
    return os.fsencode(path).decode("utf-8", errors="replace") if path else ""


@lru_cache(maxsize=None)
def asset(name: str) -> bytes:
    """One of the files beside the pages."""
    return (ASSETS / name).read_bytes()
