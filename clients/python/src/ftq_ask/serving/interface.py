"""The JSON interface: the parts of an answer as lines of JSON, and the document that describes them."""

from __future__ import annotations

import json
from typing import Any

from ..showing import Piece
from .answering import Counted, Hit, Over, Part, Refused, Tally
from .pages import asset, shown_path


def line(row: dict[str, Any]) -> bytes:
    """An object on one line."""
    return json.dumps(row, ensure_ascii=False, separators=(",", ":")).encode("utf-8", errors="replace") + b"\n"


def row_of(part: Part) -> dict[str, Any]:
    """A part of an answer as an object; `part` says which it is."""
    if isinstance(part, Counted):
        return {
            "part": "count",
            "count": part.count,
            "taken": part.taken,
            "documents": [{"name": it.name, "file": shown_path(it.file), "count": it.count} for it in part.documents],
            "elements": [_tally(it) for it in part.elements],
        }
    if isinstance(part, Hit):
        return _hit(part)
    if isinstance(part, Refused):
        return {"part": "refused", "said": part.said, "column": part.column, "why": part.why, "write": part.write}
    if isinstance(part, Over):
        return {"part": "over", "said": part.said, "stopped": part.stopped}
    return {"part": "end", "hints": part.hints, "seconds": round(part.seconds, 4)}


def _tally(it: Tally) -> dict[str, Any]:
    return {"name": it.name, "count": it.count}


def _hit(part: Hit) -> dict[str, Any]:
    located = part.located
    return {
        "part": "element",
        "number": part.number,
        "document": located.element.document,
        "file": shown_path(located.path) or None,
        "line": located.line,
        "path": located.element.line,
        "text": [_piece(it) for it in part.pieces],
        "attributes": part.attributes,
        "note": located.note,
    }


def _piece(it: Piece) -> dict[str, Any]:
    return {"text": it.text, "asked": it.asked}


def described() -> bytes:
    """The OpenAPI document of the interface."""
    return asset("openapi.json")
