"""What an address keeps: the question and what is shown of its answer, so that a link leads to the same again."""

from __future__ import annotations

import re
from dataclasses import dataclass, replace
from typing import Any, Mapping
from urllib.parse import urlencode

from .answering import MOST_SHOWN, USUAL_LIMIT, Wish
from .guard import Unwanted

MOST_QUESTION = 65_000
"""How many bytes a question may have: a little less than a line of the program's."""

MOST_NUMBER = 10_000_000

NAMES = ("q", "document", "element", "from", "limit", "whole", "as_typed")
_CONTROLS = re.compile(r"[\0-\x08\x0b\x0c\x0e-\x1f\x7f\ufffe\uffff\ud800-\udfff]")


def wish_of(values: Mapping[str, Any]) -> Wish:
    """What a request asks for; `Unwanted` where a value is none that may stand there."""
    for name in values:
        if name not in NAMES:
            raise Unwanted(400, f"there is nothing called {name[:40]!r} to ask for; there are {', '.join(NAMES)}")
    path = re.sub(r"\s*\n\s*", " ", _text(values, "q").replace("\r", "\n")).strip()
    if len(path.encode("utf-8")) > MOST_QUESTION:
        raise Unwanted(413, f"a question has at most {MOST_QUESTION:,} bytes")
    return Wish(
        path,
        _text(values, "document"),
        _text(values, "element"),
        number_of(values, "from", 1, 1, MOST_NUMBER) - 1,
        number_of(values, "limit", USUAL_LIMIT, 0, MOST_SHOWN),
        _truth(values, "whole"),
        _truth(values, "as_typed"),
    )


def _text(values: Mapping[str, Any], name: str) -> str:
    text = values.get(name, "")
    if not isinstance(text, str) or _CONTROLS.search(text):
        raise Unwanted(400, f"{name} is a text without control characters")
    return text


def number_of(values: Mapping[str, Any], name: str, usual: int, least: int, most: int) -> int:
    """A number that a request gives, or the usual one."""
    value = values.get(name, usual)
    number = int(value) if isinstance(value, str) and re.fullmatch(r"[0-9]{1,9}", value) else value
    if not isinstance(number, int) or isinstance(number, bool) or not least <= number <= most:
        raise Unwanted(400, f"{name} is a number from {least:,} to {most:,}")
    return number


def _truth(values: Mapping[str, Any], name: str) -> bool:
    value = values.get(name, False)
    truths: dict[object, bool] = {"": False, "0": False, "false": False, "1": True, "true": True}
    if isinstance(value, bool):
        return value
    if not isinstance(value, str) or value not in truths:
        raise Unwanted(400, f"{name} is true or false")
    return truths[value]


def once(pairs: list[tuple[str, str]]) -> dict[str, str]:
    """The values of an address or a form; `Unwanted` where one stands there twice."""
    values = dict(pairs)
    if len(values) < len(pairs):
        raise Unwanted(400, "each value stands in an address once")
    return values


@dataclass(frozen=True)
class Addresses:
    """The addresses that lead on from one wish."""

    wish: Wish

    def query(self, **changes: Any) -> str:
        """The page of the same question with some values changed."""
        return f"/?{_written(replace(self.wish, **changes))}"

    def filtered(self, **changes: Any) -> str:
        """The page of the same question with other filters, from the first element on."""
        return self.query(offset=0, **changes)

    def document(self, name: str, hit: int = 0, sheet: int = 0) -> str:
        """The page of a document, at one of the elements that the question found in it."""
        at = {"hit": hit} if hit else {"sheet": sheet} if sheet else {}
        kept = _written(replace(self.wish, document="", offset=0, limit=USUAL_LIMIT, whole=False))
        return f"/document?{urlencode({'name': name, **at})}{'&' if kept else ''}{kept}" + (f"#hit-{hit}" if hit else "")


def _written(wish: Wish) -> str:
    values = {
        "q": wish.path,
        "document": wish.document,
        "element": wish.element,
        "from": wish.offset + 1 if wish.offset else "",
        "limit": wish.limit if wish.limit != USUAL_LIMIT else "",
        "whole": "1" if wish.whole else "",
        "as_typed": "1" if wish.as_typed else "",
    }
    return urlencode({name: value for name, value in values.items() if value != ""})
