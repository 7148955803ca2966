"""What stands under filters which don't allow it, counts above all: what may be written instead."""

from __future__ import annotations

import re
from dataclasses import dataclass
from typing import Iterator

from .paths import STRING, without_strings

_UNIT = r"(?:words|sentences|paragraphs)"
_RANGE = r"(?:exactly|at\s+least|at\s+most|from\s+[0-9]+\s+to)\s+[0-9]+"
_FILTER = rf"window\s+[0-9]+\s+{_UNIT}|distance\s+{_RANGE}\s+{_UNIT}|(?:same|different)\s+(?:sentence|paragraph)|at\s+(?:start|end)|entire\s+content|ordered"
_MARK = re.compile(rf"\b(?:{_FILTER}|and|or|without)\b|[()\]]")
_COUNTING = re.compile(rf"window\s.*|same\s.*|distance\s+(?:exactly|at\s+most|from\s+[0-9]+\s+to)\s+(?P<most>[0-9]+)\s+(?P<unit>{_UNIT})", re.DOTALL)

_VALUE = rf"(?:{STRING}|\{{\s*{STRING}(?:\s*,\s*{STRING})*\s*\}})(?:\s+(?:any\s+word|any|phrase))?"
_NEGATED = re.compile(rf"\bftnot\s*(\()?\s*(?P<value>{_VALUE})\s+occurs\s+at\s+(?P<bound>least|most)\s+(?P<number>[0-9]+)\s+times(?(1)\s*\))")


@dataclass(frozen=True)
class Filter:
    """A filter in a path: how it is written, and where."""

    text: str
    start: int
    end: int


def filters_round(path: str, column: int) -> list[Filter]:
    """The filters that stand round what is at a column of a path, the innermost first."""
    found, depth = [], 0
    for told in _MARK.finditer(without_strings(path), column):
        if told[0] in ("]", "and", "or", "without"):
            break
        if told[0] in ("(", ")"):
            # What stands behind a parenthesis that was opened before the column is said of all in it.
            depth = depth + 1 if told[0] == "(" else max(0, depth - 1)
        elif depth == 0:
            found.append(Filter(told[0], *told.span()))
    return found


def counted_otherwise(path: str, column: int) -> Iterator[tuple[str, str]]:
    """What may be meant by a path in which the `occurs` or `ftnot` at a column may not stand, each with the reason: those that count words under a
    filter, and then the one without filters."""
    for told in _NEGATED.finditer(path):
        number = int(told["number"]) + (1 if told["bound"] == "most" else -1)
        if told.start() < column < told.end() and number >= 0:
            turned = f"{told['value']} occurs at {'least' if told['bound'] == 'most' else 'most'} {number} times"
            yield "a count is turned without ftnot", path[: told.start()] + turned + path[told.end() :]
    filters = filters_round(path, column)
    is_count = path.startswith("occurs", column)
    for kept in filters:
        counting = _COUNTING.fullmatch(kept.text) if is_count else None
        if counting:
            text = f"window {int(counting['most']) + 2} {counting['unit']}" if counting["most"] else kept.text
            yield "words are counted under one filter: window, same sentence or same paragraph", _with_one(path, filters, kept, text)
    if filters:
        what = "words can't be counted under this filter beside what stands there" if is_count else "ftnot has no place in another one under a filter"
        yield what, _with_one(path, filters)


def _with_one(path: str, filters: list[Filter], kept: Filter | None = None, text: str = "") -> str:
    """A path in which one of these filters is written so, and the others are left out."""
    for it in reversed(filters):
        path = path[: it.start] + text + path[it.end :] if it is kept else path[: it.start].rstrip() + path[it.end :]
    return path
