"""The text of an answer with its marked words, whole or shortened around them."""

from __future__ import annotations

import re
from dataclasses import dataclass
from typing import Callable, Protocol, Sequence

from ftq_client import Shown

from .paths import asked_strings, is_said
from .words import key, words_of


@dataclass(frozen=True)
class Piece:
    """A part of a shown text, and whether it is a word that is marked."""

    text: str
    asked: bool = False


Hit = tuple[int, int, str]
"""Where a marked word begins and ends in a text, and as what it counts: of those that count as the same one is enough to be shown."""


class Words(Protocol):
    """Which words of an element's texts are marked."""

    def hits_in(self, texts: Sequence[str]) -> list[list[Hit]]:
        """The marked words of each of its texts, which are all of them, from its first one on."""


class Marked:
    """The words of an element that the program marks."""

    def __init__(self, shown: Shown) -> None:
        self._words = shown.words
        self._marked = frozenset(number for span in shown.spans for number in range(*span))

    def hits_in(self, texts: Sequence[str]) -> list[list[Hit]]:
        """As `Words.hits_in`. Between two words stands no letter, so that each begins where it is found next. A text that isn't the program's has
        none behind the first word that it lacks."""
        found: list[list[Hit]] = [[] for _ in texts]
        here, at = 0, 0
        for number, word in enumerate(self._words):
            while here < len(texts) and (start := texts[here].find(word, at)) < 0:
                here, at = here + 1, 0
            if here == len(texts):
                break
            at = start + len(word)
            if number in self._marked:
                found[here].append((start, at, ""))
        return found


class Asked:
    """The words that a path asks for, to be marked where the program can't say by which of them an element is found."""

    def __init__(self, path: str, stem: Callable[[str], str] | None = None) -> None:
        self.has_marked = False
        """Whether a word of some text was marked so."""
        self._stem = stem if stem and is_said(path, "using", "stemming") else None
        self._keys: set[str] = set()
        self._patterns: list[re.Pattern[str]] = []
        wild = is_said(path, "using", "wildcards")
        for text in asked_strings(path):
            for part in text.split() if wild else [text]:
                if wild and ("." in part or "\\" in part):
                    self._patterns.append(_pattern(part))
                else:
                    self._keys.update(self._form(it[0]) for it in words_of(part))

    def __bool__(self) -> bool:
        return bool(self._keys or self._patterns)

    def hits_in(self, texts: Sequence[str]) -> list[list[Hit]]:
        """As `Words.hits_in`."""
        found = [[(it.start(), it.end(), form) for it in words_of(text) if (form := self.form(it[0])) is not None] if self else [] for text in texts]
        self.has_marked = self.has_marked or any(found)
        return found

    def form(self, word: str) -> str | None:
        """What a word of a text was asked for as; None where it wasn't."""
        mine = self._form(word)
        if mine in self._keys:
            return mine
        plain = key(word)
        return next((it.pattern for it in self._patterns if it.fullmatch(plain)), None)

    def _form(self, word: str) -> str:
        return self._stem(key(word)) if self._stem else key(word)


def _pattern(part: str) -> re.Pattern[str]:
    """A pattern of the program's as one of Python's; one that is badly formed matches nothing."""
    atoms = re.findall(r"\.\{[0-9]+,[0-9]+\}|\.[?*+]|\.|\\.|[^.\\]+", part, re.DOTALL)
    try:
        return re.compile("".join(it if it[0] == "." else re.escape(key(it.removeprefix("\\"))) for it in atoms), re.DOTALL)
    except re.error:
        return re.compile(r"(?!)")


def pieces_of(text: str, hits: Sequence[Hit]) -> list[Piece]:
    """A text in pieces, its marked words apart."""
    return _cut(text, hits, 0, len(text))


def shortened(text: str, words: Words, width: int = 160) -> list[Piece]:
    """A text of about `width` characters at most: the stretch of it that has the most of what is marked, the first of several."""
    text = " ".join(text.split())
    hits = words.hits_in([text])[0]
    return _cut(text, hits, *_window(text, hits, width))


def stretches(text: str, words: Words, width: int = 160) -> list[list[Piece]]:
    """For each marked word a stretch of about `width` characters at most, unless it stands in the one before."""
    text = " ".join(text.split())
    found, past = [], -1
    hits = words.hits_in([text])[0]
    for number, (first, last, form) in enumerate(hits):
        if last <= past:
            continue
        start, past = _window(text, [(first, last, form)], width)
        past = max(past, last)
        found.append(_cut(text, hits, start, past))
    return found or [_cut(text, [], *_window(text, [], width))]


def _cut(text: str, hits: Sequence[Hit], start: int, end: int) -> list[Piece]:
    pieces = [Piece("… ")] if start else []
    at = start
    for first, last, _ in hits:
        if first < start or last > end:
            continue
        pieces += [Piece(text[at:first]), Piece(text[first:last], True)]
        at = last
    pieces.append(Piece(text[at:end]))
    if end < len(text):
        pieces.append(Piece(" …"))
    return [it for it in pieces if it.text]


def _window(text: str, hits: Sequence[Hit], width: int) -> tuple[int, int]:
    """Where the shown stretch begins and ends, at blanks."""
    if len(text) <= width:
        return 0, len(text)
    best, most = 0, 0
    forms: dict[str, int] = {}
    back = 0
    for first, last, form in hits:
        forms[form] = forms.get(form, 0) + 1
        while hits[back][0] < last - width * 2 // 3:
            gone = hits[back][2]
            forms[gone] -= 1
            if not forms[gone]:
                del forms[gone]
            back += 1
        if len(forms) > most:
            best, most = hits[back][0], len(forms)
    start = max(0, min(best - width // 4, len(text) - width))
    if start:
        blank = text.find(" ", start, best + 1)
        start = blank + 1 if blank >= 0 else start
    end = min(len(text), start + width)
    if end < len(text):
        blank = text.rfind(" ", start + 1, end)
        end = blank if blank > best else end
    return start, end
