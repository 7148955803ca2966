"""Words of a collection that are close to one that it doesn't have, for hints: the program alone decides what is found."""

from __future__ import annotations

import re
import threading
import time
from collections import Counter
from typing import Callable, Iterable, Iterator

from .words import key, words_of

MOST_SHOWN = 4
MOST_SECONDS = 5.0
"""How long the words of a collection are gathered, which is done when a hint first needs them."""

APOSTROPHES = "'’‘ʼ`´"
_FOLDED = str.maketrans("", "", APOSTROPHES + "-‐‑·.")
_OWNERS = re.compile(rf"[{APOSTROPHES}].{{0,2}}$")


class Spellings:
    """The spellings of a collection's words, by their keys."""

    def __init__(self, texts: Callable[[], Iterable[str]], stem: Callable[[str], str] | None) -> None:
        """Over these texts, which are gone through when they are first needed; `stem` gives the stem of a key."""
        self._texts = texts
        self._stem = stem
        self._counts: Counter[str] | None = None
        self._written: dict[str, str] = {}
        self._lock = threading.Lock()

    def again(self) -> "Spellings":
        """Those of the same texts as they are when they are needed next."""
        return Spellings(self._texts, self._stem)

    def same(self, word: str) -> list[str]:
        """Words that are the same as one but for apostrophes and hyphens, an owner's ending, or their ending altogether, by their stem."""
        plain = key(word)
        return self._listed(plain, [self._folded(plain), self._owned(plain), self._of_stem(plain)])

    def near(self, word: str) -> list[str]:
        """Words that have a letter or two more, less or otherwise than one."""
        plain = key(word)
        return self._listed(plain, [self._near(plain)])

    def halves(self, word: str) -> Iterator[str]:
        """The ways in which a word is two that are both there."""
        counts, plain = self._gathered(), key(word)
        return (f"{plain[:at]} {plain[at:]}" for at in range(1, len(plain)) if plain[:at] in counts and plain[at:] in counts)

    def written(self, word: str) -> str:
        """A word as it first stands in a text, with whichever apostrophe, or as it is where it isn't known."""
        plain = key(word)
        return next(iter(self._listed("", [[plain] if plain in self._gathered() else self._folded(plain)])), word)

    def _listed(self, plain: str, rows: list[list[str]]) -> list[str]:
        """The first words of some rows, the commonest of each first, as they are written."""
        counts = self._gathered()
        found = dict.fromkeys(it for row in rows for it in sorted(row, key=lambda it: -counts[it])[:MOST_SHOWN] if it != plain)
        return [self._written[it] for it in list(found)[:MOST_SHOWN]]

    def _gathered(self) -> Counter[str]:
        with self._lock:
            if self._counts is None:
                counts: Counter[str] = Counter()
                end = time.monotonic() + MOST_SECONDS
                for text in self._texts():
                    for written, count in Counter(it[0] for it in words_of(text)).items():
                        plain = key(written)
                        counts[plain] += count
                        self._written.setdefault(plain, written)
                    if time.monotonic() > end:
                        break
                self._counts = counts
            return self._counts

    def _folded(self, plain: str) -> list[str]:
        folded = plain.translate(_FOLDED)
        return [it for it in self._gathered() if it.translate(_FOLDED) == folded]

    def _owned(self, plain: str) -> list[str]:
        bare = _OWNERS.sub("", plain)
        return [it for it in self._gathered() if _OWNERS.sub("", it) == bare]

    def _of_stem(self, plain: str) -> list[str]:
        if self._stem is None:
            return []
        stem = self._stem(plain)
        return [it for it in self._gathered() if self._stem(it) == stem]

    def _near(self, plain: str) -> list[str]:
        """The words with two neighbouring letters the other way round, or else those at the least distance by letters put in, left out or changed:
        one in short words, two in longer ones."""
        turned = {plain[:at] + plain[at + 1] + plain[at] + plain[at + 2 :] for at in range(len(plain) - 1)} & self._gathered().keys() - {plain}
        if turned:
            return list(turned)
        most = 0 if len(plain) < 3 else 1 if len(plain) < 6 else 2
        bare = ((_OWNERS.sub("", it), it) for it in self._gathered())
        within = [(_distance(plain, shorn, most), it) for shorn, it in bare if abs(len(shorn) - len(plain)) <= most]
        least = min((it for it, _ in within if it <= most), default=None)
        return [it for distance, it in within if distance == least]


def _distance(a: str, b: str, most: int) -> int:
    """How many letters are to be put in, left out or changed from one word to another; where they are more than `most`, a greater number."""
    try:
        from Levenshtein import distance
    except ImportError:
        return _plain_distance(a, b, most)
    return int(distance(a, b))


def _plain_distance(a: str, b: str, most: int) -> int:
    row = list(range(len(b) + 1))
    for number, letter in enumerate(a, 1):
        before, row[0] = row[0], number
        for place, other in enumerate(b, 1):
            before, row[place] = row[place], min(row[place] + 1, row[place - 1] + 1, before + (letter != other))
        if min(row) > most:
            return most + 1
    return row[-1]
