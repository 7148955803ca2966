"""Words of texts, near enough to the program's to show, count and stem them; the program alone decides what is found."""

from __future__ import annotations

import re
import sys
import unicodedata
from functools import lru_cache
from typing import Iterator

_LAST = 0x1FFFF
_ALONE = "\u0e00-\u0eff\u1000-\u109f\u1780-\u17ff\u3040-\u309f\u3400-\u4dbf\u4e00-\u9fff\uf900-\ufaff\U00020000-\U0003ffff"
MOST_WORDS = 1_000_000
"""How many words a document may have."""


def key(word: str) -> str:
    """What is the same in two words that are found for one another: no marks, no case."""
    plain = "".join(it for it in unicodedata.normalize("NFD", word) if unicodedata.category(it) != "Mn")
    return plain.casefold()


@lru_cache(maxsize=1)
def word_pattern() -> re.Pattern[str]:
    """A word: letters and digits with their marks, joined over an apostrophe or a period inside; an ideograph alone. It is made when it is first
    needed, since it takes as long as a question."""
    categories = "".join(it[0] for it in map(unicodedata.category, map(chr, range(_LAST + 1))))
    marks = "".join(f"\\U{it.start():08x}-\\U{it.end() - 1:08x}" for it in re.finditer("M+", categories))
    letter = f"[^\\W_{_ALONE}][{marks}\u200d]*"
    plain = f"(?:{letter}|_)+"
    return re.compile(f"[{_ALONE}][{marks}]*|{plain}(?:(?:['’.:·‧](?=[^\\W\\d_])|[',.;’](?=\\d)){plain})*")


def words_of(text: str) -> Iterator[re.Match[str]]:
    """The words of a text with their places. A low line alone is none."""
    return (it for it in word_pattern().finditer(text) if it[0].strip("_"))


def count_words(texts: Iterator[str], most: int = sys.maxsize) -> int:
    """How many words the texts have, counted no further than one beyond `most`."""
    count = 0
    for text in texts:
        count += sum(1 for _ in words_of(text))
        if count > most:
            break
    return count
