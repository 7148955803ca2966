"""Questions to begin with, of names and words that a collection has."""

from __future__ import annotations

from itertools import islice
from typing import Iterator

from lxml import etree

from ..collection import Collection
from ..reading import read_tree
from ..trees import Untaken, written_name
from ..words import words_of

USUAL = ("p", "para", "l", "section", "chapter", "title", "item")
"""Elements that mostly hold text, the likeliest first."""

MOST_LOOKED = 8
MOST_BYTES = 300_000
"""How many documents are looked at for words, and how long these are."""

WORDS = range(8, 200)
"""How many words a text has that examples are made of."""

LONG = 5
"""How many letters a word has that is asked for."""

NEAR = 8
"""How far from the first word the second one stands."""

PLAIN = ['"storm"', '"heavy storm"', '"storm" ftand "ship" window 10 words', '"regist.*" using wildcards']
"""What is asked where there are no such words."""


def examples_of(collection: Collection) -> list[str]:
    """Paths to begin with."""
    known = collection.vocabulary.elements
    name = next((it for it in USUAL if it in known), max(known, key=lambda it: known[it], default="p"))
    found = (asked for text in _texts(collection, name) if (asked := _asked(text)))
    return [f"collection()//{name}[. contains text {it}]" for it in next(found, PLAIN)]


def _texts(collection: Collection, name: str) -> Iterator[str]:
    """Texts in elements of this name."""
    short = (it for it in list(collection.sources.values()) if it.size < MOST_BYTES and name in it.vocabulary.elements)
    for source in islice(short, MOST_LOOKED):
        try:
            root = read_tree(source.path, collection.rules).root
        except Untaken:
            continue
        for element in root.iter(etree.Element):
            if written_name(element) == name:
                yield max(map(str, element.itertext()), key=len, default="")


def _asked(text: str) -> list[str]:
    """Selections that a text satisfies: a word, two beside each other, two in a window, and the beginning of one; none where its words don't give
    that."""
    found = list(words_of(text))
    words = [it[0] for it in found]
    long = [place for place, word in enumerate(words) if len(word) >= LONG and word.isalpha() and words.index(word) == place]
    # Two words with a blank between them stand in one sentence.
    beside = [it for it in long[:-1] if text[found[it].end() : found[it + 1].start()] == " "]
    if len(words) not in WORDS or len(long) < 3 or not beside:
        return []
    first = max(beside, key=lambda it: len(words[it]))
    second = next((it for it in long if 1 < abs(it - first) <= NEAR), None)
    third = next(it for it in long if it not in (first, second))
    near = [f'"{words[first]}" ftand "{words[second]}" window {NEAR + 2} words'] if second is not None else []
    return [f'"{words[first]}"', f'"{words[first]} {words[first + 1]}"', *near, f'"{words[third][: LONG - 1]}.*" using wildcards']
