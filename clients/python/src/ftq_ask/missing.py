"""Hints beside an answer of nothing: the words that a question asks for and no document has, with close ones that there are."""

from __future__ import annotations

from itertools import islice
from typing import Iterator, Sequence

from ftq_client import TimedOut

from .collection import Collection
from .hints import hints, looks_like_pattern, meant_parts
from .paths import DOCUMENTS, AskedText, asked_texts, asked_values, quoted, symbols
from .reading import BLOCKS
from .words import words_of

MOST_WORDS = 12
MOST_HALVES = 20


TOGETHER = "all words, elements and attributes that have to be there are, but nowhere together as the question asks"
"""What is said of an answer of nothing of which nothing else is to be said."""


def all_hints(path: str, found: int, collection: Collection) -> list[str]:
    """What is likely meant otherwise in a path that was answered with so many elements."""
    known = True
    try:
        missing = [] if found else [*missing_words(path, collection), *missing_values(path, collection)]
    except TimedOut:
        missing, known = [], False
    told = hints(path, found, collection.vocabulary, collection.has_stems, lambda it: _is_read(it, collection), bool(missing))
    told += [*missing, *_of_blocks(path, collection)]
    if not (found or told) and known and collection.sources:
        told = [TOGETHER]
    return [*told, *_of_apostrophes(path, collection)]


def _is_read(path: str, collection: Collection) -> bool:
    """Whether the program reads a path, and says so in time."""
    try:
        return collection.fault_of(path) is None
    except TimedOut:
        return False


_UNITS = {"sentence", "sentences", "paragraph", "paragraphs"}


def _of_blocks(path: str, collection: Collection) -> Iterator[str]:
    """Where sentences or paragraphs are asked for, and no element of the collection parts them."""
    parting = (BLOCKS | collection.rules.blocks) & collection.vocabulary.elements.keys()
    if not parting and any(it.kind == "name" and it.text in _UNITS for it in symbols(path)):
        yield "none of the elements here parts paragraphs (docs/QUERIES.md has those that do); --blocks NAME,NAME says which do too"


def _of_apostrophes(path: str, collection: Collection) -> Iterator[str]:
    """That both apostrophes were asked for, the first time that they were."""
    if collection.sent(path) != path and not collection.told_of_apostrophes and _is_read(collection.sent(path), collection):
        collection.told_of_apostrophes = True
        yield f"' and ’ find each other: the program was asked for {collection.sent(path)}; --as-typed leaves questions as they are"


def missing_words(path: str, collection: Collection) -> Iterator[str]:
    """A hint for each word of a path that the program doesn't find in the documents which the path begins at."""
    front = DOCUMENTS.match(path)
    if front is None:
        return
    for word, options in islice(dict.fromkeys(_words(path)), MOST_WORDS):
        if not _has(front[0], word, options, collection):
            yield _told(front[0], word, options, collection)


def missing_values(path: str, collection: Collection) -> Iterator[str]:
    """A hint for each value of an attribute that a path asks for, where the documents which the path begins at have the attribute without it."""
    front = DOCUMENTS.match(path)
    for name, value in dict.fromkeys(asked_values(path)) if front else ():
        test = f"@{name} = {quoted(value)}"
        if front and name in collection.vocabulary.attributes and not collection.query(f"{front[0]}//*[{test}]"):
            yield f"{_documents(front[0])} an element with {test}"


def _words(path: str) -> Iterator[tuple[str, tuple[str, ...]]]:
    """The words that have to be there, or the patterns among them, each with its options."""
    for text in asked_texts(path):
        if text.needed and (text.has_patterns or not looks_like_pattern(text.value, 0)):
            yield from ((it, text.options) for it in _parts(text))


def _parts(text: AskedText) -> Iterator[str]:
    for part in text.value.split() if text.has_patterns else meant_parts(text.value):
        if text.has_patterns and ("." in part or "\\" in part):
            yield part
        else:
            yield from (it[0] for it in words_of(part))


def _has(front: str, words: str, options: Sequence[str], collection: Collection) -> bool:
    """Whether the program finds words beside each other in some document."""
    using = "".join(f" using {it}" for it in options)
    return bool(collection.query(f"{front}/*[. contains text {quoted(words)}{using}]"))


def _documents(front: str) -> str:
    """Which documents lack something, as a sentence begins."""
    return "no document has" if front.strip().startswith("collection") else f"{front.strip()} doesn't have"


STRICT = ("case sensitive", "diacritics sensitive", "lowercase", "uppercase")
"""The options by which a word isn't found that is there in another form."""


def _told(front: str, word: str, options: Sequence[str], collection: Collection) -> str:
    documents = _documents(front)
    if "wildcards" in options and ("." in word or "\\" in word):
        return f"{documents} a word that fits the pattern {word}"
    told = f"{documents} the word {word}"
    strict = [it for it in options if it in STRICT]
    if strict and _has(front, word, [it for it in options if it not in STRICT], collection):
        return f"{told} as it is asked for using {' using '.join(strict)}; without that there is {collection.spellings.written(word)}"
    close = _close(front, word, collection)
    return f"{told}; close to it there is {', '.join(close)}" if close else told


def _close(front: str, word: str, collection: Collection) -> list[str]:
    """What may be meant by a word: the same word in another form, the word in two, or else one that looks like it; each as the program finds it."""
    known = collection.spellings
    found = [it for it in known.same(word) if _has(front, it, (), collection)]
    found = found or [quoted(it) for it in islice(known.halves(word), MOST_HALVES) if _has(front, it, (), collection)][:1]
    return found or [it for it in known.near(word) if _has(front, it, (), collection)]
