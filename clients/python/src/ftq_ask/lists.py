"""Stems and stop lists of a language: Snowball's stems of the collection's own words, and lists of installed packages."""

from __future__ import annotations

import re
import threading
from pathlib import Path
from typing import Callable, Iterable

from .paths import asked_strings
from .words import key, word_pattern, words_of

STOP_FOLDERS = "/usr/share/postgresql"
STOP_PACKAGE = "postgresql"


class NoList(Exception):
    """There is no list for that language; the text says which there are."""


class Stems:
    """The stems of words, by Snowball's algorithm for a language."""

    def __init__(self, language: str) -> None:
        import Stemmer

        if language not in Stemmer.algorithms():
            raise NoList(f"there are no stems for {language}; there are some for {', '.join(sorted(Stemmer.algorithms()))}")
        self.language = language
        self._stemmer = Stemmer.Stemmer(language)
        self._stems: dict[str, str] = {}
        self._lock = threading.Lock()

    def add(self, texts: Iterable[str]) -> bool:
        """Takes the words of some texts in; whether one of them is new."""
        with self._lock:
            before = len(self._stems)
            for text in texts:
                for it in words_of(text):
                    plain = key(it[0])
                    if plain not in self._stems:
                        self._stems[plain] = key(self._stemmer.stemWord(it[0].lower()))
            return len(self._stems) > before

    def add_asked(self, path: str) -> bool:
        """Takes the words in that a path asks for; whether one of them is new."""
        return self.add(asked_strings(path))

    def stem(self, plain: str) -> str:
        """The stem of a word's key."""
        return self._stems.get(plain, plain)

    def stem_of(self, plain: str) -> str:
        """The stem of any word's key, be it one of the collection or not."""
        return self._stems.get(plain) or key(self._stemmer.stemWord(plain))

    def lines(self) -> bytes:
        """The dictionary for the program: a line for each word that isn't its own stem."""
        with self._lock:
            known = sorted(self._stems.items())
        rows = (f"{word} {stem}" for word, stem in known if word != stem and _is_word(word) and _is_word(stem))
        return "\n".join(rows).encode("utf-8")


def usual_stem() -> Callable[[str], str] | None:
    """Stems for hints where none were asked for: those of English, where PyStemmer is installed."""
    try:
        import Stemmer
    except ImportError:
        return None
    stemmer = Stemmer.Stemmer("english")
    return lambda plain: str(stemmer.stemWord(plain))


def _is_word(text: str) -> bool:
    """Whether the program takes a text for one word, for certain."""
    return bool(word_pattern().fullmatch(text)) and not re.search(r"[_.:·‧,;]", text)


def stop_words(language: str) -> bytes:
    """The stop list of a language, one word a line, from PostgreSQL's or Whoosh's where one of them is installed."""
    files = sorted(Path(STOP_FOLDERS).glob(f"*/tsearch_data/{language}.stop"))
    if files:
        words = files[-1].read_text(encoding="utf-8").split()
    else:
        words = sorted(_whoosh_words(language))
    if not words:
        raise NoList(f"no installed package has a stop list for {language}; the packages {STOP_PACKAGE} and python3-whoosh have some")
    return "\n".join(it for it in words if _is_word(it)).encode("utf-8")


def _whoosh_words(language: str) -> Iterable[str]:
    try:
        from whoosh.lang import stopwords_for_language
    except ImportError:
        return ()
    try:
        return stopwords_for_language(language)
    except KeyError:
        return ()
