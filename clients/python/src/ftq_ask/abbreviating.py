"""Lists of abbreviations, behind which a period ends no sentence: those of a language, or a user's own files."""

from __future__ import annotations

from pathlib import Path

LANGUAGES = {"en": "english", "fr": "french", "de": "german"}
"""The languages of which a list is here, by the words that name them in a call."""

_FOLDER = Path(__file__).resolve().parent / "abbreviations"


def list_file(word: str) -> Path:
    """The file of the list that a word of a call names: of a language, or a file of the user's; a `ValueError` where it names none."""
    path = _FOLDER / f"{LANGUAGES[word]}.txt" if word in LANGUAGES else Path(word)
    if not path.is_file():
        raise ValueError(f"there are lists of abbreviations for {', '.join(sorted(LANGUAGES))}, and {word} is none of these and no file")
    return path


class Abbreviations:
    """Lists, one after the other, as one."""

    def __init__(self, words: list[str]) -> None:
        """Those that these words of a call name. They are read now: a `ValueError` or an `OSError` where that can't be."""
        self._lists = [(path, path.read_bytes().removeprefix(b"\xef\xbb\xbf")) for path in map(list_file, words)]

    @property
    def lines(self) -> bytes:
        """The lines of all of them."""
        return b"\n".join(content for _, content in self._lists)

    def place(self, line: int) -> str:
        """`FILE:LINE` of a line of all of them, counted from 1."""
        for path, content in self._lists:
            count = content.count(b"\n") + 1
            if line <= count:
                return f"{path}:{line}"
            line -= count
        raise IndexError("there are not so many lines")
