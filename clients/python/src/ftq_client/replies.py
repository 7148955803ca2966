"""The program's replies as values."""

from __future__ import annotations

import re
from dataclasses import dataclass
from typing import NamedTuple, Union
from xml.parsers import expat


class Step(NamedTuple):
    """One step from an element to a child: the child's name, and its place among the children of that name, from 1."""

    name: str
    number: int


@dataclass(frozen=True)
class Element:
    """An element that a query found: its document's name and the steps from the document to it.

    `line` is the program's line for it, which is a path that selects just this element; a quote in the name is doubled there.
    """

    document: str
    steps: tuple[Step, ...]
    line: str

    LINE = re.compile(r'doc\("((?:[^"]|"")+)"\)((?:/[^/\[\]]+\[[0-9]+\])+)')
    STEP = re.compile(r"/([^/\[\]]+)\[([0-9]+)\]")

    @classmethod
    def read(cls, line: str) -> "Element":
        """The element that a line names; a `ValueError` where the line is of another form."""
        parts = cls.LINE.fullmatch(line)
        if not parts:
            raise ValueError(f"no line that names an element: {line!r}")
        steps = tuple(Step(name, int(number)) for name, number in cls.STEP.findall(parts[2]))
        return cls(parts[1].replace('""', '"'), steps, line)


@dataclass(frozen=True)
class Changes:
    """How the answer to a standing query differs from the one before: the elements that `went` and those that `came`, each in the order of its
    answer. Elements count by their places: one that has got another place went and came. It is false where nothing has changed."""

    went: tuple[Element, ...]
    came: tuple[Element, ...]

    @classmethod
    def read(cls, lines: tuple[str, ...]) -> "Changes":
        """The changes that the lines of a reply tell; a `ValueError` where one is of another form."""
        rows: dict[str, list[Element]] = {"- ": [], "+ ": []}
        for line in lines:
            if line[:2] not in rows:
                raise ValueError(f"no line of changes: {line!r}")
            rows[line[:2]].append(Element.read(line[2:]))
        return cls(tuple(rows["- "]), tuple(rows["+ "]))

    def __bool__(self) -> bool:
        return bool(self.went or self.came)


@dataclass(frozen=True)
class Shown:
    """An element that `show` found: its place, its words as they are written, and the `spans` of those for which it is found, each from its first word
    up to the one behind its last, counted from 0, so that `words[first:end]` are marked. Neighbouring marked words are one span."""

    element: Element
    words: tuple[str, ...]
    spans: tuple[tuple[int, int], ...]

    @classmethod
    def read(cls, line: str, words: str) -> "Shown":
        """What the two lines of an element say: the one that names it, and the one with its words, of which marked ones stand in brackets. No word has
        a bracket or a blank in it, so that this is told by the words themselves."""
        written = [it for it in words.split(" ") if it]
        marked = {number for number, it in enumerate(written) if it[0] == "["}
        firsts = sorted(it for it in marked if it - 1 not in marked)
        ends = sorted(it + 1 for it in marked if it + 1 not in marked)
        return cls(Element.read(line), tuple(it.removeprefix("[").removesuffix("]") for it in written), tuple(zip(firsts, ends)))

    @property
    def line(self) -> str:
        """The program's line for the element."""
        return self.element.line

    @property
    def marked(self) -> tuple[str, ...]:
        """The words that are marked, in their order."""
        return tuple(word for first, end in self.spans for word in self.words[first:end])

    def __str__(self) -> str:
        """The words as the program writes them, the marked ones in brackets."""
        inside = {number for span in self.spans for number in range(*span)}
        return " ".join(f"[{word}]" if number in inside else word for number, word in enumerate(self.words))


LINES_EACH = {"show": 2}
"""The commands whose replies have more than one line for each of those that they count, with how many that are."""


def text_of(printed: str) -> str:
    """All text of an element as `print` writes it. A colon is a character of a name there, so that no prefix has to be declared."""
    texts: list[str] = []
    parser = expat.ParserCreate()
    parser.CharacterDataHandler = texts.append
    parser.Parse(printed, True)
    return "".join(texts)


@dataclass(frozen=True)
class Done:
    """`ok`: the command did what it says."""


@dataclass(frozen=True)
class Found:
    """`= N`, and the N lines after it; with `show` the 2N lines, in pairs."""

    lines: tuple[str, ...]


@dataclass(frozen=True)
class Counts:
    """How much a session holds: documents, their tokens, the different keys of these, marks, plans that are kept, and how often one was used again."""

    documents: int
    tokens: int
    terms: int
    marks: int
    plans: int
    hits: int

    TEXT = re.compile(r"documents (\d+) tokens (\d+) terms (\d+) marks (\d+) plans (\d+) hits (\d+)")

    @classmethod
    def read(cls, text: str) -> "Counts":
        """The counts that a reply tells; a `ValueError` where it is of another form."""
        parts = cls.TEXT.fullmatch(text)
        if not parts:
            raise ValueError(f"no counts: {text!r}")
        return cls(*map(int, parts.groups()))


@dataclass(frozen=True)
class Said:
    """`= ` and a text, all of the reply."""

    text: str


Reply = Union[Done, Found, Said]
