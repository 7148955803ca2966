"""A document to read: its text in blocks, with the elements that a question found in it and the words that it asks for marked."""

from __future__ import annotations

from dataclasses import dataclass, field
from typing import Iterator

from lxml import etree

from ftq_client import Element

from ..locating import Document
from ..limits import BLANKS
from ..reading import BLOCKS
from ..marking import Marking
from ..showing import Hit, Piece, Words, pieces_of
from ..trees import texts_of, written_attributes, written_name

SHEET = 400
"""How many blocks a page shows."""

MOST_STEPS = 12
"""How deep blocks are set in at most."""


@dataclass(frozen=True)
class Edge:
    """The begin of an element that was found, inside a text, by its number among those of the document; or, without a number, its end."""

    number: int = 0


@dataclass(frozen=True)
class Text:
    """A text, with its marked words."""

    text: str
    hits: tuple[Hit, ...]


@dataclass
class Block:
    """A part of a document that is shown by itself: an element's own text, or, where it holds elements alone, its name."""

    name: str
    depth: int
    line: int | None
    attributes: str = ""
    begins: list[int] = field(default_factory=list)
    """The numbers of the elements that were found and begin with this block."""
    inside: bool = False
    """Whether the block stands in an element that was found."""
    texts: list[Text | Edge] = field(default_factory=list)
    """What stands in it."""
    parts: list[Piece | Edge] = field(default_factory=list)
    """The same in pieces, where it is shown."""


class Sheets:
    """A document in blocks, for one question."""

    def __init__(self, document: Document, found: list[Element], marking: Marking, blocks: frozenset[str] = frozenset()) -> None:
        """With the elements of this document that a question found, and their marks."""
        self._document = document
        self._parting = BLOCKS | blocks
        self._numbers: dict[etree._Element, int] = {}
        self._hits: dict[tuple[etree._Element, bool], set[Hit]] = {}
        for number, element in enumerate(found, 1):
            place = document.find(element)
            if place is not None:
                self._numbers[place] = number
                self._mark(place, marking.of(element))
        self._open = 0
        self.blocks: list[Block] = []
        self.homes: dict[int, int] = {}
        """For each element that was found the block, from 0, in which it begins."""
        self._element(document.root, 0)

    @property
    def count(self) -> int:
        """How many sheets there are."""
        return max(1, -(-len(self.blocks) // SHEET))

    def sheet(self, number: int) -> list[Block]:
        """The blocks of a sheet, which are counted from 1, with their marks."""
        blocks = self.blocks[(number - 1) * SHEET : number * SHEET]
        for block in blocks:
            block.parts = [part for it in block.texts for part in self._parts_of(it)]
        return blocks

    def _parts_of(self, it: Text | Edge) -> Iterator[Piece | Edge]:
        if isinstance(it, Edge):
            yield it
        else:
            yield from pieces_of(it.text, it.hits)

    def sheet_of(self, hit: int) -> int:
        """The sheet on which an element that was found begins."""
        return self.homes.get(hit, 0) // SHEET + 1

    def _mark(self, place: etree._Element, words: Words) -> None:
        """Takes note of the marked words of an element that was found, by the texts in which they stand."""
        texts = list(texts_of(place))
        for (element, behind, _), hits in zip(texts, words.hits_in([it for _, _, it in texts])):
            if hits:
                self._hits.setdefault((element, behind), set()).update((first, last, "") for first, last, _ in hits)

    def _element(self, element: etree._Element, depth: int) -> None:
        """An element in blocks of its own."""
        number = self._numbers.get(element)
        self._open += number is not None
        block = self._block(element, depth, number)
        if _holds_elements(element):
            for child in element:
                self._element(child, depth + 1)
        else:
            self._inline(element, block, depth)
        self._open -= number is not None

    def _block(self, element: etree._Element, depth: int, number: int | None) -> Block:
        attributes = " ".join(f'{name}="{value}"' for name, value in written_attributes(element))
        line = self._document.place(element)[1]
        block = Block(written_name(element), min(depth, MOST_STEPS), line, attributes[:160], inside=self._open > 0)
        if number is not None:
            block.begins.append(number)
            self.homes[number] = len(self.blocks)
        self.blocks.append(block)
        return block

    def _inline(self, element: etree._Element, block: Block, depth: int) -> Block:
        """An element's text, with that of the elements in it, in a block; what parts paragraphs gets blocks of its own, and the text goes on in
        another one, which comes back."""
        self._text(element, False, block)
        for child in element:
            if written_name(child) in self._parting or _holds_elements(child):
                self._element(child, depth + 1)
                if child.tail and child.tail.strip(BLANKS):
                    block = Block("", min(depth, MOST_STEPS), None, inside=self._open > 0)
                    self.blocks.append(block)
                    self._text(child, True, block)
                continue
            number = self._numbers.get(child)
            if number is not None:
                self._open += 1
                self.homes[number] = len(self.blocks) - 1
                block.texts.append(Edge(number))
            first = block
            block = self._inline(child, block, depth)
            if number is not None:
                self._open -= 1
                first.texts.append(Edge())
            self._text(child, True, block)
        return block

    def _text(self, element: etree._Element, behind: bool, block: Block) -> None:
        text = element.tail if behind else element.text
        if text:
            block.texts.append(Text(text, tuple(sorted(self._hits.get((element, behind), ())))))


def _holds_elements(element: etree._Element) -> bool:
    """Whether an element holds elements, and no text beside them but white space."""
    if not len(element) or (element.text or "").strip(BLANKS):
        return False
    return not any((child.tail or "").strip(BLANKS) for child in element)
