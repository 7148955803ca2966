"""Where the elements and the texts of a document stand: in which file, also where an entity brings one in, and on which line of it."""

from __future__ import annotations

from pathlib import Path
from typing import Callable, Collection
from xml.parsers import expat

from lxml import etree

Spot = tuple[Path, int]
"""A file, and a line of it from 1."""

FileOf = Callable[[Path, str, str | None], Path | None]
"""The file that stands for the identifiers, system and public, which a file names; None where it isn't read."""

INCLUDE = "http://www.w3.org/2001/XInclude include"


class Spots:
    """The spots of a document's elements, and of its texts: of that at the front of an element, and of that behind its end (True). None are known of
    `included` elements and what is in them, and none at all where the files, by themselves, have other elements than the document."""

    def __init__(self, root: etree._Element, path: Path, included: Collection[etree._Element] = (), file_of: FileOf = lambda *_: None) -> None:
        self.elements: dict[etree._Element, Spot] = {}
        self.texts: dict[tuple[etree._Element, bool], Spot] = {}
        try:
            told = _Reader(path, bool(included), file_of)
        except (expat.ExpatError, OSError, ValueError):
            return
        elements = [it for it in root.iter(etree.Element) if not included or not _is_in(it, included)]
        if len(elements) == len(told.elements):
            self.elements = dict(zip(elements, told.elements))
            self.texts = {(elements[number], behind): spot for (number, behind), spot in told.texts.items()}


class _Reader:
    """The spots in a document that is read anew, elements by their numbers."""

    def __init__(self, path: Path, includes: bool, file_of: FileOf) -> None:
        self.elements: list[Spot] = []
        self.texts: dict[tuple[int, bool], Spot] = {}
        self._includes, self._file_of = includes, file_of
        self._open: list[int | None] = []
        self._place: tuple[int, bool] | None = None
        # Inclusions are known by their namespace; without them prefixes needn't be declared.
        reader = expat.ParserCreate(namespace_separator=" ") if includes else expat.ParserCreate()
        self._files = [(path, reader)]
        reader.SetBase(str(path))
        # Entities that only a document type which isn't read has are passed over.
        reader.SetParamEntityParsing(expat.XML_PARAM_ENTITY_PARSING_ALWAYS)
        reader.UseForeignDTD(True)
        reader.ExternalEntityRefHandler = self._brings_in
        reader.StartElementHandler, reader.EndElementHandler = self._begins, self._ends
        reader.CharacterDataHandler = self._reads
        reader.Parse(path.read_bytes(), True)

    @property
    def _spot(self) -> Spot:
        path, reader = self._files[-1]
        return path, reader.CurrentLineNumber

    def _begins(self, name: str, attributes: dict[str, str]) -> None:
        is_left_out = self._includes and name == INCLUDE or None in self._open
        number = None if is_left_out else len(self.elements)
        self._open.append(number)
        self._place = None if number is None else (number, False)
        if number is not None:
            self.elements.append(self._spot)

    def _ends(self, name: str) -> None:
        number = self._open.pop()
        self._place = None if number is None else (number, True)

    def _reads(self, text: str) -> None:
        if self._place is not None:
            self.texts.setdefault(self._place, self._spot)

    def _brings_in(self, context: str | None, base: str | None, system: str | None, public: str | None) -> int:
        # The base is the file in which the entity is declared.
        named = self._file_of(Path(base or ""), system, public) if system else None
        if named is not None:
            inner = self._files[-1][1].ExternalEntityParserCreate(context)
            inner.SetBase(str(named))
            self._files.append((named, inner))
            inner.Parse(named.read_bytes(), True)
            self._files.pop()
        return 1


def _is_in(element: etree._Element, others: Collection[etree._Element]) -> bool:
    """Whether an element is one of some others, or stands in one."""
    return element in others or any(it in others for it in element.iterancestors())
