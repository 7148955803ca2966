"""From an element's line to its file, its place there and its text."""

from __future__ import annotations

import re
import threading
from collections import OrderedDict
from dataclasses import dataclass
from functools import partial
from pathlib import Path
from typing import Callable

from lxml import etree

from ftq_client import Element

from .limits import lines_of
from .reading import Rules, Vocabulary, files_beside, read_tree
from .showing import Words
from .spots import Spots
from .trees import Tree, Untaken, texts_of, written_attributes, written_name


@dataclass(frozen=True)
class Source:
    """Where a document came from, the digest that its file had, its names and its bytes for the program, and whether it was edited since."""

    path: Path
    digest: bytes
    vocabulary: Vocabulary
    size: int
    edited: bool = False


_CLOSING = re.compile(r"[.,;:!?…)\]}”»]+(?=\s|\Z)")
_OPENING = ("(", "[", "{", "“", "«")


@dataclass(frozen=True)
class Located:
    """An element that was found, with its file, its line there from 1, the texts in it and its attributes; what isn't known is None."""

    element: Element
    path: Path | None = None
    line: int | None = None
    texts: tuple[str, ...] = ()
    attributes: tuple[tuple[str, str], ...] = ()
    note: str = ""
    text_lines: Callable[[], list[int | None]] = list
    """Tells the lines of the file at which the texts begin."""

    @property
    def text(self) -> str:
        """The element's text, as it stands in the file."""
        return "".join(self.texts)

    @property
    def shown(self) -> str:
        """The element's text with a blank at each boundary of elements, where a word ends too; none beside a mark that ends there anyway."""
        parts: list[str] = []
        for text in self.texts:
            if parts and not _CLOSING.match(text) and not parts[-1].endswith(_OPENING):
                parts.append(" ")
            parts.append(text)
        return "".join(parts)

    def first_mark(self, words: Words) -> tuple[int | None, str]:
        """The line of the file on which the first marked word stands, and the word; that of the element and nothing where none is marked, and that of
        the element where the word's line isn't known."""
        for number, (text, hits) in enumerate(zip(self.texts, words.hits_in(self.texts))):
            if hits:
                first, last, _ = hits[0]
                if number == 0 and "\n" not in text[:first]:
                    return self.line, text[first:last]
                line = next(iter(self.text_lines()[number:]), None)
                return (self.line if line is None else line + text.count("\n", 0, first)), text[first:last]
        return self.line, ""

    @property
    def place(self) -> str:
        """`FILE:LINE`, as far as it is known."""
        if self.path is None:
            return self.element.document
        return f"{self.path}:{self.line}" if self.line else str(self.path)


_ENCODING = re.compile(rb"<\?xml[^>]*encoding\s*=\s*[\"']([A-Za-z0-9._-]+)")


class FileLines:
    """The lines of files as they stand there; those of the last file are kept."""

    def __init__(self) -> None:
        self._path: Path | None = None
        self._lines: list[str] = []

    def round(self, path: Path, line: int, count: int) -> list[tuple[int, str]]:
        """A line, counted from 1, with so many before and after it, each with its number."""
        lines = self._of(path)
        return [(number, lines[number - 1]) for number in range(max(1, line - count), min(len(lines), line + count) + 1)]

    def line(self, path: Path, line: int) -> str:
        """That line; no text where the file hasn't so many."""
        return next((text for _, text in self.round(path, line, 0)), "")

    def _of(self, path: Path) -> list[str]:
        if path != self._path:
            try:
                data = path.read_bytes()
            except OSError:
                data = b""
            named = _ENCODING.match(data)
            try:
                text = data.decode(named[1].decode("ascii") if named else "utf-8-sig", errors="replace")
            except LookupError:
                text = data.decode("utf-8", errors="replace")
            self._path, self._lines = path, [it.removesuffix("\r") for it in text.split("\n")]
        return self._lines


class Document:
    """A document's tree, in which children are found by name and number in one look."""

    def __init__(self, tree: Tree, path: Path, rules: Rules) -> None:
        self.root = tree.root
        self.path = path
        self._tree, self._rules = tree, rules
        self._origins = tree.origins
        self._children: dict[etree._Element, dict[str, list[etree._Element]]] = {}
        self._known_spots: Spots | None = None
        self._lines = {} if tree.origins or self._brings_in else lines_of(tree.root, path)

    @property
    def _brings_in(self) -> bool:
        """Whether other files than inclusions were read for it: document types and entities, which may bring in elements."""
        return bool(self._tree.parts)

    @property
    def _spots(self) -> Spots:
        if self._known_spots is None:
            self._known_spots = Spots(self.root, self.path, self._origins, files_beside(self.path, self._rules, self._tree.parts))
        return self._known_spots

    def find(self, element: Element) -> etree._Element | None:
        """The element to which the steps lead."""
        first, *further = element.steps
        if first.name != written_name(self.root) or first.number != 1:
            return None
        here = self.root
        for step in further:
            children = self._by_name(here).get(step.name, [])
            if step.number > len(children):
                return None
            here = children[step.number - 1]
        return here

    def place(self, element: etree._Element) -> tuple[Path, int | None]:
        """The file in which an element stands, be it one that is included or that an entity brings in, and its line there."""
        if self._lines.get(element):
            return self.path, self._lines[element]
        here: etree._Element | None = element
        while here is not None and here not in self._origins:
            here = here.getparent()
        spot = self._spots.elements.get(element) if here is None and (self._brings_in or not element.sourceline) else None
        return spot or (self.path if here is None else self._origins[here], element.sourceline or None)

    def text_lines(self, element: etree._Element) -> list[int | None]:
        """The lines at which the texts in an element begin, as far as they are known and in the element's file."""
        path, _ = self.place(element)
        spots = [self._spots.texts.get((it, behind)) for it, behind, _ in texts_of(element)]
        return [spot[1] if spot and spot[0] == path else None for spot in spots]

    def _by_name(self, parent: etree._Element) -> dict[str, list[etree._Element]]:
        if parent not in self._children:
            found: dict[str, list[etree._Element]] = {}
            for child in parent:
                found.setdefault(written_name(child), []).append(child)
            self._children[parent] = found
        return self._children[parent]


class Kept:
    """Documents that were read to be shown, the last ones, since answers name one document after another."""

    def __init__(self, most: int = 4) -> None:
        self._most = most
        self._documents: OrderedDict[tuple[str, bytes], "Document | str"] = OrderedDict()
        self._lock = threading.Lock()

    def get(self, key: tuple[str, bytes], read: Callable[[], "Document | str"]) -> "Document | str":
        """The document of that name and digest, or why it can't be read, which `read` tells where it isn't kept."""
        with self._lock:
            document = self._documents.get(key)
        if document is None:
            document = read()
        with self._lock:
            self._documents[key] = document
            self._documents.move_to_end(key)
            if len(self._documents) > self._most:
                self._documents.popitem(last=False)
        return document


class Locator:
    """Finds elements in their files again."""

    def __init__(self, sources: dict[str, Source], rules: Rules, kept: Kept | None = None) -> None:
        self._sources = sources
        self._rules = rules
        self._kept = kept or Kept()

    def locate(self, element: Element) -> Located:
        """The element in its file, or why it can't be shown there: a document without a file, a file that has changed."""
        source = self._sources.get(element.document)
        document = self.document(element.document)
        if source is None or isinstance(document, str):
            return Located(element, source.path if source else None, note=str(document))
        found = document.find(element)
        if found is None:
            return Located(element, source.path, note="the file has no such element")
        path, line = document.place(found)
        texts = tuple(text for _, _, text in texts_of(found))
        return Located(element, path, line, texts, tuple(written_attributes(found)), text_lines=partial(document.text_lines, found))

    def document(self, name: str) -> "Document | str":
        """A document as its file has it, or why it can't be shown."""
        source = self._sources.get(name)
        if source is None:
            return "this document wasn't read from a file"
        if source.edited:
            return "the document was edited since it was read"
        known = source
        return self._kept.get((name, known.digest), lambda: self._read(known))

    def _read(self, source: Source) -> "Document | str":
        try:
            tree = read_tree(source.path, self._rules)
        except Untaken as untaken:
            return f"the file can't be read any more: {untaken.reason}"
        return Document(tree, source.path, self._rules) if tree.digest == source.digest else "the file has changed since it was read"
