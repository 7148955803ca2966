"""Trees of elements as lxml has them: their names as they are written, and nodes that are put in the place of others."""

from __future__ import annotations

from dataclasses import dataclass
from pathlib import Path
from typing import Iterator

from lxml import etree


class Untaken(Exception):
    """A file that can't be taken, with the line where that shows (None where it has none) and the reason."""

    def __init__(self, path: Path, line: int | None, reason: str) -> None:
        super().__init__(f"{path}:{line}: {reason}" if line else f"{path}: {reason}")
        self.path = path
        self.line = line
        self.reason = reason
        self.named = path
        """The file that was to be read, where the fault is in one that stands in it."""

    def __reduce__(self) -> tuple[type["Untaken"], tuple[Path, int | None, str], dict[str, Path]]:
        return Untaken, (self.path, self.line, self.reason), {"named": self.named}


@dataclass(frozen=True)
class Tree:
    """A file's root element, the digest of all that was read for it, of elements that an inclusion brought in the files they are from, the
    files that stand in it as wholes, all files that were looked for beside it, be they there or not, and the digest of the file alone."""

    root: etree._Element
    digest: bytes
    origins: dict[etree._Element, Path]
    parts: frozenset[Path]
    beside: frozenset[Path]
    own: bytes


def written_name(element: etree._Element) -> str:
    """An element's name as it is written in the file, with its prefix."""
    name = element.tag.rpartition("}")[2]
    return f"{element.prefix}:{name}" if element.prefix else name


def written_attributes(element: etree._Element) -> Iterator[tuple[str, str]]:
    """An element's attributes as the program sees them, with declarations of prefixes."""
    above = element.getparent()
    known = above.nsmap if above is not None else {}
    for prefix, space in element.nsmap.items():
        if known.get(prefix) != space:
            yield (f"xmlns:{prefix}" if prefix else "xmlns"), space
    prefixes = {space: prefix for prefix, space in element.nsmap.items() if prefix}
    prefixes["http://www.w3.org/XML/1998/namespace"] = "xml"
    for name, value in element.attrib.items():
        space, _, local = name.rpartition("}")
        yield (f"{prefixes[space[1:]]}:{local}" if space else name), value


def texts_of(element: etree._Element) -> Iterator[tuple[etree._Element, bool, str]]:
    """The texts in an element, in their order: each that stands at the front of an element or behind its end (True), with that element."""
    for event, it in etree.iterwalk(element, events=("start", "end")):
        if event == "start" and it.text:
            yield it, False, it.text
        elif event == "end" and it.tail and it is not element:
            yield it, True, it.tail


def put_text(node: etree._Element, text: str) -> None:
    """Puts a text, and what follows the node, in the place of the node."""
    before, above = node.getprevious(), node.getparent()
    text += node.tail or ""
    node.tail = None
    above.remove(node)
    if before is not None:
        before.tail = (before.tail or "") + text
    else:
        above.text = (above.text or "") + text


def put_nodes(node: etree._Element, text: str, elements: list[etree._Element]) -> None:
    """Puts a text and elements, each with the text behind it, and what follows the node, in the place of the node."""
    above = node.getparent()
    if not elements:
        put_text(node, text)
        return
    place = above.index(node)
    before = above[place - 1] if place else None
    if before is not None:
        before.tail = (before.tail or "") + text
    else:
        above.text = (above.text or "") + text
    elements[-1].tail = (elements[-1].tail or "") + (node.tail or "")
    above[place : place + 1] = elements
