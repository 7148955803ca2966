"""The program's limits of a document, by which it is told where one is beyond them."""

from __future__ import annotations

from pathlib import Path
from xml.parsers import expat

from lxml import etree

from .trees import Untaken
from .words import MOST_WORDS, words_of

MOST_LEVELS = 200
MOST_NODES = 1_000_000
_MOST_KEPT_LINES = 65_535

BLANKS = " \t\r\n"
"""What white space is to XML."""


def check_limits(path: Path, root: etree._Element, without_blanks: bool) -> None:
    """`Untaken` where a document is beyond one of the program's limits, at the line where that shows: of levels, of nodes or of words."""
    level = [root]
    for _ in range(MOST_LEVELS):
        level = [child for element in level for child in element]
    if level:
        raise Untaken(path, level[0].sourceline, f"an element stands inside {MOST_LEVELS} others, the most that are read")
    _check_counts(path, root, without_blanks)


def _check_counts(path: Path, root: etree._Element, without_blanks: bool) -> None:
    """`Untaken` where there are too many nodes or words, at the line of the element where the first too many stands."""
    nodes = words = blanks = 0
    for element in root.iter(etree.Element):
        texts = [it for it in (element.text, element.tail) if it]
        nodes += 1 + len(texts)
        blanks += sum(1 for it in texts if not it.strip(BLANKS))
        words += sum(1 for text in texts for _ in words_of(text))
        if nodes > MOST_NODES:
            told = f"more than {MOST_NODES:,} elements and texts{_of_blanks(nodes, 0 if without_blanks else blanks)}: divide the file"
            raise Untaken(path, lines_of(root, path)[element], told)
        if words > MOST_WORDS:
            raise Untaken(path, lines_of(root, path)[element], f"more than {MOST_WORDS:,} words: divide the file")


def _of_blanks(nodes: int, blanks: int) -> str:
    """What is to be said of white space where there are too many elements and texts."""
    if not blanks:
        return ""
    return f", of which {round(100 * blanks / nodes)} % are white space between elements, which --drop-blanks leaves out; or else"


def lines_of(root: etree._Element, path: Path) -> dict[etree._Element, int]:
    """The lines of a document's elements. lxml keeps them exactly up to 65,535; a longer file is gone over again for them."""
    elements = list(root.iter(etree.Element))
    lines = [it.sourceline or 0 for it in elements]
    if lines and max(lines) >= _MOST_KEPT_LINES:
        exact: list[int] = []
        reader = expat.ParserCreate()
        reader.StartElementHandler = lambda name, attributes: exact.append(reader.CurrentLineNumber)
        try:
            reader.Parse(path.read_bytes(), True)
        except (expat.ExpatError, OSError):
            exact = []
        lines = exact if len(exact) == len(lines) else lines
    return dict(zip(elements, lines))
