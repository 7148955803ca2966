"""A question's answer, part after part, as the page and the JSON interface show it."""

from __future__ import annotations

import logging
from collections import Counter
from dataclasses import dataclass, field, replace
from typing import Iterator, Union

from ftq_client import ClientError, Element, QueryFault, Refusal, TimedOut

from ..answers import Manner, in_words, shown_attributes
from ..collection import Collection
from ..locating import Located
from ..marking import Marking, hint_of
from ..missing import all_hints
from ..mistakes import FAULTS, advice_for
from ..showing import Piece
from .desk import Desk, document_of, name_of
from .questions import Question, Stopped

LOG = logging.getLogger("ftq_ask")

USUAL_LIMIT = 50
MOST_SHOWN = 1_000
"""How many elements are shown at a time where a question doesn't say, and at most."""


@dataclass(frozen=True)
class Wish:
    """What is asked, and what is shown of the answer: the elements of one document or one name alone, so many from one on, whole or shortened."""

    path: str
    document: str = ""
    element: str = ""
    offset: int = 0
    limit: int = USUAL_LIMIT
    whole: bool = False
    as_typed: bool = False

    def taken(self, found: list[str]) -> list[str]:
        """The lines of the elements that are of the document and the name that are wanted."""
        of_document = [it for it in found if document_of(it) == self.document] if self.document else found
        return [it for it in of_document if name_of(it) == self.element] if self.element else of_document


@dataclass(frozen=True)
class Tally:
    """How many of the elements that were found have a document or a name; a document has a file too."""

    name: str
    count: int
    file: str = ""


@dataclass(frozen=True)
class Counted:
    """How many elements were found, and how many of them the wish takes; and those of each document and of each name, the other filter applied."""

    count: int
    taken: int
    documents: list[Tally] = field(default_factory=list)
    elements: list[Tally] = field(default_factory=list)


@dataclass(frozen=True)
class Hit:
    """An element that was found: its number in the answer and among those of its document, both from 1, and its text in pieces."""

    number: int
    in_document: int
    located: Located
    pieces: list[Piece]
    attributes: str = ""


@dataclass(frozen=True)
class Refused:
    """A question that can't be answered: what is wrong, the number of characters before the place, why, and what to write instead."""

    said: str
    column: int | None = None
    why: str = ""
    write: str = ""


@dataclass(frozen=True)
class Over:
    """A question that was stopped, took too long, or whose program ended."""

    said: str
    stopped: bool


@dataclass(frozen=True)
class Ended:
    """An answer is through: the hints beside it, and the seconds that it took."""

    hints: list[str]
    seconds: float


Part = Union[Counted, Hit, Refused, Over, Ended]


def answer(desk: Desk, question: Question, wish: Wish) -> Iterator[Part]:
    """The parts of an answer, each as soon as it is worked out: the counts, the elements, and what ends it."""
    view = desk.view(question, wish.as_typed)
    wish = replace(wish, document=view.named(wish.document))
    try:
        found = desk.found(view, wish.path)
        yield counted(view, found, wish)
        marking = Marking(wish.path, view)
        yield from hits(view, question, wish.taken(found), wish, marking)
        hints = all_hints(wish.path, len(found), view) + hint_of(marking, view)
    except Refusal as refusal:
        yield refused(wish.path, refusal, view)
        return
    except ValueError:
        yield Refused("a question is one line, and no comment")
        return
    except ClientError as error:
        yield over(error)
        return
    yield Ended(hints, question.taken)


def over(error: ClientError) -> Over:
    """What is said of a question that has no answer."""
    if isinstance(error, (Stopped, TimedOut)):
        return Over(str(error), True)
    LOG.warning("%s", error)
    return Over(f"{error}; it is started again for the next question", False)


def counted(view: Collection, found: list[str], wish: Wish) -> Counted:
    """The counts of an answer."""
    documents = Counter(map(document_of, replace(wish, document="").taken(found)))
    elements = Counter(map(name_of, replace(wish, element="").taken(found)))
    files = {name: str(source.path) for name, source in view.sources.items()}
    return Counted(
        len(found),
        len(wish.taken(found)),
        [Tally(name, count, files.get(name, "")) for name, count in documents.most_common()],
        [Tally(name, count) for name, count in elements.most_common()],
    )


def hits(view: Collection, question: Question, taken: list[str], wish: Wish, marking: Marking) -> Iterator[Hit]:
    """The elements that are shown, in their order."""
    inside = Counter(map(document_of, taken[: wish.offset]))
    for number, line in enumerate(taken[wish.offset : wish.offset + wish.limit], wish.offset + 1):
        question.left()
        element = Element.read(line)
        inside[element.document] += 1
        located = view.locator.locate(element)
        pieces = Manner(wish.whole).rows(located, marking.of(element))[0]
        attributes = shown_attributes(located) if not pieces and located.attributes else ""
        yield Hit(number, inside[element.document], located, pieces, attributes)


def refused(path: str, refusal: Refusal, view: Collection) -> Refused:
    """What is said of a refusal, and what to write instead: as at the terminal."""
    if not isinstance(refusal, QueryFault):
        return Refused(in_words(refusal, view.sources))
    column = refusal.column(path)
    said = f"{refusal.kind}: {FAULTS.get(refusal.kind, refusal.reply)}"
    try:
        advice = advice_for(path, (refusal.kind, column), view.fault_of)
    except ClientError:
        advice = None
    return Refused(said, column, advice.why if advice else "", (advice.write or "") if advice else "")
