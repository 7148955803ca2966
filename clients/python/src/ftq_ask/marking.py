"""Which words of an answer's elements are marked: those by which the program shows why an element is found, or else those that the question has."""

from __future__ import annotations

from ftq_client import ClientError, Element, Shown, TimedOut

from .collection import Collection
from .paths import DOCUMENTS, ignores, last_test, quoted
from .showing import Asked, Marked, Words

MOST_SECONDS = 10.0
"""How long it may take to say which words are marked, where questions may take longer: the answer is there without that."""


class Marking:
    """The marks in the answer to one question."""

    def __init__(self, path: str, collection: Collection, all_shown: bool = False) -> None:
        """Where all elements of the answer are shown, they are asked for document by document, and one by one else."""
        self._path = path
        self._collection = collection
        self._test = last_test(path)
        self._asked = Asked(collection.sent(path), collection.stems.stem if collection.stems else None)
        self._told = bool(self._asked and self._test) and collection.can_show(self._test)
        self._all_shown = all_shown
        self._late = False
        self._document = ""
        self._known: dict[str, Shown] = {}

    @property
    def hint(self) -> str:
        """What is to be said where words were marked since the question has them, and the program could show marks, though not of this one."""
        if not self._asked.has_marked or self._told or not self._collection.can_show(""):
            return ""
        ending = "some of what it searches is ignored" if ignores(self._path) else "it doesn't end in [. contains text ..]"
        why = "the program can't show by which words it is met" if self._test else ending
        why = f"by which words it is met isn't found in {MOST_SECONDS:g} s" if self._late else why
        return f"the words of this question are marked wherever they stand, since {why}"

    def of(self, element: Element) -> Words:
        """The marked words of an element that the question has found."""
        if not self._told:
            return self._asked
        try:
            if self._all_shown and element.document != self._document:
                self._know(element.document)
            shown = self._known.get(element.line) or self._shown(element.line + self._test)[0]
        except TimedOut:
            self._told, self._late = False, True
            return self._asked
        except (ClientError, IndexError):
            return self._asked
        return Marked(shown)

    def _know(self, document: str) -> None:
        """Asks for all that the question has found in a document."""
        front = DOCUMENTS.match(self._path)
        self._document, self._known = document, {}
        if front:
            self._known = {it.line: it for it in self._shown(f"doc({quoted(document)}){self._path[front.end() :]}")}

    def _shown(self, path: str) -> list[Shown]:
        """What a path selects, with its marks, as long as these don't take too long."""
        engine, seconds = self._collection.engine, self._collection.seconds
        engine.give_up_after(MOST_SECONDS if seconds is None else min(seconds, MOST_SECONDS))
        try:
            return self._collection.shown(path)
        finally:
            engine.give_up_after(seconds)


def hint_of(marking: Marking, collection: Collection) -> list[str]:
    """That words are marked by guess, the first time that they are."""
    hint = "" if collection.told_of_marks else marking.hint
    collection.told_of_marks = collection.told_of_marks or bool(hint)
    return [hint] if hint else []
