"""The desk at which questions are asked: the collection, the engines behind it, and how many questions are let in at once."""

from __future__ import annotations

import copy
import threading
from concurrent.futures import Future, ThreadPoolExecutor
from pathlib import Path
from typing import Any, Callable, Iterator

from ..collection import Collection
from ..locating import Kept, Locator
from .pool import Asking, Pool
from .questions import Question

MOST_QUESTIONS = 24
"""How many questions are let in at once, those that wait for an engine counted."""

MOST_KEPT_ANSWERS = 16
MOST_KEPT_ELEMENTS = 500_000
"""How many answers are kept for the next page of them, and how many elements they have at most together."""

PATIENCE = 2.0
"""For how many seconds a question goes on that nobody waits for any more: to end a program costs more than a short answer."""


def document_of(line: str) -> str:
    """The name of the document in the line of an element."""
    end = line.index('"', 5)
    while line.startswith('""', end):
        end = line.index('"', end + 2)
    return line[5:end].replace('""', '"')


def name_of(line: str) -> str:
    """The name of the element that a line names."""
    return line[line.rindex("/") + 1 : line.rindex("[")]


def _in_order_of(names: list[str]) -> Callable[[list[tuple[str, ...]]], list[tuple[str, ...]]]:
    """Puts the replies of elements into the order of these documents. The programs have that of loading, which is another one once a file has
    changed."""
    ranks = {name: rank for rank, name in enumerate(names)}
    return lambda rows: sorted(rows, key=lambda it: ranks.get(document_of(it[0]), len(ranks)))


class Busy(Exception):
    """As many questions are being answered as are let in at once."""


class Desk:
    """A collection that several users ask at once."""

    def __init__(self, collection: Collection, pool: Pool, folder: str, seconds: float | None = None) -> None:
        """Over a collection that was named so. `seconds` is how long each question may take; None for as long as it does."""
        self.collection = collection
        self.folder = folder
        self.pool = pool
        self.seconds = seconds
        self.threads = ThreadPoolExecutor(max_workers=MOST_QUESTIONS, thread_name_prefix="ftq-answer")
        self.kept = Kept(16)
        self._questions: dict[str, Question] = {}
        self._answers: dict[tuple[int, bool, str], list[str]] = {}
        self._lock = threading.Lock()
        self.stopped = 0
        """How many questions were stopped by their names."""
        self.calls = 0
        """How many calls of tools/ask were answered."""
        self.freshen: Callable[[], None] = lambda: None
        """Takes in what has changed in the files since they were looked at."""

    @property
    def asked(self) -> int:
        """How many questions are being answered now."""
        return len(self._questions)

    def begin(self, limited: bool = True) -> Question:
        """Lets a question in, with the time that each has, or as much as it takes; `Busy` where there are as many as there may be."""
        with self._lock:
            if len(self._questions) >= MOST_QUESTIONS:
                raise Busy
            question = Question(self.seconds if limited else None)
            self._questions[question.name] = question
            return question

    def end(self, question: Question) -> None:
        """A question is answered, or over."""
        with self._lock:
            self._questions.pop(question.name, None)

    def leave(self, question: Question, step: Future[Any] | None) -> None:
        """Nobody waits for a question any more. While a step of its answer is still being worked out, it counts as one that is asked, goes on
        for a while, and is then stopped."""
        if step is None or step.done():
            self.end(question)
            return
        timer = threading.Timer(max(0.0, PATIENCE - question.taken), question.stop)
        timer.daemon = True
        timer.start()

        def through(_: Future[Any]) -> None:
            timer.cancel()
            self.end(question)

        step.add_done_callback(through)

    def stop(self, name: str) -> bool:
        """Stops the question of that name; whether there is one."""
        with self._lock:
            question = self._questions.get(name)
        if question is not None:
            question.stop()
            self.stopped += 1
        return question is not None

    def stop_all(self) -> None:
        """Stops all questions."""
        with self._lock:
            questions = list(self._questions.values())
        for question in questions:
            question.stop()

    def view(self, question: Question, as_typed: bool = False) -> Collection:
        """The collection as it is now, for one question."""
        with self._lock:
            view = copy.copy(self.collection)
            view.sources = dict(self.collection.sources)
        view.engine = Asking(self.pool, question, _in_order_of(list(view.sources)) if view.edition else lambda rows: rows)
        view.as_typed = as_typed
        view.told_of_apostrophes = view.told_of_marks = False
        view.locator = Locator(view.sources, view.rules, self.kept)
        return view

    def found(self, view: Collection, path: str) -> list[str]:
        """The lines of the elements that a path selects, in the order of the collection. An answer that was just given is given again."""
        key = (view.edition, view.as_typed, path)
        with self._lock:
            known = self._answers.pop(key, None)
            if known is not None:
                self._answers[key] = known
                return known
        found = view.lines(path)
        with self._lock:
            self._answers[key] = found
            while len(self._answers) > MOST_KEPT_ANSWERS or sum(map(len, self._answers.values())) > MOST_KEPT_ELEMENTS:
                del self._answers[next(iter(self._answers))]
        return found

    def renew(self, new: Collection) -> None:
        """From now on questions are asked of the collection as this one tells of it."""
        with self._lock:
            self.collection.renew(new)
            self._answers.clear()

    def files(self) -> Iterator[tuple[str, Path]]:
        """The documents with their files, in order."""
        for name, source in list(self.collection.sources.items()):
            yield name, source.path

    def close(self) -> None:
        """Stops all questions and ends all programs."""
        self.stop_all()
        self.pool.close()
        self.threads.shutdown(wait=False, cancel_futures=True)
