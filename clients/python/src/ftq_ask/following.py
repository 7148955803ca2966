"""Keeps questions as standing ones: tells what comes and goes in their answers as files change, until it is interrupted."""

from __future__ import annotations

import csv
import json
import os
import queue
import time
from argparse import Namespace
from contextlib import contextmanager
from itertools import chain
from pathlib import Path
from typing import Any, Callable, Iterator

from rich.console import Console
from rich.text import Text
from watchdog.events import FileSystemEvent, FileSystemEventHandler
from watchdog.observers import Observer

from ftq_client import Changes, ClientError, Element, Refusal, TimedOut

from . import answers
from .collection import Collection
from .locating import FileLines, Located
from .marking import Marking
from .missing import all_hints
from .renewing import Renewal
from .showing import Asked

QUIET = 0.3
"""For how many seconds nothing may change before what has is taken in, so that changes close together count as one."""

PATIENCE = 3.0
"""After how many seconds it is taken in all the same."""

CHANGES = frozenset({"created", "modified", "moved", "deleted", "closed"})
"""What is told of files and counts as a change; that they are read doesn't."""

FOLLOWED, FAULT = 0, 2


def follow(collection: Collection, options: Namespace, load: Callable[[], None], errors: Console) -> int:
    """Follows the questions of a call, once `load` has loaded its files: the exit status. What changes while they are loaded counts too."""
    collection.reader.stay_alone()
    try:
        with watched(options.paths) as stirred:
            load()
            following = Following(collection, options, errors)
            if not following.begin():
                return FAULT
            while True:
                following.take_in(stirred.wait())
    except KeyboardInterrupt:
        return FOLLOWED


class Unwatched(ClientError):
    """The system doesn't tell of changes, as where there are more folders than it watches for one user."""


class Stirred(FileSystemEventHandler):
    """The files of which the system tells that they have changed."""

    def __init__(self) -> None:
        self._told: queue.SimpleQueue[str] = queue.SimpleQueue()

    def on_any_event(self, event: FileSystemEvent) -> None:
        """Takes note of a change, with both names of what was moved."""
        if event.event_type in CHANGES:
            for path in (event.src_path, getattr(event, "dest_path", "")):
                if path:
                    self._told.put(os.path.normpath(os.fsdecode(path)))

    def wait(self) -> set[str]:
        """Waits for a change, and then until nothing more changes for a while: all files that have changed."""
        paths = {self._told.get()}
        end = time.monotonic() + PATIENCE
        while time.monotonic() < end:
            try:
                paths.add(self._told.get(timeout=QUIET))
            except queue.Empty:
                break
        return paths


@contextmanager
def watched(paths: list[Path]) -> Iterator[Stirred]:
    """What changes in these folders and of these files while this lasts; `Unwatched` where the system doesn't tell."""
    stirred = Stirred()
    observer: Any = Observer()
    try:
        for folder in {it for it in paths if it.is_dir()}:
            observer.schedule(stirred, os.fspath(folder), recursive=True)
        for folder in {it.parent for it in paths if not it.is_dir() and it.parent.is_dir()}:
            observer.schedule(stirred, os.fspath(folder), recursive=False)
        observer.start()
    except OSError as error:
        raise Unwatched(f"these files can't be followed: {error}") from error
    try:
        yield stirred
    finally:
        observer.stop()
        observer.join()


class Following:
    """Questions that are kept as standing ones, over files that change."""

    def __init__(self, collection: Collection, options: Namespace, errors: Console) -> None:
        """Of a collection that was read as the words of a call say."""
        self._collection = collection
        self._errors = errors
        self._questions = {f"q{number}": path for number, path in enumerate(options.follow, 1)}
        self._refused: set[str] = set()
        self._renewal = Renewal(collection, options.paths, lambda change: change(collection.engine))
        self._files: dict[str, Path] = {}
        manner = answers.Manner(options.whole, options.every_mark, options.context)
        self._output = Output(collection, self._files, options.format, manner, len(options.follow) > 1)

    def begin(self) -> bool:
        """Keeps the questions, and says what their answers are now; whether none is refused."""
        self._know()
        for name, path in self._questions.items():
            try:
                self._collection.reply_to(f"watch {name} ", path)
                count = len(self._collection.query(path))
            except Refusal as refusal:
                answers.say_refusal(self._errors, path, refusal, self._collection, "ask: ")
                return False
            answers.say(self._errors, f"{answers.counted(count)} now: {path}")
            answers.say_hints(self._errors, all_hints(path, count, self._collection))
        answers.say(self._errors, "what comes and goes follows, until Ctrl-C")
        return True

    def take_in(self, paths: set[str]) -> None:
        """Takes in files that have changed, and tells what came and went by that."""
        collection, known = self._collection, {str(it) for it in self._collection.untaken}
        new, read = self._renewal.renewed(collection, paths)
        collection.renew(new)
        if collection.stems and collection.stems.add(text for it in read for text in it.texts()):
            collection.send_stems()
        for untaken in collection.untaken:
            if str(untaken) not in known:
                answers.say(self._errors, f"ask: {untaken}")
        self._know()
        for name, path in self._questions.items():
            self._tell(name, path)

    def _know(self) -> None:
        """Takes note of the documents that there are now, in their order, and behind them of those that are gone."""
        now = {name: source.path for name, source in self._collection.sources.items()}
        gone = {name: path for name, path in self._files.items() if name not in now}
        self._files.clear()
        self._files.update(now | gone)

    def _tell(self, name: str, path: str) -> None:
        """Tells what has changed in the answer to a question. That it can't be answered, since its document is gone, is said once."""
        try:
            changes = self._collection.engine.changes(name)
        except Refusal as refusal:
            if name not in self._refused:
                answers.say_refusal(self._errors, path, refusal, self._collection, "ask: ")
            self._refused.add(name)
            return
        except TimedOut as late:
            answers.say(self._errors, f"ask: {late}: {path}")
            return
        self._refused.discard(name)
        if changes:
            self._output.write(path, Changes(self._in_order(changes.went), self._in_order(changes.came)))

    def _in_order(self, elements: tuple[Element, ...]) -> tuple[Element, ...]:
        """Elements in the order of their files: the program has those last that have changed last."""
        ranks = {name: rank for rank, name in enumerate(self._files)}
        return tuple(sorted(elements, key=lambda it: ranks.get(it.document, len(ranks))))


class Output:
    """Changes on standard output: a sign before each element, `-` where it went and `+` where it came."""

    def __init__(self, collection: Collection, files: dict[str, Path], form: str, manner: answers.Manner, many: bool) -> None:
        """In this form, with texts in this manner; where there are many questions, each is told apart as in their answers. `files` are those of
        documents, also of such as are gone."""
        self._collection = collection
        self._files = files
        self._console = Console(highlight=False)
        self._form = form
        self._manner = manner
        self._many = many
        self._rows: csv.DictWriter[str] | None = None

    def write(self, path: str, changes: Changes) -> None:
        """Writes the changes in the answer to a question, those that went first."""
        out = self._console.file
        if self._many and self._form in ("text", "paths"):
            out.write(f"==> {path} <==\n")
            out.flush()
        marking = Marking(path, self._collection)
        for sign, located in self._located(changes):
            if self._form == "paths":
                out.write(f"{sign} {located.element.line}\n")
                continue
            words = marking.of(located.element) if sign == "+" else Asked("")
            if self._form == "text":
                front = Text(f"{sign} ", "green" if sign == "+" else "red")
                answers.write_element(self._console, located, words, self._manner, FileLines(), front)
            else:
                self._write_row({"query": path, "change": sign, **answers.row_of(located, words, self._manner)})
        out.flush()

    def _located(self, changes: Changes) -> Iterator[tuple[str, Located]]:
        """Each element in its file, where that has to be known. Of one that went nothing else is known any more."""
        went = (("-", Located(it, self._files.get(it.document))) for it in changes.went)
        came = (("+", Located(it) if self._form == "paths" else self._collection.locator.locate(it)) for it in changes.came)
        return chain(went, came)

    def _write_row(self, row: dict[str, object]) -> None:
        """An object of JSON in a line, or a line of CSV, the first one behind the names."""
        if self._form == "json":
            self._console.file.write(json.dumps(row, ensure_ascii=False) + "\n")
            return
        if self._rows is None:
            names = [it for it in row if (self._many or it != "query") and it != "further"]
            self._rows = csv.DictWriter(self._console.file, names, extrasaction="ignore", lineterminator="\n")
            self._rows.writeheader()
        self._rows.writerow(answers.flat(row))
