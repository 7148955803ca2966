"""Takes what has changed in files into a collection, one by one, so that it is as one that is read anew."""

from __future__ import annotations

import copy
import os
from dataclasses import replace
from pathlib import Path
from typing import Any, Callable

from ftq_client import DocumentFault, Full, Names, NameTaken, NoSuchName, SessionFull

from .choosing import PART
from .collection import Collection, Planned
from .loading import Read
from .locating import Source
from .reading import Reading, Vocabulary
from .trees import Untaken

Change = Callable[[Any], None]
"""What is done to an engine."""


class Renewal:
    """What the engines hold of files, and how they come to hold them as they are now."""

    def __init__(self, collection: Collection, paths: list[Path], change: Callable[[Change], None]) -> None:
        """Of a collection that was read from these paths; `change` does a change to each engine that holds it."""
        self._paths = paths
        self._change_engines = change
        self._held = {name: (it.path, it.digest) for name, it in collection.sources.items()}

    def renewed(self, old: Collection, changed: set[str]) -> tuple[Collection, list[Reading]]:
        """The collection anew, from what is known of files that haven't changed, and those that have; and what was read for it."""
        changed = changed | {os.path.realpath(it) for it in changed}
        new = copy.copy(old)
        new.choice, new._names, new.untaken, new.known = old.choice.again(), Names(old.session_format), [], {}
        planned = new.plan(self._paths)
        again = [it for it in planned if _is_to_read(it, old.known.get(it.path), changed)]
        contents: dict[Path, Reading] = {}
        self._read(old, again, contents)
        rows = {it.path: contents.get(it.path, old.known[it.path]) for it in planned}
        while True:
            parts = {part for it in rows.values() if isinstance(it, Reading) for part in it.parts}
            wanted = [it for it in planned if isinstance(rows[it.path], Reading) and not _is_part(it, parts)]
            faults = self._change(old, wanted, rows, contents)
            if not faults:
                break
            # What the program refuses has no parts; these may be documents of their own then.
            rows.update(faults)
        self._finish(new, planned, wanted, rows)
        return new, list(contents.values())

    def _read(self, collection: Collection, planned: list[Planned], contents: dict[Path, Reading]) -> None:
        """Reads files; what isn't taken is known from then on."""
        with collection.reader as reader:
            for it, row in zip(planned, reader.read([it.path for it in planned])):
                collection.known[it.path] = row if isinstance(row, Untaken) else replace(row, content=b"")
                if isinstance(row, Reading):
                    contents[it.path] = row

    def _change(self, old: Collection, wanted: list[Planned], rows: dict[Path, Read], contents: dict[Path, Reading]) -> dict[Path, Untaken]:
        """Drops and loads what is another one than the programs have; what they refuse, by its file."""
        held = self._held
        now = {it.name: (it.path, _digest(rows[it.path])) for it in wanted}
        gone = [name for name, as_it_was in held.items() if now.get(name) != as_it_was]
        coming = [it for it in wanted if it.name in gone or it.name not in held]
        self._read(old, [it for it in coming if it.path not in contents], contents)
        documents = [(it, contents[it.path]) for it in coming if it.path in contents]
        faults: dict[Path, Untaken] = {it.path: row for it in coming if isinstance(row := old.known[it.path], Untaken)}

        def change(engine: Any) -> None:
            for name in gone:
                try:
                    engine.drop(name)
                except NoSuchName:
                    pass
            for it, reading in documents:
                try:
                    _put(engine, it.name, reading.content)
                except (DocumentFault, Full, SessionFull) as fault:
                    faults[it.path] = old.untaken_of(reading, fault)

        if gone or documents:
            self._change_engines(change)
        for name in gone:
            del held[name]
        held.update({it.name: (it.path, reading.digest) for it, reading in documents if it.path not in faults})
        old.known.update(faults)
        return dict(faults)

    def _finish(self, new: Collection, planned: list[Planned], wanted: list[Planned], rows: dict[Path, Read]) -> None:
        """What is known of the documents, in their order."""
        new.sources, new.vocabulary, new.bytes = {}, Vocabulary(), 0
        documents = {it.path for it in wanted}
        parts = {part for it in rows.values() if isinstance(it, Reading) for part in it.parts}
        for it in planned:
            row = rows[it.path]
            new.known[it.path] = row if isinstance(row, Untaken) else replace(row, content=b"")
            if it.path in documents and isinstance(row, Reading):
                new.sources[it.name] = Source(it.path, row.digest, row.vocabulary, row.size)
                new.vocabulary.add(row.vocabulary)
                new.bytes += row.size
            elif _is_part(it, parts):
                new.choice.pass_over(it.path, PART)
            elif isinstance(row, Untaken):
                new.untaken.append(row)


def _put(engine: Any, name: str, content: bytes) -> None:
    """Loads a document, also where an attempt that was cut off has loaded it."""
    try:
        engine.load(name, content)
    except NameTaken:
        engine.drop(name)
        engine.load(name, content)


def _digest(row: Read) -> bytes:
    return row.digest if isinstance(row, Reading) else b""


def _is_part(it: Planned, parts: set[Path]) -> bool:
    return not it.named and bool(parts) and it.path.resolve() in parts


def _is_to_read(it: Planned, known: Read | None, changed: set[str]) -> bool:
    """Whether a file is to be read again: itself or one beside it has changed, or it wasn't taken, be it for one beside it."""
    if not isinstance(known, Reading):
        return True
    return os.fspath(it.path) in changed or any(os.fspath(beside) in changed for beside in known.beside)
