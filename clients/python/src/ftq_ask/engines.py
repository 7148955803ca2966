"""Sessions that load many documents without waiting for each, and of which others can be made: with the same documents and lists."""

from __future__ import annotations

import copy
from collections import deque
from pathlib import Path
from typing import Any, Callable, Iterable

from ftq_client import Refusal, Session, SessionFull, command_bytes
from ftq_client.program import Process

from .shares import Document, Faults, Shares

MOST_SENT = 16
"""How many documents are sent before the reply to the first of them is looked at."""

Done = Callable[[str, Exception | None], None]
"""Is told of each document that was loaded, and of the fault where it wasn't."""


class Loading(Session):
    """A session whose program has always something to read while it loads."""

    def load_group(self, documents: list[Document]) -> Faults:
        """Loads some documents; tells of each the fault, if there was one."""
        faults: Faults = {}
        self.load_all(documents, faults.__setitem__)
        return faults

    def load_all(self, documents: Iterable[Document], done: Done) -> None:
        """Loads documents, each with a share that doesn't matter here, one after the other."""
        sent: deque[tuple[str, bytes]] = deque()
        process = self._process
        try:
            for _, name, content in documents:
                command = command_bytes(f"load {self._word(name)}", content, self.session_format)
                if process is None or self._interrupted or process.sent + len(command) > self.limit:
                    self._take_replies(process, sent, 0, done)
                    try:
                        process = self._ready(len(command))
                    except SessionFull as full:
                        done(name, full)
                        continue
                self._take_replies(process, sent, MOST_SENT - 1, done)
                process.send(command)
                sent.append((name, command))
            self._take_replies(process, sent, 0, done)
        except BaseException:
            # What was sent and not answered is unknown: the next command starts a program with what was.
            self.interrupt()
            raise

    def _take_replies(self, process: Process | None, sent: deque[tuple[str, bytes]], left: int, done: Done) -> None:
        """Takes the replies to documents that were sent, until there are so few without one."""
        while process and len(sent) > left:
            name, command = sent.popleft()
            fault = None
            try:
                process.reply()
                self._history.add(f"load {self._word(name)}", command, self.session_format)
            except Refusal as refusal:
                fault = refusal
            done(name, fault)

    def twin(self) -> "Loading":
        """A session with the same documents and lists, once it is asked something. What was sent to this one is kept once for both."""
        other = Loading(self.program, limit=self.limit, session_format=self.session_format)
        other._history = copy.deepcopy(self._history)
        other.interrupt()
        return other


def engine_of(program: Path, workers: int | None) -> Any:
    """One program, or so many that divide the documents."""
    return Shares([Loading(program) for _ in range(workers)]) if workers and workers > 1 else Loading(program)
