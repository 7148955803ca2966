"""Reading many files in turn: what was read before is kept, the rest is read by several processes, and all of it ahead of whoever takes it."""

from __future__ import annotations

import os
import queue
import signal
import threading
from collections import deque
from concurrent.futures import BrokenExecutor, Future
from pathlib import Path
from types import TracebackType
from typing import TYPE_CHECKING, Iterator, TypeVar, Union

from .caching import Cache
from .reading import Reading, Rules, read_file
from .trees import Untaken

if TYPE_CHECKING:
    from concurrent.futures import ProcessPoolExecutor

Row = TypeVar("Row")
Read = Union[Reading, Untaken]

GROUP = 16
"""How many files are handed over at a time."""

AHEAD = 6
"""How many groups are read before they are taken."""

FEW_BYTES = 2_000_000
"""From how many bytes on it is worth while to start processes."""

MOST_PROCESSES = 4
_END_WITH_PARENT = 1


class Reader:
    """Reads files, in the order in which they are named."""

    def __init__(self, rules: Rules, cache: Cache | None = None, processes: int | None = None) -> None:
        """With what was read before, if there is such a cache, and in so many processes; 0 for this one alone."""
        self._rules = rules
        self._cache = cache
        self._processes = min(MOST_PROCESSES, len(os.sched_getaffinity(0))) if processes is None else processes
        self._pool: ProcessPoolExecutor | None = None

    def stay_alone(self) -> None:
        """Reads in this process alone from now on: others can't be begun once it has threads."""
        self._processes = 0

    def __enter__(self) -> "Reader":
        return self

    def __exit__(self, kind: type[BaseException] | None, value: BaseException | None, traceback: TracebackType | None) -> None:
        if self._pool:
            self._pool.shutdown(cancel_futures=True)
            self._pool = None
        if self._cache:
            self._cache.flush()

    def read(self, paths: list[Path]) -> Iterator[Read]:
        """Each file, or why it isn't taken."""
        if self._processes > 1 and len(paths) > GROUP and self._is_much(paths):
            # The processes are started by the thread that ends last, since they end with it, and before there are others.
            self._pool = _begun_pool(self._processes)
        if len(paths) <= GROUP:
            return (it for group in self._groups(paths) for it in group)
        return (it for group in ahead(self._groups(paths), AHEAD) for it in group)

    def _is_much(self, paths: list[Path]) -> bool:
        """Whether there is much to read that wasn't read before, by some of the files."""
        some = paths[:: max(1, len(paths) // 12)]
        unknown = [it for it in some if not (self._cache and self._cache.get(it, self._rules))]
        return sum(map(_size_of, unknown)) * len(paths) / len(some) > FEW_BYTES

    def _groups(self, paths: list[Path]) -> Iterator[list[Read]]:
        waiting: deque[tuple[list[Path], dict[Path, Reading], Future[list[Read]] | list[Read]]] = deque()
        for start in range(0, len(paths), GROUP):
            group = paths[start : start + GROUP]
            known = {it: reading for it in group if (reading := self._known(it))}
            unknown = [it for it in group if it not in known]
            waiting.append((group, known, self._begun(unknown)))
            while waiting and (len(waiting) > AHEAD or not isinstance(waiting[0][2], Future)):
                yield self._joined(*waiting.popleft())
        while waiting:
            yield self._joined(*waiting.popleft())

    def _begun(self, paths: list[Path]) -> Future[list[Read]] | list[Read]:
        """Files that are read, or are being read by another process."""
        if self._pool and paths:
            try:
                return self._pool.submit(read_group, paths, self._rules)
            except BrokenExecutor:
                pass
        return read_group(paths, self._rules)

    def _known(self, path: Path) -> Reading | None:
        return self._cache.get(path, self._rules) if self._cache else None

    def _joined(self, group: list[Path], known: dict[Path, Reading], read: Future[list[Read]] | list[Read]) -> list[Read]:
        """The files of a group in their order; what was read anew is kept. Where a process has ended before its time, they are read here."""
        try:
            new = iter(read.result() if isinstance(read, Future) else read)
        except BrokenExecutor:
            new = iter(read_group([it for it in group if it not in known], self._rules))
        rows = [known[it] if it in known else next(new) for it in group]
        for path, row in zip(group, rows):
            if self._cache and path not in known and isinstance(row, Reading):
                self._cache.put(path, row, self._rules)
        return rows


def read_group(paths: list[Path], rules: Rules) -> list[Read]:
    """Some files, or why they aren't taken."""
    rows: list[Read] = []
    for path in paths:
        try:
            rows.append(read_file(path, rules, checked=False))
        except Untaken as untaken:
            untaken.named = path
            rows.append(untaken)
    return rows


def ahead(rows: Iterator[Row], most: int) -> Iterator[Row]:
    """The same rows, worked out in a thread before they are taken, so many at most."""
    kept: queue.Queue[tuple[bool, Row | BaseException | None]] = queue.Queue(most)
    left = threading.Event()

    def put(more: bool, row: Row | BaseException | None) -> None:
        while not left.is_set():
            try:
                kept.put((more, row), timeout=0.2)
                return
            except queue.Full:
                continue

    def work() -> None:
        try:
            for row in rows:
                put(True, row)
                if left.is_set():
                    return
            put(False, None)
        except BaseException as error:
            put(False, error)

    thread = threading.Thread(target=work, name="ftq-reading", daemon=True)
    thread.start()
    try:
        while True:
            more, row = kept.get()
            if not more:
                if isinstance(row, BaseException):
                    raise row
                return
            yield row  # type: ignore[misc]
    finally:
        left.set()
        thread.join()


def _begun_pool(processes: int) -> ProcessPoolExecutor:
    """Processes that read. What they need is imported here, since a start that reads nothing anew does without it."""
    import ctypes  # noqa: F401
    from concurrent.futures import ProcessPoolExecutor
    from multiprocessing import get_context

    pool = ProcessPoolExecutor(processes, get_context("fork"), _begin, (os.getpid(),))
    pool.submit(os.getpid).result()
    return pool


def _begin(parent: int) -> None:
    """A process that reads is not interrupted, and ends where the one that it reads for has ended."""
    import ctypes

    signal.signal(signal.SIGINT, signal.SIG_IGN)
    ctypes.CDLL(None).prctl(_END_WITH_PARENT, signal.SIGKILL)
    if os.getppid() != parent:
        os._exit(1)


def _size_of(path: Path) -> int:
    try:
        return path.stat().st_size
    except OSError:
        return 0
