"""Takes in what has changed in the files that are served, one by one, so that answers are those that a new start would give."""

from __future__ import annotations

import logging
import os
import threading
import time
from pathlib import Path

from ftq_client import ClientError

from ..collection import Collection
from ..reading import Reading
from ..renewing import Renewal
from .desk import Desk
from .pool import Asking
from .questions import Question
from .watching import Files, Look

LOG = logging.getLogger("ftq_ask")

QUIET = 0.3
"""For how many seconds nothing may change before what has is taken in without a question."""


class Freshness:
    """Keeps a desk's collection as the files are."""

    def __init__(self, desk: Desk, files: Files, looked: Look, paths: list[Path]) -> None:
        """With how the files were before the collection was read from these paths."""
        self._desk = desk
        self._files = files
        self._looked = looked
        self._paths = paths
        self._renewal = Renewal(desk.collection, paths, desk.pool.change)
        self._lock = threading.Lock()
        self._closed = False
        self._failed = False
        self._thread = threading.Thread(target=self._follow, name="ftq-files", daemon=True)
        self._thread.start()

    def freshen(self) -> None:
        """Takes in what has changed since the last time."""
        with self._lock:
            if not self._files.stirred() and not self._failed:
                return
            collection = self._desk.collection
            looked = self._files.look(time.time_ns(), self._elsewhere(collection))
            if looked == self._looked:
                return
            self._failed = True
            try:
                changed = {it for it in looked.keys() | self._looked.keys() if looked.get(it) != self._looked.get(it)}
                self._take_in(changed)
                self._looked, self._failed = looked, False
            except (ClientError, OSError) as error:
                LOG.warning("what has changed couldn't be taken in: %s", error)

    def close(self) -> None:
        """Follows the files no more."""
        self._closed = True
        self._thread.join()
        self._files.watch.close()

    def _follow(self) -> None:
        """Takes changes in as they come, so that the next question needn't wait for them."""
        while not self._closed:
            if not self._files.watch.wait(QUIET):
                if not self._files.watch.tells:
                    return
                continue
            time.sleep(QUIET)
            self.freshen()

    def _elsewhere(self, collection: Collection) -> set[str]:
        """The files that were looked for beside others, and stand in no folder that was named."""
        folders = [os.path.realpath(it) for it in self._paths]
        beside = {it for reading in collection.known.values() if isinstance(reading, Reading) for it in reading.beside}
        return {os.fspath(it) for it in beside if not any(it.is_relative_to(folder) for folder in folders)}

    def _take_in(self, changed: set[str]) -> None:
        """Makes the collection anew where these files have changed."""
        new, came = self._renewal.renewed(self._desk.collection, changed)
        if new.stems and new.stems.add(text for it in came for text in it.texts()):
            new.engine = Asking(self._desk.pool, Question(), lambda lines: lines)
            new.send_stems()
        self._desk.renew(new)
