"""Questions on their way: how long each may take, and how it is stopped."""

from __future__ import annotations

import secrets
import threading
import time
from contextlib import contextmanager
from typing import Any, Iterator

from ftq_client import ClientError, TimedOut


class Stopped(ClientError):
    """A question was stopped before it was answered."""

    def __init__(self) -> None:
        super().__init__("the question was stopped")


class Question:
    """A question: what it is called, how long it may take, and the engine that is at it, which is interrupted where the question is stopped."""

    def __init__(self, seconds: float | None = None) -> None:
        self.name = secrets.token_hex(8)
        self.seconds = seconds
        self.stopped = False
        self._begun = time.monotonic()
        self._engine: Any = None
        self._lock = threading.Lock()

    @property
    def taken(self) -> float:
        """The seconds since it came."""
        return time.monotonic() - self._begun

    def left(self) -> float | None:
        """The seconds that it may still take, more than none; None for as long as it takes. Raises `Stopped` or `TimedOut` where it is over."""
        if self.stopped:
            raise Stopped
        if self.seconds is None:
            return None
        left = self.seconds - self.taken
        if left <= 0:
            raise TimedOut(self.seconds)
        return left

    def stop(self) -> None:
        """Gives the question up: what is at it is interrupted, from whatever thread this is called."""
        with self._lock:
            self.stopped = True
            if self._engine is not None:
                self._engine.interrupt()

    @contextmanager
    def at(self, engine: Any) -> Iterator[None]:
        """While this lasts, the engine is at the question."""
        with self._lock:
            if self.stopped:
                raise Stopped
            self._engine = engine
        try:
            yield
        finally:
            with self._lock:
                self._engine = None
