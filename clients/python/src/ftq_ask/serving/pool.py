"""Several engines that hold the same collection: one answers while another is at a long question, or is brought up again after one was stopped."""

from __future__ import annotations

import logging
import threading
from collections import deque
from concurrent.futures import ThreadPoolExecutor
from typing import Any, Callable, cast

from ftq_client import ClientError, Found, ProgramEnded, Refusal, Reply, TimedOut
from ftq_client.replies import LINES_EACH

from ..collection import NOWHERE
from .questions import Question, Stopped

LOG = logging.getLogger("ftq_ask")

Change = Callable[[Any], None]
"""What is done to an engine, and so to each of them."""

_LOOK_AGAIN = 0.25
"""After how many seconds whoever waits for an engine looks whether the question is still asked."""


class Member:
    """An engine, and the changes that were done to others and not to this one yet."""

    def __init__(self, engine: Any) -> None:
        self.engine = engine
        self.behind: list[Change] = []

    def catch_up(self) -> None:
        """Does what this engine is behind with, however long it takes. What one of them refuses the first one refused too."""
        if self.behind:
            self.engine.give_up_after(None)
        while self.behind:
            try:
                self.behind[0](self.engine)
            except Refusal:
                pass
            del self.behind[0]


class Pool:
    """Engines over the same documents. Questions are asked of whichever is idle, in the order in which they come; changes are done to one, and
    to each of the others before it is asked next."""

    def __init__(self, first: Any, count: int = 2) -> None:
        """Over an engine that is loaded, and so many less one that are made like it in the background."""
        self._members = [Member(first)]
        self._idle = [self._members[0]]
        self._waiting: deque[Question] = deque()
        self._state = threading.Condition()
        self._changing = threading.RLock()
        self._closed = False
        self._background = ThreadPoolExecutor(max_workers=max(1, count - 1), thread_name_prefix="ftq-spare")
        for _ in range(count - 1):
            member = Member(first.twin())
            self._members.append(member)
            self._background.submit(self._revive, member)

    @property
    def idle(self) -> int:
        """How many engines are loaded, and at no question."""
        with self._state:
            return len(self._idle)

    @property
    def count(self) -> int:
        """How many engines there are."""
        return len(self._members)

    def ask(self, question: Question, line: str, seconds: float | None = None) -> Reply:
        """The reply to a command that changes nothing, which may take so many seconds by itself. Raises `Stopped` or `TimedOut` where the
        question is over; the engine that was at it is then brought up again in the background."""
        member = self._take(question)
        whole = False
        try:
            member.catch_up()
            limits = [it for it in (seconds, question.left()) if it is not None]
            member.engine.give_up_after(min(limits, default=None))
            with question.at(member.engine):
                reply = cast(Reply, member.engine.command(line))
            whole = not question.stopped
            return reply
        except Refusal:
            whole = not question.stopped
            raise
        except ProgramEnded:
            if question.stopped:
                raise Stopped from None
            raise
        except TimedOut as late:
            raise TimedOut(late.seconds if seconds == late.seconds else question.seconds or 0) from None
        except Stopped:
            whole = True
            raise
        finally:
            self._return(member, whole)

    def change(self, change: Change) -> None:
        """Does something to all engines: to one now, to the others in the background, or before they are asked."""
        with self._changing:
            member = self._take(Question())
            whole = False
            try:
                member.catch_up()
                member.engine.give_up_after(None)
                change(member.engine)
                whole = True
            except Refusal:
                whole = True
                raise
            finally:
                with self._state:
                    for other in self._members if whole else ():
                        if other is not member:
                            other.behind.append(change)
                self._return(member, whole)
        self._background.submit(self._catch_up)

    def close(self) -> int:
        """Ends all engines, also those that are at a question; the greatest of their statuses."""
        with self._state:
            self._closed = True
            self._state.notify_all()
        for member in self._members:
            member.engine.interrupt()
        self._background.shutdown(wait=True, cancel_futures=True)
        return max(int(member.engine.close()) for member in self._members)

    def _take(self, question: Question) -> Member:
        """An engine that is idle, once no question that came earlier waits for one."""
        with self._state:
            self._waiting.append(question)
            try:
                while not (self._idle and self._waiting[0] is question):
                    left = question.left()
                    if self._closed:
                        raise Stopped
                    self._state.wait(_LOOK_AGAIN if left is None else min(left, _LOOK_AGAIN))
                question.left()
                return self._idle.pop(min(range(len(self._idle)), key=lambda it: len(self._idle[it].behind)))
            finally:
                self._waiting.remove(question)
                self._state.notify_all()

    def _return(self, member: Member, whole: bool) -> None:
        """Lets others have an engine; one whose program was ended is brought up first."""
        if not whole and not self._closed:
            self._background.submit(self._revive, member)
            return
        with self._state:
            self._idle.append(member)
            self._state.notify_all()

    def _revive(self, member: Member) -> None:
        """Starts an engine's program again with all documents, by asking of one that isn't there."""
        try:
            member.engine.give_up_after(None)
            member.engine.command(f"query {NOWHERE}/a")
        except Refusal:
            pass
        except ClientError as error:
            # The next question that it is asked starts it again, or tells of this.
            LOG.warning("a program couldn't be started again: %s", error)
        self._return(member, True)

    def _catch_up(self) -> None:
        """Brings engines that are idle up with the changes."""
        for member in self._members:
            with self._state:
                if not member.behind or member not in self._idle:
                    continue
                self._idle.remove(member)
            try:
                member.catch_up()
            except ClientError as error:
                LOG.warning("a program couldn't be brought up with the collection: %s", error)
            self._return(member, True)


class Asking:
    """A pool as one question sees it: an engine as those of the client are."""

    def __init__(self, pool: Pool, question: Question, in_order: Callable[[list[tuple[str, ...]]], list[tuple[str, ...]]]) -> None:
        """`in_order` puts the replies of elements, each of which begins with its line, into the order of the collection."""
        self._pool = pool
        self._question = question
        self._in_order = in_order
        self._seconds: float | None = None

    def give_up_after(self, seconds: float | None) -> None:
        """Lets each command take so long at most."""
        self._seconds = seconds

    def command(self, line: str, block: bytes | None = None) -> Reply:
        """The reply to a command that changes nothing."""
        if block is not None:
            raise ValueError("what is served isn't changed")
        reply = self._pool.ask(self._question, line, self._seconds)
        word = line.split(" ", 1)[0]
        if not isinstance(reply, Found) or word not in ("query", "show"):
            return reply
        lines_each = LINES_EACH.get(word, 1)
        rows = [reply.lines[at : at + lines_each] for at in range(0, len(reply.lines), lines_each)]
        return Found(tuple(line for row in self._in_order(rows) for line in row))

    def stems(self, lines: bytes) -> None:
        """Gives the stems to all engines."""

        def give(engine: Any) -> None:
            engine.stems(lines)

        self._pool.change(give)
