"""A session for asyncio."""

from __future__ import annotations

import asyncio
from concurrent.futures import ThreadPoolExecutor
from pathlib import Path
from types import TracebackType
from typing import Callable, TypeVar

from .blocks import Content
from .folders import Folder
from .names import LATEST_FORMAT
from .program import MOST_BYTES
from .replies import Changes, Counts, Element, Reply, Shown
from .session import Position, Session

Answer = TypeVar("Answer")


class AsyncSession:
    """A `Session` whose calls are awaited. What is asked while another call waits is asked after it. A call that is cancelled ends the program,
    as an interrupt does: the next one starts another with the same documents."""

    def __init__(
        self, program: str | Path | None = None, *, limit: int = MOST_BYTES, timeout: float | None = None, session_format: int = LATEST_FORMAT
    ) -> None:
        """Starts the program, as `Session` does."""
        self.session = Session(program, limit=limit, timeout=timeout, session_format=session_format)
        self._thread = ThreadPoolExecutor(max_workers=1, thread_name_prefix="ftq")
        self._turn = asyncio.Lock()

    async def __aenter__(self) -> "AsyncSession":
        return self

    async def __aexit__(self, kind: type[BaseException] | None, value: BaseException | None, traceback: TracebackType | None) -> None:
        await self.close()

    async def load(self, name: str, content: Content) -> None:
        """As `Session.load`."""
        await self._in_turn(lambda: self.session.load(name, content))

    async def load_folder(self, folder: str | Path, pattern: str = "**/*.xml") -> Folder:
        """As `Session.load_folder`."""
        return await self._in_turn(lambda: self.session.load_folder(folder, pattern))

    async def drop(self, name: str) -> None:
        """As `Session.drop`."""
        await self._in_turn(lambda: self.session.drop(name))

    async def stop(self, name: str, words: Content) -> None:
        """As `Session.stop`."""
        await self._in_turn(lambda: self.session.stop(name, words))

    async def stems(self, lines: Content) -> None:
        """As `Session.stems`."""
        await self._in_turn(lambda: self.session.stems(lines))

    async def thesaurus(self, name: str, lines: Content) -> None:
        """As `Session.thesaurus`."""
        await self._in_turn(lambda: self.session.thesaurus(name, lines))

    async def abbreviations(self, lines: Content) -> None:
        """As `Session.abbreviations`."""
        await self._in_turn(lambda: self.session.abbreviations(lines))

    async def query(self, path: str) -> list[Element]:
        """As `Session.query`."""
        return await self._in_turn(lambda: self.session.query(path))

    async def print(self, path: str) -> list[str]:
        """As `Session.print`."""
        return await self._in_turn(lambda: self.session.print(path))

    async def show(self, path: str) -> list[Shown]:
        """As `Session.show`."""
        return await self._in_turn(lambda: self.session.show(path))

    async def text(self, element: Element | str) -> str:
        """As `Session.text`."""
        return await self._in_turn(lambda: self.session.text(element))

    async def insert(self, position: Position, path: str, content: Content) -> None:
        """As `Session.insert`."""
        await self._in_turn(lambda: self.session.insert(position, path, content))

    async def replace(self, path: str, content: Content) -> None:
        """As `Session.replace`."""
        await self._in_turn(lambda: self.session.replace(path, content))

    async def delete(self, path: str) -> None:
        """As `Session.delete`."""
        await self._in_turn(lambda: self.session.delete(path))

    async def mark(self, name: str) -> None:
        """As `Session.mark`."""
        await self._in_turn(lambda: self.session.mark(name))

    async def unmark(self, name: str) -> None:
        """As `Session.unmark`."""
        await self._in_turn(lambda: self.session.unmark(name))

    async def query_at(self, mark: str, path: str) -> list[Element]:
        """As `Session.query_at`."""
        return await self._in_turn(lambda: self.session.query_at(mark, path))

    async def watch(self, name: str, path: str) -> None:
        """As `Session.watch`."""
        await self._in_turn(lambda: self.session.watch(name, path))

    async def changes(self, name: str) -> Changes:
        """As `Session.changes`."""
        return await self._in_turn(lambda: self.session.changes(name))

    async def unwatch(self, name: str) -> None:
        """As `Session.unwatch`."""
        await self._in_turn(lambda: self.session.unwatch(name))

    async def stats(self) -> Counts:
        """As `Session.stats`."""
        return await self._in_turn(self.session.stats)

    async def explain(self, selection: str) -> str:
        """As `Session.explain`."""
        return await self._in_turn(lambda: self.session.explain(selection))

    async def command(self, line: str, block: Content | None = None) -> Reply:
        """As `Session.command`."""
        return await self._in_turn(lambda: self.session.command(line, block))

    async def close(self) -> int:
        """As `Session.close`."""
        status = await self._in_turn(self.session.close)
        self._thread.shutdown()
        return status

    async def _in_turn(self, call: Callable[[], Answer]) -> Answer:
        """What a call answers, in the session's own thread, once those before it are through."""
        async with self._turn:
            answer = asyncio.get_running_loop().run_in_executor(self._thread, call)
            try:
                return await asyncio.shield(answer)
            except asyncio.CancelledError:
                self.session.interrupt()
                await asyncio.wait([answer])
                answer.exception()
                raise
