"""Calls of tools/ask that are answered by what serves the same files: the same functions write the same bytes, which the call passes on."""

from __future__ import annotations

import hmac
import json
import os
import shutil
from dataclasses import dataclass, replace
from pathlib import Path
from typing import Any, Iterator

from rich.console import Console
from starlette.requests import Request
from starlette.responses import Response, StreamingResponse

from ftq_client import ClientError, Element
from ftq_client.program import VARIABLE, find_program

from .. import answers
from ..beside import proof
from ..calls import read_words
from ..collection import Collection
from ..commands import FAULT, answer_all, tell
from ..lists import NoList
from ..locating import Located
from ..trees import Untaken
from .application import body_of, in_turn, json_object
from .desk import Desk
from .guard import Unwanted
from .questions import Question


@dataclass(frozen=True)
class Caller:
    """Who called: the words of the call, whether its two streams are terminals, and what its environment says of them."""

    words: list[str]
    terminals: list[bool]
    environment: dict[str, str]


class Places:
    """Files as a call names them, which may name their folder otherwise than the call that serves it."""

    def __init__(self, served: list[Path], called: list[Path]) -> None:
        self._pairs = list(zip(served, called))

    def path(self, path: Path) -> Path:
        """A file's path in the words of the call."""
        for served, called in self._pairs:
            if path == served:
                return called
            if path.is_relative_to(served):
                return called / path.relative_to(served)
        return path

    def untaken(self, it: Untaken) -> Untaken:
        """The same with the path in the words of the call; that of a file that stands in another one is shown as it is anyway."""
        return Untaken(self.path(it.path), it.line, it.reason) if it.path == it.named else it


class Placed:
    """A locator that names files in the words of a call, but for those that stand in others."""

    def __init__(self, view: Collection, places: Places) -> None:
        self._locator = view.locator
        self._sources = view.sources
        self._places = places

    def locate(self, element: Element) -> Located:
        """As `Locator.locate`."""
        located, source = self._locator.locate(element), self._sources.get(element.document)
        return replace(located, path=self._places.path(source.path)) if source and located.path == source.path else located


class Written:
    """A stream that keeps what is written on it, in turn with another one."""

    encoding = "utf-8"

    def __init__(self, name: str, rows: list[tuple[str, str]]) -> None:
        self._name = name
        self._rows = rows

    def write(self, text: str) -> int:
        """Keeps a text."""
        self._rows.append((self._name, text))
        return len(text)

    def writelines(self, texts: Iterator[str]) -> None:
        """Keeps texts."""
        self.write("".join(texts))

    def flush(self) -> None:
        """Does nothing: all is kept."""

    def isatty(self) -> bool:
        """Whether it is a terminal, which is said to the console otherwise."""
        return False


class Calls:
    """Answers calls of the user's own, who can read the secret."""

    def __init__(self, desk: Desk, program: Path, paths: list[Path], secret: str) -> None:
        """Of these files, which the program holds."""
        self._desk = desk
        self._program = os.path.realpath(program)
        self._paths = paths
        self._secret = secret

    async def answer(self, request: Request) -> Response:
        """The answer to a call, as lines of JSON: what is written where, and the status."""
        body = await body_of(request, "application/json")
        nonce, _, told = request.headers.get("authorization", "").partition(" ")
        if not hmac.compare_digest(told.encode("utf-8"), proof(self._secret, b"ask", nonce.encode("utf-8"), body).encode("ascii")):
            raise Unwanted(403, "this is for the user's own calls")
        values = json_object(body)
        if not self._is_its_program(values.get("program"), str(values.get("path", ""))):
            raise Unwanted(409, "another program answers here")
        caller = Caller(values["arguments"], values["terminals"], values["environment"])
        question = self._desk.begin(limited=False)
        self._desk.calls += 1
        parts = in_turn(self._desk, question, self._answered(question, caller))
        return StreamingResponse(parts, headers={"x-proof": proof(self._secret, b"answer", nonce.encode("utf-8"))}, media_type="application/x-ndjson")

    def _is_its_program(self, named: str | None, path: str) -> bool:
        """Whether a call would start the program that answers here."""
        if named is None:
            kept = os.environ.pop(VARIABLE, None)
            try:
                named = str(find_program()) if shutil.which("ftq", path=path) is None else shutil.which("ftq", path=path)
            finally:
                if kept is not None:
                    os.environ[VARIABLE] = kept
        return os.path.realpath(str(named)) == self._program

    def _answered(self, question: Question, caller: Caller) -> Iterator[bytes]:
        """What the call would write, and its status."""
        rows: list[tuple[str, str]] = []
        status = self._status(question, caller, rows)
        for name, text in rows:
            yield json.dumps({name: text}).encode("ascii") + b"\n"
        yield json.dumps({"status": status}).encode("ascii") + b"\n"

    def _status(self, question: Question, caller: Caller, rows: list[tuple[str, str]]) -> int:
        options = read_words(caller.words)
        out, errors = (_console(Written(name, rows), terminal, caller) for name, terminal in zip(("out", "err"), caller.terminals))
        self._desk.freshen()
        view = self._desk.view(question, options.as_typed)
        places = Places(self._paths, options.paths)
        placed(view, places)
        if options.verbose:
            view.choice = view.choice.elsewhere(places.path)
        try:
            tell(view, options, errors)
            view.seconds = options.timeout
            view.engine.give_up_after(options.timeout)
            return answer_all(view, options, errors, out)
        except (NoList, ClientError) as error:
            answers.say(errors, f"ask: {error}")
            return FAULT


def placed(view: Collection, places: Places) -> None:
    """Lets a collection name its files in the words of a call."""
    view.locator = Placed(view, places)  # type: ignore[assignment]
    view.untaken = [places.untaken(it) for it in view.untaken]


def _console(file: Any, terminal: bool, caller: Caller) -> Console:
    """A console like the one that a call has."""
    return Console(file=file, highlight=False, force_terminal=True if terminal else None, _environ=caller.environment)
