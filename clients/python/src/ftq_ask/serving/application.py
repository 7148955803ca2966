"""What is served: pages, files of theirs, and the JSON interface."""

from __future__ import annotations

import asyncio
import json
from concurrent.futures import Future
from dataclasses import dataclass, replace
from typing import Any, AsyncIterator, Callable, Iterator, Mapping, TypeVar
from urllib.parse import parse_qsl

from starlette.applications import Starlette
from starlette.exceptions import HTTPException
from starlette.requests import ClientDisconnect, Request
from starlette.responses import JSONResponse, PlainTextResponse, Response, StreamingResponse
from starlette.routing import Route

from ftq_client import ClientError, Element, Refusal

from ..marking import Marking
from ..showing import Piece, shortened
from . import interface, pages
from .addresses import Addresses, number_of, once, wish_of
from .answering import Over, Part, Refused, Wish, answer, over, refused
from .desk import Busy, Desk
from .documents import Block, Sheets
from .examples import examples_of
from .guard import Guard, Unwanted
from .questions import Question

Something = TypeVar("Something")

MOST_LISTED = 1_000
MOST_PASSAGES = 200
"""How many elements are listed beside a document, and how many of them with a passage."""


@dataclass(frozen=True)
class Collected:
    """What a page says of the collection."""

    folder: str
    documents: int
    size: str
    names: list[tuple[str, int]]
    untaken: list[str]


@dataclass(frozen=True)
class Listed:
    """An element in the list beside a document."""

    number: int
    name: str
    line: int | None
    pieces: list[Piece]


@dataclass(frozen=True)
class Shown:
    """A sheet of a document, and the elements that were found in it."""

    file: str
    blocks: list[Block]
    sheet: int
    sheets: int
    count: int
    listed: list[Listed]


@dataclass(frozen=True)
class Unshown:
    """Why a document can't be shown."""

    said: str


def collected(desk: Desk) -> Collected:
    """What a page says of the collection now."""
    it = desk.collection
    names = sorted(it.vocabulary.elements.items(), key=lambda row: (-row[1], row[0]))[:30]
    return Collected(desk.folder, len(it.sources), f"{it.bytes / 1e6:,.1f}", names, [str(untaken) for untaken in it.untaken])


async def in_turn(desk: Desk, question: Question, parts: Iterator[Something]) -> AsyncIterator[Something]:
    """The parts of an answer, each worked out in a thread; where nobody reads on, the question is given up."""
    step: Future[Something | None] | None = None
    try:
        while True:
            step = desk.threads.submit(lambda: next(parts, None))
            part = await asyncio.wrap_future(step)
            if part is None:
                return
            yield part
    finally:
        desk.leave(question, step)


def shown(desk: Desk, question: Question, wish: Wish, name: str, hit: int, sheet: int) -> Iterator[Shown | Unshown | Refused | Over]:
    """A document with what a question found in it."""
    view = desk.view(question, wish.as_typed)
    name = view.named(name)
    try:
        document = view.locator.document(name)
        if isinstance(document, str):
            yield Unshown(document if name in view.sources else "there is no such document")
            return
        taken = replace(wish, document=name).taken(desk.found(view, wish.path)) if wish.path else []
        found = [Element.read(it) for it in taken]
        marking = Marking(wish.path, view, not wish.element)
        sheets = Sheets(document, found, marking, view.rules.blocks)
        number = min(max(sheet or sheets.sheet_of(hit), 1), sheets.count)
        listed = []
        for place, element in enumerate(found[:MOST_LISTED], 1):
            located = view.locator.locate(element)
            pieces = shortened(located.shown, marking.of(element), 60) if place <= MOST_PASSAGES else []
            listed.append(Listed(place, element.steps[-1].name, located.line, pieces))
        yield Shown(str(view.sources[name].path), sheets.sheet(number), number, sheets.count, len(found), listed)
    except Refusal as refusal:
        yield refused(wish.path, refusal, view)
    except ValueError:
        yield Refused("a question is one line, and no comment")
    except ClientError as error:
        yield over(error)


class Served:
    """The requests and what answers them."""

    def __init__(self, desk: Desk, port: int, further: Mapping[str, Callable[[Request], Any]] = {}) -> None:
        """Before a desk, at a port; `further` are requests by POST that are answered besides."""
        self._desk = desk
        self._begun: list[str] = []
        routes = [
            Route("/", self._query, methods=["GET"]),
            Route("/document", self._document, methods=["GET"]),
            Route("/stop", self._stop_form, methods=["POST"]),
            Route("/api/query", self._api_query, methods=["GET", "POST"]),
            Route("/api/stop", self._api_stop, methods=["POST"]),
            Route("/api/status", self._api_status, methods=["GET"]),
            Route("/api/files", self._api_files, methods=["GET"]),
            Route("/api/names", self._api_names, methods=["GET"]),
            Route("/api/openapi.json", self._api_described, methods=["GET"]),
            *(Route(f"/{name}", self._asset, methods=["GET"]) for name in pages.FILES),
            *(Route(path, handler, methods=["POST"]) for path, handler in further.items()),
        ]
        handlers: dict[Any, Any] = {Unwanted: _unwanted, Busy: _busy, HTTPException: _http}
        self.application = Guard(Starlette(routes=routes, exception_handlers=handlers), port)

    async def _query(self, request: Request) -> Response:
        wish = wish_of(_values(request))
        question = await self._begin() if wish.path else None
        parts = answer(self._desk, question, wish) if question else iter(())
        return self._page("query.html", question, wish, parts, examples=[] if wish.path else self._examples())

    async def _document(self, request: Request) -> Response:
        values = _values(request)
        name, hit, sheet = values.pop("name", ""), number_of(values, "hit", 0, 0, 10_000_000), number_of(values, "sheet", 0, 0, 10_000_000)
        wish = wish_of({key: value for key, value in values.items() if key not in ("hit", "sheet")})
        question = await self._begin()
        parts = shown(self._desk, question, wish, name, hit, sheet)
        return self._page("document.html", question, wish, parts, name=name, hit=hit)

    async def _stop_form(self, request: Request) -> Response:
        form = once(parse_qsl((await body_of(request, "application/x-www-form-urlencoded")).decode("utf-8", errors="replace")))
        self._desk.stop(form.get("id", ""))
        said = Over("the question was stopped", True)
        return self._page("query.html", None, Wish(""), iter([said]), examples=self._examples())

    def _examples(self) -> list[str]:
        """Questions to begin with, which are those of the documents as they were when they were first needed."""
        if not self._begun:
            self._begun = examples_of(self._desk.collection)
        return self._begun

    def _page(self, template: str, question: Question | None, wish: Wish, parts: Iterator[Any], **values: Any) -> Response:
        """A page that is sent as the parts of an answer come."""
        named = {"collection": collected(self._desk), "to": Addresses(wish), "wish": wish, "question": question, "parts": parts}
        page = pages.written(template, **named, **values)
        if question is None:
            return Response("".join(page), media_type="text/html")
        return StreamingResponse(in_turn(self._desk, question, page), media_type="text/html")

    async def _api_query(self, request: Request) -> Response:
        if request.method == "POST":
            values = json_object(await body_of(request, "application/json"))
        else:
            values = _values(request)
        wish = wish_of(values)
        if not wish.path:
            raise Unwanted(400, "q is the question")
        question = await self._begin()
        begin = interface.line({"part": "begin", "id": question.name, "query": wish.path})
        parts = in_turn(self._desk, question, answer(self._desk, question, wish))
        return StreamingResponse(_lines(begin, parts), media_type="application/x-ndjson")

    async def _api_stop(self, request: Request) -> Response:
        values = json_object(await body_of(request, "application/json"))
        name = values.get("id")
        if list(values) != ["id"] or not isinstance(name, str):
            raise Unwanted(400, "id is the question's, a text")
        return JSONResponse({"stopped": self._desk.stop(name)})

    async def _api_status(self, request: Request) -> Response:
        desk, it = self._desk, self._desk.collection
        return JSONResponse(
            {
                "folder": desk.folder,
                "documents": len(it.sources),
                "bytes": it.bytes,
                "edition": it.edition,
                "programs": desk.pool.count,
                "idle": desk.pool.idle,
                "asked": desk.asked,
                "stopped": desk.stopped,
                "calls": desk.calls,
                "untaken": [pages.shown_path(str(untaken)) for untaken in it.untaken],
            }
        )

    async def _api_files(self, request: Request) -> Response:
        return JSONResponse({"documents": [{"name": name, "file": pages.shown_path(path)} for name, path in self._desk.files()]})

    async def _api_names(self, request: Request) -> Response:
        known = self._desk.collection.vocabulary
        return JSONResponse({"elements": dict(known.elements), "attributes": dict(known.attributes)})

    async def _api_described(self, request: Request) -> Response:
        return Response(interface.described(), media_type="application/json")

    async def _asset(self, request: Request) -> Response:
        name = request.url.path[1:]
        return Response(pages.asset(name), headers={"content-type": pages.FILES[name]})

    async def _begin(self) -> Question:
        """Lets a question in, with the files as they are now."""
        question = self._desk.begin()
        try:
            await asyncio.wrap_future(self._desk.threads.submit(self._desk.freshen))
        except BaseException:
            self._desk.end(question)
            raise
        return question


def _values(request: Request) -> dict[str, str]:
    try:
        pairs = parse_qsl(request.scope["query_string"].decode("ascii"), keep_blank_values=True, max_num_fields=20, errors="strict")
    except ValueError:
        raise Unwanted(400, "the address isn't written as addresses are") from None
    return once(pairs)


async def body_of(request: Request, media: str) -> bytes:
    """The body of a request, of that kind."""
    if request.headers.get("content-type", "").split(";")[0].strip().lower() != media:
        raise Unwanted(415, f"the request's body is {media}")
    try:
        return await request.body()
    except ClientDisconnect:
        raise Unwanted(400, "the rest of the request didn't come") from None


def json_object(data: bytes) -> dict[str, Any]:
    """The object that a request's body is."""
    try:
        values = json.loads(data)
    except (ValueError, RecursionError):
        raise Unwanted(400, "the request's body isn't JSON") from None
    if not isinstance(values, dict):
        raise Unwanted(400, "the request's body is an object")
    return values


async def _lines(begin: bytes, parts: AsyncIterator[Part]) -> AsyncIterator[bytes]:
    yield begin
    async for part in parts:
        yield interface.line(interface.row_of(part))


def _fault(request: Request, status: int, reason: str) -> Response:
    """Why a request isn't answered: an object for the interface, and otherwise a text."""
    if request.url.path.startswith("/api/"):
        return JSONResponse({"fault": reason}, status)
    return PlainTextResponse(f"{reason}\n", status)


async def _unwanted(request: Request, unwanted: Unwanted) -> Response:
    return _fault(request, unwanted.status, unwanted.reason)


async def _busy(request: Request, busy: Busy) -> Response:
    response = _fault(request, 503, "as many questions are being answered as are let in at once; ask again")
    response.headers["retry-after"] = "2"
    return response


async def _http(request: Request, error: HTTPException) -> Response:
    response = _fault(request, error.status_code, "there is nothing here" if error.status_code == 404 else error.detail)
    response.headers.update(error.headers or {})
    return response
