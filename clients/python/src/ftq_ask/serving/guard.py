"""What is let in, and with which headers answers go out: requests of this machine's own pages and programs, by their host and their origin, by
method and by size."""

from __future__ import annotations

import asyncio
from typing import Any, Awaitable, Callable, MutableMapping

Message = MutableMapping[str, Any]
Scope = MutableMapping[str, Any]
Receive = Callable[[], Awaitable[Message]]
Send = Callable[[Message], Awaitable[None]]
Application = Callable[[Scope, Receive, Send], Awaitable[None]]

MOST_BODY = 131_072
MOST_TARGET = 16_384
"""How many bytes the body of a request may have, and its path and query together."""

MOST_REQUESTS = 64
"""How many requests are answered at once."""

SECONDS_TO_SEND = 30.0
"""How long a part of an answer waits for whoever reads it, and a request for the rest of its body."""

HEADERS = {
    "content-security-policy": "default-src 'none'; script-src 'self'; style-src 'self'; img-src 'self'; connect-src 'self'; form-action 'self'; "
    "base-uri 'none'; frame-ancestors 'none'; require-trusted-types-for 'script'; trusted-types 'none'",
    "x-content-type-options": "nosniff",
    "x-frame-options": "DENY",
    "referrer-policy": "no-referrer",
    "cross-origin-opener-policy": "same-origin",
    "cross-origin-resource-policy": "same-origin",
    "permissions-policy": "camera=(), geolocation=(), microphone=(), payment=(), usb=()",
    "cache-control": "no-store",
}
"""What each answer says of how a browser may use it."""


class Unwanted(Exception):
    """A request that isn't let in: the status and the reason."""

    def __init__(self, status: int, reason: str) -> None:
        super().__init__(reason)
        self.status = status
        self.reason = reason


class Guard:
    """Stands before an application."""

    def __init__(self, application: Application, port: int) -> None:
        """The application is reached at this port of this machine, and at no other name."""
        self._application = application
        self._open = 0
        self._hosts = {f"{name}:{port}" for name in ("127.0.0.1", "localhost", "[::1]")}
        if port == 80:
            self._hosts |= {"127.0.0.1", "localhost", "[::1]"}

    async def __call__(self, scope: Scope, receive: Receive, send: Send) -> None:
        if scope["type"] == "lifespan":
            await self._application(scope, receive, send)
            return
        if scope["type"] != "http":
            raise RuntimeError(f"no {scope['type']} is served")
        begun = False

        async def sent(message: Message) -> None:
            nonlocal begun
            if message["type"] == "http.response.start":
                begun = True
                message["headers"] = [*message.get("headers", []), *((name.encode(), value.encode()) for name, value in HEADERS.items())]
            await asyncio.wait_for(send(message), SECONDS_TO_SEND)

        self._open += 1
        try:
            self._check(scope)
            await self._application(scope, _measured(receive), sent)
        except Unwanted as unwanted:
            if not begun:
                await _refuse(unwanted, sent)
        except asyncio.TimeoutError:
            # Whoever asked doesn't read on; the connection goes with the answer's end.
            return
        finally:
            self._open -= 1

    def _check(self, scope: Scope) -> None:
        """Raises `Unwanted` for a request that isn't let in."""
        headers = Headers(scope)
        if self._open > MOST_REQUESTS:
            raise Unwanted(503, "as many requests are being answered as are let in at once; ask again")
        if len(scope.get("raw_path") or b"") + len(scope.get("query_string") or b"") > MOST_TARGET:
            raise Unwanted(414, f"an address has at most {MOST_TARGET:,} bytes; a longer question is sent by POST")
        host = headers.one("host")
        if host not in self._hosts:
            raise Unwanted(421, "this is asked for by its address on this machine alone")
        if scope["method"] not in ("GET", "POST"):
            raise Unwanted(405, "there are GET and POST")
        site = headers.one("sec-fetch-site")
        if site not in ((None, "same-origin", "none") if scope["method"] == "GET" else (None, "same-origin")):
            raise Unwanted(403, "no other site's page may ask")
        origin = headers.one("origin")
        # A form of a page that sends no referrer has no origin; a browser then says that it is this site's own.
        if origin is not None and origin != f"http://{host}" and not (origin == "null" and site == "same-origin"):
            raise Unwanted(403, "no other site's page may ask")
        if scope["method"] == "POST" and headers.size() > MOST_BODY:
            raise Unwanted(413, f"a request has at most {MOST_BODY:,} bytes")


class Headers:
    """The headers of a request, each of which may stand there once."""

    def __init__(self, scope: Scope) -> None:
        self._rows: list[tuple[bytes, bytes]] = list(scope["headers"])

    def one(self, name: str) -> str | None:
        """The value of a header; `Unwanted` where it stands there more than once."""
        found = [value for key, value in self._rows if key == name.encode()]
        if len(found) > 1:
            raise Unwanted(400, f"the header {name} stands there more than once")
        return found[0].decode("latin-1") if found else None

    def size(self) -> int:
        """How long the body is said to be."""
        said = self.one("content-length") or "0"
        return int(said) if said.isdecimal() else MOST_BODY + 1


def _measured(receive: Receive) -> Receive:
    """Raises `Unwanted` where a body is longer than it may be, whatever was said of it before, or doesn't come."""
    size, whole = 0, False

    async def received() -> Message:
        nonlocal size, whole
        try:
            message = await (receive() if whole else asyncio.wait_for(receive(), SECONDS_TO_SEND))
        except asyncio.TimeoutError:
            raise Unwanted(408, "the rest of the request didn't come") from None
        whole = not message.get("more_body", False)
        size += len(message.get("body", b""))
        if size > MOST_BODY:
            raise Unwanted(413, f"a request has at most {MOST_BODY:,} bytes")
        return message

    return received


async def _refuse(unwanted: Unwanted, send: Send) -> None:
    headers = [(b"content-type", b"text/plain; charset=utf-8")]
    if unwanted.status == 405:
        headers.append((b"allow", b"GET, POST"))
    await send({"type": "http.response.start", "status": unwanted.status, "headers": headers})
    await send({"type": "http.response.body", "body": f"{unwanted.reason}\n".encode("utf-8")})
