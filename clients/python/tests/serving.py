"""A server as a process of its own, and requests to it as they go over the wire."""

from __future__ import annotations

import contextlib
import http.client
import json
import os
import re
import signal
import subprocess
import tempfile
import time
from pathlib import Path
from typing import Any, Iterator
from urllib.parse import urlencode

from conftest import TOP

LONG = 'collection()/long[. contains text "xa" ftand "xb" ftand "xc" ftand "xd" different sentence]'
"""A question that takes minutes where a document has many of these words, all in one sentence."""

LONG_DOCUMENT = "<long>" + " ".join(["xa"] * 900 + ["xb"] * 900 + ["xc"] * 900 + ["xd"] * 900) + "</long>"


class Server:
    """`ask serve`, and what it is asked."""

    def __init__(self, program: Path, *words: object, where: Path | None = None, **variables: str) -> None:
        command = [str(TOP / "tools" / "ask"), "serve", "--program", str(program), "--port", "0", *map(str, words)]
        self.said = tempfile.TemporaryFile("w+")
        self.process = subprocess.Popen(command, stdout=subprocess.PIPE, stderr=self.said, text=True, cwd=where, env={**os.environ, **variables})
        assert self.process.stdout
        self.url = self.process.stdout.readline().strip()
        if not self.url:
            self.said.seek(0)
            raise AssertionError(f"it didn't begin: {self.said.read()}")
        self.port = int(re.fullmatch(r"http://127\.0\.0\.1:(\d+)/", self.url)[1])  # type: ignore[index]

    def get(self, path: str, headers: dict[str, str] = {}, method: str = "GET", body: bytes | None = None, **values: Any) -> "Answered":
        """What a request is answered with."""
        connection = http.client.HTTPConnection("127.0.0.1", self.port, timeout=60)
        with contextlib.closing(connection):
            address = path.partition("#")[0] + ("?" + urlencode(values) if values else "")
            connection.putrequest(method, address, skip_host="Host" in headers, skip_accept_encoding=True)
            for name, value in headers.items():
                connection.putheader(name, value)
            if body is not None and "Content-Length" not in headers:
                connection.putheader("Content-Length", str(len(body)))
            connection.endheaders(body)
            response = connection.getresponse()
            return Answered(response.status, response.read(), {name.lower(): value for name, value in response.getheaders()})

    def post(self, path: str, values: Any, headers: dict[str, str] = {}) -> "Answered":
        """What an object that is sent is answered with."""
        return self.get(path, {"Content-Type": "application/json", **headers}, "POST", json.dumps(values).encode())

    def lines(self, question: str, **values: Any) -> list[dict[str, Any]]:
        """The lines of the answer to a question."""
        return self.get("/api/query", q=question, **values).lines()

    def begun(self, question: str, **values: Any) -> tuple[http.client.HTTPConnection, http.client.HTTPResponse, str]:
        """A question that is asked, and whose answer is read no further than its first line: what it is called is the last of the three."""
        connection = http.client.HTTPConnection("127.0.0.1", self.port, timeout=120)
        connection.request("GET", "/api/query?" + urlencode({"q": question, **values}))
        response = connection.getresponse()
        return connection, response, json.loads(response.readline())["id"]

    def status(self) -> dict[str, Any]:
        """What is served now."""
        told: dict[str, Any] = json.loads(self.get("/api/status").body)
        return told

    def comes_to(self, seconds: float = 30, **wanted: Any) -> dict[str, Any]:
        """The status, once it has these values."""
        end = time.monotonic() + seconds
        while True:
            status = self.status()
            if all(status[name] == value for name, value in wanted.items()):
                return status
            assert time.monotonic() < end, (wanted, status)
            time.sleep(0.05)

    def children(self) -> list[int]:
        """The numbers of the programs that it has started."""
        path = Path(f"/proc/{self.process.pid}/task")
        return [int(it) for task in path.iterdir() for it in (task / "children").read_text().split()]

    def close(self) -> int:
        """Ends it as an interrupt does; its exit status. Fails where it has told of a fault of its own."""
        assert self.process.stdout
        if self.process.poll() is None:
            # An interrupt while the event loop is being made leaves a half-made one, of which Python tells.
            with contextlib.suppress(OSError, http.client.HTTPException):
                asked = http.client.HTTPConnection("127.0.0.1", self.port, timeout=20)
                asked.request("GET", "/")
                asked.getresponse().read()
                asked.close()
            self.process.send_signal(signal.SIGINT)
        try:
            status = self.process.wait(60)
        except subprocess.TimeoutExpired:
            self.process.kill()
            raise
        finally:
            self.process.stdout.close()
        with self.said:
            self.said.seek(0)
            said = self.said.read()
        assert "Traceback" not in said, said
        return status


class Answered:
    """An answer: its status, its body and its headers."""

    def __init__(self, status: int, body: bytes, headers: dict[str, str]) -> None:
        self.status = status
        self.body = body
        self.headers = headers

    @property
    def text(self) -> str:
        """The body as a text."""
        return self.body.decode("utf-8")

    def lines(self) -> list[dict[str, Any]]:
        """The body as lines of JSON."""
        return [json.loads(it) for it in self.body.splitlines()]


@contextlib.contextmanager
def served(program: Path, *words: object, where: Path | None = None, **variables: str) -> Iterator[Server]:
    """A server while this lasts, started in that folder."""
    server = Server(program, *words, where=where, **variables)
    try:
        yield server
    finally:
        server.close()
