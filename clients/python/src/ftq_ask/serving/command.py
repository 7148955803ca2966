"""Serves a folder of XML to a browser on this machine, and to programs beside it: ask serve FOLDER.

It listens at 127.0.0.1 alone, and goes on until it is interrupted.
"""

from __future__ import annotations

import argparse
import logging
import os
import signal
import socket
import time
from contextlib import closing, contextmanager
from pathlib import Path
from types import FrameType
from typing import Any, Iterator

import uvicorn
from rich.console import Console

from ftq_client import ClientError, find_program

from .. import answers
from ..abbreviating import Abbreviations
from ..beside import ADDRESS, forget, key_of, note
from ..calls import add_collection, number, seconds
from ..choosing import Choice, rules_of
from ..collection import Collection
from ..commands import FAULT, load, loaded, reader_of, tell
from ..engines import engine_of
from ..lists import NoList, Stems
from .application import Served
from .calls import Calls
from .desk import Desk
from .freshness import Freshness
from .pool import Pool
from .watching import Files

USUAL_PORT = 8317
USUAL_SECONDS = 60.0
MOST_CONNECTIONS = 250


def parser() -> argparse.ArgumentParser:
    """The words of the call."""
    it = argparse.ArgumentParser(prog="ask serve", description=__doc__, formatter_class=argparse.RawDescriptionHelpFormatter)
    add_collection(it)
    it.add_argument("--port", type=number, default=USUAL_PORT, metavar="N", help=f"the port, {USUAL_PORT} otherwise; 0 takes any that is free")
    it.add_argument("--programs", type=number, default=2, metavar="N", help="how many programs hold the collection, 2 otherwise")
    it.set_defaults(scheduler=None)
    it.add_argument("--timeout", type=seconds, default=USUAL_SECONDS, metavar="SECONDS", help="how long a question may take, 60 otherwise")
    return it


class Server(uvicorn.Server):
    """A server that stops all questions when it is to end, since it waits for their answers to be through."""

    desk: Desk

    def handle_exit(self, sig: signal.Signals, frame: FrameType | None) -> None:
        self.desk.stop_all()
        super().handle_exit(sig, frame)


def serve(arguments: list[str]) -> int:
    """Serves until it is interrupted: 0, or 2 where that can't begin."""
    options = parser().parse_args(arguments)
    errors = Console(stderr=True)
    start = time.monotonic()
    try:
        listening = listen(options.port)
    except (OSError, OverflowError) as error:
        answers.say(errors, f"ask: the port {options.port} can't be had: {error}; --port 0 takes any that is free")
        return FAULT
    collection = None
    try:
        abbreviations = Abbreviations(options.abbreviations)
        stems = Stems(options.stem) if options.stem else None
        program = options.program or find_program()
        collection = Collection(engine_of(program, options.workers), stems, Choice(options.glob), rules_of(options))
        collection.reader = reader_of(options)
        files = Files([str(it) for it in options.paths])
        looked = files.look(time.time_ns(), set())
        load(collection, options, abbreviations, errors)
        collection.reader.stay_alone()
        tell(collection, options, errors)
        answers.say(errors, loaded(collection, start))
    except (ClientError, NoList, OSError, ValueError, KeyboardInterrupt) as error:
        answers.say(errors, f"ask: {str(error) or 'interrupted'}")
        if collection is not None:
            collection.engine.close()
        return FAULT
    collection.engine = Pool(collection.engine, max(1, options.programs))
    desk = Desk(collection, collection.engine, ", ".join(map(str, options.paths)), options.timeout)
    freshness = Freshness(desk, files, looked, options.paths)
    desk.freshen = freshness.freshen
    try:
        with listening, closing(freshness), beside(desk, program, options, listening.getsockname()[1]) as further:
            run(desk, listening, further)
    except KeyboardInterrupt:
        # It came before the server was there to take it.
        pass
    finally:
        desk.close()
    return 0


@contextmanager
def beside(desk: Desk, program: Path, options: argparse.Namespace, port: int) -> Iterator[dict[str, Any]]:
    """While this lasts, calls of tools/ask for the same files find what serves here; what answers them, by its address."""
    key = key_of(options)
    noted = note(key, port)
    if noted is None:
        yield {}
        return
    try:
        yield {ADDRESS: Calls(desk, program, options.paths, noted[1]).answer}
    finally:
        forget(*noted)


def listen(port: int) -> socket.socket:
    """A socket at a port of this machine alone."""
    listening = socket.socket(socket.AF_INET, socket.SOCK_STREAM)
    try:
        listening.setsockopt(socket.SOL_SOCKET, socket.SO_REUSEADDR, 1)
        listening.bind(("127.0.0.1", port))
    except BaseException:
        listening.close()
        raise
    return listening


def run(desk: Desk, listening: socket.socket, further: dict[str, Any]) -> None:
    """Answers at a socket until an interrupt comes; `further` are requests that are answered besides."""
    port = listening.getsockname()[1]
    logging.getLogger("uvicorn.error").setLevel(logging.ERROR)
    config = uvicorn.Config(
        Served(desk, port, further).application,
        http="h11",
        ws="none",
        loop="asyncio",
        lifespan="off",
        log_config=None,
        access_log=False,
        server_header=False,
        proxy_headers=False,
        limit_concurrency=MOST_CONNECTIONS,
        timeout_keep_alive=15,
    )
    server = Server(config)
    server.desk = desk
    listening.listen()
    print(f"http://127.0.0.1:{port}/", flush=True)
    server.run(sockets=[listening])
