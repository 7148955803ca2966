"""A question of a call that a running `ask serve` of the same files answers: nothing is loaded, and the answer has the same bytes.

What serves writes a small file into the user's runtime folder, with its port and a secret. Whoever asks shows that it knows the secret, and so
does whoever answers, without either of them sending it.
"""

from __future__ import annotations

import argparse
import hashlib
import hmac
import json
import os
import secrets
import socket
import stat
import sys
from pathlib import Path
from typing import Any, BinaryIO, Iterator

from .abbreviating import Abbreviations

ADDRESS = "/beside"
ENVIRONMENT = ("TERM", "COLORTERM", "NO_COLOR", "FORCE_COLOR", "COLUMNS", "LINES")
"""What of the environment says how a terminal is written to."""

SECONDS_TO_CONNECT = 2.0


def answered(arguments: list[str]) -> int | None:
    """The status of a call that was answered by what is running; None where nothing is, and the call has to be answered anew."""
    folder = runtime_folder()
    if arguments[:1] == ["serve"] or "--query" not in " ".join(arguments) or folder is None:
        return None
    from .calls import read_words

    options = read_words(arguments)
    if options.scheduler or not options.query:
        return None
    try:
        running = _running(folder / f"{key_of(options)}.json")
    except (OSError, ValueError):
        # A list that can't be read is told where the call is answered anew.
        return None
    return _asked(running, arguments, options) if running else None


def runtime_folder(make: bool = False) -> Path | None:
    """The folder of the user's own in which running programs are noted; None where there is none, or others could write into it."""
    base = Path(os.environ.get("XDG_RUNTIME_DIR") or f"/run/user/{os.getuid()}")
    if not base.is_dir():
        base = Path(os.environ.get("XDG_CACHE_HOME") or Path.home() / ".cache")
    folder = base / "ftq-serve"
    try:
        if make:
            folder.mkdir(mode=0o700, parents=True, exist_ok=True)
        told = folder.lstat()
    except OSError:
        return None
    return folder if stat.S_ISDIR(told.st_mode) and told.st_uid == os.getuid() and not told.st_mode & 0o077 else None


def key_of(options: argparse.Namespace) -> str:
    """What calls have the same of whose answers are the same: files, how they are read, and lists."""
    blocks = sorted({name for names in options.blocks for name in names.split(",") if name})
    told = [
        [[os.path.realpath(it), "" if it.is_dir() else it.name] for it in options.paths],
        [*options.glob],
        [options.no_dtd, options.no_xinclude, options.no_catalog, options.drop_blanks, options.keep_blanks, blocks],
        [options.stem, options.stop, hashlib.blake2b(Abbreviations(options.abbreviations).lines).hexdigest(), max(1, options.workers or 1)],
        [os.environ.get("XML_CATALOG_FILES"), os.path.realpath(__file__)],
    ]
    return hashlib.blake2b(json.dumps(told).encode("utf-8"), digest_size=16).hexdigest()


def proof(secret: str, *parts: bytes) -> str:
    """What only those can say of some bytes who know the secret."""
    return hmac.new(secret.encode("ascii"), b"\0".join(parts), hashlib.sha256).hexdigest()


def note(key: str, port: int) -> tuple[Path, str] | None:
    """Writes down that the files of that key are served at a port: the file, and the secret in it. None where there is no place for it."""
    folder = runtime_folder(make=True)
    if folder is None:
        return None
    path, secret = folder / f"{key}.json", secrets.token_hex(32)
    new = path.with_suffix(f".{os.getpid()}")
    try:
        with os.fdopen(os.open(new, os.O_WRONLY | os.O_CREAT | os.O_EXCL, 0o600), "w", encoding="ascii") as file:
            json.dump({"port": port, "secret": secret}, file)
        os.replace(new, path)
    except OSError:
        return None
    return path, secret


def forget(path: Path, secret: str) -> None:
    """Takes a note away, unless another one stands in its place."""
    noted = _running(path)
    if noted and noted[1] == secret:
        path.unlink(missing_ok=True)


def _running(path: Path) -> tuple[int, str] | None:
    """The port and the secret in a file that nobody else can read."""
    try:
        with os.fdopen(os.open(path, os.O_RDONLY | os.O_NOFOLLOW), encoding="ascii") as file:
            told = os.fstat(file.fileno())
            if told.st_uid != os.getuid() or told.st_mode & 0o077:
                return None
            noted = json.load(file)
        return int(noted["port"]), str(noted["secret"])
    except (OSError, ValueError, KeyError, TypeError):
        return None


def _asked(running: tuple[int, str], arguments: list[str], options: argparse.Namespace) -> int | None:
    """Asks what is running, and writes the answer as it comes."""
    port, secret = running
    body = json.dumps({"arguments": arguments, **_place(options)}).encode("ascii")
    nonce = secrets.token_hex(16)
    head = (
        f"POST {ADDRESS} HTTP/1.0\r\nHost: 127.0.0.1:{port}\r\nContent-Type: application/json\r\nContent-Length: {len(body)}\r\n"
        f"Authorization: {nonce} {proof(secret, b'ask', nonce.encode(), body)}\r\n\r\n"
    )
    try:
        wire = socket.create_connection(("127.0.0.1", port), SECONDS_TO_CONNECT)
    except OSError:
        return None
    with wire, wire.makefile("rb") as answer:
        try:
            wire.sendall(head.encode("ascii") + body)
            wire.settimeout(None)
            if not _is_its(answer, proof(secret, b"answer", nonce.encode())):
                return None
        except OSError:
            return None
        return _written(answer)


def _place(options: argparse.Namespace) -> dict[str, Any]:
    """From where is asked: what the answer has to do with a terminal, and which program would answer otherwise."""
    program = options.program or os.environ.get("FTQ")
    return {
        "program": os.path.realpath(program) if program else None,
        "path": os.environ.get("PATH", ""),
        "terminals": [sys.stdout.isatty(), sys.stderr.isatty()],
        "environment": {name: os.environ[name] for name in ENVIRONMENT if name in os.environ},
    }


def _is_its(answer: BinaryIO, wanted: str) -> bool:
    """Whether an answer is one, of whoever knows the secret; its head is read."""
    status = answer.readline().split()
    headers = dict(_headers(answer))
    return len(status) > 1 and status[1] == b"200" and hmac.compare_digest(headers.get("x-proof", ""), wanted)


def _headers(answer: BinaryIO) -> Iterator[tuple[str, str]]:
    while (line := answer.readline().strip()) != b"":
        name, _, value = line.decode("latin-1").partition(":")
        yield name.lower(), value.strip()


def _written(answer: BinaryIO) -> int:
    """Writes the parts of an answer where they belong; the status, which is the last one."""
    streams = {"out": sys.stdout, "err": sys.stderr}
    try:
        for line in answer:
            told = json.loads(line)
            if "status" in told:
                return int(told["status"])
            ((name, text),) = told.items()
            streams[name].write(text)
            streams[name].flush()
    except BrokenPipeError:
        # Nobody reads on; what is left unwritten goes nowhere, without a word at the end.
        os.dup2(os.open(os.devnull, os.O_WRONLY), sys.stdout.fileno())
        return 2
    except OSError:
        pass
    sys.stderr.write("ask: what answered has ended before the answer did\n")
    return 2
