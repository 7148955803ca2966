"""What was read of files, kept from one time to the next: found again by what a file holds, how it is read, and the files beside it."""

from __future__ import annotations

import contextlib
import hashlib
import json
import os
import sqlite3
import threading
import time
from functools import lru_cache
from pathlib import Path
from typing import Any

from lxml import etree

from .catalogs import SYSTEM_CATALOG
from .reading import Reading, Rules, Vocabulary

MOST_BYTES = 1 << 30
"""How large the cache grows; then what wasn't used for longest goes."""

ROWS_AT_ONCE = 500
BYTES_AT_ONCE = 16_000_000
"""How much is written at a time."""

RECENT = 60.0
"""For how many seconds a file beside another one has to have been as it is, so that what was read can't be older than it."""

_TABLES = (
    "CREATE TABLE IF NOT EXISTS readings (key BLOB PRIMARY KEY, told TEXT, content BLOB, digest BLOB, day INTEGER)",
    "CREATE TABLE IF NOT EXISTS files (path BLOB PRIMARY KEY, look TEXT, own BLOB, day INTEGER)",
)
"""What was read, and of each file the digest of its bytes, for as long as the file looks as it did."""

DAYS = 60
"""For how many days it is kept how a file looks that nobody asks for."""

State = tuple[int, int] | None
"""A file's size and time, by which a change shows; None where there is none."""

SOURCES = ("reading.py", "limits.py", "including.py", "trees.py", "catalogs.py", "caching.py")
"""The modules that say what is kept: where one of them changes, nothing that was kept is found any more."""


def cache_file() -> Path:
    """Where it is kept."""
    return Path(os.environ.get("XDG_CACHE_HOME") or Path.home() / ".cache") / "ftq" / "readings.sqlite"


def state_of(path: Path) -> State:
    """How a file is now."""
    try:
        told = path.stat()
    except OSError:
        return None
    return told.st_size, told.st_mtime_ns


class Cache:
    """Readings in a file, which several programs may use at once. Where it can't be used, nothing is found, and nothing kept."""

    def __init__(self, path: Path) -> None:
        self._path = path
        self._lock = threading.RLock()
        self._database: sqlite3.Connection | None = None
        self._rows: list[tuple[bytes, str, bytes, bytes, int]] = []
        self._used: list[tuple[int, bytes]] = []
        self._looks: list[tuple[bytes, str, bytes, int]] = []
        self.found = 0
        """How many files were found again."""
        self._open()

    def get(self, path: Path, rules: Rules) -> Reading | None:
        """What was read of a file with the bytes that it has now; None where it wasn't, or where something beside it has changed since."""
        try:
            own = self._own(path)
        except OSError:
            return None
        for key in _keys(path, own, rules):
            for told, content, digest, day in self._done("SELECT told, content, digest, day FROM readings WHERE key = ?", key):
                reading = _reading(path, own, json.loads(told), content) if _digest(told, content) == digest else None
                if reading:
                    self.found += 1
                    if day != _today():
                        self._used.append((_today(), key))
                    return reading
        return None

    def _own(self, path: Path) -> bytes:
        """The digest of a file's bytes. It is read only where it looks otherwise than when that was last worked out: the system sets the time of a
        file's last change itself, so that one which has looked the same for a while has changed since only if its looks have."""
        name, told = os.fsencode(os.path.abspath(path)), path.stat()
        look = repr((told.st_dev, told.st_ino, told.st_size, told.st_mtime_ns, told.st_ctime_ns))
        for kept, day in self._done("SELECT own, day FROM files WHERE path = ? AND look = ?", name, look):
            if day != _today():
                self._looks.append((name, look, kept, _today()))
            return bytes(kept)
        data = path.read_bytes()
        own = hashlib.blake2b(data, digest_size=16).digest()
        if len(data) == told.st_size and max(told.st_mtime_ns, told.st_ctime_ns) < (time.time() - RECENT) * 1e9:
            self._looks.append((name, look, own, _today()))
        return own

    def put(self, path: Path, reading: Reading, rules: Rules) -> None:
        """Keeps what was read of a file."""
        alone, beside = _keys(path, reading.own, rules)
        states = {os.fspath(it): state_of(it) for it in reading.beside}
        if any(it and it[1] > (time.time() - RECENT) * 1e9 for it in states.values()):
            return
        known = reading.vocabulary
        told = json.dumps(
            {
                "names": [list(it) for it in (known.elements, known.attributes, known.roots)],
                "digest": reading.digest.hex(),
                "parts": [os.fspath(it) for it in reading.parts],
                "beside": states,
            }
        )
        self._rows.append((beside if states else alone, told, reading.content, _digest(told, reading.content), _today()))
        if len(self._rows) >= ROWS_AT_ONCE or sum(len(it[2]) for it in self._rows) > BYTES_AT_ONCE:
            self.flush()

    def flush(self) -> None:
        """Writes what is to be kept: all of it or, where that is cut off, or another program is writing all the time, nothing."""
        rows, used, looks = self._rows, self._used, self._looks
        self._rows, self._used, self._looks = [], [], []
        with self._lock:
            if self._database is None or not (rows or used or looks):
                return
            try:
                with self._database:
                    self._database.executemany("INSERT OR REPLACE INTO readings VALUES (?, ?, ?, ?, ?)", rows)
                    self._database.executemany("UPDATE readings SET day = ? WHERE key = ?", used)
                    self._database.executemany("INSERT OR REPLACE INTO files VALUES (?, ?, ?, ?)", looks)
                    if looks:
                        self._database.execute("DELETE FROM files WHERE day < ?", (_today() - DAYS,))
                    if rows:
                        self._trim(self._database)
            except sqlite3.Error:
                pass

    def _trim(self, database: sqlite3.Connection) -> None:
        """Leaves out what wasn't used for longest, where there is too much: down to three quarters."""
        kept = database.execute("SELECT key, length(content) FROM readings ORDER BY day DESC").fetchall()
        whole = sum(length for _, length in kept)
        if whole <= MOST_BYTES:
            return
        while kept and whole > MOST_BYTES * 3 // 4:
            key, length = kept.pop()
            database.execute("DELETE FROM readings WHERE key = ?", (key,))
            whole -= length

    def _open(self) -> None:
        """Opens the file; one that isn't such a file, or was spoilt, is begun anew."""
        try:
            self._path.parent.mkdir(mode=0o700, parents=True, exist_ok=True)
            for _ in range(2):
                try:
                    self._database = sqlite3.connect(self._path, timeout=2.0, check_same_thread=False)
                    self._database.execute("PRAGMA journal_mode = WAL")
                    self._database.execute("PRAGMA synchronous = NORMAL")
                    for table in _TABLES:
                        self._database.execute(table)
                    return
                except sqlite3.OperationalError:
                    break
                except sqlite3.DatabaseError:
                    self._take_away()
        except OSError:
            pass
        self._database = None

    def _take_away(self) -> None:
        if self._database:
            with contextlib.suppress(sqlite3.Error):
                self._database.close()
        self._database = None
        for ending in ("", "-wal", "-shm"):
            self._path.with_name(self._path.name + ending).unlink(missing_ok=True)

    def _done(self, command: str, *values: object) -> list[tuple[Any, ...]]:
        """The rows of a command; none where another program is writing, or the file is spoilt, which is then begun anew."""
        with self._lock:
            try:
                return self._database.execute(command, values).fetchall() if self._database else []
            except sqlite3.OperationalError:
                return []
            except sqlite3.DatabaseError:
                with contextlib.suppress(OSError):
                    self._take_away()
                    self._open()
                return []


def _today() -> int:
    return int(time.time()) // 86_400


def _digest(told: str, content: bytes) -> bytes:
    """By which it shows whether what is kept is whole."""
    return hashlib.blake2b(told.encode("utf-8") + b"\0" + content, digest_size=16).digest()


def _keys(path: Path, own: bytes, rules: Rules) -> tuple[bytes, bytes]:
    """By what a reading is found: what the file holds and how it is read, and where something was looked for beside it, its folders too."""
    told = (rules.doctypes, rules.includes, rules.catalogs, rules.drop_blanks, sorted(rules.blocks))
    key = own + hashlib.blake2b(repr((told, _version(), _catalogs() if rules.catalogs else None)).encode("utf-8"), digest_size=16).digest()
    folders = [os.path.abspath(path.parent), *map(os.fspath, rules.folders_for(path))]
    return key, key + hashlib.blake2b(b"\0".join(map(os.fsencode, folders)), digest_size=16).digest()


@lru_cache(maxsize=1)
def _version() -> str:
    """What reads: these modules as they are, and lxml's version."""
    digest = hashlib.blake2b(repr((etree.LXML_VERSION, etree.LIBXML_VERSION)).encode("ascii"), digest_size=16)
    for name in SOURCES:
        digest.update(Path(__file__).with_name(name).read_bytes())
    return digest.hexdigest()


@lru_cache(maxsize=1)
def _catalogs() -> list[tuple[str, State]]:
    """The catalogs that say where document types are, as they are now."""
    named = os.environ.get("XML_CATALOG_FILES", SYSTEM_CATALOG).split()
    beside = [it for name in named if "://" not in name for it in sorted(Path(name).absolute().parent.glob("*"))]
    return [(os.fspath(it), state_of(it)) for it in [*map(Path, named), *beside[:1_000]]]


def _reading(path: Path, own: bytes, told: dict[str, Any], content: bytes) -> Reading | None:
    """What is kept, where the files beside it are as they were."""
    for name, state in told["beside"].items():
        if state_of(Path(name)) != (tuple(state) if state else None):
            return None
    elements, attributes, roots = (dict.fromkeys(it, 1) for it in told["names"])
    parts, beside = frozenset(map(Path, told["parts"])), frozenset(map(Path, told["beside"]))
    return Reading(path, content, Vocabulary(elements, attributes, roots), bytes.fromhex(told["digest"]), parts, beside, own, len(content))
