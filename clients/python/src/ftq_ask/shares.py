"""Several programs that divide the documents among them in order of loading, on this machine or on several.

Each document is judged by itself, so that the answer to a query is the answers of the shares one after the other. An edit goes to
the share that holds its document. Each share has the limits of one program: 4,096 documents and 64 MiB.

Where a machine goes away, what its share was given is given to another one, and the question is asked again there: it costs time, and the
answer is the same. Where there is no other machine, `LeftOut` says which documents are missing, with what the others answer.
"""

from __future__ import annotations

import io
import tempfile
from collections import deque
from concurrent.futures import Future, ThreadPoolExecutor, wait
from pathlib import Path
from typing import Any, Callable, Iterable, TypeVar

import ftq_client
from ftq_client import (
    LATEST_FORMAT,
    ClientError,
    Done,
    Element,
    Found,
    NameTaken,
    NoSuchDocument,
    NoSuchName,
    ProgramEnded,
    Reply,
    Session,
    Shown,
    command_words,
)
from ftq_client.replies import LINES_EACH

Answer = TypeVar("Answer")
Part = TypeVar("Part")

MOST_MOVES = 5
"""How often a share is given to another machine before one of its calls is given up."""

LOOK_SECONDS = 1.0
"""How long an answer from another machine is awaited before it is looked whether that machine is still there."""


MOST_TOGETHER = 16
BYTES_TOGETHER = 250_000
"""How many documents are given to a share together, and of how many bytes at most, when many are loaded."""

MOST_GROUPS = 3
"""How many such groups wait for each share."""

Document = tuple[int, str, bytes]
"""A document that is to be loaded, behind its share and its name."""

Faults = dict[str, Exception | None]
"""Of documents that were given to a program why each wasn't loaded, or that it was."""


class Lost(ClientError):
    """The machine that held a share went away, and there is no other."""

    def __init__(self, why: str = "the machine that held a share of the documents went away, and there is no other") -> None:
        super().__init__(why)


class NoMachine(Lost):
    """There is no machine for a share now."""


class LeftOut(ClientError):
    """An answer without the documents of a share whose machine went away, where no other takes them. `documents` names these, `found` is what the
    other shares answer. The next question tries again to find a machine for them."""

    def __init__(self, documents: Iterable[str], found: list[Any]) -> None:
        self.documents, self.found = tuple(documents), found
        names = ", ".join(self.documents[:3]) + (", .." if len(self.documents) > 3 else "")
        count = len(self.documents)
        super().__init__(
            f"{count:,} document{'' if count == 1 else 's'} ({names}) {'is' if count == 1 else 'are'} left out, since the machine that held them went "
            f"away and no other takes them; the others have {len(found):,} elements"
        )

    def __reduce__(self) -> tuple[type["LeftOut"], tuple[tuple[str, ...], list[Any]]]:
        return LeftOut, (self.documents, self.found)


class Kept:
    """What a share was given and still holds, in a file of this machine, so that it can be given to another engine."""

    def __init__(self) -> None:
        self._file = tempfile.TemporaryFile(prefix="ftq-share-")
        self._documents: dict[str, tuple[int, int]] = {}
        self._calls: dict[tuple[str, str], tuple[Any, ...]] = {}

    @property
    def documents(self) -> tuple[str, ...]:
        """The names of the documents, in the order of loading."""
        return tuple(self._documents)

    def load(self, name: str, content: bytes) -> None:
        """The share holds a document more."""
        self._documents[name] = self._file.seek(0, io.SEEK_END), len(content)
        self._file.write(content)

    def drop(self, name: str) -> None:
        """It holds a document no more."""
        self._documents.pop(name, None)

    def called(self, method: str, name: str, *words: Any) -> None:
        """A list was given to it, or something else that the last call of its kind tells."""
        self._calls[method, name] = words

    def give(self, engine: Any) -> None:
        """Gives all of that to an engine that holds nothing."""
        for (method, _), words in self._calls.items():
            getattr(engine, method)(*words)
        for name, (at, size) in self._documents.items():
            self._file.seek(at)
            engine.load(name, self._file.read(size))

    def close(self) -> None:
        """Gives the file up."""
        self._file.close()


def divided(sizes: list[int], shares: int) -> list[int]:
    """The share, from 0, of each of some documents of these sizes: each share gets a run of them, and about as many bytes as the others."""
    whole, before, placed = sum(sizes) or 1, 0, []
    for size in sizes:
        placed.append(min(shares - 1, (before + size // 2) * shares // whole))
        before += size
    return placed


def in_turn(sizes: list[int], shares: list[int]) -> list[int]:
    """The order in which documents of these sizes go to these shares, so that at any time all shares were given about as many bytes: what is loaded
    first in one is loaded beside what is loaded first in the others."""
    given: dict[int, int] = {}
    before = []
    for size, share in zip(sizes, shares):
        before.append(given.get(share, 0))
        given[share] = before[-1] + size
    return sorted(range(len(sizes)), key=before.__getitem__)


class Shares:
    """An engine over several others. Documents go to the share that was last told of, and to the last one at first."""

    def __init__(self, engines: list[Any], at_end: Callable[[], None] = lambda: None, another: Callable[[int], Any] | None = None) -> None:
        """Over these engines; `at_end` is called when they are closed. `another` makes an engine for the share of that number on a machine
        that is there, or raises `Lost`; it is called where an engine raises `Lost`."""
        self._engines = engines
        self._at_end = at_end
        self._another = another
        self._kept = [Kept() for _ in engines] if another else []
        self.moves = 0
        """How often a share was given to another machine."""
        # A session is for one thread: each has a lane of its own, in which what is asked of it stands in a row.
        self._lanes = [ThreadPoolExecutor(max_workers=1) for _ in engines]
        self._homes: dict[str, int] = {}
        self.session_format = engines[0].session_format if engines and isinstance(engines[0], Session) else LATEST_FORMAT
        """The format of the sessions of all of them."""
        self.share = len(engines) - 1
        """The share, from 0, that gets what is loaded next."""

    @property
    def count(self) -> int:
        """How many shares there are."""
        return len(self._engines)

    def load(self, name: str, content: bytes) -> None:
        """Loads a document into the share of now."""
        if name in self._homes:
            raise NameTaken(f"! 3 name taken: {name}", name=name)
        self._lanes[self.share].submit(self._load, self.share, name, content).result()
        self._homes[name] = self.share

    def load_all(self, documents: Iterable[tuple[int, str, bytes]], done: Callable[[str, Exception | None], None]) -> None:
        """Loads documents, each with its share, into all shares at once, where they come `in_turn`; `done` is told of each, with the fault if there
        was one."""
        waiting: deque[tuple[int, Future[Faults]]] = deque()
        groups: list[list[Document]] = [[] for _ in self._lanes]

        def send(share: int) -> None:
            waiting.append((share, self._lanes[share].submit(self._load_group, share, groups[share])))
            groups[share] = []
            # Few documents wait at a time, so that a collection needn't stand in memory.
            if len(waiting) > MOST_GROUPS * len(self._lanes):
                self._await(*waiting.popleft(), done)

        for share, name, content in documents:
            groups[share].append((share, name, content))
            if len(groups[share]) >= MOST_TOGETHER or sum(len(it[2]) for it in groups[share]) > BYTES_TOGETHER:
                send(share)
        for share in range(len(groups)):
            send(share)
        for it in waiting:
            self._await(*it, done)

    def _load(self, share: int, name: str, content: bytes) -> None:
        self._ask(share, lambda it: it.load(name, content))
        for kept in self._kept[share : share + 1]:
            kept.load(name, content)

    def _load_group(self, share: int, group: list[Document]) -> Faults:
        """Loads documents of one share, in its lane; tells of each the fault, if there was one."""
        try:
            faults: Faults = self._ask(share, lambda it: it.load_group(group))
        except Exception as fault:
            return dict.fromkeys((name for _, name, _ in group), fault)
        for kept in self._kept[share : share + 1]:
            for _, name, content in group:
                if faults[name] is None:
                    kept.load(name, content)
        return faults

    def _await(self, share: int, result: Future[Faults], done: Callable[[str, Exception | None], None]) -> None:
        for name, fault in result.result().items():
            if fault is None:
                self._homes[name] = share
            done(name, fault)

    def drop(self, name: str) -> None:
        """Drops a document from the share that holds it."""
        if name not in self._homes:
            raise NoSuchName(f"! 4 no such name: {name}", name=name)
        share = self._homes[name]
        self._lanes[share].submit(self._ask, share, lambda it: it.drop(name)).result()
        for kept in self._kept[share : share + 1]:
            kept.drop(name)
        del self._homes[name]

    def stop(self, name: str, words: bytes) -> None:
        """Gives a stop list to all shares."""
        self._give("stop", name, name, words)

    def stems(self, lines: bytes) -> None:
        """Gives the stems to all shares."""
        self._give("stems", "", lines)

    def thesaurus(self, name: str, lines: bytes) -> None:
        """Gives a thesaurus to all shares."""
        self._give("thesaurus", name, name, lines)

    def abbreviations(self, lines: bytes) -> None:
        """Gives the abbreviations to all shares."""
        self._give("abbreviations", "", lines)

    def query(self, path: str) -> list[Element]:
        """The elements that the path selects, those of the first share first."""
        return self._joined(path, lambda it: it.query(path))

    def print(self, path: str) -> list[str]:
        """The elements that the path selects as XML, those of the first share first."""
        return self._joined(path, lambda it: it.print(path))

    def show(self, path: str) -> list[Shown]:
        """The elements that the path selects with their words, those of the first share first."""
        return self._joined(path, lambda it: it.show(path))

    def command(self, line: str, block: bytes | None = None) -> Reply:
        """The reply to a command. Queries go to all shares, lists too, documents to the share that is theirs; a `ValueError` tells of
        a command that isn't divided."""
        words = command_words(line, self.session_format)
        kind, names = (words[0] if words else ""), words[1:]
        if kind in ("query", "print", "show"):
            return Found(tuple(self._joined(line.strip()[len(kind) :], lambda it: list(it.command(line).lines), LINES_EACH.get(kind, 1))))
        if kind == "explain":
            # No document is looked at.
            explained: Reply = self._lanes[0].submit(lambda: self._ask(0, lambda it: it.command(line))).result()
            return explained
        by_name = {"load": self.load, "stop": self.stop, "thesaurus": self.thesaurus}
        if kind in by_name and len(names) == 1 and block is not None:
            by_name[kind](names[0], block)
        elif kind == "drop" and len(names) == 1:
            self.drop(names[0])
        elif kind in ("stems", "abbreviations") and not names and block is not None:
            self._give(kind, "", block)
        else:
            raise ValueError(f"{kind or 'an empty line'} is not divided among several programs")
        return Done()

    def give_up_after(self, seconds: float | None) -> None:
        """Lets each share raise `TimedOut` where it takes longer to answer."""
        self._give("give_up_after", "", seconds)

    def interrupt(self) -> None:
        """Ends the programs that are sessions of this machine, from another thread; they are started again when they are asked next."""
        for engine in self._engines:
            if isinstance(engine, Session):
                engine.interrupt()

    def twin(self) -> "Shares":
        """The same shares anew, each over an engine that is made like this one's."""
        other = Shares([it.twin() for it in self._engines])
        other._homes = dict(self._homes)
        return other

    def close(self) -> int:
        """Ends all programs; the greatest of their statuses."""
        for lane in self._lanes:
            # What nobody has waited for, since an interrupt came, isn't begun any more.
            lane.shutdown(cancel_futures=True)
        with ThreadPoolExecutor() as closing:
            statuses = list(closing.map(self._close, range(self.count)))
        for kept in self._kept:
            kept.close()
        self._at_end()
        return max(statuses)

    def _close(self, share: int) -> int:
        try:
            return self._engines[share].close() if self._engines[share] else 0
        except Lost:
            return 0

    def _ask(self, share: int, ask: Callable[[Any], Answer]) -> Answer:
        """The answer of a share, in its lane. Where its machine went away, another one is given what it held, and asked; a program that
        somebody ended is asked once more, since its session starts another one with the same documents."""
        moved, was_ended = 0, False
        while True:
            try:
                if self._engines[share] is None:
                    self._engines[share] = self._made_again(share)
                return ask(self._engines[share])
            except NoMachine:
                raise
            except Lost as lost:
                self._engines[share], moved = None, moved + 1
                if self._another is None or moved > MOST_MOVES:
                    raise NoMachine(str(lost)) from lost
            except ProgramEnded as ended:
                engine = self._engines[share]
                if ended.status >= 0 or was_ended or isinstance(engine, Session) and engine.is_interrupted:
                    raise
                was_ended = True

    def _made_again(self, share: int) -> Any:
        """Another engine with what the share was given. Without a machine for it the share has to wait, and the call is over."""
        assert self._another
        try:
            engine = self._another(share)
        except Lost as lost:
            raise NoMachine(str(lost)) from lost
        self._kept[share].give(engine)
        self.moves += 1
        return engine

    def _asked(self, ask: Callable[[Any], Answer]) -> list[Future[Answer]]:
        """Asks all shares at once, and waits for all of them. An interrupt ends their programs, which are started again when they are
        asked next."""
        asked = [lane.submit(self._ask, share, ask) for share, lane in enumerate(self._lanes)]
        try:
            wait(asked)
        except KeyboardInterrupt:
            self.interrupt()
            raise
        return asked

    def _give(self, method: str, name: str, *words: Any) -> None:
        """Gives all shares a list, say; the first fault that one of them tells is raised when all have answered. One whose machine went away
        gets it with its documents."""
        faults = [it.exception() for it in self._asked(lambda it: getattr(it, method)(*words))]
        others = [it for it in faults if it and not isinstance(it, NoMachine)]
        if others:
            raise others[0]
        for kept in self._kept:
            kept.called(method, name, *words)

    def _joined(self, path: str, ask: Callable[[Any], list[Part]], parts_each: int = 1) -> list[Part]:
        """The answers to a path one after the other, with so many parts for each element. A document that it names is in one share; the others' word
        that it isn't there doesn't count, and where one has it none is left out."""
        asked = self._asked(ask)
        faults = [it.exception() for it in asked]
        others = [it for it in faults if it and not isinstance(it, (NoSuchDocument, NoMachine))]
        if others:
            raise others[0]
        lost = [share for share, it in enumerate(faults) if isinstance(it, NoMachine)]
        absent = [it for it in faults if isinstance(it, NoSuchDocument)]
        found = [part for fault, it in zip(faults, asked) if fault is None for part in it.result()]
        if path.lstrip().startswith("doc") and None in faults:
            return found
        if lost:
            raise LeftOut([name for share in lost for name in self._kept[share].documents], found[::parts_each])
        if absent:
            raise absent[0]
        return found


def local_shares(count: int, program: Path | None = None) -> Shares:
    """So many programs on this machine."""
    from .engines import Loading

    return Shares([Loading(program) for _ in range(count)])


class RemoteSession:
    """A session on another machine, as an actor of Dask's `distributed`: the same calls, each awaited. Where the machine goes away, `Lost` is
    raised, also in the middle of a call."""

    def __init__(self, client: Any, worker: str, program: bytes) -> None:
        """Makes one on the worker of that address, with the program, whose bytes are packed by zlib."""
        self._client = client
        self.worker = worker
        self._actor = self._awaited(lambda: client.submit(Actor, program, actor=True, workers=[worker], pure=False))

    def __getattr__(self, name: str) -> Callable[..., Any]:
        return lambda *words: self._call(name, words)

    def _call(self, name: str, words: tuple[Any, ...]) -> Any:
        fault, answer = self._awaited(lambda: getattr(self._actor, "call")(name, *words))
        if fault:
            raise fault
        return answer

    def _awaited(self, begin: Callable[[], Any]) -> Any:
        """What is begun on the other machine comes to. What `distributed` raises by itself means that the machine is lost, as does that
        the scheduler knows it no more: an answer that is awaited from it would never come."""
        try:
            result = begin()
            while True:
                try:
                    return result.result(timeout=LOOK_SECONDS)
                except TimeoutError:
                    if self.worker not in workers_of(self._client):
                        raise Lost() from None
        except Lost:
            raise
        except Exception as error:
            raise Lost(f"the machine at {self.worker} is lost: {error}") from error


class Actor:
    """What stands on the other machine: a session with a program that was sent there."""

    def __init__(self, program: bytes) -> None:
        import os
        import zlib

        from ftq_ask.engines import Loading

        handle, path = tempfile.mkstemp(prefix="ftq-")
        with os.fdopen(handle, "wb") as file:
            file.write(zlib.decompress(program))
        os.chmod(path, 0o700)
        self._session = Loading(path)

    def call(self, name: str, *words: Any) -> tuple[Exception | None, Any]:
        """What a method of the session raises, and what it answers; `close` takes the program away too."""
        fault, answer = None, None
        try:
            answer = getattr(self._session, name)(*words)
        except Exception as raised:
            fault = raised
        if name == "close":
            self._session.program.unlink(missing_ok=True)
        return fault, answer


def package_bytes() -> bytes:
    """This client's packages as a zip, which Python on another machine imports."""
    import zipfile

    top = Path(ftq_client.__file__).resolve().parents[1]
    out = io.BytesIO()
    with zipfile.ZipFile(out, "w") as archive:
        for package in ("ftq_client", "ftq_ask"):
            for path in sorted((top / package).glob("*.py")):
                archive.write(path, f"{package}/{path.name}")
    return out.getvalue()


def workers_of(client: Any) -> list[str]:
    """The addresses of the workers that the scheduler knows now; none where the scheduler itself is away."""
    return sorted(client.scheduler_info()["workers"]) if client.status == "running" else []


def scheduled_shares(address: str, count: int | None, program: Path) -> Shares:
    """So many programs on the workers of a scheduler, dealt out among them in turn; without a number one for each worker. Where a worker goes
    away, its shares go to those that have the fewest, also to such as came later."""
    import zlib

    from distributed import Client
    from distributed.diagnostics.plugin import UploadFile

    # Actors look for the client that is the default one.
    client = Client(address)
    workers = workers_of(client)
    if not workers:
        raise ValueError(f"the scheduler at {address} has no workers")
    with tempfile.TemporaryDirectory() as folder:
        package = Path(folder) / "ftq_packages.zip"
        package.write_bytes(package_bytes())
        # Workers that come later get it too. The method has another name in later versions.
        (getattr(client, "register_plugin", None) or client.register_worker_plugin)(UploadFile(str(package)))
    packed = zlib.compress(program.read_bytes())
    engines: list[Any] = [RemoteSession(client, workers[it % len(workers)], packed) for it in range(count or len(workers))]

    def another(share: int) -> RemoteSession:
        there = workers_of(client)
        loads = {it: sum(1 for engine in engines if engine is not None and engine.worker == it) for it in there}
        if not loads:
            raise Lost()
        return RemoteSession(client, min(loads, key=lambda it: (loads[it], it)), packed)

    return Shares(engines, client.close, another)
