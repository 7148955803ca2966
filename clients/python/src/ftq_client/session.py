"""A session: documents, lists and questions, in one process after another."""

from __future__ import annotations

import logging
import threading
from contextlib import contextmanager
from pathlib import Path
from types import TracebackType
from typing import Iterator, Literal, Protocol, TypeVar, get_args

from .blocks import Content, command_bytes
from .faults import ClientError, ProgramEnded, Refusal, SessionClosed, SessionFull, TimedOut
from .folders import Folder, named_files
from .history import History
from .names import LATEST_FORMAT, OPENINGS, command_words, name_word
from .program import MOST_BYTES, Process, find_program
from .replies import LINES_EACH, Changes, Counts, Done, Element, Found, Reply, Said, Shown, text_of

Wanted = TypeVar("Wanted", Done, Found, Said)

LOG = logging.getLogger("ftq_client")
"""What is told of processes: each that is started, and each that has to be brought to the state of a session."""

Position = Literal["first", "last", "before", "after"]


class Engine(Protocol):
    """What answers: a `Session`, or several that divide the documents among them."""

    def load(self, name: str, content: Content) -> None: ...

    def drop(self, name: str) -> None: ...

    def stop(self, name: str, words: Content) -> None: ...

    def stems(self, lines: Content) -> None: ...

    def thesaurus(self, name: str, lines: Content) -> None: ...

    def abbreviations(self, lines: Content) -> None: ...

    def query(self, path: str) -> list[Element]: ...

    def print(self, path: str) -> list[str]: ...

    def close(self) -> int: ...


class Session:
    """A conversation with the program, over a pipe, for one thread.

    The program reads 64 MiB of a session. The client keeps what it sent, and carries a longer conversation on in a new process
    with the same documents, lists and edits; so documents and lists together may take 64 MiB less the longest command. An
    interrupt (Ctrl-C) while an answer is awaited ends the process, and the next command starts a new one likewise.

    Where `limit` is less than 64 MiB the session moves on earlier. Names of documents, lists and marks are any texts of 1 to 64 characters without
    control characters; in a session of format 1 (docs/SESSIONS.md), which `session_format=1` asks for, they are letters, digits, `.`, `_` and `-`.
    """

    def __init__(
        self, program: str | Path | None = None, *, limit: int = MOST_BYTES, timeout: float | None = None, session_format: int = LATEST_FORMAT
    ) -> None:
        """Starts the program: the one that is given, or what `find_program` finds. It is talked to in the format of sessions that is given, 1 or 2."""
        if session_format not in OPENINGS:
            raise ValueError(f"there are sessions of format 1 and 2, and none of {session_format!r}")
        self.session_format = session_format
        self.timeout = timeout
        """The seconds within which each command has to be answered, or `TimedOut` is raised; None for as long as it takes. It may be set anew."""
        self.program = Path(program) if program else find_program()
        self.limit = limit
        self.processes = 0
        """How many processes this session has started."""
        self._history = History()
        self._interrupted = False
        self._closed = False
        self._process: Process | None = self._start()

    def __enter__(self) -> "Session":
        if self._closed:
            raise SessionClosed("the session was closed: start another one")
        return self

    def __exit__(self, kind: type[BaseException] | None, value: BaseException | None, traceback: TracebackType | None) -> None:
        self.close()

    def load(self, name: str, content: Content) -> None:
        """Reads `content` as a document and puts it last in the collection. Any bytes may be given, or a text."""
        self._said(self.command(f"load {self._word(name)}", content), Done)

    def load_folder(self, folder: str | Path, pattern: str = "**/*.xml") -> Folder:
        """Loads the files of a folder whose paths match, in their order, each under its path's name. One that the program refuses, as it does one
        with a document type, is told with the refusal, and the rest goes on; `ftq_ask` reads such files by lxml."""
        came = Folder({}, {})
        for name, path in named_files(Path(folder), pattern):
            try:
                self.load(name, path.read_bytes())
                came.documents[name] = path
            except (Refusal, SessionFull) as fault:
                came.refused[path] = fault
        return came

    def drop(self, name: str) -> None:
        """Takes the document out of the collection."""
        self._said(self.command(f"drop {self._word(name)}"), Done)

    def stop(self, name: str, words: Content) -> None:
        """Reads `words`, one in a line, as a stop list, in the place of the one of that name."""
        self._said(self.command(f"stop {self._word(name)}", words), Done)

    def stems(self, lines: Content) -> None:
        """Reads `lines`, a word and its stem in each, as the dictionary of stems, in the place of the one before."""
        self._said(self.command("stems", lines), Done)

    def thesaurus(self, name: str, lines: Content) -> None:
        """Reads `lines`, each `RELATION | PHRASE | PHRASE`, as a thesaurus, in the place of the one of that name."""
        self._said(self.command(f"thesaurus {self._word(name)}", lines), Done)

    def abbreviations(self, lines: Content) -> None:
        """Reads `lines`, a word in each, as the abbreviations behind which a period ends no sentence, in the place of those before; with none each
        period ends one again. A `ValueError` in a session of format 1, which has no such command."""
        self._said(self.command("abbreviations", lines), Done)

    def query(self, path: str) -> list[Element]:
        """The elements that the path selects, documents in order of loading, elements of one document in its order."""
        found = self._said(self.command(f"query {path}"), Found)
        return [Element.read(line) for line in found.lines]

    def print(self, path: str) -> list[str]:
        """The elements that the path selects as XML, each on one line, in the order of `query`."""
        return list(self._said(self.command(f"print {path}"), Found).lines)

    def show(self, path: str) -> list[Shown]:
        """The elements that the path selects, each with its words, and those marked by which it is found; the path ends in a predicate `. contains text`
        alone. `NothingToShow` where that can't be said, a `BadCommand` in a session of format 1."""
        lines = self._said(self.command(f"show {path}"), Found).lines
        return [Shown.read(line, words) for line, words in zip(lines[::2], lines[1::2])]

    def text(self, element: Element | str) -> str:
        """All text inside an element that was found, or inside the one that a path selects; a `ValueError` where it selects none or several."""
        path = element if isinstance(element, str) else element.line
        printed = self.print(path)
        if len(printed) != 1:
            raise ValueError(f"{path} selects {len(printed)} elements, and the text is that of one")
        return text_of(printed[0])

    def insert(self, position: Position, path: str, content: Content) -> None:
        """Reads `content` as nodes and puts them into the one element that the path selects, as its first or last children, or before or after it."""
        if position not in get_args(Position):
            raise ValueError(f"content goes {', '.join(get_args(Position)[:-1])} or {get_args(Position)[-1]}, not {position!r}")
        self._said(self.command(f"insert {position} {path}", content), Done)

    def replace(self, path: str, content: Content) -> None:
        """Reads `content` as nodes and puts them in the place of the one element that the path selects."""
        self._said(self.command(f"replace {path}", content), Done)

    def delete(self, path: str) -> None:
        """Takes out all elements that the path selects."""
        self._said(self.command(f"delete {path}"), Done)

    def mark(self, name: str) -> None:
        """Keeps the collection as it is, under a name, for `query_at`."""
        self._said(self.command(f"mark {self._word(name)}"), Done)

    def unmark(self, name: str) -> None:
        """Gives the mark up."""
        self._said(self.command(f"unmark {self._word(name)}"), Done)

    def query_at(self, mark: str, path: str) -> list[Element]:
        """The elements that the path selects in the collection as the mark has it, with the abbreviations of its moment; lists are those of now."""
        found = self._said(self.command(f"query at {self._word(mark)} {path}"), Found)
        return [Element.read(line) for line in found.lines]

    def watch(self, name: str, path: str) -> None:
        """Keeps the path as a standing query under a name, with the elements that it selects now, for `changes`. As `changes` and `unwatch` it is
        a `BadCommand` in a session of format 1."""
        self._said(self.command(f"watch {self._word(name)} {path}"), Done)

    def changes(self, name: str) -> Changes:
        """How the elements that a standing query selects differ from those of the last time: of `watch`, or of `changes` since."""
        return Changes.read(self._said(self.command(f"changes {self._word(name)}"), Found).lines)

    def unwatch(self, name: str) -> None:
        """Gives the standing query up."""
        self._said(self.command(f"unwatch {self._word(name)}"), Done)

    def stats(self) -> Counts:
        """How much the session holds."""
        return Counts.read(self._said(self.command("stats"), Said).text)

    def explain(self, selection: str) -> str:
        """A simpler form of the selection, which the same texts satisfy. No list is looked at."""
        return self._said(self.command(f"explain {selection}"), Said).text

    def command(self, line: str, block: Content | None = None) -> Reply:
        """The reply to any command of the program's. Its block's bytes are given as they are; their length is put in here, or in format 1 they are
        quoted. A name in the line that isn't a bare one stands between quotes there.

        Raises a `Refusal` where the program refuses it, `SessionFull` where it is too long to be sent, `ProgramEnded` where the
        program ends, `TimedOut` where it takes too long, `SessionClosed` behind `close`, and a `ValueError` where the line is none that the
        program would answer.
        """
        command = command_bytes(line, block, self.session_format)
        word = command_words(line, self.session_format)[0]
        process = self._ready(len(command))
        try:
            with self._in_time(process):
                reply = process.ask(command, LINES_EACH.get(word, 1))
        except Refusal:
            raise
        except BaseException:
            process.kill()
            self._process = None
            raise
        if isinstance(reply, Done) or word == "changes":
            self._history.add(line, command, self.session_format)
        return reply

    def give_up_after(self, seconds: float | None) -> None:
        """Sets `timeout`."""
        self.timeout = seconds

    def interrupt(self) -> None:
        """Ends the process from another thread: a command that waits there raises `ProgramEnded`, the next one starts a new process."""
        process = self._process
        if process:
            self._interrupted = True
            process.end()

    @property
    def is_interrupted(self) -> bool:
        """Whether the process was ended by `interrupt`, or since it took too long, and nothing was asked after that."""
        return self._interrupted

    @property
    def pid(self) -> int | None:
        """The number of the process that answers now, if there is one."""
        return self._process.pid if self._process else None

    def close(self) -> int:
        """Ends the program and the session; the program's exit status: 0, or 1 where it refused a command."""
        self._closed = True
        process, self._process = self._process, None
        return process.close() if process else 0

    def _word(self, name: str) -> str:
        """A name as a command of this session has it."""
        return name_word(name, self.session_format)

    def _start(self) -> Process:
        self.processes += 1
        process = Process(self.program, OPENINGS[self.session_format])
        LOG.debug("%s was started as process %d", self.program, process.pid)
        return process

    def _ready(self, size: int) -> Process:
        """A process that takes a command of so many bytes, in the state of this session."""
        if self._closed:
            raise SessionClosed("the session was closed: start another one")
        if self._interrupted and self._process:
            self._process.close()
            self._process = None
        self._interrupted = False
        if self._process and self._process.sent + size <= self.limit:
            return self._process
        self._history.tidy()
        again = len(OPENINGS[self.session_format]) + self._history.size
        if again + size > self.limit:
            raise SessionFull(f"documents and lists of {again:,} bytes and a command of {size:,} are more than the {self.limit:,} of one session")
        if self._process:
            self._process.close()
        self._process = self._start()
        LOG.info("process %d carries a session on: %d commands of %d bytes are sent again", self._process.pid, len(self._history.commands), again)
        for command in self._history.commands:
            self._process.ask(command)
        return self._process

    @contextmanager
    def _in_time(self, process: Process) -> Iterator[None]:
        """Ends the process where what is asked inside takes longer than it may; an answer that came at the last moment counts."""
        if self.timeout is None:
            yield
            return
        late = threading.Event()

        def end() -> None:
            late.set()
            process.end()

        timer = threading.Timer(self.timeout, end)
        timer.start()
        try:
            yield
        except ProgramEnded:
            if late.is_set():
                raise TimedOut(self.timeout) from None
            raise
        finally:
            timer.cancel()
            timer.join()
            self._interrupted = self._interrupted or late.is_set()

    @staticmethod
    def _said(reply: Reply, wanted: type[Wanted]) -> Wanted:
        if not isinstance(reply, wanted):
            raise ClientError(f"a reply of another form than the command's: {reply}")
        return reply
