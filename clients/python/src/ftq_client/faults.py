"""What can go wrong: refusals of the program, its early end, and what the client itself can't do."""

from __future__ import annotations

import re

EXITS = {
    2: "the words of the call name no file",
    3: "the session can't be read",
    4: "a reply can't be written",
    5: "there is not enough memory",
    6: "the session is too long",
}
"""What the program's exit statuses mean, those of a session that was read to its end (0 and 1) left out."""


class ClientError(Exception):
    """Everything that this package raises by itself."""


class ProgramMissing(ClientError):
    """There is no program to start."""


class SessionClosed(ClientError):
    """The session was closed: it takes no more commands."""


class SessionFull(ClientError):
    """A command, or the documents and lists that have to be sent again before it, are longer than a session may be."""


class ProgramEnded(ClientError):
    """The program ended before it answered.

    `status` is its exit status (the number of a signal as a negative number), `line` what it said on standard error.
    """

    def __init__(self, status: int, line: str) -> None:
        meaning = EXITS.get(status, "it was ended by a signal" if status < 0 else "the session was read to its end")
        super().__init__(f"the program ended with {status}, {meaning}" + (f": {line}" if line else ""))
        self.status = status
        self.line = line

    def __reduce__(self) -> tuple[type["ProgramEnded"], tuple[int, str]]:
        return ProgramEnded, (self.status, self.line)


class TimedOut(ClientError):
    """No reply came within so many `seconds`. The program was ended; the next command starts another one with the same documents."""

    def __init__(self, seconds: float) -> None:
        super().__init__(f"no reply within {seconds:g} s")
        self.seconds = seconds

    def __reduce__(self) -> tuple[type["TimedOut"], tuple[float]]:
        return TimedOut, (self.seconds,)


class Refusal(ClientError):
    """A command that the program refused. It changed nothing.

    `number` and `kind` say which refusal it is, `reply` is the program's line. What a kind doesn't tell is None: `place` counts
    the bytes before it (of a block, or of a path), `line` counts from 1 (of the process's session, or of a list's block).
    """

    number: int = 0
    kind: str = "refused"

    def __init__(self, reply: str, *, place: int | None = None, line: int | None = None, name: str | None = None, count: int | None = None) -> None:
        super().__init__(reply)
        self.reply = reply
        self.place = place
        self.line = line
        self.name = name
        self.count = count


class BadCommand(Refusal):
    """The line is no command, is too long or its block is open at the session's end; `line` is that of the session."""

    number, kind = 1, "bad command"


class BadName(Refusal):
    """The name has other characters than a name may, or too many; `line` is that of the session."""

    number, kind = 2, "bad name"


class NameTaken(Refusal):
    """There is a document, a mark or a watch of that `name`."""

    number, kind = 3, "name taken"


class NoSuchName(Refusal):
    """There is no document, no mark or no watch of that `name`."""

    number, kind = 4, "no such name"


class Full(Refusal):
    """There are as many as there may be: `count` of what `kind` says (`documents`, `marks`, `watches`, `stop lists`, `thesauri`)."""

    number, kind = 5, "full"


class DocumentFault(Refusal):
    """The block isn't a document: `kind` is `not utf-8`, `syntax`, `depth`, `nodes` (at `place`) or `tokens`."""

    number, kind = 6, "document"


class BadLine(Refusal):
    """Line `line` of the block isn't what a line of such a list may be."""

    number, kind = 6, "bad line"


class QueryFault(Refusal):
    """The path or a selection in it is faulty at `place`; `kind` is the fault's name."""

    number, kind = 7, "query"

    def column(self, path: str) -> int:
        """How many characters of the path stand before the fault."""
        return len(path.encode("utf-8")[: self.place or 0].decode("utf-8", errors="ignore"))


class NoSuchDocument(Refusal):
    """The path begins with a document's `name` that no document has."""

    number, kind = 8, "no such document"


class NoSuchList(Refusal):
    """A selection names a stop list or a thesaurus, `name`, that isn't there."""

    number, kind = 9, "no such list"


class NoTarget(Refusal):
    """An edit selects no element."""

    number, kind = 10, "no target"


class ManyTargets(Refusal):
    """An edit of one element selects `count` of them."""

    number, kind = 11, "many targets"


class RootTarget(Refusal):
    """An edit would take a document's root, or put something beside it."""

    number, kind = 12, "root target"


class OverLimit(Refusal):
    """A document would have too much of what `kind` says: `depth`, `nodes` or `tokens`."""

    number, kind = 13, "limit"


class NothingToShow(Refusal):
    """`show` can't say why what the path selects is found: its last step doesn't end in a predicate `. contains text` alone, or the selection there has
    `occurs` under a filter, or `ftnot` or `occurs` in an `ftnot`."""

    number, kind = 15, "nothing to show"


_FORMS: list[tuple[type[Refusal], re.Pattern[str]]] = [
    (BadCommand, re.compile(r"! 1 bad command at line (?P<line>\d+)")),
    (BadName, re.compile(r"! 2 bad name at line (?P<line>\d+)")),
    (NameTaken, re.compile(r"! 3 name taken: (?P<name>.+)")),
    (NoSuchName, re.compile(r"! 4 no such name: (?P<name>.+)")),
    (Full, re.compile(r"! 5 full at (?P<count>\d+) (?P<kind>.+)")),
    (DocumentFault, re.compile(r"! 6 document: (?P<kind>not utf-8|syntax|depth|nodes) at (?P<place>\d+)")),
    (DocumentFault, re.compile(r"! 6 document: (?P<kind>tokens)")),
    (BadLine, re.compile(r"! 6 list: bad line (?P<line>\d+)")),
    (QueryFault, re.compile(r"! 7 query: (?P<kind>.+) at (?P<place>\d+)")),
    (NoSuchDocument, re.compile(r"! 8 no such document: (?P<name>.*)")),
    (NoSuchList, re.compile(r"! 9 no such list: (?P<name>.*)")),
    (NoTarget, re.compile(r"! 10 no target")),
    (ManyTargets, re.compile(r"! 11 many targets: (?P<count>\d+)")),
    (RootTarget, re.compile(r"! 12 root target")),
    (OverLimit, re.compile(r"! 13 limit: (?P<kind>depth|nodes|tokens)")),
    (NothingToShow, re.compile(r"! 15 nothing to show")),
]


def refusal_of(reply: str) -> Refusal:
    """The refusal that a reply's line tells of; one of no known form is a plain `Refusal` with its text alone."""
    for form, pattern in _FORMS:
        told = pattern.fullmatch(reply)
        if told:
            parts = told.groupdict()
            refusal = form(reply, place=_number(parts, "place"), line=_number(parts, "line"), name=parts.get("name"), count=_number(parts, "count"))
            refusal.kind = parts.get("kind") or form.kind
            return refusal
    return Refusal(reply)


def _number(parts: dict[str, str], name: str) -> int | None:
    return int(parts[name]) if name in parts else None
