"""A client of ftq: loads XML documents into a running program and asks it questions.

    from ftq_client import Session

    with Session() as session:
        session.load("one", b"<a>Hello <b>world</b></a>")
        for element in session.query('collection()//a[. contains text "hello"]'):
            print(element.document, element.steps, element.line)

A command that the program refuses raises a `Refusal`, a program that ends early `ProgramEnded`.
"""

from typing import TYPE_CHECKING

from .blocks import block_bytes, command_bytes
from .faults import (
    BadCommand,
    BadLine,
    BadName,
    ClientError,
    DocumentFault,
    Full,
    ManyTargets,
    NameTaken,
    NoSuchDocument,
    NoSuchList,
    NoSuchName,
    NoTarget,
    NothingToShow,
    OverLimit,
    ProgramEnded,
    ProgramMissing,
    QueryFault,
    Refusal,
    RootTarget,
    SessionClosed,
    SessionFull,
    TimedOut,
    refusal_of,
)
from .folders import Folder
from .names import LATEST_FORMAT, Names, command_words, name_word
from .program import find_program
from .replies import Changes, Counts, Done, Element, Found, Reply, Said, Shown, Step
from .session import Engine, Position, Session

if TYPE_CHECKING:
    from .asynchronous import AsyncSession

__version__ = "0.1.0"

__all__ = [
    "AsyncSession",
    "BadCommand",
    "BadLine",
    "BadName",
    "Changes",
    "ClientError",
    "Counts",
    "DocumentFault",
    "Done",
    "Element",
    "Engine",
    "Folder",
    "Found",
    "Full",
    "LATEST_FORMAT",
    "ManyTargets",
    "NameTaken",
    "Names",
    "NoSuchDocument",
    "NoSuchList",
    "NoSuchName",
    "NoTarget",
    "NothingToShow",
    "OverLimit",
    "Position",
    "ProgramEnded",
    "ProgramMissing",
    "QueryFault",
    "Refusal",
    "Reply",
    "RootTarget",
    "Said",
    "Session",
    "SessionClosed",
    "SessionFull",
    "Shown",
    "Step",
    "TimedOut",
    "block_bytes",
    "command_bytes",
    "command_words",
    "find_program",
    "name_word",
    "refusal_of",
]


def __getattr__(name: str) -> object:
    """`AsyncSession`, when it is first asked for: asyncio takes as long to import as all the rest."""
    if name == "AsyncSession":
        from .asynchronous import AsyncSession

        return AsyncSession
    raise AttributeError(f"module {__name__!r} has no attribute {name!r}")
