"""The program and the collections that the tests ask. There is no stand-in for the program: without it the tests are skipped."""

from __future__ import annotations

import os
import signal
import subprocess
import sys
from pathlib import Path
from typing import Callable, Iterator

import pytest

TOP = Path(__file__).resolve().parents[3]
sys.path.insert(0, str(TOP / "clients" / "python" / "src"))

from ftq_client import ProgramMissing, Session, find_program  # noqa: E402

FILES = {
    "voyages.xml": """<?xml version="1.0"?>
<book id="b1">
  <title>Sea Voyages</title>
  <chapter><title>The Departure</title>
    <p>The ship left the harbour. The crew was cheerful.</p>
    <p>No storm was seen.</p>
  </chapter>
  <chapter><title>The Storm</title><p>A heavy storm struck the ship at night, sailing north.</p></chapter>
</book>
""",
    "garden.xml": '<!DOCTYPE book [<!ENTITY amp2 "and">]>\n<book id="b2"><title>Garden Notes</title>\n<p><![CDATA[Water < roses]]> &amp2; sails.</p></book>',
    "more/latin.xml": '<?xml version="1.0" encoding="ISO-8859-1"?>\n<book xmlns:d="urn:d"><d:para d:n="1">caf\xe9 &eacute;</d:para></book>',
    "more/empty.xml": "",
    "more/malformed.xml": "<book>\n<p>\n</book>",
}


@pytest.fixture(scope="session", autouse=True)
def own_folders(tmp_path_factory: pytest.TempPathFactory) -> None:
    """What the tools keep, and what they note of what is running, stands apart from the user's own."""
    for name in ("XDG_CACHE_HOME", "XDG_RUNTIME_DIR"):
        os.environ[name] = str(tmp_path_factory.mktemp("own"))


@pytest.fixture(scope="session", autouse=True)
def interrupts_come() -> Iterator[None]:
    """A shell that starts the tests behind it (`&`) has them ignore interrupts, and so all that they start; here interrupts are tried."""
    was = signal.signal(signal.SIGINT, signal.default_int_handler)
    yield
    signal.signal(signal.SIGINT, was)


@pytest.fixture(scope="session")
def program() -> Path:
    """The program that was built, or what FTQ names."""
    try:
        return find_program()
    except ProgramMissing as missing:
        pytest.skip(str(missing))


@pytest.fixture
def session(program: Path) -> Iterator[Session]:
    """A session without documents."""
    with Session(program) as it:
        yield it


@pytest.fixture(scope="session")
def folder(tmp_path_factory: pytest.TempPathFactory) -> Path:
    """A folder of XML: a plain file, one with a document type and CDATA, one in Latin-1 with prefixes, an empty and a malformed one."""
    top = tmp_path_factory.mktemp("library")
    for name, text in FILES.items():
        path = top / name
        path.parent.mkdir(exist_ok=True)
        if name == "more/latin.xml":
            text = text.replace("<book", '<!DOCTYPE book SYSTEM "elsewhere.dtd"><book')
        path.write_bytes(text.encode("latin-1" if "latin" in name else "utf-8"))
    return top


@pytest.fixture
def ask(program: Path) -> Callable[..., subprocess.CompletedProcess[str]]:
    """Runs tools/ask with the program."""

    def run(*words: object, typed: str | None = None) -> subprocess.CompletedProcess[str]:
        command = [str(TOP / "tools" / "ask"), "--program", str(program), *map(str, words)]
        return subprocess.run(command, capture_output=True, text=True, input=typed, timeout=120)

    return run
