"""ask serve beside files that change: each answer is that of a new start."""

from __future__ import annotations

import os
import shutil
import subprocess
import time
from pathlib import Path
from typing import Callable, Iterator

import pytest

for module in ("lxml", "rich", "starlette", "uvicorn", "jinja2"):
    pytest.importorskip(module)

from conftest import TOP  # noqa: E402
from ftq_ask.serving.watching import Files, Watch  # noqa: E402
from serving import Server, served  # noqa: E402

STORM = 'collection()//*[. contains text "storm"]'


@pytest.fixture
def folder(tmp_path: Path) -> Path:
    top = tmp_path / "library"
    (top / "more").mkdir(parents=True)
    for name in "abc":
        (top / f"{name}.xml").write_text(f"<r><p>storm in {name}</p></r>")
    (top / "more" / "book.xml").write_text("<r xmlns:i='http://www.w3.org/2001/XInclude'><i:include href='part.xml'/></r>")
    (top / "more" / "part.xml").write_text("<p>storm in a part</p>")
    (top / "more" / "typed.xml").write_text("<!DOCTYPE r SYSTEM 'r.dtd'><r><p>storm &name;</p></r>")
    (top / "more" / "r.dtd").write_text("<!ENTITY name 'Bergen'>")
    return top


def check_same(server: Server, program: Path, folder: Path, runtime: Path) -> bytes:
    """Fails where a call beside what serves isn't answered as one alone; what it has said."""
    calls = server.status()["calls"]
    ran = []
    for name in (runtime, runtime / "absent"):
        environment = {**os.environ, "XDG_RUNTIME_DIR": str(name), "XDG_CACHE_HOME": str(runtime / "absent")}
        asked = ["--query", STORM, "--query", "collection()//p", "--query", "collection()//q"]
        command = [TOP / "tools" / "ask", folder, "--program", program, "--format", "json", *asked]
        ran.append(subprocess.run(command, capture_output=True, env=environment, timeout=60))
    assert server.status()["calls"] == calls + 1
    assert (ran[0].stdout, ran[0].stderr, ran[0].returncode) == (ran[1].stdout, ran[1].stderr, ran[1].returncode)
    return ran[0].stdout + ran[0].stderr


@pytest.fixture
def server(program: Path, folder: Path, tmp_path: Path) -> Iterator[Server]:
    with served(program, folder, XDG_RUNTIME_DIR=str(tmp_path)) as it:
        it.comes_to(idle=2)
        yield it


def replaced(path: Path, text: str) -> None:
    """Puts a file in the place of another one, as editors do."""
    new = path.with_name(f".{path.name}.new")
    new.write_text(text)
    os.replace(new, path)


CHANGES: list[tuple[str, Callable[[Path], object], bytes]] = [
    ("written", lambda top: (top / "a.xml").write_text("<r><p>storm over a</p><p>calm</p></r>"), b"storm over a"),
    ("of the same length", lambda top: (top / "a.xml").write_text("<r><p>storm in z</p></r>"), b"storm in z"),
    ("replaced", lambda top: replaced(top / "b.xml", "<r><q>storm replaced</q></r>"), b"storm replaced"),
    ("new", lambda top: (top / "aa.xml").write_text("<r><p>storm that is new</p></r>"), b"that is new"),
    ("gone", lambda top: (top / "b.xml").unlink(), b"storm in c"),
    ("moved", lambda top: (top / "c.xml").rename(top / "more" / "c.xml"), b"more/c.xml"),
    ("in a new folder", lambda top: shutil.copytree(top / "more", top / "again"), b"again/book.xml"),
    ("a folder gone", lambda top: shutil.rmtree(top / "more"), b"storm in c"),
    ("spoilt", lambda top: (top / "b.xml").write_text("<r><p></r>"), b"Opening and ending tag mismatch"),
    ("emptied", lambda top: (top / "b.xml").write_text(""), b"the file is empty"),
    ("named alike", lambda top: (top / "a .xml").write_text("<r><p>storm named alike</p></r>"), b"storm named alike"),
    ("a part", lambda top: (top / "more" / "part.xml").write_text("<p>storm in another part</p>"), b"in another part"),
    ("a part gone", lambda top: (top / "more" / "part.xml").unlink(), b"there is no such file"),
    ("a part that stands alone", lambda top: (top / "more" / "book.xml").write_text("<r><p>storm</p></r>"), b"part.xml"),
    ("a document type", lambda top: (top / "more" / "r.dtd").write_text("<!ENTITY name 'Oslo'>"), b"Oslo"),
    ("a document type gone", lambda top: (top / "more" / "r.dtd").unlink(), b"the entity name is declared in another file"),
    ("no XML", lambda top: (top / "more" / "notes.txt").write_text("storm"), b"1 doesn't begin as an XML document does"),
    ("too deep", lambda top: (top / "a.xml").write_text("<r>" * 201 + "</r>" * 201), b"inside 200 others"),
]


@pytest.mark.parametrize(("name", "change", "wanted"), CHANGES, ids=[it[0] for it in CHANGES])
def test_the_first_answer_after_a_change_is_that_of_a_new_start(
    server: Server, program: Path, folder: Path, tmp_path: Path, name: str, change: Callable[[Path], object], wanted: bytes
) -> None:
    before = server.get("/api/query", q=STORM).body
    change(folder)
    assert wanted in check_same(server, program, folder, tmp_path)
    edition = server.status()["edition"]
    assert edition > 0 and (name == "no XML" or server.get("/api/query", q=STORM).body != before)
    assert server.lines(STORM)[-1]["part"] == "end" and server.status()["edition"] == edition


def test_many_changes_one_after_the_other(server: Server, program: Path, folder: Path) -> None:
    for number in range(40):
        (folder / "a.xml").write_text(f"<r><p>storm number {number % 10}</p></r>")
        rows = [it for it in server.lines(f'collection()//p[. contains text "storm number {number % 10}"]') if it["part"] == "element"]
        assert [it["document"] for it in rows] == ["a.xml"] and not rows[0]["note"]
    names = ["a.xml", "b.xml", "c.xml", "more/book.xml", "more/typed.xml"]
    assert [it["document"] for it in server.lines("collection()/r") if it["part"] == "element"] == names


def test_many_changes_at_once(server: Server, folder: Path) -> None:
    for number in range(60):
        (folder / f"new{number:02}.xml").write_text(f"<r><p>storm {'and more ' * 8_000}{number}</p></r>")
    rows = server.lines('collection()/r[. contains text "and more"]', limit=100)
    assert [it["document"] for it in rows if it["part"] == "element"] == [f"new{number:02}.xml" for number in range(60)]
    assert len(server.children()) == 2
    for number in range(60):
        (folder / f"new{number:02}.xml").unlink()
    assert server.lines('collection()/r[. contains text "and more"]')[1]["count"] == 0


def test_changes_are_taken_in_before_they_are_asked_for(server: Server, folder: Path) -> None:
    if not Watch().tells:
        pytest.skip("this system doesn't tell of changes")
    (folder / "new.xml").write_text("<r><p>storm</p></r>")
    server.comes_to(documents=6)


def test_both_programs_get_the_change(server: Server, folder: Path) -> None:
    (folder / "a.xml").write_text("<r><p>calm</p></r>")
    assert server.lines('collection()//p[. contains text "calm"]')[1]["count"] == 1
    server.comes_to(idle=2)
    begun = [server.begun('collection()//p[. contains text "calm"]', as_typed=number % 2) for number in range(8)]
    for connection, response, _ in begun:
        assert b'"count":1' in response.read()
        connection.close()


def test_a_file_outside_to_which_a_link_leads(program: Path, folder: Path, tmp_path: Path) -> None:
    outside = tmp_path / "outside.xml"
    outside.write_text("<r><p>storm outside</p></r>")
    (folder / "link.xml").symlink_to(outside)
    with served(program, folder, tmp_path / "outside.xml", XDG_RUNTIME_DIR=str(tmp_path)) as it:
        question = 'collection()//p[. contains text "outside"]'
        assert it.lines(question)[1]["count"] == 2
        outside.write_text("<r><p>storm outside</p><p>and outside</p></r>")
        assert it.lines(question)[1]["count"] == 4


def test_what_may_have_changed_is_told_before_it_is_asked_for(tmp_path: Path) -> None:
    (tmp_path / "a" / "b").mkdir(parents=True)
    for tells in (True, False):
        files = Files([str(tmp_path)])
        if not tells:
            files.watch.close()
        elif not files.watch.tells:
            continue
        first = files.look(time.time_ns(), set())
        for number in range(200):
            assert not tells or not files.stirred()
            (tmp_path / "a" / "b" / "file").write_text(str(number % 10))
            assert files.stirred()
            now = files.look(time.time_ns(), set())
            assert now != first
            first = now
        files.watch.close()
