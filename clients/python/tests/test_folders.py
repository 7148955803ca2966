"""Folders that the client loads by itself, and the text of what is found."""

from __future__ import annotations

import asyncio
from pathlib import Path

import pytest

from ftq_client import AsyncSession, DocumentFault, Session, SessionFull

STORM = 'collection()//p[. contains text "storm"]'


@pytest.fixture
def letters(tmp_path: Path) -> Path:
    """A folder of letters: two that are documents, one that is none, one whose name is taken, and a file of another kind."""
    (tmp_path / "a b").mkdir()
    (tmp_path / "hull.xml").write_text("<letter><p>A heavy <b>storm</b> &amp; hail</p></letter>")
    (tmp_path / "a b" / "bergen.xml").write_text("<x:letter><p>No storm</p></x:letter>")
    (tmp_path / "a-b.bergen.xml").write_text("<letter/>")
    (tmp_path / "typed.xml").write_text("<!DOCTYPE letter><letter/>")
    (tmp_path / "readme.txt").write_text("<letter/>")
    return tmp_path


def test_a_folder_is_loaded_in_order_and_what_is_refused_is_told(session: Session, letters: Path) -> None:
    came = session.load_folder(letters)
    assert list(came.documents) == ["a-b.bergen", "a-b.bergen-2", "hull"]
    assert came.documents["a-b.bergen-2"] == letters / "a-b.bergen.xml"
    (path,) = came.refused
    fault = came.refused[path]
    assert path == letters / "typed.xml" and isinstance(fault, DocumentFault) and fault.kind == "syntax"
    assert session.stats().documents == 3
    assert session.load_folder(str(letters), "*.txt").documents == {"readme.txt": letters / "readme.txt"}


def test_names_are_no_longer_than_they_may_be(session: Session, tmp_path: Path) -> None:
    for number in range(3):
        (tmp_path / f"{number}{'x' * 80}.xml").write_text("<a/>")
    names = list(session.load_folder(tmp_path).documents)
    assert len(set(names)) == 3 and all(len(it) <= 64 for it in names) and session.stats().documents == 3


def test_what_a_session_is_too_full_for_is_told(program: Path, tmp_path: Path) -> None:
    for number in range(3):
        (tmp_path / f"{number}.xml").write_text(f"<a>{'word ' * 100}</a>")
    with Session(program, limit=1200) as session:
        came = session.load_folder(tmp_path)
        assert list(came.documents) == ["0", "1"] and isinstance(came.refused[tmp_path / "2.xml"], SessionFull)


def test_the_text_of_an_element(session: Session, letters: Path) -> None:
    session.load_folder(letters)
    first, second = session.query(STORM)
    assert session.text(first) == "No storm"
    assert session.text(second) == "A heavy storm & hail"
    assert session.text('doc("a-b.bergen")/x:letter') == "No storm"
    for path, count in ((STORM, 2), ("collection()//q", 0)):
        with pytest.raises(ValueError, match=f"selects {count} elements"):
            session.text(path)


def test_the_same_for_asyncio(program: Path, letters: Path) -> None:
    async def ask() -> tuple[int, str]:
        async with AsyncSession(program) as session:
            came = await session.load_folder(letters)
            return len(came.documents), await session.text('doc("hull")/letter/p')

    assert asyncio.run(ask()) == (3, "A heavy storm & hail")
