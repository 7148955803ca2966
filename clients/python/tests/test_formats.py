"""Sessions of format 2, as the client writes them: read by the plain reader of tests/formats, which stands for the program here. tests/formats/run compares
that reader with the program itself."""

from __future__ import annotations

import io
import random
import subprocess
import sys
from pathlib import Path
from typing import Any

import pytest

from conftest import TOP

sys.path.insert(0, str(TOP / "tests" / "formats"))

from reader import Command, commands  # noqa: E402

from ftq_client import BadCommand, BadLine, BadName, Element, NameTaken, Names, NoSuchDocument, NoSuchName, Session, command_bytes, command_words, name_word  # noqa: E402

NAMES = ["d", "a b", "more/latin.xml", 'say "hi".xml', '"', "größe €.xml", "'", "x" * 64, "\u2028", "\x80", "..", "# no comment", "at", "tab\u00a0"]
BLOCKS = [b"", b"\n", b".", b".\n", b"\n.\n", b"..\n.", b"a\r\n", b"<a>\n.\n</a>", "é".encode(), b"\xff\xfe", b"load 3 x\nabc\n", b"\xef\xbb\xbf<a/>"]


@pytest.fixture
def standing(tmp_path: Path) -> Path:
    """A program that answers sessions of both formats by the plain reader."""
    path = tmp_path / "standing"
    path.write_text(f'#!/bin/sh\nexec {sys.executable} -B {TOP}/tests/formats/reader.py "$@"\n')
    path.chmod(0o755)
    return path


def read(session: bytes) -> list[Any]:
    """The commands of a session, without their lines."""
    return [it._replace(line=0) for it in commands(io.BytesIO(session))]


def test_names_and_blocks_are_read_as_they_were_given() -> None:
    some = random.Random(3)
    blocks = BLOCKS + [bytes(some.choice(b".\n\r ab\xc3\xa9\"") for _ in range(some.randrange(30))) for _ in range(300)]
    for name in NAMES:
        for block in blocks:
            session = b"session 2\n" + command_bytes(f"load {name_word(name, 2)}", block, 2) + command_bytes(f"drop {name_word(name, 2)}", None, 2)
            assert read(session) == [Command(0, "load", name, block, None), Command(0, "drop", name, None, None)]
    for block in blocks:
        row = [("insert last", 'doc("a b")/a'), ("replace", "collection()/a"), ("stems", ""), ("abbreviations", "")]
        session = b"".join(command_bytes(f"{word} {rest}".rstrip(), block, 2) for word, rest in row)
        assert read(b"session 2\n" + session) == [Command(0, word, rest, block, None) for word, rest in row]
        if not block.startswith(b"\xef\xbb\xbf"):
            assert read(command_bytes("load d", block, 1)) == [Command(0, "load", "d", block, None)]


def test_the_bytes_of_a_session() -> None:
    assert command_bytes("load d", b".a\nb\n", 2) == b"load 5 d\n.a\nb\n\n"
    assert command_bytes('  stop \t "o/f"\r', "é", 2) == 'stop 2 \t "o/f"\né\n'.encode()
    assert command_bytes('drop "a b"', None, 2) == b'drop "a b"\n'
    assert command_bytes("abbreviations", "dr.\nä.", 2) == "abbreviations 7\ndr.\nä.\n".encode()
    assert command_bytes("abbreviations", None, 1) == b"abbreviations\n"
    assert name_word("d", 2) == "d" and name_word('a"b', 2) == '"a""b"' and name_word("x" * 65, 2) == f'"{"x" * 65}"' and name_word("a b", 1) == "a b"
    assert command_words('load "a b"', 2) == ["load", "a b"] and command_words('load "a b"', 1) == ["load", '"a', 'b"']
    assert command_words('drop\t"say ""hi"""  \r', 2) == ["drop", 'say "hi"'] and command_words('drop "a"b', 2) == ["drop", '"a"b']


@pytest.mark.parametrize("line", ["", "# x", "stems", "query a\nquery b"])
def test_lines_without_a_reply_are_not_sent(line: str) -> None:
    with pytest.raises(ValueError):
        command_bytes(line, None, 2)
    with pytest.raises(ValueError):
        command_bytes("query a", b"block", 2)


def test_where_the_program_takes_no_block_none_is_sent(standing: Path) -> None:
    with Session(standing, session_format=2) as session:
        with pytest.raises(BadCommand):
            session.command("load " + "x" * 65_536, b"drop d\ndrop d\n")
        with pytest.raises(NoSuchName):
            session.drop("d")


def test_a_session_with_names_as_files_have_them(standing: Path) -> None:
    with Session(standing, session_format=2) as session:
        for name in NAMES:
            session.load(name, b"<a>\n.\n</a>")
        found = session.query("collection()/a")
        assert [it.document for it in found] == NAMES
        for element in found:
            assert session.query(element.line) == [element] and session.print(element.line) == ["<a>&#10;.&#10;</a>"]
        session.mark("before the end")
        with pytest.raises(NameTaken) as taken:
            session.load('say "hi".xml', b"<a/>")
        assert taken.value.name == 'say "hi".xml'
        for faulty in ("", "x" * 65, "a\tb", "\x7f"):
            with pytest.raises(BadName):
                session.drop(faulty)
        for name in NAMES:
            session.watch(name, "collection()/a")
        session.drop("a b")
        for name in NAMES:
            changes = session.changes(name)
            assert [it.document for it in changes.went] == ["a b"] and changes.came == ()
            session.unwatch(name)
        assert [it.document for it in session.query_at("before the end", "collection()/a")] == NAMES
        assert [it.document for it in session.query("collection()/a")] == [it for it in NAMES if it != "a b"]
        session.unmark("before the end")
        with pytest.raises(NoSuchDocument) as gone:
            session.query('doc("a b")/a')
        assert gone.value.name == "a b"
    assert session.processes == 1


def test_a_session_is_carried_on_in_format_2(standing: Path) -> None:
    with Session(standing, session_format=2, limit=400) as session:
        for number in range(12):
            session.load("my letter", f"<a>{number}</a>")
            session.load("my other letter", f"<a>{number + 100}</a>")
            session.stop("my words", b"a")
            assert session.print("collection()/a") == [f"<a>{number}</a>", f"<a>{number + 100}</a>"]
            session.drop("my letter")
            session.drop("my other letter")
        assert session.processes > 3 and session._history.size < 60
        session.interrupt()
        assert session.query("collection()/a") == []


def test_abbreviations_are_sent_and_sent_again(standing: Path) -> None:
    with Session(standing, session_format=2, limit=300) as session:
        session.load("d", "<a>Dr. Hill ran</a>")
        for lines in ("e.g.", "# none", b"dr.\nProf."):
            session.abbreviations(lines)
        with pytest.raises(BadLine) as bad:
            session.abbreviations("dr.\n\ne.g. x")
        assert bad.value.line == 3
        kept = [b"load 19 d\n<a>Dr. Hill ran</a>\n", b"abbreviations 9\ndr.\nProf.\n"]
        assert session._history.commands == kept
        for _ in range(20):
            session.query("collection()/a")
        assert session.processes > 1 and session._history.commands == kept
        session.mark("m")
        session.abbreviations("")
        assert session._history.commands == [*kept, b"mark m\n", b"abbreviations 0\n\n"]


def test_format_1_has_no_abbreviations(standing: Path) -> None:
    with Session(standing, session_format=1) as session:
        with pytest.raises(ValueError, match="abbreviations takes no block in a session of format 1"):
            session.abbreviations("dr.")
        with pytest.raises(BadCommand):
            session.command("abbreviations")
        assert session.query("collection()/a") == []


def test_both_formats_answer_alike(standing: Path, program: Path) -> None:
    answers = []
    for path, form in ((standing, 1), (standing, 2), (program, 1), (program, 2)):
        with Session(path, session_format=form) as session:
            session.load("one", b"<a>x</a>")
            session.load("two.xml", b"<a>\n.\n..z\n</a>")
            session.stop("s", b"a")
            answers.append((session.query("collection()/a"), session.print("collection()/a"), session.print('doc("one")/a')))
    assert all(it == answers[0] for it in answers)


def test_a_format_that_is_none() -> None:
    with pytest.raises(ValueError):
        Session("/bin/true", session_format=3)


def test_lines_of_elements() -> None:
    element = Element.read('doc("a ""b"")/c[1]")/d[2]/é[10]')
    assert element.document == 'a "b")/c[1]' and [tuple(it) for it in element.steps] == [("d", 2), ("é", 10)]
    for line in ('doc("a"b")/c[1]', 'doc("")/c[1]', 'doc("a")', 'doc("a""")b/c[1]'):
        with pytest.raises(ValueError):
            Element.read(line)


def test_names_by_paths() -> None:
    names = Names(2)
    assert names.name_for(Path("part one/Größe.xml")) == "part one/Größe.xml"
    assert names.name_for(Path("part one/Größe.xml")) == "part one/Größe.xml (2)"
    assert names.name_for(Path("a\tb\x7f.xml")) == "a-b-.xml"
    long = [names.name_for(Path(f"{'x' * 100}/{'y' * 100}/{number}.xml")) for number in ("1", "1", "12")]
    assert long[0] == "x" * 31 + ".." + "y" * 25 + "/1.xml" and long[1].endswith("/1.xml (2)") and long[2].endswith("/12.xml")
    assert all(len(it) == 64 for it in long) and len(set(long)) == 3
    assert Names(2).name_for(Path("x" * 64)) == "x" * 64 and len(Names(2).name_for(Path("x" * 65))) == 64
    assert Names(2).name_for(Path(bytes([0x61, 0xFF]).decode("utf-8", "surrogateescape"))) == "a\ufffd"


def test_a_collection_names_documents_by_their_paths(standing: Path, tmp_path: Path) -> None:
    pytest.importorskip("lxml")
    from ftq_ask.collection import Collection
    from ftq_ask.engines import Loading

    library = tmp_path / "library"
    for name in ("one.xml", "more/the second.xml", 'more/"3".xml', f"{'deep ' * 20}/last.xml"):
        path = library / name
        path.parent.mkdir(parents=True, exist_ok=True)
        path.write_text("<a>x</a>")
    collection = Collection(Loading(standing, session_format=2))
    try:
        collection.load(collection.plan([library]), lambda path: None)
        assert sorted(collection.sources) == ["deep deep deep deep deep deep d..p deep deep deep deep /last.xml", 'more/"3".xml', "more/the second.xml", "one.xml"]
        assert [it.document for it in collection.query('doc("more/the second.xml")/a')] == ["more/the second.xml"]
        for bare, name in (("one", "one.xml"), ("more.the-second", "more/the second.xml"), ("more.-3-", 'more/"3".xml')):
            assert [it.document for it in collection.query(f'doc("{bare}")/a')] == [name]
        (element,) = collection.query('doc("more/""3"".xml")/a')
        assert collection.locator.locate(element).path == library / 'more/"3".xml'
        collection.as_typed = True
        with pytest.raises(NoSuchDocument):
            collection.query('doc("one")/a')
        twin = collection.engine.twin()
        assert [it.document for it in twin.query("collection()/a")] == list(collection.sources)
        twin.close()
        collection.command('drop "more/the second.xml"', None)
        assert "more/the second.xml" not in collection.sources
    finally:
        collection.engine.close()


def test_packing_in_both_formats(tmp_path: Path) -> None:
    pytest.importorskip("lxml")
    (tmp_path / "a b").mkdir()
    (tmp_path / "a b" / "c.xml").write_text("<a>\n.\n</a>")

    def packed(*words: str) -> bytes:
        ran = subprocess.run([str(TOP / "tools" / "pack"), *words, "--query", "collection()/a", str(tmp_path)], capture_output=True, timeout=60)
        assert ran.returncode == 0, ran.stderr
        return ran.stdout

    query = Command(0, "query", "collection()/a", None, None)
    assert packed().startswith(b"session 2\n#") and packed() == packed("--session-format", "2")
    assert read(packed()) == [Command(0, "load", "a b/c.xml", b"<a>\n.\n</a>", None), query]
    assert read(packed("--session-format", "1")) == [Command(0, "load", "a-b.c", b"<a>\n.\n</a>", None), query]
