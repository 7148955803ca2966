"""The client against the real program."""

from __future__ import annotations

import logging
import os
import pickle
import signal
import stat
import threading
import time
from pathlib import Path

import pytest
from ftq_client import (
    BadCommand,
    BadLine,
    BadName,
    Changes,
    Counts,
    DocumentFault,
    Done,
    Element,
    Found,
    Full,
    ManyTargets,
    NameTaken,
    NoSuchDocument,
    NoSuchList,
    NoSuchName,
    NoTarget,
    ProgramEnded,
    ProgramMissing,
    QueryFault,
    Refusal,
    RootTarget,
    Said,
    Session,
    SessionClosed,
    SessionFull,
    Step,
    TimedOut,
    command_bytes,
    find_program,
    refusal_of,
)


def test_a_query_gives_elements_with_document_steps_and_line(session: Session) -> None:
    session.load("one", b"<a><b>x</b><b>Hello <c>world</c></b></a>")
    line = 'doc("one")/a[1]/b[2]'
    assert session.query('collection()//b[. contains text "hello world"]') == [Element("one", (Step("a", 1), Step("b", 2)), line)]
    assert session.print(line) == ["<b>Hello <c>world</c></b>"]
    assert session.query('collection()//b[. contains text "nothing"]') == []


def test_a_line_selects_just_its_element(session: Session) -> None:
    session.load("one", "<x:a><b-1.c/><é><b-1.c/></é></x:a>".encode())
    for element in session.query("collection()//*"):
        assert session.query(element.line) == [element]


def test_documents_come_in_order_of_loading(session: Session) -> None:
    for name in ("c", "a", "b"):
        session.load(name, b"<p>word</p>")
    session.drop("a")
    session.load("a", b"<p>word</p>")
    assert [it.document for it in session.query("collection()/p")] == ["c", "b", "a"]


@pytest.mark.parametrize("text", [".", "..", ".\n.", "\n.\n", "..x\n.y", "x\n.\r\n.", "\n"])
def test_any_block_is_quoted(session: Session, text: str) -> None:
    session.load("d", f"<a>{text}</a>".encode())
    session.load("e", f"\n\n<a>\n{text}\n</a>\n".encode())
    wanted = text.replace("\r\n", "\n").replace("\n", "&#10;")
    assert session.print('doc("d")/a') == [f"<a>{wanted}</a>"]
    assert session.print('doc("e")/a') == [f"<a>&#10;{wanted}&#10;</a>"]


def test_a_block_may_be_a_text(session: Session) -> None:
    session.load("d", "<a><p>é</p>\n.</a>")
    session.stop("common", "the\na")
    session.stems("words word")
    session.thesaurus("t", "is | é | è")
    session.insert("last", "collection()/a", ".<q/>")
    session.replace("collection()//p", "<p>x ß</p>")
    assert session.print("collection()/a") == ["<a><p>x ß</p>&#10;..<q/></a>"]
    assert len(session.query('collection()/a[. contains text "the SS" using stop words at "common"]')) == 1
    for content in (5, Path("d.xml"), ["<a/>"], memoryview(b"<a/>")):
        with pytest.raises(TypeError, match=f"a block is bytes or a text, and no {type(content).__name__}"):
            session.load("e", content)  # type: ignore[arg-type]
    assert len(session.query("collection()/a")) == 1


def test_a_place_that_is_none_is_named(session: Session) -> None:
    session.load("d", b"<a/>")
    for position in ("middle", "First", "at", ""):
        with pytest.raises(ValueError, match=f"content goes first, last, before or after, not {position!r}"):
            session.insert(position, "collection()/a", b"<b/>")  # type: ignore[arg-type]
    assert session.print("collection()/a") == ["<a/>"]


def test_a_document_without_bytes_is_refused_at_its_front(session: Session) -> None:
    with pytest.raises(DocumentFault) as caught:
        session.load("d", b"")
    assert (caught.value.kind, caught.value.place) == ("syntax", 0)


def test_lists_are_looked_at(session: Session) -> None:
    session.load("d", b"<a><p>the ship sailed</p><p>a vessel</p></a>")
    session.stop("common", b"a\nthe")
    session.stems(b"sailed sail\nsails sail")
    session.thesaurus("sea", b"narrower | ship | vessel")
    assert len(session.query('collection()//p[. contains text "sails" using stemming]')) == 1
    assert len(session.query('collection()//p[. contains text "ship" using thesaurus at "sea"]')) == 2
    assert len(session.query('collection()//p[. contains text "a ship" using stop words at "common"]')) == 1


HILL = 'collection()/a[. contains text "dr" ftand "hill" same sentence]'


def test_abbreviations_spare_periods_and_marks_keep_them(session: Session) -> None:
    session.load("d", "<a>Dr. Hill ran</a>")
    assert session.query(HILL) == []
    session.mark("before")
    session.abbreviations("# titles\nDR.")
    assert [it.line for it in session.query(HILL)] == ['doc("d")/a[1]'] and session.query_at("before", HILL) == []
    with pytest.raises(BadLine) as caught:
        session.abbreviations("dr.\nz. B.")
    assert caught.value.line == 2 and len(session.query(HILL)) == 1
    session.mark("spared")
    session.abbreviations("")
    session.interrupt()
    assert session.query(HILL) == [] and session.query_at("before", HILL) == [] and len(session.query_at("spared", HILL)) == 1
    assert session.processes == 2


def test_a_session_of_format_1_has_bare_names_and_no_abbreviations(program: Path) -> None:
    with Session(program, session_format=1) as session:
        session.load("d", "<a>\n.\n</a>")
        assert session.print("collection()/a") == ["<a>&#10;.&#10;</a>"]
        with pytest.raises(ValueError):
            session.abbreviations("dr.")
        with pytest.raises(BadCommand):
            session.command("abbreviations")
        with pytest.raises(BadCommand):
            session.load("two words", "<a/>")
        assert len(session.query("collection()/a")) == 1


def test_a_selection_is_explained(session: Session) -> None:
    assert session.explain('ftnot ("a" ftor ftnot "b")') == 'ftnot "a" ftand "b"'
    with pytest.raises(QueryFault):
        session.explain('"a" ftor')


def test_refusals_are_exceptions_with_what_they_tell(session: Session) -> None:
    session.load("d", b"<a/>")
    told: list[tuple[type[Refusal], str, bytes | None, dict[str, object]]] = [
        (BadCommand, "nonsense", None, {"number": 1, "kind": "bad command", "line": 4}),
        (BadName, "drop a/b", None, {"number": 2, "line": 5}),
        (NameTaken, "load d", b"<a/>", {"number": 3, "name": "d"}),
        (NoSuchName, "drop e", None, {"number": 4, "name": "e"}),
        (DocumentFault, "load e", b"<a>\xff</a>", {"number": 6, "kind": "not utf-8", "place": 3}),
        (DocumentFault, "load e", b"<a></b>", {"kind": "syntax", "place": 5}),
        (DocumentFault, "load e", b"<a>" * 201, {"kind": "depth", "place": 600}),
        (BadLine, "stop s", b"one\ntwo words", {"number": 6, "kind": "bad line", "line": 2}),
        (QueryFault, 'query collection()//p[. contains text "é" ftand]', None, {"number": 7, "kind": "syntax", "place": 42}),
        (QueryFault, 'query collection()//p[. contains text ".{2" using wildcards]', None, {"kind": "bad wildcard", "place": 32}),
        (QueryFault, "query collection()//p[1000001]", None, {"kind": "number", "place": 16}),
        (NoSuchDocument, 'query doc("e")/a', None, {"number": 8, "name": "e"}),
        (NoSuchList, 'query collection()//a[. contains text "x" using stop words at "s"]', None, {"number": 9, "name": "s"}),
    ]
    for kind, line, block, parts in told:
        with pytest.raises(kind) as caught:
            session.command(line, block)
        assert type(caught.value) is kind
        assert {name: getattr(caught.value, name) for name in parts} == parts, line
        assert str(caught.value).startswith(f"! {caught.value.number} ")
        again = pickle.loads(pickle.dumps(caught.value))
        assert (type(again), again.__dict__) == (kind, caught.value.__dict__)
    assert session.query("collection()/a")


def test_a_faults_column_counts_characters(session: Session) -> None:
    path = 'collection()//p[. contains text "é" ftand]'
    with pytest.raises(QueryFault) as caught:
        session.query(path)
    assert path[caught.value.column(path)] == "]"


def test_more_lists_than_there_may_be(session: Session) -> None:
    for number in range(64):
        session.stop(f"s{number}", b"a")
    with pytest.raises(Full) as caught:
        session.stop("one-more", b"a")
    assert (caught.value.count, caught.value.kind) == (64, "stop lists")


@pytest.mark.parametrize(
    ("reply", "number", "parts"),
    [
        ("! 10 no target", 10, {}),
        ("! 11 many targets: 12", 11, {"count": 12}),
        ("! 12 root target", 12, {}),
        ("! 13 limit: nodes", 13, {"kind": "nodes"}),
        ("! 5 full at 4096 documents", 5, {"count": 4096, "kind": "documents"}),
        ("! 5 full at 64 watches", 5, {"count": 64, "kind": "watches"}),
        ("! 99 something new", 0, {"reply": "! 99 something new"}),
    ],
)
def test_refusals_that_are_known_by_their_text(reply: str, number: int, parts: dict[str, object]) -> None:
    refusal = refusal_of(reply)
    assert refusal.number == number
    assert {name: getattr(refusal, name) for name in parts} == parts


def test_any_command_has_a_reply_or_a_refusal(session: Session) -> None:
    assert session.command("load d", b"<a>x</a>") == Done()
    assert session.command("  query\tcollection()/a  ") == Found(('doc("d")/a[1]',))
    assert session.command("mark m") == Done()
    assert session.command("insert last collection()/a", b"y") == Done()
    with pytest.raises(NoTarget):
        session.command("delete collection()/a/b")
    assert session.command("stats") == Said("documents 1 tokens 1 terms 1 marks 1 plans 0 hits 0")
    assert session.command("print collection()/a") == Found(("<a>xy</a>",))


def test_edits_and_marks(session: Session) -> None:
    session.load("d", b"<a><p>one</p><p>two</p></a>")
    session.mark("before")
    session.insert("last", "collection()/a", b"<p>three</p>")
    session.insert("before", 'collection()//p[. contains text "two"]', b".<q/>")
    session.replace('collection()//p[. contains text "one"]', b"<p>four</p>")
    assert session.print("collection()/a") == ["<a><p>four</p>.<q/><p>two</p><p>three</p></a>"]
    session.delete("collection()//p")
    assert session.print("collection()/a") == ["<a>.<q/></a>"]
    assert [it.line for it in session.query_at("before", 'collection()//p[. contains text "one"]')] == ['doc("d")/a[1]/p[1]']
    session.unmark("before")
    with pytest.raises(NoSuchName):
        session.query_at("before", "collection()//p")
    with pytest.raises(RootTarget):
        session.delete("collection()/a")
    with pytest.raises(ManyTargets) as caught:
        session.replace("collection()//*", b"<b/>")
    assert caught.value.count == 2
    assert session.stats() == Counts(documents=1, tokens=0, terms=0, marks=0, plans=2, hits=1)


@pytest.mark.parametrize("line", ["", "   ", "# remark", "\t#", "\ufeff# x", "query a\nquery b", "load d", "stems", "\r"])
def test_lines_without_a_reply_are_not_sent(session: Session, line: str) -> None:
    with pytest.raises(ValueError):
        session.command(line)
    with pytest.raises(ValueError):
        session.command("query collection()/a", b"block")
    assert session.query("collection()/*") == []


def test_a_session_that_outlives_its_limit_goes_on_in_a_new_process(program: Path) -> None:
    content = b"<a>word" + b" " * 2_000 + b"</a>"
    path = 'collection()/a[. contains text "words" using stemming using stop words at "common"]' + " " * 1_000
    with Session(program, limit=12_000) as session:
        session.load("first", content)
        session.stop("common", b"the")
        session.stop("common", b"a")
        session.stems(b"words word")
        session.load("gone", content)
        session.drop("gone")
        session.load("second", content)
        for number in range(30):
            assert len(session.query(path)) == 2, number
        assert session.processes > 3
        assert [it.document for it in session.query("collection()/a")] == ["first", "second"]
        with pytest.raises(SessionFull):
            session.load("third", content * 4)
        assert len(session.query("collection()/a")) == 2


def test_the_limit_is_the_programs(program: Path) -> None:
    session = Session(program)
    session.load("d", b"<a>w</a>")
    again = b"<" + b" " * 16_000_000
    for _ in range(5):
        with pytest.raises(DocumentFault):
            session.load("e", again)
    assert session.processes == 2
    assert len(session.query("collection()/a")) == 1
    assert session.close() == 1


def test_a_program_that_is_ended_is_told_and_then_started_again(program: Path) -> None:
    with Session(program) as session:
        session.load("d", b"<a/>")
        assert session.pid
        os.kill(session.pid, signal.SIGKILL)
        with pytest.raises(ProgramEnded) as caught:
            session.query("collection()/a")
        assert caught.value.status == -signal.SIGKILL
        assert len(session.query("collection()/a")) == 1
        assert session.processes == 2


def test_a_program_that_has_too_little_memory_is_told_with_its_line(program: Path, tmp_path: Path) -> None:
    small = tmp_path / "small"
    small.write_text(f"#!/bin/sh\nulimit -v 60000\nexec '{program}' \"$@\"\n")
    small.chmod(small.stat().st_mode | stat.S_IXUSR)
    with Session(small) as session, pytest.raises(ProgramEnded) as caught:
        session.load("d", b"<a>" + b"<b/>" * 900_000 + b"</a>")
    assert (caught.value.status, caught.value.line) == (5, "ftq: out of memory")
    assert pickle.loads(pickle.dumps(caught.value)).status == 5


def test_an_interrupt_leaves_a_session_that_goes_on(program: Path) -> None:
    with Session(program) as session:
        session.load("d", b"<a>" + b"<p>some words here</p>" * 2_000 + b"</a>")
        slow = "collection()//*[" + " and ".join(['. contains text "nothing"'] * 12) + " or .//p[" + " or ".join(['. contains text "no"'] * 40) + "]]"
        threading.Timer(0.1, lambda: os.kill(os.getpid(), signal.SIGINT)).start()
        start = time.monotonic()
        try:
            while time.monotonic() - start < 60:
                session.query(slow)
            raise AssertionError("no interrupt came")
        except KeyboardInterrupt:
            pass
        assert [it.line for it in session.query("collection()/a")] == ['doc("d")/a[1]']


def test_a_command_that_takes_too_long_is_stopped_and_the_session_goes_on(program: Path) -> None:
    with Session(program, timeout=60) as session:
        session.load("d", b"<d>a ship</d>")
        session.stop("common", "the")
        assert len(session.query("collection()/d")) == 1
        assert session.pid
        os.kill(session.pid, signal.SIGSTOP)
        session.timeout = 0.2
        with pytest.raises(TimedOut) as caught:
            session.query("collection()/d")
        assert caught.value.seconds == 0.2 and str(caught.value) == "no reply within 0.2 s"
        assert pickle.loads(pickle.dumps(caught.value)).seconds == 0.2
        session.timeout = None
        assert len(session.query('collection()/d[. contains text "the ship" using stop words at "common"]')) == 1
        assert session.processes == 2


def test_processes_are_logged(program: Path, caplog: pytest.LogCaptureFixture) -> None:
    caplog.set_level(logging.DEBUG, "ftq_client")
    with Session(program) as session:
        session.load("d", b"<a/>")
        first = session.pid
        session.interrupt()
        session.query("collection()/a")
        told = [(it.levelname, it.getMessage()) for it in caplog.records]
        assert told == [
            ("DEBUG", f"{program} was started as process {first}"),
            ("DEBUG", f"{program} was started as process {session.pid}"),
            ("INFO", f"process {session.pid} carries a session on: 1 commands of 24 bytes are sent again"),
        ]


def test_the_status_at_the_end(program: Path) -> None:
    session = Session(program)
    session.load("d", b"<a/>")
    assert session.close() == 0
    session = Session(program)
    with pytest.raises(Refusal):
        session.drop("d")
    assert session.close() == 1
    assert session.close() == 0


def test_a_closed_session_says_so_and_stays_closed(program: Path) -> None:
    with Session(program) as session:
        session.load("d", b"<a/>")
    for use in (lambda: session.query("collection()/a"), lambda: session.load("e", b"<a/>"), session.stats, session.__enter__):
        with pytest.raises(SessionClosed):
            use()
    session.interrupt()
    assert (session.pid, session.processes, session.close()) == (None, 1, 0)


def test_a_program_that_isnt_there(monkeypatch: pytest.MonkeyPatch, tmp_path: Path) -> None:
    monkeypatch.setenv("FTQ", str(tmp_path / "absent"))
    assert find_program() == tmp_path / "absent"
    with pytest.raises(ProgramMissing):
        Session()


@pytest.mark.parametrize(("own", "given"), [(None, "glibc.malloc.hugetlb=1"), ("glibc.malloc.arena_max=1", "glibc.malloc.arena_max=1")])
def test_the_program_gets_large_pages_unless_the_caller_says_otherwise(
    program: Path, monkeypatch: pytest.MonkeyPatch, own: str | None, given: str
) -> None:
    if own is None:
        monkeypatch.delenv("GLIBC_TUNABLES", raising=False)
    else:
        monkeypatch.setenv("GLIBC_TUNABLES", own)
    with Session(program) as session:
        session.load("d", b"<a/>")
        started_with = Path(f"/proc/{session.pid}/environ").read_bytes().split(b"\0")
    assert [it for it in started_with if it.startswith(b"GLIBC_TUNABLES=")] == [b"GLIBC_TUNABLES=" + given.encode()]


def test_the_bytes_of_commands() -> None:
    assert command_bytes("load d", b".a\nb\n") == b"load 5 d\n.a\nb\n\n"
    assert command_bytes("load d", b".a\nb\n", 1) == b"load d\n..a\nb\n\n.\n"
    assert command_bytes("query collection()/é") == "query collection()/é\n".encode()
