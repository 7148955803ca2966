"""What is shown of elements that are found, and which of their words are marked, against the real program."""

from __future__ import annotations

import asyncio
import json
import pickle
import subprocess
from dataclasses import FrozenInstanceError
from pathlib import Path
from typing import Callable

import pytest
from ftq_client import (
    AsyncSession,
    BadCommand,
    Element,
    Found,
    NoSuchDocument,
    NoSuchList,
    NothingToShow,
    QueryFault,
    Session,
    Shown,
    refusal_of,
)

Ask = Callable[..., "subprocess.CompletedProcess[str]"]
X = "storm over the old harbour storm"
LINE = 'doc("x")/a[1]'


def shows(session: Session) -> bool:
    """Whether this program has the command."""
    try:
        session.show("collection()/none")
    except NothingToShow:
        return True
    except BadCommand:
        return False
    raise AssertionError("something was shown of nothing")


@pytest.fixture
def shown(session: Session) -> Session:
    """A session with a document whose words can be shown."""
    if not shows(session):
        pytest.skip("this program has no show")
    session.load("x", f"<a>{X}</a>")
    return session


def test_words_are_read_with_their_marks() -> None:
    for words, spans in (("", ()), ("a", ()), ("[a]", ((0, 1),)), ("a [b] [c] d [e]", ((1, 3), (4, 5))), ("[a] [b]", ((0, 2),))):
        read = Shown.read(LINE, words)
        assert (read.element, read.line, str(read), read.spans) == (Element.read(LINE), LINE, words, spans)
        assert read.words == tuple(words.replace("[", "").replace("]", "").split())
        assert read.marked == tuple(it.strip("[]") for it in words.split() if it[0] == "[")
        assert pickle.loads(pickle.dumps(read)) == read and hash(read) == hash(Shown.read(LINE, words))
    with pytest.raises(FrozenInstanceError):
        read.words = ()  # type: ignore[misc]
    with pytest.raises(ValueError):
        Shown.read("x", "a")


def test_the_refusal_is_known_by_its_text() -> None:
    refusal = refusal_of("! 15 nothing to show")
    assert (type(refusal), refusal.number, refusal.kind) == (NothingToShow, 15, "nothing to show")
    assert type(pickle.loads(pickle.dumps(refusal))) is NothingToShow


@pytest.mark.parametrize(
    ("selection", "line"),
    [
        ('"storm"', "[storm] over the old harbour storm"),
        ('"STORM" ftand "old"', "[storm] over the [old] harbour storm"),
        ('"storm" ftand "harbour" distance at most 2 words', "storm over the old [harbour] [storm]"),
        ('"old" ftand "storm" window 3 words', "storm over the [old] [harbour] [storm]"),
        ('"calm" ftor "the old"', "storm over [the] [old] harbour storm"),
        ('"storm" occurs at least 2 times', "[storm] over the old harbour [storm]"),
        ('"storm" ftand ftnot "calm"', "[storm] over the old harbour storm"),
        ('ftnot "calm"', "storm over the old harbour storm"),
        ('"sto.*" using wildcards', "[storm] over the old harbour storm"),
        ('"storm" not in "storm over"', "storm over the old harbour [storm]"),
    ],
)
def test_the_best_hits_are_marked(shown: Session, selection: str, line: str) -> None:
    path = f"collection()/a[. contains text {selection}]"
    assert shown.show(path) == [Shown.read(LINE, line)]
    assert shown.command(f"show\t{path} ") == Found((LINE, line))
    assert [it.line for it in shown.query(path)] == [LINE]


def test_words_are_those_of_the_document_as_written(shown: Session) -> None:
    shown.drop("x")
    shown.load('the "é"', "<a><b>St<i>or</i>m.</b> ([Storm],\n 3.14 can't) <b/></a>")
    found = shown.show('collection()//*[. contains text "storm"]')
    assert [(it.element.document, it.words, it.spans) for it in found] == [('the "é"', ("St", "or", "m", "Storm", "3.14", "can't"), ((3, 4),))]
    assert [str(it) for it in shown.show('collection()//b[. contains text ftnot "storm"]')] == ["St or m", ""]


def test_what_is_refused_and_in_which_order(shown: Session) -> None:
    for path in ("collection()/a", "collection()/a[1]", 'collection()/a[. contains text "old"][1]', 'collection()/a[. contains text ftnot (ftnot "old")]'):
        with pytest.raises(NothingToShow):
            shown.show(path)
    with pytest.raises(QueryFault):
        shown.show("collection()/a[")
    with pytest.raises(NoSuchDocument):
        shown.show('doc("y")/a')
    with pytest.raises(NoSuchList):
        shown.show('collection()/a[. contains text "a" using stop words at "s"][1]')
    assert shown.show('collection()/a[. contains text "calm"]') == []


def test_another_process_goes_on(shown: Session) -> None:
    shown.interrupt()
    assert [it.marked for it in shown.show('collection()/a[. contains text "the old"]')] == [("the", "old")]
    assert shown.processes == 2


def test_a_session_of_format_1_has_it_not(program: Path) -> None:
    with Session(program, session_format=1) as session, pytest.raises(BadCommand):
        session.show('collection()/a[. contains text "x"]')


def test_it_is_awaited(shown: Session, program: Path) -> None:
    async def talk() -> None:
        async with AsyncSession(program) as session:
            await session.load("x", f"<a>{X}</a>")
            assert [it.marked for it in await session.show('collection()/a[. contains text "old storm" any word]')] == [("old",)]

    asyncio.run(talk())


def test_answers_of_ask_are_marked_as_they_are_shown(shown: Session, ask: Ask, tmp_path: Path) -> None:
    for module in ("lxml", "rich", "prompt_toolkit"):
        pytest.importorskip(module)
    (tmp_path / "x.xml").write_text(f"<a>\n<p>A calm.\n A {X}, and the harbour.</p>\n<p>No storm.</p></a>")
    near = 'collection()//p[. contains text "storm" ftand "harbour" distance at most 2 words]'
    for more in ((), ("--workers", "2")):
        ran = ask(tmp_path, "--query", near, "--format", "json", "--whole", *more)
        (row,) = json.loads(ran.stdout)["results"]
        assert [row["text"][first:end] for first, end in row["marks"]] == ["harbour", "storm"]
        assert (row["line"], row["marked_line"]) == (2, 3) and ran.stderr == ""
    ran = ask(tmp_path, "--query", near, "--format", "csv")
    assert ran.stdout.splitlines()[1].endswith(",29-36 37-42,3") and ran.stderr == ""
    guessed = ["--query", 'collection()/a[p contains text "storm"]'] * 2
    hint = "hint: the words of this question are marked wherever they stand, since it doesn't end in [. contains text ..]\n"
    assert ask(tmp_path, *guessed).stderr == hint
    counted = ask(tmp_path, "--query", 'collection()//p[. contains text "storm" occurs at least 1 times window 3 words]', "--format", "json")
    assert "since the program can't show by which words it is met" in json.loads(counted.stdout)["hints"][0]
    assert ask(tmp_path, *guessed, "--format", "paths").stderr == ""
    ran = ask(tmp_path, typed=f"show {near}\nshow collection()/a\n")
    assert "    A calm A storm over the old harbour storm and the harbour" in ran.stdout and "why an element is found is shown where" in ran.stdout


def test_marks_of_a_document_are_those_of_its_elements(shown: Session, tmp_path: Path) -> None:
    pytest.importorskip("lxml")
    from ftq_ask.collection import Collection
    from ftq_ask.marking import Marking
    from ftq_ask.serving.documents import Sheets
    from ftq_ask.showing import Piece

    path = tmp_path / "x.xml"
    path.write_text("<a><h>A storm</h><p>no <b>old</b> storm, <i>an old storm</i></p><p>storm</p></a>")
    collection = Collection(shown)
    shown.drop("x")
    collection.load(collection.plan([path]), lambda shown: None)
    for question, all_shown, wanted in (
        ('collection()//*[. contains text "old storm"]', True, "A stormno [old] [storm], an [old] [storm]storm"),
        ('doc("x.xml")//p[. contains text "old storm"]', False, "A stormno [old] [storm], an old stormstorm"),
    ):
        document = collection.locator.document("x.xml")
        assert not isinstance(document, str)
        sheets = Sheets(document, collection.query(question), Marking(question, collection, all_shown))
        parts = [it for block in sheets.sheet(1) for it in block.parts]
        assert "".join(f"[{it.text}]" if it.asked else it.text for it in parts if isinstance(it, Piece)) == wanted


def test_an_element_is_opened_in_the_users_editor_at_its_first_mark(ask: Ask, tmp_path: Path, monkeypatch: pytest.MonkeyPatch) -> None:
    for module in ("lxml", "rich", "prompt_toolkit"):
        pytest.importorskip(module)
    editor = tmp_path / "editor"
    editor.write_text('#!/bin/sh\necho "opened $*"\n')
    editor.chmod(0o755)
    monkeypatch.setenv("VISUAL", f"{editor} -w")
    (tmp_path / "x.xml").write_text("<a><p>calm</p>\n<p>a\nstorm</p></a>")
    ran = ask(tmp_path / "x.xml", typed='collection()//p[. contains text "storm"]\nopen 1\nopen 2\nopen\n')
    assert f"opened -w +3 {tmp_path}/x.xml" in ran.stdout and "the last answer has 1 element" in ran.stdout
    monkeypatch.setenv("VISUAL", str(tmp_path / "absent"))
    assert "VISUAL and EDITOR name another editor" in ask(tmp_path / "x.xml", typed="collection()//p\nopen 1\n").stdout
