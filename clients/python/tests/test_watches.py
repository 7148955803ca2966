"""Standing queries: what came and what went, as the client tells it, and that another process goes on with them."""

from __future__ import annotations

import asyncio
import pickle
from dataclasses import FrozenInstanceError
from pathlib import Path

import pytest
from ftq_client import AsyncSession, BadCommand, Changes, Element, Found, Full, NameTaken, NoSuchDocument, NoSuchList, NoSuchName, QueryFault, Session

STORM = 'collection()//p[. contains text "storm"]'


def told(changes: Changes) -> tuple[list[str], list[str]]:
    """The lines of the elements that went, and of those that came."""
    return [it.line for it in changes.went], [it.line for it in changes.came]


def test_what_came_and_went_is_told_once(session: Session) -> None:
    session.load("d", "<d><p>storm</p><p>calm</p></d>")
    session.watch("w", STORM)
    assert session.changes("w") == Changes((), ()) and not session.changes("w")
    session.insert("last", "collection()/d", "<p>storm</p>")
    changes = session.changes("w")
    assert changes and changes == Changes((), (Element.read('doc("d")/d[1]/p[3]'),))
    session.delete("collection()/d/p[1]")
    assert told(session.changes("w")) == (['doc("d")/d[1]/p[1]', 'doc("d")/d[1]/p[3]'], ['doc("d")/d[1]/p[2]'])
    assert not session.changes("w")
    session.drop("d")
    assert told(session.changes("w")) == (['doc("d")/d[1]/p[2]'], [])


def test_lists_and_abbreviations_of_now_count_and_questions_between_dont(session: Session) -> None:
    session.load('the "d"', "<d><p>Mr. Hill stormed</p></d>")
    session.watch("the stems", 'collection()//p[. contains text "storm" using stemming]')
    session.watch("the sentence", 'collection()//p[. contains text "mr" ftand "hill" same sentence]')
    session.stems("stormed storm")
    session.abbreviations("mr.")
    assert session.query(STORM) == []
    line = 'doc("the ""d""")/d[1]/p[1]'
    for name in ("the stems", "the sentence"):
        assert told(session.changes(name)) == ([], [line])
    session.stop("s", "mr")
    session.thesaurus("t", "synonym | mountain | hill")
    session.watch("the stop list", 'collection()//p[. contains text "mr stormed" using stop words at "s"]')
    session.watch("the thesaurus", 'collection()//p[. contains text "mountain" using thesaurus at "t"]')
    for give, name in (
        (lambda: session.stems(""), "the stems"),
        (lambda: session.abbreviations(""), "the sentence"),
        (lambda: session.stop("s", "dr"), "the stop list"),
        (lambda: session.thesaurus("t", ""), "the thesaurus"),
    ):
        assert not session.changes(name)
        give()
        assert told(session.changes(name)) == ([line], [])


def test_refusals_have_their_names_and_keep_the_old_answer(session: Session) -> None:
    session.load("d", "<d><p>storm</p></d>")
    session.watch("w", 'doc("d")//p')
    session.drop("d")
    with pytest.raises(NoSuchDocument) as gone:
        session.changes("w")
    assert gone.value.name == "d"
    session.load("d", "<d><p>storm</p><p/></d>")
    assert told(session.changes("w")) == ([], ['doc("d")/d[1]/p[2]'])
    with pytest.raises(NameTaken) as taken:
        session.watch("w", STORM)
    assert taken.value.name == "w"
    with pytest.raises(QueryFault) as fault:
        session.watch("v", "collection()//")
    assert (fault.value.kind, fault.value.place) == ("syntax", 14)
    with pytest.raises(NoSuchDocument):
        session.watch("v", 'doc("e")//p')
    with pytest.raises(NoSuchList):
        session.watch("v", 'collection()//p[. contains text "a" using stop words at "s"]')
    session.unwatch("w")
    for call in (session.changes, session.unwatch):
        with pytest.raises(NoSuchName) as absent:
            call("w")
        assert absent.value.name == "w"


def test_there_are_so_many_and_no_more(session: Session) -> None:
    for number in range(64):
        session.watch(f"w{number}", STORM)
    with pytest.raises(Full) as full:
        session.watch("one more", STORM)
    assert (full.value.count, full.value.kind) == (64, "watches")
    session.unwatch("w7")
    session.watch("one more", STORM)


def test_a_session_of_format_1_has_none(program: Path) -> None:
    with Session(program, session_format=1) as session:
        for call in (lambda: session.watch("w", STORM), lambda: session.changes("w"), lambda: session.unwatch("w")):
            with pytest.raises(BadCommand):
                call()


def test_another_process_goes_on_with_the_answers_of_before(session: Session) -> None:
    session.load("d", "<d><p>storm</p></d>")
    session.watch("asked", STORM)
    session.watch("never asked", STORM)
    session.watch("given up", STORM)
    session.command(f'\ufeffwatch\t"in other  words" {STORM}')
    session.load("e", "<d><p>storm</p></d>")
    assert told(session.changes("asked")) == ([], ['doc("e")/d[1]/p[1]'])
    assert session.command('\ufeffchanges "in other  words"') == Found(('+ doc("e")/d[1]/p[1]',))
    session.unwatch("given up")
    session.interrupt()
    session.drop("d")
    assert session.processes == 2
    assert told(session.changes("asked")) == (['doc("d")/d[1]/p[1]'], [])
    assert told(session.changes("in other  words")) == (['doc("d")/d[1]/p[1]'], [])
    assert told(session.changes("never asked")) == (['doc("d")/d[1]/p[1]'], ['doc("e")/d[1]/p[1]'])
    with pytest.raises(NoSuchName):
        session.changes("given up")


def test_documents_that_come_and_go_under_watches_fill_no_session(program: Path) -> None:
    content = "<d><p>storm</p>" + " " * 2_000 + "</d>"
    with Session(program, limit=20_000) as session:
        session.watch("w", STORM)
        session.mark("m")
        session.unmark("m")
        for number in range(100):
            session.load("d", content)
            assert told(session.changes("w")) == ([], ['doc("d")/d[1]/p[1]']), number
            session.drop("d")
            assert told(session.changes("w")) == (['doc("d")/d[1]/p[1]'], []), number
        assert session.processes > 8


def test_a_value_of_changes_stays_as_it_is() -> None:
    lines = ('- doc("a")/b[1]', '+ doc("a")/b[2]', '+ doc("a")/b[3]')
    changes = Changes.read(lines)
    assert told(changes) == (['doc("a")/b[1]'], ['doc("a")/b[2]', 'doc("a")/b[3]'])
    assert pickle.loads(pickle.dumps(changes)) == changes and hash(changes) == hash(Changes.read(lines))
    with pytest.raises(FrozenInstanceError):
        changes.came = ()  # type: ignore[misc]
    for wrong in ('doc("a")/b[1]', "+", "* x", "+ x"):
        with pytest.raises(ValueError):
            Changes.read((wrong,))


def test_the_same_is_awaited(program: Path) -> None:
    async def talk() -> None:
        async with AsyncSession(program) as session:
            await session.watch("w", STORM)
            await session.load("d", "<d><p>storm</p></d>")
            assert told(await session.changes("w")) == ([], ['doc("d")/d[1]/p[1]'])
            await session.unwatch("w")
            with pytest.raises(NoSuchName):
                await session.changes("w")

    asyncio.run(talk())
