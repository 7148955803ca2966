"""The client for asyncio against the real program."""

from __future__ import annotations

import asyncio
import inspect
import os
import signal
from pathlib import Path

import pytest
from ftq_client import AsyncSession, NameTaken, QueryFault, Session, SessionClosed, TimedOut


def test_calls_are_answered_one_after_the_other(program: Path) -> None:
    async def talk() -> None:
        async with AsyncSession(program) as session:
            await asyncio.gather(*(session.load(f"d{number}", f"<a>word {number}</a>") for number in range(20)))
            asked = await asyncio.gather(*(session.query(f'collection()/a[. contains text "{number}"]') for number in range(20)))
            assert [[it.document for it in found] for found in asked] == [[f"d{number}"] for number in range(20)]
            with pytest.raises(NameTaken):
                await session.load("d1", "<a/>")
            with pytest.raises(QueryFault):
                await session.query("collection()//a[")
            await session.mark("m")
            await session.drop("d3")
            assert len(await session.query("collection()/a")) == 19 and len(await session.query_at("m", "collection()/a")) == 20
            assert await session.explain('ftnot (ftnot "a")') == '"a"'
            assert (await session.stats()).documents == 19
            await session.load("letter", "<a>Dr. Hill ran</a>")
            await session.abbreviations("dr.")
            assert len(await session.query('collection()/a[. contains text "dr" ftand "hill" same sentence]')) == 1
        with pytest.raises(SessionClosed):
            session.session.query("collection()/a")

    asyncio.run(talk())


def test_a_call_that_is_cancelled_or_late_leaves_a_session_that_goes_on(program: Path) -> None:
    async def talk() -> None:
        async with AsyncSession(program) as session:
            await session.load("d", "<a>x</a>")
            assert session.session.pid
            os.kill(session.session.pid, signal.SIGSTOP)
            waiting = asyncio.create_task(session.query("collection()/a"))
            behind = asyncio.create_task(session.print("collection()/a"))
            await asyncio.sleep(0.1)
            assert not waiting.done()
            waiting.cancel()
            with pytest.raises(asyncio.CancelledError):
                await waiting
            assert await behind == ["<a>x</a>"]
            session.session.timeout = 0.2
            os.kill(session.session.pid, signal.SIGSTOP)
            with pytest.raises(TimedOut):
                await session.stats()
            session.session.timeout = None
            assert len(await session.query("collection()/a")) == 1
            assert session.session.processes == 3

    asyncio.run(asyncio.wait_for(talk(), 60))


def test_it_has_all_calls_of_a_session() -> None:
    own = {"interrupt", "is_interrupted", "give_up_after", "pid"}
    calls = {name for name in vars(Session) if not name.startswith("_")} - own
    assert calls == {name for name, it in vars(AsyncSession).items() if inspect.iscoroutinefunction(it) and not name.startswith("_")}
    for name in calls:
        assert list(inspect.signature(getattr(Session, name)).parameters) == list(inspect.signature(getattr(AsyncSession, name)).parameters)
