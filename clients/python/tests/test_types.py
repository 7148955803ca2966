"""The types of the client, as a program of a user's sees them."""

from __future__ import annotations

import os
import subprocess
import sys
from pathlib import Path

import pytest

from conftest import TOP

pytest.importorskip("mypy", reason="python3-mypy is not installed")

PROGRAM = """from ftq_client import AsyncSession, Element, Refusal, Session, Shown

with Session("ftq", timeout=10) as session:
    elements: list[Element] = session.query("collection()//p")
    shown: list[Shown] = session.show("collection()//p")
    texts: list[str] = [session.text(it) for it in elements]
    try:
        session.insert("last", elements[0].line, b"<b/>")
    except Refusal as refusal:
        place: int | None = refusal.place


async def ask(session: AsyncSession) -> list[Element]:
    return await session.query("collection()//p")
"""


def checked(*words: object, cache: Path) -> subprocess.CompletedProcess[str]:
    """What mypy says where nothing is let pass."""
    environment = {**os.environ, "MYPYPATH": str(TOP / "clients" / "python" / "src")}
    command = [sys.executable, "-m", "mypy", "--strict", "--cache-dir", str(cache), *map(str, words)]
    return subprocess.run(command, capture_output=True, text=True, cwd=cache.parent, env=environment, timeout=900)


def test_the_client_and_who_uses_it_are_strict(tmp_path: Path) -> None:
    ran = checked("-p", "ftq_client", cache=tmp_path / "cache")
    assert ran.returncode == 0, ran.stdout
    program = tmp_path / "program.py"
    program.write_text(PROGRAM)
    ran = checked(program, cache=tmp_path / "cache")
    assert ran.returncode == 0, ran.stdout
    faulty = tmp_path / "faulty.py"
    faulty.write_text(PROGRAM.replace('"last"', '"middle"').replace("list[Shown]", "list[str]"))
    ran = checked(faulty, cache=tmp_path / "cache")
    assert ran.returncode == 1 and ran.stdout.count(": error:") == 2, ran.stdout
