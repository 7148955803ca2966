"""tools/try, where the toolchain is there: a session is answered without the program, and what isn't one is refused."""

from __future__ import annotations

import shutil
import subprocess

import pytest

from conftest import TOP


def tried(*words: str) -> subprocess.CompletedProcess[str]:
    return subprocess.run([str(TOP / "tools" / "try"), *words], stdin=subprocess.DEVNULL, capture_output=True, text=True, timeout=1800)


def test_a_session_is_answered_without_the_program() -> None:
    if not shutil.which("rt"):
        pytest.skip("the Rattle toolchain is not on the path")
    ran = tried(str(TOP / "examples" / "hello.ftq"))
    assert (ran.returncode, ran.stdout) == (0, (TOP / "examples" / "hello.ftq.stdout").read_text()), ran.stderr
    assert "unproved" in ran.stderr


def test_what_is_no_file_is_refused() -> None:
    for words in ((), ("absent.ftq",), (str(TOP),)):
        ran = tried(*words)
        assert (ran.returncode, ran.stdout) == (2, "") and ran.stderr.startswith("usage: tools/try SESSION")
