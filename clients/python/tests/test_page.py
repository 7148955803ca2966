"""The examples of docs/ASKING.md and of the packages' own page, against the real program."""

from __future__ import annotations

import contextlib
import io
import os
import re
import subprocess
from pathlib import Path

import pytest

pytest.importorskip("lxml")
pytest.importorskip("rich")

from conftest import TOP  # noqa: E402
from ftq_ask.reading import BLOCKS  # noqa: E402
from ftq_client import Session  # noqa: E402

PAGE = (TOP / "docs" / "ASKING.md").read_text()
COMMANDS = [it for it in re.findall(r"```\n\$ ([^\n]*)\n(.*?)```\n", PAGE, re.DOTALL) if "--query" in it[0]]
PAGES = PAGE + (TOP / "clients" / "python" / "README.md").read_text()
PROGRAMS = re.findall(r"```python\n(.*?)```\n\nprints\n\n```\n(.*?)```\n", PAGES, re.DOTALL)


def test_the_page_has_examples() -> None:
    assert len(COMMANDS) >= 5 and len(PROGRAMS) == 3


@pytest.mark.parametrize(("command", "output"), COMMANDS, ids=lambda it: it[:70])
def test_a_command_writes_what_the_page_shows(command: str, output: str, program: Path) -> None:
    if "--stem" in command:
        pytest.importorskip("Stemmer")
    ran = subprocess.run(
        ["bash", "-c", command],
        cwd=TOP,
        env={**os.environ, "FTQ": str(program)},
        stdout=subprocess.PIPE,
        stderr=subprocess.STDOUT,
        text=True,
        timeout=120,
    )
    assert ran.stdout == output


GAPS = {
    "`.`, `!` or `?`": [". ", "!", "<b/>? ", ".<b>"],
    "a `.` directly behind an [abbreviation](#abbreviations), and no other mark of these": [". ", ".<b>", "<!-- . -->., ", ".\n"],
    "another mark (`,` `;` `:` `…` `。`), or one line end": [", ", "; ", " : ", "…", "。", "\n", " \t\n "],
    "an empty line: a line end, blanks or nothing, a line end": ["\n\n", "\n \t\n", "\r\n\r\n", "\n<b/> \n"],
    "the begin or the end of an element in the list below": ["<p/>", "<li>", "</li>", "</p><b>"],
    "the begin or the end of another element": ["<b>", "</b>", "<item/>", "<x:p/>", "<P/>"],
}
"""What stands between two words, for each row of the table of sentences and paragraphs."""


def test_sentences_and_paragraphs_are_as_the_manual_says(session: Session) -> None:
    page = (TOP / "docs" / "QUERIES.md").read_text()
    rows = re.findall(r"^\| (.+?) \| (yes|no) \| (yes|no) \|$", page, re.MULTILINE)
    assert [what for what, _, _ in rows] == list(GAPS)
    for what, sentence, paragraph in rows:
        session.abbreviations("one." if "abbreviation" in what else "two.")
        for gap in GAPS[what]:
            opened = "".join(f"<{name}>" for name in re.findall(r"</(\w+)>", gap))
            closed = "".join(f"</{name}>" for name in re.findall(r"<(\w+)>", gap))
            session.load("d", f"<d>{opened}one{gap}two{closed}</d>")
            for unit, ends in (("sentence", sentence), ("paragraph", paragraph)):
                found = session.query(f'collection()/d[. contains text "one" ftand "two" different {unit}]')
                assert bool(found) == (ends == "yes"), (gap, unit)
            session.drop("d")


def test_the_manual_lists_the_elements_that_part_paragraphs() -> None:
    page = (TOP / "docs" / "QUERIES.md").read_text()
    listed = re.findall(r"`(\w+)`", page.partition("The elements whose tags part paragraphs are")[2].partition(":")[0])
    defined = (TOP / "crates" / "tokenizer" / "specs" / "Gaps.antt").read_text().partition("block_elements =")[2].partition("unfoldable")[0]
    assert listed == re.findall(r'codes "(\w+)"', defined)
    assert BLOCKS == frozenset(listed)


@pytest.mark.parametrize(("code", "output"), PROGRAMS)
def test_a_program_prints_what_the_page_shows(code: str, output: str, program: Path, monkeypatch: pytest.MonkeyPatch) -> None:
    monkeypatch.setenv("FTQ", str(program))
    printed = io.StringIO()
    with contextlib.redirect_stdout(printed):
        exec(code, {})
    assert printed.getvalue() == output
