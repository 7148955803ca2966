"""tools/ask --follow beside files that change."""

from __future__ import annotations

import csv
import json
import os
import pty
import re
import shutil
import signal
import subprocess
import threading
import time
from pathlib import Path
from types import TracebackType
from typing import Any, Callable

import pytest

for module in ("lxml", "rich", "watchdog"):
    pytest.importorskip(module)

from conftest import TOP  # noqa: E402
from ftq_ask.calls import read_words  # noqa: E402
from ftq_ask.following import QUIET, Stirred, watched  # noqa: E402

STORM = 'collection()//p[. contains text "storm"]'
PATIENCE = 30.0


class Followed:
    """A call of tools/ask --follow, and what it has written up to now."""

    def __init__(self, program: Path, *words: object, question: str = STORM, out: int | None = None, where: Path | None = None) -> None:
        command = [str(TOP / "tools" / "ask"), "--program", str(program), "--follow", question, *map(str, words)]
        self.process = subprocess.Popen(command, stdout=out or subprocess.PIPE, stderr=subprocess.PIPE, text=True, cwd=where)
        self.written: list[str] = []
        self.said: list[str] = []
        for stream, lines in ((self.process.stdout, self.written), (self.process.stderr, self.said)):
            if stream:
                threading.Thread(target=lines.extend, args=(stream,), daemon=True).start()

    def __enter__(self) -> "Followed":
        self.comes_to(lambda: any("until Ctrl-C" in it for it in self.said))
        return self

    def __exit__(self, kind: type[BaseException] | None, value: BaseException | None, traceback: TracebackType | None) -> None:
        self.process.kill()
        self.process.wait()

    def comes_to(self, is_so: Callable[[], bool]) -> None:
        """Waits until something is so."""
        end = time.monotonic() + PATIENCE
        while not is_so():
            assert time.monotonic() < end and self.process.poll() is None, (self.written, self.said)
            time.sleep(0.02)

    def tells(self, *lines: str) -> None:
        """Waits until just these lines were written since the last time."""
        self.comes_to(lambda: len(self.written) >= len(lines))
        time.sleep(0.1)
        assert [it.rstrip("\n") for it in self.written] == list(lines)
        self.written.clear()

    def interrupted(self) -> int:
        """The exit status after an interrupt, behind which nothing is said."""
        said = len(self.said)
        self.process.send_signal(signal.SIGINT)
        status = self.process.wait(PATIENCE)
        assert self.said[said:] == []
        return status


@pytest.fixture
def library(tmp_path: Path) -> Path:
    top = tmp_path / "library"
    (top / "more").mkdir(parents=True)
    for name in ("a", "b", "more/c"):
        (top / f"{name}.xml").write_text(f"<r>\n<p>storm in {name}</p>\n<p>calm</p></r>")
    return top


def line(top: Path, sign: str, name: str, number: int, where: int | None = None) -> str:
    """What is written of a paragraph that comes or goes."""
    return f'{sign} {top}/{name}.xml{f":{where}" if where else ""}  doc("{name}.xml")/r[1]/p[{number}]'


def test_what_comes_and_goes_is_written_and_an_interrupt_ends_it(program: Path, library: Path) -> None:
    with Followed(program, library) as followed:
        assert [it for it in followed.said if "now" in it] == [f"3 elements now: {STORM}\n"]
        (library / "a.xml").write_text("<r>\n<p>storm in a</p>\n<p>a storm again</p></r>")
        followed.tells(line(library, "+", "a", 2, 3), "    a storm again")
        (library / "a.xml").write_text("<r><p>calm</p></r>")
        followed.tells(line(library, "-", "a", 1), line(library, "-", "a", 2))
        (library / "b.xml").unlink()
        followed.tells(line(library, "-", "b", 1))
        (library / "more" / "c.xml").rename(library / "b.xml")
        followed.tells(line(library, "-", "more/c", 1), line(library, "+", "b", 1, 2), "    storm in more/c")
        assert followed.interrupted() == 0


def test_changes_close_together_are_one_in_the_order_of_the_files(program: Path, library: Path) -> None:
    with Followed(program, library, "--format", "paths") as followed:
        (library / "b.xml").write_text("<r><p>calm</p></r>")
        (library / "a.xml").write_text("<r><p>storm</p><p>storm</p></r>")
        shutil.copy(library / "more" / "c.xml", library / "aa.xml")
        (library / "b.xml").write_text("<r><p>calm</p><p>storm</p></r>")
        went, came = '- doc("b.xml")/r[1]/p[1]', [f'+ doc("{name}.xml")/r[1]/p[{number}]' for name, number in (("a", 2), ("aa", 1), ("b", 2))]
        followed.tells(went, *came)
        shutil.move(library / "more", library / "again")
        followed.tells('- doc("more/c.xml")/r[1]/p[1]', '+ doc("again/c.xml")/r[1]/p[1]')


def test_what_isnt_asked_for_and_what_stays_is_not_told(program: Path, library: Path) -> None:
    with Followed(program, library) as followed:
        (library / "a.xml").write_text("<r>\n<p>a storm, in other words</p>\n<p>calm</p></r>")
        (library / "note.txt").write_text("storm")
        (library / "b.xml").read_bytes()
        time.sleep(QUIET * 3)
        (library / "z.xml").write_text("<r><p>storm</p></r>")
        followed.tells(line(library, "+", "z", 1, 1), "    storm")


def test_a_file_that_is_spoilt_is_named_once_and_its_elements_go(program: Path, library: Path) -> None:
    with Followed(program, library) as followed:
        (library / "a.xml").write_text("<r><p></r>")
        followed.tells(line(library, "-", "a", 1))
        (library / "b.xml").write_text("<r><p>calm</p></r>")
        followed.tells(line(library, "-", "b", 1))
        assert [it for it in followed.said if "mismatch" in it] == [f"ask: {library}/a.xml:1: Opening and ending tag mismatch: p line 1 and r\n"]
        (library / "a.xml").write_text("<r><p>storm</p></r>")
        followed.tells(line(library, "+", "a", 1, 1), "    storm")


def test_files_that_were_named_are_followed_alone(program: Path, library: Path) -> None:
    with Followed(program, library / "a.xml", library / "more" / "absent.xml") as followed:
        (library / "b.xml").write_text("<r/>")
        (library / "more" / "c.xml").write_text("<r/>")
        (library / "more" / "absent.xml").write_text("<r><p>storm</p></r>")
        followed.tells(f'+ {library}/more/absent.xml:1  doc("absent.xml")/r[1]/p[1]', "    storm")
        new = library / ".a.new"
        new.write_text("<r/>")
        os.replace(new, library / "a.xml")
        followed.tells(line(library, "-", "a", 1))


def test_files_beside_count_and_so_do_lists(program: Path, library: Path) -> None:
    (library / "a.xml").write_text("<!DOCTYPE r SYSTEM 'r.dtd'><r><p>&word;</p></r>")
    (library / "r.dtd").write_text("<!ENTITY word 'calm'>")
    stems = STORM.replace('"storm"', '"storms" using stemming')
    with Followed(program, library, "--stem", "english", "--format", "paths", question=stems) as followed:
        (library / "r.dtd").write_text("<!ENTITY word 'storming'>")
        followed.tells('+ doc("a.xml")/r[1]/p[1]')


def test_json_lines_and_csv(program: Path, library: Path) -> None:
    with Followed(program, library, "--format", "json", "--whole") as followed:
        (library / "a.xml").write_text("<r><p>calm</p>\n<p>storm\n again</p></r>")
        followed.comes_to(lambda: len(followed.written) == 2)
        rows: list[dict[str, Any]] = [json.loads(it) for it in followed.written]
    one = {"query": STORM, "document": "a.xml", "file": f"{library}/a.xml"}
    assert rows == [
        {**one, "change": "-", "line": None, "path": 'doc("a.xml")/r[1]/p[1]', "text": "", "marks": [], "marked_line": None},
        {**one, "change": "+", "line": 2, "path": 'doc("a.xml")/r[1]/p[2]', "text": "storm\n again", "marks": [[0, 5]], "marked_line": 2},
    ]
    with Followed(program, library, "--format", "csv") as followed:
        (library / "b.xml").unlink()
        followed.comes_to(lambda: len(followed.written) == 2)
        (row,) = csv.DictReader(followed.written)
    wanted = {"change": "-", "document": "b.xml", "file": f"{library}/b.xml", "line": "", "path": 'doc("b.xml")/r[1]/p[1]', "text": ""}
    assert row == {**wanted, "marks": "", "marked_line": ""}


def test_several_questions_are_told_apart(program: Path, library: Path) -> None:
    calm = STORM.replace("storm", "calm")
    with Followed(program, library, "--follow", calm, "--format", "paths") as followed:
        (library / "a.xml").write_text("<r><p>calm</p></r>")
        first, second = '- doc("a.xml")/r[1]/p[1]', ['- doc("a.xml")/r[1]/p[2]', '+ doc("a.xml")/r[1]/p[1]']
        followed.tells(f"==> {STORM} <==", first, f"==> {calm} <==", *second)
        (library / "b.xml").write_text("<r><p>storm</p></r>")
        followed.tells(f"==> {calm} <==", '- doc("b.xml")/r[1]/p[2]')


def test_a_document_that_is_named_and_gone_is_said_once_and_may_come_back(program: Path, library: Path) -> None:
    with Followed(program, library, "--format", "paths", question='doc("a.xml")//p') as followed:
        (library / "a.xml").unlink()
        followed.comes_to(lambda: "ask: there is no document a.xml" in followed.said[-1])
        (library / "b.xml").unlink()
        time.sleep(QUIET * 3)
        (library / "a.xml").write_text("<r><p>storm</p></r>")
        followed.tells('- doc("a.xml")/r[1]/p[2]')
        assert len([it for it in followed.said if "there is no document" in it]) == 1


def test_a_question_that_is_refused_begins_nothing(program: Path, library: Path) -> None:
    command = [str(TOP / "tools" / "ask"), "--program", str(program), str(library), "--follow", "collection()//p[", "--follow", STORM]
    ran = subprocess.run(command, capture_output=True, text=True, timeout=PATIENCE)
    assert (ran.returncode, ran.stdout) == (2, "") and "ask: syntax" in ran.stderr and "^" in ran.stderr and "Ctrl-C" not in ran.stderr


def test_signs_have_colours_on_a_terminal_alone(program: Path, library: Path) -> None:
    ours, theirs = pty.openpty()
    with Followed(program, library, out=theirs):
        (library / "a.xml").write_text("<r><p>calm</p><p>storm</p></r>")
        written = b""
        while written.count(b"\n") < 3:
            written += os.read(ours, 4096)
    for fd in (ours, theirs):
        os.close(fd)
    assert b"\x1b[31m- " in written and b"\x1b[32m+ " in written
    with Followed(program, library) as followed:
        (library / "a.xml").unlink()
        followed.tells(line(library, "-", "a", 2))


def test_what_is_missing_is_named_before_anything_is_loaded(program: Path, library: Path) -> None:
    code = "import sys; sys.modules['watchdog'] = None; sys.argv[0] = 'ask'; from ftq_ask.needs import ask; sys.exit(ask())"
    command = ["/usr/bin/python3", "-c", code, str(library), "--program", str(program), "--follow", STORM]
    environment = {**os.environ, "PYTHONPATH": str(TOP / "clients" / "python" / "src")}
    ran = subprocess.run(command, capture_output=True, text=True, timeout=PATIENCE, env=environment)
    assert (ran.returncode, ran.stdout) == (2, "")
    assert ran.stderr.startswith("ask: python3-watchdog is not installed for ") and ran.stderr.endswith(": apt-get install python3-watchdog\n")


@pytest.mark.parametrize("words", [["--query", STORM], ["--workers", "2"], ["--scheduler", "tcp://h:1"], ["--count"], ["--limit", "1"], ["--offset", "1"]])
def test_words_that_have_no_place_beside_it(words: list[str], capsys: pytest.CaptureFixture[str]) -> None:
    with pytest.raises(SystemExit) as ended:
        read_words(["library", "--follow", STORM, *words])
    assert ended.value.code == 2 and words[0] in capsys.readouterr().err
    assert read_words(["library", "--follow", STORM, "--format", "csv", "--whole"]).follow == [STORM]


def test_reading_is_no_change_and_moving_tells_both_names(library: Path) -> None:
    with watched([library]) as stirred:
        (library / "a.xml").read_bytes()
        (library / "b.xml").rename(library / "z.xml")
        assert {str(library / "b.xml"), str(library / "z.xml")} <= (told := stirred.wait()) and str(library / "a.xml") not in told


def test_changes_without_a_pause_are_taken_in_after_a_while(monkeypatch: pytest.MonkeyPatch) -> None:
    monkeypatch.setattr("ftq_ask.following.PATIENCE", 0.5)
    stirred, over = Stirred(), threading.Event()

    def write() -> None:
        while not over.wait(0.02):
            stirred._told.put("a.xml")

    writing = threading.Thread(target=write)
    writing.start()
    start = time.monotonic()
    assert stirred.wait() == {"a.xml"} and time.monotonic() - start < 5
    over.set()
    writing.join()


def test_the_page_shows_what_is_written(program: Path, tmp_path: Path) -> None:
    page = (TOP / "docs" / "ASKING.md").read_text()
    ((question, shown),) = re.findall(r"\$ tools/ask letters --follow '([^\n]*)'\n(.*?)```", page, re.DOTALL)
    (tmp_path / "letters").mkdir()
    (tmp_path / "letters" / "bergen.xml").write_text("<letter><p>No storm was seen.</p></letter>")
    with Followed(program, "letters", question=question, where=tmp_path) as followed:
        (tmp_path / "letters" / "hull.xml").write_text("<letter>\n<p>A heavy storm struck.</p></letter>")
        followed.comes_to(lambda: len(followed.written) == 2)
        (tmp_path / "letters" / "bergen.xml").write_text("<letter><p>No ship was seen.</p></letter>")
        followed.comes_to(lambda: len(followed.written) == 3)
    without_seconds = lambda it: re.sub(r"in [0-9.]+ s", "", it)
    assert without_seconds("".join([*followed.said, *followed.written])) == without_seconds(shown)
