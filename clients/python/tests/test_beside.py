"""Calls of tools/ask beside a running ask serve of the same files: the same bytes, without loading."""

from __future__ import annotations

import http.server
import json
import os
import pty
import shutil
import stat
import subprocess
import threading
from pathlib import Path
from typing import Iterator

import pytest

for module in ("lxml", "rich", "starlette", "uvicorn", "jinja2"):
    pytest.importorskip(module)

from conftest import TOP  # noqa: E402
from serving import LONG, LONG_DOCUMENT, Server, served  # noqa: E402

STORM = 'collection()//p[. contains text "storm"]'


@pytest.fixture(scope="module")
def folder(tmp_path_factory: pytest.TempPathFactory) -> Path:
    top = tmp_path_factory.mktemp("beside") / "library"
    (top / "more").mkdir(parents=True)
    (top / "a.xml").write_text("<r><p n='1'>storm don’t ship</p>\n<p>a storm, sails</p><empty n='2'/></r>")
    (top / "more" / "[b]ü.page").write_text("<r>\n<p>storm [red]no[/red] sailing</p></r>")
    (top / "more" / "book.xml").write_text("<r xmlns:i='http://www.w3.org/2001/XInclude'><i:include href='part.xml'/></r>")
    (top / "more" / "part.xml").write_text("<p>\nstorm in a part</p>")
    (top / "faulty.xml").write_text("<r>\n<p></r>")
    (top / "notes.txt").write_text("storm")
    return top


@pytest.fixture(scope="module")
def runtime(tmp_path_factory: pytest.TempPathFactory) -> Path:
    return tmp_path_factory.mktemp("runtime")


@pytest.fixture(scope="module")
def server(program: Path, folder: Path, runtime: Path) -> Iterator[Server]:
    with served(program, folder, XDG_RUNTIME_DIR=str(runtime)) as it:
        it.comes_to(idle=2)
        yield it


def called(words: list[object], runtime: Path, program: Path | None, cwd: Path, **variables: str) -> subprocess.CompletedProcess[bytes]:
    kept = {name: value for name, value in os.environ.items() if name != "FTQ"}
    environment = {**kept, "XDG_RUNTIME_DIR": str(runtime), **variables}
    command = [str(TOP / "tools" / "ask"), *map(str, words), *(["--program", str(program)] if program else [])]
    return subprocess.run(command, capture_output=True, cwd=cwd, env=environment, timeout=60)


QUESTIONS = [STORM, "collection()//para", "collection()//p[", 'collection()//p[. contains text "storm" and "ship"]']
QUESTIONS += ['collection()//p[. contains text "don\'t"]', "collection()//*", 'collection()//p[. contains text "storms"]', 'doc("absent")//p', "# none", ""]
ALL = [word for it in QUESTIONS for word in ("--query", it)]
CALLS: list[list[str]] = [["--query", it] for it in QUESTIONS[:4]]
CALLS += [["--query", "collection()//*", "--format", form] for form in ("json", "csv", "xml", "paths")]
CALLS += [["--query", STORM, *more] for more in (["--count"], ["--limit", "1"], ["--offset", "2"], ["--as-typed", "--whole"], ["--timeout", "20"], ["--verbose"])]
CALLS += [ALL + more for more in ([], ["--count"], ["--format", "json"], ["--format", "csv"], ["--format", "xml"], ["--as-typed"])]


def check_same(server: Server, words: list[object], runtime: Path, program: Path, cwd: Path) -> None:
    """Fails where a call writes other bytes beside what serves than alone."""
    before = server.status()["calls"]
    beside = called(words, runtime, program, cwd)
    assert server.status()["calls"] == before + 1
    alone = called(words, runtime / "absent", program, cwd, XDG_CACHE_HOME=str(runtime / "absent"))
    assert (beside.stdout, beside.stderr, beside.returncode) == (alone.stdout, alone.stderr, alone.returncode)
    assert server.status()["calls"] == before + 1


@pytest.mark.parametrize("words", CALLS, ids=lambda it: " ".join(it)[:60])
def test_an_answer_has_the_same_bytes_as_without(server: Server, program: Path, folder: Path, runtime: Path, words: list[str]) -> None:
    check_same(server, [folder, *words], runtime, program, folder)


@pytest.mark.parametrize("form", ["text", "json"])
def test_a_folder_may_be_named_otherwise(server: Server, program: Path, folder: Path, runtime: Path, tmp_path: Path, form: str) -> None:
    (tmp_path / "link").symlink_to(folder)
    for named, cwd in ((Path("library"), folder.parent), (Path("../library"), folder), (Path("."), folder), (Path("link"), tmp_path)):
        check_same(server, [named, "--query", "collection()//*", "--format", form, "--verbose"], runtime, program, cwd)


def on_terminal(words: list[object], runtime: Path, **variables: str) -> bytes:
    """What a call writes where both its streams are one terminal."""
    ours, theirs = pty.openpty()
    environment = {**os.environ, "XDG_RUNTIME_DIR": str(runtime), "TERM": "xterm-256color", **variables}
    child = subprocess.Popen([str(TOP / "tools" / "ask"), *map(str, words)], stdin=theirs, stdout=theirs, stderr=theirs, env=environment)
    os.close(theirs)
    written = b""
    try:
        while part := os.read(ours, 65_536):
            written += part
    except OSError:
        pass
    os.close(ours)
    child.wait(60)
    return written


def test_a_terminal_gets_the_same_colours(server: Server, program: Path, folder: Path, runtime: Path, tmp_path: Path) -> None:
    words: list[object] = [folder, "--program", program, "--query", STORM, "--query", "collection()//p[", "--query", "collection()//para"]
    for variables in ({}, {"NO_COLOR": "1"}, {"TERM": "dumb"}, {"COLORTERM": "truecolor"}):
        beside = on_terminal(words, runtime, **variables)
        alone = on_terminal(words, tmp_path, **variables)
        # The bar that stands while files are loaded is gone again when the answer comes.
        assert beside in alone and alone.endswith(beside) and beside.count(b"storm") > 3
        assert (b"\x1b[" in beside) == (variables in ({}, {"COLORTERM": "truecolor"}) or "NO_COLOR" in variables)


OTHERWISE = [["--no-dtd"], ["--glob", "*.xml"], ["--blocks", "p"], ["--drop-blanks"], ["--stem", "english"], ["--abbreviations", "en"], ["--workers", "2"]]


@pytest.mark.parametrize("words", OTHERWISE, ids=" ".join)
def test_what_is_read_otherwise_is_answered_by_itself(server: Server, program: Path, folder: Path, runtime: Path, words: list[str]) -> None:
    before = server.status()["calls"]
    ran = called([folder, "--query", STORM, "--count", *words], runtime, program, folder)
    assert ran.stdout in (b"4\n", b"3\n") and server.status()["calls"] == before
    for paths in ([folder / "a.xml"], [folder / "more"], [folder, folder / "a.xml"]):
        called([*paths, "--query", STORM, *words], runtime, program, folder)
    assert server.status()["calls"] == before


def test_calls_with_the_same_abbreviations_are_answered(program: Path, tmp_path: Path) -> None:
    top, titles = tmp_path / "letters", tmp_path / "titles"
    top.mkdir()
    (top / "one.xml").write_text("<p>Dr. Hill ran</p>")
    titles.write_text("dr.\n")
    query = ["--query", 'collection()/p[. contains text "dr" ftand "hill" same sentence]', "--count"]
    with served(program, top, "--abbreviations", titles, XDG_RUNTIME_DIR=str(tmp_path)) as it:
        it.comes_to(idle=2)
        check_same(it, [top, *query, "--abbreviations", titles], tmp_path, program, top)
        check_same(it, [top, *query, "--abbreviations", "titles"], tmp_path, program, tmp_path)
        assert called([top, *query, "--abbreviations", titles], tmp_path, program, top).stdout == b"1\n"
        before = it.status()["calls"]
        assert called([top, *query], tmp_path, program, top).stdout == b"0\n"
        titles.write_text("e.g.\n")
        assert called([top, *query, "--abbreviations", titles], tmp_path, program, top).stdout == b"0\n"
        assert called([top, *query, "--abbreviations", "de"], tmp_path, program, top).stdout == b"1\n"
        assert it.status()["calls"] == before


def test_another_program_is_asked_itself(server: Server, program: Path, folder: Path, runtime: Path, tmp_path: Path) -> None:
    other = tmp_path / "ftq"
    shutil.copy(program, other)
    before = server.status()["calls"]
    assert called([folder, "--query", STORM, "--count"], runtime, other, folder).stdout == b"4\n"
    assert called([folder, "--query", STORM, "--count"], runtime, None, folder, FTQ=str(other)).stdout == b"4\n"
    assert called([folder, "--query", STORM, "--count"], runtime, None, folder, PATH=f"{tmp_path}:/usr/bin:/bin").stdout == b"4\n"
    assert server.status()["calls"] == before
    link = tmp_path / "link"
    link.symlink_to(program)
    assert called([folder, "--query", STORM, "--count"], runtime, link, folder).stdout == b"4\n"
    assert server.status()["calls"] == before + 1


def note_of(runtime: Path) -> Path:
    (note,) = (runtime / "ftq-serve").glob("*.json")
    return note


def test_the_note_is_the_users_alone(server: Server, runtime: Path) -> None:
    note = note_of(runtime)
    assert stat.S_IMODE(note.stat().st_mode) == 0o600 and stat.S_IMODE(note.parent.stat().st_mode) == 0o700
    told = json.loads(note.read_text())
    assert told["port"] == server.port and len(told["secret"]) == 64


@pytest.mark.parametrize("told", [{}, {"Authorization": "n 0"}, {"Authorization": ""}, {"Authorization": "é é"}])
def test_who_doesnt_know_the_secret_is_refused(server: Server, folder: Path, told: dict[str, str]) -> None:
    body = {"arguments": [str(folder), "--query", STORM], "program": None, "path": "", "terminals": [False, False], "environment": {}}
    answered = server.post("/beside", body, told)
    assert answered.status == 403 and "x-proof" not in answered.headers and "storm" not in answered.text


def test_an_answer_of_another_process_at_the_port_is_not_taken(program: Path, folder: Path, tmp_path: Path) -> None:
    """Where what served has gone without taking its note away, and another one listens there, it learns no secret and isn't believed."""
    asked: list[bytes] = []

    class Liar(http.server.BaseHTTPRequestHandler):
        def do_POST(self) -> None:
            asked.append(str(self.headers).encode() + self.rfile.read(int(self.headers["Content-Length"])))
            self.send_response(200)
            self.send_header("X-Proof", "0" * 64)
            self.end_headers()
            self.wfile.write(b'{"out": "a lie"}\n{"status": 0}\n')

        def log_message(self, *words: object) -> None:
            pass

    with served(program, folder, XDG_RUNTIME_DIR=str(tmp_path)) as it:
        note = note_of(tmp_path)
        secret, kept = json.loads(note.read_text())["secret"], note.read_bytes()
    assert not note.exists()
    with http.server.HTTPServer(("127.0.0.1", it.port), Liar) as liar:
        threading.Thread(target=liar.serve_forever, daemon=True).start()
        note.touch(mode=0o600)
        note.write_bytes(kept)
        ran = called([folder, "--query", STORM, "--count"], tmp_path, program, folder)
        liar.shutdown()
    assert ran.stdout == b"4\n" and len(asked) == 1 and secret.encode() not in asked[0]


@pytest.mark.parametrize("content", [b"", b"{}", b'{"port": 1, "secret": "x"}', b"[1]", b"\xff", b'{"port": "x", "secret": 1}'])
def test_a_note_that_says_nothing_is_passed_over(server: Server, program: Path, folder: Path, runtime: Path, tmp_path: Path, content: bytes) -> None:
    (tmp_path / "ftq-serve").mkdir(mode=0o700)
    note = tmp_path / "ftq-serve" / note_of(runtime).name
    note.touch(mode=0o600)
    note.write_bytes(content)
    assert called([folder, "--query", STORM, "--count"], tmp_path, program, folder).stdout == b"4\n"


def test_a_note_that_others_can_read_or_write_is_not_believed(server: Server, program: Path, folder: Path, runtime: Path, tmp_path: Path) -> None:
    shutil.copytree(runtime / "ftq-serve", tmp_path / "ftq-serve")
    before = server.status()["calls"]
    words: list[object] = [folder, "--query", STORM, "--count"]
    assert called(words, tmp_path, program, folder).stdout == b"4\n" and server.status()["calls"] == before + 1
    note_of(tmp_path).chmod(0o644)
    assert called(words, tmp_path, program, folder).stdout == b"4\n" and server.status()["calls"] == before + 1
    note_of(tmp_path).chmod(0o600)
    (tmp_path / "ftq-serve").chmod(0o755)
    assert called(words, tmp_path, program, folder).stdout == b"4\n" and server.status()["calls"] == before + 1


def test_a_call_that_is_ended_stops_its_question(program: Path, folder: Path, tmp_path: Path) -> None:
    top = tmp_path / "long"
    top.mkdir()
    (top / "long.xml").write_text(LONG_DOCUMENT)
    with served(program, top, XDG_RUNTIME_DIR=str(tmp_path)) as it:
        it.comes_to(idle=2)
        environment = {**os.environ, "XDG_RUNTIME_DIR": str(tmp_path)}
        child = subprocess.Popen([TOP / "tools" / "ask", top, "--program", program, "--query", LONG], env=environment, stdout=subprocess.PIPE)
        it.comes_to(asked=1, idle=1)
        child.kill()
        child.communicate()
        it.comes_to(asked=0, idle=2)
        late = called([top, "--query", LONG, "--timeout", "1"], tmp_path, program, top)
        assert late.returncode == 2 and late.stderr == f"ask: no reply within 1 s: {LONG}\n".encode()
