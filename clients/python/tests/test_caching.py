"""What is kept of what was read, and reading by several processes: always the same as reading anew."""

from __future__ import annotations

import os
import shutil
import signal
import sqlite3
import subprocess
import sys
import time
from pathlib import Path
from typing import Any, Callable

import pytest

pytest.importorskip("lxml")
pytest.importorskip("rich")

from conftest import TOP  # noqa: E402
from ftq_ask import caching  # noqa: E402
from ftq_ask.caching import Cache  # noqa: E402
from ftq_ask.collection import Collection  # noqa: E402
from ftq_ask.engines import Loading  # noqa: E402
from ftq_ask.loading import GROUP, Reader, ahead  # noqa: E402
from ftq_ask.reading import Reading, Rules, read_file  # noqa: E402
from ftq_ask.trees import Untaken  # noqa: E402
from ftq_client import Session  # noqa: E402


@pytest.fixture
def folder(tmp_path: Path) -> Path:
    top = tmp_path / "library"
    top.mkdir()
    for number in range(3 * GROUP):
        (top / f"{number:03}.xml").write_text(f"<r n='{number}'><p>storm {number}</p></r>")
    (top / "007.xml").write_text("<r><p></r>")
    (top / "typed.xml").write_text("<!DOCTYPE r SYSTEM 'r.dtd'><r>&name;</r>")
    (top / "r.dtd").write_text("<!ENTITY name 'Bergen'>")
    either = "<i:include href='001.xml'/><i:include href='gone.xml'><i:fallback>none</i:fallback></i:include>"
    (top / "with.xml").write_text(f"<r xmlns:i='http://www.w3.org/2001/XInclude'>{either}</r>")
    for path in top.iterdir():
        os.utime(path, (1_000_000_000, 1_000_000_000))
    return top


def plain(rows: list[Reading | Untaken]) -> list[Any]:
    """What was read, to be compared."""
    return [str(it) if isinstance(it, Untaken) else (*vars(it).values(),) for it in rows]


def files_of(folder: Path) -> list[Path]:
    return sorted(folder.glob("*.xml"))


def read(folder: Path, **words: Any) -> list[Any]:
    with Reader(Rules(), **words) as reader:
        return plain(list(reader.read(files_of(folder))))


def test_files_are_read_the_same_in_each_way(folder: Path, tmp_path: Path, monkeypatch: pytest.MonkeyPatch) -> None:
    wanted = read(folder, processes=0)
    assert len(wanted) == 3 * GROUP + 2 and sum(isinstance(it, str) for it in wanted) == 1
    monkeypatch.setattr("ftq_ask.loading.FEW_BYTES", 0)
    cache = Cache(tmp_path / "cache" / "c.sqlite")
    assert read(folder, processes=3) == read(folder, processes=3, cache=cache) == wanted and cache.found == 0
    for processes in (0, 3):
        again = Cache(tmp_path / "cache" / "c.sqlite")
        assert read(folder, processes=processes, cache=again) == wanted
        assert again.found >= 3 * GROUP + 1


def one(cache: Path, path: Path, rules: Rules = Rules()) -> tuple[bytes, bool]:
    """What the program gets of a file, and whether that was found in the cache."""
    it = Cache(cache)
    with Reader(rules, it, processes=0) as reader:
        (row,) = reader.read([path])
    assert isinstance(row, Reading) and row.content == read_file(path, rules).content
    return row.content, it.found > 0


def test_what_was_read_for_one_folder_isnt_found_for_another(tmp_path: Path) -> None:
    (tmp_path / "named" / "docs").mkdir(parents=True)
    part, path = tmp_path / "named" / "part.xml", tmp_path / "named" / "docs" / "d.xml"
    part.write_text("<part/>")
    path.write_text("<a><i:include xmlns:i='http://www.w3.org/2001/XInclude' href='../part.xml'><i:fallback>none</i:fallback></i:include></a>")
    for it in (part, path):
        os.utime(it, (1e9, 1e9))
    rules = [Rules(), Rules(within=frozenset({tmp_path / "named"})), Rules(within=frozenset({tmp_path / "other"}))]
    assert [one(tmp_path / "cache", path, it) for it in rules] == [(b"<a>none</a>", False), (b"<a><part/></a>", False), (b"<a>none</a>", True)]
    assert one(tmp_path / "cache", path, rules[1]) == (b"<a><part/></a>", True)


CHANGES: list[tuple[str, Callable[[Path], object]]] = [
    ("typed.xml", lambda top: (top / "r.dtd").write_text("<!ENTITY name 'Oslo and more'>")),
    ("with.xml", lambda top: (top / "001.xml").write_text("<r>another</r>")),
    ("with.xml", lambda top: (top / "gone.xml").write_text("<r>come</r>")),
    ("with.xml", lambda top: (top / "with.xml").write_text("<r>other</r>")),
    ("001.xml", lambda top: (top / "001.xml").write_text("<r>other</r>")),
]


@pytest.mark.parametrize(("name", "change"), CHANGES)
def test_what_has_changed_is_read_anew(folder: Path, tmp_path: Path, name: str, change: Callable[[Path], object]) -> None:
    cache = tmp_path / "c.sqlite"
    first, found = one(cache, folder / name)
    assert not found and one(cache, folder / name) == (first, True)
    change(folder)
    assert one(cache, folder / name)[0] != first


def test_what_looks_the_same_is_found_without_being_read(folder: Path, tmp_path: Path, monkeypatch: pytest.MonkeyPatch) -> None:
    path = folder / "001.xml"
    opened: list[Path] = []
    whole = Path.read_bytes

    def read_bytes(self: Path) -> bytes:
        opened.append(self)
        return whole(self)

    monkeypatch.setattr(Path, "read_bytes", read_bytes)

    def found() -> tuple[bool, bool]:
        """Whether it was found, and whether it was read."""
        opened.clear()
        cache = Cache(tmp_path / "c.sqlite")
        with Reader(Rules(), cache, processes=0) as reader:
            (row,) = reader.read([path])
        was_read = path in opened
        assert isinstance(row, Reading) and row.content == read_file(path).content
        return cache.found > 0, was_read

    # Of a file that was changed just now another change might not show.
    assert [found() for _ in range(3)] == [(False, True), (True, True), (True, True)]
    monkeypatch.setattr(caching, "RECENT", -1.0)
    assert [found() for _ in range(3)] == [(True, True), (True, False), (True, False)]
    told = path.stat()
    path.write_bytes(whole(path).replace(b"storm", b"stork"))
    os.utime(path, ns=(told.st_atime_ns, told.st_mtime_ns))
    assert path.stat().st_size == told.st_size and path.stat().st_mtime_ns == told.st_mtime_ns
    assert [found() for _ in range(2)] == [(False, True), (True, False)]
    other = folder / "other.xml"
    other.write_text("<r>another</r>")
    os.replace(other, path)
    assert not found()[0]


def test_what_is_read_otherwise_isnt_found(folder: Path, tmp_path: Path, monkeypatch: pytest.MonkeyPatch) -> None:
    cache, path = tmp_path / "c.sqlite", folder / "001.xml"
    assert not one(cache, path)[1] and one(cache, path)[1]
    for rules in (Rules(doctypes=False), Rules(includes=False), Rules(drop_blanks=True), Rules(blocks=frozenset({"p"}))):
        assert not one(cache, path, rules)[1] and one(cache, path, rules)[1]
    monkeypatch.setattr(caching, "_version", lambda: "another")
    assert not one(cache, path)[1]


def test_the_same_file_elsewhere_is_found_where_nothing_beside_it_counts(folder: Path, tmp_path: Path) -> None:
    cache, other = tmp_path / "c.sqlite", tmp_path / "other"
    one(cache, folder / "001.xml"), one(cache, folder / "typed.xml")
    other.mkdir()
    for name in ("001.xml", "typed.xml"):
        shutil.copy(folder / name, other / name)
    assert one(cache, other / "001.xml")[1]
    with pytest.raises(AssertionError), Reader(Rules(), Cache(cache), processes=0) as reader:
        assert isinstance(list(reader.read([other / "typed.xml"]))[0], Reading)


def test_what_was_just_written_beside_a_file_isnt_kept(folder: Path, tmp_path: Path) -> None:
    (folder / "r.dtd").write_text("<!ENTITY name 'now'>")
    assert not one(tmp_path / "c.sqlite", folder / "typed.xml")[1] and not one(tmp_path / "c.sqlite", folder / "typed.xml")[1]


SPOILT: list[tuple[str, Callable[[Path], object]]] = [
    ("cut off", lambda path: os.truncate(path, path.stat().st_size // 2)),
    ("empty", lambda path: os.truncate(path, 0)),
    ("something else", lambda path: path.write_text("no database " * 1_000)),
    ("zeros", lambda path: path.write_bytes(path.read_bytes()[:100] + b"\0" * 200_000)),
    ("a folder", lambda path: (path.unlink(), path.mkdir())),
    ("unreadable", lambda path: path.chmod(0)),
]


@pytest.mark.parametrize(("name", "spoil"), SPOILT, ids=[it[0] for it in SPOILT])
def test_a_spoilt_cache_is_as_none(folder: Path, tmp_path: Path, name: str, spoil: Callable[[Path], object]) -> None:
    path = tmp_path / "c.sqlite"
    wanted = read(folder, processes=0)
    read(folder, processes=0, cache=Cache(path))
    with sqlite3.connect(path) as database:
        database.execute("PRAGMA wal_checkpoint(TRUNCATE)")
    spoil(path)
    assert read(folder, processes=0, cache=Cache(path)) == wanted
    assert read(folder, processes=0, cache=Cache(path)) == wanted


def test_a_changed_row_isnt_taken(folder: Path, tmp_path: Path) -> None:
    path = tmp_path / "c.sqlite"
    one(path, folder / "001.xml")
    with sqlite3.connect(path) as database:
        database.execute("UPDATE readings SET content = CAST(replace(CAST(content AS TEXT), 'storm', 'stork') AS BLOB)")
    assert one(path, folder / "001.xml") == (read_file(folder / "001.xml").content, False)


def test_a_writer_that_is_killed_spoils_nothing(folder: Path, tmp_path: Path) -> None:
    path = tmp_path / "c.sqlite"
    code = f"""
import sys; sys.path.insert(0, {str(TOP / "clients" / "python" / "src")!r})
from pathlib import Path
from ftq_ask.caching import Cache
from ftq_ask.reading import Rules, read_file
cache = Cache(Path({str(path)!r}))
paths = [it for it in sorted(Path({str(folder)!r}).glob("0*.xml")) if it.name != "007.xml"]
print("begun", flush=True)
while True:
    for it in paths:
        cache.put(it, read_file(it), Rules())
        cache.flush()
"""
    for number in range(4):
        child = subprocess.Popen([sys.executable, "-c", code], stdout=subprocess.PIPE)
        assert child.stdout and child.stdout.readline() == b"begun\n"
        time.sleep(0.02 + 0.05 * number)
        os.kill(child.pid, signal.SIGKILL)
        child.wait()
        child.stdout.close()
        assert read(folder, processes=0, cache=Cache(path)) == read(folder, processes=0)
    with sqlite3.connect(path) as database:
        assert database.execute("PRAGMA integrity_check").fetchall() == [("ok",)]


def test_two_programs_use_the_cache_at_once(folder: Path, tmp_path: Path) -> None:
    path, wanted = tmp_path / "c.sqlite", read(folder, processes=0)
    with sqlite3.connect(path) as database:
        Cache(path)
        database.execute("BEGIN IMMEDIATE")
        start = time.monotonic()
        assert read(folder, processes=0, cache=Cache(path)) == wanted and time.monotonic() - start < 15
    read(folder, processes=0, cache=Cache(path))
    again = Cache(path)
    assert read(folder, processes=0, cache=again) == wanted and again.found > 0


def test_processes_that_are_killed_are_done_without(folder: Path, monkeypatch: pytest.MonkeyPatch) -> None:
    monkeypatch.setattr("ftq_ask.loading.FEW_BYTES", 0)
    wanted = read(folder, processes=0)
    with Reader(Rules(), processes=2) as reader:
        rows = reader.read(files_of(folder))
        for number in Path(f"/proc/{os.getpid()}/task/{os.getpid()}/children").read_text().split():
            if "python" in Path(f"/proc/{number}/comm").read_text() or "pytest" in Path(f"/proc/{number}/comm").read_text():
                os.kill(int(number), signal.SIGKILL)
        assert plain(list(rows)) == wanted


def test_it_grows_no_further_than_it_may(folder: Path, tmp_path: Path, monkeypatch: pytest.MonkeyPatch) -> None:
    path = tmp_path / "c.sqlite"
    read(folder, processes=0, cache=Cache(path))
    with sqlite3.connect(path) as database:
        ((count, size),) = database.execute("SELECT count(*), sum(length(content)) FROM readings").fetchall()
        database.execute("UPDATE readings SET day = 1 WHERE content NOT LIKE '%storm 1%'")
    monkeypatch.setattr(caching, "MOST_BYTES", size)
    one(path, files_of(folder)[-1], Rules(includes=False))
    with sqlite3.connect(path) as database:
        rows = [it for (it,) in database.execute("SELECT content FROM readings")]
    assert sum(map(len, rows)) <= size * 3 // 4 + 100 and sum(b"storm 1" in it for it in rows) == 11


def test_the_folder_is_the_users_alone_and_no_cache_leaves_nothing(program: Path, folder: Path, tmp_path: Path) -> None:
    environment = {**os.environ, "XDG_CACHE_HOME": str(tmp_path / "home"), "XDG_RUNTIME_DIR": str(tmp_path)}
    command = [TOP / "tools" / "ask", folder, "--program", program, "--query", "collection()/r", "--count"]
    without = subprocess.run([*command, "--no-cache"], capture_output=True, env=environment, timeout=60)
    assert not (tmp_path / "home").exists()
    ran = [subprocess.run(command, capture_output=True, env=environment, timeout=60) for _ in range(2)]
    assert all((it.stdout, it.stderr, it.returncode) == (without.stdout, without.stderr, 2) for it in ran)
    assert (tmp_path / "home" / "ftq").stat().st_mode & 0o777 == 0o700
    with sqlite3.connect(tmp_path / "home" / "ftq" / "readings.sqlite") as database:
        assert database.execute("SELECT count(*) FROM readings").fetchall() == [(3 * GROUP + 1,)]


def test_documents_that_are_sent_ahead_are_loaded_as_one_by_one(program: Path, tmp_path: Path) -> None:
    texts = {f"d{number:02}": f"<a>word {number}</a>" for number in range(60)}
    texts.update({"d05": "<a>", "d31": "<a>" * 201 + "</a>" * 201, "d59": "<a"})
    for name, text in texts.items():
        (tmp_path / f"{name}.xml").write_text(text)
    answers = []
    for engine in (Session(program), Loading(program), Loading(program, limit=700)):
        with engine:
            collection = Collection(engine)
            collection.load(collection.plan([tmp_path]), lambda path: None)
            lines = [] if engine.limit == 700 else [it.line for it in collection.query("collection()/a")]
            answers.append((list(collection.sources), [str(it) for it in collection.untaken], lines))
    assert answers[0] == answers[1] and len(answers[0][0]) == 57 and answers[2][0] != answers[0][0]
    assert any("more than the 700 of one session" in it for it in answers[2][1])


def test_an_interrupt_while_documents_are_sent_leaves_those_that_were_answered(program: Path) -> None:
    class Interrupted(Exception):
        pass

    loaded: list[str] = []

    def done(name: str, fault: Exception | None) -> None:
        loaded.append(name)
        if name == "d9":
            raise Interrupted

    with Loading(program) as engine:
        with pytest.raises(Interrupted):
            engine.load_all(((0, f"d{number}", f"<a>{number}</a>".encode()) for number in range(40)), done)
        assert [it.document for it in engine.query("collection()/a")] == loaded == [f"d{number}" for number in range(10)]
        engine.load("d10", b"<a>10</a>")
        twin = engine.twin()
        assert [it.line for it in twin.query("collection()/a")] == [it.line for it in engine.query("collection()/a")]
        twin.close()


def test_rows_are_worked_out_ahead_and_faults_come_in_their_place() -> None:
    made: list[int] = []

    def rows(last: int) -> Any:
        for number in range(last):
            made.append(number)
            yield number
        raise ValueError("the end")

    taken = []
    with pytest.raises(ValueError, match="the end"):
        for it in ahead(rows(50), 5):
            taken.append(it)
            assert len(made) <= it + 8
    assert taken == list(range(50))
    made.clear()
    some = ahead(rows(1_000_000), 5)
    assert next(some) == 0
    some.close()
    count = len(made)
    time.sleep(0.3)
    assert len(made) == count < 20
