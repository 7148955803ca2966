"""Several programs, on this machine and over a scheduler's workers."""

from __future__ import annotations

import os
import signal
import subprocess
import sys
import threading
import time
from pathlib import Path
from typing import Any, Iterator

import pytest

pytest.importorskip("lxml")

from ftq_ask.shares import LeftOut, Shares, divided, in_turn, local_shares  # noqa: E402
from ftq_client import BadLine, NameTaken, NoSuchDocument, NoSuchList, NoSuchName, QueryFault, Session  # noqa: E402


def test_documents_are_divided_in_order_and_by_size() -> None:
    assert divided([1] * 6, 3) == [0, 0, 1, 1, 2, 2]
    assert divided([10, 1, 1, 10], 2) == [0, 0, 1, 1]
    assert divided([0, 0], 3) == [0, 0]
    assert divided([], 3) == []
    placed = divided([7, 3, 9, 1, 1, 30, 2], 4)
    assert placed == sorted(placed) and set(placed) <= {0, 1, 2, 3}


def test_documents_are_loaded_into_all_shares_beside_each_other() -> None:
    assert in_turn([1] * 6, [0, 0, 0, 1, 1, 1]) == [0, 3, 1, 4, 2, 5]
    assert in_turn([4, 1, 1, 1, 1, 4], [0, 1, 1, 1, 1, 0]) == [0, 1, 2, 3, 4, 5]
    assert in_turn([1, 1, 9, 9], [0, 0, 1, 1]) == [0, 2, 1, 3]
    assert in_turn([], []) == []


def filled(shares: Shares, count: int) -> Shares:
    rows = [(number * shares.count // count, f"d{number}", f"<a><b>word. {number}</b></a>".encode()) for number in range(count)]
    faults: list[Exception | None] = []
    shares.load_all(rows, lambda name, fault: faults.append(fault))
    assert faults == [None] * count
    return shares


def check(shares: Shares, one: Session) -> None:
    """The same answers and refusals as one program gives."""
    for path in ("collection()//b", 'collection()//b[. contains text "7"]', 'doc("d9")//b', 'collection()/a[. contains text "none"]'):
        assert shares.query(path) == one.query(path)
        assert shares.print(path) == one.print(path)
    without_list = 'collection()/a[. contains text "x" using stop words at "s"]'
    for path, kind in [('doc("absent")/a', NoSuchDocument), ("collection()//", QueryFault), (without_list, NoSuchList)]:
        with pytest.raises(kind) as theirs:
            one.query(path)
        with pytest.raises(kind) as ours:
            shares.query(path)
        assert ours.value.__dict__ == theirs.value.__dict__
    shares.stop("s", b"a")
    one.stop("s", b"a")
    path = 'collection()/a[. contains text "a 7" using stop words at "s"]'
    assert shares.query(path) == one.query(path) and len(one.query(path)) == 1
    for engine in (shares, one):
        engine.command("thesaurus t", b"r | a | b")
        engine.command("stems", b"words word")
        assert len(engine.command('query collection()/a[. contains text "words" using stemming]').lines) == 20
        engine.drop("d7")
        with pytest.raises(NoSuchName):
            engine.drop("d7")
        with pytest.raises(NameTaken):
            engine.load("d8", b"<a/>")
        engine.command("load d7", b"<a><b>word seven</b></a>")
        engine.load("letter", b"<c>Dr. Hill ran</c>")
        engine.command("abbreviations", b"e.g.")
        engine.abbreviations(b"dr.")
        assert len(engine.query('collection()/c[. contains text "dr" ftand "hill" same sentence]')) == 1
        with pytest.raises(BadLine) as bad:
            engine.command("abbreviations", b"e.g.\ne. g.")
        assert bad.value.line == 2
    with pytest.raises(ValueError):
        shares.command("delete collection()//b")
    assert [it.line for it in shares.query("collection()//b")] == [it.line for it in one.query("collection()//b")]


def one_session(program: Path, count: int) -> Session:
    session = Session(program)
    for number in range(count):
        session.load(f"d{number}", f"<a><b>word. {number}</b></a>".encode())
    return session


def test_local_programs_answer_as_one(program: Path) -> None:
    shares, one = filled(local_shares(3, program), 20), one_session(program, 20)
    check(shares, one)
    for line in ('explain "a" ftand ("a" ftor "b")', 'explain "a" ft'):
        faults = []
        for engine in (shares, one):
            try:
                faults.append(str(engine.command(line)))
            except QueryFault as fault:
                faults.append(str(fault))
        assert faults[0] == faults[1]
    assert shares.close() == 1 and one.close() == 1


def test_an_interrupt_ends_the_programs_and_they_are_started_again(program: Path) -> None:
    shares = filled(local_shares(2, program), 6)
    before = [it.pid for it in shares._engines]
    with pytest.raises(KeyboardInterrupt):
        shares._asked(lambda it: signal.raise_signal(signal.SIGINT) or time.sleep(2) if it is shares._engines[0] else None)
    assert len(shares.query("collection()//b")) == 6
    assert all(now != then for now, then in zip([it.pid for it in shares._engines], before))
    shares.close()


def test_a_schedulers_workers_answer_as_one(program: Path) -> None:
    distributed = pytest.importorskip("distributed")
    from ftq_ask.shares import scheduled_shares

    with distributed.LocalCluster(n_workers=2, threads_per_worker=1, host="127.0.0.1", dashboard_address=None) as cluster:
        shares, one = filled(scheduled_shares(cluster.scheduler_address, 4, program), 20), one_session(program, 20)
        check(shares, one)
        assert shares.close() == 1 and one.close() == 1


def test_a_program_that_somebody_ends_is_asked_again(program: Path) -> None:
    shares, one = filled(local_shares(3, program), 20), one_session(program, 20)
    os.kill(shares._engines[1].pid, signal.SIGKILL)
    assert shares.query("collection()//b") == one.query("collection()//b")
    assert shares._engines[1].processes == 2
    shares.close()
    one.close()


class Cluster:
    """A scheduler and its workers, each a process of its own."""

    def __init__(self, folder: Path) -> None:
        self.file = folder / "scheduler.json"
        self.processes: dict[str, subprocess.Popen[bytes]] = {}
        self._start("scheduler", "dask_scheduler", "--host", "127.0.0.1", "--port", "0", "--scheduler-file", self.file)
        self._wait_for(self.file.exists)
        import distributed

        self.client = distributed.Client(scheduler_file=str(self.file), set_as_default=False)

    def _start(self, name: str, command: str, *words: object) -> None:
        call = [sys.executable, "-m", f"distributed.cli.{command}", "--no-dashboard", *map(str, words)]
        self.processes[name] = subprocess.Popen(call, stdout=subprocess.DEVNULL, stderr=subprocess.DEVNULL, start_new_session=True)

    @staticmethod
    def _wait_for(is_so: Any) -> None:
        end = time.monotonic() + 60
        while not is_so():
            assert time.monotonic() < end, "the cluster did not start"
            time.sleep(0.05)

    @property
    def address(self) -> str:
        """Where the scheduler is."""
        return str(self.client.scheduler.address)

    def workers(self) -> dict[str, str]:
        """The names of the workers that are there, by their addresses."""
        return {address: it["name"] for address, it in self.client.scheduler_info()["workers"].items()}

    def start(self, name: str) -> None:
        """Starts a worker, and waits until it is there."""
        self._start(name, "dask_worker", "--scheduler-file", self.file, "--nthreads", "1", "--no-nanny", "--name", name)
        self._wait_for(lambda: name in self.workers().values())

    def signal(self, name: str, number: int) -> None:
        """Sends a signal to a worker."""
        os.kill(self.processes[name].pid, number)

    def end(self) -> None:
        """Ends all processes."""
        self.client.close()
        for process in self.processes.values():
            process.kill()
            process.wait()


@pytest.fixture
def cluster(tmp_path: Path) -> Iterator[Cluster]:
    pytest.importorskip("distributed")
    it = Cluster(tmp_path)
    try:
        it.start("first")
        it.start("second")
        yield it
    finally:
        it.end()


def scheduled(cluster: Cluster, program: Path) -> Shares:
    from ftq_ask.shares import scheduled_shares

    return scheduled_shares(cluster.address, None, program)


def name_of(cluster: Cluster, shares: Shares, share: int) -> str:
    """The worker that has a share."""
    return cluster.workers()[shares._engines[share].worker]


def test_a_worker_that_is_killed_in_the_middle_costs_nothing_but_time(cluster: Cluster, program: Path) -> None:
    shares, one = scheduled(cluster, program), one_session(program, 20)
    # In the middle of loading, with lists that were given before.
    for engine in (shares, one):
        engine.stop("s", b"a")
        engine.abbreviations(b"word.")
    rows = [(number * 2 // 20, f"d{number}", f"<a><b>word. {number}</b></a>".encode()) for number in range(20)]
    faults: list[Exception | None] = []
    shares.load_all(rows[:7] + rows[10:15], lambda name, fault: faults.append(fault))
    shares.load_all([], lambda name, fault: None)
    cluster.signal(name_of(cluster, shares, 0), signal.SIGKILL)
    shares.load_all(rows[7:10] + rows[15:], lambda name, fault: faults.append(fault))
    assert faults == [None] * 20 and shares.moves == 1
    for path in ('collection()/a[. contains text "a 7" using stop words at "s"]', 'collection()/a[. contains text "word" ftand "7" same sentence]'):
        assert shares.query(path) == one.query(path) and len(one.query(path)) == 1
    # In the middle of a question: the worker is stopped, asked, and killed before it could answer.
    cluster.start("third")
    shares.drop("d3")
    one.drop("d3")
    name = name_of(cluster, shares, 0)
    assert name == name_of(cluster, shares, 1)
    cluster.signal(name, signal.SIGSTOP)
    answers: list[Any] = []
    asking = threading.Thread(target=lambda: answers.append(shares.print("collection()//b")))
    asking.start()
    asking.join(0.5)
    assert asking.is_alive()
    cluster.signal(name, signal.SIGKILL)
    asking.join(60)
    assert answers == [one.print("collection()//b")] and len(answers[0]) == 19
    assert shares.moves == 3 and name_of(cluster, shares, 0) == name_of(cluster, shares, 1) == "third"
    check_again = ("collection()//b", 'doc("d9")//b', 'collection()//b[. contains text "7"]')
    assert [shares.query(it) for it in check_again] == [one.query(it) for it in check_again]
    assert shares.close() == 1
    one.close()


def test_what_no_other_worker_takes_is_left_out_and_said(cluster: Cluster, program: Path) -> None:
    shares, one = filled(scheduled(cluster, program), 6), one_session(program, 6)
    for name in ("first", "second"):
        cluster.signal(name, signal.SIGKILL)
    with pytest.raises(LeftOut) as told:
        shares.query("collection()//b")
    assert told.value.documents == tuple(f"d{number}" for number in range(6)) and told.value.found == []
    assert "6 documents (d0, d1, d2, ..) are left out" in str(told.value) and "0 elements" in str(told.value)
    # A worker that comes later takes all of them at the next question.
    cluster.start("third")
    assert shares.query("collection()//b") == one.query("collection()//b")
    assert shares.close() == 0
    one.close()


def test_an_answer_without_a_share_says_what_it_lacks() -> None:
    from ftq_ask.shares import Lost

    class Here:
        """An engine with one document."""

        def __init__(self, name: str) -> None:
            self.name, self.is_there = name, True

        def load(self, name: str, content: bytes) -> None: ...

        def query(self, path: str) -> list[str]:
            if not self.is_there:
                raise Lost()
            if path.startswith("doc(") and self.name not in path:
                raise NoSuchDocument(f"! 8 no such document: {path}")
            return [self.name]

        def close(self) -> int:
            return 0

    def another(share: int) -> Here:
        raise Lost()

    engines = [Here("d0"), Here("d1")]
    shares = Shares(engines, another=another)
    for shares.share in (0, 1):
        shares.load(f"d{shares.share}", b"<a/>")
    assert shares.query("collection()/a") == ["d0", "d1"]
    engines[1].is_there = False
    with pytest.raises(LeftOut) as told:
        shares.query("collection()/a")
    assert (told.value.documents, told.value.found) == (("d1",), ["d0"])
    assert "1 document (d1) is left out" in str(told.value)
    # A document that another share has is no part of what is left out; one that is left out is said so.
    assert shares.query('doc("d0")/a') == ["d0"]
    with pytest.raises(LeftOut):
        shares.query('doc("d1")/a')
    assert shares.close() == 0
