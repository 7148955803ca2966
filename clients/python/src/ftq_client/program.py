"""The program as a process at the other end of a pipe."""

from __future__ import annotations

import os
import shutil
import subprocess
from pathlib import Path

from .faults import ProgramEnded, ProgramMissing, refusal_of
from .replies import Done, Found, Reply, Said

MOST_BYTES = 67_108_864
"""How many bytes the program reads of one session."""

TUNABLES = {"GLIBC_TUNABLES": "glibc.malloc.hugetlb=1"}
"""What the program is started with where the caller's environment says nothing of it: memory in large pages, where the system gives them,
saves a third of the time that it takes to ask thousands of documents."""

VARIABLE = "FTQ"
"""The environment's variable that names the program."""


def find_program() -> Path:
    """The program to start where none is given: what the variable FTQ names, else what was built in the checkout of the repository that
    this package lies in or was packed beside it, else `ftq` on the path."""
    named = os.environ.get(VARIABLE)
    if named:
        return Path(named)
    above = Path(__file__).resolve().parents
    for top in above:
        for built in (top / "crates" / "ftq" / "out" / "ftq", top / "lib" / "ftq" / "ftq"):
            if os.access(built, os.X_OK):
                return built
    found = shutil.which("ftq")
    if found:
        return Path(found)
    building = " (./ftq examples/hello.ftq builds it)" if any((top / "crates.txt").exists() for top in above) else ""
    raise ProgramMissing(f"the program ftq isn't found{building}: name it by an argument or by the variable {VARIABLE}, or put it on the path")


class Process:
    """One run of the program, and one session with it."""

    def __init__(self, program: Path, opening: bytes = b"") -> None:
        """Starts it. It gets a process group of its own, so that an interrupt at the terminal doesn't end it. The opening, to which there is no
        reply, is sent with the first command."""
        try:
            self._child = subprocess.Popen(
                [os.fspath(program), "/dev/stdin"],
                stdin=subprocess.PIPE,
                stdout=subprocess.PIPE,
                stderr=subprocess.PIPE,
                env={**TUNABLES, **os.environ},
                start_new_session=True,
            )
        except OSError as error:
            raise ProgramMissing(f"{program} can't be started: {error.strerror}") from error
        self._opening = opening
        self.sent = len(opening)
        """How many bytes its session has up to now."""

    @property
    def pid(self) -> int:
        """The number of the process, by which its memory can be looked at."""
        return self._child.pid

    def ask(self, command: bytes, lines_each: int = 1) -> Reply:
        """The reply to one command; a `Refusal` where it is refused, `ProgramEnded` where none comes. `lines_each` says how many lines stand for each of
        those that the reply counts."""
        self.send(command)
        return self.reply(lines_each)

    def send(self, command: bytes) -> None:
        """Sends a command, whose reply is the next one after those of the commands before it."""
        assert self._child.stdin
        self.sent += len(command)
        opening, self._opening = self._opening, b""
        try:
            self._child.stdin.write(opening + command if opening else command)
            self._child.stdin.flush()
        except BrokenPipeError:
            raise self._ended() from None

    def reply(self, lines_each: int = 1) -> Reply:
        """The next reply, as `ask` gives it."""
        first = self._line()
        if first == "ok":
            return Done()
        if first.startswith("! "):
            raise refusal_of(first)
        text = first.removeprefix("= ")
        if text.isdecimal():
            return Found(tuple(self._line() for _ in range(int(text) * lines_each)))
        return Said(text)

    def close(self) -> int:
        """Ends the session; the program's exit status."""
        assert self._child.stdin and self._child.stdout and self._child.stderr
        try:
            self._child.stdin.close()
        except BrokenPipeError:
            pass
        status = self._child.wait()
        self._child.stdout.close()
        self._child.stderr.close()
        return status

    def end(self) -> None:
        """Ends the program in the middle of whatever it does; whoever waits for a reply is told."""
        self._child.kill()

    def kill(self) -> None:
        """Ends the program and closes its pipes."""
        self.end()
        self.close()

    def _line(self) -> str:
        assert self._child.stdout
        line = self._child.stdout.readline()
        if not line.endswith(b"\n"):
            raise self._ended()
        return line[:-1].decode("utf-8")

    def _ended(self) -> ProgramEnded:
        """What is to be raised once the program has closed its side."""
        assert self._child.stderr
        said = self._child.stderr.read().decode("utf-8", errors="replace").strip()
        return ProgramEnded(self._child.wait(), said)
