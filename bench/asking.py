"""A conversation with the program over a pipe, in which the time of each reply is taken when its last byte is there; and the commands of a session."""

import contextlib
import fcntl
import os
import subprocess
import threading
import time

TOP = os.path.dirname(os.path.dirname(os.path.abspath(__file__)))
PROGRAM = os.environ.get("FTQ") or os.path.join(TOP, "crates", "ftq", "out", "ftq")
PIPE_BYTES = 1 << 20


class Refused(Exception):
    """The program answered otherwise than it has to."""


class TooSlow(Exception):
    """The program took longer than it might, and was ended."""


def with_block(command, content):
    """A command with a block, as a session of format 1 has it."""
    lines = [b"." + line if line.startswith(b".") else line for line in content.split(b"\n")]
    return command.encode("utf-8") + b"\n" + b"\n".join(lines) + b"\n.\n"


def with_sized_block(command, content):
    """A command with a block, as a session of format 2 has it."""
    word, _, rest = command.partition(" ")
    return f"{word} {len(content)} {rest}\n".encode("ascii") + content + b"\n"


def loads_of(documents, write=with_block):
    """The commands that load documents, under the names d0, d1 and so on."""
    return [write(f"load d{number}", document) for number, document in enumerate(documents)]


def shown(command):
    """The first line of a command, as a message has it."""
    return command.partition(b"\n")[0].decode("utf-8", errors="replace")[:200]


class Conversation:
    """The program at the other end of a pipe."""

    def __init__(self, program=PROGRAM):
        self.child = subprocess.Popen([program, "/dev/stdin"], stdin=subprocess.PIPE, stdout=subprocess.PIPE, bufsize=0)
        for pipe in (self.child.stdin, self.child.stdout):
            fcntl.fcntl(pipe, fcntl.F_SETPIPE_SZ, PIPE_BYTES)
        self.unread = b""

    def __enter__(self):
        return self

    def __exit__(self, *_):
        self.child.stdin.close()
        self.child.stdout.close()
        self.child.wait()

    def timed(self, command, lines_each=1):
        """The first line of the reply to a command, and the seconds from its first byte to the last one of the reply; `show` has two lines for each
        element."""
        start = time.perf_counter()
        self._write(command)
        first = self._reply(lines_each)
        return first, time.perf_counter() - start

    def accepted(self, command):
        """The seconds that a command takes, which has to be answered `ok`."""
        return self.expected(command, "ok")

    def expected(self, command, reply):
        """The seconds that a command takes, whose reply has to begin with this line."""
        first, seconds = self.timed(command)
        if first != reply:
            raise Refused(f"{shown(command)} was answered {first}, not {reply}")
        return seconds

    def found(self, path, command="query", lines_each=1):
        """How many elements a path finds, and the seconds that it takes to have a line for each."""
        first, seconds = self.timed(f"{command} {path}\n".encode("utf-8"), lines_each)
        if not first.startswith("= "):
            raise Refused(f"{command} {path} was answered {first}")
        return int(first[2:]), seconds

    def load(self, commands):
        """The seconds that commands take which are sent without waiting, each of which has to be answered `ok`."""
        replies, seconds = self.timed_all(commands)
        wrong = next((number for number, reply in enumerate(replies) if reply != "ok"), None)
        if wrong is not None:
            raise Refused(f"{shown(commands[wrong])} was answered {replies[wrong]}")
        return seconds

    def begin_format_2(self):
        """Says that the session is one of format 2, before anything else."""
        self.answered(b"session 2\nstats\n")

    def answered(self, command, lines_each=1):
        """The lines of the reply to a command, its first one first; `show` has two of them for each element."""
        self._write(command)
        first = self._line().decode("utf-8")
        more = int(first[2:]) if first.startswith("= ") and first[2:].isdigit() else 0
        return [first] + [self._line().decode("utf-8") for _ in range(more * lines_each)]

    @contextlib.contextmanager
    def within(self, seconds):
        """Ends the program where what is asked inside takes longer than so many seconds, which then raises `TooSlow`."""
        late = threading.Event()
        timer = threading.Timer(seconds, lambda: (late.set(), self.child.kill()))
        timer.start()
        try:
            yield
        except (EOFError, BrokenPipeError):
            if not late.is_set():
                raise
        finally:
            timer.cancel()
            timer.join()
        if late.is_set():
            raise TooSlow

    def timed_all(self, commands):
        """The first lines of the replies to commands that are sent without waiting, and the seconds from the first byte to the last reply."""
        start = time.perf_counter()
        writer = threading.Thread(target=self._write, args=(b"".join(commands),))
        writer.start()
        replies = [self._reply() for _ in commands]
        seconds = time.perf_counter() - start
        writer.join()
        return replies, seconds

    def memory(self):
        """The bytes of memory that the program holds now, and the most that it has held."""
        with open(f"/proc/{self.child.pid}/status", encoding="ascii") as file:
            sizes = {line.split(":")[0]: line.split()[1] for line in file if line.startswith(("VmRSS:", "VmHWM:"))}
        return int(sizes["VmRSS"]) * 1024, int(sizes["VmHWM"]) * 1024

    def _write(self, command):
        rest = memoryview(command)
        while rest:
            rest = rest[os.write(self.child.stdin.fileno(), rest) :]

    def _reply(self, lines_each=1):
        """Reads a reply to its end; its first line."""
        first = self._line()
        missing = int(first[2:]) * lines_each if first.startswith(b"= ") and first[2:].isdigit() else 0
        while missing:
            ends = self.unread.count(b"\n")
            if ends >= missing:
                break
            missing -= ends
            self.unread = self.unread[self.unread.rfind(b"\n") + 1 :] + self._more()
        end = -1
        for _ in range(missing):
            end = self.unread.index(b"\n", end + 1)
        self.unread = self.unread[end + 1 :]
        return first.decode("utf-8")

    def _line(self):
        while b"\n" not in self.unread:
            self.unread += self._more()
        line, self.unread = self.unread.split(b"\n", 1)
        return line

    def _more(self):
        piece = os.read(self.child.stdout.fileno(), PIPE_BYTES)
        if not piece:
            raise EOFError(f"the program ended with {self.child.wait()}")
        return piece
