"""Whether something has changed in folders: the system tells of it (inotify), and says so before a question that comes behind a change is asked."""

from __future__ import annotations

import ctypes
import os
import select

_CHANGES = 0x2 | 0x4 | 0x8 | 0x40 | 0x80 | 0x100 | 0x200 | 0x400 | 0x800
"""Of what is told: writing, other attributes, the end of writing, files that come and go, and the folder itself."""

_NO_WAIT = 0o4000
_CLOSE_ON_EXEC = 0o2000000

UNSURE = 50_000_000
"""For how many nanoseconds after a file's time it may be written again without getting another one."""

Look = dict[str, tuple[int, ...] | None]
"""Of each file its size, time and number; None where there is none."""


class Watch:
    """Tells whether something has changed in some folders. Where the system doesn't tell, it always may have."""

    def __init__(self) -> None:
        self._system = ctypes.CDLL(None, use_errno=True)
        self.descriptor = self._system.inotify_init1(_NO_WAIT | _CLOSE_ON_EXEC)

    @property
    def tells(self) -> bool:
        """Whether the system tells of changes."""
        return bool(self.descriptor >= 0)

    def add(self, folder: str) -> None:
        """Watches a folder, without those in it."""
        if self.tells and self._system.inotify_add_watch(self.descriptor, os.fsencode(folder), _CHANGES) < 0 and os.path.isdir(folder):
            # There are more folders than the system watches for one user.
            self.close()

    def stirred(self) -> bool:
        """Whether something may have changed since this was last asked."""
        if not self.tells:
            return True
        told = False
        while True:
            try:
                told = bool(os.read(self.descriptor, 65_536)) or told
            except BlockingIOError:
                return told

    def wait(self, seconds: float) -> bool:
        """Waits until something changes, so long at most; whether it did."""
        return self.tells and bool(select.select([self.descriptor], [], [], seconds)[0])

    def close(self) -> None:
        """Watches no more."""
        if self.tells:
            os.close(self.descriptor)
            self.descriptor = -1


class Files:
    """The files and folders that were named to be served, and how all in them is."""

    def __init__(self, named: list[str]) -> None:
        self._named = named
        self.watch = Watch()
        self.elsewhere: Look = {}
        """Files that stand in no folder that is watched, and are looked at each time."""

    def stirred(self) -> bool:
        """Whether something may have changed since `look` was called."""
        told = self.watch.stirred()
        return told or any(_state(it, 0) != state for it, state in self.elsewhere.items())

    def look(self, now: int, elsewhere: set[str]) -> Look:
        """How all files are at this time, in nanoseconds, with others that stand elsewhere. A file that was just written counts as changed once
        more the next time."""
        self.watch.stirred()
        found: Look = {}
        self.elsewhere = {it: _state(it, 0) for it in (*elsewhere, *(it for it in self._named if not os.path.isdir(it)))}
        for name in self._named:
            if os.path.isdir(name):
                self._look_into(name, now, found)
        return {**found, **{it: _state(it, now) for it in self.elsewhere}}

    def _look_into(self, folder: str, now: int, found: Look) -> None:
        self.watch.add(folder)
        try:
            entries = list(os.scandir(folder))
        except OSError:
            return
        for entry in entries:
            if entry.is_dir():
                if not entry.is_symlink():
                    self._look_into(entry.path, now, found)
                continue
            found[entry.path] = state = _state(entry.path, now)
            if entry.is_symlink():
                self.elsewhere[entry.path] = state[:3] if state else None


def _state(path: str, now: int) -> tuple[int, ...] | None:
    """A file's size, time and number, and where it may be written again at the same time, the time of now."""
    try:
        told = os.stat(path)
    except OSError:
        return None
    state = (told.st_size, told.st_mtime_ns, told.st_ino)
    return (*state, now) if now - told.st_mtime_ns < UNSURE and now else state
