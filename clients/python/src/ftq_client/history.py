"""What was sent to a program and still counts, so that another process can be brought to the same state."""

from __future__ import annotations

from dataclasses import dataclass

from .names import command_words

LOOKS_BACK = frozenset({"insert", "replace", "delete", "mark", "watch"})
"""The commands whose effect depends on all that came before them."""

TAKEN_BACK = {"unmark": "mark", "unwatch": "watch"}
"""The commands that take back all that another one of the same name has done."""

LISTS = frozenset({"stop", "thesaurus", "stems", "abbreviations"})
"""The commands that give a list, in the place of the one before."""


@dataclass(frozen=True)
class Kept:
    """A command that was accepted: its words first, and its bytes."""

    kind: str
    name: str
    command: bytes


class History:
    """The accepted commands that changed something, less those whose effect is gone."""

    def __init__(self) -> None:
        self._kept: list[Kept] = []
        self._plain = True

    @property
    def size(self) -> int:
        """How many bytes all of them have."""
        return sum(len(it.command) for it in self._kept)

    @property
    def commands(self) -> list[bytes]:
        """The commands in the order in which they have to be sent."""
        return [it.command for it in self._kept]

    def add(self, line: str, command: bytes, session_format: int) -> None:
        """Takes note of an accepted command of a session of that format that was answered by `ok`, or of `changes`.

        A document that was dropped and a list that was replaced are forgotten, unless an edit, a mark or a watch stands between that may have
        looked at them. A mark and a watch are forgotten when they are given up; a watch that was asked for its changes is as one that is set now.
        """
        words = command_words(line, session_format)
        self._add(Kept(words[0], words[1] if len(words) > 1 else "", command))

    def tidy(self) -> None:
        """Forgets also what stood there for the sake of marks and watches that are forgotten, or set later."""
        kept, self._kept, self._plain = self._kept, [], True
        for it in kept:
            self._add(it)

    def _add(self, it: Kept) -> None:
        if it.kind in TAKEN_BACK:
            self._forget(TAKEN_BACK[it.kind], it.name)
            return
        if it.kind == "drop" and self._plain:
            self._forget("load", it.name)
            return
        if it.kind == "changes":
            it = next(watch for watch in self._kept if (watch.kind, watch.name) == ("watch", it.name))
            self._forget("watch", it.name)
        if it.kind in LISTS and self._plain:
            self._forget(it.kind, it.name)
        self._plain = self._plain and it.kind not in LOOKS_BACK
        self._kept.append(it)

    def _forget(self, kind: str, name: str) -> None:
        self._kept = [it for it in self._kept if (it.kind, it.name) != (kind, name)]
