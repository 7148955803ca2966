"""Which files of a folder are read: those that begin as XML documents do, whatever they are called, or those that patterns name."""

from __future__ import annotations

import argparse
import os
import re
from collections import Counter
from pathlib import Path
from typing import Callable, Iterator

from .reading import BLOCKS, Rules
from .trees import Untaken

SOME_BYTES = 4_096
MORE_BYTES = 1 << 20
"""How much of a file is looked at: first a little, and more where comments fill that."""

_PROLOG = re.compile(r"\s*(?:(?:<\?(?!php).*?\?>|<!--.*?-->)\s*)*", re.DOTALL)
_HTML = re.compile(r"<!DOCTYPE\s+html\s*(?:>|SYSTEM|PUBLIC\s+[\"']-//[^\"']*//DTD HTML)|<html(?![^>]*\sxmlns)[\s>]", re.IGNORECASE)
_START = re.compile(r"<!DOCTYPE\s|<(?:[^\W\d]|[:\ufffd])[\w:.\ufffd-]*(?=[\s/>])")
_OPEN = re.compile(r"<\?|<!--")
_DECLARATIONS = re.compile(r"<!|%")

NOT_XML = "don't begin as XML documents do"
HTML = "are HTML"
DECLARATIONS = "hold declarations alone"
HIDDEN = "are hidden"
UNNAMED = "aren't named by --glob"
PART = "stand in other files, and are read with them"
_OF_ONE = {
    NOT_XML: "doesn't begin as an XML document does",
    HTML: "is HTML",
    DECLARATIONS: "holds declarations alone",
    HIDDEN: "is hidden",
    UNNAMED: "isn't named by --glob",
    PART: "stands in another file, and is read with it",
}
"""What is said of one file alone."""


def rules_of(options: argparse.Namespace) -> Rules:
    """How files are read, as the words of a call say."""
    return Rules(
        doctypes=not options.no_dtd,
        includes=not options.no_xinclude,
        catalogs=not options.no_catalog,
        drop_blanks=True if options.drop_blanks else False if options.keep_blanks else None,
        blocks=frozenset(name for names in options.blocks for name in names.split(",") if name) - BLOCKS,
        within=frozenset(it.resolve() for it in options.paths if it.is_dir()),
    )


class Choice:
    """The files that are read, and how many were passed over for which reason."""

    def __init__(self, globs: list[str]) -> None:
        """With these patterns of paths: those that files have to match, and after an exclamation mark those that they may not."""
        self._wanted = [it for it in globs if not it.startswith("!")]
        self._unwanted = [it[1:] for it in globs if it.startswith("!")]
        self.passed: dict[str, Counter[str]] = {}
        """For each reason how many files were passed over, by the ending of their names."""
        self.named: list[tuple[Path, str]] = []
        """Those files, each with its reason."""

    def again(self) -> "Choice":
        """The same choice, in which nothing was passed over yet."""
        return Choice([*self._wanted, *(f"!{it}" for it in self._unwanted)])

    def elsewhere(self, place: Callable[[Path], Path]) -> "Choice":
        """The same, with what was passed over, each file at another path."""
        other = self.again()
        for path, reason in self.named:
            other.pass_over(place(path), reason)
        return other

    def files_of(self, arguments: list[Path]) -> Iterator[tuple[Path, Path | Untaken]]:
        """The files that the arguments name, each as its path from its argument and its path. Folders give those that are chosen, in the
        order of their paths, without links to files in the same folder, which are found by themselves. An argument that gives none comes
        as what is to be said of it."""
        for argument in arguments:
            if not argument.is_dir():
                yield Path(argument.name), argument
                continue
            some = False
            for parts, is_link in sorted(_files_in(os.fspath(argument), ())):
                shown = Path(*parts)
                path = argument / shown
                if not (is_link and _leads_inside(path, argument)) and self._takes(path, shown):
                    some = True
                    yield shown, path
            if not some:
                yield argument, Untaken(argument, None, "no file in this folder begins as an XML document does, or is named by --glob")

    def said(self) -> str | None:
        """How many files of folders were passed over, and why; None where none was."""
        if not self.passed:
            return None
        count = sum(it.total() for it in self.passed.values())
        reasons = (f"{_counted(endings.total(), reason)} ({_listed(endings)})" for reason, endings in self.passed.items())
        return f"{count:,} file{'' if count == 1 else 's'} passed over: {', '.join(reasons)}"

    def lines(self, all_named: bool) -> Iterator[str]:
        """What is to be said of the files of folders that were passed over, where there are some: how many, and why; each of them where they are
        named, in the order of their paths."""
        said = self.said()
        if said and not all_named:
            yield f"{said}; --verbose names them"
        elif said:
            yield said
            yield from (f"{path}: passed over, since it {_OF_ONE[reason]}" for path, reason in sorted(self.named))

    def pass_over(self, path: Path, reason: str) -> None:
        """Counts a file that isn't read, for a reason."""
        self.named.append((path, reason))
        self.passed.setdefault(reason, Counter())[path.suffix.lower() or path.name] += 1

    def _takes(self, path: Path, shown: Path) -> bool:
        """Whether a file is read; what isn't is counted."""
        reason = self._reason(path, shown)
        if reason:
            self.pass_over(path, reason)
        return reason is None

    def _reason(self, path: Path, shown: Path) -> str | None:
        if any(map(shown.match, self._unwanted)):
            return UNNAMED
        if self._wanted:
            return None if any(map(shown.match, self._wanted)) else UNNAMED
        if any(part.startswith(".") for part in shown.parts):
            return HIDDEN
        return None if path.suffix.lower() == ".xml" else _kind_of(path)


def bytes_at(arguments: list[Path], most: int) -> int:
    """About how many bytes the files have that the arguments name, no further than `most`."""
    whole = 0
    for argument in arguments:
        files = _files_in(os.fspath(argument), ()) if argument.is_dir() else iter([((), False)])
        for parts, _ in files:
            try:
                whole += os.stat(os.path.join(argument, *parts)).st_size
            except OSError:
                continue
            if whole >= most:
                return most
    return whole


def _kind_of(path: Path) -> str | None:
    """What a file's first bytes say that it is; None for an XML document."""
    try:
        with path.open("rb") as file:
            text = _decoded(file.read(SOME_BYTES))
            if _OPEN.match(_behind_prolog(text)):
                file.seek(0)
                text = _decoded(file.read(MORE_BYTES))
    except OSError:
        return NOT_XML
    rest = _behind_prolog(text)
    if "\0" in text or not rest.startswith(("<", "%")):
        return NOT_XML
    if _HTML.match(rest):
        return HTML
    if _START.match(rest):
        return None
    return DECLARATIONS if _DECLARATIONS.match(rest) else NOT_XML


def _decoded(data: bytes) -> str:
    """The first characters of a file, as far as markup is concerned."""
    if data.startswith((b"\xff\xfe", b"\xfe\xff")):
        return data.decode("utf-16", errors="replace")
    return data.removeprefix(b"\xef\xbb\xbf").decode("utf-8", errors="replace")


def _behind_prolog(text: str) -> str:
    """What stands behind white space, comments and processing instructions."""
    told = _PROLOG.match(text)
    return text[told.end() :] if told else text


def _files_in(folder: str, parts: tuple[str, ...]) -> Iterator[tuple[tuple[str, ...], bool]]:
    """The files in a folder and those in it, each as the parts of its path from there, and whether it is a link."""
    try:
        entries = list(os.scandir(folder))
    except OSError:
        return
    for entry in entries:
        if entry.is_dir(follow_symlinks=False):
            yield from _files_in(entry.path, (*parts, entry.name))
        elif entry.is_file():
            yield (*parts, entry.name), entry.is_symlink()


def _leads_inside(path: Path, folder: Path) -> bool:
    return path.resolve().is_relative_to(folder.resolve())


def _counted(count: int, reason: str) -> str:
    return f"1 {_OF_ONE[reason]}" if count == 1 else f"{count:,} {reason}"


def _listed(endings: Counter[str]) -> str:
    """The commonest endings with their numbers."""
    named = [f"{ending} {count:,}" for ending, count in endings.most_common(4)]
    return ", ".join([*named, "others"] if len(endings) > 4 else named)
