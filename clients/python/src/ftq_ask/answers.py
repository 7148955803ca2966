"""Answers and faults as text, JSON, CSV, XML and paths."""

from __future__ import annotations

import csv
import difflib
import json
from dataclasses import dataclass
from typing import Any, Callable, Iterable

from rich.cells import cell_len
from rich.console import Console
from rich.text import Text

from ftq_client import Element, QueryFault, Refusal, name_word

from . import pages
from .collection import Collection
from .elements import Elements
from .locating import FileLines, Located
from .marking import Marking, hint_of
from .mistakes import FAULTS, Advice, Fault, advice_for
from .showing import Piece, Words, pieces_of, shortened, stretches


Adviser = Callable[[str, Fault, Callable[[str], "Fault | None"]], "Advice | None"]


@dataclass(frozen=True)
class Manner:
    """How much of the text of an element is shown: all of it, or a stretch round the first mark, with one round each further mark or without; or in the
    place of these so many lines of its file before and after the first mark."""

    whole: bool = False
    every_mark: bool = False
    context: int | None = None

    def rows(self, located: Located, words: Words) -> list[list[Piece]]:
        """The stretches of its text that are shown, the first one at the front."""
        if self.whole and located.text:
            return [pieces_of(located.text, words.hits_in([located.text])[0])]
        return stretches(located.shown, words) if self.every_mark else [shortened(located.shown, words)]


def spans_of(row: list[Piece]) -> list[list[int]]:
    """Where the marked words of a stretch begin and end, in characters."""
    spans, at = [], 0
    for it in row:
        if it.asked:
            spans.append([at, at + len(it.text)])
        at += len(it.text)
    return spans


def shown_attributes(located: Located, width: int = 160) -> str:
    """An element's attributes, for one without a text of its own."""
    text = " ".join(f'@{name}="{value}"' for name, value in located.attributes)
    return text if len(text) <= width else f"{text[:width]} …"


def row_of(located: Located, words: Words, manner: Manner) -> dict[str, Any]:
    """What an answer for programs has of an element."""
    first, *further = manner.rows(located, words)
    row: dict[str, Any] = {
        "document": located.element.document,
        "file": str(located.path) if located.path else None,
        "line": located.line,
        "path": located.element.line,
        "text": "".join(it.text for it in first),
        "marks": spans_of(first),
        "marked_line": located.first_mark(words)[0],
    }
    if manner.every_mark:
        row["further"] = [{"text": "".join(it.text for it in stretch), "marks": spans_of(stretch)} for stretch in further]
    return row


def flat(row: dict[str, Any]) -> dict[str, Any]:
    """The same for a line of CSV: each mark as `BEGIN-END`."""
    return {**row, "marks": " ".join(f"{first}-{end}" for first, end in row["marks"])}


class Output:
    """The answers to questions on standard output or another console. Where there are many, each is told apart: as text by a line with its
    question, in CSV by a column, in JSON by an array."""

    def __init__(
        self, collection: Collection, form: str, count: bool, manner: Manner, many: bool, console: Console | None = None, offset: int = 0
    ) -> None:
        """In this form, or the number alone, with texts in this manner; on that console, or on standard output. So many elements of each answer are left
        out at its front."""
        self.collection = collection
        self.console = console or Console(highlight=False)
        self.out = self.console.file
        self.form = "count" if count else form
        self.manner = manner
        self.many = many
        self.offset = offset
        self._files = FileLines()
        self._rows: csv.DictWriter[str] | None = None
        self._objects: list[dict[str, Any]] = []
        self._has_page = False

    def write(self, path: str, count: int, shown: Elements, told: list[str], marking: Marking) -> None:
        """Writes an answer: how many elements a question has found, those that are shown, and the hints."""
        if self.many and self.form in ("text", "paths"):
            self.out.write(f"==> {path} <==\n")
        if self.form == "count":
            self.out.write(f"{count} {path}\n" if self.many else f"{count}\n")
        elif self.form == "json":
            results = self._found(shown, marking)
            self._objects.append({"query": path, "count": count, "results": results, "hints": [*told, *hint_of(marking, self.collection)]})
        elif self.form == "csv":
            self._csv(path, shown, marking)
        elif self.form == "xml":
            self._page()
            hints = [*told, *hint_of(marking, self.collection)]
            self.out.writelines(pages.answer(path, counted(count), (self._page_element(it, marking) for it in shown), self.offset + 1, hints))
        elif self.form == "paths":
            self.out.writelines(f"{it}\n" for it in shown.lines)
        elif self.form == "vimgrep":
            rows = (vimgrep(self.collection.locator.locate(it), marking.of(it), self._files) for it in shown)
            self.out.writelines(f"{it}\n" for it in rows if it)
        else:
            self.out.flush()
            write_text(self.console, self.collection, shown, marking, self.manner)

    def end(self) -> None:
        """Writes what stands behind all answers."""
        if self.form == "json":
            written: list[Any] = [self._objects] if self.many else self._objects
            for it in written:
                json.dump(it, self.out, ensure_ascii=False, indent=1)
                self.out.write("\n")
        elif self.form == "xml":
            self._page()
            self.out.write(pages.BACK)

    def _page(self) -> None:
        """Begins the page of all answers."""
        if not self._has_page:
            self._has_page = True
            self.out.write(pages.FRONT)

    def _page_element(self, element: Element, marking: Marking) -> str:
        located, words = self.collection.locator.locate(element), marking.of(element)
        rows = self.manner.rows(located, words) if located.shown.strip() else []
        return pages.element(located, located.first_mark(words)[0], rows, shown_attributes(located))

    def _found(self, shown: Elements, marking: Marking) -> list[dict[str, Any]]:
        return [row_of(self.collection.locator.locate(it), marking.of(it), self.manner) for it in shown]

    def _csv(self, path: str, shown: Elements, marking: Marking) -> None:
        """A line of names, then one for each element."""
        if self._rows is None:
            names = ["document", "file", "line", "path", "text", "marks", "marked_line"]
            self._rows = csv.DictWriter(self.out, ["query", *names] if self.many else names, extrasaction="ignore", lineterminator="\n")
            self._rows.writeheader()
        self._rows.writerows({"query": path, **flat(it)} for it in self._found(shown, marking))


def vimgrep(located: Located, words: Words, files: FileLines) -> str:
    """An element as editors read the answers of grep: `FILE:LINE:COLUMN:` and that line of the file, at its first mark. Columns count bytes, from 1.
    Nothing where it isn't known where it stands."""
    line, word = located.first_mark(words)
    if located.path is None or line is None:
        return ""
    text = files.line(located.path, line)
    column = len(text.partition(word)[0].encode("utf-8")) + 1 if word and word in text else 1
    return f"{located.path}:{line}:{column}:{text}"


def write_text(console: Console, collection: Collection, shown: Iterable[Element], marking: Marking, manner: Manner) -> None:
    """For each element its file and line, its path, and below them its text with its marked words."""
    files = FileLines()
    for element in shown:
        write_element(console, collection.locator.locate(element), marking.of(element), manner, files)


def write_element(console: Console, located: Located, words: Words, manner: Manner, files: FileLines, front: Text = Text()) -> None:
    """An element as `write_text` writes it, behind a text in its first line. Where its first mark stands on another line than it begins, that is
    told."""
    line, word = located.first_mark(words)
    behind = f"  line {line}" if line != located.line else ""
    say(console, Text.assemble(front, (located.place, "cyan"), "  ", (located.element.line, "dim"), (behind, "cyan")))
    if located.note:
        say(console, Text(f"    ({located.note})", "yellow"))
    if manner.context is not None and located.path is not None and line is not None:
        write_lines(console, files.round(located.path, line, manner.context), line, word)
        return
    for row in manner.rows(located, words) if located.shown.strip() else ():
        write_pieces(console, row)
    if not located.shown.strip() and located.attributes:
        say(console, Text(f"    {shown_attributes(located)}", "dim"))


def write_lines(console: Console, lines: Iterable[tuple[int, str]], here: int, word: str) -> None:
    """Lines of a file with their numbers, a colon behind that of one of them, in which a word is marked, and a hyphen behind the others."""
    for number, text in lines:
        before, found, behind = text.partition(word) if word and number == here else (text, "", "")
        say(console, Text.assemble((f"    {number}{':' if number == here else '-'} ", "cyan"), before, (found, "bold green"), behind))


def write_pieces(console: Console, row: Iterable[Piece]) -> None:
    """A stretch of text with its marked words."""
    say(console, Text.assemble("    ", *((it.text, "bold green") if it.asked else it.text for it in row)))


def counted(count: int) -> str:
    """How many elements were found, in words."""
    return "1 element" if count == 1 else f"{count:,} elements"


def say(console: Console, text: Text | str) -> None:
    """Writes a text as it is: neither cut into lines nor read as markup."""
    console.print(text, soft_wrap=True, markup=False, highlight=False)


def say_hints(console: Console, told: Iterable[str]) -> None:
    """Writes hints, one in a line."""
    for it in told:
        say(console, Text(f"hint: {it}", "yellow"))


_FRONT = "collection()/*[. contains text "


def advice_for_selection(selection: str, fault: Fault, fault_of: Callable[[str], Fault | None]) -> Advice | None:
    """What to write instead of a selection by itself: it is looked at in a path, of which it has to stay the only part that changes."""
    kind, column = fault
    advice = advice_for(f"{_FRONT}{selection}]", (kind, column + len(_FRONT)), fault_of)
    if advice is None or advice.write is None:
        return advice
    inside = advice.write.removeprefix(_FRONT).removesuffix("]")
    return Advice(advice.why, inside) if advice.write == f"{_FRONT}{inside}]" else None


def say_refusal(console: Console, path: str, refusal: Refusal, collection: Collection, prefix: str = "", advise: Adviser = advice_for) -> None:
    """Writes what a refusal says. A fault of a path shows the path, a caret under its place, and what to write instead: a path in which the
    program finds no fault. `advise` says what that is; of a selection by itself it is `advice_for_selection`."""
    if isinstance(refusal, QueryFault):
        column = refusal.column(path)
        say(console, Text(f"{prefix}{refusal.kind}: {FAULTS.get(refusal.kind, refusal.reply)}", "red"))
        say(console, f"    {path}")
        say(console, Text("    " + " " * cell_len(path[:column]) + "^", "red"))
        advice = advise(path, (refusal.kind, column), collection.fault_of)
        if advice:
            say(console, Text(f"    {advice.why}" + ("; write:" if advice.write else ""), "yellow"))
            if advice.write:
                say(console, Text(f"    {advice.write}", "green"))
    elif refusal.number == 1 and not path.strip():
        say(console, Text(f'{prefix}the question is empty: a question is a path, such as collection()//p[. contains text "storm"]', "red"))
    else:
        say(console, Text(prefix + in_words(refusal, collection.sources), "red"))


_WORDS: dict[int, Callable[[Refusal], str]] = {
    1: lambda it: "this is no command of the language",
    2: lambda it: "a name has 1 to 64 characters, none of them a control character; it stands between quotes where one isn't a letter, a digit, ., _ or -",
    3: lambda it: f"there is one called {it.name}: drop it first (a mark by unmark, a watch by unwatch), or take another name",
    4: lambda it: f"no document, no mark and no watch is called {it.name}",
    8: lambda it: f"there is no document {it.name}",
    15: lambda it: (
        "why an element is found is shown where the last predicate of the path's last step is . contains text alone, which ignores nothing, without "
        "occurs under a filter and without ftnot or occurs inside ftnot"
    ),
    9: lambda it: f"there is no list {it.name}: load it with stop {name_word(it.name)} or thesaurus {name_word(it.name)}, or by --stop",
}


def in_words(refusal: Refusal, documents: Iterable[str] = ()) -> str:
    """What a refusal says, in words of a user; of a document that isn't there also which there are."""
    say_it = _WORDS.get(refusal.number)
    said = say_it(refusal) if say_it else refusal.reply.removeprefix("! ").lstrip("0123456789 ")
    return said + _others(refusal.name, list(documents)) if refusal.number == 8 and refusal.name is not None else said


SOME = 3
"""How many documents are named in the place of one that isn't there."""


def _others(name: str, documents: list[str]) -> str:
    """Which documents there are: those whose names are alike, in whichever folder and with whichever ending, or else the first ones."""
    last = name.rpartition("/")[2]
    alike = [it for it in documents if it.rpartition("/")[2] in (last, f"{last}.xml") or it.rpartition("/")[2].rpartition(".")[0] == last]
    alike = (alike + difflib.get_close_matches(name, [it for it in documents if it not in alike], n=SOME, cutoff=0.75))[:SOME]
    if alike:
        return f"; close to it there is {', '.join(alike)}"
    further = len(documents) - SOME
    return f"; there is {', '.join(documents[:SOME])}" + (f" and {further:,} more" if further > 0 else "") if documents else "; there is none"
