"""A collection: files, loaded into one program or several, and the questions to it."""

from __future__ import annotations

from dataclasses import dataclass, replace
from pathlib import Path
from typing import Any, Callable, Iterator

from ftq_client import (
    LATEST_FORMAT,
    BadCommand,
    BadLine,
    ClientError,
    DocumentFault,
    Full,
    Names,
    NothingToShow,
    QueryFault,
    Refusal,
    Reply,
    SessionFull,
    Shown,
    command_words,
)

from .abbreviating import Abbreviations
from .choosing import PART, Choice
from .elements import Elements
from .engines import Loading
from .lists import NoList, Stems, stop_words, usual_stem
from .locating import Locator, Source
from .mistakes import Fault
from .paths import DOCUMENTS, is_said, path_in, quoted, symbols, with_apostrophes
from .loading import Reader
from .reading import Reading, Rules, Vocabulary, names_of, names_of_nodes, read_file, read_tree, without_empty_lines
from .shares import Shares, divided, in_turn
from .spellings import Spellings
from .trees import Untaken

NOWHERE = 'doc("")'
"""The beginning of a path into a document that can't be there, since no document has that name."""

EDITS = ("insert", "replace", "delete")
"""The first words of the commands that change documents."""


@dataclass(frozen=True)
class Planned:
    """A file that is to be loaded: its path as it is shown, its path, its document's name, its share, whether it was named itself, and how many
    bytes it has, which is told where there are several shares."""

    shown: Path
    path: Path
    name: str
    share: int
    named: bool
    size: int = 0


class Collection:
    """Files in an engine, with all that is known of them beside it."""

    def __init__(self, engine: Any, stems: Stems | None = None, choice: Choice | None = None, rules: Rules = Rules()) -> None:
        self.engine = engine
        self.choice = choice or Choice([])
        self.as_typed = False
        """Whether questions are asked as they are typed."""
        self.told_of_apostrophes = False
        """Whether it was said that they aren't."""
        self.told_of_marks = False
        """Whether it was said that words are marked by guess."""
        self._shows: dict[str, bool] = {}
        """Of predicates at the ends of paths whether the program shows by which words they are met."""
        self.seconds: float | None = None
        """How long each question may take; None for as long as it does."""
        self.edition = 0
        """How often the documents have changed with their files since they were loaded."""
        self.rules = rules
        self.stems = stems
        self.has_stems = False
        self.sources: dict[str, Source] = {}
        self.vocabulary = Vocabulary()
        self.untaken: list[Untaken] = []
        self.bytes = 0
        self.reader = Reader(rules)
        self.locator = Locator(self.sources, rules)
        self.spellings = Spellings(self._texts, stems.stem_of if stems else usual_stem())
        self.session_format: int = getattr(engine, "session_format", LATEST_FORMAT)
        """The format of the sessions with the program, which says how documents are named."""
        self._names = Names(self.session_format)
        self._by_bare_names: dict[str, str] = {}
        """The names of documents by those that they have in sessions of format 1, where these are others."""
        self._reading: dict[str, Reading] = {}
        self.known: dict[Path, Reading | Untaken] = {}
        """What came of each file that was read, without its bytes."""
        self._parts: set[Path] = set()

    def plan(self, arguments: list[Path]) -> list[Planned]:
        """The files that the arguments name, each with a name and a share; what gives none is noted as not taken."""
        found, named = [], set(arguments)
        for shown, path in self.choice.files_of(arguments):
            if isinstance(path, Untaken):
                self.untaken.append(path)
            else:
                found.append((shown, path))
        count = self.engine.count if isinstance(self.engine, Shares) else 1
        sizes = [path.stat().st_size if count > 1 and path.exists() else 0 for _, path in found]
        shares = divided(sizes, count)
        planned = [
            Planned(shown, path, self._names.name_for(shown), share, path in named, size) for (shown, path), share, size in zip(found, shares, sizes)
        ]
        if self.session_format > 1:
            bare = Names()
            self._by_bare_names = {bare.name_for(it.shown): it.name for it in planned}
        return planned

    def load(self, planned: list[Planned], step: Callable[[Path], None]) -> None:
        """Reads and loads files; `step` is told of each. What isn't taken is noted with the reason, and the rest goes on."""
        if isinstance(self.engine, Shares):
            order = in_turn([it.size for it in planned], [it.share for it in planned])
            self.engine.load_all(self._read_all([planned[it] for it in order], step), self._done)
            self._put_in_order(planned)
        elif isinstance(self.engine, Loading):
            self.engine.load_all(self._read_all(planned, step), self._done)
        else:
            for _, name, content in self._read_all(planned, step):
                fault = None
                try:
                    self.engine.load(name, content)
                except (DocumentFault, Full, SessionFull) as error:
                    fault = error
                self._done(name, fault)
        self._leave_parts(planned)

    def _put_in_order(self, planned: list[Planned]) -> None:
        """Puts what is known of documents that were loaded into several shares into their order."""
        sources = {it.name: self.sources.pop(it.name) for it in planned if it.name in self.sources}
        for source in sources.values():
            self.vocabulary.remove(source.vocabulary)
        for name, source in sources.items():
            self.sources[name] = source
            self.vocabulary.add(source.vocabulary)
        places = {it.path: number for number, it in enumerate(planned)}
        self.untaken.sort(key=lambda it: places.get(it.named, -1))

    def _leave_parts(self, planned: list[Planned]) -> None:
        """Takes out the files of folders that stand in others as wholes, and so are read with them: those that were loaded, and those that can't
        be taken by themselves. A file that was named itself stays."""
        for it in planned if self._parts else []:
            if it.named or it.path.resolve() not in self._parts:
                continue
            self.untaken = [other for other in self.untaken if other.path != it.path]
            if it.name in self.sources:
                self.engine.drop(it.name)
                self._forget(it.name)
            self.choice.pass_over(it.path, PART)

    def _forget(self, name: str) -> None:
        """A document is no longer there."""
        source = self.sources.pop(name, None)
        if source:
            self.vocabulary.remove(source.vocabulary)
            self.bytes -= source.size

    def renew(self, new: "Collection") -> None:
        """Its documents are from now on those that this one tells of."""
        for name in ("choice", "_names", "_by_bare_names", "untaken", "known", "sources", "vocabulary", "bytes"):
            setattr(self, name, getattr(new, name))
        self.locator = Locator(self.sources, self.rules)
        self.spellings = self.spellings.again()
        self.edition += 1

    def send_stems(self) -> None:
        """Gives the stems to the program, less those lines that it doesn't take for a word and its stem."""
        if not self.stems:
            return
        lines = self.stems.lines().split(b"\n")
        while True:
            try:
                self.engine.stems(b"\n".join(lines))
                break
            except BadLine as error:
                del lines[(error.line or 1) - 1]
        self.has_stems = True

    def send_abbreviations(self, lists: Abbreviations) -> None:
        """Gives abbreviations to the program; `NoList` where a line of theirs isn't one word. Before documents are loaded it costs the least."""
        try:
            self.engine.abbreviations(lists.lines)
        except BadLine as bad:
            raise NoList(f"{lists.place(bad.line or 1)}: a list of abbreviations has one word in each line") from bad

    def send_stop_list(self, language: str) -> None:
        """Gives the stop list of a language to the program, under the language's name."""
        self.engine.stop(language, stop_words(language))

    def query(self, path: str) -> Elements:
        """The elements that a path selects."""
        return self.found(f"query {path}", path)

    def lines(self, path: str) -> list[str]:
        """The lines of the elements that a path selects, where there are many and few of them are looked at."""
        return self._lines("query ", path)

    def found(self, line: str, path: str) -> Elements:
        """The elements that a command with this path at its end finds, be it of now or of a mark."""
        return Elements(self._lines(line.removesuffix(path), path))

    def printed(self, path: str) -> list[str]:
        """The elements that a path selects, as XML."""
        lines = self._lines("print ", path)
        return [without_empty_lines(it) for it in lines] if self.rules.blocks else lines

    def shown(self, path: str) -> list[Shown]:
        """The elements that a path selects, with their words and the marked ones of these."""
        lines = self._lines("show ", path)
        return [Shown.read(line, words) for line, words in zip(lines[::2], lines[1::2])]

    def can_show(self, test: str) -> bool:
        """Whether the program shows by which words a predicate at the end of a path is met. It is asked of elements that can't be there. With no
        predicate, whether it shows anything."""
        if test not in self._shows:
            try:
                self._shows[test] = self.shown(f"collection()/*[0]{test}") == []
            except NothingToShow:
                self._shows[test] = not test
            except BadCommand:
                self._shows[test] = False
            except (ClientError, ValueError):
                return False
        return self._shows[test]

    def sent(self, path: str) -> str:
        """A path as the program is asked for it: each apostrophe is looked for as the other one too."""
        return path if self.as_typed else with_apostrophes(path)

    def named(self, name: str) -> str:
        """The name of a document that is named as it is, or as sessions of format 1 do."""
        return name if name in self.sources else self._by_bare_names.get(name, name)

    def _of_file(self, path: str) -> str:
        """A path that names a document as sessions of format 1 do, with the name that it has; another path as it is."""
        front = DOCUMENTS.match(path) if self._by_bare_names and not self.as_typed else None
        written = next((it.value for it in symbols(front[0]) if it.kind == "string"), "") if front else ""
        name = self.named(written)
        return path if front is None or name == written else f"doc({quoted(name)}){path[front.end() :]}"

    def _lines(self, front: str, path: str) -> list[str]:
        """The lines of the reply to a command with this path at its end."""
        return list(self.reply_to(front, path).lines)

    def reply_to(self, front: str, path: str) -> Any:
        """The reply to a command with this path at its end. The stems of the words that it asks for are sent before, where they are new. A path
        that is only faulty as it is sent is asked for as it is typed."""
        sent = self.sent(path)
        if self.stems and is_said(path, "using", "stemming") and self.stems.add_asked(sent):
            self.send_stems()
        for asked in dict.fromkeys((self._of_file(sent), self._of_file(path))):
            if asked != path:
                try:
                    return self.engine.command(front + asked)
                except QueryFault:
                    pass
        return self.engine.command(front + path)

    def fault_of(self, path: str) -> Fault | None:
        """The fault that the program finds in a path, if there is one. It is asked of a document that can't be there, so that nothing is
        looked for."""
        front = DOCUMENTS.match(path)
        if front is None:
            return self._fault(f"query {path}", path)
        fault = self._fault(f"query {NOWHERE}{path[front.end() :]}", f"{NOWHERE}{path[front.end() :]}")
        return fault and (fault[0], max(0, fault[1] - len(NOWHERE) + front.end()))

    def fault_of_selection(self, selection: str) -> Fault | None:
        """The fault that the program finds in a selection, if there is one."""
        return self._fault(f"explain {selection}", selection)

    def _fault(self, line: str, path: str) -> Fault | None:
        try:
            self.engine.command(line)
        except QueryFault as fault:
            return fault.kind, fault.column(path)
        except Refusal as refusal:
            return None if refusal.number in (8, 9) else (refusal.kind, 0)
        except ValueError:
            return "syntax", 0
        return None

    def command(self, line: str, block: bytes | None) -> Reply:
        """The reply to any command. What is known of the documents is kept up with what it loads, drops and edits."""
        kind, *names = command_words(line, self.session_format)
        edited = self._documents_of(path_in(line)) if kind in EDITS else set()
        reply = self.engine.command(line, block)
        for name in edited & self.sources.keys():
            self._note_edit(name, names_of_nodes(block) if block else Vocabulary())
        if kind == "load" and block is not None:
            self.vocabulary.add(names_of(block))
        elif kind == "drop":
            self._forget(names[0])
        elif kind == "stems":
            self.has_stems = True
        return reply

    def _note_edit(self, name: str, came: Vocabulary) -> None:
        """A document was edited, by which these names came into it. Those that went with the edit may still be counted as its own."""
        source = self.sources[name]
        new = came.less(source.vocabulary)
        own = Vocabulary(*({**mine} for mine in (source.vocabulary.elements, source.vocabulary.attributes, source.vocabulary.roots)))
        own.add(new)
        self.vocabulary.add(new)
        self.sources[name] = replace(source, edited=True, vocabulary=own)

    def _texts(self) -> Iterator[str]:
        """The texts of the files that were loaded, as they are now."""
        for source in list(self.sources.values()):
            try:
                yield from (str(it) for it in read_tree(source.path, self.rules).root.itertext())
            except Untaken:
                continue

    def _documents_of(self, path: str) -> set[str]:
        """The documents that have elements which a path selects."""
        try:
            return {it.document for it in self.query(path)}
        except Refusal:
            return set()

    def _read_all(self, planned: list[Planned], step: Callable[[Path], None]) -> Iterator[tuple[int, str, bytes]]:
        with self.reader as reader:
            for it, reading in zip(planned, reader.read([it.path for it in planned])):
                if isinstance(reading, Untaken):
                    self.known[it.path] = reading
                    self.untaken.append(reading)
                else:
                    self._reading[it.name] = reading
                    yield it.share, it.name, reading.content
                step(it.shown)

    def _done(self, name: str, fault: Exception | None) -> None:
        """Takes note of a document that was loaded, or of the fault that kept it away."""
        reading = self._reading.pop(name)
        if fault is not None:
            if not isinstance(fault, ClientError):
                raise fault
            self.known[reading.path] = untaken = self.untaken_of(reading, fault)
            self.untaken.append(untaken)
            return
        self.known[reading.path] = replace(reading, content=b"")
        self.sources[name] = Source(reading.path, reading.digest, reading.vocabulary, reading.size)
        self._parts |= reading.parts
        self.vocabulary.add(reading.vocabulary)
        self.bytes += reading.size
        if self.stems:
            self.stems.add(reading.texts())

    def untaken_of(self, reading: Reading, fault: Exception) -> Untaken:
        """Why the program didn't take a document, with the line where that shows, if it does."""
        try:
            if isinstance(fault, DocumentFault):
                read_file(reading.path, self.rules)
        except Untaken as untaken:
            return untaken
        return Untaken(reading.path, None, _reason(fault))


def _reason(fault: Exception) -> str:
    """Why the program didn't take a document, in words of a user."""
    if isinstance(fault, (Full, SessionFull)):
        return f"{fault}; --workers N divides the documents among N programs"
    if isinstance(fault, DocumentFault) and fault.kind == "tokens":
        return "more than 1,000,000 words: divide the file"
    return f"the program refused it: {fault}"
