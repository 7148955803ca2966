"""The prompt: commands that are typed, one after the other."""

from __future__ import annotations

import os
import re
import shlex
import subprocess
import sys
from pathlib import Path
from typing import Iterator

from prompt_toolkit import PromptSession
from prompt_toolkit.history import FileHistory
from prompt_toolkit.key_binding import KeyBindings, KeyPressEvent
from rich.console import Console
from rich.text import Text

from ftq_client import LATEST_FORMAT, ClientError, Found, ProgramEnded, Refusal, Said, TimedOut
from ftq_client.blocks import BLOCK_WORDS

from . import answers
from .collection import Collection
from .elements import Elements
from .completing import ASKING, LANGUAGE, PathCompleter
from .marking import Marking, hint_of
from .missing import all_hints
from .mistakes import advice_for
from .paths import missing_end, path_in
from .showing import Marked, pieces_of

SHOWN = 10
"""How many elements are shown at a time."""

HELP = """\
A question is a path; query may stand before it:

    collection()//p[. contains text "storm"]           elements named p with the word
    collection()//p[. contains text "heavy storm"]     a phrase
    doc("NAME")//chapter[title contains text "sea" ftand ftnot "storm"]
    collection()//p[. contains text "regist.*" using wildcards]
    collection()//p[. contains text "heavy storm" without content note | .//fn]
    print PATH                                         the elements as XML
    show PATH                                          their words, with those marked by which they are found

more                    the next elements of the last answer
open N                  the file of its N-th element in your editor (VISUAL or EDITOR), at the line of the first mark
files                   the documents with their files
names                   the names of elements and attributes, and in how many documents they are
load NAME, stop NAME, stems, thesaurus NAME, abbreviations
                        lines follow, up to one that is a single period
drop NAME               takes a document out
watch NAME PATH         keeps a question; changes NAME tells what came (+) and went (-) since, unwatch NAME gives it up
quit                    ends (also Ctrl-D)

Open brackets and strings go on in the next line; an empty line ends them. Tab completes. docs/QUERIES.md has the whole language."""


def is_whole(text: str) -> bool:
    """Whether what was typed is a whole command: no bracket, string or block is open, or an empty line ends it all the same."""
    lines = text.split("\n")
    if first_word(text) in BLOCK_WORDS[LATEST_FORMAT]:
        return lines[-1].strip() == "."
    return not missing_end(text) or (len(lines) > 1 and not lines[-1].strip())


def first_word(text: str) -> str:
    """The first word of what was typed."""
    return (text.split() or [""])[0]


class Conversation:
    """What is asked and answered, and the answer of which `more` shows more."""

    def __init__(self, collection: Collection, out: Console) -> None:
        self.collection = collection
        self.out = out
        self._marking = Marking("", collection)
        self._found = self._rest = Elements([])

    def do(self, typed: str) -> bool:
        """Does what was typed; False where it ends the conversation."""
        text = typed.strip()
        word = first_word(text)
        rest = text[len(word) :].strip()
        if not text:
            return True
        if text in ("quit", "exit", "q"):
            return False
        if word == "open" and rest.isdecimal():
            self._open(int(rest))
        elif text in ASKING or word == "help":
            {"help": self._help, "more": self._more, "files": self._files, "names": self._names}[word]()
        elif word in BLOCK_WORDS[LATEST_FORMAT]:
            self._block(text)
        elif word == "print":
            self._printed(_one_line(rest))
        elif word == "show":
            self._shown(_one_line(rest))
        elif word == "query":
            self._asked_of(_one_line(text))
        elif word in LANGUAGE:
            self._command(_one_line(text), None)
        else:
            self._asked_of(f"query {_one_line(text)}")
        return True

    def _asked_of(self, line: str) -> None:
        """Answers `query PATH` and `query at MARK PATH`."""
        path = path_in(line)
        try:
            found = self.collection.found(line, path)
        except Refusal as refusal:
            answers.say_refusal(self.out, path, refusal, self.collection)
            return
        answers.say(self.out, Text(answers.counted(len(found)), "bold"))
        self._marking, self._found, self._rest = Marking(path, self.collection), found, found
        self._more()
        self._hints(path, len(found))
        answers.say_hints(self.out, hint_of(self._marking, self.collection))

    def _shown(self, path: str) -> None:
        try:
            shown = self.collection.shown(path)
        except Refusal as refusal:
            answers.say_refusal(self.out, path, refusal, self.collection)
            return
        answers.say(self.out, Text(answers.counted(len(shown)), "bold"))
        for it in shown:
            answers.say(self.out, Text(self.collection.locator.locate(it.element).place, "cyan"))
            answers.write_pieces(self.out, pieces_of(" ".join(it.words), Marked(it).hits_in([" ".join(it.words)])[0]))
        self._hints(path, len(shown))

    def _printed(self, path: str) -> None:
        try:
            found = self.collection.query(path)
            printed = self.collection.printed(path)
        except Refusal as refusal:
            answers.say_refusal(self.out, path, refusal, self.collection)
            return
        answers.say(self.out, Text(answers.counted(len(found)), "bold"))
        for element, xml in zip(found, printed):
            answers.say(self.out, Text(self.collection.locator.locate(element).place, "cyan"))
            answers.say(self.out, f"    {xml}")
        self._hints(path, len(found))

    def _hints(self, path: str, found: int) -> None:
        answers.say_hints(self.out, all_hints(path, found, self.collection))

    def _command(self, line: str, block: bytes | None) -> None:
        try:
            reply = self.collection.command(line, block)
        except Refusal as refusal:
            advise = answers.advice_for_selection if first_word(line) == "explain" else advice_for
            answers.say_refusal(self.out, path_in(line), refusal, self.collection, advise=advise)
            return
        except ValueError as error:
            answers.say(self.out, Text(str(error), "red"))
            return
        if isinstance(reply, Found):
            for it in reply.lines or ("nothing came or went",):
                answers.say(self.out, it)
        else:
            answers.say(self.out, reply.text if isinstance(reply, Said) else "ok")

    def _block(self, text: str) -> None:
        """A command with a block: its first line, then the block's up to the period."""
        line, *further = text.split("\n")
        self._command(line.strip(), "\n".join(further[:-1]).encode("utf-8"))

    def _help(self) -> None:
        answers.say(self.out, HELP)

    def _more(self) -> None:
        shown, self._rest = self._rest[:SHOWN], self._rest[SHOWN:]
        answers.write_text(self.out, self.collection, shown, self._marking, answers.Manner())
        if self._rest:
            answers.say(self.out, Text(f"{len(self._rest):,} further: more", "dim"))

    def _open(self, number: int) -> None:
        """Opens the file of an element of the last answer in the user's editor, which is told the line as most are."""
        if not 0 < number <= len(self._found):
            answers.say(self.out, Text(f"the last answer has {answers.counted(len(self._found))}", "red"))
            return
        element = self._found[number - 1]
        located = self.collection.locator.locate(element)
        if located.path is None:
            answers.say(self.out, Text(located.note, "red"))
            return
        editor = shlex.split(os.environ.get("VISUAL") or os.environ.get("EDITOR") or "vi")
        line, _ = located.first_mark(self._marking.of(element))
        self.out.file.flush()
        try:
            subprocess.run([*editor, f"+{line or 1}", os.fspath(located.path)])
        except OSError as error:
            answers.say(self.out, Text(f"{editor[0]} can't be started: {error.strerror}; VISUAL and EDITOR name another editor", "red"))

    def _files(self) -> None:
        for name, source in self.collection.sources.items():
            answers.say(self.out, f"{name}  {source.path}")

    def _names(self) -> None:
        known = self.collection.vocabulary
        for kind, names in (("elements", known.elements), ("attributes", known.attributes)):
            rows = sorted(names.items(), key=lambda it: (-it[1], it[0]))
            answers.say(self.out, Text(f"{kind}: ", "bold").append(", ".join(f"{name} {count}" for name, count in rows), ""))


def _one_line(text: str) -> str:
    return re.sub(r"\s*\n\s*", " ", text).strip()


def converse(collection: Collection, errors: Console) -> int:
    """Reads commands until the end, from a terminal with history and completion, otherwise line by line."""
    out = Console(highlight=False)
    conversation = Conversation(collection, out)
    typed = _typed_at_terminal(collection) if sys.stdin.isatty() and out.is_terminal else _typed_in_pipe()
    for text in typed:
        try:
            if not conversation.do(text):
                break
        except KeyboardInterrupt:
            answers.say(errors, "interrupted; the program is started again for the next question")
        except (ProgramEnded, TimedOut) as ended:
            answers.say(errors, f"{ended}; it is started again for the next question")
        except ClientError as error:
            answers.say(errors, str(error))
    return 0


def _typed_in_pipe() -> Iterator[str]:
    """Whole commands from lines of standard input."""
    open_lines: list[str] = []
    for line in sys.stdin:
        open_lines.append(line.rstrip("\n"))
        text = "\n".join(open_lines)
        if is_whole(text):
            yield text
            open_lines = []
    if open_lines:
        yield "\n".join(open_lines)


def _typed_at_terminal(collection: Collection) -> Iterator[str]:
    """Whole commands from a terminal."""
    session: PromptSession[str] = PromptSession(
        "ask> ",
        multiline=True,
        prompt_continuation="...> ",
        history=FileHistory(os.fspath(_history_file())),
        completer=PathCompleter(collection),
        complete_while_typing=False,
        key_bindings=_keys(),
    )
    while True:
        try:
            yield session.prompt()
        except KeyboardInterrupt:
            continue
        except EOFError:
            return


def _keys() -> KeyBindings:
    """Enter takes a whole command, and goes on in a new line otherwise."""
    keys = KeyBindings()

    @keys.add("enter")
    def _(event: KeyPressEvent) -> None:
        buffer = event.current_buffer
        if is_whole(buffer.text):
            buffer.validate_and_handle()
        else:
            buffer.insert_text("\n")

    return keys


def _history_file() -> Path:
    """Where the typed commands are kept from one time to the next."""
    folder = Path(os.environ.get("XDG_STATE_HOME") or Path.home() / ".local" / "state") / "ftq"
    folder.mkdir(parents=True, exist_ok=True)
    return folder / "history"
