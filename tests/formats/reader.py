"""A plain reader of sessions of both formats, and an engine of documents that are a word or two, as a second opinion on what the program reads.

It is written from docs/SESSIONS.md by itself, and shares nothing with the client, which it tests too. A session is read from a stream, command by command, so
that it can stand at the end of a pipe. Called with the name of a session it answers it, as the program does: see `Engine` for what it knows.
"""

import collections
import io
import re
import sys
import unicodedata

from grammar import PATHS, syntax_fault

MOST_LINE = 65_536
MOST_BLOCK = 67_108_864
MARK = b"\xef\xbb\xbf"
BLOCK_WORDS = {b"load", b"insert", b"replace", b"stop", b"stems", b"thesaurus"}
SIZED_BLOCK_WORDS = BLOCK_WORDS | {b"abbreviations"}
LENGTH = re.compile(rb"0|[1-9][0-9]*")
BARE = re.compile(r"[A-Za-z0-9._-]{1,64}")

# A command that was read: its line in the session, its word and what stands behind it, and its block; or the refusal that its form meets.
Command = collections.namedtuple("Command", "line word rest block refusal")


class Stream:
    """The bytes of a session, and how many lines of them were read."""

    def __init__(self, file):
        self.file = file
        self.begun = False
        self.kept = b""
        self.lines = 0

    def line(self):
        """The next line with its line feed, if it has one; no bytes at the end."""
        kept, self.kept = self.kept, b""
        text = kept if kept.endswith(b"\n") else kept + self.file.readline()
        self.lines += text.endswith(b"\n")
        return text

    def take(self, count):
        """The next bytes, so many of them as there are."""
        parts = []
        while count:
            part = self.file.read(count)
            if not part:
                break
            parts.append(part)
            count -= len(part)
        taken = b"".join(parts)
        self.lines += taken.count(b"\n")
        return taken


def blanks_off(line):
    """A line without its line feed, one carriage return before that, and blanks at both ends."""
    return line.removesuffix(b"\n").removesuffix(b"\r").strip(b" \t")


def words_of(text):
    """The words of a line."""
    return [it for it in re.split(rb"[ \t]+", text) if it]


def behind(text, count):
    """What stands behind so many words of a line."""
    for _ in range(count):
        text = re.sub(rb"^[^ \t]*[ \t]*", b"", text)
    return text


def is_readable(line):
    """Whether a line is UTF-8 and no longer than a command may be."""
    if len(line.removesuffix(b"\n").removesuffix(b"\r")) > MOST_LINE:
        return False
    try:
        line.decode("utf-8")
    except UnicodeDecodeError:
        return False
    return True


def commands(file):
    """The commands of a session, one after the other."""
    stream = Stream(file)
    first = stream.line()
    text = first.removeprefix(MARK)
    two = text.removesuffix(b"\n").removesuffix(b"\r") == b"session 2"
    if not two:
        stream.kept, stream.lines = text, 0
    while True:
        number = stream.lines + 1
        line = stream.line()
        if not line:
            return
        text = blanks_off(line)
        if text and not text.startswith(b"#"):
            yield (_of_format_2 if two else _of_format_1)(stream, number, line, text)


def _of_format_1(stream, number, line, text):
    """The command of a line, whose block goes up to a line that is a period."""
    word, block, open_ = words_of(text)[0], None, False
    if word in BLOCK_WORDS:
        lines, open_ = [], True
        while open_:
            part = stream.line()
            if not part:
                break
            inner = part.removesuffix(b"\n")
            if inner.removesuffix(b"\r") == b".":
                open_ = False
            else:
                lines.append(inner.removeprefix(b"."))
        block = b"\n".join(lines)
    if open_ or not is_readable(line):
        return Command(number, None, None, None, "bad command")
    return _formed(number, word.decode(), behind(text, 1).decode(), block, False)


def _of_format_2(stream, number, line, text):
    """The command of a line, whose block is as long as its second word says."""
    row = words_of(text)
    bad = Command(number, None, None, None, "bad command")
    if not is_readable(line):
        return bad
    if row[0] not in SIZED_BLOCK_WORDS:
        return _formed(number, row[0].decode(), behind(text, 1).decode(), None, True)
    if len(row) < 2 or not LENGTH.fullmatch(row[1]) or int(row[1]) > MOST_BLOCK:
        return bad
    # A line that the session's end ends has no bytes behind it, so that nothing is left for a block of some length.
    block = stream.take(int(row[1]))
    if len(block) < int(row[1]):
        return bad
    if line.endswith(b"\n") and stream.line().removesuffix(b"\n") not in (b"", b"\r"):
        return bad
    return _formed(number, row[0].decode(), behind(text, 2).decode(), block, True)


def _formed(number, word, rest, block, two):
    """A command whose words are looked at: what stands in the place of a name, a path, a selection, or of nothing."""
    bad = Command(number, None, None, None, "bad command")
    if word in ("stats", "stems") or two and word == "abbreviations":
        return Command(number, word, "", block, None) if not rest else bad
    if word == "query" and re.match(r"at(?:[ \t]|$)", rest):
        name, rest = _name(rest[2:].lstrip(" \t"), two)
        if name is None or not rest:
            return bad
        return _named(number, "query at", name, block, rest)
    if word in ("query", "print", "explain", "delete", "replace") or two and word == "show":
        return Command(number, word, rest, block, None) if rest else bad
    if word == "insert":
        told = re.fullmatch(r"(first|last|before|after)[ \t]+(.+)", rest, re.DOTALL)
        return Command(number, f"insert {told[1]}", told[2], block, None) if told else bad
    if two and word == "watch":
        name, rest = _name(rest, two)
        return bad if name is None or not rest else _named(number, word, name, block, rest)
    if word in ("load", "drop", "stop", "thesaurus", "mark", "unmark") or two and word in ("changes", "unwatch"):
        name, rest = _name(rest, two)
        return bad if name is None or rest else _named(number, word, name, block, "")
    return bad


def _name(text, two):
    """The name at the front of a text, with whether it may be one, and what stands behind it; None where there is none."""
    if two and text.startswith('"'):
        told = re.match(r'"((?:[^"]|"")*)"(?:[ \t]+|\Z)', text)
        if not told:
            return None, ""
        name = told[1].replace('""', '"')
        return (name, 1 <= len(name) <= 64 and not re.search(r"[\x00-\x1f\x7f]", name)), text[told.end() :]
    word = re.match(r"[^ \t]*", text)[0]
    return ((word, bool(BARE.fullmatch(word))), text[len(word) :].lstrip(" \t")) if word else (None, "")


def _named(number, word, name, block, path):
    if not name[1]:
        return Command(number, None, None, None, "bad name")
    return Command(number, word, (name[0], path) if path else name[0], block, None)


WORD = re.compile(r"[^\W_]+(?:\.[^\W_]+)*")


def key(word):
    """What is the same in two words that are found for one another."""
    return "".join(it for it in unicodedata.normalize("NFD", word) if unicodedata.category(it) != "Mn").casefold()


def marked(text, phrase):
    """The words of a text, those in brackets where a phrase stands first; None where it doesn't stand there."""
    words, wanted = WORD.findall(text), [key(it) for it in WORD.findall(phrase)]
    for first in range(len(words)):
        places = range(first, first + len(wanted))
        if wanted and [key(it) for it in words[first : first + len(wanted)]] == wanted:
            return " ".join(f"[{word}]" if place in places else word for place, word in enumerate(words))
    return None


def bad_line(block):
    """The number of the first line of a list that hasn't just one word; None where each has, or is skipped."""
    for number, line in enumerate(block.split(b"\n"), 1):
        text = blanks_off(line)
        if not text or text.startswith(b"#"):
            continue
        try:
            words = WORD.findall(text.decode("utf-8"))
        except UnicodeDecodeError:
            return number
        if len(words) != 1:
            return number
    return None


class Engine:
    """Answers commands over documents that are one element a: `load`, `drop`, `stop`, `abbreviations`, `stems`, marks, and `query`, `print`, `show`
    and `watch` of `doc("NAME")/a` and of `collection()/a`, or of what is no path; of those of them that have one string too, with paths behind `without
    content` or without. What a block has that isn't such a document is no document; where its fault is, isn't known here. The lines of stems aren't
    looked at."""

    DOCUMENT = re.compile(r"[ \t\r\n]*(?:<a>([^<>&]*)</a>|<a/>)[ \t\r\n]*")
    PATH = "collection()/a"
    ONE = re.compile(r"""doc\((?:"((?:[^"]|"")*)"|'((?:[^']|'')*)')\)/a(?:\[1\])?""")
    WITH_STRING = re.compile(r'(.*)\[\. contains text "([^"]*)"( without content .*)?\]')
    GRAMMAR = PATHS
    UNKNOWN = "! 6 document: .."
    MOST_WATCHES = 64

    def __init__(self):
        self.documents = {}
        self.marks = {}
        self.watches = {}

    def answer(self, command):
        """The lines of the reply."""
        if command.refusal:
            return [f"! {1 if command.refusal == 'bad command' else 2} {command.refusal} at line {command.line}"]
        word, rest = command.word, command.rest
        if word == "load":
            return [self._load(rest, command.block)]
        if word == "drop":
            return ["ok" if self.documents.pop(rest, None) is not None else f"! 4 no such name: {rest}"]
        if word == "mark":
            if rest in self.marks:
                return [f"! 3 name taken: {rest}"]
            self.marks[rest] = dict(self.documents)
        elif word == "unmark":
            return ["ok" if self.marks.pop(rest, None) is not None else f"! 4 no such name: {rest}"]
        elif word in ("query", "print"):
            return self._found(word, rest, self.documents)
        elif word == "show":
            return self._shown(rest)
        elif word == "query at":
            return self._found("query", rest[1], self.marks[rest[0]]) if rest[0] in self.marks else [f"! 4 no such name: {rest[0]}"]
        elif word == "watch":
            return [self._watch(*rest)]
        elif word == "changes":
            return self._changes(rest)
        elif word == "unwatch":
            return ["ok" if self.watches.pop(rest, None) is not None else f"! 4 no such name: {rest}"]
        elif word in ("stop", "abbreviations"):
            bad = bad_line(command.block)
            return ["ok" if bad is None else f"! 6 list: bad line {bad}"]
        elif word != "stems":
            raise ValueError(f"not known here: {word}")
        return ["ok"]

    def _load(self, name, block):
        if name in self.documents:
            return f"! 3 name taken: {name}"
        try:
            told = self.DOCUMENT.fullmatch(block.decode("utf-8"))
        except UnicodeDecodeError:
            told = None
        if not told:
            return self.UNKNOWN
        self.documents[name] = told[1] or ""
        return "ok"

    def _watch(self, name, path):
        if name in self.watches:
            return f"! 3 name taken: {name}"
        if len(self.watches) == self.MOST_WATCHES:
            return f"! 5 full at {self.MOST_WATCHES} watches"
        first, *lines = self._found("query", path, self.documents)
        if first.startswith("! "):
            return first
        self.watches[name] = path, lines
        return "ok"

    def _changes(self, name):
        if name not in self.watches:
            return [f"! 4 no such name: {name}"]
        path, kept = self.watches[name]
        first, *lines = self._found("query", path, self.documents)
        if first.startswith("! "):
            return [first]
        self.watches[name] = path, lines
        changes = [f"- {line}" for line in kept if line not in lines] + [f"+ {line}" for line in lines if line not in kept]
        return [f"= {len(changes)}", *changes]

    def _shown(self, path):
        told = self.WITH_STRING.fullmatch(path)
        first, *names = self._found("query", path, self.documents)
        if first.startswith("! "):
            return [first]
        if not told or told[3]:
            return ["! 15 nothing to show"]
        documents = {'doc("' + name.replace('"', '""') + '")/a[1]': text for name, text in self.documents.items()}
        return [first, *(line for name in names for line in (name, marked(documents[name], told[2])))]

    def _found(self, word, path, documents):
        fault = syntax_fault(path, self.GRAMMAR)
        if fault is not None:
            return [f"! 7 query: syntax at {fault}"]
        told = self.WITH_STRING.fullmatch(path)
        path = told[1] if told else path
        one = self.ONE.fullmatch(path)
        if one:
            name = one[2].replace("''", "'") if one[1] is None else one[1].replace('""', '"')
            if name not in documents:
                return [f"! 8 no such document: {name}"]
            documents = {name: documents[name]}
        elif path != self.PATH:
            raise ValueError(f"not known here: {path}")
        if told:
            # Of an element without children only a period selects something, which is all of it.
            nothing = re.search(r"content[ \t]*\.[ \t]*(?:$|\|)|\|[ \t]*\.[ \t]*(?:$|\|)", told[3] or "")
            documents = {name: text for name, text in documents.items() if not nothing and marked(text, told[2]) is not None}
        if word == "query":
            lines = ['doc("' + name.replace('"', '""') + '")/a[1]' for name in documents]
        else:
            lines = [f"<a>{text}</a>".replace("\n", "&#10;") if text else "<a/>" for text in documents.values()]
        return [f"= {len(lines)}", *lines]


def answers(session):
    """The output of a session, and the exit status."""
    engine = Engine()
    lines = [line for command in commands(io.BytesIO(session)) for line in engine.answer(command)]
    return "".join(f"{line}\n" for line in lines).encode(), int(any(it.startswith("! ") for it in lines))


def main(words):
    """Answers the session of that name, each command as soon as it is whole."""
    engine, status = Engine(), 0
    with open(words[0], "rb", buffering=0) as raw:
        for command in commands(io.BufferedReader(raw)):
            lines = engine.answer(command)
            status |= lines[0].startswith("! ")
            sys.stdout.buffer.write("".join(f"{line}\n" for line in lines).encode())
            sys.stdout.buffer.flush()
    return int(status)


if __name__ == "__main__":
    sys.exit(main(sys.argv[1:]))
