"""The symbols of a path, and what can be told from them without reading it as the program does."""

from __future__ import annotations

import re
from dataclasses import dataclass
from typing import Iterator

_FIRST = (
    ":_A-Za-z\u00c0-\u00d6\u00d8-\u00f6\u00f8-\u02ff\u0370-\u037d\u037f-\u1fff\u200c\u200d\u2070-\u218f\u2c00-\u2fef"
    "\u3001-\ud7ff\uf900-\ufdcf\ufdf0-\ufffd\U00010000-\U000effff"
)
_FURTHER = _FIRST + "\\-.0-9\u00b7\u0300-\u036f\u203f\u2040"
_SYMBOL = re.compile(
    rf"(?P<blank>\s+)|(?P<string>\"(?:[^\"]|\"\")*\"|'(?:[^']|'')*')|(?P<open>[\"'].*)|(?P<name>[{_FIRST}][{_FURTHER}]*)"
    r"|(?P<number>[0-9]+)|(?P<mark>//|[/\[\](){},@=.*|])|(?P<other>.)",
    re.DOTALL,
)
_CLOSER = {"(": ")", "[": "]", "{": "}"}


@dataclass(frozen=True)
class Symbol:
    """A symbol: its kind (`string`, `open` for a string without an end, `name`, `number`, `mark`, `other`), text and place."""

    kind: str
    text: str
    start: int

    @property
    def value(self) -> str:
        """What a string says."""
        quote = self.text[0]
        return self.text[1:-1].replace(quote * 2, quote) if self.kind == "string" else self.text


def symbols(path: str) -> list[Symbol]:
    """The symbols of a text, blanks left out."""
    return [Symbol(it.lastgroup or "other", it[0], it.start()) for it in _SYMBOL.finditer(path) if it.lastgroup != "blank"]


def missing_end(path: str) -> str:
    """What a text lacks to its end: the quote of an open string and the brackets that are open. `ended` puts it there."""
    ends = []
    quote = ""
    for symbol in symbols(path):
        if symbol.kind == "open":
            quote = symbol.text[0]
        elif symbol.text in _CLOSER:
            ends.append(_CLOSER[symbol.text])
        elif ends and symbol.text == ends[-1]:
            ends.pop()
    return quote + "".join(reversed(ends))


def closes_nothing(path: str, column: int) -> bool:
    """Whether at that column of a text a bracket stands that closes none which is open."""
    open_ones: list[str] = []
    for symbol in symbols(path):
        if symbol.text in _CLOSER:
            open_ones.append(_CLOSER[symbol.text])
        elif symbol.text in _CLOSER.values():
            if not open_ones or open_ones[-1] != symbol.text:
                return symbol.start == column
            open_ones.pop()
    return False


def ended(path: str) -> str:
    """A text with what it lacks to its end. Where a string is open that ends in brackets, these are taken for those of the path."""
    missing = missing_end(path)
    if missing[:1] in "\"'" and missing:
        bare = path.rstrip(")] ")
        closed = bare + missing[0] + path[len(bare) :]
        if len(path[len(bare) :].strip()) == len(missing) - 1 and not missing_end(closed):
            return closed
    return path + missing


def path_in(line: str) -> str:
    """The path or the selection of a command, from whose first character the place of a fault is counted."""
    words = re.findall(r"[^ \t]+", line)
    before = 3 if words[:2] == ["query", "at"] else 2 if words[:1] in (["insert"], ["watch"]) else 1
    told = re.match(rf"[ \t]*(?:(?:\"(?:[^\"]|\"\")*\"|[^ \t]+)[ \t]+){{{before}}}(.*)", line, re.DOTALL)
    return told[1] if told else ""


STRING = r"(?:\"(?:[^\"]|\"\")*\"|'(?:[^']|'')*')"
"""A string of a path, as a pattern."""

DOCUMENTS = re.compile(rf"\s*(?:collection\s*\(\s*\)|doc\s*\(\s*{STRING}\s*\))")
"""What a path begins with."""


@dataclass(frozen=True)
class AskedText:
    """A string that a path looks for in texts: what it says, whether it has to be there for something to be found, and which options hold for it."""

    value: str
    needed: bool
    options: tuple[str, ...]

    @property
    def has_patterns(self) -> bool:
        """Whether its parts with a period or a backslash are patterns."""
        return "wildcards" in self.options


def asked_strings(path: str) -> list[str]:
    """The strings that a path looks for in texts: not those of attributes, of names, of stop words and of languages."""
    row = symbols(path)
    return [row[it].value for it in _asked_places(row)]


def asked_texts(path: str) -> list[AskedText]:
    """The same strings, with what else the path says of each."""
    row = symbols(path)
    unneeded = _unneeded_places(row)
    return [AskedText(row[it].value, it not in unneeded and not _may_be_absent(row, it), _options_at(row, it)) for it in _asked_places(row)]


def asked_values(path: str) -> list[tuple[str, str]]:
    """The attributes with the values that a path asks for, where these have to be there."""
    row = symbols(path)
    unneeded = _unneeded_places(row)
    values = (it for it in range(3, len(row)) if row[it].kind == "string" and [row[it - 3].text, row[it - 1].text] == ["@", "="])
    return [(row[it - 2].text, row[it].value) for it in values if it not in unneeded]


def _unneeded_places(row: list[Symbol]) -> set[int]:
    """The places of the strings of a path that nothing has to have: behind ftnot, not in and not, and in what is ignored."""
    found: set[int] = set()
    levels = [(False, False)]
    turned = in_value = False
    for number, symbol in enumerate(row):
        before, behind = row[number - 1].text if number else "", row[number + 1].text if number + 1 < len(row) else ""
        negated, ignoring = levels[-1]
        if symbol.kind == "string":
            if turned or negated or ignoring:
                found.add(number)
            turned = turned and in_value
        elif symbol.text == "ftnot" or (symbol.text == "not" and behind in ("in", "(")):
            turned = True
        elif symbol.text in ("{", "}"):
            in_value = symbol.text == "{"
            turned = turned and in_value
        elif symbol.text in ("(", "["):
            levels.append((turned or negated or ignoring, False))
            turned = False
        elif symbol.text in (")", "]") and len(levels) > 1:
            levels.pop()
        elif symbol.text in ("and", "or") or [before, symbol.text] == ["without", "content"]:
            levels[-1] = negated, symbol.text == "content"
    return found


_VALUE = frozenset({",", "}", "any", "all", "word", "words", "phrase"})
"""What stands behind a string and belongs to its value, beside other strings."""

_GROUPS = {
    "case sensitive": "case",
    "case insensitive": "case",
    "lowercase": "case",
    "uppercase": "case",
    "diacritics sensitive": "diacritics",
    "diacritics insensitive": "diacritics",
    "stemming": "stemming",
    "no stemming": "stemming",
    "wildcards": "wildcards",
    "no wildcards": "wildcards",
}
"""The options that say which words are the same, each with its group: of one group that counts which stands nearest."""

_USUAL = frozenset({"case insensitive", "diacritics insensitive", "no stemming", "no wildcards"})
_GOING_ON = frozenset({"ftand", "ftor", "not", "window", "distance", "ordered", "same", "different", "entire", "start", "end"})
"""Behind which of a selection's words no option belongs to what stands before."""


def _behind_value(row: list[Symbol], number: int) -> int:
    """The place behind the value in which a string stands."""
    at = number + 1
    while at < len(row) and (row[at].text in _VALUE or (row[at].kind == "string" and row[at - 1].text == ",")):
        at += 1
    return at


def _may_be_absent(row: list[Symbol], number: int) -> bool:
    """Whether a string is asked for so that it may stand there no time."""
    at = _behind_value(row, number)
    times = [it.text for it in row[at : at + 3]]
    return times[:1] == ["occurs"] and times[1:] in (["at", "most"], ["exactly", "0"], ["from", "0"])


def _options_at(row: list[Symbol], number: int) -> tuple[str, ...]:
    """The options that hold for a string: those directly behind its value, then those behind each parenthesis that closes round it."""
    told: dict[str, str] = {}
    directly, depth = True, 0
    for at in range(_behind_value(row, number), len(row)):
        text = row[at].text
        if text in ("(", "["):
            depth += 1
        elif text in (")", "]") and depth:
            depth -= 1
        elif depth:
            continue
        elif text in ("]", "without", "and", "or"):
            break
        elif text == ")":
            directly = True
        elif text == "using" and directly:
            for option in (" ".join(it.text for it in row[at + 1 : at + 1 + length]) for length in (1, 2)):
                if option in _GROUPS:
                    told.setdefault(_GROUPS[option], option)
        elif text in _GOING_ON:
            directly = False
    return tuple(sorted(it for it in told.values() if it not in _USUAL))


def _asked_places(row: list[Symbol]) -> Iterator[int]:
    """The places of those strings among the symbols of a path."""
    inside, stop_words = False, False
    for number, symbol in enumerate(row):
        before = [it.text for it in row[max(0, number - 2) : number]]
        if before == ["contains", "text"]:
            inside = True
        stop_words = (before[-2:] == ["words", "("] or stop_words) and symbol.text != ")"
        names_something = bool(before) and before[-1] in ("=", "at", "relationship", "language")
        if symbol.kind == "string" and inside and not stop_words and not names_something:
            yield number


def last_test(path: str) -> str:
    """The predicate at the end of a path, where it begins as one that asks for text does, and ignores nothing; else nothing."""
    row = symbols(path)
    brackets = [number for number, it in enumerate(row) if it.text in ("[", "]")]
    begun = brackets[-2] if len(brackets) > 1 and row[brackets[-2]].text == "[" and brackets[-1] == len(row) - 1 else None
    if begun is None or [it.text for it in row[begun + 1 : begun + 4]] != [".", "contains", "text"] or ignores(path[row[begun].start :]):
        return ""
    return path[row[begun].start :].rstrip()


def quoted(text: str) -> str:
    """A text as a string of a path."""
    return f"'{text}'" if '"' in text and "'" not in text else '"' + text.replace('"', '""') + '"'


_APOSTROPHE = re.compile(r"(?<=\w)['’](?=\w)")


def with_apostrophes(path: str) -> str:
    """A path in which each string with an apostrophe between letters, be it the typed or the printed one, is a choice of it and of the same with the
    other one. A string that stands among others in braces, or whose words are asked for all together, stays as it is: there a choice would ask for
    something else."""
    row = symbols(path)
    parts, at = [], 0
    for number in _asked_places(row):
        symbol = row[number]
        before, behind = row[number - 1].text, row[number + 1].text if number + 1 < len(row) else ""
        others = [it for it in (_APOSTROPHE.sub("’", symbol.value), _APOSTROPHE.sub("'", symbol.value)) if it != symbol.value]
        if others and before not in ("{", ",") and behind not in ("all", "phrase"):
            parts += [path[at : symbol.start], "{" + ", ".join([symbol.text, *map(quoted, others)]) + "}"]
            at = symbol.start + len(symbol.text)
    return "".join([*parts, path[at:]])


@dataclass(frozen=True)
class Named:
    """A name in a path: of an element or of an attribute, with its place."""

    kind: str
    name: str
    start: int


_BEFORE_NAME = frozenset({"/", "//", "[", "(", "and", "or", "|"})


def names_in(path: str) -> Iterator[Named]:
    """The names of elements and attributes that a path asks for, where its symbols leave no doubt."""
    row = symbols(path)
    inside = False
    for number, symbol in enumerate(row):
        before = row[number - 1].text if number else ""
        after = row[number + 1].text if number + 1 < len(row) else ""
        if [before, symbol.text] == ["contains", "text"]:
            inside = True
        elif symbol.text == "]" or (inside and symbol.text in ("and", "or")):
            inside = False
        begins_ignored = [it.text for it in row[max(0, number - 2) : number]] == ["without", "content"]
        inside = inside and not begins_ignored
        if symbol.kind != "name" or inside:
            continue
        if before == "@":
            yield Named("attribute", symbol.text, symbol.start)
        elif (before in _BEFORE_NAME or begins_ignored) and after != "(":
            yield Named("element", symbol.text, symbol.start)


def ignores(path: str) -> bool:
    """Whether a path, or a part of one, ignores some elements inside those that it searches."""
    return is_said(path, "without", "content")


def is_said(path: str, *words: str) -> bool:
    """Whether these symbols stand beside each other in a path, outside strings."""
    row = [it.text for it in symbols(path)]
    return any(row[number : number + len(words)] == list(words) for number in range(len(row)))


def without_strings(path: str) -> str:
    """A path with signs that mean nothing in the place of what its strings say."""
    for it in symbols(path):
        if it.kind in ("string", "open"):
            path = path[: it.start] + '"' * len(it.text) + path[it.start + len(it.text) :]
    return path
