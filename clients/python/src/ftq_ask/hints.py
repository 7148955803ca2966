"""Hints beside an answer: where a question was read, and is likely meant otherwise."""

from __future__ import annotations

import difflib
import html
import re
from typing import Callable, Iterator

from .paths import AskedText, Named, asked_texts, is_said, names_in, quoted, symbols, without_strings
from .reading import Vocabulary
from .words import words_of

_AXES = {
    "child": "/NAME leads to the children",
    "descendant": "//NAME leads to all elements below",
    "descendant-or-self": "//NAME leads to all elements below",
    "self": "say the name in the step itself",
    "attribute": "[@NAME] asks for an attribute",
    "ancestor": "there is no way upwards; ask for the outer element: //OUTER[.//INNER contains text ..]",
    "ancestor-or-self": "there is no way upwards; ask for the outer element: //OUTER[.//INNER contains text ..]",
    "parent": "there is no way upwards; ask for the outer element: //OUTER[INNER contains text ..]",
    "following-sibling": "there is no way sideways; ask for the parent that has both",
    "preceding-sibling": "there is no way sideways; ask for the parent that has both",
    "following": "there is no way sideways",
    "preceding": "there is no way sideways",
    "namespace": "declarations of prefixes are attributes here: [@xmlns:NAME]",
}


IsRead = Callable[[str], bool]
"""Tells whether the program reads a path."""


def hints(path: str, found: int, vocabulary: Vocabulary, has_stems: bool, is_read: IsRead, lacks_words: bool = False) -> list[str]:
    """What is likely meant otherwise in a path that was answered with so many elements; `lacks_words` tells that no document has one of its
    words, so that asking for them elsewhere in the element finds nothing either. What is said to be written is read by the program before."""
    of_nothing = [] if found else _of_nothing(path, vocabulary, is_read, lacks_words)
    return [*_of_names(path, vocabulary), *_of_strings(path, found, is_read), *_of_stems(path, has_stems), *_of_ignored(path, is_read), *of_nothing]


def _selects(selection: str) -> str:
    """A path that asks for a selection."""
    return f"collection()/*[. contains text {selection}]"


def _of_names(path: str, vocabulary: Vocabulary) -> Iterator[str]:
    for named in names_in(path):
        axis, _, rest = named.name.partition("::")
        if rest and axis in _AXES:
            yield f"{named.name} is read as the name of an element; {_AXES[axis].replace('NAME', rest).replace('INNER', 'p').replace('OUTER', rest)}"
            continue
        if named.name == "not" and re.match(r"not\s+contains\b", path[named.start :]):
            yield "not is read as the name of an element; not( .. ) turns what stands in it: not(. contains text ..)"
            continue
        known, others = vocabulary.elements, vocabulary.attributes
        if named.kind == "attribute":
            known, others = others, known
        if known and named.name not in known:
            asked = f"elements: [{named.name}]" if named.kind == "attribute" else f"attributes: [@{named.name}]"
            yield f"no document has an {named.kind} {named.name}" + (f"; there are such {asked}" if named.name in others else _instead(named, known))


def _instead(named: Named, known: dict[str, int]) -> str:
    """What may be meant: the same name with another prefix, or one that looks alike."""
    local = named.name.rpartition(":")[2]
    prefixed = sorted(it for it in known if it.rpartition(":")[2] == local)
    if prefixed:
        return f"; with {'another' if ':' in named.name else 'its'} prefix: {', '.join(prefixed[:5])}"
    alike = difflib.get_close_matches(named.name, known, n=3, cutoff=0.7)
    alike += [it for it in known if it.casefold() == named.name.casefold() and it not in alike]
    return f"; did you mean {' or '.join(alike[:3])}?" if alike else ""


def _of_strings(path: str, found: int, is_read: IsRead) -> Iterator[str]:
    for it in asked_texts(path):
        text, plain = it.value, unescaped(it.value)
        dotted = quoted(re.sub(r"(?<=\w)\?(?=\w)", ".", re.sub(r"(?<!\.)\*", ".*", text)))
        pattern = f"{dotted} using wildcards"
        if not it.has_patterns and looks_like_pattern(text, found):
            wanted = f": {pattern}" if is_read(_selects(pattern)) else " using wildcards, and is none as this is written"
            yield f"{quoted(text)} is read as plain words; a pattern wants{wanted}"
        if it.has_patterns and re.search(r"(?<!\.)\*", text):
            yield "a star stands for itself in a pattern; any characters are .*" + (f": {dotted}" if is_read(_selects(pattern)) else "")
        if not any(words_of(text)) and not it.has_patterns:
            yield f"{quoted(text)} has no word, and a string without a word finds nothing"
        if plain != text:
            wanted = f"; write {quoted(plain)} for {quoted(text)}" if is_read(_selects(quoted(plain))) else ""
            yield f"a string is no XML, and has no references to characters{wanted}"


def looks_like_pattern(text: str, found: int) -> bool:
    """Whether a string is likely meant as a pattern; a question mark in a word is one where nothing was found."""
    return bool(re.search(r"\w\.[*+?{]|^\.[*+?{]|\w\*|\*\w", text) or (not found and re.search(r"\w\?\w", text)))


def unescaped(text: str) -> str:
    """A text with characters in the place of the references that XML and HTML know."""
    return re.sub(r"&(?:#[0-9]+|#[xX][0-9A-Fa-f]+|\w+);", lambda told: html.unescape(told[0]), text)


def _of_stems(path: str, has_stems: bool) -> Iterator[str]:
    if is_said(path, "using", "stemming") and not has_stems:
        yield "there are no stems, so that each word is its own; --stem LANGUAGE makes them of the collection's words"
    if is_said(path, "using", "language"):
        yield "using language changes nothing; --stem LANGUAGE and --stop LANGUAGE bring a language's lists"


_NAME = r"[\w:][\w:.-]*"
_IGNORED = r"\bwithout\s+content\s+"
_JOINED = re.compile(rf"{_IGNORED}([^\[\]]*?)\s+(or|and)\s+((?:\.//?)?{_NAME})\s*(?=\])")
_ELSEWHERE = re.compile(rf"(?:[\[(]|\band\b|\bor\b)\s*({_NAME})\s+contains\s+text\s[^\[\]]*?{_IGNORED}({_NAME})(?![\w:/])")


def _of_ignored(path: str, is_read: IsRead) -> Iterator[str]:
    """Where something is ignored: other paths of it joined as conditions are, or named as if they began elsewhere; or all of it."""
    bare = without_strings(path)
    for told in _JOINED.finditer(bare):
        also = "are found too" if told[2] == "or" else "alone are found"
        divided = f"without content {told[1]} | {told[3]}"
        if is_read(f"{path[: told.start()]}{divided}{path[told.end() :]}"):
            yield f"{told[2]} joins predicates: elements with {told[3]} {also}; what is ignored is divided by |: {divided}"
    for told in _ELSEWHERE.finditer(bare):
        inside, name = told[1], told[2]
        if inside != name and is_read(f"{path[: told.start(2)]}{inside}/{name}{path[told.end(2) :]}"):
            yield f"what is ignored is named from the element before the bracket on, not from {inside}: without content {inside}/{name}, or .//{name}"
    if re.search(rf"{_IGNORED}(?:[^\[\]]*\|)?\s*\.\s*(?:[|\])]|\b(?:and|or)\b)", bare):
        yield "without content . ignores all that is searched"


def _of_nothing(path: str, vocabulary: Vocabulary, is_read: IsRead, lacks_words: bool) -> Iterator[str]:
    """Where nothing was found: a first step that no root has, and a phrase of several words."""
    row = symbols(path)
    first = next((number for number, it in enumerate(row) if it.text in ("/", "//")), None)
    if first is not None and first + 1 < len(row) and row[first].text == "/":
        name = row[first + 1].text
        if name in vocabulary.elements and name not in vocabulary.roots:
            yield f"no document's root is {name}; //{name} finds it at any depth"
    if is_said(path, "all", "words") or is_said(path, "any", "word"):
        return
    for it in asked_texts(path):
        if len(list(words_of(it.value))) > 1 and unescaped(it.value) == it.value and (it.has_patterns or not looks_like_pattern(it.value, 0)):
            told = _of_phrase(it.value, is_read) or ("" if lacks_words else _of_words(it, is_read))
            if told:
                yield told
                return


def _of_words(text: AskedText, is_read: IsRead) -> str:
    """That the words of a string are asked for beside each other, and what asks for them elsewhere too."""
    anywhere = f"{quoted(text.value)} all words" + "".join(f" using {it}" for it in text.options)
    told = f"the words of {quoted(text.value)} are asked for beside each other"
    return f"{told}; {anywhere} asks for them anywhere" if is_read(_selects(anywhere)) else told


_SIGNS = {"ftor": r"\s*\|+\s*|\s+(?:OR|Or)\s+", "ftand": r"\s*&&\s*|\s+(?:AND|And|\+)\s+", "ftand ftnot": r"\s+(?:AND\s+)?NOT\s+"}
"""What other languages write in strings, by the word that stands between strings here."""


def meant_parts(text: str) -> list[str]:
    """What a string likely asks for: references as the characters for which they stand, and what signs of other languages join apart."""
    plain = unescaped(text)
    return next((parts for _, parts in _divided(plain)), [plain])


def _divided(text: str) -> Iterator[tuple[str, list[str]]]:
    """The parts of a string that has signs of other languages between words, each way behind the word that stands between strings here."""
    for word, signs in _SIGNS.items():
        parts = re.split(signs, text)
        if len(parts) > 1 and all(any(words_of(it)) for it in parts):
            yield word, parts


def _of_phrase(text: str, is_read: IsRead) -> str:
    """What may be meant by a string of several words that isn't found, where it has what parts strings in other languages; or else nothing."""
    for word, parts in _divided(text):
        written = "(" + f" {word} ".join(map(quoted, parts)) + ")"
        if is_read(_selects(written)):
            return f"{quoted(text)} is one phrase, with all its words beside each other; write {written}"
    return ""
