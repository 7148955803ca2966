"""What can stand next in a command that is being typed."""

from __future__ import annotations

import re
from typing import Callable, Iterable, Iterator

from prompt_toolkit.completion import CompleteEvent, Completer, Completion
from prompt_toolkit.document import Document

from .collection import Collection
from .paths import STRING, missing_end

ASKING = ["help", "quit", "more", "files", "names"]
"""The words of the prompt itself."""

LANGUAGE = [
    *["query", "print", "show", "load", "drop", "stop", "stems", "thesaurus", "abbreviations", "explain", "stats", "mark", "unmark"],
    *["watch", "changes", "unwatch", "insert", "replace", "delete"],
]
"""The first words of the language's commands."""

OPTIONS = [
    "case sensitive",
    "case insensitive",
    "lowercase",
    "uppercase",
    "diacritics sensitive",
    "diacritics insensitive",
    "wildcards",
    "stemming",
    'stop words at "',
    'stop words ("',
    'thesaurus at "',
    "no stop words",
    "no stemming",
    "no wildcards",
]
BEHIND_A_STRING = ["ftand ", "ftor ", "ftand ftnot ", "using ", "occurs ", "any word", "all words", "all", "phrase", "without content "]
TIMES = ["exactly ", "at least ", "at most ", "from "]
BEHIND_TIMES = ["ftand ", "ftor ", "ftand ftnot ", "window ", "same sentence", "same paragraph", "using ", "without content "]
BEHIND_A_FILTER = ["ftand ", "ftor ", "window ", "ordered", "same sentence", "same paragraph", "without content ", "and ", "or "]
UNITS = ["words", "sentences", "paragraphs"]

_NAME = r"[\w:.-]*"


class PathCompleter(Completer):
    """Completes commands, keywords, and the names of the collection's elements, attributes and documents."""

    def __init__(self, collection: Collection) -> None:
        known = collection.vocabulary
        self._rules: list[tuple[re.Pattern[str], Callable[[], Iterable[str]]]] = [
            (re.compile(rf"@({_NAME})$"), lambda: sorted(known.attributes)),
            (re.compile(r"(?:^|\s)doc\s*\(\s*[\"']([^\"']*)$"), lambda: [it.replace('"', '""') for it in collection.sources]),
            (re.compile(r"\busing\s+([\w ]*)$"), lambda: OPTIONS),
            (re.compile(r"\boccurs\s+(?:exactly|at\s+least|at\s+most|from\s+[0-9]+\s+to)\s+[0-9]+\s+(\w*)$"), lambda: ["times "]),
            (re.compile(r"\boccurs\s+[^\"'\[\]]*\stimes\s+([a-z ]*)$"), lambda: BEHIND_TIMES),
            (re.compile(r"\bwindow\s+[0-9]+\s+(\w*)$"), lambda: UNITS),
            (re.compile(r"\boccurs\s+([\w ]*)$"), lambda: TIMES),
            (re.compile(r"\bcontains\s+(\w*)$"), lambda: ["text "]),
            (re.compile(r"\bwithout\s+(\w*)$"), lambda: ["content "]),
            (re.compile(r"(?:\bwithout\s+content\s|\|)\s*(\.?[\w:-]*)$"), lambda: [*sorted(known.elements), ".//"]),
            (re.compile(r"\bwithout\s+content\s[^\[\]]*[\w*]\s+(\w*)$"), lambda: ["| ", "and ", "or "]),
            (re.compile(r"\bcontains\s+text\s[^\[\]]*(?:words?|sentences?|paragraphs?|ordered|at\s+(?:start|end))\s+(\w*)$"), lambda: BEHIND_A_FILTER),
            (re.compile(r"[\"'}]\s+(\w*)$"), lambda: BEHIND_A_STRING),
            (re.compile(rf"/({_NAME})$"), lambda: [*sorted(known.elements), "*"]),
            (re.compile(r"\[\s*(\.?[\w:-]*)$"), lambda: [". contains text ", ".//", *sorted(known.elements), "@", "not("]),
            (re.compile(r"\b(?:and|or)\s+(\.?[\w:-]*)$"), lambda: [". contains text ", *sorted(known.elements), "@", "not("]),
            (re.compile(r"[\].\w]\s+(\w*)$"), lambda: ["contains text ", "and ", "or "]),
        ]

    def get_completions(self, document: Document, complete_event: CompleteEvent) -> Iterator[Completion]:
        """The words that go on from the text before the cursor."""
        text = document.text_before_cursor
        first = re.fullmatch(r"\s*(\w*)", text)
        if first:
            yield from self._from(first[1], [*(f"{it} " for it in LANGUAGE), *ASKING, "collection()", 'doc("'])
            return
        if re.fullmatch(rf"\s*(?:query|print|show|delete|replace|watch\s+(?:{STRING}|\S+))\s+({_NAME})", text):
            yield from self._from(text.split()[-1] if text[-1] not in " \t" else "", ["collection()", 'doc("'])
            return
        inside_string = missing_end(text)[:1] in ("'", '"')
        for pattern, words in self._rules:
            told = pattern.search(text)
            if told and (not inside_string or "doc" in pattern.pattern):
                yield from self._from(told[1], words())
                return

    @staticmethod
    def _from(begun: str, words: Iterable[str]) -> Iterator[Completion]:
        for word in words:
            if word.casefold().startswith(begun.casefold()) and word != begun:
                yield Completion(word, start_position=-len(begun))
