"""The usual mistakes in a path: how each shows, why it is one, and what to write instead."""

from __future__ import annotations

import re
import time
from dataclasses import dataclass
from functools import cached_property
from typing import Callable, Iterator

from .filters import counted_otherwise
from .paths import STRING, closes_nothing, ended, missing_end, quoted, symbols
from .words import words_of

_NAME = r"[\w:][\w:.-]*"
_OPTION = r"(?:case|diacritics)\s+(?:in)?sensitive|lowercase|uppercase|stemming|wildcards|stop\s+words|thesaurus"
_KEYWORDS = "CONTAINS|TEXT|FTAND|FTOR|FTNOT|USING|OCCURS|TIMES|ANY|ALL|WORDS?|PHRASE|STEMMING|WILDCARDS|COLLECTION|DOC|WITHOUT|CONTENT"
_IGNORED = r"[\w.:/*-]+(?:\[[^\]]*\])?(?:\s*\|\s*[\w.:/*-]+(?:\[[^\]]*\])?)*"
"""Paths behind `without content`, as they mostly are, as a pattern."""

_WORDS = r"[^\W_][\w’'*-]*(?:\s+[^\W_][\w’'*-]*)*"
"""Words that stand there without quotation marks."""
_BEHIND = "ftand|ftor|and|or|using|occurs|window|distance|same|different|ordered|at|entire|without|not"
"""What may stand behind a string."""

Put = str | Callable[[re.Match[str]], str]


@dataclass(frozen=True)
class Mistake:
    """A mistake: the reason, the expression whose pattern shows it, what stands in the pattern's place (None where nothing can), and a path that has
    it."""

    why: str
    expression: str
    put: Put | None
    wrong: str

    @cached_property
    def pattern(self) -> re.Pattern[str]:
        """What shows the mistake. It is made when a path is faulty, and not at each start."""
        return re.compile(self.expression)

    def places(self, path: str) -> list[re.Match[str]]:
        """Where it shows in a path; what a string says is none of it."""
        strings = [(it.start, it.start + len(it.text)) for it in symbols(path) if it.kind == "string"]
        return [told for told in self.pattern.finditer(path) if not any(start < told.start() and told.end() < end for start, end in strings)]

    def write(self, path: str) -> str | None:
        """The path without this mistake."""
        if self.put is None:
            return None
        parts, at = [], 0
        for told in self.places(path):
            parts += [path[at : told.start()], told.expand(self.put) if isinstance(self.put, str) else self.put(told)]
            at = told.end()
        return "".join([*parts, path[at:]])


@dataclass(frozen=True)
class Advice:
    """What is to be said of a mistake: the reason, and the path to write, if there is one."""

    why: str
    write: str | None


def _contains_call(told: re.Match[str]) -> str:
    what = "." if told[1].strip() in ("text()", ".") else told[1].strip()
    return f"{what} contains text {told[2]}"


def _using(told: re.Match[str]) -> str:
    turned = told[0].startswith("without") and re.match(r"stemming|wildcards|stop|thesaurus", told[1])
    return f"using no {told[1]}" if turned else f"using {told[1]}"


def _singular(told: re.Match[str]) -> str:
    return {"wildcard": "using wildcards"}.get(told[1], "using stemming" if told[1].startswith("stem") else "using stop words")


_JOINING = re.compile(r"\s+(AND\s+NOT|and\s+not|NOT|AND|and|OR|or)\s+")


def _bare(told: re.Match[str]) -> str:
    """Words alone, joined as other languages do."""
    first, *further = _JOINING.split(told[1])
    joined = (f" {_joiner(word)} {quoted(text)}" for word, text in zip(further[::2], further[1::2]))
    return f"collection()//*[. contains text {quoted(first)}{''.join(joined)}]"


def _joiner(word: str) -> str:
    return "ftor" if word.lower() == "or" else "ftand" if word.lower() == "and" else "ftand ftnot"


def _near(told: re.Match[str]) -> str:
    """The words of a string with so many others between them at most."""
    return f"{told[1]} all words window {sum(1 for _ in words_of(told[1])) + int(told[2])} words"


def _braced(strings: str, mode: str = "") -> str:
    return "{" + ", ".join(re.findall(STRING, strings)) + "}" + mode


def _mode_first(told: re.Match[str]) -> str:
    """`all` or `any` before a value: behind it; of one string it is its words that are meant."""
    strings = re.findall(STRING, told[2])
    if len(strings) == 1:
        return f"{strings[0]} {'all words' if told[1] == 'all' else 'any word'}"
    return _braced(told[2], f" {told[1]}")


def _times(told: re.Match[str]) -> str:
    """How often, as it is said by `occurs`."""
    if told[1]:
        return f" occurs exactly {1 if told[1] == 'once' else 2} times"
    if told[2]:
        return f" occurs at least {int(told[3]) + 1} times" if told[2] == "more" else f" occurs at most {int(told[3]) - 1} times"
    return f" occurs {told[4]}"


_BOUNDS = {"<": "at most", "<=": "at most", "=": "exactly", ">": "at least", ">=": "at least"}
_LANGUAGES = "danish|dutch|english|finnish|french|german|hungarian|italian|norwegian|portuguese|romanian|russian|spanish|swedish|turkish"

MISTAKES: list[Mistake] = [
    Mistake("strings stand in straight quotation marks", "[“”„‟«»]", '"', "collection()//p[. contains text “storm”]"),
    Mistake(
        "strings stand in straight quotation marks",
        "‘([^‘’]*)’|`([^`]*)`",
        lambda told: quoted(told[1] or told[2] or ""),
        "collection()//p[. contains text ‘storm’]",
    ),
    Mistake(
        "a question is one path, without variables and return",
        r"^\s*(?:for\s+\$\w+\s+in|let\s+\$\w+\s*:=)\s+((?:(?!\bwhere\b).)*?)\s+return\s+.*$",
        r"\1",
        "for $p in collection()//p return $p",
    ),
    Mistake(
        "a path stands without parentheses; a number in brackets counts under each parent by itself",
        r"^\s*\(\s*((?:(?:collection|doc)\b|//?).*?)\s*\)\s*((?:\[[^\]]*\])*)\s*$",
        r"\1\2",
        "(collection()//p)[1]",
    ),
    Mistake("a document is named with doc", r"^\s*(?:fn:doc|(?:fn:)?document|Doc|DOC)(?=\s*\()", "doc", 'document("moby")//p'),
    Mistake("all documents are called collection()", r"^\s*(?:fn:collection|Collection|db:open|db:get)(?=\s*\()", "collection", "Collection()//p"),
    Mistake("a path begins at the documents", rf"^\s*(?=//?\s*(?:{_NAME}|\*))", "collection()", '//p[. contains text "storm"]'),
    Mistake(
        "a path has one step at least; /* leads to the roots",
        rf"^\s*(collection\s*\(\s*\)|doc\s*\(\s*{STRING}\s*\))\s*/*\s*$",
        r"\1/*",
        "collection()",
    ),
    Mistake(
        "a path begins at the documents",
        rf"^\s*(?!collection\b|doc\b)(?=(?:{_NAME}|\*)\s*(?://?\s*[\w*]|\[))",
        "collection()//",
        'p[. contains text "storm"]',
    ),
    Mistake("the parentheses belong to it", r"^\s*collection(?=\s*/)", "collection()", "collection//p"),
    Mistake(
        "there is one collection; a document is named with doc",
        rf"^\s*collection\s*\(\s*({STRING})\s*\)",
        r"doc(\1)",
        'collection("moby")//p',
    ),
    Mistake("a document's name is a string", r"^\s*doc\s*\(\s*([A-Za-z0-9._/-]+)\s*\)", r'doc("\1")', "doc(moby)//p"),
    Mistake("the first line of an answer is its count", r"^\s*count\s*\(\s*(.*)\)\s*$", r"\1", "count(collection()//p)"),
    Mistake(
        "a question is one path, without variables and return",
        rf"^\s*for\s+\$\w+\s+in\s+(.*?)\s+where\s+\$\w+(?:/[\w/]*)?\s+contains\s+text\s+({STRING})\s+return\s+.*$",
        r"\1[. contains text \2]",
        'for $p in collection()//p where $p contains text "storm" return $p',
    ),
    Mistake(
        "a question is one path: ask two",
        rf"\s*[|,]\s*(?:(?:collection\s*\(\s*\)|doc\s*\(\s*{STRING}\s*\)|//?\s*[\w:*]).*|{_NAME}\s*)$",
        "",
        "collection()//p | collection()//title",
    ),
    Mistake("a question is one path: ask two", rf"(//?)\s*\(\s*({_NAME})\s*\|[^()]*\)", r"\1\2", "collection()//(p|title)"),
    Mistake(
        "a path has a step before its brackets; /* leads to the roots",
        rf"^(\s*(?:collection\s*\(\s*\)|doc\s*\(\s*{STRING}\s*\)))\s*(?=\[)",
        r"\1/*",
        'collection()[. contains text "storm"]',
    ),
    Mistake("a step has a name, or * for any", r"(//?)\s*(?=\[)", r"\1*", 'collection()//[. contains text "storm"]'),
    Mistake(
        "what is asked of an element stands in its brackets",
        rf"(?<=[\w\])*])\s+contains\s+text\s+((?:{STRING}|[^\[\]\"'])+?)\s*$",
        r"[. contains text \1]",
        'collection()//p contains text "storm"',
    ),
    Mistake(
        "what is asked of an element stands in its brackets",
        rf"(?<=[\w*])\s*[({{]\s*((?:\.|{_NAME})\s+contains\s+text\s+(?:{STRING}|[^\[\](){{}}\"'])+?)[)}}]\s*$",
        r"[\1]",
        'collection()//p(. contains text "storm")',
    ),
    Mistake("a string stands in brackets after contains text", rf"\[\s*({STRING})\s*\]", r"[. contains text \1]", 'collection()//p["storm"]'),
    Mistake(
        "it is called contains text",
        r"\b(?:contains?\s*(?:the\s+)?texts?|(?:has|includes?|matches)\s+(?:the\s+)?texts?)\b(?=\s*[\"'{(]|\s+ftnot)",
        "contains text",
        'collection()//p[. contain text "storm"]',
    ),
    Mistake(
        "a period stands for the element with all that is in it",
        r"(\[|\band\s+|\bor\s+|\()\s*(?=contains\s+text\b)",
        r"\1. ",
        'collection()//p[contains text "storm"]',
    ),
    Mistake(
        "what doesn't contain a text is not(. contains text ..)",
        rf"(\[|\band\s+|\bor\s+)\s*((?:\.//?)?[\w:*/-]+|\.)\s+(?:not|does\s+not|doesn't)\s+contains?\s+text\s+"
        rf"((?:{STRING}|[^\[\]\"'])+?)(?=\s*(?:\]|\band\b|\bor\b))",
        r"\1not(\2 contains text \3)",
        'collection()//p[. not contains text "storm"]',
    ),
    Mistake(
        "a pattern of a word is asked for using wildcards",
        rf"\bmatches\s*\(\s*(text\(\)|[^,()@]+?)\s*,\s*({STRING})\s*\)",
        lambda told: f"{'.' if told[1] == 'text()' else told[1]} contains text {told[2]} using wildcards",
        'collection()//p[matches(., "sto.*")]',
    ),
    Mistake(
        "a pattern of a word is asked for using wildcards",
        r"(\btext\s+)/([^/\[\]\"']+)/",
        r'\1"\2" using wildcards',
        "collection()//p[. contains text /sto.*/]",
    ),
    Mistake(
        "how often words stand is said by occurs, and there are no other numbers to compare",
        r"\b(?:count|string-length|sum|number)\s*\([^()]*\)\s*(?:[<>]=?|!?=)\s*[0-9]+|\bposition\s*\(\s*\)\s*(?:[<>]=?|!=)\s*[0-9]+"
        rf"|(?<=\[)\s*(?:\.|{_NAME})\s*[<>]=?\s*[0-9]+",
        None,
        "collection()//chapter[count(p) > 1]",
    ),
    Mistake("a place is a number alone", r"\[\s*[0-9]+\s+to\s+[0-9]+\s*\]", None, "collection()//p[1 to 3]"),
    Mistake(
        "there are no functions of texts; capitals, blanks and markup don't count where words are compared",
        rf"\b(?:lower-case|upper-case|normalize-space|string|data|fn:\w+)\s*\(\s*(\.|{_NAME})\s*\)",
        r"\1",
        'collection()//p[lower-case(.) contains text "storm"]',
    ),
    Mistake("it is called contains text", r"\bftcontains\b", "contains text", 'collection()//p[. ftcontains "storm"]'),
    Mistake(
        "contains text stands between the element and the string",
        rf"\bcontains\s*\(\s*(text\(\)|[^,()]+?)\s*,\s*({STRING})\s*\)",
        _contains_call,
        'collection()//p[contains(., "storm")]',
    ),
    Mistake(
        "attributes are compared by = alone",
        rf"\b(?:starts-with|ends-with|matches)\s*\(\s*@{_NAME}\s*,\s*{STRING}\s*\)",
        None,
        'collection()//book[starts-with(@id, "b")]',
    ),
    Mistake(
        "what stands first or last in an element is found at start or at end",
        rf"\b(starts|ends)-with\s*\(\s*(text\(\)|[^,()@]+?)\s*,\s*({STRING})\s*\)",
        lambda told: f"{'.' if told[2] == 'text()' else told[2]} contains text {told[3]} at {told[1][:-1]}",
        'collection()//p[starts-with(., "storm")]',
    ),
    Mistake(
        "contains is followed by text",
        r"\bcontains\s+(?=[\"'{(]|ftnot\b)",
        "contains text ",
        'collection()//p[. contains "storm"]',
    ),
    Mistake(
        "texts are no steps: an element's text is asked for in its brackets",
        r"//?\s*text\s*\(\s*\)(?=\s*(?:[|\]=]|contains\b|$))",
        "",
        "collection()//p/text()",
    ),
    Mistake(
        "a period stands for the element with all that is in it",
        r"\btext\s*\(\s*\)",
        ".",
        'collection()//p[text() contains text "storm"]',
    ),
    Mistake("any element is written *", r"\bnode\s*\(\s*\)", "*", "collection()//p/node()"),
    Mistake(
        "attributes are no steps; an element that has one is asked for in brackets",
        rf"//\s*@({_NAME})",
        r"//*[@\1]",
        "collection()//@id",
    ),
    Mistake(
        "attributes are no steps; an element that has one is asked for in brackets",
        rf"(?<=[\w\])*])/\s*@({_NAME})",
        r"[@\1]",
        "collection()//book/@id",
    ),
    Mistake(
        "the text of attributes isn't searched; their whole value can be asked for",
        rf"@({_NAME})\s+contains\s+text\s+({STRING})",
        r"@\1 = \2",
        'collection()//book[@id contains text "b1"]',
    ),
    Mistake("an attribute stands alone in its brackets", r"\./\s*@", "@", 'collection()//book[./@id = "b1"]'),
    Mistake("an attribute's value is a string", rf"@({_NAME})\s*=\s*([0-9]+)", r'@\1 = "\2"', "collection()//book[@id = 1]"),
    Mistake("an attribute's value is a string", rf"@({_NAME})\s*=\s*([^\W\d][\w.:-]*)", r'@\1 = "\2"', "collection()//book[@id = b1]"),
    Mistake(
        "there is = alone; not( .. ) turns it",
        rf"@({_NAME})\s*!=\s*({STRING}|[0-9]+)",
        r"not(@\1 = \2)",
        'collection()//book[@id != "b1"]',
    ),
    Mistake("it is written =", rf"@({_NAME})\s+eq\s+", r"@\1 = ", 'collection()//book[@id eq "b1"]'),
    Mistake(
        "attributes are compared by = alone",
        rf"@({_NAME})\s*[<>]=?\s*(?:{STRING}|[0-9]+)",
        None,
        'collection()//book[@year > "1900"]',
    ),
    Mistake(
        "an element's text is searched; only attributes are compared by =",
        rf"(?<=\[)\s*({_NAME}|\.)\s*=\s*({STRING})",
        r"\1 contains text \2",
        'collection()//book[title = "Garden Notes"]',
    ),
    Mistake(
        "a place is a number alone",
        r"\[\s*position\s*\(\s*\)\s*=\s*([0-9]+)\s*\]",
        r"[\1]",
        "collection()//p[position() = 2]",
    ),
    Mistake("places are counted from the first alone", r"\blast\s*\(\s*\)", None, "collection()//p[last()]"),
    Mistake(
        "a number stands alone in its brackets",
        r"\[\s*([0-9]+)\s+and\s+([^\]]+)\]",
        r"[\2][\1]",
        "collection()//book[1 and @id]",
    ),
    Mistake(
        "no step leads upwards; say in brackets what stands below",
        rf"//\s*({_NAME})((?:\[[^\]]*\])*)/\s*\.\.",
        r"//*[\1\2]",
        'collection()//p[. contains text "storm"]/..',
    ),
    Mistake(
        "between strings it is ftand",
        r"(?<=[\"'})])\s*(?:&&|&|\bAND\b)\s*(?=[\"'{(]|ftnot)",
        " ftand ",
        'collection()//p[. contains text "storm" && "ship"]',
    ),
    Mistake(
        "between strings it is ftor",
        r"(?<=[\"'})])\s*(?:\|\|?|\bOR\b)\s*(?=[\"'{(]|ftnot)",
        " ftor ",
        'collection()//p[. contains text "storm" || "ship"]',
    ),
    Mistake(
        "between strings it is ftand",
        r"(?<=[\"'})])(\s+)and(\s+)(?=[\"'{])",
        r"\1ftand\2",
        'collection()//p[. contains text "storm" and "ship"]',
    ),
    Mistake(
        "between strings it is ftor",
        r"(?<=[\"'})])(\s+)or(\s+)(?=[\"'{])",
        r"\1ftor\2",
        'collection()//p[. contains text "storm" or "ship"]',
    ),
    Mistake(
        "the strings of one value are divided by commas",
        rf"\{{\s*{STRING}(?:[\s,;|]*{STRING})+\s*\}}",
        lambda told: "{" + ", ".join(re.findall(STRING, told[0])) + "}",
        'collection()//p[. contains text {"storm" "ship"} all]',
    ),
    Mistake(
        "how near strings stand is said behind all of them, which are put together by ftand",
        rf"({STRING})\s+((?:same|different)\s+(?:sentence|paragraph))\s+(?:as\s+|and\s+)?({STRING})",
        r"\1 ftand \3 \2",
        'collection()//p[. contains text "storm" same sentence "ship"]',
    ),
    Mistake(
        "how far words may stand from each other is said by a distance behind them",
        rf"({STRING})\s+(?:within|not\s+more\s+than)\s+([0-9]+)\s+words?\s+(?:of|from|to|near)\s+({STRING})",
        r"\1 ftand \3 distance at most \2 words",
        'collection()//p[. contains text "storm" within 5 words of "ship"]',
    ),
    Mistake(
        "words near each other are asked for by a window",
        r"(\"[^\"]*\s[^\"]*\"|'[^']*\s[^']*')\s*~\s*([0-9]+)",
        _near,
        'collection()//p[. contains text "storm ship"~5]',
    ),
    Mistake(
        "in which order strings stand is said by ordered, behind those that ftand joins",
        rf"({STRING})\s+(?:then|followed\s+by|before|precedes|preceding)\s+({STRING})",
        r"\1 ftand \2 ordered",
        'collection()//p[. contains text "storm" followed by "ship"]',
    ),
    Mistake(
        "it is called ordered",
        r"(?<=[\"'}) ])(?:in\s+(?:this\s+|that\s+)?order|order)\b(?=\s*(?:[\])]|$))",
        "ordered",
        'collection()//p[. contains text "storm" ftand "ship" in order]',
    ),
    Mistake(
        "it is called same sentence, and same paragraph",
        r"\b(?:(?:in|within)\s+(?:(?:the\s+)?same\s+|one\s+|an?\s+|the\s+)?|same\s+)(sentence|paragraph)s?\b",
        r"same \1",
        'collection()//p[. contains text "storm" ftand "ship" in the same sentence]',
    ),
    Mistake(
        "it is called at start, and at end",
        r"\b(?:at|in)\s+(?:the\s+)?(?:very\s+)?(start|beginning|end)\b(?:\s+of\s+(?:the\s+)?\w+)?",
        lambda told: "at end" if told[1] == "end" else "at start",
        'collection()//p[. contains text "storm" at the start]',
    ),
    Mistake(
        "several strings stand in braces",
        rf"(\btext\s+|\bft(?:and|or|not)\s+)[(\[]\s*({STRING}(?:\s*,\s*{STRING})+)\s*[)\]]",
        lambda told: told[1] + _braced(told[2]),
        'collection()//p[. contains text ("storm", "ship")]',
    ),
    Mistake(
        "several strings stand in braces",
        rf"(\btext\s+|\bft(?:and|or|not)\s+)({STRING}(?:\s*,\s*{STRING})+)",
        lambda told: told[1] + _braced(told[2]),
        'collection()//p[. contains text "storm", "ship"]',
    ),
    Mistake(
        "any and all stand behind what they are said of",
        rf"(?<=\s)(any|all)\s+(?:of\s+)?({STRING}|[({{\[]\s*{STRING}(?:\s*,?\s*{STRING})*\s*[)}}\]])",
        _mode_first,
        'collection()//p[. contains text all "storm ship"]',
    ),
    Mistake("ftand, ftor and ftnot are one word each", r"\bft\s+(and|or|not)\b", r"ft\1", 'collection()//p[. contains text "storm" ft and "ship"]'),
    Mistake("between strings it is ftand", r"(?<=[\"'})])\s*\+\s*(?=[\"'{(])", " ftand ", 'collection()//p[. contains text "storm" + "ship"]'),
    Mistake(
        "words near each other are asked for by a window",
        rf"({STRING})\s+(?:near|NEAR|close\s+to|next\s+to)\s+({STRING})",
        r"\1 ftand \2 window 10 words",
        'collection()//p[. contains text "storm" near "ship"]',
    ),
    Mistake(
        "between strings it is ftand, or a blank inside one string",
        r"(?<=[\"'])(\s+)(?=[\"'{])",
        r" ftand ",
        'collection()//p[. contains text "storm" "ship"]',
    ),
    Mistake(
        "words stand in quotation marks, and between strings it is ftand or ftor",
        rf"(\btext\s+)({_WORDS}?)\s+(and|or)\s+({_WORDS})(?=\s*\])",
        r'\1"\2" ft\3 "\4"',
        "collection()//p[. contains text storm and ship]",
    ),
    Mistake(
        "words stand in quotation marks",
        rf"(\btext\s+|(?:\bftand|\bftor|\bftnot)\s+)(?!ftnot\b)({_WORDS}?)(?=\s*(?:[\])]|$|\b(?:{_BEHIND})\b))",
        r'\1"\2"',
        "collection()//p[. contains text heavy storm]",
    ),
    Mistake(
        "without a string is ftand ftnot",
        r"(?<=[\"'})])\s+(?:ftnot|but\s+not|and\s+not|AND\s+NOT|NOT|not(?!\s+in\b)|except|without)\s+(?=[\"'{(])",
        " ftand ftnot ",
        'collection()//p[. contains text "storm" ftnot "night"]',
    ),
    Mistake(
        "between strings it is ftnot",
        r"(\btext\s+|\bftand\s+|\bftor\s+|\()not\s+(?=[\"'{])",
        lambda told: f"{told[1]}ftnot ",
        'collection()//p[. contains text "storm" ftand not "night"]',
    ),
    Mistake(
        "not has parentheses",
        r"(\[|\band\s+|\bor\s+)not\s+((?:\.|@|\w)[^\]]*)(?=\])",
        r"\1not(\2)",
        'collection()//p[not . contains text "storm"]',
    ),
    Mistake(
        "keywords are written small",
        rf"(?<![\"'\w/])(?:{_KEYWORDS})(?![\"'\w])",
        lambda told: told[0].lower(),
        'collection()//p[. CONTAINS TEXT "storm"]',
    ),
    Mistake(
        "an option begins with using",
        rf"\bwith(?:out)?\s+({_OPTION})",
        _using,
        'collection()//p[. contains text "storm" with stemming]',
    ),
    Mistake(
        "case and marks count for nothing where no option says that they do",
        r"\s*\b(?:ignor(?:e|ing)|without|any)\s+(?:the\s+)?(?:case|diacritics|accents|marks|capitals)\b",
        "",
        'collection()//p[. contains text "storm" ignoring case]',
    ),
    Mistake(
        "what is left out of the search stands behind without content",
        r"\b(?:(?:without|ignor(?:e|ing)|except|exclud(?:e|ing)|skip(?:ping)?)(?:\s+the)?(?:\s+contents?\b)?(?:\s+(?:of|in)\b)?)\s+(?=[\w.*/])"
        r"(?!content\b|case\b|diacritics\b|accents\b|marks\b|capitals\b)",
        "without content ",
        'collection()//p[. contains text "storm" without note]',
    ),
    Mistake(
        "on both sides of | stands a path",
        r"(?<=\bcontent)\s*\|(?!\s*\|)|\s*\|\s*(?=[\])]|$)",
        "",
        'collection()//p[. contains text "storm" without content note |]',
    ),
    Mistake(
        "behind it stands what is left out: NAME for children, .//NAME at any depth",
        r"\bwithout\s+content\s*(?=[\])]|$)",
        None,
        'collection()//p[. contains text "storm" without content]',
    ),
    Mistake(
        "what is ignored is named from the element on: NAME is a child, .//NAME any below",
        rf"(\bwithout\s+content\s+|\|\s*)(?:collection\s*\(\s*\)|doc\s*\(\s*{STRING}\s*\))?\s*(//?)\s*(?=[\w*])",
        lambda told: told[1] + (".//" if told[2] == "//" else ""),
        'collection()//p[. contains text "storm" without content //note]',
    ),
    Mistake(
        "a blank stands before the period, which would be one of the name",
        r"\bcontent\.(?=[\s/\]|])",
        "content .",
        'collection()//p[. contains text "storm" without content.//note]',
    ),
    Mistake(
        "names are no strings",
        rf"(\bwithout\s+content\s+|\|\s*)[\"']({_NAME})[\"']",
        r"\1\2",
        'collection()//p[. contains text "storm" without content "note"]',
    ),
    Mistake(
        "elements are ignored; those that have an attribute are named so",
        rf"(\bwithout\s+content\s+|\|\s*)(?:\.//?)?@({_NAME})",
        r"\1.//*[@\2]",
        'collection()//p[. contains text "storm" without content @n]',
    ),
    Mistake(
        "several paths are divided by | and have no parentheses",
        r"(\bwithout\s+content\s*)\(([^()]*)\)",
        lambda told: f"{told[1].rstrip()} " + re.sub(r"\s*,\s*", " | ", told[2]),
        'collection()//p[. contains text "storm" without content (note, fn)]',
    ),
    Mistake(
        "several paths are divided by |",
        rf"(\bwithout\s+content\s+{_IGNORED})\s*(?:,|\|\||\bunion\b|\bftor\b|&&?)\s*",
        r"\1 | ",
        'collection()//p[. contains text "storm" without content note, fn]',
    ),
    Mistake(
        "without content stands last, behind the whole selection",
        rf"\s*\bwithout\s+content\s+({_IGNORED})\s+((?:ftand|ftor|not\s+in|using|occurs|window|distance|same|different|ordered|at|entire)\b[^\]]*?)(?=\s*\])",
        r" \2 without content \1",
        'collection()//p[. contains text "big storm" without content note same sentence]',
    ),
    Mistake(
        "without content stands last, behind the whole selection",
        rf"\s*\bwithout\s+content\s+({_IGNORED})\s*\)([^\]]*?)(?=\s*\])",
        r")\2 without content \1",
        'collection()//p[. contains text ("storm" without content note) ftand "ship"]',
    ),
    Mistake(
        "without content stands in the brackets, behind the selection",
        rf"(contains\s+text\s+[^\[\]]*)\]\s*without\s+content\s+({_IGNORED})",
        r"\1 without content \2]",
        'collection()//p[. contains text "storm"] without content note',
    ),
    Mistake(
        "the option's name is another",
        r"\busing\s+(wildcard|stems?|stemmer|stop\s*words?)(?![\w ]|s\b)(?!\s*\()",
        _singular,
        'collection()//p[. contains text "sto.*" using wildcard]',
    ),
    Mistake(
        "a list is named behind at",
        r"\busing\s+(thesaurus|stop\s+words)\s+(?:(?=[\"'])|(?!at\b)([A-Za-z][\w-]*)(?=\s*(?:[\])]|using\b|$)))",
        lambda told: f"using {told[1]} at " + (quoted(told[2]) if told[2] else ""),
        'collection()//p[. contains text "storm" using thesaurus "sea"]',
    ),
    Mistake(
        "a list is named behind at; --stop LANGUAGE loads one of stop words",
        r"\busing\s+(?:thesaurus|stop\s+words)\s*(?=[\])]|$)",
        None,
        'collection()//p[. contains text "the storm" using stop words]',
    ),
    Mistake(
        "an option begins with using",
        rf"(?<=[\"'}})])\s+({_OPTION})",
        r" using \1",
        'collection()//p[. contains text "Storm" case sensitive]',
    ),
    Mistake(
        "there is no search by similarity; a pattern finds spellings",
        r"\s*\busing\s+fuzzy(?:\s+[0-9]+\s+errors)?|(?<=\w[\"'])~[0-9.]*",
        "",
        'collection()//p[. contains text "storm" using fuzzy]',
    ),
    Mistake(
        "a number of times is exactly, at least, at most or from .. to",
        r"\boccurs\s+([0-9]+)",
        r"occurs exactly \1",
        'collection()//p[. contains text "the" occurs 3 times]',
    ),
    Mistake(
        "a number of times ends with times",
        r"\boccurs\s+((?:exactly|at\s+least|at\s+most)\s+[0-9]+|from\s+[0-9]+\s+to\s+[0-9]+)(?![0-9]|\s+times)",
        r"occurs \1 times",
        'collection()//p[. contains text "the" occurs at least 2]',
    ),
    Mistake(
        "a window has a unit",
        r"\bwindow\s+([0-9]+)(?![0-9]|\s+(?:words|sentences|paragraphs))",
        r"window \1 words",
        'collection()//p[. contains text "storm" ftand "ship" window 5]',
    ),
    Mistake(
        "how often words stand is said by occurs",
        r"(?<=[\"'})])(?:\s+occurs)?\s+(?:(once|twice)\b|(more|fewer|less)\s+than\s+([0-9]+)\s+times|((?:exactly|at\s+least|at\s+most)\s+[0-9]+\s+times))",
        _times,
        'collection()//p[. contains text "storm" at least 2 times]',
    ),
    Mistake(
        "a distance is exactly, at least, at most or from .. to",
        r"\bdistance\s*(<=?|>=?|=)\s*([0-9]+)(?:\s+words?)?",
        lambda told: f"distance {_BOUNDS[told[1]]} {told[2]} words",
        'collection()//p[. contains text "storm" ftand "ship" distance <= 5 words]',
    ),
    Mistake(
        "a distance has a unit",
        r"\bdistance\s+((?:exactly|at\s+least|at\s+most)\s+[0-9]+|from\s+[0-9]+\s+to\s+[0-9]+)(?![0-9]|\s+(?:words?|sentences?|paragraphs?)\b)",
        r"distance \1 words",
        'collection()//p[. contains text "storm" ftand "ship" distance at most 5]',
    ),
    Mistake(
        "units are words, sentences and paragraphs",
        r"\b(window\s+[0-9]+|distance\s+(?:(?:exactly|at\s+least|at\s+most)\s+[0-9]+|from\s+[0-9]+\s+to\s+[0-9]+))\s+(word|sentence|paragraph)\b",
        r"\1 \2s",
        'collection()//p[. contains text "storm" ftand "ship" window 1 paragraph]',
    ),
    Mistake(
        "it is said what is sensitive: case, or diacritics",
        r"\busing\s+(case|diacritics)(?!\s+(?:in)?sensitive\b)",
        r"using \1 sensitive",
        'collection()//p[. contains text "Storm" using case]',
    ),
    Mistake(
        "a language's stems are asked for by using stemming, once --stem LANGUAGE has made them",
        rf"\busing\s+(?:{_LANGUAGES})\b|\busing\s+language\s+(?![\"'])\w+",
        "using stemming",
        'collection()//p[. contains text "storms" using english]',
    ),
    Mistake(
        "a distance is exactly, at least, at most or from .. to",
        r"\bdistance\s+([0-9]+)(?:\s+(?:words)?)?",
        r"distance at most \1 words",
        'collection()//p[. contains text "storm" ftand "ship" distance 5 words]',
    ),
    Mistake(
        "words near each other are asked for by a window",
        r"\b(?:within|near)\s+([0-9]+)(?:\s+words)?",
        r"window \1 words",
        'collection()//p[. contains text "storm" ftand "ship" within 5 words]',
    ),
    Mistake(
        "a quote inside a string is doubled",
        r"\\([\"'])",
        r"\1\1",
        'collection()//p[. contains text "the \\"big\\" storm"]',
    ),
    Mistake("names are as they are written, with their prefix", r"\*:(?=\w)", "", "collection()//*:p"),
    Mistake("a path ends with a name", r"\s*/+\s*$", "", "collection()//p/"),
    Mistake("there are no comments in a path", r"\(:.*?:\)", "", "collection()//p(: paragraphs :)"),
    Mistake(
        "a question is a path; a string stands in brackets after contains text",
        rf"^\s*({STRING}(?:.*\S)?)\s*$",
        r"collection()//*[. contains text \1]",
        '"storm" ftand "ship"',
    ),
    Mistake(
        "a question is a path; a string stands in brackets after contains text",
        r"^\s*([\w’' -]+?)\s*$",
        _bare,
        "heavy storm",
    ),
    Mistake(
        "behind ftand, ftor and ftnot stands what is asked for",
        r"\bft(?:and|or|not)\s*(?=[\])]|$)",
        None,
        'collection()//p[. contains text "storm" ftand]',
    ),
]
"""The mistakes, in the order in which they are looked for."""

FAULTS = {
    "syntax": "with what stands here the text before it doesn't go on",
    "deep": "brackets, parentheses or filters stand more than 64 deep in one another",
    "number": "the number is over 1,000,000",
    "phrases": "with this string there are more than 64 phrases: ask in several queries",
    "option twice": "this is the second option of its group here: keep one",
    "bad wildcard": "the pattern is badly formed: .{n,m} has two numbers, the smaller first; a backslash stands before what is no pattern",
    "mild not exclude": "ftnot and occurs have no place inside an operand of not in",
    "inside filter": "under a filter stands no ftnot inside another, and occurs only where it is counted in one window, sentence or paragraph",
}
"""What each fault of a query says, in a few words."""


Fault = tuple[str, int]
"""A fault of a path: its kind, and the column at which it stands."""

MOST_MISTAKES = 4
"""How many mistakes of one path are repaired together."""

MOST_READ = 50
"""How many repaired paths the program is asked to read at most."""

MOST_CHARACTERS = 1_000
MOST_SECONDS = 2.0
"""Of how long a path advice is sought, and for how long."""


def advice_for(path: str, fault: Fault, fault_of: Callable[[str], Fault | None]) -> Advice | None:
    """What to write instead of a path with that fault, where it has one of the usual mistakes, or several. `fault_of` is the program's word on
    a path: none is shown that it doesn't read. Of the repairs those of the fewest mistakes are tried first."""
    if len(path) > MOST_CHARACTERS:
        return None
    end = time.monotonic() + MOST_SECONDS
    first: str | None = None
    tried = {path}
    row: list[tuple[str, Fault, list[str]]] = [(path, fault, [])]
    for written, its_fault, whys in row:
        if time.monotonic() > end:
            break
        for repair, is_near in _repairs(written, *its_fault):
            # What stands elsewhere is a reason only where the program reads what is written instead.
            first = first or (repair.why if is_near else None)
            if repair.write is None:
                if is_near:
                    return Advice(repair.why, None)
                continue
            if repair.write in tried or len(tried) > MOST_READ:
                continue
            tried.add(repair.write)
            both = [*whys, repair.why] if repair.why not in whys else whys
            left = fault_of(repair.write)
            if left is None:
                return Advice("; ".join(both), repair.write)
            if len(both) < MOST_MISTAKES:
                row.append((repair.write, left, both))
    return Advice(first, None) if first else None


def _repairs(path: str, kind: str, column: int) -> Iterator[tuple[Advice, bool]]:
    """What may be meant by a path with one fault, and whether that stands near it: the usual mistakes that do, or else those elsewhere, then what is
    open; where a count stands where it may not, what may."""
    if kind == "inside filter":
        yield from ((Advice(why, written), True) for why, written in counted_otherwise(path, column))
    if kind != "syntax":
        return
    found = [(mistake, told, written) for mistake in MISTAKES if (told := mistake.places(path)) and (written := mistake.write(path)) != path]
    near = [it for it in found if any(told.start() - 1 <= column <= told.end() + 1 for told in it[1])]
    yield from ((Advice(mistake.why, written), bool(near)) for mistake, _, written in near or found)
    if closes_nothing(path, column):
        yield Advice(f"no bracket is open that {path[column]} closes", path[:column] + path[column + 1 :]), True
    missing = missing_end(path)
    if missing:
        written = ended(path)
        yield Advice(f"it isn't closed: {missing[0] if written != path + missing else missing} is missing", written), True
