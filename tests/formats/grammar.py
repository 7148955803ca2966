"""The grammar of paths and selections as text, and a plain reader of it: at which byte a text can no longer be the begin of a path.

What is read so is a context-free grammar over symbols, by Earley's way: all rules that may be under way are kept at once, so that nothing is decided by
what comes next, as a reader that goes from left to right has to.
"""

import re

GRAMMAR = """
Path      ::= Root Step+
Root      ::= "collection" "(" ")" | "doc" "(" String ")"
Step      ::= ("/" | "//") Test Pred*
Test      ::= Name | "*"
Pred      ::= "[" ( Number | POr ) "]"
POr       ::= PAnd ("or" PAnd)*
PAnd      ::= PPrim ("and" PPrim)*
PPrim     ::= "not" "(" POr ")" | "(" POr ")" | "@" Name ("=" String)? | Rel ("contains" "text" Selection ("without" "content" Rel ("|" Rel)*)?)?
Rel       ::= "." Step* | Test Pred* Step*
Selection ::= Or Filter*
Or        ::= And ("ftor" And)*
And       ::= Mild ("ftand" Mild)*
Mild      ::= Unary ("not" "in" Unary)*
Unary     ::= "ftnot"? Primary Option*
Primary   ::= Words ("occurs" Range "times")? | "(" Selection ")"
Words     ::= Value ("any" "word"? | "all" "words"? | "phrase")?
Value     ::= String | "{" String ("," String)* "}"
Range     ::= "exactly" Number | "at" "least" Number | "at" "most" Number | "from" Number "to" Number
Filter    ::= "ordered" | "window" Number Unit | "distance" Range Unit | ("same" | "different") ("sentence" | "paragraph")
            | "at" "start" | "at" "end" | "entire" "content"
Unit      ::= "words" | "sentences" | "paragraphs"
Option    ::= "using" ( "case" ("insensitive" | "sensitive") | "lowercase" | "uppercase"
            | "diacritics" ("insensitive" | "sensitive") | "no"? "stemming" | "no"? "wildcards"
            | "language" String | "no" "thesaurus" | "thesaurus" (Thes | "(" Thes ("," Thes)* ")")
            | "no" "stop" "words" | "stop" "words" Stop (("union" | "except") Stop)* )
Thes      ::= "at" String ("relationship" String)? (Range "levels")?
Stop      ::= "at" String | "(" String ("," String)* ")"
"""

_FIRST = "A-Za-z_:\u00c0-\u00d6\u00d8-\u00f6\u00f8-\u02ff\u0370-\u037d\u037f-\u1fff\u200c\u200d\u2070-\u218f\u2c00-\u2fef\u3001-\ud7ff"
_FIRST += "\uf900-\ufdcf\ufdf0-\ufffd\U00010000-\U000effff"
_FURTHER = _FIRST + "0-9.\u00b7\u0300-\u036f\u203f\u2040-"
_SYMBOL = re.compile(
    rf"""(?P<Name>[{_FIRST}][{_FURTHER}]*)|(?P<Number>[0-9]+)(?![{_FURTHER}])|(?P<String>"(?:[^"]|"")*"|'(?:[^']|'')*')|(?P<sign>//|[/\[\](){{}},@=.*|])"""
)


def symbols(text):
    """The kind, text and place of each symbol, places counted in characters; a character that begins none is of the kind None, and the last one."""
    found, place = [], 0
    while place < len(text):
        if text[place] in " \t":
            place += 1
            continue
        told = _SYMBOL.match(text, place)
        if not told:
            found.append((None, text[place], place))
            break
        found.append((told.lastgroup, told[0], place))
        place = told.end()
    return found


class Grammar:
    """The rules of a grammar that is written as above: of each name the rows of names and of quoted texts that it may be."""

    def __init__(self, written):
        self.rules = {}
        self.made = 0
        for name, right in re.findall(r"^(\w+)\s*::=((?:.*\n(?!\w+\s*::=))*.*\n)", written, re.MULTILINE):
            words = re.findall(r'"[^"]*"|\w+|[()|?*+]', right)
            self.rules[name], rest = self._choices(words)
            assert not rest, rest
        self.empty = set()
        while True:
            more = {name for name, rows in self.rules.items() if any(all(it in self.empty for it in row) for row in rows)}
            if more == self.empty:
                break
            self.empty = more

    def _choices(self, words):
        """The rows of choices at the front of some words of the grammar, and the words behind them."""
        rows = [()]
        while words and words[0] != ")":
            if words[0] == "|":
                rows.append(())
                words = words[1:]
                continue
            if words[0] == "(":
                inner, words = self._choices(words[1:])
                item, words = self._named(inner), words[1:]
            else:
                item, words = words[0], words[1:]
            if words and words[0] in "?*+":
                item, words = self._times(item, words[0]), words[1:]
            rows[-1] += (item,)
        return rows, words

    def _named(self, rows):
        self.made += 1
        name = f"{self.made}"
        self.rules[name] = rows
        return name

    def _times(self, item, sign):
        name = self._named([])
        self.rules[name] = {"?": [(), (item,)], "*": [(), (name, item)], "+": [(item,), (name, item)]}[sign]
        return name

    def first_fault(self, row, start):
        """The number of the first symbol with which those before it begin no text of that name; the count of all where they end too soon; None where
        they are one."""
        sets = []
        sets.append(self._closed(sets, {(start, 0, rule, 0) for rule in self.rules[start]}))
        for number, (kind, text, _) in enumerate(row):
            moved = {(name, origin, rule, dot + 1) for name, origin, rule, dot in sets[-1] if dot < len(rule) and _is(rule[dot], kind, text)}
            if not moved:
                return number
            sets.append(self._closed(sets, moved))
        return None if any(name == start and origin == 0 and dot == len(rule) for name, origin, rule, dot in sets[-1]) else len(row)

    def _closed(self, sets, states):
        """The states with all that they bring: the rules of what may come next, and what goes on behind a rule that has ended."""
        here, states, open_ = len(sets), set(states), list(states)

        def add(state):
            if state not in states:
                states.add(state)
                open_.append(state)

        while open_:
            name, origin, rule, dot = open_.pop()
            if dot < len(rule):
                if rule[dot] in self.rules:
                    for inner in self.rules[rule[dot]]:
                        add((rule[dot], here, inner, 0))
                    if rule[dot] in self.empty:
                        add((name, origin, rule, dot + 1))
            elif origin < here:
                for outer, before, inner, at in list(sets[origin]):
                    if at < len(inner) and inner[at] == name:
                        add((outer, before, inner, at + 1))
        return states


def _is(item, kind, text):
    """Whether a symbol is what stands in a rule: a quoted text, which is a name or a sign, or the name of a kind."""
    return item == kind or kind in ("Name", "sign") and item == f'"{text}"'


PATHS = Grammar(GRAMMAR)
# Paths as they were before some of an element's content could be ignored.
PLAIN_PATHS = Grammar(GRAMMAR.replace(' ("without" "content" Rel ("|" Rel)*)?', ""))


def syntax_fault(text, grammar=PATHS):
    """The first byte of the first symbol with which those before it begin no path; the text's length where it ends too soon; None where it is one."""
    row = symbols(text)
    number = grammar.first_fault(row, "Path")
    if number is None:
        return None
    return len((text[: row[number][2]] if number < len(row) else text).encode())
