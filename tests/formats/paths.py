"""Paths as values: made up, written, and which elements they select, by a plain reading; with the trees that are asked, and their words.

It is written from docs/QUERIES.md by itself, and builds every list that a path speaks of. What a selection means is told by who asks: a selection is any
value, which is written by one function and decided by another over the words that an element is left with.

A path is a pair of a document's name, or None for all, and steps. A step is whether it is `//`, a name or `*`, and predicates. A predicate is a number
or a condition. A condition is ("or", conditions), ("and", conditions), ("not", condition), ("attribute", name, value or None), ("exists", relative) or
("contains", relative, selection, relatives): the last are the paths behind `without content`. A relative path is whether it begins at the element, by a
period, or at its children, and steps.
"""

import re

from reader import WORD, key

BLOCKS = set("abstract address article aside blockquote body book caption chapter dd div dl dt figure footer h1 h2 h3 h4 h5 h6 head header li main".split())
BLOCKS |= set("nav note ol p para part pre preface row section table td th title tr ul".split())


class Element:
    """An element with its attributes and its children, which are elements and texts, no two texts beside each other and none empty."""

    def __init__(self, name, attributes, kids):
        self.name, self.attributes, self.kids = name, attributes, kids

    def printed(self):
        attributes = "".join(f' {name}="{value}"' for name, value in self.attributes.items())
        kids = "".join(kid if isinstance(kid, str) else kid.printed() for kid in self.kids)
        return f"<{self.name}{attributes}>{kids}</{self.name}>" if self.kids else f"<{self.name}{attributes}/>"


def below(element):
    """The elements below one, in document order."""
    for kid in element.kids:
        if not isinstance(kid, str):
            yield kid
            yield from below(kid)


def lines_of(name, root):
    """Each element of a document, with the line that names it."""
    rows = [(root, f'doc("{name}")/{root.name}[1]')]
    for element, line in rows:
        counts = {}
        inner = []
        for kid in element.kids:
            if not isinstance(kid, str):
                counts[kid.name] = counts.get(kid.name, 0) + 1
                inner.append((kid, f"{line}/{kid.name}[{counts[kid.name]}]"))
        at = next(number for number, row in enumerate(rows) if row[0] is element)
        rows[at + 1 : at + 1] = inner
    return rows


# ---- words


class Words:
    """The words of a document, each with what ends between it and the one before, and with the elements that hold it."""

    def __init__(self, root, abbreviations=frozenset()):
        self.rows, self.abbreviations = [], abbreviations
        self.characters, self.parts = "", False
        self._element(root, [])

    def _element(self, element, outer):
        holders = [*outer, element]
        self.parts |= element.name in BLOCKS
        for kid in element.kids:
            if isinstance(kid, str):
                self._text(kid, holders)
            else:
                self._element(kid, holders)
        self.parts |= element.name in BLOCKS

    def _text(self, text, holders):
        end, spares = 0, False
        for told in WORD.finditer(text):
            self.characters += self._between(text[end : told.start()], spares)
            paragraph = self.parts or bool(re.search(r"\n[ \t]*\n", self.characters))
            self.rows.append((told[0], paragraph or bool(re.search("[.!?]", self.characters)), paragraph, holders))
            self.characters, self.parts = "", False
            end, spares = told.end(), key(told[0]) in self.abbreviations
        self.characters += self._between(text[end:], spares)

    @staticmethod
    def _between(text, spares):
        return text[1:] if spares and text.startswith(".") else text

    def of(self, element):
        """The words of an element: each with its sentence and its paragraph, which are counted from 1 there, and its holders."""
        found, sentence, paragraph = [], 1, 1
        for word, ends_sentence, ends_paragraph, holders in self.rows:
            if any(it is element for it in holders):
                if found:
                    sentence, paragraph = sentence + ends_sentence, paragraph + ends_paragraph
                found.append((word, sentence, paragraph, holders))
        return found

    def without(self, element, ignored):
        """The words of an element, without those of the elements that are ignored; of their holders nothing is said."""
        return numbered_anew([row for row in self.of(element) if not any(it is hole for it in row[3] for hole in ignored)])


def numbered_anew(left):
    """The words that are left of some, each with its sentence and its paragraph: a number rises where it differed from that of the word before."""
    found, sentence, paragraph = [], 1, 1
    for before, row in zip([None, *left], left):
        if before:
            sentence, paragraph = sentence + (row[1] != before[1]), paragraph + (row[2] != before[2])
        found.append((row[0], sentence, paragraph))
    return found


# ---- what is selected


class Asked:
    """Some documents by name, in their order, which are asked for the elements of paths; `satisfies` decides a selection over some words."""

    def __init__(self, documents, satisfies, abbreviations=frozenset()):
        self.rows = [row for name, root in documents.items() for row in lines_of(name, root)]
        self.documents, self.satisfies = documents, satisfies
        self.words = {name: Words(root, abbreviations) for name, root in documents.items()}
        self.order = {id(element): number for number, (element, _) in enumerate(self.rows)}
        self.reading = {id(element): self.words[name] for name, root in documents.items() for element in [root, *below(root)]}

    def lines(self, path):
        """The lines of the elements that a path selects; None where it names a document that isn't there."""
        name, steps = path
        if name not in (None, *self.documents):
            return None
        tops = [Element("", {}, [root]) for it, root in self.documents.items() if name in (None, it)]
        found = self.led(tops, steps)
        return [self.rows[self.order[id(it)]][1] for it in found]

    def led(self, elements, steps):
        """The elements to which steps lead from some, each once, in document order."""
        for deep, test, predicates in steps:
            found = []
            for element in elements:
                for parent in [element, *below(element)] if deep else [element]:
                    found += self.filtered([kid for kid in parent.kids if not isinstance(kid, str) and test in ("*", kid.name)], predicates)
            elements = self.ordered(found)
        return elements

    def ordered(self, elements):
        return sorted({id(it): it for it in elements}.values(), key=lambda it: self.order[id(it)])

    def filtered(self, items, predicates):
        for predicate in predicates:
            if isinstance(predicate, int):
                items = items[predicate - 1 : predicate] if predicate else []
            else:
                items = [it for it in items if self.holds(predicate, it)]
        return items

    def holds(self, condition, item):
        kind, *parts = condition
        if kind == "or":
            return any(self.holds(it, item) for it in parts[0])
        if kind == "and":
            return all(self.holds(it, item) for it in parts[0])
        if kind == "not":
            return not self.holds(parts[0], item)
        if kind == "attribute":
            return parts[0] in item.attributes and parts[1] in (None, item.attributes[parts[0]])
        if kind == "exists":
            return bool(self.led_from(item, parts[0]))
        relative, selection, ignored = parts
        holes = self.ordered([it for path in ignored for it in self.led_from(item, path)])
        return any(self.satisfies(selection, self.reading[id(it)].without(it, holes)) for it in self.led_from(item, relative))

    def led_from(self, item, relative):
        """What a relative path selects from the element whose predicate has it."""
        return self.led([item], relative[1])


# ---- how paths are written


def written(path, selection_text):
    """A path as its text, its selections by that function."""
    name, steps = path
    return (f'doc("{name}")' if name else "collection()") + "".join(_step(it, selection_text) for it in steps)


def _step(step, selection_text):
    deep, test, predicates = step
    return ("//" if deep else "/") + test + "".join(f"[{it if isinstance(it, int) else _condition(it, selection_text)}]" for it in predicates)


def written_relative(relative, selection_text):
    from_itself, steps = relative
    text = "".join(_step(it, selection_text) for it in steps)
    return f".{text}" if from_itself else text.removeprefix("/")


def _condition(condition, selection_text):
    kind, *parts = condition
    if kind in ("or", "and"):
        return f" {kind} ".join(f"({_condition(it, selection_text)})" if it[0] in ("or", "and") else _condition(it, selection_text) for it in parts[0])
    if kind == "not":
        return f"not({_condition(parts[0], selection_text)})"
    if kind == "attribute":
        return f"@{parts[0]}" + (f' = "{parts[1]}"' if parts[1] is not None else "")
    text = written_relative(parts[0], selection_text)
    if kind == "exists":
        return text
    ignored = " | ".join(written_relative(it, selection_text) for it in parts[2])
    return f"{text} contains text {selection_text(parts[1])}" + (f" without content {ignored}" if ignored else "")


# ---- paths that are made up


class Maker:
    """Makes paths over elements of some names, with selections of some function's; `ignores` says whether some have paths behind `without content`."""

    def __init__(self, chance, names, attributes, selection, ignores=True):
        self.chance, self.names, self.attributes, self.selection, self.ignores = chance, names, attributes, selection, ignores

    def path(self, documents):
        steps = [self.step(2, deep=self.chance.random() < 0.7) for _ in range(self.chance.choice([1, 1, 1, 2]))]
        if not any("contains" in str(it) for it in steps):
            steps[-1][2].append(self.contains(2))
        return (self.chance.choice(documents) if documents and self.chance.random() < 0.3 else None, steps)

    def step(self, depth, deep=None):
        deep = self.chance.random() < 0.6 if deep is None else deep
        predicates = self.chance.choice([0, 0, 0, 0, 0, 1, 1, 2]) if depth else 0
        return (deep, self.chance.choice([*self.names, "*", "*"]), [self.predicate(depth) for _ in range(predicates)])

    def predicate(self, depth):
        return self.chance.randint(0, 3) if self.chance.random() < 0.15 else self.condition(depth)

    def condition(self, depth):
        kind = self.chance.choice(["or", "and", "not", "attribute", "exists", "contains", "contains", "contains", "contains"])
        if kind in ("or", "and"):
            return (kind, [self.condition(depth - 1) if depth else self.attribute() for _ in range(2)])
        if kind == "not":
            return ("not", self.condition(depth - 1) if depth else self.attribute())
        if kind == "attribute":
            return self.attribute()
        return ("exists", self.relative(depth - 1 if depth else 0)) if kind == "exists" else self.contains(depth)

    def attribute(self):
        name = self.chance.choice(list(self.attributes))
        return ("attribute", name, self.chance.choice([None, *self.attributes[name]]))

    def contains(self, depth):
        inner = depth - 1 if depth else 0
        ignored = [self.relative(inner) for _ in range(self.chance.choice([0, 1, 1, 1, 2, 3]))] if self.ignores else []
        return ("contains", (True, []) if self.chance.random() < 0.7 else self.relative(inner), self.selection(), ignored)

    def relative(self, depth):
        """A relative path: the element itself now and then, or steps from it or to its children."""
        if self.chance.random() < 0.6:
            return (True, [self.step(depth) for _ in range(self.chance.choice([0, 1, 1, 1, 1, 2]))])
        return (False, [self.step(depth, deep=False), *(self.step(depth) for _ in range(self.chance.choice([0, 0, 1])))])


def made_tree(chance, names, attributes, words, depth=3):
    """A tree of elements and texts, whose words have marks, blanks and nothing between them."""
    kids = []
    for _ in range(chance.randint(1, 5) if depth else 1):
        if depth and chance.random() < 0.5:
            kids.append(made_tree(chance, names, attributes, words, depth - 1))
        elif not kids or not isinstance(kids[-1], str):
            kids.append(made_text(chance, words))
    own = {name: chance.choice(values) for name, values in attributes.items() if chance.random() < 0.4}
    return Element(chance.choice(names), own, kids)


def made_text(chance, words):
    ends = [" ", " ", " ", ". ", "! ", ", ", "\n", "\n \n", ".. ", ".", ""]
    inner = "".join(chance.choice(words) + chance.choice(ends[:9]) for _ in range(chance.randint(0, 3)))
    return chance.choice(["", "", " ", ". "]) + inner + chance.choice(words) + chance.choice(ends)
