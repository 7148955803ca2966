"""The bars: what README says that ftq takes at most, and whether a run holds it.

README's table of speed has a bar in the last cell of each row, in one of these forms:

- `0.6 of BaseX`: of the time that this program takes in the same run for the same, minimum by minimum, for each question of the row;
- `0.4 ms` or `2 s`: of the machine on which README's figures were taken. Another machine is given as much more or less as it takes to load the same
  documents into FTS5, whose seconds stand in the row of loading;
- `8 times the bytes`: of memory, the same on each machine.

A bar is missed by what takes more than a third above it.
"""

import dataclasses
import re

LOADING = "loading, with the index"
MEMORY = "memory"
NAMES = "names, places, attributes"
NAMES_ALONE = "names alone"
RARE_WORDS = "rare words"
WORDS = "words in a text"
MANY_WORDS = "many words at once"
PLACES = "where frequent words stand"
EDIT = "an edit"
LARGE_EDIT = "an edit of a large document"
EDITS = "an edit of each document"
JOINED = "texts joined to one"

MEASURED = (LOADING, MEMORY, NAMES, NAMES_ALONE, RARE_WORDS, WORDS, MANY_WORDS, PLACES, EDIT, LARGE_EDIT, EDITS, JOINED)
"""What may have a bar: the rows of README's table are among these."""

FTQ, FTS5, XAPIAN, BASEX, XMLLINT = "ftq", "SQLite FTS5", "Xapian", "BaseX", "xmllint"
SLACK = 4 / 3
FORM = re.compile(r"([\d.]+) (?:of (SQLite FTS5|Xapian|BaseX|xmllint)|(m?s)|(times the bytes))")
BYTES = "times the bytes"


def rounded(figure):
    """A figure with two digits behind the point, or three where it is small."""
    return f"{round(figure, 3 if figure < 0.1 else 2):g}"


@dataclasses.dataclass(frozen=True)
class Bar:
    """At most so many times what a peer takes, so many seconds, or so many times the bytes."""

    most: float
    unit: str

    def __str__(self):
        return self.shown(self.most)

    def shown(self, figure):
        """A figure as README writes the bar."""
        if self.unit == "s":
            return f"{rounded(figure * 1000)} ms"
        return f"{rounded(figure)} {self.unit if self.unit == BYTES else f'of {self.unit}'}"

    def is_missed_by(self, figure):
        """Whether a figure in the bar's unit is more than a third above it."""
        return figure > self.most * SLACK


def bar_of(cell):
    """The bar that a cell has, or None where it can't be read."""
    parts = FORM.fullmatch(cell)
    if not parts:
        return None
    number, peer, seconds, _ = parts.groups()
    if seconds:
        return Bar(float(number) / (1000 if seconds == "ms" else 1), "s")
    return Bar(float(number), peer or BYTES)


def table_of(page):
    """The number of documents that README's table of speed speaks of, and its rows, each with the number of its line; None where there is none."""
    lines = page.split("\n")
    for start, line in enumerate(lines):
        head = re.match(r"\| ([\d,]+) documents[^|]*\| ftq \|.*\| at most \|$", line)
        if head:
            rows = []
            for number, row in enumerate(lines[start + 2 :], start + 3):
                if not row.startswith("|"):
                    break
                rows.append((number, [cell.strip() for cell in row.split("|")[1:-1]]))
            return int(head[1].replace(",", "")), rows
    return None


def faults_of(page):
    """What is wrong with the bars of README, each with the number of its line."""
    table = table_of(page)
    if table is None:
        return [(1, "no table of documents has a column `at most`")]
    faults, seen = [], set()
    for number, cells in table[1]:
        if cells[0] not in MEASURED:
            faults.append((number, f"bench/run measures no row `{cells[0]}`"))
        if cells[0] in seen:
            faults.append((number, f"a second row `{cells[0]}`"))
        if bar_of(cells[-1]) is None:
            faults.append((number, f"no bar of `{cells[0]}` can be read from `{cells[-1]}`"))
        seen.add(cells[0])
    return faults


class Bars:
    """The bars of a page, and the greatest figure that a run has for each."""

    def __init__(self, page):
        faults = faults_of(page)
        if faults:
            raise ValueError("; ".join(f"line {number}: {fault}" for number, fault in faults))
        documents, rows = table_of(page)
        self.bars = {cells[0]: bar_of(cells[-1]) for _, cells in rows}
        loading = next((cells[2] for _, cells in rows if cells[0] == LOADING), "")
        told = re.search(rf"{FTS5} ([\d.]+)", loading)
        self.told = float(told[1]) / documents if told else None
        self.machine = None
        self.greatest = {}

    def compare_machine(self, seconds, documents):
        """Tells what FTS5 takes here to load documents: by it bars in seconds are measured."""
        self.machine = seconds / documents / self.told if self.told else None

    def figure(self, name, least):
        """What the minima of programs are in the unit of the bar; None where its peer wasn't asked, or nothing has told how fast the machine is.

        What has no bar is told as a ratio to BaseX, or else to FTS5.
        """
        bar = self.bars.get(name)
        if bar and bar.unit == "s":
            return least[FTQ] / self.machine if self.machine else None
        peer = bar.unit if bar else next((it for it in (BASEX, FTS5) if it in least), None)
        return least[FTQ] / least[peer] if peer in least else None

    def is_missed_by(self, name, figure):
        """Whether a bar is missed; one that README doesn't name never is."""
        return name in self.bars and figure is not None and self.bars[name].is_missed_by(figure)

    def see(self, name, what, figure):
        """Keeps a figure, where it is the greatest of those that were seen for this bar."""
        if name and figure is not None and figure > self.greatest.get(name, ("", -1.0))[1]:
            self.greatest[name] = (what, figure)

    def verdicts(self):
        """For each row that may have a bar: its name, `held`, `missed`, `not decided` or `no bar`, the bar, what was seen, and in which question."""
        for name in MEASURED:
            bar, (what, figure) = self.bars.get(name), self.greatest.get(name, ("", None))
            if figure is None:
                yield name, "not decided" if bar else "no bar", bar, "", ""
            else:
                verdict = "no bar" if not bar else "missed" if bar.is_missed_by(figure) else "held"
                yield name, verdict, bar, bar.shown(figure) if bar else rounded(figure), what
