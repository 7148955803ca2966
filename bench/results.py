"""What a run has measured: its rows as they come, and the page and the picture of all of them."""

import datetime
import os
import platform
import subprocess
import typing

import asking
import bars
import picture
import turns


class Row(typing.NamedTuple):
    """What one program took for one question; the ratio is ftq's minimum to that of this program."""

    what: str
    program: str
    times: turns.Times
    ratio: float | None
    note: str


class Size(typing.NamedTuple):
    """How many times their bytes a program keeps of documents, and has at most while it loads them; None where it doesn't say."""

    what: str
    program: str
    kept: float
    peak: float | None


class Bench:
    """A run: how often it asks, the bars that it holds ftq to, and what it has measured."""

    def __init__(self, rounds, bars_of_page):
        self.rounds = rounds
        self.bars = bars_of_page
        self.rows = []
        self.sizes = []

    def compare(self, what, programs, *, bar="", note=lambda _: "", warm=False, rounds=None):
        """Asks programs in turns, `ftq` among them, and keeps a row for each; where a bar is missed they are asked again, and the better times stay.

        `note` tells of the answer what stands beside ftq's times.
        """
        rounds = rounds or self.rounds
        answer, times = turns.in_turns(what, programs, rounds, warm)
        figure, tried = self._figure(bar, times), ""
        if self.bars.is_missed_by(bar, figure):
            answer, again = turns.in_turns(what, programs, rounds)
            other, tried = self._figure(bar, again), "tried twice"
            if other < figure:
                figure, times = other, again
        self.bars.see(bar, what, figure)
        self.add(what, times, ", ".join(it for it in (note(answer), tried) if it))
        return times

    def add(self, what, times, note=""):
        """Keeps and prints a row for each program, ftq's first."""
        ftq = times[bars.FTQ]
        self._keep(Row(what, bars.FTQ, ftq, None, note))
        for program, its_times in times.items():
            if program != bars.FTQ:
                self._keep(Row(what, program, its_times, ftq.least / its_times.least, ""))

    def add_stopped(self, what, seconds, times=None, note=""):
        """A row for a question that was stopped after so many seconds, beside those that it was to be compared with."""
        stopped = turns.Times((seconds,))
        self.add(what, {bars.FTQ: stopped, **(times or {})}, f"stopped after {seconds} s{note}")

    def size(self, what, program, kept, peak=None, bar=""):
        """Keeps and prints how many times their bytes a program keeps of documents."""
        self.bars.see(bar, what, kept)
        self.sizes.append(Size(what, program, kept, peak))
        print(f"{f'memory of {what}':58} {program:22} {kept:8.1f} times the bytes{f', {peak:.1f} at the peak' if peak else ''}", flush=True)

    def _figure(self, bar, times):
        return self.bars.figure(bar, {name: it.least for name, it in times.items()}) if bar else None

    def _keep(self, row):
        self.rows.append(row)
        ratio = bars.rounded(row.ratio) if row.ratio is not None else ""
        print(f"{row.what:58} {row.program:22} {row.times.least * 1000:10.2f} {row.times.median * 1000:10.2f} ms {ratio:>8} {row.note}", flush=True)


def machine():
    """The processors and the system that this runs on."""
    try:
        with open("/proc/cpuinfo", encoding="utf-8") as file:
            model = next(line.split(":", 1)[1].strip() for line in file if line.startswith("model name"))
    except (OSError, StopIteration):
        model = platform.processor() or platform.machine()
    return f"{os.cpu_count()} processors, {model}, {platform.system()}"


def commit():
    """The commit of this checkout."""
    return subprocess.run(["git", "-C", asking.TOP, "rev-parse", "--short", "HEAD"], capture_output=True, text=True).stdout.strip() or "unknown"


def page_of(bench, missing):
    """The page of a run's results."""
    rounds = bench.rounds
    lines = [
        "# Results",
        "",
        f"`bench/run`, {datetime.date.today()}, commit {commit()}; {machine()}. The programs are asked in turns,",
        f"in {rounds.wanted} rounds; one that takes more than {rounds.seconds:g} s for a question in fewer, but in {rounds.least} at least.",
        "Milliseconds are the minimum and the median of the rounds. The ratio in another program's row is that of ftq's minimum to its own; other figures say",
        "little beyond this machine. ftq's times are taken over a pipe, from a command's first byte to the last one of its reply. To a query ftq prints a line",
        "for each element that is found, with its document and its path, and so does BaseX; where it says `counting`, a program only counts them. BaseX is",
        "asked for stems over an index of stems, and for a synonym without an index, since with one it finds the word alone. FTS5 and Xapian have the",
        "paragraphs alone.",
        f"The C library of each was told `{os.environ['GLIBC_TUNABLES']}`, and Java to take large pages.",
        "",
        "![The times of the questions that more than one program was asked](RESULTS.svg)",
        "",
        "| What | Program | Minimum | Median | Ratio | |",
        "|---|---|---|---|---|---|",
    ]
    for row in bench.rows:
        ratio = bars.rounded(row.ratio) if row.ratio is not None else ""
        lines.append(f"| {row.what} | {row.program} | {row.times.least * 1000:.2f} | {row.times.median * 1000:.2f} | {ratio} | {row.note} |")
    lines += ["", "## Memory", "", "In times the bytes of the documents: of ftq beyond the program itself, of the others their index alone.", ""]
    lines += ["| What | Program | Kept | At the peak |", "|---|---|---|---|"]
    lines += [f"| {it.what} | {it.program} | {it.kept:.1f} | {f'{it.peak:.1f}' if it.peak else ''} |" for it in bench.sizes]
    said = "What [README](../README.md#limits-and-speed) says that ftq takes at most, and the greatest that was seen; more than a third above is missed."
    lines += ["", "## Bars", "", said, ""]
    lines += ["| Row | At most | Seen | In | |", "|---|---|---|---|---|"]
    lines += [f"| {name} | {bar or ''} | {seen} | {what} | {verdict} |" for name, verdict, bar, seen, what in bench.bars.verdicts()]
    if missing:
        lines += ["", "Not installed, and so not measured: " + ", ".join(missing) + "."]
    return "\n".join(lines) + "\n"


def write(folder, bench, missing):
    """Writes the page and the picture into a folder."""
    drawn = picture.picture([(row.what, row.program, row.times.least) for row in bench.rows])
    for name, text in (("RESULTS.md", page_of(bench, missing)), ("RESULTS.svg", drawn)):
        if text:
            with open(os.path.join(folder, name), "w", encoding="utf-8") as file:
                file.write(text)
