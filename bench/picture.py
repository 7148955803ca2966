"""The results as a picture: for each question a bar for each program, on a logarithmic axis of milliseconds."""

import math

WIDTH, LEFT, RIGHT, TOP = 980, 330, 150, 84
BAR, GAP = 15, 9
COLOURS = {
    "ftq": "#2f6f9f",
    "BaseX": "#b5651d",
    "BaseX, counting": "#dfb68c",
    "SQLite FTS5": "#6b8e23",
    "SQLite FTS5, counting": "#b9cc94",
    "Xapian": "#8b2252",
    "Xapian, counting": "#cf9fb5",
    "xmllint": "#7a6a9a",
}


def escaped(text):
    return text.replace("&", "&amp;").replace("<", "&lt;").replace(">", "&gt;")


def groups_of(rows):
    """The questions that more than one program was asked, each with the programs and their milliseconds; the rows have what was asked, the program and
    its seconds."""
    groups = {}
    for what, program, seconds in rows:
        if program in COLOURS:
            groups.setdefault(what, []).append((program, seconds * 1000))
    return {what: bars for what, bars in groups.items() if len(bars) > 1}


class Axis:
    """Places on the logarithmic axis, from a power of ten to another."""

    def __init__(self, milliseconds):
        least = min(max(it, 0.01) for it in milliseconds)
        self.first = math.floor(math.log10(least))
        self.last = max(math.ceil(math.log10(max(milliseconds))), self.first + 1)

    def place(self, milliseconds):
        part = (math.log10(max(milliseconds, 10.0**self.first)) - self.first) / (self.last - self.first)
        return LEFT + part * (WIDTH - LEFT - RIGHT)

    def ticks(self):
        return [(10.0**power, f"{10.0**power:,g}") for power in range(self.first, self.last + 1)]


def picture(rows):
    """The text of the picture, an SVG; None where no question has two programs."""
    groups = groups_of(rows)
    if not groups:
        return None
    axis = Axis([milliseconds for bars in groups.values() for _, milliseconds in bars])
    height = TOP + sum(len(bars) * BAR + GAP for bars in groups.values()) + 16
    parts = [
        f'<svg xmlns="http://www.w3.org/2000/svg" width="{WIDTH}" height="{height}" viewBox="0 0 {WIDTH} {height}" font-family="sans-serif" font-size="12">',
        f'<rect width="{WIDTH}" height="{height}" fill="white"/>',
        f'<text x="{LEFT}" y="40" font-size="13">the least milliseconds (logarithmic axis: each line is ten times the one before)</text>',
        *legend([program for program in COLOURS if any(program == it for bars in groups.values() for it, _ in bars)]),
        *grid(axis, height),
    ]
    y = TOP
    for what, bars in groups.items():
        parts.append(f'<text x="{LEFT - 8}" y="{y + BAR * len(bars) / 2 + 4:.1f}" text-anchor="end">{escaped(what)}</text>')
        for program, milliseconds in bars:
            parts += bar(axis, y, program, milliseconds)
            y += BAR
        y += GAP
    return "\n".join([*parts, "</svg>"]) + "\n"


def legend(programs):
    x = 8
    for program in programs:
        yield f'<rect x="{x}" y="9" width="10" height="10" fill="{COLOURS[program]}"/><text x="{x + 14}" y="18">{program}</text>'
        x += 24 + 8 * len(program)


def grid(axis, height):
    for milliseconds, label in axis.ticks():
        x = axis.place(milliseconds)
        yield f'<line x1="{x:.1f}" y1="64" x2="{x:.1f}" y2="{height - 8}" stroke="#cccccc"/>'
        yield f'<text x="{x:.1f}" y="58" text-anchor="middle">{label}</text>'


def bar(axis, y, program, milliseconds):
    end = axis.place(milliseconds)
    yield f'<rect x="{LEFT}" y="{y}" width="{max(end - LEFT, 1):.1f}" height="{BAR - 3}" fill="{COLOURS[program]}"/>'
    yield f'<text x="{end + 5:.1f}" y="{y + BAR - 5}" font-size="11">{program} {milliseconds:,.2f}</text>'
