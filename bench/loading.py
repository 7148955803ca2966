"""What it takes to read documents, to divide them into words and to keep them."""

import contextlib
import os
import shutil
from functools import partial

import asking
import bars
import basex
import peers
import texts
import turns
from material import size_of


def reading(bench, material):
    """One document that is read to its end: its last character is missing, so that nothing is done with it afterwards."""
    document = texts.archive(20_000_000 // material.scale)
    cut = document[:-1]
    load, expected = asking.with_block("load archive", cut), f"! 6 document: syntax at {len(cut)}"

    def read():
        with asking.Conversation() as conversation:
            return None, conversation.expected(load, expected)

    programs = {bars.FTQ: read}
    if shutil.which("xmllint"):
        paths = material.written("archive", [document])
        programs[bars.XMLLINT] = lambda: (None, peers.xmllint_seconds(paths, ["--huge"]))
    bench.compare(f"read one document, {len(document) / 1e6:.0f} MB", programs)


def loading(bench, material, only_fts5=False):
    """Many documents that are read, divided into words and kept, and one large document; and what they take of memory. For --quick many alone, beside
    FTS5."""
    many = material.documents
    what = f"{len(many)} documents, {size_of(many) / 1e6:.0f} MB"
    # FTS5 takes less for each document where there are few, so the bars, and what tells how fast the machine is, are of the full number alone.
    named = (bars.LOADING, bars.MEMORY) if material.scale == 1 else ("", "")
    times = load_in_turns(bench, material, "many", what, many, named, only_fts5)
    if material.scale == 1 and bars.FTS5 in times:
        bench.bars.compare_machine(times[bars.FTS5].least, len(many))
    if not only_fts5:
        one = [texts.archive(7_000_000 // material.scale)]
        load_in_turns(bench, material, "one", f"one document of {size_of(one) / 1e6:.1f} MB", one)


def load_in_turns(bench, material, name, what, documents, named=("", ""), only_fts5=False):
    """The rows of ftq and of its peers, which load documents, and of what these take of memory; the bars of both have these names."""
    size, kept = size_of(documents), {}
    loads = asking.loads_of(documents)

    def load():
        with asking.Conversation() as conversation:
            conversation.answered(b"stats\n")
            empty = conversation.memory()[0]
            seconds = conversation.load(loads)
            kept.setdefault(bars.FTQ, []).append(tuple(held - empty for held in conversation.memory()))
        return None, seconds

    with contextlib.ExitStack() as stack:
        programs = {bars.FTQ: load, **peers_loading(material, name, documents, kept, only_fts5, stack)}
        times = bench.compare(f"load {what}", programs, bar=named[0])
    for program, sizes in kept.items():
        held, peak = min(sizes)
        bench.size(what, program, held / size, peak / size if peak else None, named[1] if program == bars.FTQ else "")
    return times


def peers_loading(material, name, documents, kept, only_fts5, stack):
    """How the peers that are installed load documents, or their paragraphs where they index these alone; what they keep is put into `kept`."""
    paragraphs = peers.paragraphs_of(documents)

    def index(peer, *arguments):
        made = peer(*arguments, paragraphs)
        kept.setdefault(peer.name, []).append((made.bytes_kept(), None))
        made.close()
        return None, made.index_seconds

    programs = {bars.FTS5: partial(index, peers.Fts5)} if peers.has_fts5() else {}
    if only_fts5:
        return programs
    paths = material.written(name, documents)
    if shutil.which("xmllint"):
        programs[bars.XMLLINT] = lambda: (None, peers.xmllint_seconds(paths, ["--huge"]))
    if peers.xapian:
        programs[bars.XAPIAN] = partial(index, peers.Xapian, os.path.join(material.folder, "loaded"))
    if basex.is_installed():
        console = basex.Console(material.folder_of(f"basex-{name}"))
        stack.callback(console.close)
        programs[bars.BASEX] = lambda: (None, basex.index_seconds(console, material.folder_of(name)))
    return programs


ABBREVIATED = ["lesadi", "so", "ba", "rido", "vahene"]
"""With one of these about one in six sentences of the texts ends, so that a list of them changes many breaks."""


def formats(bench, material):
    """The same documents in sessions of both formats; and abbreviations, which go over the breaks of all of them."""
    documents = material.documents
    first, second = asking.loads_of(documents), asking.loads_of(documents, asking.with_sized_block)
    path = os.path.join(asking.TOP, "clients", "python", "src", "ftq_ask", "abbreviations", "english.txt")
    with open(path, "rb") as file:
        english = file.read() + "".join(f"{word}.\n" for word in ABBREVIATED).encode("ascii")
    given, taken_back = [], []

    def load_first():
        with asking.Conversation() as conversation:
            return None, conversation.load(first)

    def load_second():
        with asking.Conversation() as conversation:
            conversation.begin_format_2()
            seconds = conversation.load(second)
            given.append(conversation.accepted(asking.with_sized_block("abbreviations", english)))
            taken_back.append(conversation.accepted(asking.with_sized_block("abbreviations", b"")))
        return None, seconds

    bench.compare(f"load {len(documents)} documents in a session of format 2", {bars.FTQ: load_second, "ftq, format 1": load_first})
    for what, seconds in (("give abbreviations to them", given), ("take these back", taken_back)):
        bench.add(what, {bars.FTQ: turns.Times(tuple(seconds))})


def dividing(bench, material):
    """Loading one text in one element: reading it and dividing it into words."""
    count = 100_000 // material.scale
    for what, part in [
        ("load plain English in one element", "the quick brown fox jumps over nine lazy dogs. "),
        (
            "load text of several scripts in one element",
            "Gr\u00f6\u00dfe \u0386\u03bd\u03bf\u03b9\u03b3\u03bc\u03b1 na\u00efve "
            "\u043e\u0442\u043a\u0440\u044b\u0442\u044c \u9009\u62e9\u6587\u4ef6 caf\u00e9. ",
        ),
    ]:
        document = f"<a>{part * count}</a>".encode("utf-8")
        bench.compare(f"{what}, {len(document) / 1e6:.1f} MB", {bars.FTQ: partial(loaded_alone, document)})


def loaded_alone(document):
    """The seconds that a new program takes to load one document."""
    with asking.Conversation() as conversation:
        return None, conversation.load(asking.loads_of([document]))


FEW, MANY = 20, 60


def remembering(bench, material):
    """What loaded documents take of memory, by how much more many of them take than few, so that what loading takes for a while and the program itself
    don't count."""
    size = 400_000 // material.scale
    for what, content in [("documents of <a/> after <a/>", texts.hollow(size)), ("documents with a paragraph every 300 bytes", texts.paragraphs(size))]:
        loads = asking.loads_of([content] * MANY)
        with asking.Conversation() as conversation:
            conversation.load(loads[:FEW])
            before = conversation.memory()[0]
            conversation.load(loads[FEW:])
            kept = (conversation.memory()[0] - before) / (MANY - FEW) / len(content)
        bench.size(f"{MANY} {what}", bars.FTQ, kept)
