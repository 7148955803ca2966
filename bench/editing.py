"""Edits and marks: of one document among many, of a large one, of elements of many at once, and of one text again and again."""

import itertools
import xml.etree.ElementTree as ElementTree
from functools import partial

import asking
import bars
import peers
import turns

WORDS = " ".join(f"w{number}" for number in range(30))
PARAGRAPH = f"<p>{WORDS}</p>".encode("ascii")


def accepted(conversation, command):
    """An edit, which finds nothing that could be compared, and its seconds."""
    return None, conversation.accepted(command)


def changed(table, statement, rows):
    """The same of FTS5."""
    return None, table.changed(statement, rows)


def editing(bench, material, only_quick=False):
    """All of them; --quick asks for those of one document among many and of each document."""
    one_among_many(bench, material)
    each_document(bench, material)
    if not only_quick:
        one_large_document(bench, material)
        some_documents(bench, material)
        one_text(bench, material)


def one_among_many(bench, material):
    """A paragraph put into one of many documents, the query for its word before and after, and a mark."""
    documents = material.documents
    rare = 'collection()//p[. contains text "w29"]'
    table = peers.Fts5(peers.paragraphs_of(documents)) if peers.has_fts5() else None
    with asking.Conversation() as conversation:
        conversation.load(asking.loads_of(documents))
        before = turns.in_turns("before", {bars.FTQ: lambda: conversation.found(rare)}, bench.rounds, warm=True)[1][bars.FTQ]
        numbers, marks = itertools.count(5), itertools.count()
        programs = {bars.FTQ: lambda: accepted(conversation, asking.with_block(f'insert last doc("d{next(numbers)}")/*', PARAGRAPH))}
        if table:
            programs[bars.FTS5] = partial(changed, table, "insert into p values (?)", [(WORDS,)])
        bench.compare(f"put a paragraph into one of {len(documents)} documents", programs, bar=bars.EDIT)
        after = {bars.FTQ: lambda: conversation.found(rare)}
        bench.compare("the query for its word behind that", after, note=lambda count: f"{count} found, {before.least * 1000:.2f} ms before", warm=True)
        bench.compare(f"a mark of {len(documents)} documents", {bars.FTQ: lambda: accepted(conversation, b"mark m%d\n" % next(marks))})


PLACES = [(chapter, place) for place in range(1, 4) for chapter in range(1, 4)]
"""The chapter and the paragraph in its first section that each book has for sure: nine paragraphs, and so as many edits."""


def each_document(bench, material):
    """One paragraph deleted out of each of many documents, each time another."""
    documents, places = material.documents, iter(PLACES)
    table, rows = peers.Fts5(peers.paragraphs_of(documents)) if peers.has_fts5() else None, iter(rows_at_places(documents))
    with asking.Conversation() as conversation:
        conversation.load(asking.loads_of(documents))

        def delete():
            chapter, _ = next(places)
            return accepted(conversation, b"delete collection()/book/chapter[%d]/section[1]/p[1]\n" % chapter)

        programs = {bars.FTQ: delete}
        if table:
            programs[bars.FTS5] = lambda: changed(table, "delete from p where rowid = ?", next(rows))
        # Half of the edits, so that there is another try.
        rounds = bench.rounds.at_most(len(PLACES) // 2)
        bench.compare(f"delete a paragraph of each of {len(documents)} documents", programs, bar=bars.EDITS, rounds=rounds)


def rows_at_places(documents):
    """For each place the rows of FTS5's table that have the paragraphs which stand there, one for each document."""
    rows, before = [[] for _ in PLACES], 0
    for document in documents:
        root = ElementTree.fromstring(document)
        numbers = {paragraph: number for number, paragraph in enumerate(root.iter("p"), before + 1)}
        before += len(numbers)
        for found, (chapter, place) in zip(rows, PLACES):
            found.append((numbers[root.find(f"chapter[{chapter}]/section[1]/p[{place}]")],))
    return rows


LARGE_PARAGRAPH = "word " * 50
SHORT = "<p>w0 w1 w2</p>"


def one_large_document(bench, material):
    """A paragraph put into one large document, and one in its middle replaced."""
    words = 1_000_000 // material.scale
    # A document has a million words at most, and what is put into it needs some of these.
    count = words // 50 - 10
    table = peers.Fts5([LARGE_PARAGRAPH] * count) if peers.has_fts5() else None
    with asking.Conversation() as conversation:
        conversation.load([asking.with_block("load large", b"<a>" + f"<p>{LARGE_PARAGRAPH}</p>".encode("ascii") * count + b"</a>")])
        for what, command, statement, row in (
            ("put a paragraph into a document", 'insert last doc("large")/a', "insert into p values (?)", ("w0 w1 w2",)),
            ("replace a paragraph of a document", f'replace doc("large")/a/p[{count // 2}]', "update p set text = ? where rowid = ?", ("w0 w1 w2", count // 2)),
        ):
            edit = asking.with_block(command, SHORT.encode("ascii"))
            programs = {bars.FTQ: partial(accepted, conversation, edit)}
            if table:
                programs[bars.FTS5] = partial(changed, table, statement, [row])
            bench.compare(f"{what} of {words:,} words", programs, bar=bars.LARGE_EDIT)


def some_documents(bench, material):
    """A paragraph deleted out of each fifth among many documents, by a word of theirs."""
    count = 2_000 // material.scale
    loads = made(count)

    def delete():
        with asking.Conversation() as conversation:
            conversation.load(loads)
            return accepted(conversation, b'delete collection()/doc[. contains text "t5"]/p[1]\n')

    bench.compare(f"delete a paragraph of each of {count // 5} among {count} documents", {bars.FTQ: delete})


def made(count):
    """The commands that load documents of two hundred words each, of which one in five has each word."""
    documents = []
    for number in range(1, count + 1):
        words = [b"t%d" % ((number + place) % 1000) for place in range(200)]
        paragraphs = b"".join(b"<p>" + b" ".join(words[start : start + 20]) + b"</p>" for start in range(0, 200, 20))
        documents.append(b"<doc>" + paragraphs + b"</doc>")
    return asking.loads_of(documents)


JOINS = 80


def one_text(bench, material):
    """Words put behind a text, which becomes one with them, again and again: twice as often should take twice the time."""
    piece = " word" * (1_000 // material.scale)
    insert = asking.with_block('insert last doc("d0")/a', piece.encode("ascii"))

    def join(times):
        with asking.Conversation() as conversation:
            conversation.load(asking.loads_of([b"<a>word</a>"]))
            return None, sum(conversation.accepted(insert) for _ in range(times))

    def join_rows():
        table = peers.Fts5(["word"])
        return None, sum(table.changed("update p set text = text || ?", [(piece,)]) for _ in range(JOINS))

    programs = {bars.FTQ: partial(join, JOINS), f"ftq, {JOINS // 2} times": partial(join, JOINS // 2)}
    if peers.has_fts5():
        programs[bars.FTS5] = join_rows
    bench.compare(f"put {1_000 // material.scale:,} words behind a text, {JOINS} times", programs, bar=bars.JOINED)
