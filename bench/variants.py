"""ftq's questions beside the same with something more: words that are counted, words that are shown, elements that are left out, and questions that are
kept."""

import statistics
from functools import partial

import asking
import bars
import texts
import turns

COUNTED = [
    ("with a word three times in a window of twenty", '"lane" window 20 words', '"lane" occurs at least 3 times window 20 words'),
    (
        "with two words, the first of them twice, and without a third in one sentence",
        '"so" ftand "ra" ftand ftnot "pebi" same sentence',
        '"so" occurs exactly 2 times ftand "ra" ftand ftnot "pebi" same sentence',
    ),
]
"""A question in which words are counted: the selection without counting, and with it."""

PLAIN_NEAR = '"a" ftand "b" window 5 words'
COUNTED_NEAR = '"a" occurs at least 3 times ftand "b" occurs at least 3 times window 5 words'
"""The same of one element with many times `a b`, in which no five words have three of both."""


def uncompared(ask):
    """A question that may find something else than the ones that it stands beside."""
    return None, ask()[1]


def counting(bench, material):
    """Words that are counted in windows and sentences, and in one element with very many of them."""
    with asking.Conversation() as conversation:
        conversation.load(asking.loads_of(material.documents))
        for what, plain, counted in COUNTED:
            count_beside(bench, conversation, what, "collection()//p", plain, counted)
    times = 20_000 // material.scale
    with asking.Conversation() as conversation:
        conversation.load(asking.loads_of([b"<d>" + b"a b " * times + b"</d>"]))
        what = f"two words three times each in a window, which they never are, {times:,} times"
        count_beside(bench, conversation, what, "collection()/d", PLAIN_NEAR, COUNTED_NEAR)


def count_beside(bench, conversation, what, elements, plain, counted):
    """The rows of elements with a selection that counts, and with one that doesn't."""
    paths = [f"{elements}[. contains text {selection}]" for selection in (counted, plain)]
    programs = {bars.FTQ: partial(conversation.found, paths[0]), "ftq, not counting": partial(uncompared, partial(conversation.found, paths[1]))}
    bench.compare(what, programs, note=lambda count: f"{count} found")


SHOWN = [
    ("paragraphs with a frequent word", '"lesadi"'),
    ("with a phrase", '"lesadi so"'),
    ("with two frequent words", '"lesadi" ftand "so"'),
    ("with one of two words", '"ba" ftor "rido"'),
    ("with two words in a window of three", '"lesadi" ftand "so" window 3 words'),
    ("with two words at most three words apart", '"lesadi" ftand "so" distance at most 3 words'),
    ("with two words in order", '"lesadi" ftand "so" ordered'),
    ("with two words in one sentence", '"lesadi" ftand "so" same sentence'),
    ("with a word outside a phrase", '"so" not in "lesadi so"'),
]

SHOWN_LARGE = ['"a"', '"b a"', '"a" ftand "b"', '"b" ftand "a" window 2 words', '"b" ftand "a" ordered', '"b" ftand "a" same sentence']
"""The same of one element with many times `a b`."""

SHOWN_SECONDS = 5


def showing(bench, material):
    """The words by which elements are found: `show` prints all words of each, and marks some; in many elements, and in one of very many words."""
    with asking.Conversation() as conversation:
        conversation.begin_format_2()
        conversation.load(asking.loads_of(material.documents, asking.with_sized_block))
        for what, selection in SHOWN:
            show_beside(bench, conversation, what, f"collection()//p[. contains text {selection}]")
    count = 500_000 // material.scale
    for selection in SHOWN_LARGE:
        with asking.Conversation() as conversation:
            conversation.begin_format_2()
            conversation.load(asking.loads_of([b"<d>" + b"a b " * count + b"</d>"], asking.with_sized_block))
            show_beside(bench, conversation, f"{selection} in {2 * count:,} words", f"collection()/d[. contains text {selection}]")


def show_beside(bench, conversation, what, path):
    """The rows of `show` with a path and of `query`, which has to find as many."""

    def show():
        with conversation.within(SHOWN_SECONDS):
            return conversation.found(path, "show", 2)

    programs = {bars.FTQ: show, "ftq, query": partial(conversation.found, path)}
    compare_or_stop(bench, f"show: {what}", programs, SHOWN_SECONDS)


def compare_or_stop(bench, what, programs, seconds):
    """The rows of programs, or one that says that ftq was stopped after so many seconds."""
    try:
        bench.compare(what, programs, note=lambda count: f"{count} found")
    except asking.TooSlow:
        bench.add_stopped(what, seconds)


IGNORED = [
    ("chapters with a frequent word", "chapter", '"lesadi"', "note"),
    ("chapters with a rare word", "chapter", '"vahene"', "note"),
    ("chapters with a word that notes alone have", "chapter", '"remark"', "note"),
    ("chapters with two words in one sentence", "chapter", '"lesadi" ftand "so" same sentence', "note"),
    ("books with two words in a window of three", "book", '"lesadi" ftand "so" window 3 words', ".//note"),
    ("paragraphs with a frequent word", "p", '"lesadi"', "note"),
]
"""What chapters have with their notes and without them: the steps, the selection, and what is left out."""

IGNORED_LEVELS = [
    ("a phrase", '"a b"', "h"),
    ("a word of holes", '"x"', "h"),
    ("a word of holes", '"x"', ".//h"),
    ("two words far apart", '"b" ftand "y" window 9 words', "h"),
]
LEVELS, WORDS_EACH = 199, 5_022
IGNORED_SECONDS = 30


def ignoring(bench, material):
    """Chapters without the notes in them, beside the same with them; and an element of a million words at 200 levels, with a hole at each that is left
    out."""
    noted = texts.noted(material.documents)
    notes = sum(document.count(b"<note>") for document in noted)
    with asking.Conversation() as conversation:
        conversation.load(asking.loads_of(noted))
        for what, name, selection, ignored in IGNORED:
            ignore_beside(bench, conversation, f"{what}, {notes:,} notes", f"//{name}[. contains text {selection}", ignored)
    for what, selection, ignored in IGNORED_LEVELS:
        with asking.Conversation() as conversation:
            conversation.load(asking.loads_of([texts.levels(LEVELS, WORDS_EACH // material.scale)]))
            ignore_beside(bench, conversation, f"{what} at {LEVELS} levels, {ignored}", f"//e[. contains text {selection}", ignored)


def ignore_beside(bench, conversation, what, front, ignored):
    """The rows of a path without what is ignored, and with all that it searches."""

    def ignore():
        with conversation.within(IGNORED_SECONDS):
            return conversation.found(f"collection(){front} without content {ignored}]")

    programs = {bars.FTQ: ignore, "ftq, with all": partial(uncompared, partial(conversation.found, f"collection(){front}]"))}
    compare_or_stop(bench, f"without some: {what}", programs, IGNORED_SECONDS)


WATCHES = 64


def standing(bench, material):
    """Standing questions for frequent and for rare words, and the changes of each behind an edit of one document that changes all of them."""
    words = [texts.Words(texts.SEED).words[number * number] for number in range(WATCHES)]
    paragraph = f"<p>{' '.join(words)}</p>".encode("ascii")
    documents = material.documents
    with asking.Conversation() as conversation:
        conversation.begin_format_2()
        conversation.load(asking.loads_of(documents, asking.with_sized_block))
        settings = [f'watch w{number} collection()//p[. contains text "{word}"]\n'.encode("ascii") for number, word in enumerate(words)]
        bench.add(f"keep {WATCHES} questions over {len(documents)} documents", {bars.FTQ: turns.Times((conversation.load(settings),))})
        taken = [[] for _ in words]
        for number in range(bench.rounds.wanted):
            conversation.load([asking.with_sized_block(f'insert last doc("d{number}")/*', paragraph)])
            for watch, row in enumerate(taken):
                row.append(conversation.expected(b"changes w%d\n" % watch, "= 1"))
    times = turns.Times(tuple(statistics.mean(row) for row in zip(*taken)))
    slowest = max(min(row) for row in taken)
    note = f"of {WATCHES}, {slowest * 1000:.1f} ms the slowest, of the most frequent words"
    bench.add("the changes of one of them after an edit of one document", {bars.FTQ: times}, note)
