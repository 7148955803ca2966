"""Texts and questions that are easy to be slow on: how their time grows where they are twice as large."""

from functools import partial

import asking
import bars
import turns


def scaling(bench, material):
    """Loading a text and one query over its words."""
    half = 500_000 // material.scale
    for what, prefix, part in [
        ("a word of letters", "", "a"),
        ("combining marks on one letter", "e", "\u0301"),
        ("words of one letter", "", "x "),
        ("full stops", "", "."),
    ]:
        sessions = [session_of(f"<a>{prefix}{part * count}</a>") for count in (2 * half, half)]
        bench.compare(f"{what}, {2 * half:,} times", {bars.FTQ: partial(none_found, sessions[0]), "ftq, half of it": partial(none_found, sessions[1])})


def session_of(text):
    """The commands that load a text and ask it for a word that it hasn't."""
    return [asking.with_block("load d", text.encode("utf-8")), b'query collection()/a[. contains text "none"]\n']


def none_found(session):
    """The seconds that a new program takes for a session that finds nothing."""
    with asking.Conversation() as conversation:
        replies, seconds = conversation.timed_all(session)
    if replies != ["ok", "= 0"]:
        raise asking.Refused(f"{asking.shown(session[0])} and a query were answered {replies}")
    return None, seconds


NEAR = [
    ("two choices in a window", '("a" ftor "e") ftand ("b" ftor "f") window 5 words'),
    ("two choices in one sentence, in order and in a window", '("a" ftor "e") ftand ("b" ftor "f") same sentence ordered window 5 words'),
    ("words in a window, and another in a window with it", '("a" ftand "e" window 2 words) ftand "b" window 4 words'),
    ("three words at most three words apart", '"a" ftand "b" ftand "f" distance at most 3 words'),
    ("two values of two words at most two words apart", '{"a", "e"} any ftand {"b", "f"} any distance at most 2 words'),
    ("two words one to two paragraphs apart", '"a" ftand "b" distance from 1 to 2 paragraphs'),
    ("a word without another in its window, and a third in a window", '("a" ftand ftnot "c" window 3 words) ftand "b" window 9 words'),
    ("a word outside of two of it that stand near", '"a" not in ("a" ftand "a" distance at most 3 words)'),
]
"""What is asked of one element with many times `a e`, then other words, then as many times `b f`: nothing is found, and the less is looked at the
better."""
NEAR_SECONDS = 5


def near(bench, material):
    """Where frequent words stand in one element, in which they never stand so: the time of the question alone, and how it grows when the words are
    twice as many."""
    count = 20_000 // material.scale
    for what, selection in NEAR:
        path = f"collection()/d[. contains text {selection}]"
        half, whole = (never_found(path, number, bench.rounds) for number in (count // 2, count))
        title = f"{what}, {count:,} times"
        beside = {"ftq, half of it": half} if half else {}
        if whole:
            bench.add(title, {bars.FTQ: whole, **beside})
        else:
            bench.add_stopped(title, NEAR_SECONDS, beside, "" if half else ", and half of it too")


def never_found(path, count, rounds):
    """The times of a question that finds nothing among so many words of each kind; None where it takes longer than it may."""
    text = b"<d>" + b"a e " * count + b"x " * 100 + b"b f " * count + b"</d>"
    with asking.Conversation() as conversation:
        conversation.load(asking.loads_of([text]))

        def ask():
            with conversation.within(NEAR_SECONDS):
                return None, conversation.expected(f"query {path}\n".encode("utf-8"), "= 0")

        try:
            return turns.in_turns(path, {bars.FTQ: ask}, rounds)[1][bars.FTQ]
        except asking.TooSlow:
            return None
