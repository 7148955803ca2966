"""The usual mistakes and the hints: what is said of a question."""

from __future__ import annotations

import time

import pytest

pytest.importorskip("lxml")

from ftq_ask.answers import advice_for_selection  # noqa: E402
from ftq_ask.collection import Collection  # noqa: E402
from ftq_ask.hints import hints  # noqa: E402
from ftq_ask.missing import all_hints  # noqa: E402
from ftq_ask.mistakes import FAULTS, MISTAKES, Advice, Mistake, advice_for  # noqa: E402
from ftq_ask.paths import asked_strings, asked_texts, asked_values, closes_nothing, missing_end, names_in, path_in, quoted, with_apostrophes  # noqa: E402
from ftq_ask.reading import Vocabulary  # noqa: E402
from ftq_client import BadCommand, NoSuchDocument, NoSuchList, QueryFault, Session  # noqa: E402

KNOWN = Vocabulary({"book": 2, "p": 2, "title": 2, "db:para": 1}, {"id": 2, "year": 1}, {"book": 2})


def test_there_are_thirty_and_more() -> None:
    assert len(MISTAKES) >= 30
    assert len({it.wrong for it in MISTAKES}) == len(MISTAKES)


def advised(path: str, session: Session, kind: str = "syntax") -> Advice | None:
    """What is advised for a path that the program refuses for a fault of that kind."""
    with pytest.raises((QueryFault, BadCommand)) as caught:
        session.query(path)
    fault = caught.value
    assert isinstance(fault, QueryFault) and fault.kind == kind, fault
    return advice_for(path, (fault.kind, fault.column(path)), Collection(session).fault_of)


@pytest.mark.parametrize("mistake", MISTAKES, ids=lambda it: it.wrong[:60])
def test_the_program_refuses_what_is_wrong_and_reads_what_is_written_instead(mistake: Mistake, session: Session) -> None:
    advice = advised(mistake.wrong, session)
    assert advice is not None and advice.why == mistake.why, advice
    assert (advice.write is None) == (mistake.put is None)
    try:
        session.query(advice.write or "collection()/*")
    except (NoSuchDocument, NoSuchList):
        pass


@pytest.mark.parametrize(
    ("path", "write"),
    [
        ('collection()//p[. contains text "storm', 'collection()//p[. contains text "storm"]'),
        ('collection()//p[. contains text ("storm"', 'collection()//p[. contains text ("storm")]'),
        ("collection()//p[@n", "collection()//p[@n]"),
        ("collection()//p[. contains text 'storm]", "collection()//p[. contains text 'storm']"),
        ('collection()//p[(. contains text "storm)]', 'collection()//p[(. contains text "storm")]'),
        ("//p[. contains text heavy storm using stemming]", 'collection()//p[. contains text "heavy storm" using stemming]'),
        ('collection()//p[. contains text "storm" ftand heavy]', 'collection()//p[. contains text "storm" ftand "heavy"]'),
        ("collection()//p[. contains text storm or ship]", 'collection()//p[. contains text "storm" ftor "ship"]'),
        ("book//p[@type=x]", 'collection()//book//p[@type = "x"]'),
        ('//p[ends-with(text(), "storm")]', 'collection()//p[. contains text "storm" at end]'),
        ('collection()//p[text() = "storm"]', 'collection()//p[. contains text "storm"]'),
        ('collection()//p[. contains text {"a" "b"} all]', 'collection()//p[. contains text {"a", "b"} all]'),
        ('collection()//p[contains(@Name,"x")]', 'collection()//p[@Name = "x"]'),
        ("//@type", "collection()//*[@type]"),
        ("collection()//@type", "collection()//*[@type]"),
        ("collection()//book/@type/p", "collection()//book[@type]/p"),
        ('//p[contains(text(), "a") or @id=3]/text()', 'collection()//p[. contains text "a" or @id = "3"]'),
        ('count(//p[. contains text "a" AND "b" OR "c"])', 'collection()//p[. contains text "a" ftand "b" ftor "c"]'),
        ("collection()//p | //title", "collection()//p"),
        ('//p[contains text "a" and not(contains text "b")]', 'collection()//p[. contains text "a" and not(. contains text "b")]'),
        ('//p[title/text() = "a"]', 'collection()//p[title contains text "a"]'),
        ('//p[. contains text "the a" using stop words english]', 'collection()//p[. contains text "the a" using stop words at "english"]'),
        ("storm AND ship", 'collection()//*[. contains text "storm" ftand "ship"]'),
        ("it's dark or ship and not night", 'collection()//*[. contains text "it\'s dark" ftor "ship" ftand ftnot "night"]'),
        ('collection() contains text "storm"', 'collection()/*[. contains text "storm"]'),
        ('//p contains text "storm" AND NOT "ship"', 'collection()//p[. contains text "storm" ftand ftnot "ship"]'),
        ("db:open()//p", "collection()//p"),
        ('//p[. contains text any of ("storm", "ship")]', 'collection()//p[. contains text {"storm", "ship"} any]'),
        ('//p[. contains text all ["storm" "ship"]]', 'collection()//p[. contains text {"storm", "ship"} all]'),
        ('//p[. contains text any \'storm ship\']', "collection()//p[. contains text 'storm ship' any word]"),
        ('//p[. contains text "storm" more than 2 times]', 'collection()//p[. contains text "storm" occurs at least 3 times]'),
        ('//p[. contains text "storm" occurs twice]', 'collection()//p[. contains text "storm" occurs exactly 2 times]'),
        ('//p[. contains text "storm"]]', 'collection()//p[. contains text "storm"]'),
        # What a string says is no mistake.
        ('//p[. contains text "FOR ALL: “it”" AND "TEXT" using case sensitive]', 'collection()//p[. contains text "FOR ALL: “it”" ftand "TEXT" using case sensitive]'),
        *[
            (f'collection()//p[. contains text "a" {wrong}]', f'collection()//p[. contains text "a" {right}]')
            for wrong, right in [
                ("without contents .//note", "without content .//note"),
                ("ignoring .//note", "without content .//note"),
                ("excluding the content of note | fn", "without content note | fn"),
                ("except *", "without content *"),
                ("without /note", "without content note"),
                ("without content collection()//note | //fn", "without content .//note | .//fn"),
                ("without content./note", "without content ./note"),
                ("WITHOUT CONTENT note", "without content note"),
                ("without content 'note' | \"fn\"", "without content note | fn"),
                ("without content .//@n", "without content .//*[@n]"),
                ("without content note ftor fn[@n] || *", "without content note | fn[@n] | *"),
                ('without content note ftand "b" window 5 words', 'ftand "b" window 5 words without content note'),
                ("without stemming", "using no stemming"),
                ("with stemming", "using stemming"),
            ]
        ],
        ('collection()//p[. contains text "a" && ("b" without content note)]', 'collection()//p[. contains text "a" ftand ("b") without content note]'),
        ('//p[. contains text "a"] without content fn[@n]', 'collection()//p[. contains text "a" without content fn[@n]]'),
    ],
)
def test_several_mistakes_are_repaired_together(path: str, write: str, session: Session) -> None:
    advice = advised(path, session)
    assert advice is not None and advice.write == write
    assert Collection(session).fault_of(write) is None


@pytest.mark.parametrize(
    ("selection", "write"),
    [
        ('"a" occurs exactly 2 times window 3 words ordered', '"a" occurs exactly 2 times window 3 words'),
        ('"a" occurs exactly 2 times ordered same sentence', '"a" occurs exactly 2 times same sentence'),
        ('"a" occurs exactly 2 times ftand "b" distance at most 3 words', '"a" occurs exactly 2 times ftand "b" window 5 words'),
        (
            '"x" ftand ("a" occurs at least 2 times ftand "b" distance from 1 to 4 sentences) ordered',
            '"x" ftand ("a" occurs at least 2 times ftand "b" window 6 sentences)',
        ),
        ('"b" ftand ftnot "a" occurs at least 2 times window 5 words', '"b" ftand "a" occurs at most 1 times window 5 words'),
        ('"b" ftand ftnot ("a" any occurs at most 0 times) same paragraph', '"b" ftand "a" any occurs at least 1 times same paragraph'),
        ('"a" occurs at most 0 times window 2 words', '"a" occurs at most 0 times'),
        ('"a" occurs at least 2 times using stemming at start', '"a" occurs at least 2 times using stemming'),
        ('{"a", "window 3 words"} all occurs at least 2 times window 3 words', '{"a", "window 3 words"} all occurs at least 2 times'),
        ('("a" occurs exactly 2 times ftor "b") ftand ("c" window 2 words) same sentence', '("a" occurs exactly 2 times ftor "b") ftand ("c" window 2 words)'),
        ('(ftnot (ftnot "a")) window 3 words', '(ftnot (ftnot "a"))'),
    ],
)
def test_a_count_under_a_filter_is_written_as_it_may_stand(selection: str, write: str, session: Session) -> None:
    front, back = 'collection()//p[. contains text "b" same sentence and not(. contains text ', ") and . contains text 'occurs' window 2 words]"
    advice = advised(f"{front}{selection}{back}", session, "inside filter")
    assert advice is not None and advice.write == f"{front}{write}{back}"
    assert session.query(advice.write) == []
    fault_of = Collection(session).fault_of_selection
    fault = fault_of(selection)
    assert fault and advice_for(selection, fault, fault_of) == Advice(advice.why, write)


@pytest.mark.parametrize(("path", "closes"), [("a[b]]", 4), ("a(b]", 3), ("a[b)]", 3), ("]", 0), ('a["]"]', None), ("a[(b)]", None), ("a[b", None)])
def test_a_bracket_that_closes_nothing(path: str, closes: int | None) -> None:
    assert [it for it in range(len(path)) if closes_nothing(path, it)] == ([] if closes is None else [closes])


def test_a_selection_by_itself_gets_no_advice_for_what_stands_round_it(session: Session) -> None:
    collection = Collection(session)
    fault = collection.fault_of_selection('"a" occurs exactly')
    assert fault and advice_for_selection('"a" occurs exactly', fault, collection.fault_of) is None


def test_filters_of_what_is_ignored_dont_stand_round_a_count(session: Session) -> None:
    ignored = 'without content b[. contains text "c" window 3 words]'
    advice = advised(f'collection()//p[. contains text "a" occurs exactly 2 times ordered {ignored}]', session, "inside filter")
    assert advice is not None and advice.write == f'collection()//p[. contains text "a" occurs exactly 2 times {ignored}]'


def test_what_counts_words_under_filters_is_read(session: Session) -> None:
    for selection in ('"a" occurs at least 2 times window 3 words', '{"a", "b"} occurs exactly 2 times ftand ("c" ftand ftnot "d") same sentence'):
        assert session.query(f"collection()//p[. contains text {selection}]") == []


def test_advice_is_sought_for_a_short_while() -> None:
    for part in ('"a" ftand ', " ", "[a", '"a",', '"', "(", "text "):
        for path in (f"collection()//p[. contains text {part * (900 // len(part))}", f"collection()//p{part * 30_000}"):
            start = time.process_time()
            advice_for(path, ("syntax", len(path) - 1), lambda written: ("syntax", 30))
            assert time.process_time() - start < 6, path[:60]


@pytest.mark.parametrize("path", ["collection()//order[foo bar]", "collection()//a[b c][position() = 2]", "collection()//a[b c d e f g][last()]"])
def test_what_stands_elsewhere_is_no_reason(path: str, session: Session) -> None:
    assert advised(path, session) is None


def test_what_changes_nothing_is_no_reason(session: Session) -> None:
    assert advised('collection()//p[. contains text {"storm", "ship"} all words nearby]', session) is None


@pytest.mark.parametrize("path", ["collection()//p[", 'collection()//p[. contains text "a" &', 'collection()//p[@n < "1"]', "collection()//p[)]]"])
def test_nothing_is_shown_that_the_program_doesnt_read(path: str, session: Session) -> None:
    advice = advised(path, session)
    assert advice is None or advice.write is None


def test_reading_a_path_looks_for_nothing(session: Session) -> None:
    session.load("d", b"<a/>")
    fault_of = Collection(session).fault_of
    for path, fault in [
        ("collection()//p", None),
        (' doc( "d" )//p[. contains text "x" using stop words at "absent"]', None),
        (' doc( "é" )//é[x[]', ("syntax", 17)),
        ("//p", ("syntax", 0)),
        ("two\nlines", ("syntax", 0)),
        ("collection()//p[1000001]", ("number", 16)),
    ]:
        assert fault_of(path) == fault, path
    assert session.stats().plans == 0
    assert Collection(session).fault_of_selection('"a" ftand') == ("syntax", 9)
    assert Collection(session).fault_of_selection('"a" ftand "b"') is None


def test_each_fault_of_the_program_has_words() -> None:
    assert set(FAULTS) == {"syntax", "deep", "number", "phrases", "option twice", "bad wildcard", "mild not exclude", "inside filter"}


@pytest.mark.parametrize(
    ("path", "found", "said"),
    [
        ("collection()//p/ancestor::book", 0, "no way upwards"),
        ("collection()//p/following-sibling::p", 0, "no way sideways"),
        ("collection()/child::book", 0, "/NAME".replace("NAME", "book")),
        ('collection()//p[. contains text "sto.*"]', 0, '"sto.*" using wildcards'),
        ('collection()//p[. contains text "sto*"]', 0, '"sto.*" using wildcards'),
        ('collection()//p[. contains text "sto*" using wildcards]', 0, '.*: "sto.*"'),
        ("collection()//titel", 0, "did you mean title?"),
        ("collection()//para", 0, "with its prefix: db:para"),
        ("collection()//d:p", 0, "with another prefix: p"),
        ("collection()//book[@jear]", 0, "no document has an attribute jear; did you mean year?"),
        ("collection()//book[@title]", 0, "no document has an attribute title; there are such elements: [title]"),
        ("collection()//year", 0, "no document has an element year; there are such attributes: [@year]"),
        ("collection()/p", 0, "no document's root is p; //p"),
        ('collection()//p[. contains text "rose" using stemming]', 1, "there are no stems"),
        ('collection()//p[. contains text "rose" using language "de"]', 1, "changes nothing"),
        ('collection()//p[. contains text "big storm"]', 0, '"big storm" all words'),
        ('collection()//p[. contains text "sto?m"]', 0, '"sto.m" using wildcards'),
        ('collection()//p[not contains text "storm"]', 0, "not(. contains text ..)"),
        ('collection()//p[. contains text "--"]', 0, "has no word"),
        ('collection()//p[. contains text "storm OR dark"]', 0, 'write ("storm" ftor "dark")'),
        ('collection()//p[. contains text "storm|dark night | sea"]', 0, 'write ("storm" ftor "dark night" ftor "sea")'),
        ('collection()//p[. contains text "storm AND dark"]', 0, 'write ("storm" ftand "dark")'),
        ('collection()//p[. contains text "storm && dark"]', 0, 'write ("storm" ftand "dark")'),
        ('collection()//p[. contains text "storm NOT dark"]', 0, 'write ("storm" ftand ftnot "dark")'),
        ('collection()//p[. contains text "R&amp;D"]', 0, 'write "R&D" for "R&amp;D"'),
        ('collection()//p[. contains text "storm" without content title or .//note]', 1, "without content title | .//note"),
        ('collection()//book[p contains text "storm" without content title]', 0, "without content p/title, or .//title"),
        ('collection()//p[. contains text "storm" without content title | .]', 1, "ignores all that is searched"),
        ('collection()//p[. contains text "storm" without content titel]', 1, "did you mean title?"),
        ("collection()//p[. contains text 'a &quot;big&#34; sea']", 1, """write 'a "big" sea' for "a &quot;big&#34; sea\""""),
    ],
)
def test_hints(path: str, found: int, said: str) -> None:
    told = hints(path, found, KNOWN, False, lambda written: True)
    assert any(said in it for it in told), told
    assert sum("beside each other" in it for it in told) <= 1


def hinted(path: str, session: Session) -> list[str]:
    """The hints for a path that has found nothing."""
    fault_of = Collection(session).fault_of
    assert fault_of(path) is None
    return hints(path, 0, KNOWN, False, lambda written: fault_of(written) is None)


def test_what_is_hinted_to_write_is_read(session: Session) -> None:
    for text in ("storm OR dark", "storm|dark", "R&amp;D and more", "storm NOT \"dark", "a 'b' && \"c"):
        path = f"collection()//p[. contains text {quoted(text)}]"
        (told,) = hinted(path, session)
        written = told.partition("write ")[2].partition(" for ")[0]
        assert Collection(session).fault_of(path.replace(quoted(text), written)) is None, told


@pytest.mark.parametrize(
    ("text", "said"),
    [
        ("x.{a}", '"x.{a}" is read as plain words; a pattern wants using wildcards, and is none as this is written'),
        ('a "sto*"', """'a "sto*"' is read as plain words; a pattern wants: 'a "sto.*"' using wildcards"""),
        ("a&#10;b", "a string is no XML, and has no references to characters"),
        ("|".join(f"w{it}" for it in range(65)), " are asked for beside each other"),
    ],
)
def test_no_hint_has_what_the_program_doesnt_read(text: str, said: str, session: Session) -> None:
    assert hinted(f"collection()//p[. contains text {quoted(text)}]", session)[0].endswith(said)


def test_words_elsewhere_are_asked_for_with_their_options(session: Session) -> None:
    (told,) = hinted('collection()//p[. contains text ("heavy sto.*" using wildcards ftand "x") using case sensitive]', session)
    assert told.endswith('; "heavy sto.*" all words using case sensitive using wildcards asks for them anywhere')


@pytest.mark.parametrize(
    "path",
    [
        'collection()//p[. contains text "storm"]',
        'collection()/book[@id = "b1"][title contains text "e.g" and not(db:para)]/*',
        'collection()//p[. contains text "sto.*" using wildcards ftand "3.14"]',
        'collection()//book[p contains text "storm" without content p/title | .//p[. contains text "without content a or p"] or title]',
        'collection()//book[p contains text "storm" without content .//title and @id]/p[p contains text "x" without content p[@id]]',
        'collection()//p[. contains text ("and" ftor "or") using stop words ("a.*")]',
        'doc("p")//title[. contains text "big storm" all words]',
        'collection()//p[. contains text "this OR that" ftor "R&D" ftor "AT&T; and more" ftor "a | b" ftor "Q&not this"]',
    ],
)
def test_no_hint_where_none_is_due(path: str) -> None:
    assert hints(path, 1, KNOWN, False, lambda written: False) == []


def test_what_is_told_of_a_path() -> None:
    path = 'doc("x")//a[@n = "1" and b contains text ("c d" ftor {"e", "f"} all) using stop words ("g") using thesaurus at "h" and not(i)]/or'
    assert asked_strings(path) == ["c d", "e", "f"]
    assert [(it.kind, it.name) for it in names_in(path)] == [("element", "a"), ("attribute", "n"), ("element", "b"), ("element", "i"), ("element", "or")]
    ignoring = 'collection()//a[b contains text "c" without content d | .//e[@n = "x"][f contains text "g" same sentence] | content/h]/contains'
    assert asked_strings(ignoring) == ["c", "g"]
    assert [it.name for it in names_in(ignoring)] == ["a", "b", "d", "e", "n", "f", "content", "h", "contains"]
    assert missing_end('a[("b') == '")]'
    assert missing_end("a[b]") == ""


@pytest.mark.parametrize(
    ("selection", "told"),
    [
        ('"a" using case sensitive ftand "b"', [("a", ("case sensitive",)), ("b", ())]),
        ('("a" ftor {"b", "c"} all words using stemming) using wildcards', [("a", ("wildcards",)), ("b", ("stemming", "wildcards")), ("c", ("stemming", "wildcards"))]),
        ('("a" using case insensitive ftand "b") using lowercase', [("a", ()), ("b", ("lowercase",))]),
        ('"a" using stop words ("x", "y") using uppercase same sentence', [("a", ("uppercase",))]),
        ('"a" occurs at least 2 times using no stemming', [("a", ())]),
        ('"a" ftand ftnot ("b" ftor "c") ftand ftnot {"d", "e"} any ftand "f"', [("a", ()), ("f", ())]),
        ('"a" not in "a b" ftand "c" occurs at most 2 times ftand {"d"} any word occurs exactly 0 times', [("a", ())]),
        ('"a" without content b[. contains text "c"] | d[@k = "v"] and . contains text "e"', [("a", ()), ("e", ())]),
        ('"a" at start or not(. contains text "b" and @n = "x")', [("a", ())]),
    ],
)
def test_which_words_have_to_be_there_and_how(selection: str, told: list[tuple[str, tuple[str, ...]]], session: Session) -> None:
    path = f"collection()//p[. contains text {selection}]"
    assert Collection(session).fault_of(path) is None
    assert [(it.value, it.options) for it in asked_texts(path) if it.needed] == told


def test_which_values_have_to_be_there() -> None:
    assert asked_values('collection()//a[@b = "1" and not(@c = "2")][. contains text "x" without content d[@e = "3"] or @f = \'4\']') == [("b", "1"), ("f", "4")]


@pytest.mark.parametrize(
    ("line", "path"),
    [
        ("query  a/b", "a/b"),
        ("query\tat m  a b", "a b"),
        ("insert last  a", "a"),
        ("watch w  a b", "a b"),
        ('watch "w w" a', "a"),
        ("print a ", "a "),
        ("explain 'a'", "'a'"),
        ("query at m", ""),
        ("stats", ""),
    ],
)
def test_the_path_of_a_command(line: str, path: str) -> None:
    assert path_in(line) == path


@pytest.mark.parametrize(
    ("selection", "sent"),
    [
        ("\"England's\"", "{\"England's\", \"England’s\"}"),
        ("'it''s' any word using stemming", "{'it''s', \"it’s\"} any word using stemming"),
        ("\"dogs' don't\" occurs at least 2 times", "{\"dogs' don't\", \"dogs' don’t\"} occurs at least 2 times"),
        ("ftnot \"it's\" ftand \"b\"", "ftnot {\"it's\", \"it’s\"} ftand \"b\""),
        ("\"it's\" all words", None),
        ("\"it's so\" phrase", None),
        ("{\"it's\", \"isn't\"} all", None),
        ("\"dogs'\" ftand \"'tis\"", None),
        ("\"it’s\" ftand \"l’an d'été\"", "{\"it’s\", \"it's\"} ftand {\"l’an d'été\", \"l’an d’été\", \"l'an d'été\"}"),
        ("\"b\" using stop words (\"it's\")", None),
        ("\"b\" using thesaurus at \"it's\"", None),
    ],
)
def test_apostrophes_are_looked_for_as_the_other_ones_too(selection: str, sent: str | None, session: Session) -> None:
    path = f"collection()//p[@n = \"it's\" or . contains text {selection}]"
    assert with_apostrophes(path) == f"collection()//p[@n = \"it's\" or . contains text {sent or selection}]"
    assert Collection(session).fault_of(with_apostrophes(path)) is None


def test_both_apostrophes_are_found_and_it_is_said_once(session: Session) -> None:
    session.load("d", "<d><p>England's</p><p>England’s</p><p>England</p></d>")
    collection = Collection(session)
    path = "collection()//p[. contains text \"england's\"]"
    assert [it.steps[-1].number for it in collection.query(path)] == [1, 2]
    assert collection.printed(path) == ["<p>England's</p>", "<p>England’s</p>"]
    told = [all_hints(path, 2, collection) for _ in range(2)]
    assert [len(it) for it in told] == [1, 0] and "--as-typed" in told[0][0]
    many = "collection()//p[. contains text " + " ftand ".join(["\"England's\""] * 40) + "]"
    assert [it.steps[-1].number for it in collection.query(many)] == [1]
    with pytest.raises(QueryFault) as caught:
        collection.query(path[:-1] + " ftand")
    assert caught.value.place == len(path) + 5
    # Where a choice of both would be more phrases than there may be, it is asked as it is typed, and nothing else is said.
    collection.told_of_apostrophes = False
    assert all_hints(many, 1, collection) == []
    collection.as_typed = True
    assert [it.steps[-1].number for it in collection.query(path)] == [1]
