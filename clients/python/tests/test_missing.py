"""What is said of words that no document has."""

from __future__ import annotations

from pathlib import Path
from typing import Callable, Iterator

import pytest

pytest.importorskip("lxml")

from ftq_ask import spellings  # noqa: E402
from ftq_ask.collection import Collection  # noqa: E402
from ftq_ask.missing import TOGETHER, all_hints  # noqa: E402
from ftq_client import Session  # noqa: E402

TEXT = """<d n="1"><p>England’s ships and the King's e-mail. Colour, colours, sailing, registered; to co-operate is naïve</p>
<p>Colour it don't</p></d>"""


@pytest.fixture(scope="module")
def asked(program: Path, tmp_path_factory: pytest.TempPathFactory) -> Iterator[Callable[[str], list[str]]]:
    """The hints for a path, over a document and another one beside it."""
    folder = tmp_path_factory.mktemp("missing")
    (folder / "d.xml").write_text(TEXT)
    (folder / "other.xml").write_text("<d><p>storm</p></d>")
    with Session(program) as session:
        collection = Collection(session)
        collection.load(collection.plan([folder]), lambda shown: None)
        yield lambda path: all_hints(path, len(collection.query(path)), collection)


@pytest.mark.parametrize(
    ("word", "close"),
    [
        ("England", "England’s"),
        ("Englnd", "England’s"),
        ("king", "King's"),
        ("kings", "King's"),
        ("dont", "don't"),
        ("email", '"e mail"'),
        ("cooperate", '"co operate"'),
        ("colur", "Colour"),
        ("strom", "storm"),
        ("colouring", "Colour, colours"),
        ("register", "registered"),
        ("quartz", None),
        ("zx", None),
    ],
)
def test_a_word_that_no_document_has_is_named_with_close_ones(word: str, close: str | None, asked: Callable[[str], list[str]]) -> None:
    if word in ("colouring", "register"):
        pytest.importorskip("Stemmer")
    told = asked(f'collection()//p[. contains text "{word}"]')
    assert told == [f"no document has the word {word}" + (f"; close to it there is {close}" if close else "")]


def test_only_what_is_lacking_is_named(asked: Callable[[str], list[str]]) -> None:
    assert asked('collection()//p[. contains text "ships storm"]') == [
        'the words of "ships storm" are asked for beside each other; "ships storm" all words asks for them anywhere'
    ]
    assert asked('collection()//p[. contains text "ships quartz" ftand "glas"]') == ["no document has the word quartz", "no document has the word glas"]
    assert asked('collection()//p[. contains text "storm" ftand "ships" ftand ftnot "quartz"]') == [TOGETHER]
    assert asked('collection()//p[. contains text "storm" ftor "quartz"]') == []
    for text, write in [("ships OR quartz", '("ships" ftor "quartz")'), ("ships AND quartz", '("ships" ftand "quartz")')]:
        told = [f'"{text}" is one phrase, with all its words beside each other; write {write}', "no document has the word quartz"]
        assert asked(f'collection()//p[. contains text "{text}"]') == told
    assert asked('collection()//p[. contains text "quartz&amp;storm"]')[1:] == ["no document has the word quartz"]
    for text, pattern in [("stor*m", "stor.*m"), ("sto?m", "sto.m")]:
        assert asked(f'collection()//p[. contains text "{text}"]') == [f'"{text}" is read as plain words; a pattern wants: "{pattern}" using wildcards']
    assert asked('doc("d")//p[. contains text "storm"]') == ['doc("d") doesn\'t have the word storm']
    assert asked('collection()//q[. contains text "storm"]') == ["no document has an element q"]
    assert asked('collection()//p[. contains text "regi.* quar.+" using wildcards]') == ["no document has a word that fits the pattern quar.+"]
    assert asked("collection()/d[not(p)]") == [TOGETHER]
    assert asked('collection()//p[. contains text "storm" ftand "ships" ftand ftnot ("quartz" ftor "glas")]') == [TOGETHER]
    assert asked('collection()//p[. contains text "storm" and not(. contains text "quartz")][2]') == [TOGETHER]


def test_a_word_that_is_there_in_another_form_is_named_so(asked: Callable[[str], list[str]]) -> None:
    for selection, using, there in [
        ('"STORM" using case sensitive', "case sensitive", "storm"),
        ('("england\'s" ftand "storm") using case sensitive', "case sensitive", "England’s"),
        ('"king\'s" using lowercase', "lowercase", "King's"),
        ('"naive" using diacritics sensitive ftand "co"', "diacritics sensitive", "naïve"),
        ('"colours" using uppercase using diacritics sensitive', "diacritics sensitive using uppercase", "colours"),
    ]:
        word = selection.partition('"')[2].partition('"')[0]
        told = f"no document has the word {word} as it is asked for using {using}; without that there is {there}"
        assert told in asked(f"collection()//p[. contains text {selection}]"), selection
    assert asked('collection()//p[. contains text "Storm" using case sensitive ftor "quartz" using case sensitive]')[1] == "no document has the word quartz"
    assert asked('collection()//p[. contains text "storm" using case sensitive ftand "COLOUR"]') == [TOGETHER]


def test_a_value_that_no_element_has_is_named(asked: Callable[[str], list[str]]) -> None:
    assert asked('collection()/d[@n = "1"]') == []
    assert asked('collection()/d[@n = "2"]') == ['no document has an element with @n = "2"']
    assert asked('doc("other.xml")/d[@n = "1" and not(@n = "3")]') == ['doc("other.xml") doesn\'t have an element with @n = "1"']
    assert asked('collection()/d[@m = "2"]') == ["no document has an attribute m"]
    assert asked('collection()//p[@n = "1"]') == [TOGETHER]


def test_distances_without_the_library(monkeypatch: pytest.MonkeyPatch) -> None:
    for one, other, wanted in [("storm", "storm", 0), ("storm", "strom", 2), ("storm", "stor", 1), ("storm", "stormy", 1), ("a", "b", 1)]:
        assert spellings._plain_distance(one, other, 2) == wanted
    assert spellings._plain_distance("storm", "quartz", 2) > 2


def test_words_are_gathered_when_they_are_needed_and_for_a_while(monkeypatch: pytest.MonkeyPatch) -> None:
    taken: list[int] = []

    def texts() -> Iterator[str]:
        for number in range(1_000_000):
            taken.append(number)
            yield f"word{number}"

    known = spellings.Spellings(texts, None)
    assert taken == []
    monkeypatch.setattr(spellings, "MOST_SECONDS", 0.05)
    assert known.near("wrod1") == ["word1"]
    assert 1 < len(taken) < 1_000_000
