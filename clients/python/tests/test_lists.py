"""Stems, stop lists and words, as far as no program takes part."""

from __future__ import annotations

from pathlib import Path

import pytest

pytest.importorskip("lxml")

from ftq_ask import lists  # noqa: E402
from ftq_ask.abbreviating import LANGUAGES, Abbreviations  # noqa: E402
from ftq_ask.lists import NoList, Stems, stop_words  # noqa: E402
from ftq_ask.showing import Asked, shortened  # noqa: E402
from ftq_ask.words import count_words, key, words_of  # noqa: E402
from ftq_client import Session  # noqa: E402


@pytest.mark.parametrize(
    ("text", "words"),
    [
        ("can't 3.14", ["can't", "3.14"]),
        ("e.g. the dogs' x", ["e.g", "the", "dogs", "x"]),
        ("1,234.5-6", ["1,234.5", "6"]),
        ("snake_case _", ["snake_case"]),
        ("选择文件", ["选", "择", "文", "件"]),
        ("Gr\u00f6\u00dfe re\u0301sume\u0301", ["Gr\u00f6\u00dfe", "re\u0301sume\u0301"]),
        ("\u043e\u0442\u043a\u0440\u044b\u0442\u044c", ["\u043e\u0442\u043a\u0440\u044b\u0442\u044c"]),
        ("-- .", []),
    ],
)
def test_words_are_those_of_the_manual(text: str, words: list[str]) -> None:
    assert [it[0] for it in words_of(text)] == words


@pytest.mark.parametrize(("word", "plain"), [("ÖFFNEN", "offnen"), ("Größe", "grosse"), ("Άνοιγμα", "ανοιγμα")])
def test_keys_are_those_of_the_manual(word: str, plain: str) -> None:
    assert key(word) == plain


def test_counting_goes_no_further_than_it_must() -> None:
    assert count_words(iter(["a b", "c"])) == 3
    assert count_words((f"{number} x" for number in range(10**9)), most=100) == 102


def test_stems_by_snowball() -> None:
    pytest.importorskip("Stemmer")
    stems = Stems("german")
    assert stems.add(["Die Häuser, das Haus"])
    assert not stems.add(["haus"])
    assert stems.lines().decode().split("\n")[0] == "hauser haus"
    assert stems.add_asked('collection()//p[. contains text "Häusern" using stemming]')
    assert stems.stem("hausern") == "haus"
    with pytest.raises(NoList):
        Stems("klingon")


def test_a_stop_list_that_isnt_there_is_named(monkeypatch: pytest.MonkeyPatch) -> None:
    monkeypatch.setattr(lists, "STOP_FOLDERS", "/absent")
    monkeypatch.setattr(lists, "_whoosh_words", lambda language: ())
    with pytest.raises(NoList, match="python3-whoosh"):
        stop_words("english")


@pytest.mark.parametrize("language", LANGUAGES)
def test_lists_of_abbreviations_have_one_word_in_a_line(language: str, session: Session) -> None:
    text = Abbreviations([language]).lines.decode("utf-8")
    rows = [it for it in text.splitlines() if not it.startswith("#")]
    keys = [key(told[0]) for it in rows for told in words_of(it)]
    assert len(rows) == len(keys) == len(set(keys)) > 50 and all(it.endswith(".") for it in rows)
    session.abbreviations(text)


def test_several_lists_of_abbreviations_are_one(tmp_path: Path) -> None:
    (tmp_path / "titles").write_bytes(b"\xef\xbb\xbf# titles\ndr.\n")
    (tmp_path / "en").write_bytes(b"ed.\r\n\r\nvol.")
    both = Abbreviations([str(tmp_path / it) for it in ("titles", "en")])
    assert both.lines == b"# titles\ndr.\n\ned.\r\n\r\nvol."
    assert [both.place(it) for it in (1, 2, 4, 6)] == [f"{tmp_path}/titles:1", f"{tmp_path}/titles:2", f"{tmp_path}/en:1", f"{tmp_path}/en:3"]
    with pytest.raises(IndexError):
        both.place(7)
    assert Abbreviations([]).lines == b""
    for word in ("english", str(tmp_path), ""):
        with pytest.raises(ValueError, match="de, en, fr"):
            Abbreviations([word])


def test_texts_are_shortened_around_the_words_that_were_asked_for() -> None:
    text = "lorem ipsum " * 40 + "a heavy storm struck the ship " + "dolor " * 50
    pieces = shortened(text, Asked('collection()//p[. contains text "ship" ftand "STORM"]'), 80)
    assert [it.text for it in pieces if it.asked] == ["storm", "ship"]
    shown = "".join(it.text for it in pieces)
    assert shown.startswith("… ") and shown.endswith(" …") and len(shown) <= 84
    assert [it.text for it in shortened("short text", Asked("collection()//p"), 80)] == ["short text"]
    wild = Asked('collection()//p[. contains text "sto.{1,2}" using wildcards]')
    assert [it.text for it in shortened("stop sto storm Store", wild, 80) if it.asked] == ["stop", "storm", "Store"]
    assert len("".join(it.text for it in shortened("x" * 1_000, Asked("collection()//p"), 80))) <= 84
