"""tools/ask and tools/pack as commands, against the real program."""

from __future__ import annotations

import csv
import io
import json
import os
import re
import shutil
import signal
import subprocess
import time
from pathlib import Path
from typing import Any, Callable

import pytest

pytest.importorskip("lxml")
pytest.importorskip("rich")
pytest.importorskip("prompt_toolkit")

from conftest import TOP  # noqa: E402
from lxml import etree  # noqa: E402
from test_reading import named_folder  # noqa: E402

Ask = Callable[..., "subprocess.CompletedProcess[str]"]
STORM = 'collection()//p[. contains text "storm"]'


def test_an_answer_has_file_line_path_and_text(ask: Ask, folder: Path) -> None:
    ran = ask(folder / "voyages.xml", "--query", STORM)
    assert ran.returncode == 0
    assert ran.stdout.splitlines() == [
        f'{folder}/voyages.xml:6  doc("voyages.xml")/book[1]/chapter[1]/p[2]',
        "    No storm was seen.",
        f'{folder}/voyages.xml:8  doc("voyages.xml")/book[1]/chapter[2]/p[1]',
        "    A heavy storm struck the ship at night, sailing north.",
    ]
    assert ran.stderr == ""


def test_exit_statuses_are_greps(ask: Ask, folder: Path) -> None:
    good = folder / "voyages.xml"
    assert ask(good, "--query", STORM).returncode == 0
    assert ask(good, "--query", STORM.replace("storm", "calm")).returncode == 1
    assert ask(good, "--query", STORM[:-1]).returncode == 2
    assert ask(folder, "--query", STORM).returncode == 2
    assert ask(folder / "absent.xml", "--query", STORM).returncode == 2


def test_a_document_that_isnt_there_is_told_with_those_that_are(ask: Ask, folder: Path) -> None:
    for name, there in [
        ("voyage.xml", "close to it there is voyages.xml"),
        ("latin", "close to it there is more/latin.xml"),
        ("letters", "there is garden.xml, more/latin.xml, voyages.xml"),
    ]:
        ran = ask(folder, "--query", f'doc("{name}")//p')
        assert ran.returncode == 2 and ran.stderr.splitlines()[-1] == f"ask: there is no document {name}; {there}"
    for number in range(4):
        shutil.copy(folder / "voyages.xml", folder / "more" / f"v{number}.xml")
    try:
        ran = ask(folder / "more", "--query", 'doc("letters")//p')
    finally:
        for number in range(4):
            (folder / "more" / f"v{number}.xml").unlink()
    assert ran.stderr.splitlines()[-1] == "ask: there is no document letters; there is latin.xml, v0.xml, v1.xml and 2 more"


def test_a_folder_that_is_asked_is_read_with_what_its_files_bring_in(ask: Ask, tmp_path: Path) -> None:
    path = named_folder(tmp_path)
    question = ("--query", 'collection()//a[. contains text "north sea" ftand "one"]', "--format", "paths")
    ran = ask(tmp_path / "named", *question)
    assert (ran.returncode, ran.stdout) == (0, 'doc("docs/d.xml")/a[1]\n')
    assert "2 files passed over: 1 holds declarations alone (.ent 1), 1 stands in another file, and is read with it (.xml 1)" in ran.stderr
    ran = ask(path, *question)
    assert ran.returncode == 2 and "names.ent, which isn't in the file's folder" in ran.stderr


def test_files_that_cant_be_taken_are_named_and_the_rest_goes_on(ask: Ask, folder: Path) -> None:
    ran = ask(folder, "--query", 'collection()//*[. contains text "café" ftor "and sails" ftor "night"]', "--format", "paths")
    assert f"ask: {folder}/more/empty.xml:1: the file is empty" in ran.stderr
    assert f"ask: {folder}/more/malformed.xml:3: Opening and ending tag mismatch" in ran.stderr
    assert 'doc("garden.xml")/book[1]/p[1]' in ran.stdout
    assert 'doc("more/latin.xml")/book[1]/d:para[1]' in ran.stdout
    assert 'doc("voyages.xml")/book[1]/chapter[2]/p[1]' in ran.stdout


def test_what_is_beyond_the_limits_is_named_with_its_line(ask: Ask, tmp_path: Path) -> None:
    (tmp_path / "deep.xml").write_text("<a>\n" * 201 + "</a>" * 201)
    (tmp_path / "nodes.xml").write_text("<a>\n" + "<b/>\n" * 500_001 + "</a>")
    (tmp_path / "words.xml").write_text("<a>\n" + "<b>w w w w</b>\n" * 250_001 + "</a>")
    ran = ask(tmp_path, "--query", "collection()/a", "--count")
    assert ran.stdout == "0\n" and ran.stderr.splitlines()[:3] == [
        f"ask: {tmp_path}/deep.xml:201: an element stands inside 200 others, the most that are read",
        f"ask: {tmp_path}/nodes.xml:500001: more than 1,000,000 elements and texts, of which 50 % are white space between elements, "
        "which --drop-blanks leaves out; or else: divide the file",
        f"ask: {tmp_path}/words.xml:250002: more than 1,000,000 words: divide the file",
    ]


def test_an_element_without_text_shows_its_attributes(ask: Ask, tmp_path: Path) -> None:
    (tmp_path / "codes.xml").write_text('<codes>\n<code alpha="DE" name="Germany"/></codes>')
    ran = ask(tmp_path, "--query", 'collection()//code[@alpha = "DE"]')
    assert ran.stdout == f'{tmp_path}/codes.xml:2  doc("codes.xml")/codes[1]/code[1]\n    @alpha="DE" @name="Germany"\n'


def test_answers_are_a_page_that_is_xml(ask: Ask, tmp_path: Path) -> None:
    name = "a & b's <\u00e9>.xml"
    (tmp_path / name).write_text("<a>\n<p>one &lt;storm> &amp;\nstorm</p><p n='\"1\"'/><p>x</p></a>")
    path = 'collection()//p[. contains text "storm" or @n]'
    ran = ask(tmp_path, "--query", path, "--query", "collection()/b", "--query", "collection()//p[", "--format", "xml", "--whole", "--limit", 2)
    root = etree.fromstring(ran.stdout.encode())
    space = {"h": "http://www.w3.org/1999/xhtml"}
    assert root.xpath("//h:h1/h:code/text()", namespaces=space) == [path, "collection()/b"] and "syntax" in ran.stderr and ran.returncode == 2
    assert root.xpath("//h:p[@class = 'count']/text()", namespaces=space) == ["2 elements", "0 elements"]
    one, two = root.xpath("//h:li", namespaces=space)
    assert dict(one.attrib) == {"data-document": name, "data-file": str(tmp_path / name), "data-line": "2", "data-marked-line": "2"}
    assert "".join(one.xpath("h:p[@class = 'text']//text()", namespaces=space)) == "one <storm> &\nstorm"
    assert one.xpath("h:p/h:mark/text()", namespaces=space) == ["storm", "storm"] and two.xpath("string(h:p[2])", namespaces=space) == '@n=""1""'
    assert one.xpath("string(.//h:a/@href)", namespaces=space) == (tmp_path / name).as_uri()
    assert one.xpath("string(.//h:a)", namespaces=space) == f"{tmp_path / name}:2"
    assert root.xpath("//h:p[@class = 'hint']/text()", namespaces=space)[-1].startswith("no document has an element b")
    none = ask(tmp_path, "--query", "collection()//p[", "--format", "xml")
    assert etree.fromstring(none.stdout.encode()).xpath("count(//h:section)", namespaces=space) == 0
    assert etree.fromstring(ask(tmp_path, "--query", path, "--offset", 1, "--format", "xml").stdout.encode()).xpath("string(//h:ol/@start)", namespaces=space) == "2"


def test_files_are_read_by_how_they_begin_and_others_are_counted(ask: Ask, tmp_path: Path) -> None:
    files = {"a.page": "<page>storm</page>", "b.docbook": "<?xml version='1.0'?><book>storm</book>", "c.txt": "storm", "d.html": "<!doctype html>"}
    for name, text in files.items():
        (tmp_path / name).write_text(text)
    ran = ask(tmp_path, "--query", 'collection()/*[. contains text "storm"]', "--format", "paths")
    assert ran.stdout.splitlines() == ['doc("a.page")/page[1]', 'doc("b.docbook")/book[1]']
    said = "ask: 2 files passed over: 1 doesn't begin as an XML document does (.txt 1), 1 is HTML (.html 1)"
    assert ran.stderr == f"{said}; --verbose names them\n" and ran.returncode == 0
    ran = ask(tmp_path, "--query", "collection()/*", "--format", "paths", "--glob", "*.page")
    assert ran.stdout.splitlines() == ['doc("a.page")/page[1]']
    assert ran.stderr == "ask: 3 files passed over: 3 aren't named by --glob (.docbook 1, .txt 1, .html 1); --verbose names them\n"
    ran = ask(tmp_path, "--query", "collection()/*", "--count", "--verbose")
    reasons = [f"{tmp_path}/c.txt: passed over, since it doesn't begin as an XML document does", f"{tmp_path}/d.html: passed over, since it is HTML"]
    assert ran.stdout == "2\n" and ran.stderr == "".join(f"ask: {line}\n" for line in [said.removeprefix("ask: "), *reasons])


def test_an_included_element_has_its_own_file_and_line(ask: Ask, tmp_path: Path) -> None:
    (tmp_path / "parts").mkdir()
    (tmp_path / "parts" / "one.xml").write_text("<chapter>\n\n<p>storm</p></chapter>")
    (tmp_path / "book.xml").write_text(
        "<book xmlns:xi='http://www.w3.org/2001/XInclude'><xi:include href='parts/one.xml'/>\n<p>storm</p></book>"
    )
    book = tmp_path / "book.xml"
    assert ask(book, "--query", STORM).stdout.splitlines()[::2] == [
        f'{tmp_path}/parts/one.xml:3  doc("book.xml")/book[1]/chapter[1]/p[1]',
        f'{book}:2  doc("book.xml")/book[1]/p[1]',
    ]
    assert ask(book, "--query", STORM, "--count", "--no-xinclude").stdout == "1\n"
    packed = subprocess.run([TOP / "tools" / "pack", "--no-xinclude", book], capture_output=True, text=True, timeout=60).stdout
    assert "xi:include" in packed and "chapter" not in packed


def test_blocks_part_paragraphs_and_nothing_else_changes(ask: Ask, tmp_path: Path) -> None:
    path = tmp_path / "poem.xml"
    path.write_text('<poem>\n<x:l>one <i>two</i> three</x:l><x:l>four</x:l>five<item n="1"/>six<b>seven</b> <item><b>eight</b></item>nine\n</poem>')
    apart = 'collection()/poem[. contains text "{}" ftand "{}" different paragraph]'
    words = "one two three four five six seven eight nine".split()
    asked = [word for pair in zip(words, words[1:]) for word in ("--query", apart.format(*pair))]
    found = [line.split()[0] for line in ask(path, *asked, "--count", "--blocks", "x:l,item").stdout.splitlines()]
    assert found == ["0", "0", "1", "1", "1", "0", "1", "1"]
    assert {line.split()[0] for line in ask(path, *asked, "--count").stdout.splitlines()} == {"0"}
    elements = "collection()//*[. contains text \"five\" or . contains text \"eight\" or @n = \"1\"]"
    typed = f"print collection()//*\n{elements}\nprint collection()/poem[. contains text 'one' ftand 'nine' entire content]\n"
    plain, parted = ask(path, typed=typed), ask(path, "--blocks", "x:l", "--blocks", "item,p", typed=typed)
    assert parted.stdout == plain.stdout and "five" in plain.stdout
    ran = ask(path, "--blocks", "l", "--query", "collection()/poem[. contains text 'one' same sentence]")
    assert "ask: --blocks names l, and no document has such an element" in ran.stderr
    assert "hint: none of the elements here parts paragraphs" in ran.stderr
    assert "parts paragraphs" not in ask(path, "--blocks", "x:l", "--query", "collection()/poem[. contains text 'one' same sentence]").stderr


def test_files_that_stand_in_others_are_read_with_them_alone(ask: Ask, tmp_path: Path) -> None:
    files = {
        "a.xml": "<chapter><p>storm</p></chapter>",
        "b.xml": "<!DOCTYPE book [<!ENTITY c SYSTEM 'c.ent'><!ENTITY name 'Ship'>]><book xmlns:i='http://www.w3.org/2001/XInclude'>"
        "<i:include href='a.xml'/>&c;<i:include href='d.xml' xpointer='x'/></book>",
        "c.ent": "<chapter><p>storm &name;</p></chapter>",
        "d.xml": "<chapter><p id='x'>storm</p></chapter>",
    }
    for name, text in files.items():
        (tmp_path / name).write_text(text)
    ran = ask(tmp_path, "--query", STORM, "--format", "paths")
    assert ran.stdout.splitlines() == [
        'doc("b.xml")/book[1]/chapter[1]/p[1]',
        'doc("b.xml")/book[1]/chapter[2]/p[1]',
        'doc("b.xml")/book[1]/p[1]',
        'doc("d.xml")/chapter[1]/p[1]',
    ]
    assert ran.stderr == "ask: 2 files passed over: 2 stand in other files, and are read with them (.xml 1, .ent 1); --verbose names them\n" and ran.returncode == 0
    assert ask(tmp_path / "b.xml", tmp_path / "a.xml", "--query", STORM, "--count").stdout == "4\n"
    assert ask(tmp_path, "--query", STORM, "--count", "--workers", 2).stdout == "4\n"
    assert ask(tmp_path, "--query", STORM, "--count", "--no-xinclude").stdout == "3\n"
    names = ask(tmp_path, typed="names\ndrop b.xml\nnames\n").stdout.splitlines()
    assert names[0] == "elements: chapter 2, p 2, book 1" and names[3] == "elements: chapter 1, p 1"


def test_formats(ask: Ask, folder: Path) -> None:
    files = [folder / "voyages.xml", folder / "garden.xml", "--query", "collection()//title"]
    told = json.loads(ask(*files, "--format", "json").stdout)
    assert told["count"] == 4 and told["hints"] == []
    assert told["results"][3] == {
        "document": "garden.xml",
        "file": f"{folder}/garden.xml",
        "line": 2,
        "path": 'doc("garden.xml")/book[1]/title[1]',
        "text": "Garden Notes",
        "marks": [],
        "marked_line": 2,
    }
    rows = list(csv.DictReader(io.StringIO(ask(*files, "--format", "csv").stdout)))
    assert [row["line"] for row in rows] == ["3", "4", "8", "2"]
    assert ask(*files, "--format", "paths", "--offset", 1, "--limit", 2).stdout.splitlines() == [
        'doc("voyages.xml")/book[1]/chapter[1]/title[1]',
        'doc("voyages.xml")/book[1]/chapter[2]/title[1]',
    ]
    assert ask(*files, "--count").stdout == "4\n"
    assert ask(*files, "--count", "--limit", 1).stdout == "4\n"


def test_several_questions_are_answered_one_after_the_other(ask: Ask, folder: Path) -> None:
    none, titles, faulty = 'collection()//p[. contains text "calm"]', "collection()/book/title", "collection()//p[["
    asked = [word for path in (none, titles, faulty, STORM) for word in ("--query", path)]
    ran = ask(folder / "voyages.xml", *asked, "--format", "paths", "--limit", 1)
    lines = [f"==> {none} <==", f"==> {titles} <==", 'doc("voyages.xml")/book[1]/title[1]', f"==> {STORM} <==", 'doc("voyages.xml")/book[1]/chapter[1]/p[2]']
    assert (ran.stdout.splitlines(), ran.returncode) == (lines, 2)
    assert ran.stderr.count("syntax") == 1
    good = [*asked[:4], *asked[6:]]
    assert ask(folder / "voyages.xml", *good, "--count").stdout.splitlines() == [f"0 {none}", f"1 {titles}", f"2 {STORM}"]
    assert ask(folder / "voyages.xml", *good).stdout.splitlines()[1:4] == [
        f"==> {titles} <==",
        f'{folder}/voyages.xml:3  doc("voyages.xml")/book[1]/title[1]',
        "    Sea Voyages",
    ]
    told = json.loads(ask(folder / "voyages.xml", *good, "--format", "json").stdout)
    assert [(it["query"], it["count"], len(it["results"])) for it in told] == [(none, 0, 0), (titles, 1, 1), (STORM, 2, 2)]
    rows = list(csv.DictReader(io.StringIO(ask(folder / "voyages.xml", *good, "--format", "csv").stdout)))
    assert [(it["query"], it["line"]) for it in rows] == [(titles, "3"), (STORM, "6"), (STORM, "8")]
    assert [ask(folder / "voyages.xml", *asked[:2], *more).returncode for more in ([], asked[2:4], asked[4:6])] == [1, 0, 2]


@pytest.mark.parametrize("words", [["--count"], ["--format", "csv"], ["--limit", "3"], ["--offset", "1"], ["--whole"]], ids=lambda it: it[0])
def test_what_says_how_an_answer_is_written_wants_a_question(ask: Ask, folder: Path, words: list[str]) -> None:
    ran = ask(folder / "voyages.xml", *words, typed="collection()//p\n")
    assert (ran.returncode, ran.stdout) == (2, "") and f"{words[0]} is for the answer to --query" in ran.stderr


def test_a_fault_shows_a_caret_and_what_to_write(ask: Ask, folder: Path) -> None:
    ran = ask(folder / "voyages.xml", "--query", 'collection()//p[. contains text "storm" and "ship"]')
    lines = ran.stderr.splitlines()
    assert (ran.returncode, ran.stdout) == (2, "")
    assert lines[0].startswith("ask: syntax: ")
    assert lines[2].index("^") == lines[1].index('"ship"')
    assert lines[3].strip() == "between strings it is ftand; write:"
    assert lines[4].strip() == 'collection()//p[. contains text "storm" ftand "ship"]'


def test_no_path_is_advised_that_the_program_doesnt_read(ask: Ask, folder: Path) -> None:
    ran = ask(folder / "voyages.xml", "--query", "collection()//p[")
    assert ran.stderr.splitlines()[3:] == ["    it isn't closed: ] is missing"]
    shown = ask(folder / "voyages.xml", typed='explain "storm" and "ship"\nexplain storm\n').stdout.splitlines()
    assert shown[3:5] == ["    between strings it is ftand; write:", '    "storm" ftand "ship"']
    assert not any("collection()" in it for it in shown)


def test_hints_stand_beside_an_answer(ask: Ask, folder: Path) -> None:
    ran = ask(folder / "voyages.xml", "--query", 'collection()//para[. contains text "sto.*"]')
    assert ran.returncode == 1
    assert "hint: no document has an element para" in ran.stderr
    assert "using wildcards" in ran.stderr


def test_stems_of_the_collections_words_and_of_the_question(ask: Ask, folder: Path) -> None:
    pytest.importorskip("Stemmer")
    query = 'collection()//p[. contains text "sailed" using stemming]'
    found = ask(folder / "voyages.xml", folder / "garden.xml", "--stem", "english", "--count", "--query", query)
    assert (found.stdout, found.returncode) == ("2\n", 0)
    unknown = ask(folder / "voyages.xml", "--stem", "klingon", "--query", STORM)
    assert unknown.returncode == 2 and "english" in unknown.stderr


def test_a_stop_list_of_an_installed_package(ask: Ask, folder: Path) -> None:
    query = 'collection()//p[. contains text "left a harbour" using stop words at "english"]'
    ran = ask(folder / "voyages.xml", "--stop", "english", "--count", "--query", query)
    if "no installed package has a stop list" in ran.stderr:
        pytest.skip(ran.stderr)
    assert (ran.stdout, ran.returncode) == ("1\n", 0)


def test_abbreviations_of_a_language_and_of_a_file(ask: Ask, tmp_path: Path) -> None:
    (tmp_path / "one.xml").write_text("<p>Dr. Hill asked Abt. Two, z.B. for ships</p>")
    asked = [f'collection()/p[. contains text {it} same sentence]' for it in ('"dr" ftand "hill"', '"abt" ftand "two"', '"z.b" ftand "ships"')]
    asked = [word for it in asked for word in ("--query", it)]
    (tmp_path / "titles.txt").write_text("# titles\nABT.\n")

    def counts(*words: object) -> list[str]:
        return [line.split()[0] for line in ask(tmp_path / "one.xml", *asked, "--count", *words).stdout.splitlines()]

    assert counts() == ["0", "0", "0"]
    assert counts("--abbreviations", "en") == ["1", "0", "0"]
    assert counts("--abbreviations", "de") == ["1", "1", "1"]
    assert counts("--abbreviations", tmp_path / "titles.txt") == ["0", "1", "0"]
    for more in ([], ["--workers", 2]):
        assert counts("--abbreviations", "fr", "--abbreviations", tmp_path / "titles.txt", *more) == ["1", "1", "0"]


def test_a_list_of_abbreviations_that_cant_be_taken_is_named(ask: Ask, folder: Path, tmp_path: Path) -> None:
    (tmp_path / "bad").write_text("dr.\nz. B.\n")
    ran = ask(folder / "voyages.xml", "--abbreviations", "en", "--abbreviations", tmp_path / "bad", "--query", STORM)
    assert (ran.returncode, ran.stdout) == (2, "")
    assert ran.stderr == f"ask: {tmp_path}/bad:2: a list of abbreviations has one word in each line\n"
    ran = ask(folder / "voyages.xml", "--abbreviations", "klingon", "--query", STORM)
    assert ran.returncode == 2 and "ask: there are lists of abbreviations for de, en, fr, and klingon is none of these and no file" in ran.stderr


def test_words_end_at_tags_and_marks_of_punctuation_stay_beside_them(ask: Ask, tmp_path: Path) -> None:
    (tmp_path / "a.xml").write_text("<r><p>See <b>this</b>, (<i>not</i> that): <b>x</b>.5 <u>a</u>’s <b>end</b>.<i/></p></r>")
    text = ask(tmp_path, "--query", 'collection()//p[. contains text "not that"]').stdout.splitlines()[1].strip()
    assert text == "See this, (not that): x .5 a ’s end."


def test_an_empty_question_says_so(ask: Ask, folder: Path) -> None:
    ran = ask(folder / "voyages.xml", "--query", " ", "--query", "collection()/book", "--count")
    assert ran.returncode == 2 and ran.stdout == "1 collection()/book\n"
    assert ran.stderr.startswith("ask: the question is empty: ")


def test_what_an_edit_brings_is_known(ask: Ask, folder: Path) -> None:
    typed = 'insert first doc("voyages.xml")/book\n<new:one k="1">here</new:one><two/>\n.\ncollection()//two\ncollection()//*[@k]\nnames\n'
    shown = ask(folder / "voyages.xml", typed=typed).stdout
    assert "hint" not in shown and "new:one 1" in shown and "two 1" in shown and "k 1" in shown


def test_a_large_folder_is_divided_among_programs_by_itself(ask: Ask, tmp_path: Path, monkeypatch: pytest.MonkeyPatch) -> None:
    """With enough bytes of files for two programs, in order and in bytes as with one; what isn't taken comes in its order too."""
    for number in range(12):
        inside = "</r>" if number in (4, 9) else f"<p n='{number}'>storm {number}</p>" + "<!-- " + " " * 800_000 + " -->"
        (tmp_path / f"{number:02}.xml").write_text(f"<r>{inside}</r>")
    questions = [STORM, 'collection()//p[. contains text "storms"]', "collection()//q[", 'doc("03.xml")//p', "collection()//r[3]"]
    words = [tmp_path, "--no-cache", *(it for path in questions for it in ("--query", path))]
    one, several = ask(*words, "--workers", "1"), ask(*words)
    assert (several.stdout, several.stderr, several.returncode) == (one.stdout, one.stderr, one.returncode)
    assert one.stdout.count("storm ") == 11 and one.stderr.index("04.xml") < one.stderr.index("09.xml")


@pytest.mark.parametrize("workers", ["1", "3"])
def test_an_interrupt_ends_it_without_further_words(program: Path, tmp_path: Path, workers: str) -> None:
    for number in range(60):
        (tmp_path / f"{number}.xml").write_text(f"<r>{'<p>a storm</p>' * 20_000}</r>")
    call = [str(TOP / "tools" / "ask"), "--program", str(program), "--no-cache", "--workers", workers, str(tmp_path), "--query", STORM]
    for seconds in (0.0, 1.0):
        ran = subprocess.Popen(
            call, stdout=subprocess.PIPE, stderr=subprocess.PIPE, text=True, preexec_fn=lambda: signal.signal(signal.SIGINT, signal.SIG_DFL) and None
        )
        begun = Path(f"/proc/{ran.pid}/task/{ran.pid}/children")
        while not begun.read_text():
            time.sleep(0.01)
        time.sleep(seconds)
        ran.send_signal(signal.SIGINT)
        assert (ran.communicate(timeout=60)[1], ran.returncode) == ("", 130)


def test_several_programs_answer_as_one(ask: Ask, tmp_path: Path) -> None:
    for number in range(23):
        (tmp_path / f"d{number:02}.xml").write_text(f"<doc><p>number {number} {'even' if number % 2 == 0 else 'odd'}</p></doc>")
    for query in ('collection()//p[. contains text "even"]', "collection()/doc", 'doc("d07.xml")//p', 'doc("d07")//p', 'doc("absent")//p', "collection()//p["):
        one = ask(tmp_path, "--query", query, "--format", "paths")
        many = ask(tmp_path, "--query", query, "--format", "paths", "--workers", 4)
        assert (many.stdout, many.stderr, many.returncode) == (one.stdout, one.stderr, one.returncode)


def test_a_question_that_takes_too_long_is_given_up(program: Path, folder: Path, capsys: pytest.CaptureFixture[str]) -> None:
    from ftq_ask.collection import Collection
    from ftq_ask.commands import answer_all, read_words
    from ftq_client import Session
    from rich.console import Console

    class Stopping(Session):
        def command(self, line: str, block: bytes | str | None = None) -> Any:
            if "absent" in line and self.pid:
                os.kill(self.pid, signal.SIGSTOP)
            return super().command(line, block)

    late = 'collection()//p[. contains text "absent"]'
    with Stopping(program) as session:
        collection = Collection(session)
        collection.load(collection.plan([folder / "voyages.xml"]), lambda shown: None)
        session.give_up_after(0.5)
        options = read_words(["d.xml", "--query", STORM, "--query", late, "--query", STORM, "--count"])
        assert answer_all(collection, options, Console(stderr=True, width=200)) == 2
        said = capsys.readouterr()
        assert said.out.splitlines() == [f"2 {STORM}", f"2 {STORM}"] and said.err == f"ask: no reply within 0.5 s: {late}\n"
        assert session.processes == 2


def test_the_time_for_an_answer_is_a_number_of_seconds(ask: Ask, folder: Path) -> None:
    good = ask(folder / "voyages.xml", "--query", STORM, "--count", "--timeout", "60", "--workers", 2)
    assert (good.stdout, good.returncode) == ("2\n", 0)
    for word in ("0", "-1", "soon", "nan"):
        assert ask(folder / "voyages.xml", "--timeout", word).returncode == 2


def test_commands_from_a_pipe(ask: Ask, folder: Path) -> None:
    typed = "\n".join(
        [
            "collection()//p[",
            '  . contains text "storm"',
            "]",
            "query collection()/book/title",
            "print collection()/book/title",
            "stop common",
            "the",
            ".",
            'collection()//p[. contains text "struck a ship" using stop words at "common" union ("a")]',
            "load by-hand",
            "<poem><line>A calm sea</line></poem>",
            ".",
            'collection()//line[. contains text "calm"]',
            'load "a letter.xml"',
            "<letter>Dr. Hill ran</letter>",
            ".",
            "abbreviations",
            "dr.",
            ".",
            'doc("a letter.xml")/letter[. contains text "dr" ftand "hill" same sentence]',
            "//p",
            "stats",
            "files",
            "names",
            "help",
            "quit",
            "query collection()/never",
        ]
    )
    ran = ask(folder / "voyages.xml", typed=typed + "\n")
    assert ran.returncode == 0
    assert ran.stdout.count("2 elements\n") == 1
    assert ran.stdout.count("1 element\n") == 5
    assert 'by-hand  doc("by-hand")/poem[1]/line[1]' in ran.stdout and 'a letter.xml  doc("a letter.xml")/letter[1]' in ran.stdout
    assert "hint" not in ran.stdout
    assert "<title>Sea Voyages</title>" in ran.stdout
    assert "collection()//p\n" in ran.stdout
    assert f"voyages.xml  {folder}/voyages.xml" in ran.stdout
    assert "never" not in ran.stdout


def test_a_watch_is_kept_at_the_prompt(ask: Ask, folder: Path) -> None:
    path = 'doc("voyages.xml")/book[1]/chapter[2]/p[1]'
    typed = [f'watch "the storms" {STORM}', 'changes "the storms"', f"delete {path}", 'changes "the storms"', 'unwatch "the storms"', "changes other", "watch w collection()//"]
    shown = ask(folder / "voyages.xml", typed="\n".join(typed) + "\n").stdout.splitlines()
    assert shown[:6] == ["ok", "nothing came or went", "ok", f"- {path}", "ok", "no document, no mark and no watch is called other"]
    assert shown[6].startswith("syntax: ") and shown[7:9] == ["    collection()//", "    " + " " * len("collection()//") + "^"]


def test_a_mark_is_asked_at_the_prompt(ask: Ask, folder: Path) -> None:
    typed = [
        "mark before",
        'delete collection()//p[. contains text "heavy"]',
        'query at before collection()//p[. contains text "storm"]',
        STORM,
        "query at before collection()//",
        "query at absent collection()//p",
    ]
    shown = ask(folder / "voyages.xml", folder / "garden.xml", typed="\n".join(typed) + "\n").stdout.splitlines()
    assert shown[:3] == ["ok", "ok", "2 elements"]
    assert shown[3::2][:2] == [f'{folder}/voyages.xml  doc("voyages.xml")/book[1]/chapter[{number}]/p[{number % 2 + 1}]' for number in (1, 2)]
    assert shown[4::2][:2] == ["    (the document was edited since it was read)"] * 2
    assert shown[7] == "1 element" and shown[-1] == "no document, no mark and no watch is called absent"
    for mark in ("m", '"a mark"'):
        assert f"{folder}/garden.xml:3" in ask(folder / "garden.xml", typed=f"mark {mark}\nquery at {mark} collection()//p\n").stdout


FRONTS = ["", "query ", "query  at  m  ", 'query at "m n" ', "print ", "insert last ", "insert\tbefore ", "replace ", "delete "]


@pytest.mark.parametrize("front", FRONTS, ids=lambda it: it.replace("\t", "-") or "bare")
def test_a_caret_stands_under_the_fault(ask: Ask, folder: Path, front: str) -> None:
    path = 'collection()//é[1] & "x"'
    block = "<p/>\n.\n" if front.startswith(("insert", "replace")) else ""
    shown = ask(folder / "garden.xml", typed=f'mark m\nmark "m n"\n{front}{path}\n{block}').stdout.splitlines()
    caret = next(number for number, line in enumerate(shown) if line.strip() == "^")
    assert shown[caret - 1] == f"    {path}"
    assert shown[caret].index("^") == shown[caret - 1].index("&")


def test_a_caret_stands_under_the_fault_of_a_selection(ask: Ask, folder: Path) -> None:
    shown = ask(folder / "garden.xml", typed='explain  "a" ftand "b" ]\n').stdout.splitlines()
    assert shown[1:3] == ['    "a" ftand "b" ]', " " * 18 + "^"]


def test_a_file_that_changed_since_is_named(ask: Ask, tmp_path: Path, program: Path) -> None:
    from ftq_ask.collection import Collection
    from ftq_client import Session

    path = tmp_path / "d.xml"
    path.write_text("<a>one</a>")
    with Session(program) as session:
        collection = Collection(session)
        collection.load(collection.plan([path]), lambda shown: None)
        path.write_text("\n<a>other</a>")
        (found,) = collection.query("collection()/a")
        located = collection.locator.locate(found)
        assert (located.line, located.note) == (None, "the file has changed since it was read")


def test_packing(program: Path, folder: Path, tmp_path: Path) -> None:
    ran = subprocess.run([TOP / "tools" / "pack", "--query", "collection()/book", folder], capture_output=True, timeout=60)
    assert ran.returncode == 1
    assert b"empty.xml:1: the file is empty" in ran.stderr and b"malformed.xml:3:" in ran.stderr
    assert re.search(f'\n# {folder}/more/latin.xml\nload [0-9]+ "more/latin.xml"\n'.encode(), ran.stdout) and ran.stdout.startswith(b"session 2\n")
    session = tmp_path / "packed.ftq"
    session.write_bytes(ran.stdout)
    answered = subprocess.run([program, session], capture_output=True, text=True, timeout=60)
    assert answered.stdout.splitlines() == ["ok"] * 3 + ["= 3", 'doc("garden.xml")/book[1]', 'doc("more/latin.xml")/book[1]', 'doc("voyages.xml")/book[1]']
    assert answered.returncode == 0


@pytest.mark.skipif(not shutil.which("tmux"), reason="tmux is not installed")
def test_the_prompt_in_a_terminal(program: Path, folder: Path, tmp_path: Path) -> None:
    name = f"ask-{os.getpid()}"
    command = f"env XDG_STATE_HOME={tmp_path} {TOP}/tools/ask --program {program} {folder}/voyages.xml"
    tmux = ["tmux", "-L", name]
    subprocess.run([*tmux, "new-session", "-d", "-x", "120", "-y", "40", command], check=True)

    def screen(wanted: str) -> str:
        shown = ""
        for _ in range(300):
            shown = subprocess.run([*tmux, "capture-pane", "-p"], capture_output=True, text=True).stdout
            if wanted in shown:
                return shown
            time.sleep(0.2)
        raise AssertionError(f"{wanted!r} didn't come:\n{shown}")

    def press(*keys: str) -> None:
        subprocess.run([*tmux, "send-keys", *keys], check=True)

    try:
        screen("ask>")
        press("-l", "collection()//chap")
        press("Tab")
        screen("collection()//chapter")
        press("-l", "[")
        press("Enter")
        screen("...>")
        press("-l", '. contains text "storm"]')
        press("Enter")
        shown = screen("sailing north.")
        assert "2 elements" in shown and "voyages.xml:4" in shown and "The Departure" in shown
        press("Up")
        screen("ask> collection()//chapter[")
        press("C-c")
        press("-l", "quit")
        press("Enter")
        assert "collection()//chapter[" in (tmp_path / "ftq" / "history").read_text()
    finally:
        subprocess.run([*tmux, "kill-server"], capture_output=True)
