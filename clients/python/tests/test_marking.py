"""Marked words in texts: where they stand, what is shown round them, and on which line of a file. No program is asked."""

from __future__ import annotations

from pathlib import Path

import pytest

pytest.importorskip("lxml")

from ftq_ask.answers import vimgrep  # noqa: E402
from ftq_ask.locating import Document, FileLines, Located  # noqa: E402
from ftq_ask.paths import last_test  # noqa: E402
from ftq_ask.reading import Rules, read_tree  # noqa: E402
from ftq_ask.showing import Asked, Marked, Piece, pieces_of, shortened, stretches  # noqa: E402
from ftq_ask.spots import Spots  # noqa: E402
from ftq_ask.trees import texts_of  # noqa: E402
from ftq_client import Element, Shown  # noqa: E402
from lxml import etree  # noqa: E402

LINE = 'doc("x")/a[1]'


def marked(words: str) -> Marked:
    return Marked(Shown.read(LINE, words))


def told(pieces: list[Piece]) -> str:
    return "".join(f"[{it.text}]" if it.asked else it.text for it in pieces)


def test_words_are_found_in_texts_one_behind_the_other() -> None:
    words = marked("a ab [a] b [ab]")
    assert words.hits_in(["a, ab (a) b. ab"]) == [[(7, 8, ""), (13, 15, "")]]
    assert words.hits_in(["a ", "ab", " - ", "a", "", "b ab"]) == [[], [], [], [(0, 1, "")], [], [(2, 4, "")]]
    assert told(pieces_of("a, ab (a) b. ab", words.hits_in(["a, ab (a) b. ab"])[0])) == "a, ab ([a]) b. [ab]"


def test_another_text_than_the_programs_has_no_marks_behind_the_first_difference() -> None:
    assert marked("a b [c]").hits_in(["a x c"]) == [[]]
    assert marked("[a] b [c]").hits_in(["a x c", ""]) == [[(0, 1, "")], []]
    assert marked("").hits_in(["a"]) == [[]] and marked("[a]").hits_in([]) == []


def test_a_stretch_is_shown_round_the_first_mark_and_one_for_each_on_demand() -> None:
    text = " ".join(f"w{number}" for number in range(200))
    words = marked(" ".join(f"[w{it}]" if it in (50, 52, 150) else f"w{it}" for it in range(200)))
    assert told(shortened(text, words, 40)) == "… w48 w49 [w50] w51 [w52] w53 w54 w55 w56 w57 …"
    assert [told(it) for it in stretches(text, words, 40)] == ["… w48 w49 [w50] w51 [w52] w53 w54 w55 w56 w57 …", "… w149 [w150] w151 w152 w153 w154 w155 w156 …"]
    assert [told(it) for it in stretches("a  b", marked("a b"))] == ["a b"]
    assert [told(it) for it in stretches("a b a", Asked('//p[. contains text "a"]'))] == ["[a] b [a]"]


@pytest.mark.parametrize(
    ("path", "test"),
    [
        ('collection()//p[. contains text "a ]" ftand "b"] ', '[. contains text "a ]" ftand "b"]'),
        ('collection()//p[@n][. contains text "a"]', '[. contains text "a"]'),
        ('collection()//p[. contains text "a" without content b]', ""),
        ('collection()//p[. contains text "a" without content b][. contains text "c"]', '[. contains text "c"]'),
        ('collection()//p[. contains text "a"][1]', ""),
        ('collection()//p[. contains text "a"]/b', ""),
        ('collection()//p[b contains text "a"]', ""),
        ("collection()//p[.//b[. contains text 'a']]", ""),
        ("collection()//p", ""),
        ("", ""),
    ],
)
def test_the_predicate_at_the_end_of_a_path(path: str, test: str) -> None:
    assert last_test(path) == test


def lines_in(path: Path, root: etree._Element, *included: etree._Element) -> dict[tuple[etree._Element, bool], int]:
    texts = Spots(root, path, included).texts
    assert {it for it, _ in texts.values()} <= {path}
    return {place: line for place, (_, line) in texts.items()}


def test_texts_know_their_lines(tmp_path: Path) -> None:
    path = tmp_path / "x.xml"
    path.write_text("<!DOCTYPE a SYSTEM 'x.dtd'>\n<a>one\n<b\n n='1'>two<!-- \n -->\nthree</b>\n&nbsp;four<c/>\n\n<c>five</c></a>")
    parser = etree.XMLParser(remove_comments=True, resolve_entities=False, recover=True)
    root = etree.parse(str(path), parser).getroot()
    lines = lines_in(path, root)
    (b,) = root.findall("b")
    assert lines[root, False] == 2 and lines[b, False] == 4 and lines[b, True] == 6
    assert [lines[it, False] for it in root.findall("c") if it.text] == [9]
    include = "<i:include xmlns:i='http://www.w3.org/2001/XInclude' href='x'><i:fallback>two</i:fallback></i:include>"
    path.write_text(f"<a>one\n{include}\nthree\n<b>four</b>\nfive</a>")
    root = etree.fromstring("<a>one\n<x><y>six</y></x>\nthree\n<b>four</b>\nfive</a>")
    x, b = root
    lines = lines_in(path, root, x)
    assert lines == {(root, False): 1, (b, False): 4, (b, True): 4}
    path.write_text("<a>one</a>")
    assert lines_in(path, root) == {} and lines_in(tmp_path / "absent.xml", root) == {}
    (b,) = etree.fromstring("<a>1<b>2<c/>3</b>4</a>")
    assert [(it.tag, behind, text) for it, behind, text in texts_of(b)] == [("b", False, "2"), ("c", True, "3")]


ENTITIES = """<!DOCTYPE a SYSTEM "types/a.dtd" [
<!ENTITY part SYSTEM "parts/one.xml">
<!ENTITY inner "<n>in</n>">
]>
<a>
<b/>&part;<c>x&inner;</c>
&far;<d/>
</a>"""


@pytest.mark.parametrize(("text", "rules"), [(ENTITIES, Rules()), (ENTITIES.replace(' SYSTEM "types/a.dtd"', "").replace("&far;", ""), Rules(doctypes=False))])
def test_elements_that_entities_bring_in_stand_in_their_own_files(text: str, rules: Rules, tmp_path: Path) -> None:
    files = {
        "types/a.dtd": "<!ENTITY far SYSTEM '../parts/far.xml'>\n<!ENTITY % more SYSTEM 'more.ent'>%more;",
        "types/more.ent": "<!ENTITY deep SYSTEM '../parts/deep.xml'>",
        "parts/one.xml": "\n<p>one\n<q/>two</p>\n<p/>",
        "parts/far.xml": "<?xml version='1.0' encoding='ISO-8859-1'?>\n<f>\u00e9</f>\n<f>&deep;\n<e/></f>",
        "parts/deep.xml": "\n\n<h>deep</h>",
        "d.xml": text,
    }
    for name, content in files.items():
        (tmp_path / name).parent.mkdir(exist_ok=True)
        (tmp_path / name).write_text(content, encoding="latin-1")
    path = tmp_path / "d.xml"
    document = Document(read_tree(path, rules), path, rules)
    places = {}
    for it in document.root.iter(etree.Element):
        place, line = document.place(it)
        places.setdefault(it.tag, []).append((place.relative_to(tmp_path).as_posix(), line))
    wanted = {"a": [("d.xml", 5)], "b": [("d.xml", 6)], "p": [("parts/one.xml", 2), ("parts/one.xml", 4)], "q": [("parts/one.xml", 3)]}
    wanted |= {"c": [("d.xml", 6)], "n": [("d.xml", 6)], "d": [("d.xml", 7)]}
    if "&far;" in text:
        wanted |= {"f": [("parts/far.xml", 2), ("parts/far.xml", 3)], "h": [("parts/deep.xml", 3)], "e": [("parts/far.xml", 4)]}
    assert places == wanted
    (p, _) = document.root.findall("p")
    assert document.text_lines(p) == [2, 3] and set(document.text_lines(document.root)) >= {None, 5, 6}
    inside = Document(read_tree(path, rules), path, rules)
    (tmp_path / "parts" / "one.xml").unlink()
    assert inside.place(inside.root)[0] == path


def test_lines_of_a_file_stand_round_the_first_mark(tmp_path: Path) -> None:
    path = tmp_path / "x.xml"
    path.write_bytes('<?xml version="1.0" encoding="ISO-8859-1"?>\r\n<a>\r\n<b>\u00e9 ab a</b></a>'.encode("latin-1"))
    files = FileLines()
    assert files.round(path, 3, 1) == [(2, "<a>"), (3, "<b>\u00e9 ab a</b></a>")] and files.line(path, 9) == ""
    at = Located(Element.read(LINE), path, 2, ("\n", "\u00e9 ab a"), text_lines=lambda: [2, 3])
    assert at.first_mark(marked("\u00e9 ab [a]")) == (3, "a") and at.first_mark(marked("\u00e9 ab a")) == (2, "")
    assert vimgrep(at, marked("\u00e9 [ab] a"), files) == f"{path}:3:7:<b>\u00e9 ab a</b></a>"
    assert vimgrep(at, marked("\u00e9 ab a"), files) == f"{path}:2:1:<a>"
    assert vimgrep(Located(Element.read(LINE)), marked("\u00e9"), files) == "" and FileLines().line(tmp_path / "absent.xml", 1) == ""
