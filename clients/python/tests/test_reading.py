"""Reading files as they are; no program takes part."""

from __future__ import annotations

from pathlib import Path

import pytest

pytest.importorskip("lxml")

from ftq_client import Names  # noqa: E402
from ftq_ask.reading import Rules, Vocabulary, names_of, read_file  # noqa: E402
from ftq_ask.trees import Untaken  # noqa: E402


def written(folder: Path, text: str | bytes) -> Path:
    path = folder / "d.xml"
    path.write_bytes(text if isinstance(text, bytes) else text.encode())
    return path


@pytest.mark.parametrize(
    ("text", "content"),
    [
        ("<a>x</a>", "<a>x</a>"),
        ("<?xml version='1.0'?><!-- c --><a>x<!-- c -->y<?p i?>z</a><!-- c -->", "<a>xyz</a>"),
        ("<!DOCTYPE a [<!ENTITY e 'v<b/>'>]><a>x&e;y</a>", "<a>xv<b/>y</a>"),
        ("<!DOCTYPE a SYSTEM 'absent.dtd'><a>&nbsp;x&mdash;<b/>&eacute;y</a>", "<a>\u00a0x—<b/>éy</a>"),
        ("<a><![CDATA[<&]]></a>", "<a>&lt;&amp;</a>"),
        ("<a b='&quot;&#10;'>&#13;</a>", '<a b="&quot;&#10;">&#13;</a>'),
        ("<x:a y:b='1'><y/></x:a>", '<x:a y:b="1"><y/></x:a>'),
        ("\ufeff<a>x</a>", "<a>x</a>"),
        ("<?xml version='1.0' encoding='ISO-8859-1'?><a>\xe9</a>".encode("latin-1"), "<a>é</a>"),
        ("<?xml version='1.0' encoding='UTF-16'?><a>é</a>".encode("utf-16"), "<a>é</a>"),
        ("<?xml version='1.0' encoding='windows-1251'?><a>\u0436</a>".encode("cp1251"), "<a>ж</a>"),
    ],
)
def test_what_the_program_gets(tmp_path: Path, text: str | bytes, content: str) -> None:
    assert read_file(written(tmp_path, text)).content.decode() == content


@pytest.mark.parametrize(
    ("text", "line", "reason"),
    [
        ("", 1, "empty"),
        ("\n \n", 1, "white space"),
        ("<a>\n<b>\n</a>", 3, "mismatch"),
        ("<a>\n\n&e;</a>", 3, "Entity 'e' not defined"),
        ("<!DOCTYPE a SYSTEM 'absent.dtd'>\n<a>\n&chapter1;</a>", 3, "chapter1"),
        ("<!DOCTYPE a SYSTEM 'absent.dtd'>\n<a\nb='&x;'/>", 3, "'x' not defined"),
        (b"<a>\n\xff</a>", 2, "UTF-8"),
        ("no XML", 1, "Start tag expected"),
        ("<a>\n" * 201 + "</a>" * 201, 201, "200"),
        ("<a>\n" + "<b/>\n" * 1_000_001 + "</a>", 500_001, "elements and texts"),
        ("<a>\n" + "<b>w w w w</b>\n" * 250_001 + "</a>", 250_002, "1,000,000 words"),
    ],
    ids=lambda it: it[:20] if isinstance(it, (str, bytes)) else str(it),
)
def test_what_cant_be_taken_is_named_with_line_and_reason(tmp_path: Path, text: str | bytes, line: int, reason: str) -> None:
    path = written(tmp_path, text)
    with pytest.raises(Untaken) as caught:
        read_file(path)
    assert caught.value.line == line
    assert reason in caught.value.reason
    assert str(caught.value).startswith(f"{path}:{line}: ")


def test_entities_of_other_files_come_from_the_same_folder_alone(tmp_path: Path) -> None:
    (tmp_path / "inside").mkdir()
    (tmp_path / "secret.xml").write_text("secret")
    (tmp_path / "inside" / "part.xml").write_text("part")
    declared = "<!DOCTYPE a [<!ENTITY p SYSTEM 'part.xml'>\n<!ENTITY s SYSTEM '../secret.xml'>\n<!ENTITY h SYSTEM '/etc/hostname'>]>"
    assert read_file(written(tmp_path / "inside", f"{declared}<a>&p;</a>")).content == b"<a>part</a>"
    for entity, line in (("s", 2), ("h", 3)):
        with pytest.raises(Untaken, match="isn't in the file's folder") as caught:
            read_file(written(tmp_path / "inside", f"{declared}<a>&p;|&{entity};</a>"))
        assert caught.value.line == line


def named_folder(top: Path) -> Path:
    """A document in a folder of a folder, beside which another one has what it brings in; what isn't in the outer one it may not."""
    (top / "named" / "docs").mkdir(parents=True)
    (top / "named" / "common").mkdir()
    (top / "named" / "common" / "names.ent").write_text("<!ENTITY sea 'North Sea'>")
    (top / "named" / "common" / "part.xml").write_text("<part>one</part>")
    (top / "secret.xml").write_text("<secret/>")
    declared = "<!DOCTYPE a [<!ENTITY % names SYSTEM '../common/names.ent'>%names;]>"
    path = top / "named" / "docs" / "d.xml"
    path.write_text(f"{declared}<a>&sea;<include xmlns='http://www.w3.org/2001/XInclude' href='../common/part.xml'/></a>")
    return path


def test_files_of_a_folder_that_was_named_bring_in_one_another(tmp_path: Path) -> None:
    path = named_folder(tmp_path)
    named = Rules(within=frozenset({tmp_path / "named", tmp_path / "other"}))
    reading = read_file(path, named)
    assert reading.content == b"<a>North Sea<part>one</part></a>"
    assert reading.parts == {tmp_path / "named" / "common" / it for it in ("names.ent", "part.xml")}
    for rules in (Rules(), Rules(within=frozenset({tmp_path / "other", tmp_path / "named" / "common"}))):
        with pytest.raises(Untaken, match="names.ent, which isn't in the file's folder or one that was named"):
            read_file(path, rules)
    for text in ("<!DOCTYPE a [<!ENTITY s SYSTEM '../../secret.xml'>]><a>&s;</a>", "<a><include xmlns='http://www.w3.org/2001/XInclude' href='../../secret.xml'/></a>"):
        path.write_text(text)
        with pytest.raises(Untaken, match="in the file's folder or one that was named"):
            read_file(path, named)


DTD = "<!ELEMENT a (#PCDATA|b)*><!ENTITY sea 'the &waves;'><!ENTITY waves 'waves'><!ATTLIST b kind CDATA 'plain'>"


def test_a_document_type_beside_the_file_is_read(tmp_path: Path) -> None:
    (tmp_path / "types").mkdir()
    (tmp_path / "types" / "a.dtd").write_text(f"<!ENTITY % more SYSTEM 'more.ent'>%more;{DTD}")
    (tmp_path / "types" / "more.ent").write_text("<!ENTITY more 'and more'>")
    path = written(tmp_path, "<!DOCTYPE a SYSTEM 'types/a.dtd'><a>&sea; &more;<b/></a>")
    assert read_file(path).content == b'<a>the waves and more<b kind="plain"/></a>'
    with pytest.raises(Untaken, match="the entity sea is declared in another file, which isn't read"):
        read_file(path, Rules(doctypes=False))
    plain = written(tmp_path, "<!DOCTYPE a SYSTEM 'types/a.dtd'><a><b/></a>")
    assert read_file(plain, Rules(doctypes=False)).content == b"<a><b/></a>"


def test_a_document_type_elsewhere_isnt_read(tmp_path: Path) -> None:
    (tmp_path / "inside").mkdir()
    (tmp_path / "a.dtd").write_text(DTD)
    for name in ("../a.dtd", f"{tmp_path}/a.dtd", "http://example.org/a.dtd", "absent.dtd"):
        path = written(tmp_path / "inside", f"<!DOCTYPE a SYSTEM '{name}'><a>x<b/></a>")
        assert read_file(path).content == b"<a>x<b/></a>"


def test_entities_cant_make_little_into_much(tmp_path: Path) -> None:
    bomb = "<!ENTITY e0 'word '>" + "".join(f"<!ENTITY e{number} '{f'&e{number - 1};' * 10}'>" for number in range(1, 10))
    (tmp_path / "bomb.dtd").write_text(bomb)
    for front in (f"<!DOCTYPE a [{bomb}]>", "<!DOCTYPE a SYSTEM 'bomb.dtd'>"):
        for encoding in ("utf-8", "utf-16"):
            with pytest.raises(Untaken):
                read_file(written(tmp_path, f"<?xml version='1.0' encoding='{encoding}'?>{front}<a>&e9;</a>".encode(encoding)))
    assert len(read_file(written(tmp_path, "<a>" + "x" * 11_000_000 + "</a>")).content) == 11_000_007


@pytest.mark.parametrize(
    "entry",
    [
        '<public publicId="-//X//DTD  A//EN" uri="{types}/a.dtd"/>',
        '<group xml:base="{types}/"><system systemId="http://x.org/1.0/a.dtd" uri="a.dtd"/></group>',
        '<rewriteSystem systemIdStartString="http://x.org/" rewritePrefix="/absent/"/>'
        '<rewriteSystem systemIdStartString="http://x.org/1.0/" rewritePrefix="{types}/"/>',
        '<systemSuffix systemIdSuffix="/1.0/a.dtd" uri="{types}/a.dtd"/>',
        '<delegatePublic publicIdStartString="-//X//" catalog="other.xml"/>',
        '<delegateSystem systemIdStartString="http://x.org/" catalog="other.xml"/>',
        '<nextCatalog catalog="absent.xml"/><nextCatalog catalog="catalog.xml"/><nextCatalog catalog="other.xml"/>',
    ],
    ids=lambda it: it.partition(" ")[0],
)
def test_catalogs_lead_to_document_types(entry: str, tmp_path: Path, monkeypatch: pytest.MonkeyPatch) -> None:
    for name in ("types", "inside", "catalogs"):
        (tmp_path / name).mkdir()
    catalog = '<!DOCTYPE catalog SYSTEM "http://x.org/catalog.dtd">\n<catalog xmlns="urn:oasis:names:tc:entity:xmlns:xml:catalog">{}</catalog>'
    types = (tmp_path / "types").as_uri()
    (tmp_path / "catalogs" / "catalog.xml").write_text(catalog.format(entry.format(types=types)))
    (tmp_path / "catalogs" / "other.xml").write_text(catalog.format(f'<public publicId="-//X//DTD A//EN" uri="{types}/a.dtd"/>'))
    (tmp_path / "types" / "a.dtd").write_text(f"<!ENTITY % more SYSTEM 'more.ent'>%more;{DTD}")
    (tmp_path / "types" / "more.ent").write_text("<!ENTITY more 'and more'>")
    path = written(tmp_path / "inside", "<!DOCTYPE a PUBLIC '-//X//DTD A//EN' 'http://x.org/1.0/a.dtd'><a>&sea; &more;</a>")
    monkeypatch.setenv("XML_CATALOG_FILES", f"/absent/catalog.xml {tmp_path}/catalogs/catalog.xml")
    assert read_file(path).content == b"<a>the waves and more</a>"
    with pytest.raises(Untaken, match="declared in another file"):
        read_file(path, Rules(catalogs=False))


def test_a_document_names_no_catalog(tmp_path: Path, monkeypatch: pytest.MonkeyPatch) -> None:
    monkeypatch.setenv("XML_CATALOG_FILES", "")
    (tmp_path / "inside").mkdir()
    (tmp_path / "secret").write_text("secret")
    (tmp_path / "inside" / "catalog.xml").write_text(
        f'<catalog xmlns="urn:oasis:names:tc:entity:xmlns:xml:catalog"><system systemId="http://x.org/s" uri="{(tmp_path / "secret").as_uri()}"/></catalog>'
    )
    path = written(tmp_path / "inside", "<?oasis-xml-catalog catalog='catalog.xml'?><!DOCTYPE a [<!ENTITY s SYSTEM 'http://x.org/s'>]><a>&s;</a>")
    with pytest.raises(Untaken, match="isn't in the file's folder"):
        read_file(path)


TYPED = "<!DOCTYPE a [<!ELEMENT a (b|p|c:d)*><!ELEMENT b EMPTY><!ELEMENT p (#PCDATA|b)*><!ELEMENT c:d (p)>]>"
SPACED = "<a>\n <b/> <p> <b/> <b/> </p>\t<c:d> <p>x</p> </c:d>\u00a0<p xml:space='preserve'> </p>\r\n</a>"
KEPT = "<a>\n <b/> <p> <b/> <b/> </p>\t<c:d> <p>x</p> </c:d>\u00a0<p xml:space=\"preserve\"> </p>\n</a>"


@pytest.mark.parametrize(
    ("front", "drop", "content"),
    [
        ("", None, KEPT),
        (TYPED, None, '<a><b/><p> <b/> <b/> </p><c:d><p>x</p></c:d>\u00a0<p xml:space="preserve"> </p></a>'),
        (TYPED, False, KEPT),
        ("", True, '<a><b/><p><b/><b/></p><c:d><p>x</p></c:d>\u00a0<p xml:space="preserve"> </p></a>'),
    ],
)
def test_white_space_between_elements(front: str, drop: bool | None, content: str, tmp_path: Path) -> None:
    assert read_file(written(tmp_path, front + SPACED), Rules(drop_blanks=drop)).content.decode() == content


def test_white_space_is_kept_where_the_document_says_so(tmp_path: Path) -> None:
    text = '<a xml:space="preserve"> <b/> <c xml:space="default"> <b/> </c> </a>'
    assert read_file(written(tmp_path, text), Rules(drop_blanks=True)).content.decode() == text.replace("> <b/> </c>", "><b/></c>")


def test_white_space_counts_for_the_limit_unless_it_is_left_out(tmp_path: Path) -> None:
    body = "<a>\n" + "<b/>\n" * 600_000 + "</a>"
    path = written(tmp_path, body)
    with pytest.raises(Untaken, match="of which 50 % are white space between elements, which --drop-blanks leaves out; or else: divide the file"):
        read_file(path)
    assert read_file(path, Rules(drop_blanks=True)).content == b"<a>" + b"<b/>" * 600_000 + b"</a>"
    assert len(read_file(written(tmp_path, f"<!DOCTYPE a [<!ELEMENT a (b*)><!ELEMENT b EMPTY>]>{body}")).content) == 2_400_007


INCLUDES = "<a xmlns:xi='http://www.w3.org/2001/XInclude'>{}</a>"


@pytest.mark.parametrize(
    ("text", "content"),
    [
        ("x<xi:include href='parts/one.xml'/>y", "x<one>1<three>3</three></one>y"),
        ("<b/>x<xi:include href='parts/one.xml'/><xi:include href='parts/deep/three.xml'/>", "<b/>x<one>1<three>3</three></one><three>3</three>"),
        ("x<xi:include href='notes.txt' parse='text'/>y<b/>", "x1 &lt; 2\ny<b/>"),
        ("<xi:include href='odd.txt' parse='text'/>", "ab"),
        ("<b/><xi:include href='latin.txt' parse='text' encoding='iso-8859-1'/>", "<b/>\u00e9"),
        ("<xi:include href='absent.xml'><xi:fallback>none<b/>here</xi:fallback></xi:include>y", "none<b/>herey"),
        ("<b/>x<xi:include href='../secret.xml'><xi:fallback/></xi:include>y", "<b/>xy"),
        (
            "<xi:include href='absent.xml'><xi:fallback><xi:include href='parts/deep/three.xml'>"
            "<xi:fallback><xi:include href='never.xml'/></xi:fallback></xi:include></xi:fallback></xi:include>",
            "<three>3</three>",
        ),
        ("<xi:include href='parts/many.xml' xpointer='two'/>z", "<p xml:id='two'>2</p>z"),
        ("<xi:include href='parts/many.xml' xpointer='x'/>", "<p id='x'>3</p>"),
        ("<xi:include href='parts/many.xml' xpointer='element(/1/1)'/>", "<p>1</p>"),
        ("<xi:include href='parts/many.xml' xpointer='element(deep/1)'/>", "<q:p xmlns:q='u'>4</q:p>"),
        ("y<xi:include href='parts/many.xml' xpointer='xpointer(/many/p)'/>", "y<p>1</p><p xml:id='two'>2</p><p id='x'>3</p>"),
        ("<xi:include href='parts/many.xml' xpointer=\"xpointer(/*/*[@xml:id='two'])\"/>", "<p xml:id='two'>2</p>"),
        ("<xi:include href='parts/many.xml' xpointer=\"xpointer(id('two'))\"/>", "<p xml:id='two'>2</p>"),
        ("<xi:include href='parts/many.xml' xpointer='xmlns(a=u)xpointer(//a:p)'/>", "<q:p xmlns:q='u'>4</q:p>"),
        ("<xi:include href='parts/many.xml' xpointer='element(absent)element(two)'/>", "<p xml:id='two'>2</p>"),
        ("<xi:include href='parts/many.xml' xpointer='absent'><xi:fallback><b/></xi:fallback></xi:include>", "<b/>"),
    ],
)
def test_inclusions_are_done(text: str, content: str, tmp_path: Path) -> None:
    including(tmp_path)
    wanted = INCLUDES.format(content)
    assert read_file(written(tmp_path / "inside", INCLUDES.format(text))).content.decode() == wanted.replace("'", '"')
    assert b"xi:include" in read_file(written(tmp_path / "inside", INCLUDES.format(text)), Rules(includes=False)).content


@pytest.mark.parametrize(
    ("text", "line", "reason"),
    [
        ("\n<xi:include href='absent.xml'/>", 2, "absent.xml is included, and there is no such file .*; --no-xinclude leaves it as an element"),
        ("\n\n<xi:include href='../secret.xml'/>", 3, "no such file in the file's folder"),
        ("<xi:include href='http://example.org/x.xml'/>", 1, "no such file"),
        ("<xi:include href='d.xml'/>", 1, "d.xml is included in itself"),
        ("<xi:include href='parts/many.xml' xpointer='absent'/>", 1, "parts/many.xml absent is included, and there is no such file .* or no such part"),
        ("<xi:include href='parts/many.xml' xpointer='xpointer(//p[)'/>", 1, "can't be followed"),
        ("<xi:include href='parts/many.xml' xpointer='xpointer(//p/text())'/>", 1, "something else than elements"),
        ("<xi:include href='parts/many.xml' xpointer='xpointer(//p'/>", 1, "isn't one of XPointer's"),
        ("<xi:include xpointer='x'/>", 1, "x is included, and there is no such file"),
        ("<xi:include href='malformed.xml'/>", 1, "Premature end"),
        ("<xi:include href='notes.txt' parse='text' encoding='klingon'/>", 1, "an encoding that isn't known: klingon"),
    ],
)
def test_inclusions_that_cant_be_done_are_named(text: str, line: int, reason: str, tmp_path: Path) -> None:
    including(tmp_path)
    with pytest.raises(Untaken, match=reason) as caught:
        read_file(written(tmp_path / "inside", INCLUDES.format(text)))
    assert caught.value.line == line


def including(folder: Path) -> None:
    """Files that a document in the folder `inside` may include, and one beside it that it may not."""
    files = {
        "secret.xml": "<secret/>",
        "inside/parts/one.xml": "<one>1<include xmlns='http://www.w3.org/2001/XInclude' href='deep/three.xml'/></one>",
        "inside/parts/deep/three.xml": "<!DOCTYPE three [<!ENTITY n '3'>]><three>&n;</three>",
        "inside/parts/many.xml": "<many><p>1</p>t<p xml:id='two'>2</p>u<p id='x'>3</p><d xml:id='deep'><q:p xmlns:q='u'>4</q:p></d></many>",
        "inside/notes.txt": "1 < 2\r\n",
        "inside/malformed.xml": "<a>",
    }
    for name, text in files.items():
        (folder / name).parent.mkdir(parents=True, exist_ok=True)
        (folder / name).write_text(text, newline="")
    (folder / "inside" / "latin.txt").write_bytes(b"\xe9")
    (folder / "inside" / "odd.txt").write_bytes(b"\xef\xbb\xbfa\0\x1bb")


def test_inclusions_go_only_so_deep(tmp_path: Path) -> None:
    for number in range(60):
        (tmp_path / f"{number}.xml").write_text(INCLUDES.format(f"<xi:include href='{number + 1}.xml'/>"))
    (tmp_path / "60.xml").write_text("<b/>")
    with pytest.raises(Untaken, match="by 50 files in one another"):
        read_file(tmp_path / "0.xml")
    assert read_file(tmp_path / "30.xml").content.count(b"<a") == 30


@pytest.mark.parametrize("name", ["plain", "with a blank", "Größe %41"])
def test_entities_are_found_beside_a_file_that_is_named_from_where_one_stands(tmp_path: Path, monkeypatch: pytest.MonkeyPatch, name: str) -> None:
    folder = tmp_path / name
    (folder / "inner").mkdir(parents=True)
    (folder / "inner" / "part.xml").write_text("part")
    (folder / "of two words.xml").write_text("words")
    written(folder, "<!DOCTYPE a [<!ENTITY p SYSTEM 'inner/part.xml'><!ENTITY w SYSTEM 'of%20two%20words.xml'>]><a>&p; of &w;</a>")
    for place, path in ((tmp_path, f"{name}/d.xml"), (folder, "d.xml"), (folder, f"../{name}/d.xml"), (tmp_path, f"./{name}/inner/../d.xml")):
        monkeypatch.chdir(place)
        assert read_file(Path(path)).content == b"<a>part of words</a>"


def test_names_as_they_are_written(tmp_path: Path) -> None:
    text = "<d:a xmlns:d='u' xmlns='v' d:x='1 > \" e=\"2' y='2' xml:lang='en'>&lt;no z='3'><b/><d:b/>no=\"4\"<ö ä='x&#10;&gt;'/></d:a>"
    known = read_file(written(tmp_path, text)).vocabulary
    assert set(known.elements) == {"d:a", "b", "d:b", "ö"}
    assert set(known.attributes) == {"xmlns:d", "xmlns", "d:x", "y", "xml:lang", "ä"}
    assert set(known.roots) == {"d:a"}
    both = Vocabulary()
    both.add(known)
    both.add(names_of(b"<b><!-- <c d='5'/> --><e f='6'/></b>"))
    assert both.elements == {"d:a": 1, "b": 2, "d:b": 1, "ö": 1, "e": 1} and both.roots == {"d:a": 1, "b": 1}
    both.remove(known)
    assert (both.elements, both.attributes, both.roots) == ({"b": 1, "e": 1}, {"f": 1}, {"b": 1})


def test_names_lead_back_to_files() -> None:
    names = Names()
    assert names.name_for(Path("part one/Größe.xml")) == "part-one.Gr--e"
    assert names.name_for(Path("part-one/Gr--e.xml")) == "part-one.Gr--e-2"
    long = names.name_for(Path("x" * 100 + "/end.XML"))
    assert len(long) == 64 and long.endswith(".end")
    assert len(names.name_for(Path("x" * 100 + "/end.xml"))) == 64
