"""Which files of a folder are read; no program takes part."""

from __future__ import annotations

from pathlib import Path

import pytest

pytest.importorskip("lxml")

from ftq_ask import choosing  # noqa: E402
from ftq_ask.choosing import DECLARATIONS, HIDDEN, HTML, NOT_XML, UNNAMED, Choice  # noqa: E402
from ftq_ask.trees import Untaken  # noqa: E402

FILES: dict[str, tuple[str | bytes, str | None]] = {
    "plain.xml": ("<a/>", None),
    "empty.xml": ("", None),
    "help.page": ('<?xml version="1.0"?>\n<!-- c > -->\n<page xmlns="u"/>', None),
    "guide.docbook": ('\ufeff<!DOCTYPE book PUBLIC "-//OASIS//DTD DocBook XML V4.5//EN" "d.dtd">\n<book/>', None),
    "style.xsl": ("\n <xsl:stylesheet version='1.0'>", None),
    "wide": ("<?xml version='1.0'?><größe/>".encode("utf-16"), None),
    "latin": ("<?xml version='1.0' encoding='ISO-8859-1'?><gr\xf6\xdfe/>".encode("latin-1"), None),
    "licensed.svg": (f"<!-- {'licence ' * 5_000} --><svg/>", None),
    "page.xhtml": ('<!DOCTYPE html PUBLIC "-//W3C//DTD XHTML 1.0 Strict//EN" "x.dtd"><html xmlns="http://www.w3.org/1999/xhtml"/>', None),
    "page.html": ("<!doctype html>\n<p>One<p>Two", HTML),
    "old.htm": ('<!DOCTYPE HTML PUBLIC "-//W3C//DTD HTML 4.01//EN" "x.dtd"><title>x</title>', HTML),
    "bare.html": ('<html lang="en"><br></html>', HTML),
    "book.dtd": ("<?xml version='1.0'?><!-- c --><!ELEMENT book ANY>", DECLARATIONS),
    "names.ent": ("<!ENTITY a 'b'>", DECLARATIONS),
    "module.mod": ("<!-- c -->%names;", DECLARATIONS),
    "notes.txt": ("No <b>markup</b> at its front", NOT_XML),
    "page.php": ("<?php echo '<a/>' ?><a/>", NOT_XML),
    "mail": ("<someone@example.org> wrote", NOT_XML),
    "picture.png": (b"\x89PNG\r\n\x1a\n\0\0", NOT_XML),
    "zeros": (b"<a>\0\0</a>", NOT_XML),
    "nothing": ("", NOT_XML),
    ".hidden.xml": ("<a/>", HIDDEN),
    ".git/config.xml": ("<a/>", HIDDEN),
}


def filled(folder: Path, names: list[str]) -> None:
    for name in names:
        (folder / name).parent.mkdir(parents=True, exist_ok=True)
        text = FILES[name][0] if name in FILES else "<a/>"
        (folder / name).write_bytes(text if isinstance(text, bytes) else text.encode())


@pytest.mark.parametrize("name", FILES)
def test_a_file_is_read_by_how_it_begins(name: str, tmp_path: Path) -> None:
    filled(tmp_path, [name])
    choice = Choice([])
    ((shown, path),) = choice.files_of([tmp_path])
    reason = FILES[name][1]
    assert (shown, path) == (Path(name), tmp_path / name) if reason is None else isinstance(path, Untaken)
    assert list(choice.passed) == ([reason] if reason else [])
    assert list(Choice([]).files_of([tmp_path / name])) == [(Path(Path(name).name), tmp_path / name)]


def test_what_is_passed_over_is_counted_with_its_reasons(tmp_path: Path) -> None:
    filled(tmp_path, list(FILES))
    choice = Choice([])
    assert [str(shown) for shown, _ in choice.files_of([tmp_path])] == sorted(name for name, (_, reason) in FILES.items() if reason is None)
    assert choice.said() == (
        "14 files passed over: 2 are hidden (.xml 2), 3 are HTML (.html 2, .htm 1), "
        "3 hold declarations alone (.dtd 1, .mod 1, .ent 1), 6 don't begin as XML documents do (mail 1, .txt 1, nothing 1, .php 1, others)"
    )
    first, *names = choice.lines(True)
    assert first == choice.said() and list(choice.lines(False)) == [f"{first}; --verbose names them"]
    assert len(names) == 14 and names[0] == f"{tmp_path}/.git/config.xml: passed over, since it is hidden"
    assert f"{tmp_path}/book.dtd: passed over, since it holds declarations alone" in names
    moved = list(choice.elsewhere(lambda path: Path("x") / path.name).lines(True))
    assert moved[0] == first and "x/config.xml: passed over, since it is hidden" in moved
    assert Choice([]).said() is None and list(Choice([]).lines(True)) == []


@pytest.mark.parametrize(
    ("globs", "found"),
    [
        (["*.page"], ["a/x.page", "y.page"]),
        (["a/*"], ["a/notes.txt", "a/x.page", "a/z.xml"]),
        (["*.page", "*.txt"], ["a/notes.txt", "a/x.page", "y.page"]),
        (["!*.page"], ["a/z.xml"]),
        (["a/*", "!*.txt"], ["a/x.page", "a/z.xml"]),
    ],
)
def test_patterns_choose_files(globs: list[str], found: list[str], tmp_path: Path) -> None:
    filled(tmp_path, ["y.page", "a/x.page", "a/z.xml"])
    (tmp_path / "a" / "notes.txt").write_text("text")
    choice = Choice(globs)
    assert [str(shown) for shown, _ in choice.files_of([tmp_path])] == found
    assert choice.passed[UNNAMED].total() + choice.passed.get(NOT_XML, choosing.Counter()).total() == 4 - len(found)


def test_files_in_the_order_of_their_paths(tmp_path: Path) -> None:
    filled(tmp_path, ["b.xml", "a/z.XML", "c/d/e.xml"])
    (tmp_path / "link.xml").symlink_to("b.xml")
    (tmp_path / "broken.xml").symlink_to("absent.xml")
    assert [str(shown) for shown, _ in Choice([]).files_of([tmp_path])] == ["a/z.XML", "b.xml", "c/d/e.xml"]
    (tmp_path / "none").mkdir()
    ((_, found),) = Choice([]).files_of([tmp_path / "none"])
    assert isinstance(found, Untaken)
