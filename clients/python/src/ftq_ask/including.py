"""Inclusions by XInclude 1.0: documents, parts of them and texts of a file's folders, put into their place."""

from __future__ import annotations

import hashlib
import re
from dataclasses import dataclass
from pathlib import Path
from typing import Callable, Iterator

from lxml import etree

from .catalogs import path_of
from .trees import Tree, Untaken, put_nodes, put_text

INCLUDE = "{http://www.w3.org/2001/XInclude}include"
_FALLBACK = "{http://www.w3.org/2001/XInclude}fallback"
MOST_INSIDE = 50
"""How many files may include one another."""

Read = Callable[[Path, tuple[Path, ...]], Tree]
"""Reads a file that is included in those files, with its own inclusions done."""


@dataclass(frozen=True)
class Part:
    """What an inclusion brought in: its digest, the files of its elements, and the files that stand in it as wholes."""

    digest: bytes
    origins: dict[etree._Element, Path]
    wholes: frozenset[Path]


def included(path: Path, root: etree._Element, read: Read, inside: tuple[Path, ...], looked: set[Path], folders: list[Path]) -> Iterator[Part]:
    """Does the inclusions of a file, which is the last of those in `inside`, and tells of each what it brought in from these folders. The files that
    are looked for are put into `looked`."""
    row = _includes(root)
    for include in row:
        if include.getparent() is None:
            raise Untaken(path, include.sourceline, "the root is an inclusion: name the file that it includes")
        part = _part(path, include, inside, looked, folders)
        if part and include.get("parse", "xml") == "text":
            text = _text(path, include, part)
            put_text(include, text)
            yield Part(hashlib.blake2b(text.encode("utf-8"), digest_size=16).digest(), {}, frozenset())
            continue
        tree = read(part, inside) if part else None
        elements = _pointed(path, include, tree.root) if tree else []
        if tree and part and elements:
            put_nodes(include, "", elements)
            wholes = tree.parts | {part} if elements == [tree.root] else frozenset()
            yield Part(tree.digest, {**{it: part for it in elements}, **tree.origins}, wholes)
            continue
        fallback = include.find(_FALLBACK)
        if fallback is None:
            what = f"{include.get('href', '')} {include.get('xpointer', '')}".strip()
            why = f"{what} is included, and there is no such file in the file's folder or one that was named, or no such part of it"
            raise Untaken(path, include.sourceline, f"{why}; --no-xinclude leaves it as an element")
        row += _includes(fallback)
        put_nodes(include, fallback.text or "", list(fallback))


def _text(path: Path, include: etree._Element, part: Path) -> str:
    """The text of a file that is included as one. What no XML can hold is left out of it."""
    try:
        text = part.read_bytes().decode(include.get("encoding", "utf-8"), errors="replace")
    except LookupError:
        raise Untaken(path, include.sourceline, f"{include.get('href')} is included in an encoding that isn't known: {include.get('encoding')}") from None
    except OSError as error:
        raise Untaken(path, include.sourceline, f"{include.get('href')} is included: {error.strerror}") from None
    return re.sub("[\0-\x08\x0b\x0c\x0e-\x1f\ufffe\uffff]", "", text.removeprefix("\ufeff").replace("\r\n", "\n"))


def _includes(root: etree._Element) -> list[etree._Element]:
    """The inclusions below an element, without those that stand in for others."""
    inside = lambda it: any(above.tag == _FALLBACK for above in it.iterancestors() if above is not root and root in above.iterancestors())
    return [it for it in root.iter(INCLUDE) if not inside(it)]


def _part(path: Path, include: etree._Element, inside: tuple[Path, ...], looked: set[Path], folders: list[Path]) -> Path | None:
    """The file that an inclusion brings in; None where it isn't in the folders of the file that includes it."""
    named = path_of(include.get("href", ""))
    if named is None or not include.get("href"):
        return None
    part = (path.parent / named).resolve()
    looked.add(part)
    if len(inside) > MOST_INSIDE:
        raise Untaken(path, include.sourceline, f"{include.get('href')} is included by {MOST_INSIDE} files in one another")
    if part in inside:
        raise Untaken(path, include.sourceline, f"{include.get('href')} is included in itself")
    return part if any(map(part.is_relative_to, folders)) and part.is_file() else None


def _pointed(path: Path, include: etree._Element, root: etree._Element) -> list[etree._Element]:
    """The elements of a document that an inclusion brings in: its root, or those to which its pointer leads, without the texts behind them."""
    pointer = include.get("xpointer")
    if not pointer:
        return [root]
    try:
        found = _led_to(pointer.strip(), root)
    except (etree.XPathError, ValueError) as error:
        raise Untaken(path, include.sourceline, f"the pointer {pointer} can't be followed: {error}") from None
    for element in found:
        element.tail = None
    return found


def _led_to(pointer: str, root: etree._Element) -> list[etree._Element]:
    """The elements to which a pointer leads: a name alone is an identifier; of several schemes the first counts that leads somewhere."""
    if re.fullmatch(r"[^\W\d][\w.-]*", pointer):
        return _with_id(root, pointer)
    prefixes: dict[str, str] = {}
    for scheme, data in _schemes(pointer):
        if scheme == "xmlns":
            prefix, _, space = data.partition("=")
            prefixes[prefix.strip()] = space.strip()
        found = _by_steps(root, data) if scheme == "element" else _by_path(root, data, prefixes) if scheme == "xpointer" else []
        if found:
            return found
    return []


def _schemes(pointer: str) -> Iterator[tuple[str, str]]:
    """The parts of a pointer, each a scheme and what stands in its parentheses."""
    at = 0
    while told := re.compile(r"\s*([\w:.-]+)\(").match(pointer, at):
        end, depth = told.end(), 1
        while depth and end < len(pointer):
            depth += {"(": 1, ")": -1}.get(pointer[end], 0)
            end += 1
        if depth:
            break
        yield told[1], pointer[told.end() : end - 1]
        at = end
    if pointer[at:].strip():
        raise ValueError("it isn't one of XPointer's")


def _with_id(root: etree._Element, name: str) -> list[etree._Element]:
    """The element of an identifier: by xml:id, or by an attribute id where no document type says more."""
    found = root.xpath("descendant-or-self::*[@xml:id = $name]", name=name) or root.xpath("descendant-or-self::*[@id = $name]", name=name)
    return list(found[:1])


def _by_steps(root: etree._Element, data: str) -> list[etree._Element]:
    """The element of the scheme element(): an identifier or the root, and from there children by number."""
    first, *steps = data.split("/")
    here = _with_id(root, first) if first else [root] if steps and steps.pop(0) == "1" else []
    for step in steps:
        here = here[0][int(step) - 1 : int(step)] if here and step.isdecimal() and int(step) else []
    return here


def _by_path(root: etree._Element, data: str, prefixes: dict[str, str]) -> list[etree._Element]:
    """The elements of the scheme xpointer(), by an XPath of theirs, outer ones without those inside."""
    found = root.getroottree().xpath(re.sub(r"\bid\((\"[^\"]*\"|'[^']*')\)", r"//*[@xml:id = \1 or @id = \1]", data), namespaces=prefixes or None)
    if not isinstance(found, list) or not all(isinstance(it, etree._Element) for it in found):
        raise ValueError("it leads to something else than elements")
    return [it for it in found if not any(above in found for above in it.iterancestors())]
