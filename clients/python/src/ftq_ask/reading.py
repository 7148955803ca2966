"""Reading XML files as they are, and writing them as the program takes them.

Document types, CDATA sections, entities and other encodings are lxml's to read; the program gets the same elements, attributes and
texts as plain UTF-8. Comments and processing instructions are left out, as the program skips them.
"""

from __future__ import annotations

import hashlib
import html.entities
import os
import re
from dataclasses import dataclass, field
from functools import lru_cache
from pathlib import Path
from typing import Callable, Iterable, Iterator
from urllib.parse import quote, unquote, urljoin

from lxml import etree

from .catalogs import in_catalogs, path_of
from .including import INCLUDE, included
from .limits import BLANKS, check_limits
from .trees import Tree, Untaken, put_text, written_attributes, written_name

MOST_BYTES = 67_108_864

_SPACE = "{http://www.w3.org/XML/1998/namespace}space"


@dataclass
class Vocabulary:
    """The names that documents have, as they are written there, each with the number of its documents."""

    elements: dict[str, int] = field(default_factory=dict)
    attributes: dict[str, int] = field(default_factory=dict)
    roots: dict[str, int] = field(default_factory=dict)

    def add(self, other: "Vocabulary") -> None:
        """Counts another document's names too."""
        for mine, theirs in ((self.elements, other.elements), (self.attributes, other.attributes), (self.roots, other.roots)):
            for name in theirs:
                mine[name] = mine.get(name, 0) + 1

    def remove(self, other: "Vocabulary") -> None:
        """Counts another document's names no more."""
        for mine, theirs in ((self.elements, other.elements), (self.attributes, other.attributes), (self.roots, other.roots)):
            for name in theirs:
                mine[name] -= 1
                if not mine[name]:
                    del mine[name]


    def less(self, other: "Vocabulary") -> "Vocabulary":
        """The names that another one doesn't have."""
        pairs = ((self.elements, other.elements), (self.attributes, other.attributes), (self.roots, other.roots))
        return Vocabulary(*({name: count for name, count in mine.items() if name not in theirs} for mine, theirs in pairs))


@dataclass(frozen=True)
class Rules:
    """What is read beside a file: its document type, what it includes, and what catalogs know of; and whether white space between elements
    is left out: where the document type says that it means nothing (None), everywhere or nowhere. `blocks` are the names of elements that part
    paragraphs beside those of which the program knows, `within` the folders whose files may bring in one another, beside those of their own folder."""

    doctypes: bool = True
    includes: bool = True
    catalogs: bool = True
    drop_blanks: bool | None = None
    blocks: frozenset[str] = frozenset()
    within: frozenset[Path] = frozenset()

    def folders_for(self, path: Path) -> list[Path]:
        """The folders of which a file may bring in others."""
        own = _real(os.path.abspath(path.parent))
        return [own, *sorted(it for it in self.within if it != own and own.is_relative_to(it))]


@dataclass(frozen=True)
class Reading:
    """A file that was read: its bytes for the program, its names, a digest by which a later look knows the file again, the files that stand in
    it as wholes, those that were looked for beside it, the digest of the file alone, and how many bytes the program gets."""

    path: Path
    content: bytes
    vocabulary: Vocabulary
    digest: bytes
    parts: frozenset[Path]
    beside: frozenset[Path]
    own: bytes
    size: int

    def texts(self) -> Iterator[str]:
        """The texts of its elements."""
        root = etree.fromstring(self.content, _parser(_Resolver(Path(os.devnull), Rules()), huge=True, doctypes=False))
        return (str(it) for it in root.itertext())


def read_tree(path: Path, rules: Rules = Rules(), inside: tuple[Path, ...] = ()) -> Tree:
    """The elements of a file, without comments, with all entities replaced and all inclusions done; `Untaken` where it isn't well-formed
    XML or can't be read. `inside` are the files that are being read when this one is included."""
    data = _read(path)
    resolver = _Resolver(path, rules)
    root = _parsed(path, data, resolver, rules)
    digest = hashlib.blake2b(data, digest_size=16)
    own = digest.digest()
    for beside in resolver.read:
        now = beside.stat()
        digest.update(f"{beside} {now.st_size} {now.st_mtime_ns}".encode("utf-8", errors="surrogateescape"))
    origins: dict[etree._Element, Path] = {}
    wholes = set(resolver.read)
    looked = set(resolver.looked)

    def read(part: Path, outer: tuple[Path, ...]) -> Tree:
        tree = read_tree(part, rules, outer)
        looked.update(tree.beside)
        return tree

    includes = rules.includes and next(root.iter(INCLUDE), None) is not None
    for part in included(path, root, read, (*inside, path.resolve()), looked, rules.folders_for(path)) if includes else ():
        digest.update(part.digest)
        origins.update(part.origins)
        wholes |= part.wholes
    if not inside:
        _drop_blanks(root, rules)
    return Tree(root, digest.digest(), origins, frozenset(wholes), frozenset(looked), own)


def _read(path: Path) -> bytes:
    try:
        data = path.read_bytes()
    except OSError as error:
        raise Untaken(path, None, error.strerror or "it can't be read") from None
    if not data.strip():
        raise Untaken(path, 1, "the file is empty" if not data else "the file holds nothing but white space")
    return data


def _parsed(path: Path, data: bytes, resolver: "_Resolver", rules: Rules) -> etree._Element:
    """The root element of a file's bytes."""
    root, parser = _recovered(path, data, _parser(resolver, huge=False, doctypes=rules.doctypes))
    info = root.getroottree().docinfo if root is not None else None
    if _first_fault(parser) is not None and info is not None and info.internalDTD is None and info.externalDTD is None:
        # What declares no entities can't make little into much, and may be as large and deep as it is.
        root, parser = _recovered(path, data, _parser(resolver, huge=True, doctypes=rules.doctypes))
    if root is None or _first_fault(parser) is not None:
        raise _untaken(path, parser, "it isn't XML")
    elsewhere = resolver.elsewhere_beside(root.getroottree().docinfo)
    if elsewhere:
        name = Path(elsewhere[0]).name
        line = 1 + data[: max(data.find(name.encode()), 0)].count(b"\n")
        raise Untaken(path, line, f"an entity brings in {name}, which isn't in the file's folder or one that was named, and isn't read")
    _replace_entities(path, root, parser)
    return root


def _drop_blanks(root: etree._Element, rules: Rules) -> None:
    """Leaves out texts of white space alone between elements: in elements that by the document type hold elements alone, or in all."""
    if rules.drop_blanks is False:
        return
    info = root.getroottree().docinfo
    names = None if rules.drop_blanks else _holding_elements(info.internalDTD) | _holding_elements(info.externalDTD)
    if names is not None and not names:
        return
    for element in root.iter(etree.Element):
        if not len(element) or (names is not None and written_name(element) not in names) or _keeps_blanks(element):
            continue
        if element.text and not element.text.strip(BLANKS):
            element.text = None
        for child in element:
            if child.tail and not child.tail.strip(BLANKS):
                child.tail = None


BLOCKS = frozenset(
    "abstract address article aside blockquote body book caption chapter dd div dl dt figure footer h1 h2 h3 h4 h5 h6 head header li main nav note"
    " ol p para part pre preface row section table td th title tr ul".split()
)
"""The names of the elements that part paragraphs for the program."""

EMPTY_LINE = "\n\t \t\n"
"""What parts paragraphs in a text, in a form that no text has by chance."""


def _part_paragraphs(root: etree._Element, names: frozenset[str]) -> None:
    """Puts an empty line at the front and at the end of each element of these names, which for the program parts paragraphs as the tags of some
    elements do. No element, name or word is another for it."""
    for element in root.iter(etree.Element):
        if written_name(element) not in names:
            continue
        if len(element):
            element[-1].tail = (element[-1].tail or "") + EMPTY_LINE
        elif element.text:
            element.text += EMPTY_LINE
        element.text = EMPTY_LINE + (element.text or "")


_PRINTED_EMPTY_LINE = EMPTY_LINE.replace("\n", "&#10;")
_HOLLOW = re.compile(r"<([^\s<>/]+)((?:\s[^<>]*)?)></\1>")


def without_empty_lines(printed: str) -> str:
    """An element as the program prints it, without the empty lines that part paragraphs."""
    return _HOLLOW.sub(r"<\1\2/>", printed.replace(_PRINTED_EMPTY_LINE, "")) if _PRINTED_EMPTY_LINE in printed else printed


def _holding_elements(types: etree.DTD | None) -> set[str]:
    """The names of the elements that a document type lets hold elements alone."""
    declared = types.iterelements() if types is not None else ()
    return {f"{it.prefix}:{it.name}" if it.prefix else it.name for it in declared if it.type == "element"}


def _keeps_blanks(element: etree._Element) -> bool:
    """Whether an element says, or the nearest one round it that says anything, that its white space is kept."""
    here: etree._Element | None = element
    while here is not None:
        if _SPACE in here.attrib:
            return bool(here.get(_SPACE) == "preserve")
        here = here.getparent()
    return False


def _recovered(path: Path, data: bytes, parser: etree.XMLParser) -> tuple[etree._Element | None, etree.XMLParser]:
    """What a parser makes of a file's bytes, whatever their faults, which stand in its log."""
    try:
        # By its whole path, since what a file names is found beside it: of a relative one the parser would put the folder before it twice.
        return etree.fromstring(data, parser, base_url="file://" + quote(os.path.abspath(path), errors="surrogateescape")), parser
    except etree.XMLSyntaxError as error:
        raise _untaken(path, parser, str(error)) from None


def read_file(path: Path, rules: Rules = Rules(), checked: bool = True) -> Reading:
    """A file as the program takes it; `Untaken` where the file or one of the program's limits doesn't let it. Where it isn't `checked`, the
    program is left to find what is beyond its limits."""
    tree = read_tree(path, rules)
    if rules.blocks:
        _part_paragraphs(tree.root, rules.blocks)
    content = etree.tostring(tree.root, encoding="UTF-8", xml_declaration=False, with_tail=False)
    if len(content) > MOST_BYTES - 128:
        raise Untaken(path, None, f"its {len(content):,} bytes are more than a session has")
    if checked:
        check_limits(path, tree.root, bool(rules.drop_blanks))
    return Reading(path, content, _names(content), tree.digest, tree.parts, tree.beside, tree.own, len(content))


def names_of(content: bytes) -> Vocabulary:
    """The names in a document that the program has taken."""
    root = etree.fromstring(content, _parser(_Resolver(Path(os.devnull), Rules()), huge=True, doctypes=False))
    return _names(etree.tostring(root, encoding="UTF-8", xml_declaration=False))


def names_of_nodes(content: bytes) -> Vocabulary:
    """The names in nodes that the program has put into a document."""
    known = names_of(b"<_>" + content + b"</_>")
    return Vocabulary({it: 1 for it in known.elements if it != "_"}, known.attributes)


@lru_cache(maxsize=64)
def _real(folder: str) -> Path:
    """A folder, named from the root, without links in its path."""
    return Path(folder).resolve()


class _Resolver(etree.Resolver):
    """Lets what a file names come from its folders, or from where the catalogs say that it is, and from nowhere else."""

    def __init__(self, path: Path, rules: Rules) -> None:
        super().__init__()
        self._folders = rules.folders_for(path)
        self._rules = rules
        self._elsewhere: list[tuple[str, str | None]] = []
        self.read: list[Path] = []
        """The files that were brought in."""
        self.looked: set[Path] = set()
        """Those, and the ones that weren't there."""

    def resolve(self, system_url: str | None, public_id: str | None, context: object) -> object:
        path = self.find(system_url or "", public_id)
        if path is None:
            self._elsewhere.append((system_url or "", public_id))
            return self.resolve_string("", context)
        self.read.append(path)
        return self.resolve_filename(os.fspath(path), context)

    def elsewhere_beside(self, info: etree.DocInfo) -> list[str]:
        """What was asked for and is elsewhere, without the document type: a file is read without it."""
        own = (info.system_url or "").rpartition("/")[2]
        return [
            unquote(system) or public or "" for system, public in self._elsewhere if not (system.rpartition("/")[2] == own and public == info.public_id)
        ]

    def find(self, system: str, public: str | None) -> Path | None:
        """The file that stands for these identifiers; None where it may not be read."""
        beside = path_of(system)
        if beside is not None and system:
            inside = (self._folders[0] / beside).resolve()
            self.looked.add(inside)
            if inside.is_file() and any(map(inside.is_relative_to, self._folders)):
                return inside
        if not self._rules.catalogs:
            return None
        known = in_catalogs(public, system)
        if known:
            self.looked.add(known)
            self._folders.append(known.resolve().parent)
        return known


def files_beside(path: Path, rules: Rules, read: frozenset[Path]) -> Callable[[Path, str, str | None], Path | None]:
    """Tells the file that another one names by its identifiers, as reading the file at `path` has found it; none but those that were `read` then."""
    resolver = _Resolver(path, rules)

    def file_of(naming: Path, system: str, public: str | None) -> Path | None:
        found = resolver.find(urljoin(naming.absolute().as_uri(), system), public)
        return found if found in read else None

    return file_of


def _parser(resolver: _Resolver, huge: bool, doctypes: bool) -> etree.XMLParser:
    """A parser that reads on after faults, so that all of them are in its log and those of namespaces can be let pass."""
    parser = etree.XMLParser(
        recover=True,
        resolve_entities=True,
        load_dtd=doctypes,
        attribute_defaults=doctypes,
        no_network=True,
        strip_cdata=True,
        remove_comments=True,
        remove_pis=True,
        huge_tree=huge,
    )
    parser.resolvers.add(resolver)
    return parser


def _first_fault(parser: etree.XMLParser) -> etree._LogEntry | None:
    """The first fault that makes a file no XML. An undeclared prefix doesn't, nor does an entity that a document type elsewhere
    may declare."""
    for entry in parser.error_log:
        if entry.level < etree.ErrorLevels.ERROR or entry.domain == etree.ErrorDomains.NAMESPACE:
            continue
        if entry.type != etree.ErrorTypes.WAR_UNDECLARED_ENTITY:
            return entry
    return None


def _untaken(path: Path, parser: etree.XMLParser, otherwise: str) -> Untaken:
    fault = _first_fault(parser)
    if fault is None:
        return Untaken(path, None, otherwise)
    return Untaken(path, fault.line, fault.message.strip().replace("\n", "; "))


def _replace_entities(path: Path, root: etree._Element, parser: etree.XMLParser) -> None:
    """Puts characters in the place of the entities that a document type elsewhere declares, where their names are the usual ones."""
    unread = [it for it in parser.error_log if it.type == etree.ErrorTypes.WAR_UNDECLARED_ENTITY]
    if not unread:
        return
    entities = list(root.iter(etree.Entity))
    for entity in entities:
        character = html.entities.html5.get(f"{entity.name}")
        if character is None:
            character = html.entities.html5.get(f"{entity.name};")
        if character is None:
            line = next((it.line for it in unread if f"'{entity.name}'" in it.message), None)
            raise Untaken(path, line, f"the entity {entity.name} is declared in another file, which isn't read")
        put_text(entity, character)
    if len(entities) < len(unread):
        raise Untaken(path, unread[0].line, f"{unread[0].message}: its declaration is in another file, which isn't read")


_TAG = re.compile(rb"<([^\s/>]+)([^>]*)>")
_ATTRIBUTE = re.compile(rb'([^\s=]+)="[^"]*"')


def _names(content: bytes) -> Vocabulary:
    """The names in a document as lxml writes it: no tag holds a greater-than sign, and no text a less-than sign."""
    tags = set(_TAG.findall(content))
    first = _TAG.search(content)
    attributes = {name for _, inside in tags for name in _ATTRIBUTE.findall(inside)}
    return Vocabulary(_counted(name for name, _ in tags), _counted(attributes), _counted([first[1]] if first else []))


def _counted(names: Iterable[bytes]) -> dict[str, int]:
    """Each name once, as one of a document's."""
    return {it.decode("utf-8"): 1 for it in names}
