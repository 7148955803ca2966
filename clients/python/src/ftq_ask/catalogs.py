"""Catalogs of XML: where on this machine a document type or an entity stands that is named by a public identifier or by an address.

They are OASIS's XML Catalogs 1.1, as far as they speak of public and system identifiers. Those that the variable XML_CATALOG_FILES names
are looked at, or Debian's in /etc/xml/catalog. What a document says of catalogs itself is not.
"""

from __future__ import annotations

import os
import re
from functools import lru_cache
from pathlib import Path
from typing import Iterator
from urllib.parse import unquote, urljoin

from lxml import etree

SYSTEM_CATALOG = "/etc/xml/catalog"
MOST_CATALOGS = 200

_NAMESPACE = "{urn:oasis:names:tc:entity:xmlns:xml:catalog}"
_BASE = "{http://www.w3.org/XML/1998/namespace}base"


def in_catalogs(public: str | None, system: str | None) -> Path | None:
    """The file that the catalogs name for these identifiers, if there is one."""
    seen: set[str] = set()
    for name in os.environ.get("XML_CATALOG_FILES", SYSTEM_CATALOG).split():
        found = _found(name if "://" in name else Path(name).absolute().as_uri(), _plain(public), system or "", seen)
        if found:
            path = path_of(found)
            return path if path and path.is_file() else None
    return None


def path_of(address: str) -> Path | None:
    """The file at an address; None where it is elsewhere than on this machine."""
    if address.startswith("file:"):
        return Path(unquote(re.sub(r"^file:(?://(?:localhost)?(?=/))?", "", address)))
    return None if re.match(r"[A-Za-z][A-Za-z0-9+.-]+:", address) else Path(unquote(address))


def _plain(public: str | None) -> str:
    """A public identifier with its white space as catalogs compare it."""
    return " ".join((public or "").split())


def _found(catalog: str, public: str, system: str, seen: set[str]) -> str | None:
    """What a catalog and those to which it leads say: the entries for the whole identifier first, then those for its beginning or end, then
    other catalogs."""
    if catalog in seen or len(seen) > MOST_CATALOGS:
        return None
    seen.add(catalog)
    entries = _entries(catalog)
    whole = [it for kind, key, it in entries if (kind == "system" and key == system) or (kind == "public" and public and key == public)]
    if whole:
        return whole[0]
    fronts = [(len(key), it + system[len(key) :]) for kind, key, it in entries if kind == "rewriteSystem" and key and system.startswith(key)]
    ends = [(len(key), it) for kind, key, it in entries if kind == "systemSuffix" and key and system.endswith(key)]
    if fronts or ends:
        return max(fronts or ends)[1]
    for further in _further(entries, public, system):
        found = _found(further, public, system, seen)
        if found:
            return found
    return None


def _further(entries: tuple[tuple[str, str, str], ...], public: str, system: str) -> Iterator[str]:
    """The catalogs to which one leads for these identifiers, the most particular ones first."""
    for wanted, text in (("delegateSystem", system), ("delegatePublic", public)):
        yield from (it for _, it in sorted(((-len(key), it) for kind, key, it in entries if kind == wanted and key and text.startswith(key))))
    yield from (it for kind, _, it in entries if kind == "nextCatalog")


_KEYS = {
    "system": ("systemId", "uri"),
    "public": ("publicId", "uri"),
    "rewriteSystem": ("systemIdStartString", "rewritePrefix"),
    "systemSuffix": ("systemIdSuffix", "uri"),
    "delegateSystem": ("systemIdStartString", "catalog"),
    "delegatePublic": ("publicIdStartString", "catalog"),
    "nextCatalog": ("", "catalog"),
}
"""The attributes of each kind of entry: what it is for, and what it leads to."""


@lru_cache(maxsize=None)
def _entries(catalog: str) -> tuple[tuple[str, str, str], ...]:
    """The entries of a catalog, each with its kind, what it is for and the address it leads to; none where it can't be read."""
    path = path_of(catalog)
    parser = etree.XMLParser(load_dtd=False, no_network=True, resolve_entities=False)
    try:
        root = etree.fromstring(path.read_bytes() if path else b"", parser)
    except (OSError, etree.XMLSyntaxError):
        return ()
    found = []
    for element in root.iter(*(f"{_NAMESPACE}{kind}" for kind in _KEYS)):
        kind = element.tag.removeprefix(_NAMESPACE)
        key, target = _KEYS[kind]
        base = catalog
        for above in [*reversed(list(element.iterancestors())), element]:
            base = urljoin(base, above.get(_BASE, ""))
        name = element.get(key, "") if key else ""
        found.append((kind, _plain(name) if "ublic" in kind else name, urljoin(base, element.get(target, ""))))
    return tuple(found)
