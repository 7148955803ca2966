"""Folders of files that are documents as the program reads them."""

from __future__ import annotations

from dataclasses import dataclass
from pathlib import Path
from typing import Iterator

from .faults import ClientError
from .names import Names


@dataclass(frozen=True)
class Folder:
    """What came of a folder: the files of the documents that were loaded, by their names, and why the others weren't."""

    documents: dict[str, Path]
    refused: dict[Path, ClientError]


def named_files(folder: Path, pattern: str) -> Iterator[tuple[str, Path]]:
    """The files of a folder whose paths match, in order, each with the name of its document, which is bare (`Names`)."""
    names = Names()
    for path in sorted(it for it in folder.glob(pattern) if it.is_file()):
        yield names.name_for(path.relative_to(folder)), path
