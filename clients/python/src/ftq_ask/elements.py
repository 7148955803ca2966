"""The elements of an answer, of which few are looked at where there are many."""

from __future__ import annotations

from typing import Iterator, Sequence, overload

from ftq_client import Element


class Elements(Sequence[Element]):
    """The elements that the lines of an answer name. Each is read when it is looked at."""

    def __init__(self, lines: list[str]) -> None:
        self.lines = lines

    def __len__(self) -> int:
        return len(self.lines)

    @overload
    def __getitem__(self, place: int) -> Element: ...

    @overload
    def __getitem__(self, place: slice) -> "Elements": ...

    def __getitem__(self, place: int | slice) -> "Element | Elements":
        return Elements(self.lines[place]) if isinstance(place, slice) else Element.read(self.lines[place])

    def __iter__(self) -> Iterator[Element]:
        return map(Element.read, self.lines)
