"""Where in the texts of a style sheet something is."""

from __future__ import annotations

from typing import NamedTuple, Optional, Protocol, Tuple, TypeVar


class Place(NamedTuple):
    """Where something is: `source` is the index of the text among those of its sheet, and `url` that
    of a linked sheet. Rows and columns begin at 1. One in an attribute has the place of its element's tag.
    `start` and `end` are offsets in the text, if they are known.
    """

    source: Optional[int]
    url: Optional[str]
    row: Optional[int]
    column: Optional[int]
    start: Optional[int] = None
    end: Optional[int] = None


class _Source(Protocol):
    """A text, and its offsets."""

    def offset(self, at: int) -> int:
        ...

    def position(self, offset: int) -> Tuple[int, int]:
        ...


class At(NamedTuple):
    """The number and the url of a text, and offsets of its bytes."""

    source: _Source
    number: Optional[int]
    url: Optional[str]
    start: int
    end: int

    def place(self) -> Place:
        """Returns the place of the characters there."""
        start, end = self.source.offset(self.start), self.source.offset(self.end)
        return Place(self.number, self.url, *self.source.position(start), start, end)


class HasPlace:
    """What may have a place. It is no part of what is compared, and `_replace` leaves it out."""

    _at: Optional[At] = None

    @property
    def place(self) -> Optional[Place]:
        """Where it is in the texts of its sheet, if it is there."""
        return None if self._at is None else self._at.place()


P = TypeVar("P", bound=HasPlace)


def placed(one: P, at: At) -> P:
    """Returns what has no place yet, with a place."""
    one._at = at
    return one
