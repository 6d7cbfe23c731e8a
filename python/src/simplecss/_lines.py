"""What the library writes as lines of numbers, with texts after them."""

from __future__ import annotations

from typing import List, Tuple


class Lines:
    """Lines of numbers with spaces between them. A text whose length a line has is after it."""

    def __init__(self, data: bytes) -> None:
        self._data = data
        self._at = 0

    def are_left(self) -> bool:
        """Whether something is left."""
        return self._at < len(self._data)

    def numbers(self) -> List[int]:
        """Returns the numbers of the next line."""
        return list(map(int, self._line().split()))

    def numbers_and_rest(self, count: int) -> Tuple[List[int], str]:
        """Returns so many numbers of the next line, and the rest of it."""
        *numbers, rest = self._line().split(b" ", count)
        return list(map(int, numbers)), rest.decode("utf-8")

    def text(self, length: int) -> str:
        """Returns the next text, of so many bytes."""
        start = self._at
        self._at += length
        return self._data[start : self._at].decode("utf-8")

    def end_line(self) -> None:
        """Leaves the newline that ends texts."""
        self._at += 1

    def _line(self) -> bytes:
        start, end = self._at, self._data.index(b"\n", self._at)
        self._at = end + 1
        return self._data[start:end]
