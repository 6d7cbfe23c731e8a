"""Where the characters of a text are, in its lines and in the units of an encoding."""

from __future__ import annotations

import bisect
import itertools
import re
from typing import List, Tuple

_LINE_ENDS = re.compile("\r\n|\n|\r")
# The encodings, with the name of each in Python and the bytes of a unit.
ENCODINGS = {"utf-8": ("utf-8", 1), "utf-16": ("utf-16-le", 2), "utf-32": ("utf-32-le", 4)}
# How many characters are counted at once.
_BLOCK = 4096


class Places:
    """The places of a text. Lines and units begin at 0. Those of an offset are found in a time that does not
    grow with the line."""

    def __init__(self, text: str, encoding: str) -> None:
        """Takes a text without lone surrogates, and a name of `ENCODINGS`."""
        self._text = text
        self._encoding, self._width = ENCODINGS[encoding]
        self._starts = [0, *(found.end() for found in _LINE_ENDS.finditer(text))]
        blocks = range(0, len(text), _BLOCK)
        self._counts: List[int] = [] if text.isascii() else [0]
        if self._counts:
            sizes = (self._size(start, start + _BLOCK) for start in blocks)
            self._counts += itertools.accumulate(sizes)

    def of(self, offset: int) -> Tuple[int, int]:
        """Returns the line and the unit of the character at an offset."""
        line = bisect.bisect_right(self._starts, offset) - 1
        return line, self._units(offset) - self._units(self._starts[line])

    def offset(self, line: int, unit: int) -> int:
        """Returns the offset of the character that has a unit: in a shorter line, of its end."""
        if line >= len(self._starts):
            return len(self._text)
        first, last = self._starts[line], self._end_of(line)
        wanted = self._units(first) + unit
        while first < last:
            middle = (first + last + 1) // 2
            if self._units(middle) <= wanted:
                first = middle
            else:
                last = middle - 1
        return first

    def _end_of(self, line: int) -> int:
        """Returns where a line ends, without what ends it."""
        if line + 1 == len(self._starts):
            return len(self._text)
        end = self._starts[line + 1] - 1
        has_both = end > self._starts[line] and self._text[end - 1 : end + 1] == "\r\n"
        return end - has_both

    def _units(self, offset: int) -> int:
        """Returns how many units are before an offset."""
        if not self._counts:
            return offset
        block = offset // _BLOCK
        return self._counts[block] + self._size(block * _BLOCK, offset)

    def _size(self, start: int, end: int) -> int:
        """Returns how many units are between two offsets."""
        return len(self._text[start:end].encode(self._encoding)) // self._width
