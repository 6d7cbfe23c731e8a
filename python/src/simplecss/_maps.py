"""Source maps (version 3) of texts that are edited."""

from __future__ import annotations

import base64
import bisect
import json
import itertools
import re
from typing import Dict, Iterable, Iterator, List, NamedTuple, Sequence, Tuple

_DIGITS = "ABCDEFGHIJKLMNOPQRSTUVWXYZabcdefghijklmnopqrstuvwxyz0123456789+/"
_LINES = re.compile("\r\n|\n|\r|\f")


class Stage(NamedTuple):
    """How a text came of an earlier one: where its parts begin, where there what they are of begins, and whether
    each is that as it is."""

    starts: Tuple[int, ...]
    origins: Tuple[int, ...]
    are_kept: Tuple[bool, ...]

    @classmethod
    def of(cls, cuts: Iterable[Tuple[int, int, int]]) -> "Stage":
        """Returns the stage in which parts between two offsets were replaced by so many characters."""
        parts = [(0, 0, True)]
        shift = 0
        for start, end, length in cuts:
            if length:
                parts.append((start + shift, start, False))
            shift += length - (end - start)
            parts.append((end + shift, end, True))
        starts, origins, are_kept = zip(*parts)
        return cls(starts, origins, are_kept)

    def origin(self, offset: int) -> int:
        """Returns where what is at an offset was."""
        at = bisect.bisect_right(self.starts, offset) - 1
        return self.origins[at] + (offset - self.starts[at]) * self.are_kept[at]


def _number(value: int) -> str:
    """Returns a number in base 64, as source maps have it."""
    rest = (abs(value) << 1) | (value < 0)
    digits = ""
    while True:
        rest, low = rest >> 5, rest & 31
        digits += _DIGITS[low | (32 if rest else 0)]
        if not rest:
            return digits


class _Lines:
    """The lines of a text, and the columns of offsets, in units of UTF-16."""

    def __init__(self, text: str) -> None:
        self.text = text
        self.starts = [0, *(each.end() for each in _LINES.finditer(text))]
        self._is_plain = text.isascii()

    def at(self, offset: int) -> Tuple[int, int]:
        """Returns the line and the column of an offset, which begin at 0."""
        line = bisect.bisect_right(self.starts, offset) - 1
        start = self.starts[line]
        if self._is_plain:
            return line, offset - start
        return line, len(self.text[start:offset].encode("utf-16-le")) // 2


def _mappings(text: str, original: str, places: Iterable[Tuple[int, int]]) -> str:
    """Returns the mappings of a text: pairs of offsets there and in the original, in order."""
    new, old = _Lines(text), _Lines(original)
    lines: List[List[str]] = [[] for _ in new.starts]
    last_line = last_column = 0
    columns: Dict[int, int] = {}
    for offset, origin in places:
        (line, column), (at, in_line) = new.at(offset), old.at(origin)
        steps = column - columns.get(line, 0), 0, at - last_line, in_line - last_column
        lines[line].append("".join(map(_number, steps)))
        columns[line], last_line, last_column = column, at, in_line
    return ";".join(",".join(each) for each in lines).rstrip(";")


def _places(text: str, stages: Sequence[Stage]) -> Iterator[Tuple[int, int]]:
    """Yields where each line and each part of a text begins, and where it was before all stages."""
    lines = (each.end() for each in _LINES.finditer(text))
    starts = stages[-1].starts if stages else (0,)
    for offset in sorted({*lines, *starts}):
        origin = offset
        for stage in reversed(stages):
            origin = stage.origin(origin)
        if offset < len(text):
            yield offset, origin


def source_map(text: str, original: str, name: str, stages: Sequence[Stage]) -> Dict[str, object]:
    """Returns the source map of a text that was edited in these stages, by the name of the original."""
    return {
        "version": 3,
        "sources": [name],
        "sourcesContent": [original],
        "names": [],
        "mappings": _mappings(text, original, _places(text, stages)),
    }


def data_url(found: Dict[str, object]) -> str:
    """Returns a source map as a url that has it."""
    encoded = base64.b64encode(json.dumps(found).encode("utf-8")).decode("ascii")
    return f"data:application/json;base64,{encoded}"
