"""What a style sheet has, in order and by places: rules that begin and end, and items."""

from __future__ import annotations

import array
import bisect
import functools
from typing import Dict, Iterator, List, NamedTuple, Sequence

from . import _library as library
from ._kept import KeptSheet
from ._reading import Source, Span

# The kinds of entries, as the library numbers them; others are why an item is skipped.
DECLARATION, AT_RULE, AT_STATEMENT, RULE = range(4)
GROUP, END = 12, 13
AT_RULES = frozenset((AT_RULE, AT_STATEMENT))
_BEGUN = frozenset((RULE, GROUP))
# How many numbers the library writes of an entry, and of a statement, with how many follow it.
_OF_ENTRY, _OF_STATEMENT = 10, 13


class Entry(NamedTuple):
    """An entry: its kind, where it is, where its name is, where its selectors, condition, prelude or value are,
    and where its block is; whether it is important; and in how many style rules it is. Of a rule it is all up to
    its contents, and `last` is the index of the entry that ends it, if one does."""

    kind: int
    span: Span
    name: Span
    piece: Span
    block: Span
    is_important: bool = False
    depth: int = 0
    last: int = -1


def _span(start: int, length: int) -> Span:
    return start, start + length


def _entry(row: Sequence[int]) -> Entry:
    """Makes an entry of its numbers."""
    kind, start, length = row[:3]
    span = _span(start, length)
    if kind in AT_RULES or kind == GROUP:
        block = _span(row[8], 0 if kind == GROUP else row[9])
        return Entry(kind, span, _span(*row[4:6]), _span(*row[6:8]), block)
    if kind == RULE:
        return Entry(kind, span, span, _span(*row[4:6]), _span(row[6], 0))
    if kind == DECLARATION:
        return Entry(kind, span, _span(*row[4:6]), _span(*row[6:8]), span, row[8] == 1)
    return Entry(kind, span, span, span, span)


def _at_rules(numbers: "array.array[int]") -> Iterator[Entry]:
    """Yields the at-rules in no style rule that are no group rules, of the numbers of statements."""
    at = 0
    while at < len(numbers):
        if numbers[at] in AT_RULES:
            yield _entry(numbers[at : at + _OF_ENTRY])
        at += _OF_STATEMENT + sum(numbers[at + _OF_ENTRY : at + _OF_STATEMENT])


class Entries:
    """The entries of a sheet."""

    def __init__(self, source: Source) -> None:
        with KeptSheet(source.data) as sheet:
            found = [_entry(row) for row in library.rows_of(sheet.contents(), _OF_ENTRY)]
            if b"@" in source.data:
                at_rules = _at_rules(sheet.statements())
                found = sorted([*found, *at_rules], key=lambda each: each.span)
        self.all = _nested(found)

    @functools.cached_property
    def starts(self) -> List[int]:
        """Where each begins."""
        return [each.span[0] for each in self.all]

    def at(self, offset: int) -> int:
        """Returns the index of the last entry that begins at an offset or before it, or -1."""
        return bisect.bisect_right(self.starts, offset) - 1

    def end_of(self, index: int, size: int) -> int:
        """Returns where an entry ends: a rule with its block, in a sheet of so many bytes."""
        entry = self.all[index]
        if entry.kind not in _BEGUN:
            return entry.span[1]
        return self.all[entry.last].span[1] if entry.last >= 0 else size


def _nested(found: Sequence[Entry]) -> List[Entry]:
    """Returns entries with in how many style rules they are, and where they end."""
    depth = 0
    begun: List[int] = []
    depths: List[int] = []
    ends: Dict[int, int] = {}
    for index, entry in enumerate(found):
        if entry.kind == END:
            first = begun.pop()
            ends[first] = index
            depth -= found[first].kind == RULE
        depths.append(depth)
        if entry.kind in _BEGUN:
            begun.append(index)
            depth += entry.kind == RULE
    return [each._replace(depth=depths[at], last=ends.get(at, -1)) for at, each in enumerate(found)]
