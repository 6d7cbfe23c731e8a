"""The comments of a style sheet, put back into its printed text."""

from __future__ import annotations

import bisect
from typing import Dict, List, NamedTuple, Sequence, Set

from ._reading import Contents, Source
from ._tokens import GAPS, Token, tokens
from ._words import lower

# What an item of a sheet or of a block is after.
_ENDS = frozenset("{};")
# A comment that says nothing, which the library writes between two words.
_EMPTY = "/**/"
_NEWLINES = frozenset("\n\r\f")
# How much deeper what is in a block is indented than its end.
_LEVEL = "  "


class _Comment(NamedTuple):
    """A comment: its text, the number of the token after it, and whether it is on the line of the token
    before it and at the end of that."""

    text: str
    after: int
    ends_line: bool


def _closed(comment: Token) -> str:
    """Returns the text of a comment, which the end of the sheet may close."""
    is_closed = comment.text.endswith("*/") and len(comment.text) >= len(_EMPTY)
    return comment.text if is_closed else f"{comment.text}*/"


def _has_line(gap: Token) -> bool:
    """Whether a line ends in a gap, but for those in a comment."""
    return gap.kind == "whitespace" and not _NEWLINES.isdisjoint(gap.text)


class _Words:
    """The tokens of a text that are no gaps, and its comments."""

    def __init__(self, text: str) -> None:
        self.tokens: List[Token] = []
        self.comments: List[_Comment] = []
        self._gap: List[Token] = []
        for each in tokens(text):
            if each.kind in GAPS:
                self._gap.append(each)
            else:
                self._end_gap(is_last=False)
                self.tokens.append(each)
        self._end_gap(is_last=True)

    def _end_gap(self, is_last: bool) -> None:
        """Takes the comments of the gap before the next token, or the end of the text."""
        lines = (at for at, each in enumerate(self._gap) if _has_line(each))
        end = next(lines, len(self._gap) * is_last)
        for at, each in enumerate(self._gap):
            if each.kind == "comment":
                self.comments.append(_Comment(_closed(each), len(self.tokens), at < end))
        self._gap = []

    def places_in(self, others: Sequence[Token]) -> List[int]:
        """Returns of each token the number of the one that it is among others, which are some of these in
        order with semicolons between them, or else that of the one after it."""
        numbers: Dict[str, List[int]] = {}
        for number, each in enumerate(self.tokens):
            numbers.setdefault(lower(each.text), []).append(number)
        found = [-1] * len(self.tokens) + [len(others)]
        at = 0
        for place, each in enumerate(others):
            if each.text == ";" and at < len(self.tokens) and self.tokens[at].text != ";":
                continue
            those = numbers.get(lower(each.text), [])
            turn = bisect.bisect_left(those, at)
            if turn < len(those):
                at = those[turn]
                found[at] = place
                at += 1
        for number in range(len(self.tokens) - 1, -1, -1):
            if found[number] < 0:
                found[number] = found[number + 1]
        return found


class _Printed(_Words):
    """A printed sheet."""

    def __init__(self, text: str) -> None:
        super().__init__(text)
        self.text = text
        # The comments before each token, and of each token the number of the one that is before its item,
        # or -1.
        self._present: Dict[int, Set[str]] = {}
        for each in self.comments:
            self._present.setdefault(each.after, set()).add(each.text)
        self.ends = self._ends()

    def _ends(self) -> List[int]:
        source = Source(self.text)
        spans = [tuple(map(source.offset, each)) for each in Contents(source).kept()]
        found, last, at = [-1], -1, 0
        for number, each in enumerate(self.tokens):
            while at < len(spans) and spans[at][1] <= each.start:
                at += 1
            is_inside = at < len(spans) and spans[at][0] <= each.start
            if each.text in _ENDS and not is_inside:
                last = number
            found.append(last)
        return found

    def has(self, comment: str, number: int) -> bool:
        """Whether a comment is before a token."""
        return comment in self._present.get(number, ())

    def offset(self, number: int) -> int:
        """Returns where a token ends, or where the text begins."""
        return self.tokens[number].end if number >= 0 else 0

    def ends_line(self, number: int) -> bool:
        """Whether a line ends after a token."""
        at = self.offset(number)
        return self.text[at : at + 1] in ("", "\n")

    def line(self, comment: str, number: int) -> str:
        """Returns a line with a comment after a token, with the blanks before it or, at the front, the line's
        end after it."""
        if number < 0:
            return f"{comment}\n"
        after = self.tokens[number + 1 : number + 2]
        end = after[0].start if after else len(self.text)
        blanks = self.text[self.tokens[number].end : end].rstrip("\n") or "\n"
        is_last = bool(after) and after[0].text == "}"
        return f"{blanks}{_LEVEL * is_last}{comment}"


def with_comments(text: str, printed: str, front: str, *, has_lines: bool) -> str:
    """Returns the printed text of a sheet with the comments of its text that begin so: each before the
    rule, the declaration or the end of a block that it is before or in. If the printed text has lines, a
    comment at the end of a line stays there."""
    own, made = _Words(text), _Printed(printed)
    places = own.places_in(made.tokens)
    parts: List[str] = []
    done = 0
    for each in own.comments:
        place = places[each.after]
        is_kept = each.text.startswith(front) and each.text != _EMPTY
        if not is_kept or made.has(each.text, place):
            continue
        end = made.ends[place]
        is_beside = each.ends_line and each.after > 0 and places[each.after - 1] <= end
        is_beside = is_beside and end >= 0 and made.ends_line(end)
        at = made.offset(end)
        shown = f" {each.text}" if is_beside else made.line(each.text, end)
        parts += printed[done:at], shown if has_lines else each.text
        done = at
    return "".join([*parts, printed[done:]])
