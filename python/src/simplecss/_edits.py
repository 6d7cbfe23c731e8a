"""Edits of a page in HTML or XML, which the library makes: it reads the page again, whose tree has to be the same."""

from __future__ import annotations

import operator
from typing import Dict, Iterable, List, NamedTuple, Tuple

from . import _library as library

# What becomes of an attribute: it has a value, or has a text before its own value, or is removed.
SET, BEFORE, REMOVE = 1, 2, 3
# A new text of a `style` element, a new one, one that goes, and one in place of another or of a link.
TEXT, PUT_IN, TAKE_OUT, REPLACE = 4, 5, 6, 7
# An instruction of XML that names a sheet goes.
TAKE_OUT_INSTRUCTION = 8

_NAME = "simplecss_html_edit"


class OtherTree(ValueError):
    """With the edits a page would have another tree. `tag` is the index of the start tag concerned, or -1."""

    def __init__(self, tag: int) -> None:
        super().__init__("with the style sheets written into it the page would have another tree")
        self.tag = tag


class Edit(NamedTuple):
    """An edit: where it is, the index of its start tag, a name, or the prefix of a new element in XML, or none,
    and a text."""

    kind: int
    start: int
    end: int
    tag: int
    name: str
    text: str

    def numbers(self, offsets: Dict[int, int]) -> Tuple[int, int, int]:
        """Returns the numbers of the edit, by the offsets of places in bytes."""
        if self.kind == PUT_IN:
            return self.kind, offsets[self.start], 0
        if self.kind == TAKE_OUT_INSTRUCTION:
            return self.kind, offsets[self.start], offsets[self.end]
        return (
            self.kind,
            self.tag,
            offsets[self.end] if self.kind > PUT_IN or self.kind == TEXT else 0,
        )


def _in_order(edits: Iterable[Edit]) -> List[Edit]:
    """Returns edits in order. Of those that overlap it is the first, and of an element that goes no tag changes."""
    gone = {each.tag for each in edits if each.kind in (TAKE_OUT, REPLACE)}
    found: List[Edit] = []
    last = 0
    for each in sorted(edits, key=operator.attrgetter("start", "end")):
        is_change = each.kind <= REMOVE
        if is_change and each.tag in gone:
            continue
        if is_change and found and found[-1].kind <= REMOVE and found[-1].tag == each.tag:
            found.append(each)
        elif each.start >= last:
            found.append(each)
            last = each.end
    return found


def _offsets(text: str, places: Iterable[int]) -> Dict[int, int]:
    """Returns where places are in the bytes of a text in UTF-8."""
    found: Dict[int, int] = {}
    last = size = 0
    for place in sorted(set(places)):
        size += len(text[last:place].encode("utf-8"))
        found[place], last = size, place
    return found


def edited(text: str, edits: List[Edit], is_xml: bool) -> str:
    """Returns a page with edits. `OtherTree` is raised if it would have another tree."""
    if not edits:
        return text
    ordered = _in_order(edits)
    offsets = _offsets(text, (place for each in ordered for place in (each.start, each.end)))
    rows = [number for each in ordered for number in each.numbers(offsets)]
    strings = [string.encode("utf-8") for each in ordered for string in (each.name, each.text)]
    data = library.encode(text)
    flags = library.IS_XML if is_xml else 0
    arrays = library.sizes(rows), b"".join(strings), library.ends_of(map(len, strings))
    room = len(data) + 2 * len(arrays[1]) + 48 * len(ordered)
    answer = library.call(_NAME, data, flags, *arrays, room=room, with_fault=True)
    if answer.fault is not None:
        raise OtherTree(answer.fault.element - 1)
    if answer.status == library.REFUSED:
        raise OtherTree(-1)
    return library.output_of(_NAME, answer).decode("utf-8")
