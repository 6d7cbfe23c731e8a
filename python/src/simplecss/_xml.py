"""The elements of an XML document, and where their tags are."""

from __future__ import annotations

import bisect
import itertools
import re
from typing import Dict, Iterable, Iterator, List, NamedTuple, Tuple

from . import _library as library
from ._html import OF_ATTRIBUTE, OF_ELEMENT, OF_OTHER, HtmlPage, Span
from ._patterns import pattern
from ._spaced import SpacedAttribute
from ._words import lower


class XmlError(ValueError):
    """A text is not an XML document."""

    def __init__(self, reason: str, row: int, column: int) -> None:
        super().__init__(reason, row, column)
        self.reason = reason
        self.row = row
        self.column = column


class SheetLink(NamedTuple):
    """An instruction `xml-stylesheet` beside the root of a document: its attributes, whether it is after
    the root, and where it is, if that is known."""

    attributes: Dict[str, str]
    is_last: bool
    span: Tuple[int, int] = (-1, -1)

    @property
    def href(self) -> str:
        """The url of the sheet."""
        return self.attributes.get("href", "")

    @property
    def media(self) -> str:
        """For which media it is."""
        return self.attributes.get("media", "")

    @property
    def title(self) -> str:
        """The title of the sheet."""
        return self.attributes.get("title", "")

    @property
    def is_alternate(self) -> bool:
        """Whether the sheet is used only where its title is chosen."""
        return self.attributes.get("alternate") == "yes"

    @classmethod
    def of(
        cls, data: str, is_last: bool, span: Tuple[int, int] = (-1, -1)
    ) -> "Iterator[SheetLink]":
        """Yields what an instruction with this text is (Associating Style Sheets with XML documents 1.0):
        nothing, if it names no style sheet in CSS."""
        found = cls(_attributes_in(data), is_last, span)
        is_named = bool(found.href) and not found.href.startswith("#")
        is_css = found.attributes.get("type", "") in ("", "text/css")
        if is_named and is_css and (found.title or not found.is_alternate):
            yield found


def _attributes_in(data: str) -> Dict[str, str]:
    """Returns the attributes in the text of an instruction, or none if it has anything else."""
    try:
        found = XmlPage(f"<x {data}/>").every_attribute()
    except XmlError:
        return {}
    return {name: value for _, name, value in found[0]} if len(found) == 1 else {}


# A new line of XML.
_LINE = pattern("\\r\\n|\\r|\\n")
# An instruction that names a style sheet, from its target on.
_SHEET = pattern(r"<\?xml-stylesheet[\t\n\r ](.*)\?>", re.DOTALL)
# The kind of other nodes that are instructions, and the number of the namespace of declarations of prefixes.
_INSTRUCTION, _DECLARING = 5, 2
# What is wrong with a document, by the numbers that the library has for it.
_REASONS = (
    "not well-formed",
    "a character that XML does not have",
    "markup that is not closed",
    "a start tag that is not well-formed",
    "an end tag that does not match",
    "no element, or one that is not closed",
    "a second root element",
    "text outside of the root, or with a `&` or `]]>` that is not well-formed",
    "a processing instruction that is not well-formed, or not at its place",
    "a document type that is not well-formed, or declares entities or attributes",
    "two attributes of one name",
    "a prefix that is not declared",
)


class XmlPage(HtmlPage):
    """A document in XML, as the library reads it: its elements and its other nodes in document order."""

    def __init__(self, text: str) -> None:
        """Reads a document. One that is not well-formed raises `XmlError`."""
        self.text = text
        self._data = library.encode(text)
        try:
            self._numbers, self._data_of_strings = library.document_of(self._data)
        except library.NotWellFormed as error:
            row, column = self._positions([self.place(error.offset)])[0]
            raise XmlError(_REASONS[error.reason], row, column) from None
        tags = self._numbers[0]
        self._counts = [tags, *self._numbers[1 + 2 * tags : 5 + 2 * tags]]

    def _start(self, part: int) -> int:
        # Before the ends of strings are the numbers of the attributes' namespaces.
        return super()._start(part) + (self._counts[1] if part == 5 else 0)

    def _namespaces(self) -> List[str]:
        """Returns the namespaces, by their numbers."""
        first = 2 * self._counts[1] + len(self) + self._counts[3]
        count = len(self._numbers) - self._start(5) - first
        return ["", *self.strings_of(first, count).all()]

    def _positions(self, places: Iterable[int]) -> List[Tuple[int, int]]:
        """Returns the rows and the columns of places."""
        starts = [0, *(found.end() for found in _LINE.finditer(self.text))]
        rows = ((bisect.bisect_right(starts, place), place) for place in places)
        return [(row, place - starts[row - 1] + 1) for row, place in rows]

    def positions(self) -> List[Tuple[int, int]]:
        """Returns the rows and the columns where the elements' start tags begin."""
        return self._positions(start for start, _ in self.tags())

    def spaces_of_elements(self) -> List[str]:
        """Returns the namespaces of the elements."""
        names = self._namespaces()
        return [names[number] for number in self.of_elements(3)]

    def every_attribute(self) -> List[List[SpacedAttribute]]:
        """Returns the attributes of the elements, but for declarations of prefixes."""
        tags, count = self._counts[:2]
        names, start = self._namespaces(), self._start(5) - count
        strings = self.strings_of(0, 2 * count).all()
        numbers = self._numbers[start : start + count]
        rows = zip(numbers, strings[::2], strings[1::2])
        counts = self._numbers[self._start(0) : self._start(0) + tags]
        parts = (itertools.islice(rows, length) for length in counts)
        return [
            [(names[at], name, value) for at, name, value in part if at != _DECLARING]
            for part in parts
        ]

    def attribute_places(self, index: int) -> Dict[str, Span]:
        tag = self._numbers[self._start(2) + OF_ELEMENT * index]
        first, end = self.first_attributes[tag - 1 : tag + 1]
        start = self._start(5) - self._counts[1]
        spaces = self._numbers[start + first : start + end]
        found: Dict[str, Span] = {}
        # Of attributes of one name, that in no namespace counts, or else the last.
        for at, space in sorted(zip(range(first, end), spaces), key=lambda each: each[1] == 0):
            row = self._start(1) + OF_ATTRIBUTE * at
            if space != _DECLARING:
                span = self.place(self._numbers[row]), self.place(self._numbers[row + 4])
                found[self.attribute_strings[2 * at]] = span
        return found

    def links(self) -> Iterator[SheetLink]:
        """Yields the style sheets that instructions beside the root name."""
        columns = (self.column(3, OF_OTHER, at) for at in range(OF_OTHER))
        for kind, begun, owner, start, end in zip(*columns):
            if kind == _INSTRUCTION and not owner:
                span = self.place(start), self.place(end)
                found = _SHEET.fullmatch(self.text, *span)
                yield from SheetLink.of(found[1], bool(begun), span) if found else ()


# The ends of the names of documents in XML.
_XML_NAMES = (".svg", ".xhtml", ".xml")


def is_xml(name: str) -> bool:
    """Whether a document is XML, by its name."""
    return lower(name).endswith(_XML_NAMES)
