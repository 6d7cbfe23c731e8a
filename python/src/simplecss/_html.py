"""HTML: the tree that the library reads of a page, in columns."""

from __future__ import annotations

import array
import functools
import itertools
import operator
from typing import (
    Dict,
    Iterable,
    Iterator,
    List,
    NamedTuple,
    Optional,
    Sequence,
    Tuple,
    Union,
    overload,
)

from . import _library as library
from ._patterns import pattern
from ._words import lower

# The numbers of namespaces.
HTML, SVG, MATH = 1, 2, 3
# What is read of a page where scripts run, and without what is in templates.
_HAS_SCRIPTS, _LEAVES_TEMPLATES = 1, 2
# How many numbers an attribute, an element and another node have.
OF_ATTRIBUTE, OF_ELEMENT, OF_OTHER = 5, 6, 5
# The kinds of other nodes that are texts.
_TEXT_KINDS = (1, 2)
# The bytes of UTF-8 that begin no character, and how many bytes have their characters counted together.
_CONTINUING = bytes(range(0x80, 0xC0))
_BLOCK = 256
_ATTRIBUTE = pattern(
    r"""[\t\n\f\r /]*([^\t\n\f\r />][^\t\n\f\r />=]*)"""
    r"""(?:[\t\n\f\r ]*=[\t\n\f\r ]*("[^"]*"|'[^']*'|[^\t\n\f\r >"'][^\t\n\f\r >]*|(?=>)))?"""
)
_TAG_NAME = pattern(r"[A-Za-z][^\t\n\f\r />]*")

# What a style sheet of a page is, added up, as the library numbers it.
SHEET_LINK, ALTERNATIVE, IN_USE = 1, 2, 4

Span = Tuple[int, int]
Numbers = Sequence[int]


class Attribute(NamedTuple):
    """An attribute in the text of a tag: its name, its value with its quotes, and its place."""

    name: str
    value: Optional[str]
    start: int
    end: int


def attributes_from(text: str, offset: int) -> Iterator[Attribute]:
    """Yields the attributes of a tag from this offset on, in order."""
    found = _ATTRIBUTE.match(text, offset)
    while found:
        yield Attribute(lower(found.group(1)), found.group(2), found.start(1), found.end())
        found = _ATTRIBUTE.match(text, found.end())


def attributes_of(tag: str) -> List[Attribute]:
    """Returns the attributes in the text of a start tag, in order."""
    name = _TAG_NAME.match(tag, 1)
    return list(attributes_from(tag, name.end() if name else 1))


def _count(data: bytes) -> int:
    """Returns how many characters begin in bytes of UTF-8."""
    return len(data.translate(None, _CONTINUING))


class _Characters:
    """Where characters are in a text, by the offsets of its bytes in UTF-8."""

    def __init__(self, data: bytes) -> None:
        self._data = data
        starts = range(0, len(data), _BLOCK)
        counts = (_count(data[start : start + _BLOCK]) for start in starts)
        self._counts = [0, *itertools.accumulate(counts)]

    def __call__(self, offset: int) -> int:
        start = offset - offset % _BLOCK
        return self._counts[offset // _BLOCK] + _count(self._data[start:offset])


class Strings(Sequence[str]):
    """Strings of UTF-8, each of which is made when it is asked for."""

    def __init__(self, data: bytes, starts: Numbers, ends: Numbers) -> None:
        """Takes where each begins and ends."""
        self._data = data
        self._starts = starts
        self._ends = ends

    def __len__(self) -> int:
        return len(self._starts)

    @overload
    def __getitem__(self, at: int) -> str:
        ...

    @overload
    def __getitem__(self, at: slice) -> "Strings":
        ...

    def __getitem__(self, at: Union[int, slice]) -> "Union[str, Strings]":
        if isinstance(at, slice):
            return Strings(self._data, self._starts[at], self._ends[at])
        return str(self._data[self._starts[at] : self._ends[at]], "utf-8")

    def all(self) -> List[str]:
        """Returns all of them."""
        first, last = (self._starts[0], self._ends[-1]) if len(self) else (0, 0)
        data = self._data[first:last]
        if not data.isascii():
            return [self[at] for at in range(len(self))]
        text = str(data, "ascii")
        places = zip(self._starts, self._ends)
        return [text[start - first : end - first] for start, end in places]

    def sizes(self) -> Iterator[int]:
        """Yields how many bytes each has."""
        return map(operator.sub, self._ends, self._starts)

    def only(self, kept: Numbers) -> "Strings":
        """Returns those at some indices."""
        starts, ends = self._starts, self._ends
        return Strings(self._data, [starts[at] for at in kept], [ends[at] for at in kept])


def _firsts(keys: Sequence[str], values: Sequence[str]) -> Dict[str, str]:
    """Returns what keys have as their values, of which the first of a key counts."""
    found = dict(zip(keys, values))
    if len(found) < len(keys):
        found.update(zip(reversed(keys), reversed(values)))
    return found


class HtmlPage:
    """A page: its start tags in order, and its elements and its other nodes in document order.

    Places are those of characters. An element that has no start tag or no parent has -1 there.
    """

    def __init__(
        self,
        text: str,
        *,
        context: Optional[str] = None,
        has_scripts: bool = False,
        leaves_templates: bool = True,
    ) -> None:
        """Reads a page, or the content of the element of HTML with this start tag, without `<` and `>`. Where
        scripts run, what is in a `noscript` is text. A page whose elements are nested in a way that takes time or
        elements out of proportion raises `LimitError`."""
        self.text = text
        self._data = library.encode(text)
        flags = _HAS_SCRIPTS * has_scripts + _LEAVES_TEMPLATES * leaves_templates
        within = (0, b"") if context is None else (HTML, library.encode(context))
        self._numbers, self._data_of_strings = library.page_of(self._data, *within, flags)
        tags = self._numbers[0]
        self._counts = [tags, *self._numbers[1 + 2 * tags : 5 + 2 * tags]]
        is_quirky, is_doubtful, head_end = self._numbers[5 + 2 * tags : 8 + 2 * tags]
        self.is_quirky = bool(is_quirky)
        # Whether browsers differ in where an element ends, or in what a NUL is.
        self.is_doubtful = bool(is_doubtful) or "\0" in text
        # Where the head ends: a tag that is put there is of the head.
        self.head_end = self.place(head_end - 1) if head_end else len(text)

    def __len__(self) -> int:
        """Returns how many elements there are."""
        return self._counts[2]

    # ---- columns

    def _start(self, part: int) -> int:
        """Returns where a part of the numbers begins: the counts of the tags' attributes, the
        attributes, the elements, the other nodes, the merged tags, and the ends of strings.
        """
        tags, attributes, elements, others, merged = self._counts
        sizes = (
            tags,
            OF_ATTRIBUTE * attributes,
            OF_ELEMENT * elements,
            OF_OTHER * others,
            2 * merged,
        )
        return 8 + 2 * tags + sum(sizes[:part])

    def column(self, part: int, width: int, at: int) -> "array.array[int]":
        """Returns a column of a part whose rows have so many numbers."""
        start, end = self._start(part), self._start(part + 1)
        return self._numbers[start + at : end : width]

    def of_elements(self, at: int) -> "array.array[int]":
        return self.column(2, OF_ELEMENT, at)

    def strings_of(self, first: int, count: int) -> Strings:
        """Returns so many strings."""
        start = self._start(5) + first
        ends = self._numbers[start : start + count]
        starts = array.array(library.SIZE, (self._numbers[start - 1] if first else 0, *ends[:-1]))
        return Strings(self._data_of_strings, starts[:count], ends)

    @functools.cached_property
    def _characters(self) -> Optional[_Characters]:
        """Where characters are, if not all are of ASCII."""
        return None if len(self._data) == len(self.text) else _Characters(self._data)

    def place(self, offset: int) -> int:
        return offset if self._characters is None else self._characters(offset)

    def _places(self, offsets: Iterable[int]) -> List[int]:
        return list(offsets if self._characters is None else map(self._characters, offsets))

    # ---- tags

    @functools.cached_property
    def _tag_places(self) -> Tuple[List[int], List[int]]:
        """Where each tag begins, and where it ends. The last two are of none."""
        end = 1 + 2 * self._counts[0]
        starts, ends = self._numbers[1:end:2], self._numbers[2:end:2]
        return [*self._places(starts), -1], [*self._places(ends), -1]

    def _tag_attributes(self) -> List[Dict[str, str]]:
        """Returns the attributes of each tag, of which tags with equal ones may have the same. The last are
        those of none."""
        tags, count = self._counts[:2]
        strings = self.strings_of(0, 2 * count).all()
        keys, values = strings[::2], strings[1::2]
        found: List[Dict[str, str]] = []
        made: Dict[Tuple[str, ...], Dict[str, str]] = {}
        start = 0
        for length in self._numbers[self._start(0) : self._start(0) + tags]:
            end = start + length
            key = (*strings[2 * start : 2 * end],)
            attributes = made.get(key)
            if attributes is None:
                attributes = made[key] = _firsts(keys[start:end], values[start:end])
            found.append(attributes)
            start = end
        return [*found, made.get((), {})]

    # ---- elements

    def names(self) -> List[str]:
        """Returns the names of the elements."""
        return self.strings_of(2 * self._counts[1], len(self)).all()

    def attributes(self) -> List[Dict[str, str]]:
        """Returns the attributes of the elements."""
        of_tags = self._tag_attributes()
        found = [of_tags[tag - 1] for tag in self.of_elements(0)]
        start, end = self._start(4), self._start(5)
        own: Dict[int, Dict[str, str]] = {}
        for element, tag in zip(self._numbers[start:end:2], self._numbers[start + 1 : end : 2]):
            if element and element not in own:
                own[element] = found[element - 1] = found[element - 1].copy()
            for key, value in of_tags[tag - 1].items() if element else ():
                own[element].setdefault(key, value)
        return found

    def parents(self) -> List[int]:
        """Returns the indices of the elements' parents."""
        return [number - 1 for number in self.of_elements(1)]

    def depths(self) -> List[int]:
        """Returns how many ancestors each element has."""
        return list(self.of_elements(2))

    def spaces(self) -> bytearray:
        """Returns the numbers of the elements' namespaces."""
        return bytearray(iter(self.of_elements(3)))

    def tag_numbers(self) -> List[int]:
        """Returns the index of each element's start tag among those of the page, or -1."""
        return [number - 1 for number in self.of_elements(0)]

    def tags(self) -> List[Span]:
        """Returns where the elements' start tags begin and end."""
        starts, ends = self._tag_places
        return [(starts[tag - 1], ends[tag - 1]) for tag in self.of_elements(0)]

    def ends(self) -> List[Span]:
        """Returns where the elements' end tags begin and end, or twice where an element ends without one."""
        starts, ends = self._places(self.of_elements(4)), self._places(self.of_elements(5))
        return list(zip(starts, ends))

    # ---- places of attributes

    @functools.cached_property
    def attribute_strings(self) -> Strings:
        """The names and the values of the attributes of all tags, the one after the other."""
        return self.strings_of(0, 2 * self._counts[1])

    @functools.cached_property
    def first_attributes(self) -> List[int]:
        """The index of the first attribute of each tag, and of the end of the last tag's."""
        start = self._start(0)
        return [0, *itertools.accumulate(self._numbers[start : start + self._counts[0]])]

    @functools.cached_property
    def _merged(self) -> Dict[int, List[int]]:
        """The further tags of elements whose attributes are in several, by the elements' indices."""
        start, end = self._start(4), self._start(5)
        found: Dict[int, List[int]] = {}
        for element, tag in zip(self._numbers[start:end:2], self._numbers[start + 1 : end : 2]):
            found.setdefault(element - 1, []).append(tag)
        return found

    def attribute_places(self, index: int) -> Dict[str, Span]:
        """Returns where the attributes of an element are, each from its name to the end of its value."""
        tag = self._numbers[self._start(2) + OF_ELEMENT * index]
        found: Dict[str, Span] = {}
        for number in (tag, *self._merged.get(index, ())) if tag else self._merged.get(index, ()):
            for at in range(*self.first_attributes[number - 1 : number + 1]):
                row = self._start(1) + OF_ATTRIBUTE * at
                span = self.place(self._numbers[row]), self.place(self._numbers[row + 4])
                found.setdefault(self.attribute_strings[2 * at], span)
        return found

    # ---- style sheets

    def sheets(self) -> Tuple[int, Dict[int, int]]:
        """Returns the index of the `base` whose url counts, or -1, and of each element that is a style sheet, or a
        link to one, what it is."""
        strings = 2 * self._counts[1] + len(self) + self._counts[3]
        start = self._start(5) + strings
        base, count = self._numbers[start : start + 2]
        rows = self._numbers[start + 2 : start + 2 + 2 * count]
        kinds = dict(zip(rows[::2], rows[1::2]))
        elements = [(index, tag) for index, tag in enumerate(self.of_elements(0)) if tag]
        at_base = next((index for index, tag in elements if tag == base), -1)
        return at_base, {index: kinds[tag] for index, tag in elements if tag in kinds}

    # ---- texts

    def texts(self) -> Tuple[Numbers, Numbers, Strings]:
        """Returns of the texts that are not empty how many elements begin before each, the index of the element
        that it is in, and what it says."""
        kinds, begun, owners = (self.column(3, OF_OTHER, at) for at in range(3))
        said = self.strings_of(2 * self._counts[1] + len(self), self._counts[3])
        sizes = zip(kinds, said.sizes())
        kept = [at for at, (kind, size) in enumerate(sizes) if kind in _TEXT_KINDS and size]
        return ([begun[at] for at in kept], [owners[at] - 1 for at in kept], said.only(kept))
