"""What the library reads of style sheets and style attributes, by the modern grammar."""

from __future__ import annotations

import array
import bisect
import functools
import itertools
import re
import weakref
from typing import (
    Dict,
    Iterable,
    Iterator,
    List,
    NamedTuple,
    Optional,
    Sequence,
    Tuple,
    TypeVar,
    Union,
    overload,
)

from . import _library as library
from ._declaration import Declaration
from ._found_names import names_in
from ._kept import KeptSheet
from ._placed import HasPlace
from ._properties import denoted
from ._selectors import Specificity
from ._tokens import originating, tokens
from ._words import lower

Span = Tuple[int, int]

# The bytes of UTF-8 that begin no character, and how many bytes are counted at once.
_CONTINUING = bytes(range(0x80, 0xC0))
_BLOCK = 4096
# The group rules that say nothing without rules. A layer has a place among the others.
GROUPS = frozenset("media supports container document -moz-document".split())
# How a rule in a style rule is named.
NESTED = "nested rule"
# What the library writes: numbers of a statement, and how many of these follow for its group rules, its
# selectors and its items, each of which has so many.
_OF_STATEMENT, _OF_LEVEL, _OF_SELECTOR, _OF_ITEM = 13, 6, 9, 10
# The kinds of statements and items, as it numbers them, and then why others are skipped.
_DECLARATION, _AT_RULE, _AT_STATEMENT, _RULE = range(4)
# Those of group rules whose blocks begin, and of blocks that end; and of all that begin.
_GROUP, _END = 12, 13
_BEGUN = frozenset((_RULE, _GROUP))
_FAULTS = {
    4: "broken declaration",
    5: "bad string",
    6: "bad url",
    7: "stray bracket",
    8: "too deep",
    9: "no block",
    10: NESTED,
    11: "invalid selector",
}


class Condition(NamedTuple):
    """A group rule around a rule, such as `@media print`.

    It has its `name` and its `prelude`.
    """

    name: str
    prelude: str

    def __str__(self) -> str:
        return f"@{self.name} {self.prelude}".rstrip()


class Outer(NamedTuple):
    """A group rule that all of a sheet is in. Of layers without a name those with the same number are
    one; the number of any other group rule is 0.
    """

    condition: Condition
    number: int = 0


class _AtRule(NamedTuple):
    name: str
    prelude: str
    block: Optional[str]
    conditions: Tuple[Condition, ...]


class AtRule(_AtRule, HasPlace):
    """An at-rule that has no rules, or none that are read.

    It has its `name`, the `prelude` before its block, its `block`, if there is one, the group
    rules that it is in, and in a sheet its `place`.
    """

    def __str__(self) -> str:
        head = f"@{self.name} {self.prelude}".rstrip()
        return f"{head};" if self.block is None else f"{head} {{ {self.block} }}"


def _count(data: bytes) -> int:
    """Returns how many characters begin in bytes of UTF-8."""
    return len(data.translate(None, _CONTINUING))


class Source:
    """A text, and what stands at offsets of its bytes in UTF-8."""

    def __init__(self, text: str) -> None:
        self.text = text
        self.data = library.encode(text)
        self._is_ascii = len(self.data) == len(text)
        # The layers that all of it is in, from the outermost: those of the imports that bring it.
        self.around: Tuple[Tuple[Source, Level], ...] = ()

    def at(self, span: Sequence[int]) -> str:
        """Returns the text between two offsets."""
        start, end = span
        return self.text[start:end] if self._is_ascii else self.data[start:end].decode("utf-8")

    def offset(self, at: int) -> int:
        """Returns the offset of the character whose first byte is at an offset."""
        if self._is_ascii:
            return at
        block = at // _BLOCK
        return self._counts[block] + _count(self.data[block * _BLOCK : at])

    def byte(self, offset: int) -> int:
        """Returns the offset of the first byte of the character at an offset."""
        if self._is_ascii:
            return offset
        block = offset // _BLOCK
        return self._sizes[block] + len(self.text[block * _BLOCK : offset].encode("utf-8"))

    @functools.cached_property
    def _sizes(self) -> List[int]:
        """How many bytes are before each block of characters."""
        starts = range(0, len(self.text), _BLOCK)
        sizes = (len(self.text[start : start + _BLOCK].encode("utf-8")) for start in starts)
        return [0, *itertools.accumulate(sizes)]

    @functools.cached_property
    def _counts(self) -> List[int]:
        """How many characters begin before each block of bytes."""
        starts = range(0, len(self.data), _BLOCK)
        counts = (_count(self.data[start : start + _BLOCK]) for start in starts)
        return [0, *itertools.accumulate(counts)]

    @functools.cached_property
    def lines(self) -> List[int]:
        """The offsets of the characters that lines begin with."""
        return [0, *(found.end() for found in re.finditer("\n", self.text))]

    def position(self, offset: int) -> Tuple[int, int]:
        """Returns the row and the column of a character, which begin at 1."""
        row = bisect.bisect_right(self.lines, offset)
        return row, offset - self.lines[row - 1] + 1


class ReadSelector(NamedTuple):
    """A selector of a list: its `text`, the selector of the elements that the pseudo-element at its end
    is of, the name of that one, and the specificity of the whole, if what is before it is supported.
    """

    text: str
    front: str
    pseudo_element: Optional[str]
    specificity: Optional[Specificity]
    span: Span


class ReadDeclaration(NamedTuple):
    """A declaration, whether nothing of it is open at the end of the text, where it is, and where its
    value ends."""

    declaration: Declaration
    is_closed: bool
    span: Span
    end: int


# The name of a level that is a style rule.
STYLE = ""


class Level(NamedTuple):
    """A group rule that a statement is in, or a style rule; where it begins and ends, and where
    what is before its block does."""

    condition: Condition
    span: Span
    head: Span


class ReadAtRule(NamedTuple):
    """An at-rule, the group rules that it is in, whether its block is closed, and where its block
    is."""

    rule: AtRule
    levels: Tuple[Level, ...]
    is_closed: bool
    span: Span
    inner: Span


class Fault(NamedTuple):
    """What is skipped, why, and the group rules that it is in."""

    reason: str
    levels: Tuple[Level, ...]
    span: Span


BlockItem = Union[ReadDeclaration, ReadAtRule, Fault]


_Part = TypeVar("_Part")


class _Parts(Sequence[_Part]):
    """What the library writes numbers of. It is made when it is asked for: of most rules nobody does."""

    __slots__ = ("_reader", "_numbers", "_place", "_made")
    # How many numbers each has.
    _width: int

    def __init__(self, reader: "_Reader", numbers: "array.array[int]", place: Span) -> None:
        """Takes what makes them of numbers, and where among these their own are."""
        self._reader = reader
        self._numbers = numbers
        self._place = place
        self._made: Optional[Tuple[_Part, ...]] = None

    def _make(self, numbers: "array.array[int]") -> Iterable[_Part]:
        """Makes them of their numbers."""
        raise NotImplementedError

    def _all(self) -> Tuple[_Part, ...]:
        if self._made is None:
            self._made = tuple(self._make(self._numbers[slice(*self._place)]))
        return self._made

    def __len__(self) -> int:
        start, end = self._place
        return (end - start) // self._width

    @overload
    def __getitem__(self, at: int) -> _Part:
        ...

    @overload
    def __getitem__(self, at: slice) -> Sequence[_Part]:
        ...

    def __getitem__(self, at: Union[int, slice]) -> Union[_Part, Sequence[_Part]]:
        return self._all()[at]

    def __iter__(self) -> Iterator[_Part]:
        return iter(self._made or self._all())


class Selectors(_Parts[ReadSelector]):
    """The selectors of a rule set."""

    __slots__ = ()
    _width = _OF_SELECTOR

    def _make(self, numbers: "array.array[int]") -> Iterable[ReadSelector]:
        return self._reader.selectors(numbers)


class Items(_Parts[BlockItem]):
    """What a block has."""

    __slots__ = ("_levels", "are_whole")
    _width = _OF_ITEM

    def __init__(
        self,
        reader: "_Reader",
        numbers: "array.array[int]",
        place: Span,
        levels: Tuple[Level, ...],
    ) -> None:
        """Takes their group rules, too."""
        super().__init__(reader, numbers, place)
        self._levels = levels
        start, end = place
        # Whether all are declarations that the end of the text does not close.
        kinds, are_closed = (
            numbers[start:end:_OF_ITEM],
            numbers[start + 3 : end : _OF_ITEM],
        )
        self.are_whole = not any(kinds) and all(are_closed)

    def _make(self, numbers: "array.array[int]") -> Iterable[BlockItem]:
        return self._reader.items(numbers, self._levels)


class MadeItems(Items):
    """Declarations of a block, which are made."""

    __slots__ = ()

    def __init__(self, made: Sequence[ReadDeclaration]) -> None:
        self._place = (0, len(made) * _OF_ITEM)
        self._made = tuple(made)
        self.are_whole = all(each.is_closed for each in made)


class RuleSet(NamedTuple):
    """A rule set: its selectors, what its block has, and the group rules that it is in.

    `head` ends where its block begins. Of a part of a block `span` is where that is."""

    selectors: Sequence[ReadSelector]
    items: Items
    levels: Tuple[Level, ...]
    head: Span
    is_closed: bool
    span: Span
    is_part: bool = False

    @property
    def conditions(self) -> Tuple[Condition, ...]:
        return conditions_of(self.levels)

    @property
    def declarations(self) -> Tuple[Declaration, ...]:
        return declarations_in(self.items)


Statement = Union[RuleSet, ReadAtRule, Fault]


def conditions_of(levels: Iterable[Level]) -> Tuple[Condition, ...]:
    """Returns the conditions of group rules."""
    return tuple([level.condition for level in levels])


def declarations_in(items: Iterable[BlockItem]) -> Tuple[Declaration, ...]:
    """Returns the declarations of a block."""
    return tuple([item.declaration for item in items if isinstance(item, ReadDeclaration)])


class _Names(Dict[str, str]):
    """The names of properties as they are compared, by those that a text has: of a sheet, few."""

    def __missing__(self, name: str) -> str:
        found = self[name] = name if name.startswith("--") else lower(name)
        return found


class DeclarationReader:
    """Makes declarations of where the library finds them in a text."""

    def __init__(self, source: Source) -> None:
        self.source = source
        self._names = _Names()

    def declared(
        self,
        name: Sequence[int],
        value: Sequence[int],
        is_important: bool,
        is_closed: bool,
    ) -> Declaration:
        """Makes the declaration whose name and value are between these offsets."""
        at = self.source.at
        text = at(value)
        if not is_closed or text.endswith("\\"):
            text = _closed(text)
        return Declaration(self._names[at(name)], text, is_important)


class _Reader(DeclarationReader):
    """Makes statements and items of what the library writes of a text."""

    def __init__(self, source: Source) -> None:
        super().__init__(source)
        self._levels: Dict[bytes, Tuple[Level, ...]] = {}
        # Most selectors have one of few.
        self._specificities: Dict[Specificity, Specificity] = {}

    def statements(self) -> Iterator[Statement]:
        """Yields the statements of the text, and the group rules that have none, which the library
        does not write."""
        at = 0
        for found in self._written():
            start, end = found.levels[0].span if found.levels else found.span
            if at < start:
                yield from self._groups_between(at, start)
            yield found
            at = max(at, end)
        yield from self._groups_between(at, len(self.source.data))

    def _written(self) -> Iterator[Statement]:
        """Yields the statements that the library writes."""
        with KeptSheet(self.source.data) as sheet:
            numbers = sheet.statements()
        at, end = 0, len(numbers)
        while at < end:
            row = numbers[at : at + _OF_STATEMENT]
            at_selectors = at + _OF_STATEMENT + row[10]
            at_items = at_selectors + row[11]
            levels = self._levels_of(numbers[at + _OF_STATEMENT : at_selectors]) if row[10] else ()
            at = at_items + row[12]
            if row[0] == _RULE:
                selectors = Selectors(self, numbers, (at_selectors, at_items))
                yield self._rule(
                    row, selectors, Items(self, numbers, (at_items, at), levels), levels
                )
            else:
                yield self._other(row, levels)

    def block_items(self) -> List[BlockItem]:
        """Returns what the text has as a style attribute."""
        data = self.source.data
        numbers = library.numbers_of("simplecss_declarations", data, room=256 + 2 * len(data))
        return self.items(numbers, ())

    def selectors(self, numbers: "array.array[int]") -> List[ReadSelector]:
        """Returns the selectors of these numbers."""
        firsts = range(0, len(numbers), _OF_SELECTOR)
        return [self._selector(numbers[at : at + _OF_SELECTOR]) for at in firsts]

    def items(self, numbers: "array.array[int]", levels: Tuple[Level, ...]) -> List[BlockItem]:
        """Returns the items of these numbers."""
        rows = [numbers[at : at + _OF_ITEM] for at in range(0, len(numbers), _OF_ITEM)]
        return [self._other(row, levels) if row[0] else self._declaration(row) for row in rows]

    def _groups_between(self, start: int, end: int) -> Iterator[ReadAtRule]:
        """Yields the group rules between two statements."""
        if start < end and b"@" in self.source.data[start:end]:
            for item in read_block(self.source.at((start, end)))[1]:
                if isinstance(item, ReadAtRule):
                    yield item._replace(
                        span=moved(item.span, start), inner=moved(item.inner, start)
                    )

    def _levels_of(self, numbers: "array.array[int]") -> Tuple[Level, ...]:
        """Makes the group rules of a statement, which most have in common."""
        key = numbers.tobytes()
        found = self._levels.get(key)
        if found is None:
            firsts = range(0, len(numbers), _OF_LEVEL)
            found = tuple(self._level(numbers[at : at + _OF_LEVEL]) for at in firsts)
            self._levels[key] = found
        return found

    def _level(self, row: Sequence[int]) -> Level:
        start, length, name, name_length, prelude, prelude_length = row
        end = prelude + prelude_length
        condition = self.condition((name, name + name_length), (prelude, end))
        return Level(condition, (start, start + length), (start, end))

    def condition(self, name: Span, prelude: Span) -> Condition:
        """Makes the group rule whose name, which may have escapes, and prelude are at these places."""
        return Condition(lower(denoted(self.source.at(name))), self.source.at(prelude))

    def _rule(
        self,
        row: Sequence[int],
        selectors: Selectors,
        items: Items,
        levels: Tuple[Level, ...],
    ) -> RuleSet:
        _, start, length, is_closed, prelude, prelude_length = row[:6]
        return RuleSet(
            selectors,
            items,
            levels,
            (prelude, prelude + prelude_length),
            is_closed == 1,
            (start, start + length),
        )

    def _selector(self, row: Sequence[int]) -> ReadSelector:
        start, length, is_read, ids, classes, types, element, name_start, is_any = row
        end = start + length
        span = (start, end)
        text = front = self.source.at(span)
        name = None
        if element < end:
            name = self.source.at((name_start, end))
            front = self.source.at((start, element)) + "*" * is_any
        specificity = (ids, classes, types)
        specificity = self._specificities.setdefault(specificity, specificity)
        return ReadSelector(text, front, name, specificity if is_read else None, span)

    def _declaration(self, row: Sequence[int]) -> ReadDeclaration:
        (
            _,
            start,
            length,
            is_closed,
            name,
            name_length,
            value,
            value_length,
            is_important,
            _,
        ) = row
        end = value + value_length
        declaration = self.declared(
            (name, name + name_length), (value, end), is_important == 1, is_closed == 1
        )
        return ReadDeclaration(declaration, is_closed == 1, (start, start + length), end)

    def _other(self, row: Sequence[int], levels: Tuple[Level, ...]) -> Union[ReadAtRule, Fault]:
        """Makes an at-rule, or something that is skipped."""
        kind, start, length = row[:3]
        if kind in _FAULTS:
            text = self.source.data[start : start + length].rstrip(b" \t\n\r\f")
            return Fault(_FAULTS[kind], levels, (start, start + len(text)))
        (
            is_closed,
            name,
            name_length,
            prelude,
            prelude_length,
            block,
            block_length,
        ) = row[3:10]
        at, end = self.source.at, start + length
        has_block = kind == _AT_RULE
        inner = (block, block + block_length) if has_block else (end, end)
        rule = AtRule(
            lower(at((name, name + name_length))),
            at((prelude, prelude + prelude_length)),
            at(inner) if has_block else None,
            conditions_of(levels),
        )
        return ReadAtRule(rule, levels, is_closed == 1, (start, end), inner)


class InnerRule(NamedTuple):
    """A rule in the block of a style rule: its group rule, if it is one; where it is, and what is
    before its block; and what is in that."""

    condition: Optional[Condition]
    span: Span
    head: Span
    inside: "Iterator[Union[BlockItem, InnerRule]]"


class BegunRule(NamedTuple):
    """A rule whose block begins: its group rule, if it is one; where what is before its block is; and
    where the contents of that are."""

    condition: Optional[Condition]
    head: Span
    inner: Span


class Contents:
    """What the blocks of the style rules of a sheet have, in place, and those of the rules in them."""

    def __init__(self, source: Source, place: Optional[Span] = None) -> None:
        """Reads all of the sheet, or what is between two offsets."""
        self._reader = _Reader(source)
        self._start, self._end = place or (0, len(source.data))
        with KeptSheet(source.data[self._start : self._end]) as sheet:
            self._numbers = sheet.contents()
        self._kinds = self._numbers[::_OF_ITEM]
        # They do not fall.
        self._starts = self._numbers[1::_OF_ITEM]
        self._ends = self._ends_of()

    def _ends_of(self) -> Dict[int, int]:
        """Returns at which row the block ends that begins at each. One that the end of the sheet closes
        has none."""
        ends: Dict[int, int] = {}
        begun: List[int] = []
        for row, kind in enumerate(self._kinds):
            if kind == _END:
                ends[begun.pop()] = row
            elif kind in _BEGUN:
                begun.append(row)
        return ends

    def of_rule(self, start: int) -> Iterator[Union[BlockItem, InnerRule]]:
        """Yields what is in the block of the style rule that begins at an offset, which is closed."""
        row = bisect.bisect_left(self._starts, start - self._start)
        while self._kinds[row] != _RULE:
            row += 1
        return self._inside(row)

    def of_at_rule(self, item: ReadAtRule) -> InnerRule:
        """Returns an at-rule as a group rule. What is in its block is read as in that of a style rule."""
        source, (start, end) = self._reader.source, item.span
        braces = [each for each in tokens(source.at((start, item.inner[0]))) if each.text == "{"]
        brace = start + len(library.encode(source.at((start, item.inner[0]))[: braces[-1].start]))
        condition = Condition(item.rule.name, item.rule.prelude)
        inside = Contents(source, (brace, end)).of_rule(brace)
        return InnerRule(condition, item.span, (start, brace), inside)

    def kept(self) -> Iterator[Span]:
        """Yields where each declaration, at-rule and skipped part is, which begins no block that is read."""
        for row, kind in enumerate(self._kinds):
            if kind != _END and kind not in _BEGUN:
                start, length = self._row(row)[1:3]
                yield start, start + length

    def rules(self) -> Iterator[Optional[BegunRule]]:
        """Yields each rule where its block begins, also one in no style rule, and `None` where the
        innermost block ends."""
        for row, kind in enumerate(self._kinds):
            if kind == _END:
                yield None
            elif kind in _BEGUN:
                condition, head, begin = self._head(row)
                last = self._ends.get(row)
                end = self._end if last is None else self._row(last)[1]
                yield BegunRule(condition, head, (begin, end))

    def declared(self) -> Dict[int, Tuple[Declaration, ...]]:
        """Returns the declarations of each block that has some, by the offset at which its contents begin."""
        found: Dict[int, List[Declaration]] = {}
        begun: List[int] = []
        for row, kind in enumerate(self._kinds):
            if kind == _END:
                begun.pop()
            elif kind in _BEGUN:
                begun.append(self._head(row)[2])
            elif kind == _DECLARATION:
                items = self._reader.items(self._row(row), ())
                found.setdefault(begun[-1], []).extend(declarations_in(items))
        return {start: tuple(each) for start, each in found.items()}

    def _inside(self, row: int) -> Iterator[Union[BlockItem, InnerRule]]:
        """Yields what is in the block of the rule of a row."""
        end = self._ends[row]
        row += 1
        while row < end:
            if self._kinds[row] in _BEGUN:
                yield self._rule(row)
                row = self._ends[row]
            else:
                yield from self._reader.items(self._row(row), ())
            row += 1

    def _row(self, row: int) -> "array.array[int]":
        """Returns the numbers of a row, with offsets into the sheet."""
        found = self._numbers[row * _OF_ITEM : (row + 1) * _OF_ITEM]
        for column in (1, 4, 6) if found[0] == _DECLARATION else (1, 4, 6, 8):
            found[column] += self._start
        return found

    def _rule(self, row: int) -> InnerRule:
        """Makes the rule of a row."""
        condition, head, _ = self._head(row)
        span = head[0], self._row(self._ends[row])[1] + 1
        return InnerRule(condition, span, head, self._inside(row))

    def _head(self, row: int) -> Tuple[Optional[Condition], Span, int]:
        """Returns of the rule of a row its group rule, if it is one, where what is before its block is,
        and where the contents of that begin."""
        kind, start, _, _, name, name_length, at, length, contents, _ = self._row(row)
        if kind == _RULE:
            return None, (start, name + name_length), at
        condition = self._reader.condition((name, name + name_length), (at, at + length))
        return condition, (start, at + length), contents


def before_element(text: str, at: int) -> str:
    """Returns the selector of the elements that a pseudo-element is of, whose name is from an index on."""
    return originating(text[: max(each.start for each in names_in(text) if each.start <= at)])


def ended(text: str) -> Optional[str]:
    """Returns a text with what its end closes: a string or a comment, and brackets. If it has a bad
    string or a stray bracket, nothing does."""
    data = library.encode(text)
    answer = library.call("simplecss_close", data, room=256 + len(data))
    return answer.output.decode("utf-8") if answer.status == library.DONE else None


def _closed(value: str) -> str:
    """Returns a value with what its end closes, also a backslash, which is U+FFFD then."""
    if value.endswith("\\"):
        inside = ended(f"({value}")
        return value if inside is None else inside[1:-1]
    closed = ended(value)
    return value if closed is None else closed


def is_closed(text: str) -> bool:
    """Whether nothing of a group rule is open where its text ends."""
    data = library.encode(f"({text})")
    return library.call("simplecss_close", data, room=256 + len(data)).output == data


def moved(span: Span, by: int) -> Span:
    """Returns where a text is whose offsets are so much less."""
    return span[0] + by, span[1] + by


class _Statements(List[Statement]):
    """The statements of a sheet."""


# Those that are in use, by the texts of their sheets.
_in_use: "weakref.WeakValueDictionary[str, _Statements]" = weakref.WeakValueDictionary()


def read_sheet(text: str) -> Tuple[Source, List[Statement]]:
    """Returns the statements of a style sheet, also those in its group rules. What a `StyleSheet`
    has read is not read again."""
    found = _in_use.get(text)
    if found is not None:
        return Source(text), found
    reader = _Reader(Source(text))
    found = _in_use[text] = _Statements(reader.statements())
    return reader.source, found


def read_block(text: str) -> Tuple[Source, List[BlockItem]]:
    """Returns what a style attribute or the block of a rule has."""
    reader = _Reader(Source(text))
    return reader.source, reader.block_items()


def declarations(text: str) -> List[Declaration]:
    """Returns the declarations of a `style` attribute, in order.

    Names are in lower case, but for those of custom properties. What is not a declaration is skipped.
    """
    return list(declarations_in(read_block(text)[1]))


def is_supported(text: str) -> Optional[bool]:
    """Whether the library matches elements by a selector, or `None` if a text is none."""
    found = read_sheet(text + "{}")[1]
    if len(found) != 1 or not isinstance(found[0], RuleSet) or len(found[0].selectors) != 1:
        return None
    return found[0].selectors[0].specificity is not None
