"""The declarations that win on the elements of a tree, as the library finds them."""

from __future__ import annotations

import array
import functools
import itertools
import weakref
from typing import (
    Callable,
    Dict,
    Iterable,
    Iterator,
    List,
    NamedTuple,
    Optional,
    Sequence,
    Tuple,
)

from . import _library as library
from ._declaration import Declaration
from ._device import LAYER, Media, holds
from ._linked import Piece
from ._elements import Elements
from ._kept import EXPLAINED, MATCHES, NO_NAMES, RULES, WINNERS, WINNERS_NAMED
from ._kept import KeptQuery, sheets_query
from ._reading import (
    Condition,
    Contents,
    DeclarationReader,
    Outer,
    Source,
)
from ._selectors import Specificity
from ._spaced import HTML_SPACE
from ._specified import Own
from ._taken import Values
from ._values import has_ident

# How many numbers the library writes of a rule before those of its declarations, of each of these,
# of a declaration that wins, and of one that is explained.
_OF_RULE, _OF_DECLARATION, _OF_WINNER, _OF_EXPLAINED = 9, 6, 2, 3
# How many numbers of what wins on an element there is room for at first.
_ROOM_FOR_ELEMENT = 64
# What a sheet has: its text, and the group rules that all of it is in.
ReadSheet = Tuple[Source, Tuple[Outer, ...]]
Applies = Callable[[Condition], bool]
# What undoes the declarations of an origin or a layer.
_ROLLS_BACK = frozenset(("revert", "revert-layer"))
# The origins of sheets, and how the library numbers them.
AUTHOR, USER_AGENT = "author", "user-agent"
ORIGINS: Dict[str, int] = {AUTHOR: 0, "user": 1, USER_AGENT: 2}


class Declarations:
    """The declarations of a block, each made when it is asked for."""

    def __init__(self, reader: DeclarationReader, numbers: "array.array[int]") -> None:
        self._reader = reader
        self._numbers = numbers
        self._made: Dict[int, Declaration] = {}

    def __len__(self) -> int:
        return len(self._numbers) // _OF_DECLARATION

    def __iter__(self) -> Iterator[Declaration]:
        return map(self.at, range(len(self)))

    def at(self, place: int) -> Declaration:
        """Returns a declaration by its place among these."""
        found = self._made.get(place)
        if found is None:
            found = self._made[place] = self._make(_OF_DECLARATION * place)
        return found

    def start(self, place: int) -> int:
        """Returns the offset at which a declaration begins, in bytes."""
        return self._numbers[_OF_DECLARATION * place]

    def span(self, place: int) -> Tuple[int, int]:
        """Returns where a declaration is, up to the end of its value."""
        row = self._numbers[_OF_DECLARATION * place : _OF_DECLARATION * (place + 1)]
        return row[0], row[2] + row[3]

    def _make(self, at: int) -> Declaration:
        name, name_length, value, value_length, is_important, is_closed = self._numbers[
            at : at + _OF_DECLARATION
        ]
        return self._reader.declared(
            (name, name + name_length),
            (value, value + value_length),
            bool(is_important),
            bool(is_closed),
        )


class PlacedRule(NamedTuple):
    """A rule: the number of its sheet, where its declarations begin there, and these; its specificity;
    and how many bytes the text of its selector has, and the pseudo-element at the end of that.
    """

    sheet: int
    start: int
    declarations: Declarations
    specificity: Specificity
    selector_length: int
    element_length: int


def roll_back(declarations: Iterable[Declaration]) -> bool:
    """Whether a declaration rolls back others."""
    return any(has_ident(each.value, _ROLLS_BACK) for each in declarations)


def _held(source: Source, applies: Applies) -> Iterator[Condition]:
    """Yields the group rules of a sheet that hold, each of those in no other that does not."""
    # Whether what is in each rule that is open applies.
    around = [True]
    for rule in Contents(source).rules() if b"@" in source.data else ():
        if rule is None:
            around.pop()
        elif rule.condition is None or not around[-1]:
            around.append(around[-1])
        else:
            around.append(applies(rule.condition))
            if around[-1]:
                yield rule.condition


def _groups_in(sheets: Iterable[ReadSheet], applies: Applies) -> Dict[Outer, int]:
    """Returns the group rules of sheets that hold, and the layers that all of a sheet is in, each with
    its index."""
    found: Dict[Outer, int] = {}
    for source, around in sheets:
        conditions = [each.condition for each in around]
        every = [each for each in around if applies(each.condition)]
        if len(every) == len(conditions):
            every += [Outer(each) for each in _held(source, applies) if each.name != LAYER]
        for one in every:
            found.setdefault(one, len(found))
    return found


class Winning:
    """The rules of sheets that apply, in the order of the cascade, and what wins of these."""

    def __init__(
        self,
        sheets: Sequence[ReadSheet],
        pieces: Iterable[Piece],
        origins: Sequence[str],
        media: Media,
        limit: int,
        values: Values,
    ) -> None:
        """Takes the pieces of sheets, of these origins, which are read when they are asked, without declarations with other
        values. Rules with more declarations than `limit` raise `LimitError` then.
        """
        applies = functools.lru_cache(maxsize=None)(functools.partial(holds, media=media))
        groups = _groups_in(sheets, applies)
        words = [library.encode(word) for each in groups for word in each.condition]
        data = [
            each[0].data if origin == USER_AGENT else values.in_sheet(each[0].data)
            for each, origin in zip(sheets, origins)
        ]
        # Where an offset is in a piece, it is in the sheet.
        parts = [
            (each.text, b" " * each.start + data[each.text][each.start : each.end])
            for each in pieces
        ]
        # The numbers of the sheets that the pieces are of.
        self._numbers = [number for number, _ in parts]
        sheet_arrays = library.SheetArrays(
            [text for _, text in parts],
            words,
            [ORIGINS[origins[number]] for number in self._numbers],
            # A group rule that does not hold has no index.
            [
                [groups.get(each, library.NO_LIMIT) for each in sheets[number][1]]
                for number in self._numbers
            ],
        )
        # Which rules are read does not depend on what the namespaces are.
        self._sheets = sheet_arrays.with_namespaces([library.encode(HTML_SPACE)])
        self._size = sum(len(text) for _, text in parts)
        self._limit = limit
        self._sources = [source for source, _ in sheets]
        # Returns what the library keeps of the sheets, while something else has it.
        self._last: Callable[[], Optional[KeptQuery]] = lambda: None
        # The layers of the places of rules, where they were looked up.
        self.layers: Optional[Dict[Tuple[int, int], Optional[str]]] = None

    @functools.cached_property
    def rules(self) -> List[PlacedRule]:
        """The rules."""
        return list(self._read())

    @functools.cached_property
    def count(self) -> int:
        """How many declarations the rules have."""
        return sum(len(each.declarations) for each in self.rules)

    def _kept(self) -> KeptQuery:
        """Returns what the library keeps of the sheets: on the elements that were asked last, or on none."""
        last = self._last()
        return sheets_query(self._sheets, self._limit) if last is None or last.is_left else last

    def _read(self) -> Iterator[PlacedRule]:
        """Yields the rules."""
        readers = list(map(DeclarationReader, self._sources))
        # The declarations of each block, which the rules of a rule set share.
        blocks: Dict[Tuple[int, int], Declarations] = {}
        # Most rules have one of few.
        specificities: Dict[Specificity, Specificity] = {}
        room = 1024 + self._size
        numbers = self._kept().numbers(RULES, 0, 0, room=room)
        at = 0
        while at < len(numbers):
            piece, start, _, length, element, ids, classes, types, count = numbers[
                at : at + _OF_RULE
            ]
            at += _OF_RULE
            end = at + _OF_DECLARATION * count
            number = self._numbers[piece]
            if (number, start) not in blocks:
                blocks[number, start] = Declarations(readers[number], numbers[at:end])
            weight = (ids, classes, types)
            weight = specificities.setdefault(weight, weight)
            block = blocks[number, start]
            yield PlacedRule(number, start, block, weight, length, element)
            at = end

    @functools.cached_property
    def selectors(self) -> List[str]:
        """Returns the text of each rule's selector, with its pseudo-element."""
        room, most = 1024 + 2 * self._size, library.most_written(self._size)
        every = self._kept().texts(most, room)
        ends = itertools.accumulate(each.selector_length for each in self.rules)
        return [
            every[end - rule.selector_length : end].decode("utf-8")
            for rule, end in zip(self.rules, ends)
        ]

    @functools.cached_property
    def declared(self) -> List[Declaration]:
        """The declarations of the rules. Those that rules of a rule set share are there once."""
        blocks = {id(each.declarations): each.declarations for each in self.rules}
        return list(itertools.chain.from_iterable(blocks.values()))

    @functools.cached_property
    def rolls_back(self) -> bool:
        """Whether a declaration rolls back others."""
        return roll_back(self.declared)

    def on(self, elements: Elements, own: Own) -> Query:
        """Returns these rules on elements, which have these of their own."""
        return Query(self, elements, own)

    def query(self, elements: Elements, own: Own) -> KeptQuery:
        """Returns what the library keeps of these sheets on elements."""
        found = elements.query(self._sheets, self._limit, own.arrays)
        self._last = weakref.ref(found)
        return found


class Query:
    """Rules on the elements of a tree, as the library keeps them: what wins, and what matches."""

    def __init__(self, winning: Winning, elements: Elements, own: Own) -> None:
        self.cascade, self._elements, self.own = winning, elements, own
        self._kept = winning.query(elements, own)
        # What was found of the declarations with the names that were explained last, by element.
        self._explained: Tuple[Tuple[str, ...], Dict[int, "array.array[int]"]] = (
            (),
            {},
        )

    def _asked(self) -> KeptQuery:
        """Returns what is asked, which a fork may have left behind."""
        if self._kept.is_left:
            self._kept = self.cascade.query(self._elements, self.own)
        return self._kept

    def _numbers(
        self,
        asked: int,
        where: range,
        width: int,
        limit: int,
        names: library.AskedArrays = NO_NAMES,
    ) -> "array.array[int]":
        """Returns how many winners or rules each element of a range has, and so many numbers for each of these. More of
        them than `limit` raise `LimitError`."""
        room = 1024 + _ROOM_FOR_ELEMENT * len(where)
        most = min(len(self._elements) + width * limit, library.NO_LIMIT)
        try:
            kept = self._asked()
            return kept.numbers(asked, where.start, where.stop, most, names=names, room=room)
        except library.LimitError:
            raise library.Room(limit).passed() from None

    def matching(self, limit: int, where: Optional[range] = None) -> Iterator["array.array[int]"]:
        """Yields for each element, or for those of a range, the numbers of the rules that match it, or whose
        pseudo-elements it has, in the order of the cascade. More rules than `limit` raise `LimitError`.
        """
        return _lines(self._numbers(MATCHES, self._range(where), 1, limit), 1)

    def winning(self, limit: int) -> Iterator["array.array[int]"]:
        """Yields for each element two numbers of each declaration that wins, in the order of the cascade: where it is,
        and its place there. More declarations than `limit` raise `LimitError`."""
        return _lines(self._numbers(WINNERS, self._range(None), _OF_WINNER, limit), _OF_WINNER)

    def winners(self, limit: int, where: Optional[range] = None) -> List[List[Declaration]]:
        """Returns what wins on each element, or on those of a range, in the order of the cascade. More declarations
        than `limit` raise `LimitError`."""
        those = self._range(where)
        return list(self._winners(those, self._numbers(WINNERS, those, _OF_WINNER, limit)))

    def named(
        self, names: Iterable[str], limit: int, where: Optional[range] = None
    ) -> List[Optional[Declaration]]:
        """Returns for each element, or for those of a range, the declaration that wins of those that have one of these
        names."""
        those = self._range(where)
        pairs = self.named_at(names, limit, those)
        return [self.at(index, *pair) for index, pair in zip(those, pairs)]

    def named_at(
        self, names: Iterable[str], limit: int, where: Optional[range] = None
    ) -> Iterator[Tuple[int, int]]:
        """Returns for each element two numbers of the declaration that wins of those that have one of these names, as
        `winning` does. If there is none, `at` returns none for them."""
        asked = library.AskedArrays([list(map(library.encode, names))])
        numbers = self._numbers(WINNERS_NAMED, self._range(where), _OF_WINNER, limit, asked)
        return zip(numbers[::_OF_WINNER], numbers[1::_OF_WINNER])

    def explained(self, names: Sequence[str], index: int, limit: int) -> "array.array[int]":
        """Returns three numbers of each declaration that has one of these names and applies to an element, the
        strongest first: where it is, its place there, and by what it loses to the one before it. More of them than
        `limit` raise `LimitError`."""
        if self._explained[0] != tuple(names):
            self._explained = tuple(names), {}
        known = self._explained[1]
        found = known.get(index)
        if found is None:
            asked = library.AskedArrays([list(map(library.encode, names))])
            where = range(index, index + 1)
            found = self._numbers(EXPLAINED, where, _OF_EXPLAINED, limit, asked)[1:]
            known[index] = found
        return found

    def _range(self, where: Optional[range]) -> range:
        return range(len(self._elements)) if where is None else where

    def at(self, index: int, source: int, place: int) -> Optional[Declaration]:
        """Returns the declaration of an element of these numbers, if there is one."""
        rules, own = self.cascade.rules, self.own
        if source < len(rules):
            return rules[source].declarations.at(place)
        if source == len(rules):
            return own.styled(index)[place]
        return own.presented(index)[place] if source == len(rules) + 1 else None

    def _winners(self, where: range, numbers: "array.array[int]") -> Iterator[List[Declaration]]:
        """Yields the declarations that win on each element of a range. Many have the same."""
        known: Dict[Tuple[bytes, ...], List[Declaration]] = {}
        for index, line in zip(where, _lines(numbers, _OF_WINNER)):
            key = (line.tobytes(), *self.own.texts_of(index))
            found = known.get(key)
            if found is None:
                each = (self.at(index, *pair) for pair in zip(line[0::2], line[1::2]))
                found = known[key] = [one for one in each if one is not None]
            yield found.copy()


def _lines(numbers: "array.array[int]", width: int) -> Iterator["array.array[int]"]:
    """Yields what the library writes of each element: so many numbers for each of as many as it says first."""
    at = 0
    while at < len(numbers):
        end = at + 1 + width * numbers[at]
        yield numbers[at + 1 : end]
        at = end
