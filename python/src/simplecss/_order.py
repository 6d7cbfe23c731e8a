"""The order of rules in the cascade, and which of their declarations win, as the library says."""

from __future__ import annotations

import array
import itertools
from typing import Dict, Iterable, Iterator, List, Mapping, NamedTuple, Sequence, Tuple

from . import _library as library
from ._kept import RULES, WINNERS, KeptQuery, sheets_query
from ._reading import STYLE, Contents, Level, Source
from ._tokens import keywords_in

# The group rule that is a layer.
LAYER = "layer"
# The levels with nothing in them that has a condition.
_LAYERED = frozenset((LAYER, STYLE))
# How many numbers the library writes of a rule with one declaration, and of one that wins.
_OF_RULE, _OF_WINNER = 15, 2
# A selector of which the library knows no more than that it is one.
EVERY = "*"

# The layers that a rule is in, from the outermost.
Layers = Tuple[Tuple[Source, Level], ...]


class Strength(NamedTuple):
    """Where a rule is in the order of the cascade: with what is not important, and with what is; and
    how many layers are before its own."""

    normal: int
    important: int
    layer: int

    def of(self, important: bool) -> int:
        """Returns where declarations of an importance are among those of the same."""
        return self.important if important else self.normal


class Reach(NamedTuple):
    """Between which strengths a rule is."""

    least: Strength
    most: Strength


class Ordered(NamedTuple):
    """A selector in its layers, and whether its specificity is known."""

    layers: Layers
    selector: str
    is_ranked: bool = True


def is_layer(prelude: str) -> bool:
    """Whether `@layer` with this prelude may have a block: the library reads the rule in it."""
    return _has_rule(f"@{LAYER} {prelude}\n{{{EVERY}{{a:0}}}}")


def is_ended(prelude: str) -> bool:
    """Whether a semicolon ends `@layer` with this prelude, and not a string or a bracket of it."""
    return _has_rule(f"@{LAYER} {prelude};{EVERY}{{a:0}}")


def _has_rule(css: str) -> bool:
    """Whether a sheet has a rule that applies."""
    sheets, room = library.SheetArrays([library.encode(css)], []), _OF_RULE + 1
    try:
        return len(sheets_query(sheets, library.NO_LIMIT).numbers(RULES, 0, 0, room=room)) > 0
    except library.LimitError:
        # It has more layers than the library orders.
        return True


def without_wrong_layers(css: str) -> str:
    """Returns a sheet without the blocks of layers whose names are wrong, which browsers drop."""
    if not count_layers(css):
        return css
    source = Source(css)
    pieces: List[str] = []
    at = 0
    known: Dict[str, bool] = {}
    for rule in Contents(source).rules():
        if rule is None or rule.condition is None or rule.condition.name != LAYER:
            continue
        prelude = rule.condition.prelude
        if prelude not in known:
            known[prelude] = is_layer(prelude)
        if rule.head[0] >= at and not known[prelude]:
            pieces.append(source.at((at, rule.head[0])))
            # After its end is a brace, if the end of the text does not close it.
            at = min(rule.inner[1] + 1, len(source.data))
    return " ".join([*pieces, source.at((at, len(source.data)))])


class LayeredText:
    """Text that is put together, each part in the blocks of its layers."""

    def __init__(self, newline: str = "") -> None:
        self._newline = newline
        self._parts: List[str] = []
        self._open: Layers = ()

    def enter(self, layers: Layers) -> None:
        """Opens the blocks of layers, and closes others."""
        pairs = zip(self._open, layers)
        shared = sum(1 for _ in itertools.takewhile(lambda pair: pair[0] == pair[1], pairs))
        self._parts += ["}"] * (len(self._open) - shared)
        self._parts += (f"{level.condition} {{" for _, level in layers[shared:])
        self._open = layers

    def add(self, layers: Layers, text: str) -> None:
        """Adds a part."""
        if layers != self._open:
            self.enter(layers)
        self._parts.append(text)

    def closed(self) -> str:
        """Returns the text."""
        self.enter(())
        return self._newline.join(self._parts)


def layers_of(source: Source, levels: Iterable[Level]) -> Layers:
    """Returns the layers that all of a sheet is in, and then those that levels of it begin with."""
    return source.around + own_layers(source, levels)


def own_layers(source: Source, levels: Iterable[Level]) -> Layers:
    """Returns the layers that levels of a sheet begin with, also those in style rules."""
    first = itertools.takewhile(lambda level: level.condition.name in _LAYERED, levels)
    return tuple([(source, level) for level in first if level.condition.name == LAYER])


def count_layers(text: str) -> int:
    """Returns how many `@layer` are in a text."""
    return sum(keyword == LAYER for keyword in keywords_in(text))


def reaches_of(parts: Sequence["Ordered | Tuple[Layers, str]"]) -> List[Reach]:
    """Returns between which strengths each selector is among all of these, which are in order with
    what else says the order of layers. More than 1,024 layers raise `MemoryError`."""
    text = LayeredText()
    every: List[Ordered] = []
    for part in parts:
        if isinstance(part, Ordered):
            every.append(part)
            text.add(part.layers, f"{part.selector if part.is_ranked else EVERY} {{a:0}}")
        else:
            text.add(*part)
    places = _places_in(text.closed(), len(every))
    ends = {each.layer: each for each in places}
    starts = {each.layer: each for each in reversed(places)}
    return [
        _reach(each, starts[each.layer], ends[each.layer], one.is_ranked)
        for each, one in zip(_by_start(places), every)
    ]


class _Place(NamedTuple):
    """A rule in the order of the cascade: where it starts in the text, its layer, and where it is in
    both orders."""

    start: int
    layer: int
    normal: int
    important: int


def _places_in(text: str, count: int) -> List[_Place]:
    """Returns the rules of a text, which are so many, in the order of the cascade."""
    sheets = library.SheetArrays([library.encode(text)], [])
    room = _OF_RULE * count + 1
    numbers = sheets_query(sheets, library.NO_LIMIT).numbers(RULES, 0, 0, room=room)
    if len(numbers) != _OF_RULE * count:
        raise library.InternalError("a query has other rules than those of the sheet")
    rows = zip(numbers[1::_OF_RULE], numbers[2::_OF_RULE])
    found: List[_Place] = []
    # What is important in an earlier layer is stronger.
    for layer, those in itertools.groupby(rows, lambda row: row[1]):
        starts = [start for start, _ in those]
        first = count - len(found) - len(starts)
        places = itertools.count(len(found))
        importances = itertools.count(first)
        found += map(_Place, starts, itertools.repeat(layer), places, importances)
    return found


def _by_start(places: Iterable[_Place]) -> List[_Place]:
    return sorted(places, key=lambda place: place.start)


def _reach(place: _Place, first: _Place, last: _Place, is_ranked: bool) -> Reach:
    """Returns between which strengths a rule is: of which the specificity is not known, anywhere in
    its layer. Between two places there is room for one."""
    if is_ranked:
        strength = Strength(2 * place.normal, 2 * place.important, place.layer)
        return Reach(strength, strength)
    least = Strength(2 * first.normal - 1, 2 * first.important - 1, place.layer)
    return Reach(least, Strength(2 * last.normal + 1, 2 * last.important + 1, place.layer))


class Grouped(NamedTuple):
    """What has the name of a property and an importance."""

    name: str
    important: bool


class Winners:
    """The rules that match some elements, of which the library says what wins.

    It is asked about a sheet that has a class for each rule, in the order of the cascade, on
    elements that have the classes of the rules of a set.
    """

    def __init__(self, rules: Mapping[int, Tuple[Strength, Sequence[Grouped]]]) -> None:
        """Takes rules by their numbers: how strong each is, and what it has."""
        self._numbers = sorted(rules, key=lambda number: rules[number][0])
        text: List[str] = []
        by_layer = itertools.groupby(self._numbers, lambda number: rules[number][0].layer)
        last = max((strength.layer for strength, _ in rules.values()), default=0)
        for layer, numbers in by_layer:
            blocks = (f".r{number}{{{_block(rules[number][1])}}}" for number in numbers)
            inner = "".join(blocks)
            # The rules of the last one are not in a layer, or nothing else is.
            text.append(inner if layer == last else f"@layer{{{inner}}}")
        self._sheets = library.SheetArrays([library.encode("".join(text))], [])

    def of(self, sets: Sequence[Sequence[int]]) -> List[List[Tuple[int, int]]]:
        """Returns for each set of rules what wins: the number of its rule, and which it is of what
        this rule has. They are in the order of the rules."""
        strings: List[str] = []
        for rules in sets:
            strings += ("e", "class", " ".join(f"r{number}" for number in rules))
        tree = library.TreeArrays([0, 1, 0, 0] * len(sets), strings)
        query = KeptQuery(tree, 0, self._sheets, library.NO_LIMIT, library.OwnArrays([]))
        room = 1024 + 64 * len(sets)
        return list(self._won(query.numbers(WINNERS, 0, len(sets), room=room)))

    def _won(self, numbers: "array.array[int]") -> Iterator[List[Tuple[int, int]]]:
        at = 0
        while at < len(numbers):
            first, at = at + 1, at + 1 + _OF_WINNER * numbers[at]
            rules = map(self._numbers.__getitem__, numbers[first:at:_OF_WINNER])
            yield list(zip(rules, numbers[first + 1 : at : _OF_WINNER]))


def _block(groups: Iterable[Grouped]) -> str:
    return "".join(f"{each.name}:0{'!important' if each.important else ''};" for each in groups)
