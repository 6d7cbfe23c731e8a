"""Values with references `var()`, which are replaced by the values of custom properties."""

from __future__ import annotations

import itertools
from typing import (
    Callable,
    Dict,
    Iterable,
    Iterator,
    List,
    Mapping,
    Optional,
    Sequence,
    Tuple,
    Union,
)

from . import _library as library
from ._declaration import Declaration
from ._properties import denoted, is_custom
from ._reading import Condition, ReadAtRule, Statement
from ._tree import Tree, elements_of
from ._words import lower

# How many bytes a value may have whose references are replaced. A longer one is invalid.
LONGEST_VALUE = 2**20
# How many bytes the library reads of what parents hand down and of `@property` rules, for all elements.
MOST_READ = 2**30
# What a custom property of the user agent may have in place of a value, and is then as one that is not declared.
_UNDECLARED = "revert"
_UNSET, _NO_VALUE = "unset", "initial"

# A property's name and its value, as they are written, and several of these.
Pair = Tuple[str, str]
Pairs = Union[Mapping[str, str], Iterable[Pair]]
# Custom properties by their names without escapes.
Custom = Mapping[str, Pair]
# What values come to, if they are valid.
Computed = List[Optional[str]]


def computed(
    pairs: Sequence[Pair],
    inherited: Iterable[Pair] = (),
    registered: Sequence[Pair] = (),
    longest: int = LONGEST_VALUE,
    most: int = library.NO_LIMIT,
) -> Computed:
    """Returns what each value comes to, by its property's name: its references are replaced by custom
    properties among the pairs, and else by those inherited, or as registered by `@property` rules, of
    which the prelude and the block are given. `None` is a value that is invalid at computed-value time. A
    longer one than `longest` is, and more bytes than `most` raise `LimitError`."""
    words = [library.encode(word) for pair in (*pairs, *registered, *inherited) for word in pair]
    name = "simplecss_values"
    ends = library.ends_of(map(len, words))
    room = 1024 + sum(map(len, words[: 2 * len(pairs)]))
    found = library.call(
        *(name, b"".join(words), ends, len(pairs), len(registered), longest),
        room=min(room, most),
        most=most,
    )
    return _values_in(library.output_of(name, found), len(pairs))


def resolve(
    properties: Pairs,
    inherited: Pairs = (),
    *,
    registered: Pairs = (),
    limit: int = LONGEST_VALUE,
) -> Computed:
    """Returns the computed value of each property, as far as names decide it, or `None` if it is
    invalid (CSS Variables 1, section 3).

    The properties are names and values, such as `("color", "var(--a)")`. `inherited` are the custom
    properties of the parent, and `registered` of each `@property` rule what is before the block and
    what is in it. Each may be pairs or a mapping; anything else raises `TypeError`. A value with more
    bytes than `limit` is invalid.

        >>> simplecss.resolve([("color", "var(--a, red)"), ("--b", "var(--b)")], [("--a", "blue")])
        ['blue', None]
    """
    own, handed, rules = map(_pairs, (properties, inherited, registered))
    length = sum(map(len, itertools.chain(*own, *handed, *rules)))
    return computed(own, handed, rules, limit, library.most_written(length))


def _pairs(given: Pairs) -> List[Pair]:
    """Returns pairs of texts, or those of a mapping."""
    pairs = list(given.items() if isinstance(given, Mapping) else given)
    for each in pairs:
        if not isinstance(each, (tuple, list)) or len(each) != 2:
            raise TypeError("pairs of a name and a value are expected")
        library.expect_text(each[0])
        library.expect_text(each[1])
    return pairs


def _values_in(output: bytes, count: int) -> Computed:
    """Returns the values that the library wrote, each after its length and a newline."""
    values: Computed = []
    at = 0
    for _ in range(count):
        start = output.index(b"\n", at) + 1
        length = output[at : start - 1]
        at = start + int(length) if length else start
        values.append(output[start:at].decode("utf-8") if length else None)
    return values


class _Element:
    """What an element has: declarations, and the custom properties that it hands down."""

    def __init__(self, declarations: List[Declaration], custom: Custom) -> None:
        self.declarations = declarations
        self.custom = custom


class _Resolver:
    """Replaces the references of the elements of a tree."""

    def __init__(self, registered: Sequence[Pair], limit: int) -> None:
        self._registered = registered
        # What is registered, and its name as it is written.
        self._names = {denoted(name): name for name, _ in registered}
        self._room = library.Room(library.most_written(0), "bytes of values")
        self._handed = library.Room(limit, "values that parents hand down")
        self._read = library.Room(MOST_READ, "bytes of values that parents hand down")
        # What was found, by the custom properties of the parent and the declarations.
        self._found: Dict[Tuple[int, Tuple[Declaration, ...]], _Element] = {}

    def element(self, declared: Sequence[Declaration], inherited: Custom) -> _Element:
        """Returns what an element has that inherits these custom properties."""
        key = (id(inherited), tuple(declared))
        found = self._found.get(key)
        if found is None:
            found = self._found[key] = self._resolved(declared, inherited)
        return found

    def _resolved(self, declared: Sequence[Declaration], inherited: Custom) -> _Element:
        # A reference has a parenthesis, and no other value changes.
        asked = [each for each in declared if is_custom(each.name) or "(" in each.value]
        if not asked and not self._names:
            return _Element(list(declared), inherited)
        pairs = [(each.name, _asked_for(each)) for each in asked]
        pairs += self._undeclared(denoted(each.name) for each in asked)
        self._handed.take(len(inherited) + len(self._names))
        self._read.take(sum(map(len, itertools.chain(*inherited.values(), *self._registered))))
        values = computed(pairs, inherited.values(), self._registered, most=self._room.left)
        self._room.take(sum(map(len, filter(None, values))))
        custom = self._custom(inherited, zip((name for name, _ in pairs), values))
        return _Element(_with_values(declared, dict(zip(asked, values))), custom)

    def _undeclared(self, declared: Iterable[str]) -> List[Pair]:
        """Returns the properties that are registered and not among these."""
        names = {**self._names}
        for name in declared:
            names.pop(name, None)
        return [(name, _UNSET) for name in names.values()]

    def _custom(self, inherited: Custom, values: Iterable[Tuple[str, Optional[str]]]) -> Custom:
        """Returns the custom properties of an element, which has these values."""
        custom = dict(inherited)
        for name, value in values:
            if is_custom(name):
                custom.pop(denoted(name), None)
                if value is not None:
                    custom[denoted(name)] = (name, value)
                elif denoted(name) in self._names:
                    custom[denoted(name)] = (name, _NO_VALUE)
        # Those who have the same custom properties share them.
        return inherited if custom == inherited else custom


def _asked_for(declaration: Declaration) -> str:
    """Returns a value as the library is asked for it, which knows of no earlier declarations."""
    is_undeclared = lower(declaration.value) == _UNDECLARED and is_custom(declaration.name)
    return _UNSET if is_undeclared else declaration.value


def _with_values(
    declared: Sequence[Declaration], values: Mapping[Declaration, Optional[str]]
) -> List[Declaration]:
    """Returns declarations with these values, without those that have none then."""
    pairs = [(each, values.get(each, each.value)) for each in declared]
    return [each._replace(value=value) for each, value in pairs if value is not None]


def registered_in(
    statements: Iterable[Statement],
    outer: Sequence[Condition],
    applies: Callable[[Condition], bool],
) -> Iterator[Pair]:
    """Yields the prelude and the block of each `@property` of a sheet whose conditions hold, as those of
    the whole sheet do."""
    for each in statements:
        if isinstance(each, ReadAtRule) and lower(denoted(each.rule.name)) == "property":
            conditions = (*outer, *each.rule.conditions)
            if each.rule.block is not None and all(map(applies, conditions)):
                yield each.rule.prelude, each.rule.block


class ResolvedElements:
    """The declarations of elements with their references replaced, each found with its ancestors when it is
    asked for."""

    def __init__(
        self,
        parents: Sequence[int],
        styles: Callable[[int], Sequence[Declaration]],
        registered: Sequence[Pair],
        limit: int,
    ) -> None:
        """Takes the indices of parents, what returns the declarations of an element, and `@property` rules."""
        self._parents = parents
        self._styles = styles
        self._resolver = _Resolver(registered, limit)
        self._found: Dict[int, _Element] = {-1: _Element([], {})}

    def declarations(self, index: int) -> List[Declaration]:
        """Returns the declarations of an element. One that is invalid at computed-value time is left out."""
        way: List[int] = []
        at = index
        while at not in self._found:
            way.append(at)
            at = self._parents[at]
        custom = self._found[at].custom
        for each in reversed(way):
            found = self._found[each] = self._resolver.element(self._styles(each), custom)
            custom = found.custom
        return self._found[index].declarations


def resolved(
    tree: Tree, styles: List[List[Declaration]], registered: Sequence[Pair], limit: int
) -> List[List[Declaration]]:
    """Returns the declarations of each element with their references replaced, where these `@property`
    rules are. One that is invalid at computed-value time is left out. A parent hands its custom properties
    down: more of them than `limit`, each time that they are read, raise `LimitError`.
    """
    parents = elements_of(tree).parents
    found = ResolvedElements(parents, styles.__getitem__, registered, limit)
    return [found.declarations(index).copy() for index in range(len(styles))]
