"""The properties that two style sheets set differently on the elements of pages."""

from __future__ import annotations

import array
import functools
import itertools
from typing import (
    Dict,
    Iterable,
    Iterator,
    List,
    NamedTuple,
    Optional,
    Sequence,
    Set,
    Tuple,
    Union,
)

from ._declaration import Declaration
from ._device import Device, Media, device_of
from ._library import USUAL_ANSWER_LIMIT, Room
from ._normal import normal_value
from ._properties import counterparts, longhands, names_setting
from ._regions import told_apart
from ._sheet import StyleSheet, Won, conditions_of
from ._specified import Own, presentation_attributes, values_on
from ._tree import Element, Tree
from ._winners import roll_back

# How many differences are returned at most.
_MOST = 1_000_000
# Where a declaration is that wins, and its place there, as the library numbers them.
_At = Tuple[int, int]
# A longhand, and what sets it by two sheets.
_Set = Tuple[str, Optional[_At], Optional[_At]]
# The same, after the index of an element.
_Row = Tuple[int, str, Optional[_At], Optional[_At]]
# What nothing sets.
_NOTHING: Tuple[Optional[_At], Optional[Declaration]] = (None, None)


class Difference(NamedTuple):
    """A longhand that two style sheets set differently on an element.

    `old` and `new` are the declarations that win, which may be of a shorthand, or `None`; each has a `place`. `device` is
    the first device on which they win, or what decides of conditions.
    """

    element: Element
    name: str
    old: Optional[Declaration]
    new: Optional[Declaration]
    device: Media


def compare(
    old: StyleSheet,
    new: StyleSheet,
    *trees: Tree,
    media: Media = "screen",
    all_conditions: bool = False,
) -> List[Difference]:
    """Returns the longhands that two style sheets set differently on the elements of trees.

    The order is that of the trees, of their elements, and of the names. If it is empty, for each longhand of
    each element declarations with the same value win, or none in either. Attributes `style` and the
    presentation attributes of SVG take part. Blanks, comments, quotes and the case of what has none do not
    count in values; a shorthand differs from its longhands. Text is taken to be horizontal, from left to
    right. Pseudo-elements are not compared, and elements are in the states that trees say.

    `media` is that of `StyleSheet.match`. With `all_conditions` each device counts that conditions of
    `@media` in the sheets tell from this one and from one another; more than 4,096 raise `LimitError`.
    A difference is returned once, with its first device. The time grows as that of `StyleSheet.styles`,
    times the devices, and where declarations roll back, as the elements and declarations times the
    longhands that the sheets set. More than 10,000,000 of these, or 1,000,000 differences, raise
    `LimitError`.
    """
    devices: Sequence[Media] = (media,)
    if all_conditions:
        if not isinstance(media, Device) and callable(media):
            raise TypeError("a device is expected: all conditions are asked on devices")
        devices = told_apart((*conditions_of(old), *conditions_of(new)), device_of(media))
    room = Room(_MOST, "differences")
    found: List[Difference] = []
    for tree in trees:
        every = _on_devices((old, new), tree, devices)
        found += itertools.islice(every, room.left + 1)
        room.take(len(found) - (_MOST - room.left))
    return found


def _on_devices(
    sheets: Tuple[StyleSheet, StyleSheet], tree: Tree, devices: Sequence[Media]
) -> Iterable[Difference]:
    """Returns the differences on a tree, each with the first device on which it is."""
    own = Own(tree, presentation_attributes, values_on(tree, any_value=False))
    if len(devices) == 1:
        return _Comparison(sheets, tree, own, devices[0]).differences()
    found: Dict[Tuple[object, ...], Difference] = {}
    for device in devices:
        for each in _Comparison(sheets, tree, own, device).differences():
            places = (one and (one, one.place) for one in (each.old, each.new))
            found.setdefault((each.element.index, each.name, *places), each)
    return sorted(found.values(), key=lambda each: (each.element.index, each.name))


class _Comparison:
    """Two sheets on the elements of a tree, on a device."""

    def __init__(
        self, sheets: Tuple[StyleSheet, StyleSheet], tree: Tree, own: Own, media: Media
    ) -> None:
        self._tree, self._own, self._media = tree, own, media
        self._both = tuple(Won(sheet, tree, own, media) for sheet in sheets)

    def differences(self) -> Iterator[Difference]:
        """Yields the differences, in the order of the elements and the names."""
        is_by_name = any(won.rolls_back for won in self._both) or roll_back(
            self._own.declarations()
        )
        rows: Iterable[_Row] = self._by_name() if is_by_name else self._by_winners()
        before, after = self._both
        for index, name, old, new in rows:
            both = _declared(before, index, old), _declared(after, index, new)
            yield Difference(self._tree[index], name, *both, self._media)

    # ---- by what wins

    def _by_winners(self) -> Iterator[_Row]:
        """Yields the differences by the declarations that win, the last of which sets a longhand."""
        known: Dict[Tuple[bytes, ...], List[_Set]] = {}
        lines = zip(*(won.winners() for won in self._both))
        for index, (old, new) in enumerate(lines):
            key = (old.tobytes(), new.tobytes(), *self._own.texts_of(index))
            found = known.get(key)
            if found is None:
                found = known[key] = list(self._differing(index, old, new))
            for each in found:
                yield (index, *each)

    def _differing(
        self, index: int, old: "array.array[int]", new: "array.array[int]"
    ) -> Iterator[_Set]:
        """Yields the longhands that declarations set differently on an element, the last of each."""
        every = [list(_with_places(won, index, line)) for won, line in zip(self._both, (old, new))]
        if len({tuple(_compared(one) for _, one in each) for each in every}) == 1:
            return
        before, after = map(_setting, every)
        names = {part for each in every for _, one in each for part in _parts(one.name)}
        for name in sorted(names):
            one, other = before.get(name, _NOTHING), after.get(name, _NOTHING)
            if _compared(one[1]) != _compared(other[1]):
                yield name, one[0], other[0]

    # ---- by what wins of each longhand

    def _by_name(self) -> List[_Row]:
        """Returns the differences by what wins for each longhand that a sheet or an element sets."""
        every = [each for won in self._both for each in won.declared]
        every += self._own.declarations()
        names = sorted({part for each in every for part in _parts(each.name)})
        room = Room(USUAL_ANSWER_LIMIT, "elements and declarations for all longhands")
        room.take(len(names) * (len(self._tree) + len(every)))
        found: List[_Row] = []
        for name in names:
            pairs = zip(*(won.named(names_setting(name)) for won in self._both))
            for index, (old, new) in enumerate(pairs):
                both = (_declared(won, index, at) for won, at in zip(self._both, (old, new)))
                if len(set(map(_compared, both))) > 1:
                    found.append((index, name, old, new))
        return sorted(found, key=lambda row: row[:2])


def _declared(won: Won, index: int, at: Optional[_At]) -> Optional[Declaration]:
    """Returns the declaration of an element there, if there is one."""
    return None if at is None else won.at(index, *at)


def _with_places(
    won: Won, index: int, line: "array.array[int]"
) -> Iterator[Tuple[_At, Declaration]]:
    """Yields what wins on an element, each with where it is."""
    for at in zip(line[0::2], line[1::2]):
        declaration = won.at(index, *at)
        if declaration is not None:
            yield at, declaration


def _setting(styles: Iterable[Tuple[_At, Declaration]]) -> Dict[str, Tuple[_At, Declaration]]:
    """Returns the last of declarations that sets each longhand, by its own name or its other one: that of the
    physical or the logical property."""
    return {
        each: found
        for found in styles
        for part in _parts(found[1].name)
        for each in (part, *counterparts(part))
    }


@functools.lru_cache(maxsize=4096)
def _parts(name: str) -> Sequence[str]:
    """Returns the longhands of a property, or its name if it has none."""
    return longhands(name) or (name,)


def _compared(declaration: Optional[Declaration]) -> Optional[Tuple[str, str]]:
    """Returns what is compared of a declaration."""
    if declaration is None:
        return None
    return declaration.name, normal_value(declaration.name, declaration.value)
