"""Properties by their names: shorthands, what is inherited, and which values can be declared."""

from __future__ import annotations

import functools
from typing import FrozenSet, Tuple

from . import _library as library
from ._tokens import decoded
from ._words import lower

# What is asked of a property, as the library numbers it.
_LONGHANDS, _SHORTHANDS, _COUNTERPART, _INHERITED = range(4)


def denoted(name: str) -> str:
    """Returns a name without escapes."""
    return decoded(name) if "\\" in name else name


def is_custom(name: str) -> bool:
    """Whether a name as written is that of a custom property."""
    return denoted(name).startswith("--")


def _asked(name: str, asked: int, room: int) -> Tuple[str, ...]:
    """Returns the words that the library writes of a property, of which it may know nothing."""
    word = library.encode(name if is_custom(name) else lower(name))
    return tuple(library.call("simplecss_property", word, asked, room=room).output.decode().split())


@functools.lru_cache(maxsize=4096)
def longhands(name: str) -> Tuple[str, ...]:
    """Returns the longhands that a shorthand sets. A longhand has none.

    Of a property with two names, one sets the other: `word-wrap` sets `overflow-wrap`. `all` sets every
    longhand but `direction` and `unicode-bidi`.
    """
    return _asked(name, _LONGHANDS, room=16384)


@functools.lru_cache(maxsize=4096)
def shorthands(name: str) -> Tuple[str, ...]:
    """Returns the shorthands that set a longhand."""
    return _asked(name, _SHORTHANDS, room=1024)


@functools.lru_cache(maxsize=4096)
def counterparts(name: str) -> Tuple[str, ...]:
    """Returns the physical property that a logical one sets in text that is horizontal, from left to right,
    or the logical one of a physical one."""
    return _asked(name, _COUNTERPART, room=64)


def names_setting(name: str) -> Tuple[str, ...]:
    """Returns the names of properties that set a longhand: its own, those of its shorthands, and in text that
    is horizontal, from left to right, the logical and the physical one with theirs."""
    pair = (name, *counterparts(name))
    return tuple(dict.fromkeys(each for one in pair for each in (one, *shorthands(one))))


@functools.lru_cache(maxsize=4096)
def is_inherited(name: str) -> bool:
    """Whether a property is inherited: each custom property is, and a shorthand if all its longhands
    are."""
    return _asked(name, _INHERITED, room=8) == ("true",)


@functools.lru_cache(maxsize=4096)
def has_valid_references(value: str) -> bool:
    """Whether each reference `var()` of a value is one: it has the name of a custom property, and
    nothing else but a fallback. A browser drops a declaration with another."""
    answer = library.call("simplecss_valid_value", library.encode(value), room=8)
    return library.output_of("simplecss_valid_value", answer) == b"true"


@functools.lru_cache(maxsize=4096)
def parts_of(name: str) -> FrozenSet[str]:
    """Returns the properties that a shorthand sets, and the shorthands of some of these. A name with
    one longhand has none: it is another name of that one."""
    those = frozenset(longhands(name))
    if len(those) < 2:
        return frozenset()
    others = {each for part in those for each in shorthands(part) if each[0] != "-"}
    return those.union(other for other in others if those > frozenset(longhands(other)))


@functools.lru_cache(maxsize=4096)
def first_set_with(name: str) -> str:
    """Returns the first longhand by the alphabet of those that one shorthand after another sets with
    this property, or its name if it is in no shorthand but `all`, and is none."""
    found, new = set(), {name}
    while new:
        found |= new
        others = {each for part in new for each in (*longhands(part), *shorthands(part))}
        new = others - found - {"all"}
    return min((each for each in found if not longhands(each)), default=name)
