"""Properties of which one may set what another does."""

from __future__ import annotations

import functools
from typing import AbstractSet

from ._properties import first_set_with

# The family of `all`, which sets what every property does.
EVERYTHING = "*"
_MAKERS = frozenset(("webkit", "moz", "ms", "o"))
# The beginnings of names of which one property may set another, by the family that they are of:
# beside what the library says of shorthands.
_FAMILIES = {
    "line": "font",
    "top": "inset",
    "right": "inset",
    "bottom": "inset",
    "left": "inset",
    "width": "size",
    "height": "size",
    "inline": "size",
    "block": "size",
    "row": "gap",
    "column": "gap",
    "columns": "gap",
    "align": "place",
    "justify": "place",
    **{
        word: word
        for word in (
            "animation background border container flex font gap grid inset margin marker mask"
            " max min offset outline overflow overscroll padding place scroll size transition"
        ).split()
    },
}
_LONG_FAMILIES = {
    "list-style": "list",
    "text-align": "align",
    "text-decoration": "decoration",
    "text-emphasis": "emphasis",
    "text-stroke": "stroke",
    "text-wrap": "white",
    "white-space": "white",
}
# How long a name is that is not kept.
_LONG = 64


def without_prefix(name: str) -> str:
    """Returns a name without the prefix of a browser, or the mark by which some alone read it."""
    if name[:1] in ("*", "_"):
        return name[1:]
    dash, maker, rest = name[:1], *name[1:].partition("-")[::2]
    return rest if dash == "-" and maker in _MAKERS and rest else name


def _family_of(name: str) -> str:
    if name.startswith("--"):
        return name
    if name == "all":
        return EVERYTHING
    # Those that one shorthand sets are of one family, and so are logical and physical ones.
    first = first_set_with(name)
    plain = without_prefix(first_set_with(without_prefix(name)) if first == name else first)
    words = plain.split("-")
    family = _LONG_FAMILIES.get("-".join(words[:2])) or _FAMILIES.get(words[0])
    return family or plain


_usual_family_of = functools.lru_cache(maxsize=1024)(_family_of)


def family_of(name: str) -> str:
    """Returns the family of a property: two that may set the same have one."""
    return _usual_family_of(name) if len(name) < _LONG else _family_of(name)


def is_in(name: str, families: AbstractSet[str]) -> bool:
    """Whether a property is of one of the families."""
    return bool(families) and (EVERYTHING in families or family_of(name) in families)
