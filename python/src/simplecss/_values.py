"""The forms of values, by their tokens."""

from __future__ import annotations

import functools
from typing import Callable, Dict, FrozenSet, Optional, TypeVar

from ._tokens import Token, tokens, without_gaps
from ._words import lower

Answer = TypeVar("Answer")
_HEX = frozenset("0123456789abcdef")
# What every browser knows: words, units, the lengths of colours, and of functions the kinds of tokens
# in their parentheses.
_WORDS = frozenset(
    "absolute always aqua auto avoid baseline black block blue bold bolder both bottom break-word"
    " capitalize center circle collapse dashed decimal disc dotted double fixed fuchsia gray grey"
    " green hidden inherit inline inline-block inside italic justify large left lighter lime"
    " line-through list-item lowercase maroon medium middle navy no-repeat none normal nowrap"
    " oblique olive outside overline pre purple red relative repeat repeat-x repeat-y right scroll"
    " separate show hide silver small small-caps smaller larger solid square static sub super"
    " table table-cell table-row teal text-bottom text-top thick thin top transparent underline"
    " uppercase visible white yellow x-small x-large xx-small xx-large sans-serif serif monospace"
    " arial helvetica georgia verdana tahoma times".split()
)
_UNITS = frozenset("px em ex pt pc in cm mm".split())
_LENGTHS = frozenset((3, 6))
_ARGUMENTS: Dict[str, FrozenSet[str]] = {
    "rgb": frozenset(("number", "percentage", "whitespace")),
    "url": frozenset(("string", "whitespace")),
}
# How many parts a value has at most that is known.
_MOST_PARTS = 4
_SEPARATORS = frozenset((",", "/"))
# The tokens that have a name and a parenthesis.
_CALLS = frozenset(("function", "url", "bad-url"))
# How long a value is of which nothing is kept.
_LONG = 200


def _kept(function: Callable[[str], Answer]) -> Callable[[str], Answer]:
    """Returns a function that keeps what another returns of short values."""
    usual = functools.lru_cache(maxsize=4096)(function)
    return lambda value: usual(value) if len(value) < _LONG else function(value)


def has_ident(value: str, words: FrozenSet[str]) -> bool:
    """Whether an identifier in a text is one of these words, which are in lower case."""
    # Only an escape hides one.
    plain = lower(value)
    if "\\" not in value and not any(word in plain for word in words):
        return False
    return any(each.kind == "ident" and lower(each.value) in words for each in tokens(value))


@_kept
def may_fail(value: str) -> bool:
    """Whether a browser may not support a value that others do: one of a function, or with a
    prefix."""
    has_call = any(each.kind in _CALLS or each.text == "(" for each in tokens(value))
    return has_call or has_prefix(value)


@_kept
def has_prefix(value: str) -> bool:
    """Whether a value begins with a minus sign, as the prefix of a browser does."""
    return any(each.text[0] == "-" for each in without_gaps(value)[:1])


@_kept
def ends_with_number(value: str) -> bool:
    """Whether a value ends with a number that has no unit."""
    return any(each.kind == "number" for each in without_gaps(value)[-1:])


def _lone(value: str) -> Optional[Token]:
    """Returns the token that a value is, if it is one."""
    found = tokens(value)
    first = next(found, None)
    return first if next(found, None) is None else None


@_kept
def size_in(value: str) -> Optional[str]:
    """Returns the number of pixels or percents that a value is, if it is whole."""
    token = _lone(value)
    if token is None or not token.number.isdecimal():
        return None
    if token.kind == "percentage":
        return token.text
    is_size = token.kind == "number" or token.kind == "dimension" and token.unit == "px"
    return token.number if is_size else None


@_kept
def color_in(value: str) -> Optional[str]:
    """Returns the colour that a value is, if it is six digits or a word in lower case."""
    token = _lone(value)
    if token is None:
        return None
    if token.kind in ("hash", "id"):
        return value if len(token.inside) == 6 and _HEX.issuperset(token.inside) else None
    is_word = token.kind == "ident" and value.isascii() and value.isalpha() and value.islower()
    return value if is_word else None


def one_of(*words: str) -> Callable[[str], Optional[str]]:
    """Returns what returns a value that is one of these words."""
    return lambda value: value if value in words else None


@_kept
def is_known(value: str) -> bool:
    """Whether a value has a form that every browser knows."""
    parts, is_apart, arguments = 0, True, None
    for token in tokens(value):
        if arguments is not None:
            if token.text == ")":
                arguments = None
            elif token.kind not in arguments and token.text != ",":
                return False
        elif token.kind == "whitespace" or token.text in _SEPARATORS:
            is_apart = True
        elif is_apart and _is_plain(token):
            parts, is_apart = parts + 1, False
            arguments = _ARGUMENTS[lower(token.value)] if token.kind == "function" else None
        else:
            return False
    return 0 < parts <= _MOST_PARTS and arguments is None


def _is_plain(token: Token) -> bool:
    """Whether every browser knows what a token denotes."""
    kind = token.kind
    if kind in ("number", "percentage", "dimension"):
        is_known_unit = kind != "dimension" or lower(token.unit) in _UNITS
        return is_known_unit and "e" not in lower(token.number)
    if kind in ("hash", "id"):
        return len(token.inside) in _LENGTHS and _HEX.issuperset(lower(token.inside))
    if kind == "function":
        return lower(token.value) in _ARGUMENTS
    return kind in ("string", "url") or kind == "ident" and lower(token.text) in _WORDS
