"""Values in a normal form, in which what browsers read alike is one text."""

from __future__ import annotations

import functools
import itertools
import re
from typing import Iterator

from ._minify import printed_short
from ._properties import is_custom
from ._taken import takes_value
from ._tokens import GAPS, Token, quote, tokens
from ._words import lower

# A number with a point, whose zeros at both ends say nothing.
_DECIMAL = re.compile(r"([+-]?)0*(\d*\.\d+?)0*")
# A word that is no keyword: a property that takes it has names of authors as values.
_NO_KEYWORD = "x-no-keyword"
_OPENING, _CLOSING = frozenset("([{"), frozenset(")]}")


@functools.lru_cache(maxsize=8192)
def normal_value(name: str, value: str) -> str:
    """Returns a value of a property in a form in which no blanks and comments count, nor quotes, nor zeros at the
    ends of a number, nor the case of units, colours, functions and, where no author names them, keywords. The value
    of a custom property is as it is written, without the blanks around it."""
    if is_custom(name):
        return value
    front = f"a{{{name}:"
    printed = printed_short(f"{front}{value}}}")
    text = printed[len(front) : -1] if printed.startswith(front) else value
    return "".join(_normal_tokens(name, text))


@functools.lru_cache(maxsize=2048)
def _has_keywords_only(name: str) -> bool:
    """Whether all words of a property are of the language."""
    return takes_value(name, _NO_KEYWORD) is False


def _normal_tokens(name: str, text: str) -> Iterator[str]:
    """Yields the tokens of a value in their normal form. A comment counts where no blank is beside it."""
    opened = 0
    for is_gap, run in itertools.groupby(tokens(text), lambda each: each.kind in GAPS):
        if is_gap:
            yield " " if any(each.kind == "whitespace" for each in run) else "/**/"
            continue
        for token in run:
            opened += token.kind == "function" or token.text in _OPENING
            opened -= token.text in _CLOSING
            is_keyword = token.kind == "ident" and opened == 0 and not token.text.startswith("--")
            has_no_case = is_keyword and _has_keywords_only(name)
            yield lower(token.text) if has_no_case else _normal(token)


def _normal(token: Token) -> str:
    """Returns a token in its normal form."""
    kind = token.kind
    if kind in ("number", "percentage", "dimension"):
        return _number(token.number) + lower(token.text[len(token.number) :])
    if kind in ("hash", "id", "function"):
        return lower(token.text)
    if kind == "url":
        return f"url({quote(token.value)})"
    return quote(token.value) if kind == "string" else token.text


def _number(text: str) -> str:
    """Returns a number without zeros that say nothing. One without a point is an integer, and stays one."""
    found = _DECIMAL.fullmatch(text)
    return "".join(found.groups()) if found else text
