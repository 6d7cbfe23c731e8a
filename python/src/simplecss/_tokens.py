"""The tokens of a text, and names and strings as they are written, as the library reads them."""

from __future__ import annotations

import array
import functools
import itertools
from typing import Iterable, Iterator, List, NamedTuple, Tuple

from . import _library as library
from ._words import lower

# The kinds of tokens, as the library numbers them.
_KINDS = (
    "whitespace comment ident function at-keyword hash id string bad-string url bad-url number"
    " percentage dimension cdo cdc delim".split()
)
# How a text is written with escapes, as the library numbers it; without them, it is 0 for a name, and 1 in a string.
_IDENTIFIER, _QUOTED = 2, 3
_AT_KEYWORD = _KINDS.index("at-keyword")
_OPENING, _CLOSING = frozenset("([{"), frozenset(")]}")
# What may be between two tokens.
GAPS = frozenset(("whitespace", "comment"))
COMBINATORS = frozenset((">", "+", "~"))
_MEASURED = frozenset(("percentage", "dimension"))
_STRINGS = frozenset(("string", "bad-string"))
_HAS_VALUE = frozenset(("ident", "function", "at-keyword", "hash", "id", "url", "dimension"))


class Token(NamedTuple):
    """A token of CSS Syntax.

    It has its kind, its text, and the index at which it begins. `inside` is its text without what it is marked by, such as quotes, and `inside_start` where that begins.

    The kinds are "whitespace", "comment", "ident", "function" (a name and a parenthesis),
    "at-keyword", "hash", "id" (a hash with a name), "string", "bad-string", "url" (without quotes),
    "bad-url", "number", "percentage", "dimension", "cdo" (`<!--`), "cdc" (`-->`), and "delim": a
    colon, a semicolon, a comma, a bracket or any other character.
    """

    kind: str
    text: str
    start: int
    inside: str
    inside_start: int

    @property
    def end(self) -> int:
        """The index after it."""
        return self.start + len(self.text)

    @property
    def value(self) -> str:
        """What the token denotes, without escapes.

        This is a name, the text of a string, a url, or the unit of a dimension; of another token,
        its text.
        """
        if "\\" not in self.text or self.kind not in _HAS_VALUE and self.kind not in _STRINGS:
            return self.inside
        return decoded(self.inside, self.kind in _STRINGS)

    @property
    def number(self) -> str:
        """The number of a dimension or a percentage, as written. Of another token, its text."""
        return self.text[: -len(self.inside)] if self.kind in _MEASURED else self.text

    @property
    def unit(self) -> str:
        """The unit of a dimension, or `%`; of another token nothing."""
        return self.value if self.kind in _MEASURED else ""


def tokens(text: str) -> Iterator[Token]:
    """Yields the tokens of any text.

    It may be a sheet, a value or a selector. Their texts, one after another, are the text. A lone surrogate raises `ValueError`.
    """
    data = library.encode(text)
    return _tokens_at(text, data, library.numbers_of("simplecss_tokens", data, room=64 + len(data)))


def _tokens_at(text: str, data: bytes, numbers: "array.array[int]") -> Iterator[Token]:
    """Yields the tokens of these numbers."""
    each = iter(numbers)
    if len(text) == len(data):
        for kind, start, end, inside, inside_end in zip(each, each, each, each, each):
            yield Token(_KINDS[kind], text[start:end], start, text[inside:inside_end], inside)
        return
    at = 0
    for kind, start, end, inside, inside_end in zip(each, each, each, each, each):
        whole, within = data[start:end].decode(), data[inside:inside_end].decode()
        yield Token(_KINDS[kind], whole, at, within, at + len(data[start:inside].decode()))
        at += len(whole)


def keywords_in(text: str) -> List[str]:
    """Returns the names of at-keywords in a text, in lower case."""
    data = library.encode(text)
    if b"@" not in data:
        return []
    numbers = library.numbers_of("simplecss_tokens", data, room=64 + len(data))
    kinds = bytes(numbers[0::5].tolist())
    found: List[str] = []
    at = kinds.find(_AT_KEYWORD)
    while at >= 0:
        name = data[numbers[5 * at + 3] : numbers[5 * at + 4]].decode()
        found.append(lower(decoded(name) if "\\" in name else name))
        at = kinds.find(_AT_KEYWORD, at + 1)
    return found


def without_gaps(text: str) -> List[Token]:
    """Returns the tokens of a text but for white space and comments."""
    return [each for each in tokens(text) if each.kind not in GAPS]


def parts_of(head: str) -> List[List[Token]]:
    """Returns the tokens of each selector of a list, without the blanks around it."""
    parts: List[List[Token]] = [[]]
    depth = 0
    for token in tokens(head):
        is_opening = token.kind == "function" or token.text in _OPENING
        depth += is_opening - (token.text in _CLOSING)
        if token.text == "," and depth == 0:
            parts.append([])
        elif parts[-1] or token.kind not in GAPS:
            parts[-1].append(token)
    for part in parts:
        while part and part[-1].kind in GAPS:
            part.pop()
    return parts


def originating(front: str) -> str:
    """Returns the selector of the elements that a pseudo-element is of, by what is written before it:
    of any, `*`, where no compound selector is."""
    last = [each for each in tokens(front) if each.kind != "comment"][-1:]
    is_any = all(each.kind == "whitespace" or each.text in COMBINATORS for each in last)
    return f"{front}*" if is_any else front


def decoded(text: str, in_string: bool = False) -> str:
    """Returns what a name denotes, or what is between the quotes of a string: its escapes are
    decoded."""
    data = library.encode(text)
    return _spelled(data, int(in_string), room=16 + 3 * len(data))


def is_escaping(text: str) -> bool:
    """Whether a text ends with a backslash that escapes what follows it."""
    return text.endswith("\\") and not decoded(text + "x").endswith("\\x")


def replaced(text: str, places: Iterable[Tuple[int, int, str]]) -> str:
    """Returns a text with escapes in place of some characters, also with a backslash before them."""
    parts: List[str] = []
    last = 0
    for start, end, escaped in places:
        before = text[last:start]
        parts += before[:-1] if is_escaping(before) else before, escaped
        last = end
    return "".join([*parts, text[last:]])


def escape(name: str) -> str:
    """Returns an identifier that denotes the name in a selector.

    `CSS.escape` of browsers returns the same. NUL is U+FFFD. A lone surrogate raises `ValueError`.
    """
    data = library.encode(name)
    return _spelled(data, _IDENTIFIER, room=16 + 4 * len(data))


def quote(text: str) -> str:
    """Returns a string in double quotes that denotes the text. NUL is U+FFFD. A lone surrogate raises
    `ValueError`."""
    data = library.encode(text)
    return _spelled(data, _QUOTED, room=16 + 4 * len(data))


def _spelled(data: bytes, asked: int, room: int) -> str:
    """Returns a text with its escapes decoded, or with escapes, by a number of the library."""
    name = "simplecss_spell"
    return library.output_of(name, library.call(name, data, asked, room=room)).decode()
