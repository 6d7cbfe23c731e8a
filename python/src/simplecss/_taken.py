"""Which values of properties browsers take, as far as the library knows."""

from __future__ import annotations

import enum
import functools
from typing import List, Optional

from . import _library as library
from ._library import expect_text
from ._selectors import Reading

# What the library is asked for of a text: it is a style attribute, and whether its lines are values that properties take.
ATTRIBUTE, _VALUES = 2, 8
# What says of a text that it is a style attribute.
_STYLE = 1


def lines_of(data: bytes, asked: int) -> List[List[str]]:
    """Returns the fields of the lines that the library writes of a text."""
    answer = library.call("simplecss_lint", data, asked, room=1024 + len(data))
    written = library.output_of("simplecss_lint", answer).decode("utf-8")
    return [line.split("\t") for line in written.split("\n")[:-1]]


def takes_value(name: str, value: str) -> Optional[bool]:
    """Returns whether a property takes a value, which has no `!important`: `True` if the standards
    and browsers take it, and `False` if none of them does. What is not known is `None`: of other
    properties, of a value with a function, a bracket or a vendor's prefix, and of one of several
    lines."""
    expect_text(name)
    expect_text(value)
    if "\n" in name + value or ":" in name:
        return None
    [[found]] = lines_of(library.encode(f"{name}:{value}"), _VALUES)
    return {"valid": True, "invalid": False}.get(found)


class Values(enum.IntEnum):
    """Which values of declarations may win: any, or those that browsers take, of which they take more on pages in quirks
    mode. The latter are numbered as the library does."""

    ANY = -1
    TAKEN = 0
    QUIRKS = 2

    @classmethod
    def on(cls, reading: Reading, any_value: bool) -> "Values":
        """Returns those on a page that is so read."""
        return cls.ANY if any_value else cls.QUIRKS if reading == Reading.QUIRKS else cls.TAKEN

    def in_sheet(self, data: bytes) -> bytes:
        """Returns a sheet with spaces in place of the declarations with other values."""
        return data if self == Values.ANY else _taken(data, self)

    def in_style(self, data: bytes, is_foreign: bool = False) -> bytes:
        """Returns a style attribute with spaces in place of such declarations. Of an element that is not in HTML it is read
        as in quirks mode."""
        asked = Values.QUIRKS if is_foreign else self
        return data if self == Values.ANY or not data else _taken_of_style(data, asked)


def _taken(data: bytes, asked: int) -> bytes:
    answer = library.call("simplecss_taken", data, asked, room=len(data))
    return library.output_of("simplecss_taken", answer)


@functools.lru_cache(maxsize=4096)
def _taken_of_style(data: bytes, asked: int) -> bytes:
    return _taken(data, asked | _STYLE)
