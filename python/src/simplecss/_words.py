"""Letters and white space, which HTML and CSS have in common."""

from __future__ import annotations

from typing import List

from ._patterns import pattern

BLANKS = "\t\n\f\r "

_BLANK = pattern(r"[\t\n\f\r ]+")


def lower(name: str) -> str:
    """Returns the name with the letters A to Z in lower case."""
    if name.isascii():
        return name.lower()
    return name.encode("utf-8", "surrogatepass").lower().decode("utf-8", "surrogatepass")


def words_of(text: str) -> List[str]:
    """Returns the words of a value, between which are the white space of HTML."""
    return [word for word in _BLANK.split(text) if word]
