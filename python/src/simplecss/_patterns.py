"""Patterns that are compiled when they are first used: most programs use few of them."""

from __future__ import annotations

import re
from typing import Any, Pattern, cast

_METHODS = ("finditer", "findall", "fullmatch", "match", "search", "split", "sub")


class _Waiting:
    """A pattern that is compiled when a name of it is first used, and has its methods then."""

    def __init__(self, text: str, flags: int) -> None:
        self._text = text
        self._flags = flags

    def __getattr__(self, name: str) -> Any:
        compiled = re.compile(self._text, self._flags)
        self.__dict__.update((each, getattr(compiled, each)) for each in _METHODS)
        return getattr(compiled, name)


def pattern(text: str, flags: int = 0) -> Pattern[str]:
    """Returns what is used as `re.compile` of the same is."""
    return cast("Pattern[str]", _Waiting(text, flags))
