"""A fixture of pytest: pages look the same with one style sheet as with another.

    def test_css(same_look):
        same_look("old.css", "new.css", "site/**/*.html", all_conditions=True)

It fails with a line for each property that the sheets set differently, as `simplecss compare` writes it.
"""

from __future__ import annotations

import contextlib
import io
from typing import Callable, List

import pytest

from .__main__ import main

# How many lines of differences a failure shows.
_MOST_SHOWN = 20
_DONE = 0

SameLook = Callable[..., None]


def expect_same_look(
    old: str,
    new: str,
    *pages: str,
    width: int = 1280,
    height: int = 800,
    media: str = "screen",
    dark: bool = False,
    all_conditions: bool = False,
) -> None:
    """Raises `AssertionError` if two files of style sheets set a property differently on pages: files, folders or
    patterns."""
    __tracebackhide__ = True
    words: List[str] = [
        "compare",
        "--media",
        media,
        "--width",
        str(width),
        "--height",
        str(height),
    ]
    words += ["--dark"] * dark + ["--all-conditions"] * all_conditions
    output, errors = io.StringIO(), io.StringIO()
    with contextlib.redirect_stdout(output), contextlib.redirect_stderr(errors):
        status = main([*words, "--", str(old), str(new), *map(str, pages)])
    if status == _DONE:
        return
    lines = [*errors.getvalue().splitlines(), *output.getvalue().splitlines()]
    more = [f"and {len(lines) - _MOST_SHOWN} more"] if len(lines) > _MOST_SHOWN else []
    raise AssertionError("\n".join([f"{new} looks other than {old}:", *lines[:_MOST_SHOWN], *more]))


@pytest.fixture  # type: ignore[misc]
def same_look() -> SameLook:
    """Returns what fails if two style sheets set a property differently on pages."""
    return expect_same_look
