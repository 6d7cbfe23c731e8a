"""Printed style sheets: with no more bytes than are needed, or with a line for each declaration."""

from __future__ import annotations

from . import _library as library
from ._comments import with_comments
from ._given import expect_css
from ._kept import KeptSheet

# The layouts of the library, and how the comments begin that are kept: any, and those of licences.
_SHORT, _LINES = range(2)
_ANY, _IMPORTANT = "/*", "/*!"


def minify(text: str) -> str:
    """Returns a shorter text of a style sheet, with the same rules and declarations.

    Comments are left out, but for those that begin with `/*!`, and so are blanks, semicolons and rules that
    say nothing. Values of custom properties stay as they are, and so do most blocks of at-rules, except of
    group rules. The result is read again: where it does not say the same, or is not shorter, the text itself
    is returned.
    """
    expect_css(text)
    return short_text(text)


def prettify(text: str) -> str:
    """Returns a text of a style sheet with a line for each rule and each declaration, which is indented
    by two blanks for each rule that it is in, and with the same rules, declarations and comments.

    Blanks, semicolons and rules that say nothing are left out. A comment within a selector, a value or
    another part of an item is before that item. The result is read again: where it does not say the same, the
    text itself is returned.
    """
    expect_css(text)
    return _printed(text, _LINES, _ANY)


def short_text(text: str) -> str:
    """Returns what `minify` does, of any text."""
    short = _printed(text, _SHORT, _IMPORTANT)
    return short if len(short) < len(text) else text


def printed_short(text: str) -> str:
    """Returns what the library prints of a text, without comments, which may be as long."""
    return _as_printed(text, _SHORT)


def _printed(text: str, layout: int, front: str) -> str:
    """Returns a sheet in a layout, with the comments that begin so."""
    printed = _as_printed(text, layout)
    if front not in text:
        return printed
    result = with_comments(text, printed, front, has_lines=layout == _LINES)
    # What is printed alike says the same.
    return result if result == printed or _as_printed(result, layout) == printed else text


def _as_printed(text: str, layout: int) -> str:
    """Returns a sheet as the library prints it, without comments."""
    with KeptSheet(library.encode(text)) as sheet:
        return sheet.text(layout).decode("utf-8")
