"""What is written to a terminal: no text of a page or a sheet may be a command to it."""

from __future__ import annotations

import json
from typing import Any

# How many characters of a line are shown, and how many of these before its place.
_SHOWN, _BEFORE = 76, 50

# The controls of ASCII and of Latin-1, of which a terminal takes some as commands.
_CONTROLS = (*range(0x20), *range(0x7F, 0xA0))
# What changes the order of the characters around it, ends a line, or cannot be seen.
_HIDDEN = (
    *(0xAD, 0x61C, 0x180E, *range(0x200B, 0x2010), *range(0x2028, 0x202F)),
    *(*range(0x2060, 0x2070), 0xFEFF, *range(0xFFF9, 0xFFFC), *range(0xE0000, 0xE0080)),
)
# Of a name that is not UTF-8.
_SURROGATES = range(0xD800, 0xE000)
_REPLACED = dict.fromkeys((*_CONTROLS, *_HIDDEN, *_SURROGATES), "\ufffd")
_REPLACED_IN_LINES = {each: "\ufffd" for each in _CONTROLS if chr(each) not in "\t\n"}


def _escaped(character: int) -> str:
    """Returns the escape of a character in JSON."""
    return json.dumps(chr(character))[1:-1]


# Those that JSON need not escape.
_ESCAPED = {
    **{each: _escaped(each) for each in (*range(0x7F, 0xA0), *_HIDDEN)},
    **dict.fromkeys(_SURROGATES, "\ufffd"),
}


def printable(text: str) -> str:
    """Returns a text for one line, with U+FFFD for each control character, and for what would change the
    order of the others or not be seen."""
    return text if text.isprintable() else text.translate(_REPLACED)


def printable_lines(text: str) -> str:
    """Returns a text of any number of lines, with U+FFFD for each other control character. A
    carriage return alone is one: what comes after it would be written over the line."""
    is_plain = text.isprintable()
    return text if is_plain else text.replace("\r\n", "\n").translate(_REPLACED_IN_LINES)


def marked(text: str, row: int, column: int) -> str:
    """Returns two lines, each after its newline: a line of a text, and a caret below a column. Of a long
    line it is what is around that. What is not in the text is marked by nothing."""
    lines = text.replace("\r\n", "\n").split("\n")
    if not text or not 0 < row <= len(lines) or not 0 < column <= len(lines[row - 1]) + 1:
        return ""
    start = max(0, column - 1 - _BEFORE)
    shown = printable(lines[row - 1][start : start + _SHOWN])
    return f"\n  {shown}\n  {' ' * (column - 1 - start)}^"


def json_line(value: Any) -> str:
    """Returns a value as a line of JSON, with an escape for each character that a line for people does not
    have."""
    return json.dumps(value, ensure_ascii=False).translate(_ESCAPED) + "\n"
