"""What callers pass: wrong arguments raise an error that says what is expected."""

from __future__ import annotations

from typing import Optional, Tuple

from ._words import BLANKS, lower

# What a text has that is no name of a file: names usually have none of these.
_OF_TEXTS = frozenset("{}()@;\"'<>\n")
_SHEETS = (".css",)
_PAGES = (".html", ".htm", ".xhtml", ".svg", ".xml")
# A longer text is no name.
_LONGEST = 4096


def _name_in(text: str, ends: Tuple[str, ...]) -> Optional[str]:
    """Returns the name of a file that a text is, if it is one that ends so."""
    if len(text) > _LONGEST:
        return None
    name = text.strip(BLANKS)
    is_name = lower(name).endswith(ends) and _OF_TEXTS.isdisjoint(name)
    return name if is_name else None


def expect_css(text: str) -> None:
    """Raises `ValueError` for the name of a style sheet in place of its text."""
    name = _name_in(text, _SHEETS)
    if name is not None:
        raise ValueError(
            f"{name!r} is the name of a style sheet, not its text: pass what open(..) reads, or"
            " folder= for the sheets that a document links to"
        )


def expect_page(text: str) -> None:
    """Raises `ValueError` for the name of a page in place of its text. A text with a blank in it is
    none."""
    name = _name_in(text, _PAGES)
    if name is not None and " " not in name:
        raise ValueError(f"{name!r} is the name of a page, not its text: pass what open(..) reads")
