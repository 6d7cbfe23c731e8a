"""Urls in style sheets, and what they are taken from."""

from __future__ import annotations

import re
from typing import Iterator, Optional

from . import _library as library
from ._patterns import pattern
from ._tokens import GAPS, Token, tokens
from ._words import BLANKS, lower

# What is before a string that is a url, by the kind of token.
_BEFORE_STRINGS = {"function": "url", "at-keyword": "import"}
# A folder above the one that urls are taken from.
_ABOVE = "-above-/"
SCHEME = pattern(r"[a-z][-+.a-z0-9]*:", re.IGNORECASE | re.ASCII)
# The characters that would end a url in a sheet.
_ENDING = str.maketrans({each: f"%{ord(each):02X}" for each in "\"'()\\<> \t\n\r\f"})


def rebased(css: str, base: str, room: Optional[library.Room] = None) -> str:
    """Returns a sheet with relative urls taken from a base. There is so much room for them."""
    pieces, at = [], 0
    for token in urls_in(css):
        url = token.value
        moved = joined(base, url)
        if room is not None:
            room.take(len(moved))
        if moved != url:
            pieces += [css[at : token.inside_start], moved.translate(_ENDING)]
            at = token.inside_start + len(token.inside)
    return "".join([*pieces, css[at:]])


def urls_in(css: str) -> Iterator[Token]:
    """Yields the urls without quotes of a text, and the strings in `url()` and after `@import`."""
    is_next = False
    for token in tokens(css):
        if token.kind in GAPS:
            continue
        if token.kind == "url" or is_next and token.kind == "string":
            yield token
        is_next = _BEFORE_STRINGS.get(token.kind) == lower(token.value)


def joined(base: str, url: str) -> str:
    """Returns a url taken from a base; one within the page, data, or none that can be, as it is."""
    bare = url.strip(BLANKS)
    if not bare or bare.startswith("#") or SCHEME.match(bare):
        return url
    try:
        return _related(base, bare)
    except ValueError:
        return url


def _related(base: str, url: str) -> str:
    """Returns a url taken from a base, which may begin above the folder that it is taken from."""
    # A module that takes long to import.
    import urllib.parse

    found = urllib.parse.urlsplit(base)
    is_inner = not found.path.startswith("/") and not url.startswith("/")
    above = (base + url).count("..") if base and is_inner and not found.netloc else 0
    if found.scheme or not above:
        moved = urllib.parse.urljoin(base, url)
        is_lost = base.startswith("/") and not urllib.parse.urlsplit(moved).scheme
        return f"/{moved.lstrip('/')}" if is_lost and not moved.startswith("/") else moved
    names = urllib.parse.urljoin("/" + _ABOVE * above + base, url)[1:].split("/")
    kept = 0
    while kept < above and names[kept] + "/" == _ABOVE:
        kept += 1
    return "../" * (above - kept) + "/".join(names[kept:])
