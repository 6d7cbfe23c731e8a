"""The encoding of a page in bytes (HTML Standard, "Determining the character encoding")."""

from __future__ import annotations

import codecs
import itertools
import re
from typing import Dict, FrozenSet, Iterator, NamedTuple, Optional, Set, Tuple

from . import _library as library
from ._html import HtmlPage
from ._library import LimitError

_MARKS = (codecs.BOM_UTF8, codecs.BOM_UTF16_LE, codecs.BOM_UTF16_BE)
# The encodings, by their names (Encoding Standard, "Names and labels"), as Python calls them.
_CODECS: Dict[str, str] = {
    "UTF-8": "utf-8",
    "IBM866": "cp866",
    "ISO-8859-2": "iso8859-2",
    "ISO-8859-3": "iso8859-3",
    "ISO-8859-4": "iso8859-4",
    "ISO-8859-5": "iso8859-5",
    "ISO-8859-6": "iso8859-6",
    "ISO-8859-7": "iso8859-7",
    "ISO-8859-8": "iso8859-8",
    "ISO-8859-8-I": "iso8859-8",
    "ISO-8859-10": "iso8859-10",
    "ISO-8859-13": "iso8859-13",
    "ISO-8859-14": "iso8859-14",
    "ISO-8859-15": "iso8859-15",
    "ISO-8859-16": "iso8859-16",
    "KOI8-R": "koi8-r",
    "KOI8-U": "koi8-u",
    "macintosh": "mac-roman",
    "windows-874": "cp874",
    "windows-1250": "cp1250",
    "windows-1251": "cp1251",
    "windows-1252": "cp1252",
    "windows-1253": "cp1253",
    "windows-1254": "cp1254",
    "windows-1255": "cp1255",
    "windows-1256": "cp1256",
    "windows-1257": "cp1257",
    "windows-1258": "cp1258",
    "x-mac-cyrillic": "mac-cyrillic",
    "GBK": "gb18030",
    "gb18030": "gb18030",
    "Big5": "big5hkscs",
    "EUC-JP": "euc_jp",
    "ISO-2022-JP": "iso2022_jp",
    "Shift_JIS": "cp932",
    "EUC-KR": "cp949",
    "UTF-16BE": "utf-16-be",
    "UTF-16LE": "utf-16-le",
}
# The encodings that Python does not have: of one there is no text, and the other has a character for each byte.
_REPLACEMENT, _USER_DEFINED = "replacement", "x-user-defined"
_USER_CHARACTERS = {each: 0xF700 + each for each in range(0x80, 0x100)}
# What says nothing of an encoding, and what a server says.
_DEFAULT, _LABEL = "default", "label"
# The attributes of a `meta` that may name an encoding.
_NAMING = ("charset", "http-equiv", "content")
# How far the library looks into a page.
_FRONT = 1024
# Whatever may be the tag of a `meta`.
_META = re.compile(rb"<meta(?=[\t\n\f\r /])", re.IGNORECASE)
_UNKNOWN = "\ufffd"
# What decoders do with bytes that have no meaning: as browsers do. Those of Unicode do it by themselves.
_AS_BROWSERS = "simplecss-as-browsers"
_UNICODE = frozenset(("utf-8", "utf-16-le", "utf-16-be"))


# The bytes that begin two or more in the encodings of several bytes. One of ASCII after them stays where they
# have no meaning together.
_LEADS: Dict[str, FrozenSet[int]] = {
    "gb18030": frozenset(range(0x81, 0xFF)),
    "big5hkscs": frozenset(range(0x81, 0xFF)),
    "euc_jp": frozenset((0x8E, 0x8F, *range(0xA1, 0xFF))),
    "cp932": frozenset((*range(0x81, 0xA0), *range(0xE0, 0xFD))),
    "cp949": frozenset(range(0x81, 0xFF)),
    "iso2022_jp": frozenset(),
}
# What Python reads of bytes that begin nothing in Shift_JIS.
_SINGLE = dict.fromkeys(range(0xF8F0, 0xF8F4), _UNKNOWN)
# What begins three bytes in EUC-JP, and the euro in GBK, which Python does not have.
_THREE, _EURO = 0x8F, 0x80
# What ISO-2022-JP changes the meaning of the bytes after it by.
_ESCAPE = b"\x1b"
# What Python writes in EUC-JP as a backslash and a tilde.
_LOST = {each: f"&#{each};" for each in (0xA5, 0x203E)}


class EncodingError(UnicodeDecodeError):
    """A page could be written otherwise than it was read, or read otherwise by a browser."""


class PageEncoding(NamedTuple):
    """The encoding that a page is in: its name in the Encoding Standard, and what says it ("mark", "label", "meta",
    "declaration" or "default")."""

    name: str
    source: str


class Encoding:
    """What a page is encoded by, and whether the page says so."""

    def __init__(self, name: str, is_named: bool = True) -> None:
        self._name = name
        self._is_named = is_named

    def __call__(self, text: str) -> bytes:
        """Encodes a page. What the encoding lacks is written as references."""
        if self._name == "euc_jp":
            text = text.translate(_LOST)
        return text.encode(self._name, "xmlcharrefreplace")

    def lacks(self, character: str) -> bool:
        """Whether the encoding has no such character."""
        try:
            return character.encode(self._name).decode(self._name) != character
        except UnicodeError:
            return True

    def expect_same(self, text: str, data: bytes) -> None:
        """Raises `EncodingError` if the text of a page could be written otherwise than it was
        read, or read otherwise by a browser: for what changes the meaning of bytes in
        ISO-2022-JP."""
        if _ESCAPE in data and not (self._is_named and _is_agreed(text, data)):
            at = data.index(_ESCAPE)
            reason = "it has ESC, and must name one encoding"
            raise EncodingError(self._name, data, at, at + 1, reason)
        if self._name == "iso2022_jp" and self(text) != data:
            raise EncodingError(self._name, data, 0, len(data), "it would be written otherwise")


def page_encoding(page: bytes, label: str = "") -> PageEncoding:
    """Returns the encoding that a page in bytes is in, and what says it: a mark at its front, the label that a server
    names, its first 1,024 bytes, a `meta` of its head, or nothing, which is windows-1252.
    """
    if not isinstance(page, bytes):
        raise TypeError(f"the bytes of a page are expected, not {type(page).__name__}")
    name = "simplecss_html_encoding"
    answer = library.call(name, page, library.encode(label), room=64)
    source, encoding = library.output_of(name, answer).decode("ascii").split("\t")
    return PageEncoding(encoding, source)


def _in_front(data: bytes) -> Set[str]:
    """Returns the encoding that the front of a page names, if it does."""
    found = page_encoding(data)
    return set() if found.source == _DEFAULT else {found.name}


def _in_meta(attributes: Dict[str, str]) -> Set[str]:
    """Returns the encoding that a `meta` with these attributes names, if it does."""
    values = ((each, attributes[each]) for each in _NAMING if each in attributes)
    written = "".join(f' {name}="{value.replace(chr(34), chr(39))}"' for name, value in values)
    return _in_front(f"<meta{written}>".encode("utf-8"))


def _is_agreed(text: str, data: bytes) -> bool:
    """Whether all that may name the encoding of a page names one, as far as it is known, whether
    references in it are read or not. A mark at the front is before all of them."""
    if data.startswith(_MARKS):
        return True
    named = _in_front(data[: data.find(b">") + 1]) if data.startswith(b"<?xml") else set()
    for each in _META.finditer(data):
        named |= _in_front(data[each.start() : each.start() + _FRONT])
    for attributes in (*_in_tree(data.decode("latin-1")), *_in_tree(text)):
        named |= _in_meta(attributes)
    return len(named) == 1


def _in_tree(text: str) -> Iterator[Dict[str, str]]:
    """Yields the attributes of the `meta` elements of a page."""
    try:
        page = HtmlPage(text, leaves_templates=False)
    except LimitError:
        return
    for name, attributes in zip(page.names(), page.attributes()):
        if name == "meta":
            yield attributes


def decode_page(data: bytes) -> Tuple[str, Encoding]:
    """Returns the text of a page, and what encodes it again. Bytes that are not in the encoding
    that the page names raise `UnicodeDecodeError`, a `ValueError`."""
    found = page_encoding(data)
    is_named = found.source != _DEFAULT
    encoding = _CODECS.get(found.name) if is_named else "utf-8"
    if encoding is None:
        raise EncodingError(found.name, data, 0, len(data), "it cannot be written")
    try:
        text = data.decode(encoding)
    except UnicodeDecodeError:
        if encoding != "cp1252":
            raise
        encoding = "latin-1"
        text = data.decode(encoding)
    return text, Encoding(encoding, is_named)


def text_of_page(data: bytes, encoding: Optional[str] = None) -> str:
    """Returns the text of a page as a browser reads it, to which a server may name an encoding. A mark
    at the front comes before that, and that before what the page names. A page that names none is in
    UTF-8 if all of it can be, or else in windows-1252. What is not in the encoding is U+FFFD. A label of
    no encoding raises `ValueError`."""
    if encoding is not None and page_encoding(b"", encoding).source != _LABEL:
        raise ValueError(f"unknown encoding: {encoding!r}")
    found = page_encoding(data, encoding or "")
    if found.source == _DEFAULT:
        try:
            return data.decode("utf-8")
        except UnicodeDecodeError:
            pass
    return _decoded(data, found.name)


def _decoded(data: bytes, encoding: str) -> str:
    """Returns the text of bytes in an encoding, as browsers read it."""
    if encoding == _REPLACEMENT:
        return _UNKNOWN if data else ""
    if encoding == _USER_DEFINED:
        return data.decode("latin-1").translate(_USER_CHARACTERS)
    name = _CODECS[encoding]
    if name == "cp1255":
        # Python does not have this vowel.
        return "\u05ba".join(each.decode(name, _AS_BROWSERS) for each in data.split(b"\xca"))
    text = data.decode(name, "replace" if name in _UNICODE else _AS_BROWSERS)
    return text.translate(_SINGLE) if name == "cp932" else text


def _without_meaning(error: UnicodeError) -> Tuple[str, int]:
    """Returns what a browser reads where Python's decoder finds an error, and where it goes on
    (Encoding Standard, sections 9 to 13)."""
    if not isinstance(error, UnicodeDecodeError):
        raise error
    data, start = error.object, error.start
    lead, leads = data[start], _LEADS.get(error.encoding)
    if leads is None:
        # In an encoding of one byte a control stands for itself.
        return chr(lead) if lead < 0xA0 else _UNKNOWN, start + 1
    if error.encoding == "gb18030" and lead == _EURO:
        return "\u20ac", start + 1
    end = start + 1
    if lead in leads:
        count = 2 if error.encoding == "euc_jp" and lead == _THREE else 1
        end += sum(1 for _ in itertools.takewhile(0x80.__le__, data[end : end + count]))
    return _UNKNOWN, end


codecs.register_error(_AS_BROWSERS, _without_meaning)
