"""Mistakes in style sheets, also in those of pages, and the forms in which they are reported."""

from __future__ import annotations

import functools
import json
import os
import re
import urllib.parse
from typing import (
    Callable,
    Dict,
    Iterable,
    Iterator,
    List,
    NamedTuple,
    Optional,
    Sequence,
    Set,
    Tuple,
)
from html import unescape
from xml.sax.saxutils import escape, quoteattr

from ._given import expect_css
from ._html import attributes_of
from ._library import __version__, expect_text
from ._linked import Shelf, sheets_of
from ._output import json_line, printable
from ._page import EditedPage
from ._reading import Source
from ._selectors import MODERN, PORT, grammar_of
from ._sheet import sheet_of_texts
from ._taken import ATTRIBUTE, lines_of
from ._tokens import tokens
from ._words import lower, words_of
from ._xml import is_xml

_PAGES = (".html", ".htm")
_COMPONENTS = (".vue", ".svelte")
_NOT_OF_XML = re.compile("[\ud800-\udfff\ufffe\uffff]")
# What a comment has that turns kinds off for its line: those whose names, or the beginnings of
# whose names, are after it, or every one.
_IGNORE = "simplecss-ignore"
# How many characters of a text a message has.
_SHOWN = 60
# How often a sheet is read again: a correction may be within another one.
_MOST_ROUNDS = 8


def kind_of(reason: str) -> str:
    """Returns a reason as one word."""
    return reason.replace("'", "").replace(" ", "-")


class Finding(NamedTuple):
    """What `lint` finds in a style sheet.

    It has its file, where it begins, the reason, its text, where it ends, and a hint at what was
    probably meant, if there is one.
    """

    file: str
    row: int
    column: int
    reason: str
    text: str
    end_row: int
    end_column: int
    hint: Optional[str] = None

    @property
    def kind(self) -> str:
        """The reason as one word, such as `broken-declaration`."""
        return kind_of(self.reason)

    @property
    def severity(self) -> str:
        """How bad it is: "error" where browsers leave something out, "warning" where something does
        nothing or probably not what was meant, "note" where it may be meant."""
        found = explained().get(self.reason)
        return "warning" if found is None else found.severity

    @property
    def message(self) -> str:
        text = printable(" ".join(words_of(self.text)))
        shown = text if len(text) <= _SHOWN else text[:_SHOWN] + ".."
        meant = f" (did you mean '{self.hint}'?)" if self.hint else ""
        return f"'{shown}': {self.reason}{meant}"


class SheetText(NamedTuple):
    """A sheet or a style attribute in a file, and where it begins: the row, the column, and the offset of
    the character."""

    css: str
    row: int = 1
    column: int = 1
    at: int = 0
    is_attribute: bool = False

    def is_in(self, text: str) -> bool:
        """Whether the file, whose text this is, has it there as it is, and not with references."""
        return text.startswith(self.css, self.at)


# What the library is asked for: what is unsupported, and what the kinds are.
_ALL, _KINDS = 1, 4


class _Report(NamedTuple):
    """Why something is reported, the offsets of the characters where it begins and ends, and what
    was meant; and if one answer is right, the offsets between which it is written, and the answer.
    """

    reason: str
    start: int
    end: int
    hint: Optional[str] = None
    edit: Optional[Tuple[int, int, str]] = None


def _reported(part: SheetText, shows_all: bool) -> Iterator[_Report]:
    """Yields what is reported by the modern grammar."""
    source = Source(part.css)
    asked = _ALL * shows_all + ATTRIBUTE * part.is_attribute
    for reason, start, end, hint, *edit in lines_of(source.data, asked):
        first, last = source.offset(int(start)), source.offset(int(end))
        right = None
        if len(edit) == 3:
            right = source.offset(int(edit[0])), source.offset(int(edit[1])), edit[2]
        yield _Report(reason, first, last, hint or None, right)


class Explanation(NamedTuple):
    """What a kind is: its words, what it means, how bad it is, a sheet with it alone, and the sheet
    without it."""

    reason: str
    text: str
    severity: str
    wrong: str
    right: str


@functools.lru_cache(maxsize=None)
def explained() -> Dict[str, Explanation]:
    """Returns what the kinds are, by their reasons. The last ones are reported if asked for."""
    rows = (Explanation(*fields) for fields in lines_of(b"", _KINDS))
    return {each.reason: each for each in rows}


def _reported_by_port(part: SheetText) -> Iterator[_Report]:
    """Yields what the grammar "simplecss" skips, as a whole text in braces for a style
    attribute."""
    added = 2 * part.is_attribute
    css = "x{" + part.css + "}" if part.is_attribute else part.css
    for each in sheet_of_texts([css], grammar=PORT).skipped:
        start, end = max(each.start - added, 0), min(each.end - added, len(part.css))
        yield _Report(each.reason, start, end)


def _ignored(part: SheetText) -> Dict[int, Set[str]]:
    """Returns the beginnings of the kinds that comments turn off, by the rows of the comments in a
    sheet."""
    rows: Dict[int, Set[str]] = {}
    row = 1
    for token in tokens(part.css) if _IGNORE in part.css else ():
        if token.kind == "comment":
            for at, line in enumerate(token.text.removesuffix("*/").split("\n"), row):
                for text in line.split(_IGNORE)[1:]:
                    words = words_of(text.replace(",", " "))
                    rows.setdefault(at, set()).update(words or [""])
        row += token.text.count("\n")
    return rows


def is_page(name: str) -> bool:
    """Whether a file is a page, by its name."""
    return lower(name).endswith(_PAGES) or is_xml(name)


def is_component(name: str) -> bool:
    """Whether a file is a component of Vue or Svelte, by its name."""
    return lower(name).endswith(_COMPONENTS)


def _parts_of_component(text: str) -> Iterator[SheetText]:
    """Yields the sheets of the elements `style` of a component that are in CSS: what is in
    attributes may be a template."""
    page = EditedPage(text)
    position = Source(text).position
    for content in page.styles:
        tag = text[content.span[0] : content.inner[0]]
        languages = {
            (each.value or "").strip("\"'") for each in attributes_of(tag) if each.name == "lang"
        }
        if languages <= {"", "css"}:
            at = content.inner[0]
            yield SheetText(page.sheet_of(content), *position(at), at)


def _parts_of(page: EditedPage) -> Iterator[SheetText]:
    """Yields the sheets of a page: of its elements and attributes `style`."""
    text = page.text
    position = Source(text).position
    for content in page.styles:
        if page.is_style_sheet(content):
            at = content.inner[0]
            yield SheetText(page.sheet_of(content), *position(at), at)
    for index, tag in enumerate(page.tags):
        own = None if tag is None else _own_style(page, index, text[tag[0] : tag[1]])
        if tag is not None and own is not None:
            css, start = own
            yield SheetText(css, *position(tag[0] + start), tag[0] + start, True)


def _own_style(page: EditedPage, index: int, tag: str) -> Optional[Tuple[str, int]]:
    """Returns the declarations in the attribute `style` of an element, and where its start tag has them."""
    for each in attributes_of(tag):
        name = tag[each.start :][: len(each.name)] if page.is_xml else each.name
        if name == "style" and each.value:
            is_quoted = each.value[0] in "\"'"
            value = each.value[1:-1] if is_quoted else each.value
            css = unescape(value) if page.is_xml else page.elements.attributes[index][name]
            return css, each.end - len(each.value) + is_quoted
    return None


def _kept(part: SheetText, shows_all: bool, grammar: str) -> Iterator[_Report]:
    """Yields what is reported, without what comments turn off."""
    ignored = _ignored(part)
    row_of = Source(part.css).position
    for each in _reported_by_port(part) if grammar == PORT else _reported(part, shows_all):
        words = ignored.get(row_of(each.start)[0], ()) if ignored else ()
        kind = kind_of(each.reason)
        if not any(kind[:length] in words for length in range(len(kind) + 1)):
            yield each


class Found(NamedTuple):
    """A finding, and if one answer is right, the offsets of the file's characters between which it is
    written, and the answer."""

    finding: Finding
    edit: Optional[Tuple[int, int, str]]


def _found_in(
    name: str, text: str, parts: Iterable[SheetText], shows_all: bool, grammar: str
) -> List[Found]:
    """Returns what is found in the parts of a file, in order."""
    found: List[Found] = []
    for part in parts:
        of_part = _findings_of(name, part, shows_all, grammar)
        found += of_part if part.is_in(text) else (each._replace(edit=None) for each in of_part)
    return sorted(found, key=lambda each: (each.finding.row, each.finding.column))


def _findings_of(name: str, part: SheetText, shows_all: bool, grammar: str) -> Iterator[Found]:
    source = Source(part.css)

    def position(offset: int) -> Tuple[int, int]:
        row, column = source.position(offset)
        return row + part.row - 1, column + (part.column - 1) * (row == 1)

    for reason, start, end, hint, edit in _kept(part, shows_all, grammar):
        text = part.css[start:end]
        one = Finding(name, *position(start), reason, text, *position(end), hint)
        yield Found(one, edit and (part.at + edit[0], part.at + edit[1], edit[2]))


def fixed(text: str) -> str:
    """Returns a style sheet with what has one right answer corrected: a semicolon that is missing,
    `!important` misspelt, and the name that one known name alone is near to."""
    return corrected(text)[0]


def corrected(text: str) -> Tuple[str, int]:
    """Returns a style sheet as `fixed` does, and how many mistakes are corrected."""
    count = 0
    for _ in range(_MOST_ROUNDS):
        result, more = _corrected(text)
        if result == text:
            break
        text, count = result, count + more
    return text, count


def _corrected(text: str) -> Tuple[str, int]:
    """Returns a sheet with the mistakes corrected that are not within one another, and how many."""
    parts: List[str] = []
    done = 0
    reports = _kept(SheetText(text), False, MODERN)
    for start, end, right in sorted(each.edit for each in reports if each.edit is not None):
        if start >= done:
            parts += text[done:start], right
            done = end
    return "".join([*parts, text[done:]]), len(parts) // 2


def _page_of(name: str, text: str, has_xml: bool) -> Optional[EditedPage]:
    """Returns the page that a file is, if it is one."""
    is_one = is_page(name) and not is_component(name)
    return EditedPage(text, is_xml=has_xml or is_xml(name)) if is_one else None


def _parts_in(name: str, text: str, page: Optional[EditedPage]) -> Iterable[SheetText]:
    if page is not None:
        return _parts_of(page)
    return _parts_of_component(text) if is_component(name) else [SheetText(text)]


def parts_in(name: str, text: str) -> Iterable[SheetText]:
    """Returns the sheets of a file, and its style attributes."""
    return _parts_in(name, text, _page_of(name, text, False))


def found_in(name: str, text: str) -> List[Found]:
    """Returns the mistakes of a style sheet, or of those of a page, in order, with what corrects them."""
    return _found_in(name, text, parts_in(name, text), False, MODERN)


def findings(
    name: str,
    text: str,
    shows_all: bool = False,
    grammar: str = MODERN,
    *,
    shelf: Optional[Shelf] = None,
    has_xml: bool = False,
) -> List[Finding]:
    """Returns the mistakes of a style sheet, or of those of a page, in order; with `shows_all` also
    what is unsupported. After them are those of the files that a page links to, of a shelf.
    """
    page = _page_of(name, text, has_xml)
    found = _found_in(name, text, _parts_in(name, text, page), shows_all, grammar)
    for file, css in _linked(page, shelf, os.path.isabs(name)) if page and shelf else ():
        found += _found_in(file, css, [SheetText(css)], shows_all, grammar)
    return [each.finding for each in found]


def lint(
    text: str,
    *,
    ignore: Iterable[str] = (),
    unsupported: bool = False,
    grammar: str = MODERN,
) -> List[Finding]:
    """Returns the mistakes of a style sheet, in order, without those of the kinds that are left
    out: `"unknown-property"`, or the beginning of one. With `unsupported` also what is valid, and
    what this library does nothing with."""
    expect_text(text)
    expect_css(text)
    kinds = (ignore,) if isinstance(ignore, str) else tuple(ignore)
    found = findings("", text, unsupported, grammar_of(grammar))
    return [each for each in found if not each.kind.startswith(kinds)]


def _linked(page: EditedPage, shelf: Shelf, is_whole: bool) -> Iterator[Tuple[str, str]]:
    """Yields the files of the sheets that a page names, each once, and what they have. Their paths
    are whole or from the folder that the program is in."""
    seen: Set[str] = set()
    for sheet in sheets_of(page.elements, shelf):
        file = None if sheet.url is None else shelf.files.get(shelf.name_of(sheet.url))
        if file is not None and str(file) not in seen:
            seen.add(str(file))
            yield str(file) if is_whole else os.path.relpath(file), sheet.source.text


def as_text(found: Sequence[Finding], mark: Callable[[str, Finding], str]) -> str:
    """Returns a line for each, with its position marked."""
    return "".join(
        f"{mark(f'{printable(each.file)}:{each.row}:{each.column}', each)}: {each.message}\n"
        for each in found
    )


# Returns how bad a kind is, if the project says so.
Level = Callable[[str], Optional[str]]
# What that is called in other forms.
_COMMANDS = {"error": "error", "warning": "warning", "note": "notice"}
_CHECKSTYLE = {"error": "error", "warning": "warning", "note": "info"}


def _unsaid(kind: str) -> Optional[str]:
    """Says nothing of a kind."""
    return None


def as_json(found: Sequence[Finding], level: Level = _unsaid) -> str:
    """Returns a line of JSON for each, with how bad it is if the project says so."""
    return "".join(json_line(_fields(each, level(each.kind))) for each in found)


def _fields(one: Finding, severity: Optional[str]) -> Dict[str, object]:
    more = {} if severity is None else {"severity": severity}
    return {**one._asdict(), "kind": one.kind, **more}


def _github(text: str, more: str = "") -> str:
    text = printable(text)
    for character in "%\r\n" + more:
        text = text.replace(character, f"%{ord(character):02X}")
    return text


def as_github(found: Sequence[Finding], level: Level = _unsaid) -> str:
    """Returns a warning for each, or what the project says, as workflows of GitHub read them."""
    return "".join(
        f"::{_COMMANDS[level(each.kind) or 'warning']} "
        f"file={_github(each.file, ':,')},line={each.row},endLine={each.end_row},"
        f"col={each.column},endColumn={each.end_column},"
        f"title={each.kind}::{_github(each.message)}\n"
        for each in found
    )


def as_sarif(found: Sequence[Finding], level: Level = _unsaid) -> str:
    """Returns a log in SARIF 2.1.0."""
    reasons: Dict[str, str] = {each.kind: each.reason for each in found}
    results = [
        {
            "ruleId": each.kind,
            "level": level(each.kind) or "warning",
            "message": {"text": each.message},
            "locations": [
                {
                    "physicalLocation": {
                        "artifactLocation": {"uri": urllib.parse.quote(os.fsencode(each.file))},
                        "region": {
                            "startLine": each.row,
                            "startColumn": each.column,
                            "endLine": each.end_row,
                            "endColumn": each.end_column,
                        },
                    }
                }
            ],
        }
        for each in found
    ]
    rules = [
        {
            "id": kind,
            "shortDescription": {"text": reason},
            "fullDescription": {"text": _meaning(reason)},
        }
        for kind, reason in reasons.items()
    ]
    driver = {"name": "simplecss", "version": __version__, "rules": rules}
    run = {
        "tool": {"driver": driver},
        "columnKind": "unicodeCodePoints",
        "results": results,
    }
    log = {
        "$schema": "https://json.schemastore.org/sarif-2.1.0.json",
        "version": "2.1.0",
        "runs": [run],
    }
    return json.dumps(log, indent=2).replace("\x7f", "\\u007f") + "\n"


def as_checkstyle(found: Sequence[Finding], level: Level = _unsaid) -> str:
    """Returns a report in the form of Checkstyle."""
    files: Dict[str, List[Finding]] = {}
    for each in found:
        files.setdefault(each.file, []).append(each)
    lines = ['<?xml version="1.0" encoding="UTF-8"?>', '<checkstyle version="4.3">']
    for name, those in files.items():
        lines.append(f"<file name={quoteattr(_of_xml(name))}>")
        for each in those:
            message, source = quoteattr(_of_xml(each.message)), quoteattr(escape(each.kind))
            severity = _CHECKSTYLE[level(each.kind) or "warning"]
            lines.append(
                f'<error line="{each.row}" column="{each.column}" severity="{severity}"'
                f" message={message} source={source}/>"
            )
        lines.append("</file>")
    return "\n".join([*lines, "</checkstyle>"]) + "\n"


def _of_xml(text: str) -> str:
    """Returns the text with U+FFFD for each character that XML does not have, and for controls."""
    return _NOT_OF_XML.sub("\ufffd", printable(text))


def _meaning(reason: str) -> str:
    """Returns what a reason means."""
    found = explained().get(reason)
    return reason if found is None else found.text


def kinds() -> str:
    """Returns a line for each kind, which says what it is."""
    width = max(map(len, explained())) + 2
    rows = explained().values()
    return "".join(f"{kind_of(each.reason):{width}}{each.text}\n" for each in rows)


def explanation(kind: str) -> Optional[str]:
    """Returns what a kind is, with a wrong and a right line, or `None` if there is none."""
    for each in explained().values():
        if kind_of(each.reason) == kind:
            lines = [f"{kind} ({each.severity}): {each.text}"]
            for word, css in (("wrong", each.wrong), ("right", each.right)) if each.wrong else ():
                lines.append(f"  {word}:  " + css.replace("\\n", "\n          "))
            return "\n".join(lines) + "\n"
    return None


FORMATS: Dict[str, Callable[[Sequence[Finding], Level], str]] = {
    "json": as_json,
    "github": as_github,
    "sarif": as_sarif,
    "checkstyle": as_checkstyle,
}
