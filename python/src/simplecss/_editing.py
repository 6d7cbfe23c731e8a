"""A style sheet that is edited by places. The library writes it, and reads what it wrote again."""

from __future__ import annotations

import functools
import os
import re
from typing import Callable, Dict, Iterator, List, NamedTuple, Optional, Sequence, Tuple, Union

from . import _library as library
from ._declaration import Declaration
from ._entries import AT_RULE, AT_RULES, AT_STATEMENT, DECLARATION, END, GROUP, RULE, Entries, Entry
from ._flat import flat_sets
from ._given import expect_css
from ._maps import Stage, source_map
from ._reading import STYLE, AtRule, DeclarationReader, RuleSet, Source, Span, read_sheet
from ._sheet import Rule, Skipped, StyleSheet, Unsupported
from ._tokens import parts_of, quote
from ._urls import urls_in
from ._words import BLANKS, lower

# What a text takes the place of, as the library numbers it.
PRELUDE, VALUE, BLOCK, STATEMENTS, CONTENTS = range(1, 6)
_PARTS = frozenset((STATEMENTS, CONTENTS))
_NAME = "simplecss_edit"
# What a url without quotes cannot have.
_QUOTED = re.compile(r"[\"'()\\\x00-\x20\x7f]")
# What is before the strings of `@import`.
_IMPORT = "@import "
# What ends an item, and the rest of the line that it is on.
_PAST_ITEM = re.compile(rb"[ \t\n\r\f]*;")
_PAST_LINE = re.compile(rb"[ \t]*(\r\n|[\n\r\f])")
_BLANKS = b" \t"
# How many blanks after what goes go, too.
_FEW = 80
_LINE_ENDS = (b"\n", b"\r", b"\f")

# What has a place in a sheet.
Placed = Union[Rule, Unsupported, AtRule, Declaration, Skipped]


class EditError(ValueError):
    """An edit that would be read as something else. It has the `text` that was to be written, and `start` is the
    offset at which."""

    def __init__(self, text: str, start: int) -> None:
        super().__init__(f"at {start}: this would be read as something else: {text!r}")
        self.text = text
        self.start = start


class _Splice(NamedTuple):
    """A text that takes the place of bytes of a sheet."""

    start: int
    end: int
    kind: int
    text: str


class Edit:
    """A style sheet that is edited. What is not edited stays byte for byte.

    Each method takes the sheet as it was, but for selectors, values and urls, which are those of the method
    before it. `text` is the edited sheet: it is read again, and an edit that would be read as something else raises
    `EditError`. `sheet` is the `StyleSheet`, whose rules have places. `name` is that of the sheet in its source map.
    """

    def __init__(self, text: str, *, name: str = "style.css") -> None:
        expect_css(text)
        self._original = text
        self._name = name
        self._stages: List[Stage] = []
        # The style rules that `flatten` left as they are.
        self.left: List[Skipped] = []
        self._begin(text)

    def _begin(self, text: str) -> None:
        """Takes a text, of which nothing is edited."""
        self._source = Source(text)
        self._pieces: Dict[Tuple[Span, int], str] = {}
        self._parts: List[_Splice] = []
        for name in ("_entries", "sheet", "_written"):
            self.__dict__.pop(name, None)

    @functools.cached_property
    def _entries(self) -> Entries:
        return Entries(self._source)

    @functools.cached_property
    def sheet(self) -> StyleSheet:
        """The sheet as it was, or as `flatten` left it."""
        return StyleSheet(self._source.text)

    # ---- pieces

    def _piece(self, span: Span, kind: int) -> str:
        """Returns what is at a piece now."""
        found = self._pieces.get((span, kind))
        return self._source.at(span) if found is None else found

    def _set(self, span: Span, kind: int, text: str) -> None:
        """Sets a piece."""
        self._pieces[span, kind] = text
        self.__dict__.pop("_written", None)

    def _put(self, start: int, end: int, kind: int, text: str) -> None:
        """Puts a text in the place of whole parts."""
        self._parts.append(_Splice(start, end, kind, text))
        self.__dict__.pop("_written", None)

    def selectors(self, change: Callable[[str], Optional[str]], *, nested: bool = False) -> "Edit":
        """Changes each selector of a style rule: `None` takes it out, and a rule without any with it. Those of
        rules in style rules are changed if `nested` says so."""
        for index, entry in enumerate(self._entries.all):
            if entry.kind == RULE and (nested or not entry.depth):
                self._change_list(index, entry, change)
        return self

    def _change_list(
        self, index: int, entry: Entry, change: Callable[[str], Optional[str]]
    ) -> None:
        """Changes the selectors of a rule."""
        head = self._piece(entry.piece, PRELUDE)
        spans = _selectors_in(head)
        texts = [change(head[start:end]) for start, end in spans]
        if spans and all(each is None for each in texts):
            self._take_out(index)
        else:
            new = _with_selectors(head, spans, texts)
            if new != head:
                self._set(entry.piece, PRELUDE, new)

    def declarations(
        self, change: Callable[[Declaration], Union[Declaration, str, None]]
    ) -> "Edit":
        """Changes each declaration of a style rule into another one, or into a text of some; `None` takes it
        out."""
        reader = DeclarationReader(self._source)
        for index, entry in enumerate(self._entries.all):
            if entry.kind == DECLARATION:
                name = reader.declared(entry.name, (0, 0), False, True).name
                one = Declaration(name, self._piece(entry.piece, VALUE), entry.is_important)
                self._declare(index, entry, one, change(one))
        return self

    def _declare(
        self, index: int, entry: Entry, one: Declaration, new: Union[Declaration, str, None]
    ) -> None:
        """Replaces a declaration."""
        if new is None:
            self._take_out(index)
        elif isinstance(new, Declaration) and new[::2] == one[::2]:
            if new != one:
                self._set(entry.piece, VALUE, new.value)
        else:
            self._put(*entry.span, CONTENTS, str(new))

    def urls(self, change: Callable[[str], str]) -> "Edit":
        """Changes each url in declarations and at-rules: of `url()` and of `@import`."""
        for entry in self._entries.all:
            if entry.kind == DECLARATION:
                self._change_urls(entry.piece, VALUE, "", change)
            elif entry.kind in AT_RULES:
                if lower(self._source.at(entry.name)) == "import":
                    self._change_urls(entry.piece, PRELUDE, _IMPORT, change)
                if entry.kind == AT_RULE:
                    self._change_urls(entry.block, BLOCK, "", change)
        return self

    def _change_urls(self, span: Span, kind: int, front: str, change: Callable[[str], str]) -> None:
        """Changes the urls of a piece, which are read after a text."""
        text = front + self._piece(span, kind)
        if not front and "(" not in text:
            return
        parts, last = [], len(front)
        for token in urls_in(text):
            new = change(token.value)
            if new != token.value:
                parts += [text[last : token.start], _url_text(token.kind, new)]
                last = token.end
        if parts:
            self._set(span, kind, "".join([*parts, text[last:]]))

    # ---- whole parts

    def _index_of(self, placed: Placed) -> int:
        """Returns the index of the entry that has a place."""
        place = getattr(placed, "place", placed)
        start = getattr(place, "start", None)
        if start is None:
            raise ValueError("it has no place: take it from `sheet` of the edit")
        wanted = DECLARATION if isinstance(placed, Declaration) else None
        index = self._entries.at(self._source.byte(start))
        if index < 0 or wanted is not None and self._entries.all[index].kind != wanted:
            raise ValueError("it is of another sheet")
        return index

    def remove(self, *placed: Placed) -> "Edit":
        """Removes rule sets, at-rules or declarations that `sheet` has."""
        for each in placed:
            self._take_out(self._index_of(each))
        return self

    def replace(self, placed: Placed, text: str) -> "Edit":
        """Writes a text in the place of a rule set, an at-rule or a declaration that `sheet` has."""
        index = self._index_of(placed)
        entry, data = self._entries.all[index], self._source.data
        end = self._entries.end_of(index, len(data))
        is_statement = entry.kind == AT_STATEMENT and not entry.depth
        past = _PAST_ITEM.match(data, end) if is_statement else None
        kind = CONTENTS if entry.depth else STATEMENTS
        self._put(entry.span[0], end if past is None else past.end(), kind, text)
        return self

    def _take_out(self, index: int) -> None:
        """Takes an entry out, with the line that it is alone on."""
        entry, data = self._entries.all[index], self._source.data
        end = self._entries.end_of(index, len(data))
        past = None if entry.kind == AT_RULE else _PAST_ITEM.match(data, end)
        is_item = entry.kind not in (RULE, GROUP) and past is not None
        end = past.end() if past is not None and is_item else end
        start, line = _line_start(data, entry.span[0]), _PAST_LINE.match(data, end)
        if line is not None and start is not None:
            span = start, line.end()
        else:
            blanks = data[end : end + _FEW]
            span = entry.span[0], end + len(blanks) - len(blanks.lstrip(_BLANKS))
        self._put(*span, CONTENTS if entry.depth else STATEMENTS, "")

    def insert(
        self,
        text: str,
        *,
        before: Optional[Placed] = None,
        after: Optional[Placed] = None,
        into: Optional[Placed] = None,
    ) -> "Edit":
        """Inserts statements, or in a style rule declarations and rules: before or after what `sheet` has, at the
        end of the block of a rule, or at the end of the sheet."""
        given = [each for each in (before, after, into) if each is not None]
        if len(given) > 1:
            raise TypeError("one place is expected")
        if not given:
            self._insert_at(len(self._source.data), STATEMENTS, f"\n{text}\n")
            return self
        index = self._index_of(given[0])
        entry = self._entries.all[index]
        kind = CONTENTS if entry.depth else STATEMENTS
        if before is not None:
            self._insert_at(entry.span[0], kind, f"{text}\n")
        elif after is not None:
            self._insert_after(index, kind, text)
        else:
            self._insert_into(entry, text)
        return self

    def _insert_at(self, at: int, kind: int, text: str) -> None:
        self._put(at, at, kind, text)

    def _insert_after(self, index: int, kind: int, text: str) -> None:
        """Inserts a text after an entry."""
        data, is_rule = self._source.data, self._entries.all[index].kind in (RULE, GROUP, AT_RULE)
        end = self._entries.end_of(index, len(data))
        past = None if is_rule else _PAST_ITEM.match(data, end)
        gap = "\n" if is_rule or past is not None else ";\n"
        self._insert_at(end if past is None else past.end(), kind, gap + text)

    def _insert_into(self, entry: Entry, text: str) -> None:
        """Inserts a text at the end of the block of a rule."""
        if entry.last < 0:
            raise ValueError("it has no block that is closed")
        last = self._entries.all[entry.last - 1]
        end = self._entries.all[entry.last].span[0]
        is_open = last.kind not in (RULE, GROUP, END, AT_RULE) and last.span[0] >= entry.span[1]
        front = ";" if is_open and _PAST_ITEM.match(self._source.data, last.span[1]) is None else ""
        kind = CONTENTS if entry.depth or entry.kind == RULE else STATEMENTS
        self._insert_at(end, kind, f"{front} {text} ")

    def flatten(self) -> "Edit":
        """Writes style rules with rules in them as rules that have none, in the order of the cascade, for
        browsers without nesting. What is not clear stays, and is in `left`. The edits so far are made first;
        places are those of the new text then."""
        self.commit()
        source, statements = read_sheet(self._source.text)
        for statement, sets in flat_sets(source, statements):
            if isinstance(statement, RuleSet) and sets is None:
                self.left.append(_skipped(source, statement))
            elif isinstance(statement, RuleSet) and sets:
                text = "\n".join(_flat_text(source, statement, each) for each in sets)
                self._put(*statement.span, STATEMENTS, text)
        return self.commit()

    def commit(self) -> "Edit":
        """Makes the edits so far. `sheet` is the edited one then, with its places."""
        self._begin(self._made())
        return self

    # ---- what is written

    def _splices(self) -> List[_Splice]:
        """Returns the edits in order, without those that are in a part that is replaced."""
        pieces = (_Splice(*span, kind, text) for (span, kind), text in self._pieces.items())
        every = (each for each in pieces if self._source.at(each[:2]) != each.text)
        found: List[_Splice] = []
        for each in sorted([*every, *self._parts], key=lambda one: one[:2]):
            if found and each.start < found[-1].end:
                last = found[-1]
                if each.kind in _PARTS and each.start <= last.start and each.end >= last.end:
                    found[-1] = each
                elif last.kind not in _PARTS or each.end > last.end:
                    raise ValueError(f"two edits overlap: {last.text!r}, {each.text!r}")
                continue
            found.append(each)
        return found

    def _made(self) -> str:
        """Makes the edits, and returns the text with them."""
        splices = self._splices()
        if not splices:
            return self._source.text
        strings = [library.encode(each.text) for each in splices]
        rows = [number for each in splices for number in (each.kind, each.start, each.end)]
        words = library.sizes(rows), b"".join(strings), library.ends_of(map(len, strings))
        data = self._source.data
        room = len(data) + len(words[1])
        answer = library.call(_NAME, data, *words, room=room, with_fault=True)
        if answer.fault is not None:
            wrong = splices[min(answer.fault.element, len(splices)) - 1]
            raise EditError(wrong.text, self._source.offset(wrong.start))
        text = library.output_of(_NAME, answer).decode("utf-8")
        self._stages.append(Stage.of(self._cuts(splices)))
        return text

    def _cuts(self, splices: Sequence[_Splice]) -> Iterator[Tuple[int, int, int]]:
        """Yields where the characters that splices replace by others begin and end, and how many they write."""
        for each in splices:
            start, end = self._source.offset(each.start), self._source.offset(each.end)
            old, new = self._source.text[start:end], each.text
            first = len(os.path.commonprefix((old, new)))
            last = len(os.path.commonprefix((old[first:][::-1], new[first:][::-1])))
            yield start + first, end - last, len(new) - first - last

    @functools.cached_property
    def _written(self) -> Tuple[str, Tuple[Stage, ...]]:
        """The edited sheet, and the stages in which it was edited."""
        before = len(self._stages)
        text = self._made()
        stages = tuple(self._stages)
        del self._stages[before:]
        return text, stages

    @property
    def text(self) -> str:
        """The edited sheet."""
        return self._written[0]

    def source_map(self) -> Dict[str, object]:
        """Returns a source map (version 3) of `text`, which `json.dumps` writes."""
        text, stages = self._written
        return source_map(text, self._original, self._name, stages)


def _selectors_in(head: str) -> List[Span]:
    """Returns where the selectors of a list are."""
    if "," not in head and "/*" not in head:
        return [(0, len(head))] if head else []
    return [(part[0].start, part[-1].end) for part in parts_of(head) if part]


def _with_selectors(head: str, spans: Sequence[Span], texts: Sequence[Optional[str]]) -> str:
    """Returns a list with these in place of its selectors. One that is `None` is left out with its comma."""
    parts: List[str] = []
    last = 0
    for at, ((start, end), text) in enumerate(zip(spans, texts)):
        if text is not None:
            parts += [head[last:start], text]
            last = end
        elif at + 1 < len(spans):
            parts.append(head[last:start])
            last = spans[at + 1][0]
        else:
            kept = next(one for one in range(at, -1, -1) if texts[one] is not None)
            parts = [_with_selectors(head[: spans[kept][1]], spans[: kept + 1], texts[: kept + 1])]
            last = end
    return "".join([*parts, head[last:]])


def _url_text(kind: str, url: str) -> str:
    """Returns a url as it is written in place of a token of this kind."""
    if kind == "string":
        return quote(url)
    return f"url({quote(url)})" if _QUOTED.search(url) or not url else f"url({url})"


def _line_start(data: bytes, start: int) -> Optional[int]:
    """Returns where the line begins that an offset is on, if only blanks are before it there."""
    front = (
        data[:start].rstrip(_BLANKS) if data[start - 1 : start] in (b" ", b"\t") else data[:start]
    )
    is_first = not front or front[-1:] in _LINE_ENDS
    return len(front) if is_first else None


def _skipped(source: Source, statement: RuleSet) -> Skipped:
    """Returns a rule that is left as it is."""
    start, end = map(source.offset, statement.span)
    row, column = source.position(start)
    return Skipped(row, column, "not clear without nesting", source.text[start:end], 0, start, end)


def _flat_text(source: Source, rule: RuleSet, made: RuleSet) -> str:
    """Returns the text of a rule set that is made of a rule with rules in it."""
    selectors = ", ".join(each.text for each in made.selectors)
    text = f"{selectors} {{ {source.at(made.span).rstrip(BLANKS)} }}"
    inner = [each.condition for each in made.levels[len(rule.levels) :]]
    for condition in reversed([each for each in inner if each.name != STYLE]):
        text = f"{condition} {{ {text} }}"
    return text
