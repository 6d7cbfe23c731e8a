"""Style sheets, which rules match the elements of a tree, and which declarations win on them."""

from __future__ import annotations

import array
import collections
import functools
import itertools
from typing import (
    Any,
    Callable,
    Container,
    Dict,
    Iterable,
    Iterator,
    List,
    NamedTuple,
    Optional,
    Sequence,
    Set,
    Tuple,
    TypeVar,
    Union,
    overload,
)

from . import _library as library
from ._declaration import Declaration, cascaded
from ._deprecated import warn_of_old
from ._device import LAYER, Device, Media, device_of, holds
from ._elements import Elements
from ._given import expect_css
from ._lines import Lines
from ._linked import Load, Name, Piece, Shelf, Unread, imports_in, pieces_of, sheets_of
from ._making import sheet_text, with_end
from ._nested import Block, Places, blocks_of, every_block, unsupported_in
from ._placed import At, HasPlace, placed
from ._properties import is_custom, names_setting
from ._reading import (
    GROUPS,
    NESTED,
    AtRule,
    BlockItem,
    Condition,
    Contents,
    Fault,
    Level,
    Outer,
    ReadAtRule,
    ReadDeclaration,
    RuleSet,
    Source,
    Span,
    Statement,
    before_element,
    ended,
    read_sheet,
)
from ._selectors import (
    MODERN,
    PORT,
    Numbers,
    SelectorTexts,
    Specificity,
    grammar_of,
)
from ._explaining import Explaining, Explanation, OnElements, Text
from ._resolving import Pair, ResolvedElements, registered_in
from ._resolving import resolved as with_values
from ._specified import (
    NO_OWN,
    Inherit,
    Own,
    Presentation,
    inherited,
    presentation_attributes,
    specified_by,
    values_on,
)
from ._taken import Values
from ._tree import Element, Tree, elements_of
from ._unused import Unused, Usage
from ._user_agent import user_agent_sheet
from ._winners import AUTHOR, ORIGINS, PlacedRule, Query, ReadSheet, Winning
from ._words import BLANKS, lower

T = TypeVar("T")
# A selector and its comma have two bytes at least, a declaration and its semicolon four. So a text of n bytes,
# whose last semicolon may be missing, has at most (n + 1) / 4 selectors and (n + 1) / 8 declarations where the
# product of both is largest: the square of n + 1 is at least so many times that product.
_OF_PAIR = 32
# The at-rules that an `@import` may be after.
_FIRST = frozenset(("charset", "import", LAYER))
# How many times an answer's limit the declarations that are compared may be, as elements times those of
# all rules, before it is told how many they are.
_COMPARED = 10


class _Rule(NamedTuple):
    selector: str
    specificity: Specificity
    declarations: Tuple[Declaration, ...]
    conditions: Tuple[Condition, ...] = ()
    pseudo_element: Optional[str] = None
    parents: Tuple[str, ...] = ()


class Rule(_Rule, HasPlace):
    """A rule of a style sheet: a selector with declarations.

    It has the text of its `selector`, its `specificity`, and its `declarations`; the group rules
    that it is in, the outermost first; and the name of its pseudo-element, if it has one: then it
    applies to that, and not to the element. A rule set with three selectors is three rules.

    A rule in a style rule has `parents`: what is before the blocks of the style rules that it is in, the
    outermost first. The declarations before a rule in a style rule, in it, and after it are rules of
    their own.

    Its `place` begins with its selector, of a rule in a style rule with its list, and ends with its block.
    """


class _Unsupported(NamedTuple):
    selector: str
    declarations: Tuple[Declaration, ...]
    conditions: Tuple[Condition, ...]
    parents: Tuple[str, ...] = ()


class Unsupported(_Unsupported, HasPlace):
    """A rule whose selector is valid and unsupported. It matches no element.

    A nested rule has `parents`, and each a `place`, as a `Rule` has.
    """


class Skipped(NamedTuple):
    """A part of a style sheet that is skipped.

    `row` and `column` begin at 1, and columns count characters. `source` is the index of the text
    among those of the sheet, and `start` and `end` are where the part begins and ends in it.
    """

    row: int
    column: int
    reason: str
    text: str
    source: int
    start: int
    end: int


# What a sheet past its limit says.
_TOO_MANY = "the rules would hold more declarations than the limit"
# The number of a text, and an offset in it.
Place = Tuple[int, int]


class ByName(List[Declaration]):
    """Lists the declarations that win on an element, and is a mapping from the names of their properties to
    them: `dict(winners)` is one. A name compares in any case, but that of a custom property.
    """

    @overload  # type: ignore[override]
    def __getitem__(self, key: Union[int, str]) -> Declaration:
        ...

    @overload
    def __getitem__(self, key: slice) -> List[Declaration]:
        ...

    def __getitem__(self, key: Union[int, slice, str]) -> Union[Declaration, List[Declaration]]:
        """The declaration of a name, or at an index. A name of none raises `KeyError`."""
        if not isinstance(key, str):
            return super().__getitem__(key)
        found = self.get(key)
        if found is None:
            raise KeyError(key)
        return found

    def __contains__(self, key: object) -> bool:
        """Whether one has a name, or is this declaration."""
        return self.get(key) is not None if isinstance(key, str) else super().__contains__(key)

    def get(self, name: str, default: Optional[Declaration] = None) -> Optional[Declaration]:
        """Returns the declaration of a name, or the default. Of two, it is the stronger one."""
        wanted = _compared(name)
        return next((each for each in reversed(self) if _compared(each.name) == wanted), default)

    def keys(self) -> List[str]:
        """The names, in order."""
        return [each.name for each in self]

    def values(self) -> List[Declaration]:
        """The declarations, in order."""
        return list(self)

    def items(self) -> List[Tuple[str, Declaration]]:
        """The names and declarations, in order."""
        return [(each.name, each) for each in self]


def _compared(name: str) -> str:
    """Returns a name as names of properties compare."""
    return name if is_custom(name) else lower(name)


class ByElement(List[T]):
    """A list with a value for each element of a tree, and a mapping from the elements to these: `dict(found)`
    is one. A key is an element or its index; an element of another tree raises `KeyError`.
    """

    def __init__(self, tree: Tree, values: Iterable[T]) -> None:
        super().__init__(values)
        self._tree = tree

    @overload  # type: ignore[override]
    def __getitem__(self, key: Union[int, Element]) -> T:
        ...

    @overload
    def __getitem__(self, key: slice) -> List[T]:
        ...

    def __getitem__(self, key: Union[int, slice, Element]) -> Union[T, List[T]]:
        if not isinstance(key, Element):
            return super().__getitem__(key)
        if key.tree is not self._tree:
            raise KeyError("the element belongs to another tree")
        return super().__getitem__(key.index)

    def __contains__(self, key: object) -> bool:
        """Whether an element is of the tree, or this is one of the values."""
        if isinstance(key, Element):
            return key.tree is self._tree
        return super().__contains__(key)

    def get(self, key: Element, default: Optional[T] = None) -> Optional[T]:
        """Returns the value of an element, or the default for one of another tree."""
        return self[key] if key in self else default

    def keys(self) -> Sequence[Element]:
        """The elements, in order."""
        return self._tree.elements

    def values(self) -> List[T]:
        """The values, in the order of the elements."""
        return list(self)

    def items(self) -> List[Tuple[Element, T]]:
        """The elements and values, in order."""
        return list(zip(self._tree.elements, self))


class _Contents(NamedTuple):
    """What the texts of a sheet have, and the indices of the rules that the library places, by the numbers
    of their texts and where their declarations begin."""

    rules: Tuple[Rule, ...]
    unsupported: Tuple[Unsupported, ...]
    at_rules: Tuple[AtRule, ...]
    nested: Dict[Place, List[int]]


class StyleSheet:
    """The style sheet of texts, read one after another.

    Its rules are in the order of their specificity, and rules of equal specificity in the order in
    which they appear. `str` is the printed sheet. It has the `@import`s of further texts before all rules,
    since they count nowhere else, and no `@import` of a sheet that `of_page` has read.

    The grammar "modern" reads as browsers do (CSS Syntax 3), and "simplecss" as the Rust crate
    does.

    A rule set counts its declarations once for each of its selectors. Rules with more declarations
    than `limit` raise `LimitError`; `None` sets no limit. So do answers of `match`, `styles` and
    `style` with more rules or declarations than `answer_limit`, each counted once for each element, and
    as many elements times selectors of style rules with rules in them.

    `origins` says of each text where it comes from: "author", "user" or "user-agent"; further texts are
    the author's. Of declarations that are not important the author's win, and of important ones those of
    the user agent. Each origin has its own layers. `revert` and `revert-layer` roll back what wins.

    `around` says of each text which group rules all of it is in, from the outermost, as the layer and the
    media of an `@import` are; further texts are in none. A layer without a name is another for each text.
    """

    def __init__(
        self,
        *texts: str,
        origins: Sequence[str] = (),
        around: Sequence[Sequence[Condition]] = (),
        grammar: str = MODERN,
        limit: Optional[int] = library.USUAL_LIMIT,
        answer_limit: Optional[int] = library.USUAL_ANSWER_LIMIT,
    ) -> None:
        for text in texts:
            library.expect_text(text)
            expect_css(text)
        self._take(texts, origins, around, grammar_of(grammar), limit, answer_limit)
        self._check_size()

    def _take(
        self,
        texts: Sequence[str],
        origins: Sequence[str],
        around: Sequence[Sequence[Condition]],
        grammar: str,
        limit: Optional[int],
        answer_limit: Optional[int],
    ) -> None:
        """Takes texts, which are not read yet."""
        self._texts = tuple(library.encode(text) for text in texts)
        # The group rules that all of each text is in, and the pieces of the texts in the order of the cascade.
        self._outer = _outer_of(around, len(texts), grammar)
        self._pieces = tuple(Piece(number, 0, len(text)) for number, text in enumerate(self._texts))
        # What the page names and was not read, and of each text of a page where its imports are of this.
        self.unread: Tuple[Unread, ...] = ()
        self._left: Optional[Tuple[Tuple[Span, ...], ...]] = None
        # The url of each text that is a linked sheet of a page.
        self._urls: Tuple[Optional[str], ...] = (None,) * len(texts)
        self._grammar = grammar
        self._origins = _origins_of(origins, len(texts), grammar)
        self._limit = library.limit_of(limit)
        self._answer_limit = library.limit_of(answer_limit)
        self._is_within_limit = False
        self._read: Optional[List[Tuple[Source, List[Statement]]]] = None
        self._read_blocks: Optional[List[List[Block]]] = None
        self._contents: Optional[_Contents] = None
        self._selectors: Dict[Device, _Selectors] = {}
        # By the device, and the sheets that are before this one.
        self._winning_on: Dict[Tuple[Device, Tuple[StyleSheet, ...], Values], Winning] = {}

    @classmethod
    def of_rules(
        cls,
        rules: Iterable[Union[Rule, Unsupported, AtRule]],
        *,
        limit: Optional[int] = library.USUAL_LIMIT,
        answer_limit: Optional[int] = library.USUAL_ANSWER_LIMIT,
    ) -> "StyleSheet":
        """Returns the style sheet of rules in this order, such as those of other sheets, changed by
        `_replace`. Each is in its group rules and in the style rules that it has as parents.

        Raises `ValueError` if they do not read as what they are: for example, if a value ends its
        declaration.
        """
        given = [with_end(each) for each in rules]
        sheet = cls(sheet_text(given), limit=limit, answer_limit=answer_limit)
        if _said(given) != _said([*sheet.rules, *sheet.unsupported, *sheet.at_rules]):
            raise ValueError("the text of a rule reads as another rule")
        return sheet

    @classmethod
    def of_page(
        cls,
        tree: Tree,
        *,
        at: Optional[Name] = None,
        folder: Optional[Name] = None,
        load: Optional[Load] = None,
        grammar: str = MODERN,
        limit: Optional[int] = library.USUAL_LIMIT,
        answer_limit: Optional[int] = library.USUAL_ANSWER_LIMIT,
    ) -> "StyleSheet":
        """Returns the style sheet of a page.

        It has the `style` elements, the sheets that the page links to, and those that these import,
        if they are in use (by their title and `disabled`).

        Linked sheets are files in `folder`, whose names end in `.css`, or what `load` returns for
        their urls; `None` is for one that it has not. Without these only urls of data are read, and
        nothing is ever fetched. `at` is where the page is, as a path or a url, which relative urls
        are taken from; it is the folder if it is not said. `unread` of the sheet has the urls that
        were not read, and why.
        """
        if not isinstance(tree, Tree):
            raise TypeError(f"a Tree is expected, not {type(tree).__name__}")
        shelf = Shelf(at, folder, load, library.limit_of(answer_limit))
        found = list(sheets_of(elements_of(tree), shelf))
        if grammar_of(grammar) == PORT:
            found = [each._replace(imports=0) for each in found if not each.around]
        sheet = cls.__new__(cls)
        texts = [each.source.text for each in found]
        sheet._take(texts, (), (), grammar_of(grammar), limit, answer_limit)
        sheet._read = [(each.source, each.statements) for each in found]
        outer = tuple(each.around for each in found)
        left = tuple(each.left for each in found)
        urls = tuple(each.url for each in found)
        sheet._of_page(outer, pieces_of(found), tuple(shelf.unread), left, urls)
        sheet._check_size()
        return sheet

    def _of_page(
        self,
        outer: Tuple[Tuple[Outer, ...], ...],
        pieces: Tuple[Piece, ...],
        unread: Tuple[Unread, ...],
        left: Optional[Tuple[Tuple[Span, ...], ...]],
        urls: Tuple[Optional[str], ...],
    ) -> "StyleSheet":
        """Returns the sheet, as that of a page: with group rules for each text, the pieces of the texts,
        what was not read, and the urls of the texts."""
        self._left = left
        self._urls = urls
        self._outer = outer
        self._pieces = pieces
        self.unread = unread
        return self

    @functools.cached_property
    def _conditions(self) -> Tuple[Tuple[Condition, ...], ...]:
        """The group rules that all of each text is in."""
        return tuple(tuple(each.condition for each in outer) for outer in self._outer)

    def __reduce__(self) -> Tuple[Any, ...]:
        texts = tuple(text.decode("utf-8") for text in self._texts)
        limits = (self._limit, self._answer_limit)
        page = (self._outer, self._pieces, self.unread, self._left, self._urls)
        return (_sheet_of, (texts, self._origins, page, self._grammar, *limits))

    def _ask_port(self, asked: int, room: int) -> bytes:
        """Asks what reads the sheet by the grammar "simplecss"."""
        answer = library.port(asked, self._texts, self._limit, room=room)
        return library.output_of("simplecss_port", answer)

    def _statements(self) -> List[Tuple[Source, List[Statement]]]:
        """Returns what the texts have by the grammar "modern"."""
        if self._read is None:
            self._read = [read_sheet(text.decode("utf-8")) for text in self._texts]
        return self._read

    def _text(self) -> str:
        """Returns the text of a sheet of one, which is read if it is not."""
        if len(self._texts) != 1 or self._grammar == PORT:
            raise ValueError("a sheet of one text by the modern grammar is expected")
        return self._statements()[0][0].text

    def _all(self) -> _Contents:
        if self._contents is None:
            is_port = self._grammar == PORT
            self._contents = self._contents_of_port() if is_port else self._contents_of_modern()
        return self._contents

    def _contents_of_port(self) -> _Contents:
        output = self._ask_port(library.PORT_RULES, 1024 + 8 * sum(map(len, self._texts)))
        return _Contents(tuple(_rules_of_port(Lines(output))), (), (), {})

    def _at(self, number: int, span: Span) -> At:
        """Returns where bytes of a text are."""
        return At(self._statements()[number][0], number, self._urls[number], *span)

    def _blocks(self) -> List[List[Block]]:
        """Returns the blocks of the rules in style rules of each text, and of these style rules."""
        if self._read_blocks is None:
            self._read_blocks = [blocks_of(*each) for each in self._statements()]
        return self._read_blocks

    def _contents_of_modern(self) -> _Contents:
        self._check_limit()
        found = list(self._placed_rules()) if any(self._placed_blocks()) else []
        nested = [(each.place, each.rule) for each in found]
        supported = {(each.block, each.text) for each in found}.union(self._silent())
        plain, outermost = _rules_of(
            self._sets({each.block for each in found}), supported, self._at
        )
        unsupported = sorted(
            itertools.chain(outermost, self._unsupported_in(found)),
            key=lambda each: each[0],
        )
        # Rules of equal specificity stay as they stand.
        rules = sorted(plain + nested, key=lambda each: each[0])
        rules.sort(key=lambda each: each[1].specificity)
        starts = {place for place, _ in nested}
        indices: Dict[Place, List[int]] = {}
        for index, (place, _) in enumerate(rules):
            if place in starts:
                indices.setdefault(place, []).append(index)
        at_rules = (
            placed(
                each.rule._replace(conditions=self._conditions[number] + each.rule.conditions),
                self._at(number, each.span),
            )
            for number, (_, those) in enumerate(self._statements())
            for statement in those
            for each in _at_rules_of(statement)
        )
        return _Contents(
            tuple(rule for _, rule in rules),
            tuple(rule for _, rule in unsupported),
            tuple(at_rules),
            indices,
        )

    def _sets(
        self, own: Set[Place]
    ) -> Iterator[Tuple[Place, RuleSet, bool, Tuple[Condition, ...]]]:
        """Yields the rule sets, where each is, whether its rules are not those of its block, which is
        not one of these, and the conditions of its whole text."""
        for number, (_, found) in enumerate(self._statements()):
            for each in found:
                if isinstance(each, RuleSet):
                    place = (number, each.head[1])
                    yield place, each, place not in own, self._conditions[number]

    def _placed_blocks(self) -> List[List[Block]]:
        """Returns of each text the blocks of the style rules that the library places: of those with rules
        in them, or of all if the text declares namespaces, with which it reads their selectors.
        """
        return [
            every_block(source, found, blocks) if _declares_namespaces(found) else blocks
            for (source, found), blocks in zip(self._statements(), self._blocks())
        ]

    def _unsupported_in(self, found: Iterable["_Placed"]) -> Iterator[Tuple[Place, Unsupported]]:
        """Yields the unsupported rules in style rules, and where each is. These are the supported ones."""
        known: Dict[int, Dict[int, Set[str]]] = {}
        for each in found:
            number, start = each.block
            known.setdefault(number, {}).setdefault(start, set()).add(each.text)
        left = self._limit
        for number, (source, statements) in enumerate(self._statements()):
            own = {each.head[1] for each in statements if isinstance(each, RuleSet)}
            inner = (each for each in self._blocks()[number] if each.span[0] not in own)
            supported = known.get(number, {})
            for block, selector, declarations in unsupported_in(source, inner, supported):
                left -= len(declarations)
                if left < 0:
                    raise library.LimitError(_TOO_MANY)
                conditions = self._conditions[number] + block.conditions
                rule = Unsupported(selector, declarations, conditions, block.parents)
                yield (number, block.span[0]), placed(rule, self._at(number, block.rule))

    def _silent(self) -> Iterator[Tuple[Place, str]]:
        """Yields the selectors of the rules without declarations of texts that declare namespaces, and where
        each is. The library says nothing of these rules."""
        for number, (_, found) in enumerate(self._statements()):
            for each in found if _declares_namespaces(found) else ():
                if isinstance(each, RuleSet) and not each.declarations:
                    yield from (((number, each.head[1]), one.text) for one in each.selectors)

    def _placed_rules(self) -> Iterator["_Placed"]:
        """Yields the rules that the library places, as they stand in the texts."""
        every = self._winning_by(lambda text: True, (self,), Values.ANY)
        blocks = self._placed_blocks()
        rules = sorted(zip(every.rules, every.selectors), key=lambda each: each[0][:2])
        for number, found in itertools.groupby(rules, key=lambda each: each[0].sheet):
            places = Places(blocks[number])
            for each, text in found:
                block = places.at(each.start)
                if block is not None:
                    declared = each.declarations
                    declarations = tuple(
                        placed(Declaration(*one), self._at(number, declared.span(at)))
                        for at, one in enumerate(declared)
                    )
                    rule = _nested_rule(each, text, block, self._conditions[number], declarations)
                    place = (number, each.start)
                    rule = placed(rule, self._at(number, block.rule))
                    yield _Placed(place, (number, block.span[0]), text, rule)

    def _read_sheets(self) -> Iterator[ReadSheet]:
        """Yields each text, with the group rules that all of it is in."""
        for (source, _), outer in zip(self._statements(), self._outer):
            yield source, outer

    def _check_size(self) -> None:
        """Raises `LimitError` for a sheet whose rules hold more declarations than its limit. Of a short one
        nothing is read: so many bytes have no rule sets of more selectors times declarations.
        """
        if (1 + sum(map(len, self._texts))) ** 2 <= _OF_PAIR * self._limit:
            return
        if self._grammar == MODERN:
            self._check_limit()
        if self._grammar == PORT or any(self._placed_blocks()):
            self._all()

    def _check_limit(self) -> None:
        """Raises `LimitError` for a sheet whose rules would hold more declarations than its limit."""
        if self._is_within_limit:
            return
        every = (each for _, found in self._statements() for each in found)
        sets = [each for each in every if isinstance(each, RuleSet)]
        # How many items there are is known sooner than how many of them are declarations.
        most = sum(len(each.selectors) * len(each.items) for each in sets)
        if most > self._limit < sum(len(each.selectors) * len(each.declarations) for each in sets):
            raise library.LimitError(_TOO_MANY)
        self._is_within_limit = True

    @property
    def rules(self) -> Tuple[Rule, ...]:
        """The rules, those of smaller specificity first."""
        return self._all().rules

    @property
    def unsupported(self) -> Tuple[Unsupported, ...]:
        """The rules whose selectors are valid and unsupported, in order."""
        return self._all().unsupported

    @property
    def unmatched(self) -> Tuple[Unsupported, ...]:
        """The old name of `unsupported`."""
        warn_of_old("StyleSheet.unmatched", "StyleSheet.unsupported")
        return self.unsupported

    @property
    def at_rules(self) -> Tuple[AtRule, ...]:
        """The at-rules that are not group rules, such as `@font-face`."""
        return self._all().at_rules

    @property
    def skipped(self) -> List[Skipped]:
        """What is skipped of the texts, in order."""
        each = self._skipped_of_port() if self._grammar == PORT else self._skipped_of_modern()
        return list(each)

    def _skipped_of_modern(self) -> Iterator[Skipped]:
        for number, (source, statements) in enumerate(self._statements()):
            for fault in faults_of(statements):
                start, end = map(source.offset, fault.span)
                row, column = source.position(start)
                text = source.text[start:end]
                yield Skipped(row, column, fault.reason, text, number, start, end)

    def _skipped_of_port(self) -> Iterator[Skipped]:
        for number, text in enumerate(self._texts):
            source = Source(text.decode("utf-8"))
            answer = library.port(library.PORT_SKIPPED, [text], room=1024 + 2 * len(text))
            lines = Lines(library.output_of("simplecss_port", answer))
            while lines.are_left():
                (row, column, length), reason = lines.numbers_and_rest(3)
                part = lines.text(length)
                lines.end_line()
                start = source.lines[row - 1] + column - 1
                # It may lack blanks at its front.
                end = source.text.index(part, start) + len(part)
                yield Skipped(row, column, reason, part, number, start, end)

    def __str__(self) -> str:
        if self._grammar == PORT:
            room = 1024 + 4 * sum(map(len, self._texts))
            return self._ask_port(library.PORT_SHEET, room).decode("utf-8")[:-1]
        # Printing obeys the limit, too.
        self._all()
        return "\n".join(self._lines())

    def _printed(self) -> List["_Part"]:
        """Returns the pieces of the texts as they are printed. Where there are several texts, the imports of
        sheets that were not read are in the first piece, since none would count after it; those of a
        page whose sheets were are in none."""
        parts: List[_Part] = []
        late: List[_Part] = []
        for number, start, end in self._pieces:
            source, found = self._statements()[number]
            outer = self._outer[number]
            part = _Part(outer, source, [each for each in found if start <= each.span[0] < end])
            if len(self._texts) > 1:
                spans = {each.span for each in imports_in(source.text)}
                left = spans if self._left is None else set(self._left[number])
                part, imports = part.without(spans if parts or outer else spans - left)
                late += (_Part((), source, [each]) for each in imports if each.span in left)
            parts.append(part)
        front, rest = parts[0].parted() if parts and not parts[0].outer else (None, None)
        if front is None or rest is None:
            return [*late, *parts]
        return [front, *late, rest, *parts[1:]] if late else parts

    def _lines(self) -> Iterator[str]:
        """Yields the lines of the pieces of the texts, each in its group rules. Those that a piece shares with
        the one before it stay open."""
        opened: Tuple[Outer, ...] = ()
        for outer, source, those in self._printed():
            pairs = itertools.takewhile(lambda pair: pair[0] == pair[1], zip(opened, outer))
            shared = sum(1 for _ in pairs)
            yield from _closed(len(opened), shared)
            for depth, each in enumerate(outer[shared:], shared):
                yield f"{'  ' * depth}{each.condition} {{"
            opened = outer
            for line in _lines_of(source, those):
                yield "  " * len(outer) + line
        yield from _closed(len(opened), 0)

    def __repr__(self) -> str:
        return f"<StyleSheet of {len(self._texts)} texts>"

    def unused(self, *trees: Tree) -> "List[Unused]":
        """Returns the selectors that match no element of any of the trees, in order.

        Pseudo-elements, states as `:hover`, and the conditions of group rules are taken as met. A
        selector that is not supported, or of whose states that cannot be said, is used. The sheet
        is of the grammar "modern".
        """
        usage = self._usage()
        for tree in trees:
            usage.see(elements_of(tree))
        return list(usage.unused())

    def _usage(self) -> Usage:
        """Returns what is not used yet."""
        if self._grammar == PORT:
            raise ValueError("a sheet of the modern grammar is expected")
        return Usage(self._statements(), self._answer_limit)

    def _match(self, tree: Tree, media: Media) -> Tuple["_Selectors", List[bytes]]:
        """Returns the selectors that are asked for, and for each element the numbers of those that
        match it."""
        elements = _elements_in(tree)
        if not isinstance(media, Device) and callable(media):
            found = _Selectors(self._all(), media)
        else:
            device = device_of(media)
            if device not in self._selectors:
                self._selectors[device] = _Selectors(self._all(), device)
            found = self._selectors[device]
        if self._grammar == PORT:
            # A selector that is printed may not be read again.
            words = (self._texts, self._limit, len(self.rules), self._answer_limit)
            return found, elements.matched_of_port(*words)
        return found, elements.matched(found.texts, self._answer_limit)

    def match(self, tree: Tree, *, media: Media = "screen") -> "ByElement[List[int]]":
        """Returns for each element the indices of the rules that match it, in order.

        Rules in `@media` and `@supports` apply where these hold on the device `media`, which may be
        a type as "print": the usual device of it. A callable decides instead: it is called with the
        prelude of each `@media`, and with the text of each other group rule up to its block, such as
        `@layer a`. Rules with a pseudo-element match no element.
        """
        return ByElement(tree, (list(each) for each in self._matched(tree, media)))

    def _matched(self, tree: Tree, media: Media) -> Iterator[Sequence[int]]:
        """Yields for each element the indices of the rules that match it, in order."""
        selectors, lines = self._match(tree, media)
        plain = (selectors.rules[line] for line in lines)
        if self._grammar == PORT or not self._all().nested:
            yield from plain
            return
        room = library.Room(self._answer_limit)
        for indices, others in zip(plain, self._nested_on(_elements_in(tree), media)):
            room.take(len(indices) + len(others))
            yield sorted(indices + others)

    def _nested_on(self, elements: Elements, media: Media) -> Iterator[List[int]]:
        """Yields for each element the indices of the rules that match it of those that the library
        places."""
        winning = self._winning(media, (self,), Values.ANY)
        query = winning.on(elements, NO_OWN)
        left = {place: iter(indices) for place, indices in self._all().nested.items()}
        # The index of each rule, but for those of others and of pseudo-elements.
        found = [next(left.get(each[:2], iter(())), None) for each in winning.rules]
        rules = self.rules
        kept = [
            None if each is None or rules[each].pseudo_element is not None else each
            for each in found
        ]
        for numbers in query.matching(self._answer_limit):
            yield [each for each in map(kept.__getitem__, numbers) if each is not None]

    def styles(
        self,
        tree: Tree,
        *,
        media: Media = "screen",
        specified: bool = False,
        presentation: Presentation = presentation_attributes,
        inherit: Inherit = False,
        resolved: bool = False,
        ua: bool = False,
        any_value: bool = False,
    ) -> "ByElement[ByName]":
        """Returns for each element the winning declaration of each name (CSS Cascading 5, section 6).

        They are in the order of the cascade, the strongest last: written into an attribute `style` in this
        order, they set what the rules do. One with the value `revert` or `revert-layer` is there if nothing
        that applies to the element is in an earlier origin or layer: it undoes what those before it set. A
        layer that is rolled back for a part of a shorthand is not looked for by the name of another: `style`
        with `shorthands` does. With `specified`, the declarations of the attribute `style` take part, and
        those that `presentation` returns of an element: properties with their values, which are
        presentational hints; by default the presentation attributes of SVG. `inherit` names the
        properties that an element without a declaration has from its parent; `True` is those of CSS 2.1
        and of SVG. With `resolved`, references `var()` are replaced by custom properties, which parents
        hand down or `@property` registers, and a declaration that is then invalid is left out. With `ua`,
        the rules take part that HTML and SVG suggest to browsers: their origin is "user-agent", and the
        limits count them, too. The grammar "simplecss" has no `ua`. `media` is that of `match`.

        A declaration of an author or a user whose value no browser takes is none, as far as a table says
        (`docs/PYTHON.md`); with `any_value` it counts, as it does by the grammar "simplecss".
        """
        if self._grammar == PORT:
            _expect_none(ua=ua)
            found = self._styles_of_port(tree, media, presentation if specified else None)
        else:
            hints = _hints_of(specified, presentation)
            found = self._query(tree, media, ua, hints, any_value).winners(self._answer_limit)
        if resolved:
            registered = list(self._registered(media))
            found = with_values(tree, found, registered, self._answer_limit)
        if inherit:
            found = inherited(tree, found, inherit, self._answer_limit)
        return ByElement(tree, map(ByName, found))

    def _registered(self, media: Media) -> Iterator[Pair]:
        """Yields the prelude and the block of each `@property` that holds."""
        if self._grammar != PORT:
            applies = functools.lru_cache(maxsize=None)(functools.partial(holds, media=media))
            for (_, found), outer in zip(self._statements(), self._conditions):
                yield from registered_in(found, outer, applies)

    def _styles_of_port(
        self,
        tree: Tree,
        media: Media,
        presentation: Optional[Presentation],
        name: Optional[str] = None,
    ) -> List[List[Declaration]]:
        """Returns what wins by the grammar of the Rust crate, or of it what has the name."""
        found = self._winners_of_port(*self._match(tree, media), name)
        if presentation is None:
            return found
        every = [specified_by(element, each, presentation) for element, each in zip(tree, found)]
        return every if name is None else _with_name(every, name)

    def _query(
        self,
        tree: Tree,
        media: Media,
        ua: bool,
        presentation: Optional[Presentation],
        any_value: bool,
    ) -> Query:
        """Returns the rules that apply on a device, with those of the user agent if asked for, on the elements of a
        tree, of whose own declarations none takes part without presentation declarations. The tree has the last one.
        """
        elements = _elements_in(tree)
        sheets = (user_agent_sheet(tree), self) if ua else (self,)
        values = values_on(tree, any_value)
        winning = self._winning(media, sheets, values)
        query = elements.asked_last(
            (Query, winning, presentation, values),
            lambda: winning.on(
                elements,
                NO_OWN if presentation is None else Own(tree, presentation, values),
            ),
        )
        return self._compared(tree, media, sheets, query)

    def _compared(
        self, tree: Tree, media: Media, sheets: Sequence["StyleSheet"], query: Query
    ) -> Query:
        """Returns the rules of sheets on the elements of a tree. Raises `LimitError` if too much is to be compared."""
        if len(elements_of(tree)) * query.cascade.count > _COMPARED * self._answer_limit:
            self._check_compared(tree, media, sheets)
        return query

    def _check_compared(self, tree: Tree, media: Media, sheets: Sequence["StyleSheet"]) -> None:
        """Raises `LimitError` if more rules match elements than the limit, or if the rules that match one
        together hold more declarations."""
        compared = library.Room(self._answer_limit)
        matched = ((tuple(each) for each in sheet._matched(tree, media)) for sheet in sheets)
        for found in set(zip(*matched)):
            for sheet, indices in zip(sheets, found):
                compared.take(sum(len(sheet.rules[each].declarations) for each in indices))

    def _winning(self, media: Media, sheets: Tuple["StyleSheet", ...], values: Values) -> Winning:
        """Returns the rules of this sheet, and of others with it, that apply on a device."""
        self._check_limit()
        if not isinstance(media, Device) and callable(media):
            return self._winning_by(media, sheets, values)
        key = (device_of(media), sheets[:-1], values)
        found = self._winning_on.get(key)
        if found is None:
            found = self._winning_on[key] = self._winning_by(key[0], sheets, values)
        return found

    def _winning_by(self, media: Media, sheets: Sequence["StyleSheet"], values: Values) -> Winning:
        """Returns the rules of these sheets that apply, of which the limit is that of this one."""
        read: List[ReadSheet] = []
        pieces: List[Piece] = []
        for sheet in sheets:
            pieces += (each._replace(text=each.text + len(read)) for each in sheet._pieces)
            read += sheet._read_sheets()
        origins = [origin for sheet in sheets for origin in sheet._origins]
        return Winning(read, pieces, origins, media, self._limit, values)

    def _winners_of_port(
        self, selectors: "_Selectors", lines: List[bytes], name: Optional[str]
    ) -> List[List[Declaration]]:
        """Returns for each line what wins of the rules of its numbers, or of it what has the
        name."""
        winners: Dict[bytes, List[Declaration]] = {}
        compared, answered = library.Room(self._answer_limit), library.Room(self._answer_limit)
        found: List[List[Declaration]] = []
        for line in lines:
            if line not in winners:
                rules = [self.rules[each] for each in selectors.rules[line]]
                compared.take(sum(len(rule.declarations) for rule in rules))
                every = (each for rule in rules for each in rule.declarations)
                winners[line] = cascaded(each for each in every if name in (None, each.name))
            answered.take(len(winners[line]))
            found.append(winners[line].copy())
        return found

    def style(
        self,
        tree: Tree,
        name: str,
        *,
        media: Media = "screen",
        specified: bool = False,
        presentation: Presentation = presentation_attributes,
        inherit: Inherit = False,
        shorthands: bool = False,
        ua: bool = False,
        any_value: bool = False,
    ) -> "ByElement[Optional[Declaration]]":
        """Returns for each element the winning declaration of the name, or `None`.

        With `shorthands`, it is the declaration that sets the property, which may be that of a shorthand:
        the winning one of all that have its name or that of a shorthand, and where the property has a logical
        and a physical name, such as `margin-block-start` and `margin-top`, of both, as in horizontal text from
        left to right. A name compares in any case of
        its ASCII letters if it is not that of a custom property; by the grammar "simplecss", which has no
        `shorthands`, it compares byte by byte. `media`, `specified`, `presentation`, `inherit`, `ua` and
        `any_value` are those of `styles`.
        """
        library.expect_text(name)
        if self._grammar == PORT:
            _expect_none(shorthands=shorthands, ua=ua)
            hints = presentation if specified else None
            found = self._styles_of_port(tree, media, hints, name)
        else:
            hints = _hints_of(specified, presentation)
            query = self._query(tree, media, ua, hints, any_value)
            names = names_setting(name) if shorthands else (name,)
            limit = max(self._answer_limit, library.USUAL_ANSWER_LIMIT)
            every = query.named(names, limit)
            found = [[] if each is None else [each] for each in every]
        if inherit:
            found = inherited(tree, found, inherit, self._answer_limit)
        # What an element has itself is after what it has from its parent.
        return ByElement(tree, (each[-1] if each else None for each in found))

    def explain(
        self,
        element: Element,
        name: str,
        *,
        media: Media = "screen",
        presentation: Presentation = presentation_attributes,
        shorthands: bool = True,
        ua: bool = False,
        any_value: bool = False,
    ) -> Explanation:
        """Explains which declaration of a property wins on an element: returns all that apply to it, the
        strongest first, each with the criterion by which it loses to the one before it (CSS Cascading 5,
        section 6.1), also those of the attribute `style`.

        `shorthands`, `media`, `presentation`, `ua` and `any_value` are those of `style`. The grammar is "modern".

            >>> tree = simplecss.Tree.from_html("<p id=a>")
            >>> sheet = simplecss.StyleSheet("#a { color: red } p { color: blue }")
            >>> found = sheet.explain(tree.select_one("p"), "color")
            >>> [(each.value, each.criterion) for each in found.contenders]
            [('red', None), ('blue', 'specificity')]
        """
        if not isinstance(element, Element):
            raise TypeError(f"an Element is expected, not {type(element).__name__}")
        options = (media, presentation, shorthands, ua, any_value)
        return self._explaining(element.tree, name, *options).explanation(element)

    def _explaining(
        self,
        tree: Tree,
        name: str,
        media: Media,
        presentation: Presentation,
        shorthands: bool,
        ua: bool,
        any_value: bool,
    ) -> Explaining:
        """Returns what explains a property on the elements of a tree."""
        library.expect_text(name)
        if self._grammar == PORT:
            raise ValueError("a sheet of the modern grammar is expected")
        elements, limit = elements_of(tree), self._answer_limit
        values = values_on(tree, any_value)
        winning = self._winning(media, (user_agent_sheet(tree), self) if ua else (self,), values)
        names = names_setting(name) if shorthands else (name,)
        found = elements.asked_last(
            (winning, presentation),
            lambda: self._on_elements(tree, winning, media, presentation, values),
        )
        return Explaining(name, names, winning, self._explained_texts(tree, ua), found, limit)

    def _on_elements(
        self,
        tree: Tree,
        winning: Winning,
        media: Media,
        presentation: Presentation,
        values: Values,
    ) -> OnElements:
        """Returns what elements of a tree have by these rules."""
        elements, limit = elements_of(tree), self._answer_limit
        query = winning.on(elements, Own(tree, presentation, values))
        styles = ResolvedElements(
            elements.parents,
            lambda index: query.winners(limit, range(index, index + 1))[0],
            list(self._registered(media)),
            limit,
        )
        return OnElements(query.own, query, styles)

    def _explained_texts(self, tree: Tree, ua: bool) -> List[Text]:
        """Returns the texts of this sheet, after those of the user agent if they take part."""
        texts: List[Text] = []
        for sheet in (user_agent_sheet(tree), self) if ua else (self,):
            rows = zip(sheet._statements(), sheet._conditions, sheet._origins, sheet._urls)
            for number, (read, conditions, origin, url) in enumerate(rows):
                index = number if sheet is self else None
                texts.append(Text(*read, conditions, index, url, origin))
        return texts


def _expect_none(**words: bool) -> None:
    """Raises `ValueError` for an argument that only the modern grammar has."""
    for word, is_given in words.items():
        if is_given:
            raise ValueError(f"{word} is of the modern grammar")


def _with_name(styles: Iterable[List[Declaration]], name: str) -> List[List[Declaration]]:
    return [[each for each in found if each.name == name] for found in styles]


def _outer_of(
    around: Sequence[Sequence[Condition]], count: int, grammar: str
) -> Tuple[Tuple[Outer, ...], ...]:
    """Returns the group rules that all of each of so many texts is in."""
    if len(around) > count or around and grammar_of(grammar) == PORT:
        raise ValueError("group rules of further texts")
    numbers = itertools.count(1)
    outer = [
        tuple(
            Outer(each, 0 if each.name != LAYER or each.prelude else next(numbers))
            for each in (Condition(*one) for one in conditions)
        )
        for conditions in around
    ]
    return (*outer, *((),) * (count - len(outer)))


def _origins_of(origins: Sequence[str], count: int, grammar: str) -> Tuple[str, ...]:
    """Returns the origin of each of so many texts."""
    if isinstance(origins, str) or len(origins) > count:
        raise ValueError("an origin for each text is expected")
    for each in origins:
        if each not in ORIGINS or grammar == PORT and each != AUTHOR:
            raise ValueError(f"not an origin of a text of this grammar: {each!r}")
    return (*origins, *(AUTHOR,) * (count - len(origins)))


def _hints_of(specified: bool, presentation: Presentation) -> Optional[Presentation]:
    """Returns what makes presentation declarations, if they take part. One that is not the package's own is another
    each time, since it may answer otherwise."""
    if not specified:
        return None
    is_own = presentation is presentation_attributes
    return presentation if is_own else functools.partial(presentation)


def _elements_in(tree: Tree) -> Elements:
    """Returns the elements of what is to be a tree."""
    if not isinstance(tree, Tree):
        raise TypeError(f"a Tree is expected, not {type(tree).__name__}")
    return elements_of(tree)


def sheet_of_texts(
    texts: Iterable[str], *, origins: Sequence[str] = (), grammar: str = MODERN
) -> StyleSheet:
    """Returns the sheet of texts, which may look like names of files."""
    sheet = StyleSheet.__new__(StyleSheet)
    limits = library.USUAL_LIMIT, library.USUAL_ANSWER_LIMIT
    sheet._take(list(texts), origins, (), grammar_of(grammar), *limits)
    return sheet


def usage_of(sheet: StyleSheet) -> Usage:
    """Returns which selectors of a sheet are used, of which none is so far."""
    return sheet._usage()


def explaining_of(
    sheet: StyleSheet, tree: Tree, name: str, media: Media, ua: bool = False
) -> Explaining:
    """Returns what explains a property on elements of a tree, as `explain` of the sheet does."""
    return sheet._explaining(tree, name, media, presentation_attributes, True, ua, False)


def conditions_of(sheet: StyleSheet) -> Set[Condition]:
    """Returns the group rules of a sheet, and those that all of one of its texts is in."""
    found = set(itertools.chain.from_iterable(sheet._conditions))
    for source, _ in sheet._statements():
        edges = Contents(source).rules() if b"@" in source.data else ()
        found.update(each.condition for each in edges if each is not None and each.condition)
    return found


class Won:
    """What wins on the elements of a tree by the rules of a sheet."""

    def __init__(self, sheet: StyleSheet, tree: Tree, own: Own, media: Media) -> None:
        """Takes a sheet, a tree with these declarations of its own, and a device."""
        values = values_on(tree, any_value=False)
        query = sheet._winning(media, (sheet,), values).on(elements_of(tree), own)
        self._query = sheet._compared(tree, media, (sheet,), query)
        self._winning = query.cascade
        self._texts = sheet._explained_texts(tree, False)
        self._limit = sheet._answer_limit

    @property
    def declared(self) -> List[Declaration]:
        """The declarations of the rules."""
        return self._winning.declared

    @property
    def rolls_back(self) -> bool:
        """Whether a declaration of a rule rolls back others."""
        return self._winning.rolls_back

    def winners(self) -> "Iterator[array.array[int]]":
        """Yields for each element where each declaration that wins is, and its place there."""
        return self._query.winning(self._limit)

    def named(self, names: Iterable[str]) -> Iterator[Tuple[int, int]]:
        """Returns the same of the one that wins of those with these names, if one does."""
        return self._query.named_at(names, max(self._limit, library.USUAL_ANSWER_LIMIT))

    def at(self, index: int, source: int, place: int) -> Optional[Declaration]:
        """Returns the declaration of an element there, which has a place if it is in a rule, or `None`."""
        found = self._query.at(index, source, place)
        if found is None or source >= len(self._winning.rules):
            return found
        rule = self._winning.rules[source]
        text = self._texts[rule.sheet]
        span = rule.declarations.span(place)
        return placed(found, At(text.source, text.number, text.url, *span))


def text_of(sheet: StyleSheet) -> str:
    """Returns the text of a sheet, of which `read_sheet` returns what the sheet has read."""
    return sheet._text()


class _Placed(NamedTuple):
    """A rule that the library places: where its declarations are, where its block is, and the text of its
    selector, with its pseudo-element."""

    place: Place
    block: Place
    text: str
    rule: Rule


class _Part(NamedTuple):
    """A piece of a text as it is printed: the group rules that it is in, the text, and its statements."""

    outer: Tuple[Outer, ...]
    source: Source
    statements: List[Statement]

    def without(self, spans: Container[Span]) -> "Tuple[_Part, List[Statement]]":
        """Returns the piece without the statements at these places, and those of them that are in no group
        rule of a whole text."""
        taken = [each for each in self.statements if each.span in spans]
        kept = [each for each in self.statements if each.span not in spans]
        return self._replace(statements=kept), [] if self.outer else taken

    def parted(self) -> "Tuple[_Part, _Part]":
        """Returns what may be before an `@import`, and the rest."""
        front = list(itertools.takewhile(_may_be_first, self.statements))
        rest = self.statements[len(front) :]
        return self._replace(statements=front), self._replace(statements=rest)


def _may_be_first(statement: Statement) -> bool:
    """Whether an `@import` counts after a statement that counts itself."""
    if not isinstance(statement, ReadAtRule) or statement.levels:
        return False
    return statement.rule.name in _FIRST and statement.rule.block is None


def _declares_namespaces(statements: Iterable[Statement]) -> bool:
    """Whether a sheet may declare namespaces."""
    return any(
        isinstance(each, ReadAtRule) and each.rule.name == "namespace" for each in statements
    )


class _Selectors:
    """The selectors of the rules that apply, but for those that the library places."""

    def __init__(self, contents: _Contents, media: Media) -> None:
        rules = contents.rules
        nested = set(itertools.chain.from_iterable(contents.nested.values()))
        groups: Dict[Tuple[Condition, ...], bool] = {(): True}
        apply = functools.lru_cache(maxsize=None)(functools.partial(holds, media=media))
        indices = []
        for index, rule in enumerate(rules):
            if index in nested:
                continue
            if rule.conditions not in groups:
                groups[rule.conditions] = all(map(apply, rule.conditions))
            if groups[rule.conditions] and rule.pseudo_element is None:
                indices.append(index)
        self.texts = SelectorTexts(rules[index].selector for index in indices)
        self.rules = Numbers(indices)


def _said(rules: Iterable[Union[Rule, Unsupported, AtRule]]) -> "collections.Counter[object]":
    """Returns what rules say, apart from their order and specificity. One without declarations says
    nothing."""
    return collections.Counter(
        each._replace(specificity=(0, 0, 0)) if isinstance(each, Rule) else each
        for each in rules
        if isinstance(each, AtRule) or each.declarations
    )


def _rules_of_port(lines: Lines) -> Iterator[Rule]:
    """Yields the rules that the library writes by the grammar "simplecss"."""
    while lines.are_left():
        ids, others, types, length, count = lines.numbers()
        selector = lines.text(length)
        lines.end_line()
        declared = tuple([_declaration_of_port(lines) for _ in range(count)])
        yield Rule(selector, (ids, others, types), declared)


def _declaration_of_port(lines: Lines) -> Declaration:
    """Returns the next declaration that the library writes."""
    name_length, length, is_important = lines.numbers()
    name = lines.text(name_length)
    value = lines.text(length)
    lines.end_line()
    return Declaration(name, value, is_important == 1)


def _rules_of(
    sets: Iterable[Tuple[Place, RuleSet, bool, Tuple[Condition, ...]]],
    supported: Container[Tuple[Place, str]],
    at: Callable[[int, Span], At],
) -> Tuple[List[Tuple[Place, Rule]], List[Tuple[Place, Unsupported]]]:
    """Returns the rules of rule sets, of those that have them, and the unsupported ones of all, but for
    those of these places with these selectors, and where each is. Each rule set is with the conditions
    of its whole text."""
    rules: List[Tuple[Place, Rule]] = []
    unsupported: List[Tuple[Place, Unsupported]] = []
    for place, found, has_rules, outer in sets:
        conditions = outer + found.conditions
        declarations = tuple(
            placed(Declaration(*each.declaration), at(place[0], each.span))
            for each in found.items
            if isinstance(each, ReadDeclaration)
        )
        for each in found.selectors:
            whole = at(place[0], (each.span[0], found.span[1]))
            if each.specificity is None:
                if (place, each.text) not in supported:
                    other = Unsupported(each.text, declarations, conditions)
                    unsupported.append((place, placed(other, whole)))
                continue
            if has_rules:
                element = each.pseudo_element
                rule = Rule(each.front, each.specificity, declarations, conditions, element)
                rules.append((place, placed(rule, whole)))
    return rules, unsupported


def _nested_rule(
    found: PlacedRule,
    text: str,
    block: Block,
    outer: Tuple[Condition, ...],
    declarations: Tuple[Declaration, ...],
) -> Rule:
    """Returns a rule in this block, whose selector has this text, with these declarations."""
    element = None
    if found.element_length:
        data = library.encode(text)
        element = data[len(data) - found.element_length :].decode("utf-8")
        text = before_element(text, len(text) - len(element))
    return Rule(
        text,
        found.specificity,
        declarations,
        outer + block.conditions,
        element,
        block.parents,
    )


def _at_rules_of(statement: Statement) -> Iterator[ReadAtRule]:
    """Yields the at-rule that a statement is, or those of its block."""
    if isinstance(statement, ReadAtRule):
        yield statement
    elif isinstance(statement, RuleSet) and not statement.items.are_whole:
        for each in statement.items:
            if isinstance(each, ReadAtRule) and not _is_group(each.rule):
                yield each


def _is_group(rule: AtRule) -> bool:
    """Whether an at-rule in a style rule is a group rule, whose rules are read."""
    return rule.block is not None and (rule.name in GROUPS or rule.name == LAYER)


def faults_of(statements: Iterable[Statement]) -> Iterator[Fault]:
    """Yields what is skipped of statements and in the blocks of rule sets, in order."""
    for statement in statements:
        if isinstance(statement, Fault):
            yield statement
        elif isinstance(statement, RuleSet) and not statement.items.are_whole:
            yield from (each for each in statement.items if isinstance(each, Fault))


def _text_of(source: Source, statement: Statement) -> str:
    """Returns the printed text of a statement."""
    if not isinstance(statement, RuleSet):
        return _at_rule_text(statement) if isinstance(statement, ReadAtRule) else ""
    last = len(statement.items) - 1
    words = "".join(
        _item_text(source, item, statement.is_closed or at < last)
        for at, item in enumerate(statement.items)
    )
    selectors = ", ".join(each.text for each in statement.selectors)
    return f"{selectors} {{ {words} }}" if words else f"{selectors} {{ }}"


def _item_text(source: Source, item: BlockItem, is_closed: bool) -> str:
    """Returns the printed text of an item of a block, with a rule in it as it is written."""
    if isinstance(item, ReadAtRule):
        return _at_rule_text(item)
    if isinstance(item, Fault):
        text = source.at(item.span) if item.reason == NESTED else ""
        return text if is_closed else ended(text) or ""
    name, value, important = item.declaration
    return f"{name}:{value}{' !important' if important else ''};"


def _at_rule_text(found: ReadAtRule) -> str:
    """Returns the printed text of an at-rule, which is left out if nothing closes it."""
    text = str(found.rule)
    if found.rule.block is None:
        return f"{ended(text[:-1]) or text[:-1]};"
    if found.is_closed:
        return text
    closed = ended(text[:-2].rstrip(BLANKS))
    return "" if closed is None else f"{closed[:-1]} }}"


def _lines_of(source: Source, statements: Iterable[Statement]) -> Iterator[str]:
    """Yields the printed lines of statements, which open and close their group rules."""
    before: Tuple[Level, ...] = ()
    for statement in statements:
        text = _text_of(source, statement)
        if text:
            pairs = zip(before, statement.levels)
            # Where two group rules begin, they are two.
            shared = sum(
                1 for _ in itertools.takewhile(lambda pair: pair[0].span == pair[1].span, pairs)
            )
            yield from _closed(len(before), shared)
            for depth, level in enumerate(statement.levels[shared:], shared):
                yield f"{'  ' * depth}{level.condition} {{"
            yield "  " * len(statement.levels) + text
            before = statement.levels
    yield from _closed(len(before), 0)


def _closed(depth: int, kept: int) -> Iterator[str]:
    """Yields the braces that close group rules down to a depth."""
    return ("  " * level + "}" for level in range(depth - 1, kept - 1, -1))


def _sheet_of(
    texts: Tuple[str, ...],
    origins: Tuple[str, ...],
    page: Tuple[Any, ...],
    grammar: str,
    limit: int,
    answer_limit: int,
) -> StyleSheet:
    sheet = sheet_of_texts(texts, origins=origins, grammar=grammar)
    sheet._limit, sheet._answer_limit = limit, answer_limit
    sheet._is_within_limit = False
    return sheet._of_page(*page)
