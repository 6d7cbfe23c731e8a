"""Sheets with those that they import, put in place of the `@import`s where nothing is changed by
that."""

from __future__ import annotations

import functools
import itertools
from typing import Dict, Iterable, Iterator, List, NamedTuple, Optional, Set, Tuple, Union

from ._flat import flattened
from ._linked import Import, Shelf, imported, imports_in, in_force
from ._nested import has_rules
from ._order import (
    LAYER,
    Layers,
    count_layers,
    is_ended,
    own_layers,
    without_wrong_layers,
)
from ._reading import (
    Condition,
    Fault,
    Level,
    ReadAtRule,
    RuleSet,
    Source,
    Span,
    Statement,
    ended,
    read_sheet,
)
from ._staying import Place, StayingRule, rules_of
from ._tokens import is_escaping, tokens, without_gaps
from ._urls import rebased

# What it means that a sheet was not read.
LOSES = "its rules lose to what is written into attributes"

Placed = Tuple[Source, Statement]


class ReadSheet:
    """What is read of a sheet and of those that it imports: the statements, each with what it is
    in; why those of its own that are `@import`s stay; and the sheets that these import.
    """

    def __init__(self) -> None:
        self.placed: List[Placed] = []
        self.reasons: Dict[Tuple[Source, Span], str] = {}
        self.staying: List[Tuple["ReadSheet", bool]] = []
        # Whether it imports others, and whether one of these imports the sheet that is not imported.
        self.has_imports = False
        self.returns = False
        # The same, where no import in a layer has its sheet put in its place.
        self.unlayered: ReadSheet = self

    def taken(self, knows_layers: bool) -> "ReadSheet":
        """Returns what is taken of it if the order of all layers of a page is known, or not."""
        return self if knows_layers else self.unlayered

    @functools.cached_property
    def knows_layers(self) -> Optional[bool]:
        """Whether the order of its layers is known, whatever holds; `None` if it has none."""
        every = sum(map(count_layers, self._texts_with_layers()))
        inner = [each.knows_layers is not None or has_layer for each, has_layer in self.staying]
        if every or self._imported or any(inner):
            return every == len(self._preludes) and not self.reasons
        return None

    @functools.cached_property
    def layer_count(self) -> int:
        """How many layers it has at most."""
        every = (*self._preludes, *(level.condition.prelude for _, level in self._imported))
        kinds = ([each.kind for each in without_gaps(prelude)] for prelude in every)
        return sum(max(1, each.count("ident")) for each in kinds)

    @functools.cached_property
    def _imported(self) -> Set[Tuple[Source, Level]]:
        """The layers of imports whose sheets are put in place of these."""
        sources = {source for source, _ in self.placed}
        return {layer for source in sources for layer in source.around}

    @functools.cached_property
    def _preludes(self) -> List[str]:
        """The preludes of its layers that are in nothing but layers, and of what says their order."""
        groups: Dict[Tuple[Source, Span], str] = {}
        for source, statement in self.placed:
            layers = own_layers(source, statement.levels)
            groups.update(((source, each.span), each.condition.prelude) for _, each in layers)
            if len(layers) == len(statement.levels) and _is_order(statement):
                assert isinstance(statement, ReadAtRule)
                groups[source, statement.span] = statement.rule.prelude
        return list(groups.values())

    def _texts_with_layers(self) -> Iterator[str]:
        """Yields the texts in which layers may be: of group rules and at-rules, and of rules with
        rules in them."""
        seen: Set[Tuple[Source, Span]] = set()
        for source, statement in self.placed:
            span = statement.levels[0].span if statement.levels else statement.span
            is_plain = isinstance(statement, RuleSet) and not has_rules(statement.items)
            if (statement.levels or not is_plain) and (source, span) not in seen:
                seen.add((source, span))
                yield source.at(span)

    def may_move(self) -> bool:
        """Whether it may be put in place of what imports it: it has nothing that must be at the
        front, and nothing at its end takes in what follows."""
        if self.placed and not _may_be_followed(*self.placed[-1]):
            return False
        return not self.reasons and not any(
            isinstance(each, ReadAtRule) and each.rule.name == "namespace"
            for _, each in self.placed
        )

    @functools.cached_property
    def may_be_in_layer(self) -> bool:
        """Whether it says the same in the block of a layer: nothing ends the block there, or a
        statement of it."""
        fronts = {(source, _front_of(each)) for source, each in self.placed}
        texts = (source.at(front) for source, front in fronts if front is not None)
        return all(map(_is_balanced, texts))

    def rules(
        self, number: int, animated: Set[str], is_layered: bool = False
    ) -> Iterator[StayingRule]:
        """Yields the rules of all, as those that stay unmarked, and adds what is animated."""
        for each, has_layer in self.staying:
            yield from each.rules(number, animated, is_layered or has_layer)
        for source, statement in self.placed:
            place = Place(number, False, animated, is_layered=is_layered)
            yield from rules_of(source, [statement], place)


def _is_order(statement: Statement) -> bool:
    """Whether a statement only says the order of layers."""
    if not isinstance(statement, ReadAtRule) or statement.rule.name != LAYER:
        return False
    is_whole = statement.is_closed or statement.rule.block is None
    prelude = statement.rule.prelude
    return is_whole and not is_escaping(prelude) and is_ended(prelude)


def _may_be_followed(source: Source, statement: Statement) -> bool:
    """Whether the last statement of a sheet is closed, or can be."""
    span = statement.levels[0].span if statement.levels else statement.span
    if span[1] < len(source.data):
        return True
    # What is skipped is written only if a bracket closes it.
    if not statement.levels and (isinstance(statement, Fault) or _is_block_closed(statement)):
        return True
    return ended(f"({source.at(span)}") is not None


def _is_block_closed(statement: Union[RuleSet, ReadAtRule]) -> bool:
    """Whether a statement has a block, and a bracket that closes it."""
    has_block = isinstance(statement, RuleSet) or statement.rule.block is not None
    return has_block and statement.is_closed


def _front_of(statement: Statement) -> Optional[Span]:
    """Returns where that of a statement is in which a stray bracket may be."""
    if statement.levels:
        return statement.levels[0].head
    if isinstance(statement, RuleSet):
        return None
    if isinstance(statement, ReadAtRule) and statement.rule.block is not None:
        return statement.span[0], statement.inner[0] - 1
    return statement.span


def _is_balanced(text: str) -> bool:
    """Whether a text has no stray bracket, and no semicolon before what it ends with."""
    if ended(f"({text}") is None:
        return False
    front = itertools.takewhile(lambda each: each != "{", (each.text for each in tokens(text)))
    return ";" not in list(front)[:-1]


class SheetReader:
    """Reads the sheets of a page, with those that they import."""

    def __init__(self, shelf: Shelf, base_url: Optional[str]) -> None:
        self.shelf = shelf
        self._base_url = base_url
        # All sheets that were read.
        self.texts: List[str] = []

    def _based(self, css: str) -> str:
        """Returns a sheet with its urls taken from the base."""
        return css if self._base_url is None else rebased(css, self._base_url)

    def read(
        self, css: str, url: Optional[str], above: Tuple[str, ...] = (), around: Layers = ()
    ) -> ReadSheet:
        """Reads a sheet, which is at a url if it is not in the page itself, and all in some layers."""
        self.texts.append(css)
        above = (*above, self.shelf.name_of(url or ""))
        moved = self._based(css if url is None else rebased(css, url, self.shelf.room))
        moved = without_wrong_layers(moved)
        source, statements = read_sheet(moved)
        source.around = around
        rules = imports_in(moved)
        # The urls of what it imports are those that it has.
        pairs = zip(rules, imports_in(css) if rules else ())
        inner = {
            rule.span: self._import(one, url, above, _layers_in(source, rule))
            for rule, one in pairs
        }
        every = flattened(source, in_force(statements, rules))
        found = _put_together(source, every, inner, True)
        if any(each.has_layers() for each in inner.values()):
            found.unlayered = _put_together(source, every, inner, False)
        return found

    def _import(
        self, rule: Import, url: Optional[str], above: Tuple[str, ...], around: Layers
    ) -> "_InnerSheet":
        """Returns what an `@import` imports, which would be in these layers in its place."""
        found = imported(rule, url, self.shelf, above)
        if found is None:
            why = self.shelf.unread.pop().reason
            return _InnerSheet(rule, None, f"{why}: {LOSES}")
        read = self.read(found.css, found.url, above, around)
        read.returns = read.returns or self.shelf.name_of(found.url) == above[0]
        if rule.layer and all(isinstance(each, Fault) for _, each in read.placed):
            # Nothing else says that there is this layer.
            source, order = read_sheet(f"{around[-1][1].condition};")
            source.around = around[:-1]
            read.placed = [(source, each) for each in order]
        return _InnerSheet(rule, read, "an at-rule")


def _layers_in(source: Source, rule: Import) -> Layers:
    """Returns the layers that a sheet is in that an `@import` of another one brings."""
    if rule.layer is None:
        return source.around
    name = "".join(each.text for each in without_gaps(rule.layer))
    return (*source.around, (source, Level(Condition(LAYER, name), rule.span, rule.span)))


class _InnerSheet(NamedTuple):
    """What an `@import` imports, if it was read, and why the rule stays if it does."""

    rule: Import
    read: Optional[ReadSheet]
    reason: str

    @property
    def has_layer(self) -> bool:
        """Whether it is in a layer."""
        return self.rule.layer is not None

    def has_layers(self) -> bool:
        """Whether it is in a layer, or imports what is."""
        return self.has_layer or self.read is not None and self.read.unlayered is not self.read

    def moving(self, moves_layers: bool) -> Optional[ReadSheet]:
        """Returns what may be put in place of the rule: of one in a layer only if these move."""
        if self.read is None or self.rule.conditions():
            return None
        # A name that takes in what follows it is one at the end of the text only.
        if self.has_layer and (not moves_layers or is_escaping(self.rule.layer or "")):
            return None
        found = self.read.taken(moves_layers)
        if self.has_layer and not found.may_be_in_layer:
            return None
        return found if found.may_move() else None


def _put_together(
    source: Source,
    statements: Iterable[Statement],
    inner: Dict[Span, _InnerSheet],
    moves_layers: bool,
) -> ReadSheet:
    """Returns what is read of a sheet that has these statements and imports."""
    found = ReadSheet()
    found.has_imports = bool(inner)
    found.returns = any(each.read is not None and each.read.returns for each in inner.values())
    moving: Dict[Span, ReadSheet] = {}
    # What is before one that stays does, too.
    is_last = True
    for span, each in reversed(list(inner.items())):
        read = each.moving(moves_layers) if is_last else None
        if read is not None:
            moving[span] = read
            continue
        is_last = False
        found.reasons[source, span] = each.reason
        if each.read is not None:
            found.staying.append((each.read.unlayered, each.has_layer))
    found.staying.reverse()
    for statement in statements:
        if statement.span in moving and isinstance(statement, ReadAtRule):
            found.placed += moving[statement.span].placed
        else:
            found.placed.append((source, statement))
    return found
