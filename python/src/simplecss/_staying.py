"""Rules that stay in a sheet: which elements they may match, and where `!important` may be put."""

from __future__ import annotations

import functools
from typing import (
    Callable,
    Dict,
    Iterable,
    Iterator,
    List,
    NamedTuple,
    Optional,
    Sequence,
    Set,
    Tuple,
)

from ._declaration import Declaration
from ._families import EVERYTHING, family_of, without_prefix
from ._found_names import pseudo_names
from ._flat import flattened
from ._nested import has_rules
from ._order import EVERY, LAYER, Layers, Ordered, count_layers, layers_of
from ._reading import (
    BlockItem,
    Fault,
    Items,
    Level,
    ReadAtRule,
    ReadDeclaration,
    ReadSelector,
    RuleSet,
    Source,
    Span,
    Statement,
    declarations_in,
    read_block,
    read_sheet,
)
from ._selectors import SelectorError, listed
from ._tokens import is_escaping
from ._traits import traits_of
from ._values import has_ident

# What matches any element, as a pseudo-class.
_ANY = ":is(*)"
# How long a text is of which nothing is kept.
_LONG = 200
# What goes back to other declarations.
_BACK = frozenset(("revert", "revert-layer"))
# How deep at-rules are looked into.
_DEEPEST = 16
# What a rule may say that is not looked into.
_ANYTHING = [Declaration("all", "", False), Declaration("all", "", True)]
# What makes an at-rule of a rule, whose block the library reads whatever is before it.
_AS_AT_RULE = "@x "


# Where `!important` is put, by the number of the statement in whose text it is.
Marks = Dict[int, Set[int]]


class Block:
    """A block that stays: its declarations by family, and where they end, if they can be made important
    there."""

    def __init__(self, declared: Sequence[Declaration]) -> None:
        self._declared = declared

    @functools.cached_property
    def declared(self) -> Sequence[Declaration]:
        """The declarations."""
        return self._find_declared()

    def _find_declared(self) -> Sequence[Declaration]:
        return self._declared

    @functools.cached_property
    def families(self) -> Dict[str, List[Declaration]]:
        """The declarations by family."""
        found: Dict[str, List[Declaration]] = {}
        for each in self.declared:
            found.setdefault(family_of(each.name), []).append(each)
        return found

    def has_plain(self, family: str) -> bool:
        """Whether something of a family, or all, is not important."""
        declared = (*self.families.get(family, ()), *self.families.get(EVERYTHING, ()))
        return not all(each.important for each in declared)

    def can_mark(self, family: str) -> bool:
        """Whether all of the family can be made important."""
        declared = self.families.get(family, ())
        if EVERYTHING in self.families or any(each.important for each in declared):
            return False
        # What goes back to other declarations goes back to others if it is important.
        is_back = any(has_ident(each.value, _BACK) for each in declared)
        return not is_back and self._has_ends(family)

    def _has_ends(self, family: str) -> bool:
        return False

    def mark(self, family: str, marks: Marks) -> None:
        """Notes that all of the family is important."""


class SetBlock(Block):
    """The block of a rule set that stays. What it has is found when it is asked for: of most nobody
    does."""

    def __init__(
        self,
        items: Sequence[BlockItem],
        source: Source,
        owner: Optional[int],
        offset: int = 0,
    ) -> None:
        """Takes what it has, and the number of the statement that may be marked, in whose text the
        source begins at an offset."""
        super().__init__(())
        self._items = items
        self._source = source
        self._owner = owner
        self._offset = offset

    def _find_declared(self) -> Sequence[Declaration]:
        return ended_in(self._items, self._source)

    @functools.cached_property
    def _ends(self) -> Dict[str, List[int]]:
        return ends_of(self._items, self._source, self._offset)

    def _has_ends(self, family: str) -> bool:
        return self._owner is not None and family in self._ends

    def mark(self, family: str, marks: Marks) -> None:
        """Notes that all of the family is important."""
        if self._owner is not None:
            marks.setdefault(self._owner, set()).update(self._ends[family])


class LeftBlock(Block):
    """What is left of a rule set that is written else."""

    def __init__(self, declared: Sequence[Declaration], marked: Set[str]) -> None:
        """Takes the declarations that are left, and the families of these that are important."""
        super().__init__(declared)
        self._marked = marked

    def _has_ends(self, family: str) -> bool:
        return True

    def mark(self, family: str, marks: Marks) -> None:
        """Notes that all of the family is important."""
        self._marked.add(family)


class StayingRule(NamedTuple):
    """A rule that stays: a selector that matches all that its own does, or `*`; what says its place
    in the cascade; and the block that all rules of a rule set have.
    """

    selector: str
    ordered: Ordered
    number: int
    # Whether it is in a layer of which the place is not known.
    is_layered: bool
    # Whether it matches in every state of the page.
    is_definite: bool
    block: Block


class Place(NamedTuple):
    """Where statements that stay are: the number of the one that they are in, whether `!important`
    may be put there, what is animated, whether the places of layers are known, which layers they
    are in, and how deep in at-rules they are, whose text begins at an offset."""

    number: int
    may_mark: bool
    animated: Set[str]
    knows_layers: bool = False
    layers: Layers = ()
    is_layered: bool = False
    level: int = 0
    offset: int = 0

    def within(self, source: Source, levels: Tuple[Level, ...]) -> "Place":
        """Returns the place of a statement that is in group rules."""
        if self.knows_layers:
            return self._replace(layers=layers_of(source, levels) or self.layers)
        has_layer = any(each.condition.name == LAYER for each in levels)
        return self._replace(is_layered=self.is_layered or has_layer)

    def of_any(self, declared: List[Declaration]) -> "StayingRule":
        """Returns a rule that may say these declarations of any element."""
        ordered, block = Ordered(self.layers, EVERY, False), Block(declared)
        return StayingRule(EVERY, ordered, self.number, self.is_layered, False, block)


def marked(source: Source, span: Span, marks: Iterable[int]) -> str:
    """Returns the text of a sheet between offsets, with `!important` at others."""
    start, end = span
    parts: List[str] = []
    for mark in sorted(mark for mark in marks if start <= mark <= end):
        parts.append(source.at((start, mark)) + " !important")
        start = mark
    return "".join(parts) + source.at((start, end))


def ends_of(items: Iterable[BlockItem], source: Source, offset: int = 0) -> Dict[str, List[int]]:
    """Returns where declarations end, by family, but for families of which one is not closed."""
    found: Dict[str, List[int]] = {}
    is_open: Set[str] = set()
    for each in items:
        if isinstance(each, ReadDeclaration):
            family = family_of(each.declaration.name)
            if not each.is_closed or source.data.endswith(b"\\", 0, each.end):
                is_open.add(family)
            found.setdefault(family, []).append(offset + each.end)
    return {family: ends for family, ends in found.items() if family not in is_open}


def ended(found: ReadDeclaration, source: Source) -> Declaration:
    """Returns a declaration after which others may be written: no backslash at the end of its value
    takes them in."""
    declaration = found.declaration
    value = declaration.value
    if not is_escaping(value):
        return declaration
    # The end of the text makes it an escape of U+FFFD; a newline, which is all else that ends a
    # value after it, none.
    is_last = source.data[found.span[1] - 1 :] == b"\\"
    return declaration._replace(value=value + ("\ufffd" if is_last else "\n"))


def ended_in(items: Iterable[BlockItem], source: Source) -> Tuple[Declaration, ...]:
    """Returns the declarations of a block, after which others may be written."""
    found = (each for each in items if isinstance(each, ReadDeclaration))
    return tuple([ended(each, source) for each in found])


def has_declarations(items: Sequence[BlockItem]) -> bool:
    """Whether a block has declarations."""
    if isinstance(items, Items) and items.are_whole:
        return len(items) > 0
    return any(isinstance(each, ReadDeclaration) for each in items)


def _block_of(text: str) -> Optional[str]:
    """Returns the block of a rule that the library skips, or `None` if it has other text, too."""
    items = read_block(_AS_AT_RULE + text)[1]
    is_alone = len(items) == 1 and isinstance(items[0], ReadAtRule)
    return items[0].rule.block if is_alone and isinstance(items[0], ReadAtRule) else None


def _within(text: str) -> Tuple[Source, Sequence[BlockItem]]:
    """Returns what the block of a rule has."""
    source, statements = read_sheet(EVERY + "{" + text)
    sets = [each for each in statements if isinstance(each, RuleSet)]
    return source, sets[0].items if sets else ()


def _declared_within(
    items: Iterable[BlockItem], source: Source, level: int = 0
) -> Optional[List[Declaration]]:
    """Returns the declarations of the rules that a block has, or `None` if that is not clear."""
    found: List[Declaration] = []
    for each in items:
        if isinstance(each, ReadDeclaration) or not has_rules((each,)):
            continue
        block = each.rule.block if isinstance(each, ReadAtRule) else _block_of(source.at(each.span))
        if block is None or level > _DEEPEST:
            return None
        inner, inside = _within(block)
        within = _declared_within(inside, inner, level + 1)
        if within is None:
            return None
        found += [*declarations_in(inside), *within]
    return found


def _wider(selector: ReadSelector) -> str:
    """Returns a selector that matches all that a selector does in some state of the page, and that
    the library reads."""
    is_supported = selector.specificity is not None
    if is_supported and not traits_of(selector.text).has_state:
        return selector.text
    if len(selector.text) < _LONG:
        return _wider_of_short(selector.text, is_supported)
    return _wider_of(selector.text, is_supported)


def _wider_of(text: str, is_supported: bool) -> str:
    pieces, at = [], 0
    for name in pseudo_names(text):
        if name.depth == 0:
            whole = text[name.start : name.after]
            is_kept = is_supported and not traits_of(whole).has_state
            pieces += [text[at : name.start], whole if is_kept else _ANY]
            at = name.after
    found = "".join([*pieces, text[at:]])
    is_read = _is_short_selector(found) if len(found) < _LONG else _is_selector(found)
    return found if is_read else EVERY


# Many rules have the same selectors.
_wider_of_short = functools.lru_cache(maxsize=4096)(_wider_of)


def _is_selector(text: str) -> bool:
    """Whether a text is one selector that the library reads."""
    try:
        return len(listed(text)) == 1
    except SelectorError:
        return False


# Many rules differ in states only.
_is_short_selector = functools.lru_cache(maxsize=1024)(_is_selector)


def rules_of(
    source: Source, statements: Iterable[Statement], place: Place
) -> Iterator[StayingRule]:
    """Yields the rules of statements that stay, also those within at-rules."""
    for found in statements:
        inner = place.within(source, found.levels)
        if isinstance(found, RuleSet):
            yield from _rules_of_set(source, found, inner)
        elif isinstance(found, ReadAtRule) and found.rule.block is not None:
            yield from _rules_in(found, found.rule.block, inner)


def _rules_of_set(source: Source, found: RuleSet, place: Place) -> Iterator[StayingRule]:
    """Yields the rules of a rule set."""
    within = [] if found.items.are_whole else _declared_within(found.items, source)
    if within is None:
        yield place.of_any([*found.declarations, *_ANYTHING])
        return
    owner = place.number if place.may_mark and not has_rules(found.items) else None
    block = SetBlock(found.items, source, owner, place.offset)
    yield from rules_with(found.selectors, place, block)
    if within:
        # Which elements the rules within it match is not looked at.
        yield place.of_any(within)
        if count_layers(source.at(found.span)):
            # Some of them may be in a layer.
            yield place._replace(is_layered=True).of_any(within)


def _rules_in(found: ReadAtRule, text: str, place: Place) -> Iterator[StayingRule]:
    """Yields the rules in the block of an at-rule."""
    source, read = read_sheet(text)
    statements = flattened(source, read)
    if without_prefix(found.rule.name) == "keyframes":
        # What is animated is above all that is not important, and below all that is.
        for each in statements:
            place.animated.update(_framed(source, each))
    elif place.level > _DEEPEST:
        yield place.of_any(_ANYTHING)
    else:
        level, offset = place.level + 1, place.offset + found.inner[0]
        yield from rules_of(source, statements, place._replace(level=level, offset=offset))


def _framed(source: Source, found: Statement) -> Iterator[str]:
    """Yields the families that a keyframe sets, or that of all if that is not clear. Most are not
    read, as `50%` is no selector."""
    if isinstance(found, RuleSet):
        items: Iterable[BlockItem] = found.items
    elif isinstance(found, Fault):
        block = _block_of(source.at(found.span))
        if block is None:
            yield EVERYTHING
            return
        items = read_block(block)[1]
    else:
        return
    yield from (family_of(each.name) for each in declarations_in(items))


def rules_with(
    selectors: Iterable[ReadSelector], place: Place, block: Block
) -> Iterator[StayingRule]:
    """Yields a rule for each of these selectors of a rule set that stay."""
    for each in selectors:
        # What a pseudo-element has is of another box.
        if each.pseudo_element is None:
            wider = _wider(each)
            ordered = Ordered(place.layers, each.text, each.specificity is not None)
            is_definite = wider == each.text
            yield StayingRule(wider, ordered, place.number, place.is_layered, is_definite, block)
