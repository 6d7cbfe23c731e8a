"""Style rules with rules in them, as rule sets that have declarations only.

What `&` stands for is written as `:is()` of the selectors around (CSS Nesting 1, section 3.1).
"""

from __future__ import annotations

import functools
import itertools
from typing import Iterable, Iterator, List, NamedTuple, Optional, Sequence, Tuple, Union

from . import _library as library
from ._found_names import find_names
from ._nested import DEEPEST, has_rules
from ._order import LAYER
from ._reading import (
    STYLE,
    BlockItem,
    Condition,
    Contents,
    InnerRule,
    Level,
    MadeItems,
    ReadAtRule,
    ReadDeclaration,
    ReadSelector,
    RuleSet,
    Source,
    Span,
    Statement,
    read_sheet,
)
from ._tokens import COMBINATORS, GAPS, Token, is_escaping, parts_of
from ._traits import traits_of

# How long the selectors of a rule may be, and how many times as long as a style rule those of all
# rules in it.
_LONGEST, _MOST = 4000, 16
# How many selectors are written one by one.
_FEW = 16
# The group rules that may be in style rules, and the at-rule in which the library reads nothing.
_GROUPS = frozenset("container layer media starting-style supports".split())
_STARTING = "starting-style"
_NESTING = "&"
# What may follow the selector that `&` stands for and is no part of its last name.
_APART = frozenset((".", ":", "["))
_IDS = frozenset(("hash", "id"))


class _Unclear(Exception):
    """A rule cannot be written without rules in it."""


class _Within(NamedTuple):
    """Where declarations are: the selectors of their style rule, what is before its block, and the
    rules around."""

    selectors: Tuple[ReadSelector, ...]
    head: Span
    levels: Tuple[Level, ...]


def flattened(source: Source, statements: Iterable[Statement]) -> List[Statement]:
    """Returns statements, and for each style rule with rules in it rule sets that say the same,
    with the style rules around as levels; or the rule itself if that is not clear, or if a browser may
    drop one of the lists of selectors."""
    found: List[Statement] = []
    for statement, sets in flat_sets(source, statements):
        found += sets if sets else (statement,)
    return found


def flat_sets(
    source: Source, statements: Iterable[Statement]
) -> Iterator[Tuple[Statement, Optional[List[RuleSet]]]]:
    """Yields statements, each with the rule sets that say the same if it is a style rule with rules in it, and
    with `None` if that is not clear, or if a browser may drop one of the lists of selectors."""
    flat = _Sheet(source)
    parts = [(each, flat.sets_of(each)) for each in statements]
    find_names(one.text for _, sets in parts for each in sets or () for one in each.selectors)
    for statement, sets in parts:
        every = (one.text for each in sets or () for one in each.selectors)
        yield statement, sets if all(traits_of(each).is_known for each in every) else None


class _Sheet:
    """A sheet that has style rules with rules in them."""

    def __init__(self, source: Source) -> None:
        self._source = source

    @functools.cached_property
    def _contents(self) -> Contents:
        return Contents(self._source)

    def sets_of(self, statement: Statement) -> Optional[List[RuleSet]]:
        """Returns the rule sets that a style rule with rules in it is, if that is clear, and none of what has no
        rules in it."""
        if not isinstance(statement, RuleSet) or not has_rules(statement.items):
            return []
        if not statement.is_closed:
            return None
        try:
            return _Flat(self._source, self._contents, statement).sets()
        except (_Unclear, library.LimitError):
            return None


class _Flat:
    """A style rule with rules in it."""

    def __init__(self, source: Source, contents: Contents, rule: RuleSet) -> None:
        self._source = source
        self._contents = contents
        self._rule = rule
        # How long the selectors may yet be.
        self._room = library.Room(_LONGEST + _MOST * (rule.span[1] - rule.span[0]))

    def sets(self) -> List[RuleSet]:
        """Returns its rule sets."""
        rule = self._rule
        level = Level(Condition(STYLE, self._source.at(rule.head)), rule.span, rule.head)
        within = _Within(tuple(rule.selectors), rule.head, (*rule.levels, level))
        return list(self._sets_in(within, self._contents.of_rule(rule.span[0]), 0))

    def _sets_in(
        self, within: _Within, items: Iterable[Union[BlockItem, InnerRule]], depth: int
    ) -> Iterator[RuleSet]:
        """Yields the rule sets of a block."""
        run: List[ReadDeclaration] = []
        for item in items:
            if isinstance(item, ReadDeclaration):
                run.append(item)
            elif isinstance(item, InnerRule) or has_rules((item,)):
                yield from self._set_of(within, run)
                run = []
                yield from self._sets_of(within, item, depth)
        yield from self._set_of(within, run)

    def _set_of(self, within: _Within, run: Sequence[ReadDeclaration]) -> Iterator[RuleSet]:
        """Yields the rule set of declarations that stand one after another, if there are any."""
        if run:
            span = run[0].span[0], run[-1].span[1]
            # No brace would close what is written of them.
            if is_escaping(self._source.at(span)):
                raise _Unclear
            items = MadeItems(run)
            yield RuleSet(within.selectors, items, within.levels, within.head, True, span, True)

    def _sets_of(
        self, around: _Within, item: Union[BlockItem, InnerRule], depth: int
    ) -> List[RuleSet]:
        """Returns the rule sets of what may be a rule in a style rule."""
        if isinstance(item, ReadAtRule) and item.rule.name == _STARTING and depth < DEEPEST:
            item = self._contents.of_at_rule(item)
        if not isinstance(item, InnerRule) or depth == DEEPEST:
            raise _Unclear
        found = list(self._sets_in(self._within(around, item), item.inside, depth + 1))
        if not found and item.condition is not None and item.condition.name == LAYER:
            # It says the order of layers.
            raise _Unclear
        return found

    def _within(self, around: _Within, rule: InnerRule) -> _Within:
        """Returns what the declarations in the block of a rule are in."""
        if rule.condition is None:
            head = self._source.at(rule.head)
            level = Level(Condition(STYLE, head), rule.span, rule.head)
            selectors = tuple(self._selectors_in(head, around.selectors))
            return _Within(selectors, rule.head, (*around.levels, level))
        if rule.condition.name not in _GROUPS:
            raise _Unclear
        level = Level(rule.condition, rule.span, rule.head)
        return around._replace(levels=(*around.levels, level))

    def _selectors_in(self, head: str, around: Sequence[ReadSelector]) -> Sequence[ReadSelector]:
        """Returns the selectors of a rule in style rules with these selectors, without `&`."""
        parts = (_without_nesting(each, around) for each in parts_of(head))
        texts = list(itertools.chain.from_iterable(parts))
        length = sum(map(len, texts))
        self._room.take(length)
        found = read_sheet(", ".join(texts) + "{}")[1] if length <= _LONGEST else ()
        if len(found) != 1 or not isinstance(found[0], RuleSet):
            raise _Unclear
        selectors = found[0].selectors
        if len(selectors) != len(texts):
            raise _Unclear
        return selectors


def _without_nesting(part: Sequence[Token], around: Sequence[ReadSelector]) -> List[str]:
    """Returns what a selector of a rule in style rules with these selectors is without `&`."""
    texts = [each.text for each in part]
    if not texts:
        raise _Unclear
    parents = f":is({', '.join(each.text for each in around)})"
    if _NESTING not in texts or texts[0] in COMBINATORS:
        rest = "".join([" ", *_replaced(texts, parents)])
    elif texts[0] != _NESTING or not _is_apart(part[1:]):
        return ["".join(_replaced(texts, parents))]
    else:
        rest = "".join(_replaced(texts[1:], parents))
    return [first + rest for first in (_alone(around) or [parents])]


def _alone(around: Sequence[ReadSelector]) -> List[str]:
    """Returns the texts of selectors of which each may stand for all, with `&` in front: none is
    stronger than another. The blank after an escape would be a part of it."""
    specificities = {each.specificity for each in around}
    is_plain = all(each.pseudo_element is None and "\\" not in each.text for each in around)
    is_alike = len(specificities) == 1 and None not in specificities
    return [each.text for each in around] if is_plain and is_alike and len(around) <= _FEW else []


def _is_apart(rest: Sequence[Token]) -> bool:
    """Whether what follows a selector is no part of its last name."""
    return all(each.kind in GAPS or each.kind in _IDS or each.text in _APART for each in rest[:1])


def _replaced(texts: Iterable[str], parents: str) -> Iterator[str]:
    return (parents if each == _NESTING else each for each in texts)
