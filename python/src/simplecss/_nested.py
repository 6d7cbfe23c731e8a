"""The rules in style rules, as the library finds them."""

from __future__ import annotations

import itertools
from typing import (
    AbstractSet,
    Dict,
    Iterable,
    Iterator,
    List,
    Mapping,
    NamedTuple,
    Optional,
    Sequence,
    Set,
    Tuple,
)

from ._declaration import Declaration
from ._reading import (
    NESTED,
    BegunRule,
    BlockItem,
    Condition,
    Contents,
    Items,
    ReadAtRule,
    ReadDeclaration,
    RuleSet,
    Source,
    Span,
    Statement,
    conditions_of,
    is_supported,
)
from ._tokens import parts_of

# In how many rules one may be that is looked into.
DEEPEST = 64
# Why it skips what may be rules.
_SKIPPED = frozenset((NESTED, "too deep"))


class Block(NamedTuple):
    """The contents of the block of a style rule that has rules in it, or of a rule in one: where
    they are in the sheet, what is before the blocks of the style rules around them, the group
    rules, what is before the block of the style rule that they are in, and where the whole rule is.
    """

    span: Span
    parents: Tuple[str, ...]
    conditions: Tuple[Condition, ...]
    head: str
    rule: Span


def has_rules(items: Iterable[BlockItem]) -> bool:
    """Whether a block has rules in it."""
    if isinstance(items, Items) and items.are_whole:
        return False
    return any(
        each.rule.block is not None if isinstance(each, ReadAtRule) else each.reason in _SKIPPED
        for each in items
        if not isinstance(each, ReadDeclaration)
    )


class _Open(NamedTuple):
    """A rule that is open: its block; what is before that of the style rule that it is or is in; and in
    how many rules it is. In one without a block nothing is looked into."""

    block: Optional[Block]
    head: str
    depth: int


class _Reader:
    """Finds the blocks in those of style rules, which are in order."""

    def __init__(self, source: Source, rules: Sequence[RuleSet]) -> None:
        self._source = source
        self._rules = rules
        self._next = 0

    def blocks(self) -> Iterator[Block]:
        """Yields the blocks of the rules, and of those in them."""
        inside: List[Optional[_Open]] = []
        for rule in Contents(self._source).rules():
            if rule is None:
                inside.pop()
                continue
            outer = inside[-1] if inside else None
            inside.append(self._opened(rule, outer))
            if inside[-1] is not None and inside[-1].block is not None:
                yield inside[-1].block

    def _opened(self, rule: BegunRule, outer: Optional[_Open]) -> Optional[_Open]:
        """Returns the rule that begins there, or `None` for a group rule that is in no style rule."""
        if outer is None:
            return self._outermost(rule) if rule.condition is None else None
        depth = outer.depth + 1
        if outer.block is None or depth > DEEPEST:
            return _Open(None, "", depth)
        parents, conditions = outer.block.parents, outer.block.conditions
        span = rule.head[0], min(rule.inner[1] + 1, len(self._source.data))
        if rule.condition is None:
            head = self._source.at(rule.head)
            block = Block(rule.inner, (*parents, outer.head), conditions, head, span)
            return _Open(block, head, depth)
        conditions = (*conditions, rule.condition)
        return _Open(Block(rule.inner, parents, conditions, outer.head, span), outer.head, depth)

    def _outermost(self, begun: BegunRule) -> _Open:
        """Returns a style rule that is in no other, with its block if it is one of the rules."""
        rules, at = self._rules, begun.inner[0]
        while self._next < len(rules) and rules[self._next].span[1] < at:
            self._next += 1
        if self._next == len(rules) or rules[self._next].span[0] > at:
            return _Open(None, "", 0)
        head = self._source.at(begun.head)
        return _Open(_block_of(rules[self._next], head), head, 0)


def _block_of(rule: RuleSet, head: str) -> Block:
    """Returns the block of a style rule that is in no other."""
    inner = rule.head[1], rule.span[1]
    return Block(inner, (), conditions_of(rule.levels), head, rule.span)


def every_block(
    source: Source, statements: Iterable[Statement], blocks: Iterable[Block]
) -> List[Block]:
    """Returns the blocks of all style rules of a sheet, of which those that `blocks_of` returns are some."""
    rules = (each for each in statements if isinstance(each, RuleSet))
    sets = (_block_of(each, source.at(each.head)) for each in rules)
    found = {each.span: each for each in itertools.chain(sets, blocks)}
    return [found[span] for span in sorted(found, key=lambda span: (span[0], -span[1]))]


def blocks_of(source: Source, statements: Iterable[Statement]) -> List[Block]:
    """Returns the blocks of the style rules of a sheet that have rules in them, and of these rules,
    each after the one that it is in."""
    # Most have nothing but declarations.
    rules = [each for each in statements if isinstance(each, RuleSet) and has_rules(each.items)]
    return list(_Reader(source, rules).blocks()) if rules else []


class UnsupportedIn(NamedTuple):
    """An unsupported selector of the style rule that a block is in, and the declarations of the block."""

    block: Block
    selector: str
    declarations: Tuple[Declaration, ...]


class _List(NamedTuple):
    """The selectors of a list that are not known to be supported, each with whether it is an unsupported
    one, and whether all are known to be selectors."""

    others: List[Tuple[str, bool]]
    is_known: bool


class _Lists:
    """The lists of selectors of style rules, also of nested ones."""

    def __init__(self) -> None:
        self._read: Dict[str, _List] = {}

    def read(self, head: str) -> _List:
        """Returns what a list is."""
        found = self._read.get(head)
        if found is None:
            found = self._read[head] = _list_of(head)
        return found

    def are_known(self, heads: Iterable[str]) -> bool:
        """Whether all of these lists are known to be lists of selectors."""
        return all(self.read(head).is_known for head in heads)


def _list_of(head: str) -> _List:
    """Returns what a list is. A selector may begin with a combinator, and what is before that does not
    matter."""
    texts = ("".join(each.text for each in part) for part in parts_of(head))
    read = [(text, is_supported(f"& {text}") if text else None) for text in texts]
    others = [(text, is_one is False) for text, is_one in read if is_one is not True]
    return _List(others, all(is_one for _, is_one in others))


def unsupported_in(
    source: Source, blocks: Iterable[Block], placed: Mapping[int, Set[str]]
) -> Iterator[UnsupportedIn]:
    """Yields the unsupported selectors of the style rules of these blocks that have declarations. `placed`
    has the supported ones of a block, by the offset at which its contents begin."""
    declared: Optional[Dict[int, Tuple[Declaration, ...]]] = None
    lists = _Lists()
    for block in blocks:
        start = block.span[0]
        supported: AbstractSet[str] = placed.get(start, frozenset())
        if supported and "," not in block.head:
            continue
        if declared is None:
            declared = Contents(source).declared()
        if start not in declared:
            continue
        if supported or lists.are_known((*block.parents, block.head)):
            for text, is_one in lists.read(block.head).others:
                if is_one or text not in supported:
                    yield UnsupportedIn(block, text, declared[start])


class Places:
    """The innermost of blocks at offsets that do not fall."""

    def __init__(self, blocks: Sequence[Block]) -> None:
        self._blocks = blocks
        self._next = 0
        self._open: List[Block] = []

    def at(self, offset: int) -> Optional[Block]:
        """Returns the innermost block at an offset, if there is one."""
        while self._next < len(self._blocks) and self._blocks[self._next].span[0] <= offset:
            self._leave(self._blocks[self._next].span[0])
            self._open.append(self._blocks[self._next])
            self._next += 1
        self._leave(offset)
        return self._open[-1] if self._open else None

    def _leave(self, offset: int) -> None:
        while self._open and self._open[-1].span[1] <= offset:
            self._open.pop()
