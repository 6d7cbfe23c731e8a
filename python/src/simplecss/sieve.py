"""Selectors over trees of BeautifulSoup, by the names and arguments of soupsieve.

    >>> from bs4 import BeautifulSoup
    >>> from simplecss import sieve
    >>> sieve.select("p:not(.a)", BeautifulSoup("<p class=a>one<p>two", "html.parser"))
    [<p>two</p>]

A soup keeps its page for further questions. Each looks whether what it depends on is as it was, else the soup is read
again: if selectors have names, attributes, ` `, `>`, `:is()`, `:not()`, `:where()` and `:scope` alone, the tag, its
ancestors and what is in it; and else the whole soup, which takes as long for each question. Within `unchanged(soup)` no
question looks. The answers are those of `Tree.from_soup`, but names of classes and ids compare as they are written, with
a doctype and without.
"""

from __future__ import annotations

import contextlib
import copy
import functools
import itertools
import operator
import re
from dataclasses import dataclass
from typing import Any, Dict, Iterable, Iterator, List, Mapping, Optional, Sequence, Tuple, Union

from ._elements import Elements, Namespaces
from ._patterns import pattern
from ._selectors import Reading, ReadText, SelectorError, Selectors
from ._tokens import escape
from ._tree import Item, Tree, elements_of
from ._words import lower

__all__ = (
    *("DEBUG", "SelectorSyntaxError", "SoupSieve", "closest", "compile", "escape", "filter"),
    *("iselect", "match", "purge", "select", "select_one", "unchanged"),
)

# A flag of soupsieve, which changes nothing here.
DEBUG = 1
SelectorSyntaxError = SelectorError
# Selectors by the names that stand for them, such as `:--heading`.
Custom = Mapping[str, str]

# Where a soup keeps its page.
_PLACE = "_simplecss_page"
# Texts of selectors that ask of an element, and of its ancestors, nothing but names and attributes; and of those of
# which each asks of an element alone, and of its siblings.
_OF_PATH = pattern(r"(?:[^:+~\\]|:(?:not|is|where|scope)\b)*", re.IGNORECASE)
_OF_SIBLINGS = pattern(
    r"\s*(?:[\w*.#|-]*(?::(?:first|last|only|nth)-[\w-]+(?:\([\w\s+-]*\))?)*\s*(?:,\s*|$))+",
    re.IGNORECASE,
)
_NAME, _SPACE = operator.attrgetter("name"), operator.attrgetter("namespace")
_ATTRIBUTES = operator.attrgetter("attrs")
_CONTENTS = operator.attrgetter("contents")


class _Page:
    """The tree of a soup as it was read, and what was read of each node, which has these in order: a document
    comes before its elements."""

    def __init__(self, root: Any) -> None:
        self.elements = elements_of(Tree.from_soup(root))
        if self.elements.reading == Reading.QUIRKS:
            self.elements.reading = Reading.HTML
        elements = self.elements.nodes or []
        # How many nodes are no elements.
        self.offset = int(not elements or elements[0] is not root)
        self.nodes = [root, *elements] if self.offset else elements
        self._numbers = {id(node): number for number, node in enumerate(self.nodes)}
        self._names = list(map(_NAME, self.nodes))
        self._spaces = list(map(_SPACE, self.nodes))
        self._attributes = [
            {key: it.copy() if isinstance(it, list) else it for key, it in each.attrs.items()}
            for each in self.nodes
        ]
        contents = list(map(_CONTENTS, self.nodes))
        self._lengths = list(map(len, contents))
        self._children = list(itertools.chain.from_iterable(contents))
        self._starts = [0, *itertools.accumulate(self._lengths)]
        self._custom: Dict[Tuple[Tuple[str, str], ...], Elements] = {}
        # How many promise that it does not change; and whether the order of attributes, which is not known, says
        # which of two with one name counts.
        self.promised = 0
        self._has_twins = any(len({*map(lower, it)}) < len(it) for it in self._attributes)

    def __reduce__(self) -> Tuple[Any, ...]:
        # A soup that is pickled has none.
        return type(None), ()

    def number_of(self, node: Any) -> int:
        """Returns the number of a node, or -1."""
        return self._numbers.get(id(node), -1)

    def parent_of(self, number: int) -> int:
        """Returns the number of a node's parent, or -1."""
        if number < self.offset:
            return -1
        return self.elements.parents[number - self.offset] + self.offset

    def end_of(self, number: int) -> int:
        """Returns the number after the last node within a node."""
        if number < self.offset:
            return len(self.nodes)
        return self.elements.end_of(number - self.offset) + self.offset

    def is_as_read(self, node: Any, is_of_part: bool, is_within: bool) -> bool:
        """Whether all is as it was that an answer about a node depends on: if `is_of_part`, the node and its
        ancestors, and, if `is_within`, what is in it; else all."""
        number = self.number_of(node)
        if number < 0 or self.promised:
            return number >= 0
        if self._has_twins:
            return False
        if not is_of_part:
            return self._is_alike(0, len(self.nodes))
        if is_within and not self._is_alike(number, self.end_of(number)):
            return False
        at = number
        while node is not None:
            if at < 0 or node is not self.nodes[at] or not self._is_node(node, at):
                return False
            node, at = node.parent, self.parent_of(at)
        return at < 0

    def _is_node(self, node: Any, number: int) -> bool:
        """Whether a node has the name and the attributes that it had."""
        return bool(
            node.name == self._names[number]
            and node.namespace == self._spaces[number]
            and node.attrs == self._attributes[number]
        )

    def _is_alike(self, start: int, end: int) -> bool:
        """Whether nodes have the names, attributes and children that they had."""
        nodes = self.nodes[start:end]
        contents = list(map(_CONTENTS, nodes))
        children = self._children[self._starts[start] : self._starts[end]]
        return (
            list(map(len, contents)) == self._lengths[start:end]
            and all(map(operator.is_, itertools.chain.from_iterable(contents), children))
            and list(map(_NAME, nodes)) == self._names[start:end]
            and list(map(_SPACE, nodes)) == self._spaces[start:end]
            and list(map(_ATTRIBUTES, nodes)) == self._attributes[start:end]
        )

    def with_custom(self, custom: Tuple[Tuple[str, str], ...]) -> Elements:
        """Returns the elements, each in the states that the names of custom selectors are."""
        found = self._custom.get(custom)
        if found is None:
            found = self._custom[custom] = copy.copy(self.elements)
            found.states = dict(self.elements.states)
            for name, selectors in custom:
                found.set_states({selectors: name})
        return found


@dataclass(frozen=True)
class SoupSieve:
    """Selectors that are read once, for any number of soups."""

    pattern: Selectors
    namespaces: Optional[Namespaces] = None
    custom: Optional[Custom] = None
    flags: int = 0

    def match(self, tag: Any) -> bool:
        """Whether one of the selectors matches a tag, which is also what `:scope` matches."""
        page, number = self._found(tag, is_within=False)
        return number >= page.offset and self._is_match(page, number, number)

    def closest(self, tag: Any) -> Any:
        """Returns the closest of a tag and its ancestors that matches, or `None`."""
        page, scope = self._found(tag, is_within=False)
        number = scope
        while number >= page.offset:
            if self._is_match(page, scope, number):
                return page.nodes[number]
            number = page.parent_of(number)
        return None

    def filter(self, iterable: Iterable[Any]) -> List[Any]:
        """Returns the tags of an iterable that match, or the children of a tag."""
        if not _is_tag(iterable):
            return [each for each in iterable if not isinstance(each, str) and self.match(each)]
        found = {id(each) for each in self.iselect(iterable)}
        return [each for each in iterable if id(each) in found]

    def select_one(self, tag: Any) -> Any:
        """Returns the first tag within a tag or a soup that matches, or `None`."""
        return next(self.iselect(tag), None)

    def select(self, tag: Any, limit: int = 0) -> List[Any]:
        """Returns the tags within a tag or a soup that match, in order, or the first of them."""
        return list(self.iselect(tag, limit))

    def iselect(self, tag: Any, limit: int = 0) -> Iterator[Any]:
        """Yields what `select` returns, of the soup as it is at the call."""
        page, number = self._found(tag, is_within=True)
        start = max(number + 1, page.offset)
        found = self._numbers(page, number, start, page.end_of(number))
        return itertools.islice(map(page.nodes.__getitem__, found), limit if limit > 0 else None)

    def _found(self, tag: Any, is_within: bool) -> Tuple[_Page, int]:
        """Returns the page that a tag is in, as it is now, and the tag's number there."""
        if not _is_tag(tag):
            raise TypeError(f"a Tag of BeautifulSoup is expected, not {type(tag).__name__}")
        kept = vars(_top_of(tag))
        page: Optional[_Page] = kept.get(_PLACE)
        is_of_part = self._is_of_path or is_within and self._is_of_siblings
        if page is None or not page.is_as_read(tag, is_of_part, is_within):
            page = kept[_PLACE] = _Page(_top_of(tag))
        return page, page.number_of(tag)

    @functools.cached_property
    def _is_of_path(self) -> bool:
        return _OF_PATH.fullmatch(self._text) is not None

    @functools.cached_property
    def _is_of_siblings(self) -> bool:
        return _OF_SIBLINGS.fullmatch(self._text) is not None

    @property
    def _text(self) -> str:
        pattern = self.pattern
        return pattern.source if isinstance(pattern, ReadText) else pattern

    def _is_match(self, page: _Page, scope: int, number: int) -> bool:
        return list(self._numbers(page, scope, number, number + 1)) == [number]

    def _numbers(self, page: _Page, scope: int, start: int, end: int) -> Iterator[int]:
        """Yields the numbers of the nodes from one up to another that match, where `:scope` is one, or of a
        document its first element."""
        elements = page.with_custom(_named(self.custom)) if self.custom else page.elements
        offset = page.offset
        scope = max(scope - offset, 0)
        question = elements.question(self.pattern, namespaces=self.namespaces, scope=scope)
        found = elements.found_when_wanted(question, start - offset, end - offset)
        return (index + offset for index in found)


def _is_tag(value: Any) -> bool:
    return hasattr(value, "contents") and hasattr(value, "attrs")


def _top_of(tag: Any) -> Any:
    """Returns the soup that a tag is in, or the tag that it is in without a soup."""
    while tag.parent is not None:
        tag = tag.parent
    return tag


@contextlib.contextmanager
def unchanged(tag: Any) -> Iterator[None]:
    """Promises that nothing of a soup changes within a `with`: then no question looks whether it did."""
    page, _ = SoupSieve(":root")._found(tag, is_within=False)
    page.promised += 1
    try:
        yield
    finally:
        page.promised -= 1


def _named(custom: Custom) -> Tuple[Tuple[str, str], ...]:
    """Returns the states that stand for custom selectors, each after those that it names itself."""
    waiting = {name.lower().lstrip(":"): selectors for name, selectors in custom.items()}
    found: List[Tuple[str, str]] = []
    while waiting:
        names = "|".join(map(re.escape, waiting))
        ready = [
            each
            for each in waiting.items()
            if not re.search(rf":({names})(?![\w-])", each[1], re.IGNORECASE)
        ]
        if not ready:
            raise ValueError("custom selectors name one another")
        for name, _ in ready:
            del waiting[name]
        found += ready
    return tuple(found)


def compile(
    pattern: Union[Selectors, SoupSieve],
    namespaces: Optional[Namespaces] = None,
    flags: int = 0,
    *,
    custom: Optional[Custom] = None,
) -> SoupSieve:
    """Reads selectors. Those that are read already take no other arguments."""
    if isinstance(pattern, SoupSieve):
        for name, value in (("flags", flags), ("namespaces", namespaces), ("custom", custom)):
            if value:
                raise ValueError(f"compiled selectors take no {name!r}")
        return pattern
    made = SoupSieve(pattern, namespaces, custom, flags)
    # An element in all states that custom selectors are, of which nothing is asked but to read the selectors.
    states = frozenset(name for name, _ in _named(custom or {}))
    Tree([Item("a", states=states)]).select(pattern, namespaces=namespaces)
    return made


def purge() -> None:
    """Does nothing: no selectors are kept but by what `compile` returns."""


def closest(
    select: Union[Selectors, SoupSieve],
    tag: Any,
    namespaces: Optional[Namespaces] = None,
    flags: int = 0,
    *,
    custom: Optional[Custom] = None,
) -> Any:
    """Returns the closest of a tag and its ancestors that matches, or `None`."""
    return compile(select, namespaces, flags, custom=custom).closest(tag)


def match(
    select: Union[Selectors, SoupSieve],
    tag: Any,
    namespaces: Optional[Namespaces] = None,
    flags: int = 0,
    *,
    custom: Optional[Custom] = None,
) -> bool:
    """Whether one of the selectors matches a tag."""
    return compile(select, namespaces, flags, custom=custom).match(tag)


def filter(
    select: Union[Selectors, SoupSieve],
    iterable: Iterable[Any],
    namespaces: Optional[Namespaces] = None,
    flags: int = 0,
    *,
    custom: Optional[Custom] = None,
) -> List[Any]:
    """Returns the tags of an iterable that match, or the children of a tag."""
    return compile(select, namespaces, flags, custom=custom).filter(iterable)


def select_one(
    select: Union[Selectors, SoupSieve],
    tag: Any,
    namespaces: Optional[Namespaces] = None,
    flags: int = 0,
    *,
    custom: Optional[Custom] = None,
) -> Any:
    """Returns the first tag within a tag or a soup that matches, or `None`."""
    return compile(select, namespaces, flags, custom=custom).select_one(tag)


def select(
    select: Union[Selectors, SoupSieve],
    tag: Any,
    namespaces: Optional[Namespaces] = None,
    limit: int = 0,
    flags: int = 0,
    *,
    custom: Optional[Custom] = None,
) -> List[Any]:
    """Returns the tags within a tag or a soup that match, in order, or the first `limit` of them."""
    return compile(select, namespaces, flags, custom=custom).select(tag, limit)


def iselect(
    select: Union[Selectors, SoupSieve],
    tag: Any,
    namespaces: Optional[Namespaces] = None,
    limit: int = 0,
    flags: int = 0,
    *,
    custom: Optional[Custom] = None,
) -> Iterator[Any]:
    """Yields what `select` returns, of the soup as it is at the call."""
    return compile(select, namespaces, flags, custom=custom).iselect(tag, limit)
