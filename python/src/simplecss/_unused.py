"""The selectors that match no element of any of some pages."""

from __future__ import annotations

import copy
import functools
from typing import (
    Dict,
    FrozenSet,
    Iterator,
    List,
    NamedTuple,
    Optional,
    Sequence,
    Set,
    Tuple,
)

from ._elements import LINK, NO_STATES, Elements
from ._found_names import Name, find_names, pseudo_names
from ._reading import ReadSelector, RuleSet, Source, Statement, is_supported
from ._selectors import OF_TREE

# A state that each element is in, one that none is in, and that of links.
_MET, _UNMET, _OF_LINKS = ":hover", ":active", ":link"
_STATES = frozenset(("hover",))
# The pseudo-classes that are asked as they are.
_ASKED = OF_TREE | {"link", "any-link"}
# How many states a selector has at most that is asked for.
_MOST_STATES = 8


class Unused(NamedTuple):
    """A selector that matches no element.

    It has its text, where it begins, and whether no selector of its rule matches. `row` and `column` begin at 1. `source` is the index of the text among those of the sheet, and
    `start` and `end` are where the selector begins and ends in it.
    """

    selector: str
    row: int
    column: int
    is_whole: bool
    source: int
    start: int
    end: int


class Usage:
    """Which selectors of texts match an element of the pages that are seen. Pseudo-elements and
    states are taken as met, and so are the conditions of group rules."""

    def __init__(self, texts: Sequence[Tuple[Source, List[Statement]]], limit: int) -> None:
        self._texts = texts
        self._limit = limit
        every = [each for _, rule in self._rules() for each in rule.selectors]
        find_names(each.front for each in every)
        self._asked: Dict[ReadSelector, Optional[str]] = {each: _asked(each) for each in every}
        # What matches nothing so far.
        self._left: Set[str] = {each for each in self._asked.values() if each is not None}

    def _rules(self) -> Iterator[Tuple[int, RuleSet]]:
        """Yields the rules, each with the index of its text."""
        for number, (_, statements) in enumerate(self._texts):
            for statement in statements:
                if isinstance(statement, RuleSet):
                    yield number, statement

    def see(self, elements: Elements) -> None:
        """Takes the elements of a page."""
        asked = sorted(self._left)
        lines = set(_with_states_met(elements).matched(asked, self._limit))
        self._left -= {asked[int(number) - 1] for line in lines for number in line.split()}

    def _is_unused(self, selector: ReadSelector) -> bool:
        return self._asked[selector] in self._left

    def unused(self) -> Iterator[Unused]:
        """Yields the selectors that match nothing. One of which it is not known is used."""
        for number, rule in self._rules():
            found = list(filter(self._is_unused, rule.selectors))
            source = self._texts[number][0]
            for each in found:
                start, end = map(source.offset, each.span)
                is_whole = len(found) == len(rule.selectors)
                yield Unused(each.text, *source.position(start), is_whole, number, start, end)

    def used(self) -> Iterator[str]:
        """Yields each text without the rules that match nothing."""
        dropped: List[List[Tuple[int, int]]] = [[] for _ in self._texts]
        for number, rule in self._rules():
            if all(map(self._is_unused, rule.selectors)):
                dropped[number].append(rule.span)
        for (source, _), spans in zip(self._texts, dropped):
            starts = [0, *(end for _, end in spans)]
            ends = [*(start for start, _ in spans), len(source.data)]
            yield "".join(map(source.at, zip(starts, ends)))


def _with_states_met(elements: Elements) -> Elements:
    """Returns the elements of a page, each of them in the state that is met."""
    found = copy.copy(elements)
    found.states = {
        index: _STATES | _link_of(elements.states.get(index, NO_STATES))
        for index in range(len(elements))
    }
    return found


def _link_of(states: FrozenSet[str]) -> FrozenSet[str]:
    """Returns the state of a link, if an element with these states is one."""
    return LINK if states & {"link", "visited"} else NO_STATES


def _asked(selector: ReadSelector) -> Optional[str]:
    """Returns what is asked of elements in place of a selector, or `None` if that is not known."""
    return _asked_of(selector.front) if selector.specificity is not None else None


@functools.lru_cache(maxsize=4096)
def _asked_of(selector: str) -> Optional[str]:
    """Returns a selector with states that are met in place of its own."""
    names = [each for each in pseudo_names(selector) if each.name not in _ASKED]
    if len(names) > _MOST_STATES:
        return None
    text = selector
    for name in reversed(names):
        state = _state(selector, name)
        if state is None:
            return None
        text = text[: name.start] + state + text[name.end :]
    return text if not names or is_supported(text) else None


def _state(selector: str, name: Name) -> Optional[str]:
    """Returns what stands for a state: one that is met, or within `:not()` one that is not. Deeper
    in it that is not known."""
    if not name.is_negated:
        return _OF_LINKS if name.name == "visited" else _MET
    around = [each.name for each in pseudo_names(selector) if each.end + 1 == name.start]
    return _UNMET if around == ["not"] else None
