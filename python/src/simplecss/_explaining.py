"""Why a declaration of a property wins on an element: all that apply, and by what each loses."""

from __future__ import annotations

import itertools
import re
from typing import (
    Dict,
    Iterator,
    List,
    NamedTuple,
    Optional,
    Sequence,
    Set,
    Tuple,
)

from . import _library as library
from ._declaration import Declaration
from ._device import LAYER
from ._nested import Places, blocks_of, every_block
from ._placed import At, Place
from ._properties import is_inherited
from ._reading import Condition, Source, Statement
from ._resolving import ResolvedElements
from ._selectors import Specificity
from ._specified import Own
from ._tree import Element
from ._winners import AUTHOR, Query, Winning
from ._words import lower

# By what a declaration loses to the one before it, by the numbers of the library; the first by nothing.
CRITERIA: Tuple[Optional[str], ...] = (
    None,
    "origin and importance",
    "style attribute",
    "layers",
    "specificity",
    "order of appearance",
)
# What may be a reference `var()`, and what is in each value that rolls back others.
_REFERENCE = re.compile(r"\\|var\(", re.IGNORECASE)
_ROLLBACK = "revert"
# How many numbers the library writes of a declaration.
_OF_CONTENDER = 3
# What a layer without a name is called.
_ANONYMOUS = "(anonymous)"
# The origins of declarations in no rule of a sheet.
PRESENTATION = "presentation"
# The number of a text, and an offset of its bytes.
_At = Tuple[int, int]


class Contender(NamedTuple):
    """A declaration that applies to an element.

    It has the `selector` and the `specificity` of its rule, if it is in one; its `layer`, with dots
    between the names, if it is in one; and the `criterion` by which it loses to the one before it, if there is
    one. `is_rolled_back` says that it is stronger than what wins and does not count, by `revert` or
    `revert-layer`.
    """

    declaration: Declaration
    place: Place
    origin: str
    selector: Optional[str] = None
    specificity: Optional[Specificity] = None
    layer: Optional[str] = None
    criterion: Optional[str] = None
    is_rolled_back: bool = False

    @property
    def value(self) -> str:
        """The value of the declaration."""
        return self.declaration.value

    @property
    def important(self) -> bool:
        """Whether the declaration is important."""
        return self.declaration.important


class Explanation(NamedTuple):
    """All declarations of a property that apply to an element, the strongest first.

    `winner` is the one that wins. Where none does, `inherited_from` is the nearest ancestor from which the
    element has the property, and `inherited` its explanation there. `computed` is the value that
    wins, with its references `var()` replaced; it is `None` if there is none or it is invalid then.
    """

    element: Element
    name: str
    contenders: Tuple[Contender, ...]
    winner: Optional[Contender]
    computed: Optional[str]
    inherited: "Optional[Explanation]"

    @property
    def inherited_from(self) -> Optional[Element]:
        """The ancestor from which the element has the property."""
        return None if self.inherited is None else self.inherited.element


class Text(NamedTuple):
    """A text of a sheet: what it has, the group rules that all of it is in, its index among those of its
    sheet and its url, if it has them, and its origin."""

    source: Source
    statements: List[Statement]
    conditions: Tuple[Condition, ...]
    number: Optional[int]
    url: Optional[str]
    origin: str


class OnElements(NamedTuple):
    """What elements have: their own declarations, and the rules on them; and what wins, with references
    replaced."""

    own: Own
    query: Query
    resolved: ResolvedElements


def layer_of(conditions: Sequence[Condition]) -> Optional[str]:
    """Returns the name of the layer that group rules are in, if they are in one."""
    names = [each.prelude or _ANONYMOUS for each in conditions if each.name == LAYER]
    return ".".join(names) if names else None


def _layers_at(texts: Sequence[Text], wanted: Set[_At]) -> Dict[_At, Optional[str]]:
    """Returns the layers of blocks that begin at these places."""
    found: Dict[_At, Optional[str]] = {}
    for number, those in itertools.groupby(sorted(wanted), key=lambda at: at[0]):
        text = texts[number]
        inner = blocks_of(text.source, text.statements)
        places = Places(every_block(text.source, text.statements, inner))
        for at in those:
            block = places.at(at[1])
            inside = () if block is None else block.conditions
            found[at] = layer_of((*text.conditions, *inside))
    return found


class Explaining:
    """The declarations of one property on the elements of a tree, as the library finds them."""

    def __init__(
        self,
        name: str,
        names: Sequence[str],
        winning: Winning,
        texts: Sequence[Text],
        found: OnElements,
        limit: int,
    ) -> None:
        """Takes a property, the names that set it, rules, the texts that they are in, and what elements
        have. More declarations than the limit raise `LimitError`."""
        self._name = name
        self._names = names
        self._winning = winning
        self._texts = texts
        self._found = found
        self._limit = limit
        self._room = library.Room(limit)
        self._selectors = winning.selectors
        if winning.layers is None:
            wanted = {(each.sheet, each.start) for each in winning.rules}
            winning.layers = _layers_at(texts, wanted)
        self._layers = winning.layers

    def explanation(self, element: Element) -> Explanation:
        """Explains the property on an element, and on the ancestor from which the element has it."""
        found = self._on(element)
        if found.winner is not None or not is_inherited(self._name):
            return found
        above = next((one for one in map(self._on, _ancestors(element)) if one.winner), None)
        return found._replace(inherited=above)

    def _on(self, element: Element) -> Explanation:
        """Explains the property on an element."""
        contenders = tuple(self._contenders(element))
        won = next((each for each in contenders if not each.is_rolled_back), None)
        computed = None if won is None else self._computed(element, won.declaration)
        return Explanation(element, self._name, contenders, won, computed, None)

    def _computed(self, element: Element, winner: Declaration) -> Optional[str]:
        """Returns the value that wins on an element, with its references replaced, if it is valid."""
        if not _REFERENCE.search(winner.value):
            return winner.value
        those = self._found.resolved.declarations(element.index)
        return next((each.value for each in reversed(those) if each.name == winner.name), None)

    def _winner(self, index: int) -> Optional[Declaration]:
        """Returns the declaration that wins on an element, if one does, where some may be rolled back."""
        limit = max(self._limit, library.USUAL_ANSWER_LIMIT)
        return self._found.query.named(self._names, limit, range(index, index + 1))[0]

    def _contenders(self, element: Element) -> Iterator[Contender]:
        """Yields the declarations of the names that apply to an element."""
        numbers = self._found.query.explained(self._names, element.index, self._limit)
        self._room.take(len(numbers) // _OF_CONTENDER)
        rows = zip(*(numbers[at::_OF_CONTENDER] for at in range(_OF_CONTENDER)))
        found = [(self._contender(element, *row[:2]), CRITERIA[row[2]]) for row in rows]
        # Those before the one that wins are rolled back, and all are if none does.
        is_rolled_back = bool(found) and _ROLLBACK in lower(found[0][0].value)
        winner = self._winner(element.index) if is_rolled_back else None
        for one, criterion in found:
            is_rolled_back = is_rolled_back and one.declaration is not winner
            yield one._replace(criterion=criterion, is_rolled_back=is_rolled_back)

    def _contender(self, element: Element, rule: int, place: int) -> Contender:
        """Returns the declaration at a place of what has this number."""
        if rule >= len(self._selectors):
            return self._in_no_rule(element, rule == len(self._selectors), place)
        found = self._winning.rules[rule]
        text = self._texts[found.sheet]
        at = At(text.source, text.number, text.url, *found.declarations.span(place))
        return Contender(
            declaration=found.declarations.at(place),
            place=at.place(),
            origin=text.origin,
            selector=self._selectors[rule],
            specificity=found.specificity,
            layer=self._layers[found.sheet, found.start],
        )

    def _in_no_rule(self, element: Element, is_style: bool, place: int) -> Contender:
        """Returns a declaration of the `style` attribute, or a presentation declaration."""
        own = self._found.own
        every = (own.styled if is_style else own.presented)(element.index)
        at = Place(None, None, element.row, element.column)
        return Contender(every[place], at, AUTHOR if is_style else PRESENTATION)


def _ancestors(element: Element) -> Iterator[Element]:
    """Yields the ancestors of an element, the nearest first."""
    node = element.parent
    while node is not None:
        yield node
        node = node.parent
