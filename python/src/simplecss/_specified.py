"""Declarations beside those of sheets: of `style` attributes, presentation attributes of SVG, and
of parents (CSS 2.1 sections 6.2 and 6.4.3)."""

from __future__ import annotations

import functools
from typing import (
    Callable,
    Dict,
    FrozenSet,
    Iterable,
    Iterator,
    List,
    Mapping,
    Optional,
    Tuple,
    Union,
)

from . import _library as library
from ._declaration import Declaration, cascaded
from ._library import Room, expect_text
from ._presenting import presented_by
from ._reading import declarations
from ._spaced import HTML_SPACE
from ._taken import Values
from ._tree import Element, Tree, elements_of, plain_attributes
from ._words import BLANKS, lower

# What CSS 2.1 hands down (Appendix F), and what SVG does.
INHERITED: FrozenSet[str] = frozenset(
    "azimuth border-collapse border-spacing caption-side color cursor direction elevation"
    " empty-cells font font-family font-size font-style font-variant font-weight letter-spacing"
    " line-height list-style list-style-image list-style-position list-style-type orphans pitch"
    " pitch-range quotes richness speak speak-header speak-numeral speak-punctuation speech-rate"
    " stress text-align text-indent text-transform visibility voice-family volume white-space"
    " widows word-spacing"
    " clip-rule color-interpolation color-interpolation-filters color-rendering fill fill-opacity"
    " fill-rule font-size-adjust font-stretch image-rendering marker marker-end marker-mid"
    " marker-start paint-order pointer-events shape-rendering stroke stroke-dasharray"
    " stroke-dashoffset stroke-linecap stroke-linejoin stroke-miterlimit stroke-opacity"
    " stroke-width text-anchor text-rendering writing-mode glyph-orientation-vertical".split()
)
# The values that say what an element has without the declarations of its author.
_ROLLED_BACK = frozenset(("revert", "revert-layer"))
# Which properties are handed down: the table above, some, or none.
Inherit = Union[bool, Iterable[str]]


# What says the presentation declarations of an element: its properties with their values.
Presentation = Callable[[Element], Mapping[str, str]]


def presentation_attributes(element: Element) -> Dict[str, str]:
    """Returns the presentation attributes of an element of SVG: their names and values."""
    if not element.is_drawn:
        return {}
    known = presented_by(element.name)
    pairs = ((name, value.strip(BLANKS)) for name, value in plain_attributes(element).items())
    return {name: value for name, value in pairs if name in known and value}


@functools.lru_cache(maxsize=4096)
def _presented(name: str, value: str) -> Optional[Declaration]:
    """Returns the declaration that a presentation attribute is, if it is one: which has nothing but a
    value."""
    found = declarations(f"{name}:{value}")
    return found[0] if len(found) == 1 and not found[0].important else None


def _text_of(each: Declaration) -> str:
    return f"{each.name}:{each.value};"


class Own:
    """The declarations of elements that are in no rule: of their attribute `style`, and presentation
    declarations."""

    def __init__(self, tree: Iterable[Element], presentation: Presentation, values: Values) -> None:
        """Reads them, without those of a `style` with other values."""
        self._texts: List[bytes] = []
        self._known: Dict[bytes, List[Declaration]] = {}
        for element in tree:
            text = library.encode(plain_attributes(element).get("style", ""))
            is_foreign = text != b"" and element.namespace not in (None, HTML_SPACE)
            style = values.in_style(text, is_foreign)
            pairs = presentation(element).items()
            hints = (_presented(name, value) for name, value in pairs)
            presented = "".join(_text_of(each) for each in hints if each is not None)
            self._texts += (style, library.encode(presented))
        self.arrays = library.OwnArrays(self._texts if any(self._texts) else [])

    def texts_of(self, index: int) -> Tuple[bytes, ...]:
        """Returns the texts of an element: of its attribute, and of its presentation declarations."""
        return tuple(self._texts[2 * index : 2 * index + 2])

    def styled(self, index: int) -> List[Declaration]:
        """Returns the declarations of the attribute of an element."""
        return self._declared(self._texts[2 * index])

    def presented(self, index: int) -> List[Declaration]:
        """Returns the presentation declarations of an element."""
        return self._declared(self._texts[2 * index + 1])

    def declarations(self) -> Iterator[Declaration]:
        """Yields the declarations of all elements, of equal texts once."""
        for text in dict.fromkeys(self._texts):
            yield from self._declared(text)

    def _declared(self, text: bytes) -> List[Declaration]:
        found = self._known.get(text)
        if found is None:
            found = self._known[text] = declarations(text.decode("utf-8"))
        return found


def values_on(tree: Tree, any_value: bool) -> Values:
    """Returns which values may win on a tree."""
    return Values.on(elements_of(tree).reading, any_value)


# Elements that have none.
NO_OWN = Own((), presentation_attributes, Values.ANY)


def specified_by(
    element: Element, winners: Iterable[Declaration], presentation: Presentation
) -> List[Declaration]:
    """Returns the declaration of each name that wins among all of these, in order, by CSS 2.1."""
    hints = (_presented(name, value) for name, value in presentation(element).items())
    style = plain_attributes(element).get("style", "")
    presented = [each for each in hints if each is not None]
    return cascaded((*presented, *winners, *(declarations(style) if style else ())))


def _names(inherit: Iterable[str]) -> FrozenSet[str]:
    """Returns names of properties as a set. What is no text raises `TypeError`."""
    names = frozenset((inherit,) if isinstance(inherit, str) else inherit)
    for name in names:
        expect_text(name)
    return names


def _is_of_parent(declaration: Declaration, names: FrozenSet[str]) -> bool:
    """Whether a declaration has the value of the parent, where these properties are handed down."""
    value = lower(declaration.value)
    return value == "inherit" or value in _ROLLED_BACK and declaration.name in names


def inherited(
    tree: Tree, styles: List[List[Declaration]], inherit: Inherit, limit: int
) -> List[List[Declaration]]:
    """Returns the declarations of each element, after those that its parent hands down. More of
    these than `limit` raise `LimitError`."""
    names = INHERITED if isinstance(inherit, bool) else _names(inherit)
    room = Room(limit)
    found: List[List[Declaration]] = []
    # What each parent has by name, and what it hands down.
    parents: Dict[int, Tuple[Dict[str, Declaration], List[Declaration]]] = {}
    for parent, winners in zip(elements_of(tree).parents, styles):
        if parent >= 0 and parent not in parents:
            handed = [each for each in found[parent] if each.name in names]
            parents[parent] = ({each.name: each for each in found[parent]}, handed)
        above, handed = parents[parent] if parent >= 0 else ({}, [])
        own = {each.name for each in winners}
        mine = [
            above.get(each.name, each) if _is_of_parent(each, names) else each for each in winners
        ]
        more = [each for each in handed if each.name not in own]
        room.take(len(more))
        found.append(more + mine)
    return found
