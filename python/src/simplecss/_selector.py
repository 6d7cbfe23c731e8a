"""A selector that is read once, for any number of elements."""

from __future__ import annotations

from typing import Optional, Tuple

from ._found_names import Name, names_in
from ._selectors import MODERN, ReadText, SelectorError, Specificity, grammar_of, listed
from ._tree import Element


class Selector(ReadText):
    """A selector. `str` is its text as the library prints it.

    The grammar "modern" is that of browsers: Selectors Level 3, and of Level 4 `:is()`, `:where()`,
    `:has()`, lists in `:not()` and `:nth-child()`, and `[a=b i]`. "simplecss" is that of the Rust crate: CSS 2.1. A text that is
    not a selector, or a list of several, raises `SelectorError`.
    """

    def __init__(self, text: str, *, grammar: str = MODERN) -> None:
        grammar = grammar_of(grammar)
        found = listed(text, grammar)
        if len(found) != 1:
            raise SelectorError("more than one selector", 1, 1, text)
        super().__init__(text, grammar)
        self._listed = found[0]

    @property
    def specificity(self) -> Specificity:
        """How many ids, classes and types the selector has.

        Attributes and pseudo-classes count as classes, and pseudo-elements as types.
        """
        return self._listed.specificity

    @property
    def pseudo_element(self) -> Optional[str]:
        """The name of the pseudo-element at the end, or `None`.

        A selector with one matches no element.
        """
        return self._listed.pseudo_element

    @property
    def names(self) -> Tuple[Name, ...]:
        """The names in the printed text of the selector.

        They are those of types, classes, ids, attributes and pseudo-classes.
        """
        return names_in(str(self))

    def matches(self, element: Element) -> bool:
        """Whether the selector matches an element of a tree."""
        if not isinstance(element, Element):
            raise TypeError(f"an Element is expected, not {type(element).__name__}")
        return element.matches(self)

    def __str__(self) -> str:
        return self._listed.text

    def __repr__(self) -> str:
        return f"Selector({self._listed.text!r})"

    def __eq__(self, other: object) -> bool:
        return isinstance(other, Selector) and self._key() == other._key()

    def __hash__(self) -> int:
        return hash(self._key())

    def _key(self) -> Tuple[str, str]:
        return self.grammar, self._listed.text
