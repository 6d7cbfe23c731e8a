"""A declaration, and which of several win."""

from __future__ import annotations

from typing import Dict, Iterable, List, NamedTuple, Protocol, TypeVar

from ._placed import HasPlace


class _Declaration(NamedTuple):
    name: str
    value: str
    important: bool


class Declaration(_Declaration, HasPlace):
    """A declaration (CSS 2.1 section 4.1.8): `name`, `value`, and whether it is `important`. One of a rule of a
    sheet has a `place`."""

    def __str__(self) -> str:
        return f"{self.name}: {self.value}{' !important' if self.important else ''}"


class Declared(Protocol):
    """What has the name of a property and an importance."""

    @property
    def name(self) -> str:
        ...

    @property
    def important(self) -> bool:
        ...


D = TypeVar("D", bound=Declared)


def cascaded(declarations: Iterable[D]) -> List[D]:
    """Returns the declaration of each name that wins: the last one of the greatest importance (CSS
    2.1 section 6.4.1). They are in the order in which they appear."""
    found: Dict[str, D] = {}
    for declaration in declarations:
        before = found.get(declaration.name)
        if before is None or declaration.important or not before.important:
            # A name that is set again goes to the end.
            found.pop(declaration.name, None)
            found[declaration.name] = declaration
    return list(found.values())
