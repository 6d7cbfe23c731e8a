"""The attributes of SVG that are properties, too (SVG 2, "Presentation attributes")."""

from __future__ import annotations

from typing import Dict, FrozenSet

from ._marking import Group
from ._values import ends_with_number, has_ident

# Those of every element, and of some only.
_PRESENTATION: FrozenSet[str] = frozenset(
    "alignment-baseline baseline-shift clip-path clip-rule color color-interpolation"
    " color-interpolation-filters cursor direction display dominant-baseline fill fill-opacity"
    " fill-rule filter flood-color flood-opacity font-family font-size font-size-adjust"
    " font-stretch font-style font-variant font-weight glyph-orientation-vertical image-rendering"
    " letter-spacing lighting-color marker-end marker-mid marker-start mask mask-type opacity"
    " overflow paint-order pointer-events shape-rendering stop-color stop-opacity stroke"
    " stroke-dasharray stroke-dashoffset stroke-linecap stroke-linejoin stroke-miterlimit"
    " stroke-opacity stroke-width text-anchor text-decoration text-overflow text-rendering"
    " transform transform-origin unicode-bidi vector-effect visibility white-space word-spacing"
    " writing-mode".split()
)

_PLACED: FrozenSet[str] = frozenset(("x", "y", "width", "height"))
_GEOMETRY: Dict[str, FrozenSet[str]] = {
    "circle": frozenset(("cx", "cy", "r")),
    "ellipse": frozenset(("cx", "cy", "rx", "ry")),
    "path": frozenset(("d",)),
    "rect": _PLACED | {"rx", "ry"},
    **dict.fromkeys(("foreignObject", "image", "svg", "symbol", "use"), _PLACED),
}
# Of these `fill` is something else.
_ANIMATIONS: FrozenSet[str] = frozenset(("animate", "animateMotion", "animateTransform", "set"))

# Of which an attribute is written in another way, or is none in browsers.
_OTHERWISE: FrozenSet[str] = frozenset(
    "d font-size-adjust glyph-orientation-vertical text-overflow transform transform-origin"
    " white-space".split()
)
_OF_USE: FrozenSet[str] = frozenset(("width", "height"))
# Of which an attribute may be a number without a unit, which is no value of the property.
_LENGTHS: FrozenSet[str] = frozenset(
    "baseline-shift cx cy font-size height letter-spacing r rx ry width word-spacing x y".split()
)
# What is another value where no rule says it.
_BACK = frozenset(("revert", "revert-layer"))


def presented_by(name: str) -> FrozenSet[str]:
    """Returns the properties that are attributes of an element of SVG."""
    known = _PRESENTATION | _GEOMETRY.get(name, frozenset())
    return known - {"fill"} if name in _ANIMATIONS else known


def attributes_of(name: str) -> FrozenSet[str]:
    """Returns the properties of which all that read attributes of an element of SVG take the same
    values as of its styles."""
    found = presented_by(name) - _OTHERWISE
    return found - _OF_USE if name == "use" else found


def is_presentable(group: Group) -> bool:
    """Whether an attribute says the same as declarations of a name, if it is one."""
    declaration = group.declarations[0]
    value = declaration.value
    if len(group.declarations) > 1 or declaration.important or has_ident(value, _BACK):
        return False
    return declaration.name not in _LENGTHS or value == "0" or not ends_with_number(value)
