"""The attributes of elements that are in namespaces."""

from __future__ import annotations

from typing import Dict, Iterable, List, NamedTuple, Optional, Sequence, Tuple

HTML_SPACE = "http://www.w3.org/1999/xhtml"
SVG_SPACE = "http://www.w3.org/2000/svg"
MATH_SPACE = "http://www.w3.org/1998/Math/MathML"
_XLINK = "http://www.w3.org/1999/xlink"
_XML = "http://www.w3.org/XML/1998/namespace"
_XMLNS = "http://www.w3.org/2000/xmlns/"
# The attributes of SVG and MathML in HTML that are in namespaces, and their local names (HTML Standard,
# "Creating and inserting nodes").
_ADJUSTED: Dict[str, Tuple[str, str]] = {
    **{
        f"xlink:{name}": (_XLINK, name)
        for name in ("actuate", "arcrole", "href", "role", "show", "title", "type")
    },
    "xml:lang": (_XML, "lang"),
    "xml:space": (_XML, "space"),
    "xmlns": (_XMLNS, "xmlns"),
    "xmlns:xlink": (_XMLNS, "xlink"),
}
# The namespace and the local name of the attribute of XLink that is a url.
XLINK_HREF = (_XLINK, "href")

# The namespace of an attribute, or nothing, its local name, and its value.
SpacedAttribute = Tuple[str, str, str]


class Attributes(NamedTuple):
    """The attributes of an element that has some in namespaces: those in none, and the others."""

    plain: Dict[str, str]
    spaced: List[SpacedAttribute]

    def with_language(self) -> "Attributes":
        """Returns the same, and the language that XML names as an attribute `lang` in no namespace, which
        `:lang()` tests, if there is none."""
        found = [value for space, name, value in self.spaced if (space, name) == (_XML, "lang")]
        if not found or "lang" in self.plain:
            return self
        return self._replace(plain={**self.plain, "lang": found[0]})


def has_link(
    name: str, space: str, plain: Dict[str, str], others: Sequence[SpacedAttribute]
) -> bool:
    """Whether an element with these attributes is a link: of SVG also by the `href` of XLink."""
    if name not in ("a", "area") or space not in ("", HTML_SPACE, SVG_SPACE):
        return False
    is_xlink = any((of, local) == XLINK_HREF for of, local, _ in others)
    return "href" in plain or is_xlink and space != HTML_SPACE


def parted(attributes: Iterable[SpacedAttribute]) -> Optional[Attributes]:
    """Returns attributes, or `None` if none is in a namespace."""
    plain: Dict[str, str] = {}
    spaced: List[SpacedAttribute] = []
    for one in attributes:
        if one[0]:
            spaced.append(one)
        else:
            plain[one[1]] = one[2]
    return Attributes(plain, spaced) if spaced else None


def parted_in_html(attributes: Dict[str, str]) -> Optional[Attributes]:
    """Returns the attributes of an element of SVG or MathML in HTML, or `None` if none is in a
    namespace."""
    if _ADJUSTED.keys().isdisjoint(attributes):
        return None
    return parted((*_ADJUSTED.get(key, ("", key)), value) for key, value in attributes.items())
