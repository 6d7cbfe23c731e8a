"""A browser's own style sheets: what HTML and SVG suggest, as data."""

from __future__ import annotations

import functools
from pathlib import Path
from typing import TYPE_CHECKING, List, Tuple

from ._selectors import Reading
from ._tree import Tree, elements_of

if TYPE_CHECKING:
    from ._sheet import StyleSheet

_HTML, _SVG = "ua_html.css", "ua_svg.css"


@functools.lru_cache(maxsize=None)
def _sheet_of(names: Tuple[str, ...]) -> StyleSheet:
    """Returns the sheet of these files."""
    from ._sheet import StyleSheet

    texts = [Path(__file__).with_name(name).read_text(encoding="utf-8") for name in names]
    origins = ("user-agent",) * len(texts)
    return StyleSheet(*texts, origins=origins, limit=None, answer_limit=None)


def user_agent_sheet(tree: Tree) -> StyleSheet:
    """Returns the sheet that a browser has for a tree: that of HTML for an HTML page, and for XML whose
    root is `html`; and that of SVG if there are elements of SVG."""
    elements = elements_of(tree)
    names: List[str] = []
    if elements.reading != Reading.AS_WRITTEN or elements.names[:1] == ["html"]:
        names.append(_HTML)
    if elements.drawn:
        names.append(_SVG)
    return _sheet_of(tuple(names))
