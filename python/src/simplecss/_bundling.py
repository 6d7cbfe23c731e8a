"""What is done with edits of style sheets: a scope, prefixes, other urls, and one sheet of several."""

from __future__ import annotations

from typing import Callable, List, Optional, Sequence, Tuple

from ._editing import Edit
from ._found_names import names_in
from ._given import expect_css
from ._linked import Load, Name, Shelf, imported, imports_in
from ._reading import AtRule, Condition, Source, read_sheet
from ._tokens import escape
from ._urls import joined


def scope(text: str, selector: str) -> str:
    """Returns a style sheet with a selector and a blank before each of its selectors, but for those of rules in
    style rules. The rest stays byte for byte."""
    return scoped(Edit(text), selector).text


def scoped(edit: Edit, selector: str) -> Edit:
    """Does to an edit what `scope` does."""
    return edit.selectors(lambda each: f"{selector} {each}")


def prefix(text: str, front: str, *, kinds: Sequence[str] = ("class",)) -> str:
    """Returns a style sheet with a text before each class in its selectors, or before each name of these kinds: a
    "class" or an "id". The rest stays byte for byte."""
    return prefixed(Edit(text), front, kinds).text


def prefixed(edit: Edit, front: str, kinds: Sequence[str] = ("class",)) -> Edit:
    """Does to an edit what `prefix` does."""

    def change(selector: str) -> str:
        parts: List[str] = []
        last = 0
        for name in names_in(selector):
            if name.kind in kinds:
                parts += selector[last : name.start + 1], escape(front + name.name)
                last = name.end
        return "".join([*parts, selector[last:]])

    return edit.selectors(change, nested=True)


def rewrite_urls(text: str, change: Callable[[str], str]) -> str:
    """Returns a style sheet with other urls. The rest stays byte for byte."""
    return Edit(text).urls(change).text


def rebase_urls(edit: Edit, base: str) -> Edit:
    """Takes the relative urls of an edit from a base."""
    return edit.urls(lambda url: joined(base, url)) if base else edit


def bundle(
    text: str,
    *,
    at: Optional[Name] = None,
    folder: Optional[Name] = None,
    load: Optional[Load] = None,
) -> str:
    """Returns a style sheet with the sheets that it imports in the place of the imports, in their layers and
    conditions, with urls taken from its own place.

    Files are in `folder`, or `load` returns them for their urls, as for `StyleSheet.of_page`; `at` is where the
    sheet is. What is not read stays, if it is before all that are; else `ValueError` is raised, and so it is for a
    sheet that declares namespaces.
    """
    return bundled(text, at=at, folder=folder, load=load).text


def bundled(
    text: str,
    *,
    name: str = "style.css",
    at: Optional[Name] = None,
    folder: Optional[Name] = None,
    load: Optional[Load] = None,
) -> Edit:
    """Returns the edit that `bundle` makes."""
    expect_css(text)
    return _Bundle(Shelf(at, folder, load)).edit_of(text, "", (), name).commit()


class _Bundle:
    """The sheets that are put in place of imports."""

    def __init__(self, shelf: Shelf) -> None:
        self._shelf = shelf
        # Whether one was put in.
        self._has_some = False

    def edit_of(self, text: str, url: str, above: Tuple[str, ...], name: str = "") -> Edit:
        """Returns a sheet with those that it imports in their places."""
        above = (*above, self._shelf.name_of(url))
        moved = rebase_urls(Edit(text), url).text if url else text
        edit = Edit(moved, name=name or url)
        imports = imports_in(moved)
        if imports and any(each.name == "namespace" for each in edit.sheet.at_rules):
            raise ValueError(f"{name or url}: it imports sheets, and declares namespaces")
        places = {_start_of(each): each for each in edit.sheet.at_rules}
        source = Source(moved)
        for each in imports:
            found = imported(each, None, self._shelf, above)
            if found is not None:
                self._has_some = True
                conditions = [one.condition for one in each.around(self._shelf)]
                inner = _inside(
                    self.edit_of(found.css, found.url, above).text, found.url, conditions
                )
                edit.replace(places[source.offset(each.span[0])], inner)
            elif self._has_some or len(above) > 1:
                raise ValueError(f"{each.url}: {self._shelf.unread[-1].reason}")
        return edit


def _start_of(rule: AtRule) -> Optional[int]:
    """Returns where an at-rule begins."""
    return None if rule.place is None else rule.place.start


def _inside(text: str, url: str, conditions: Sequence[Condition]) -> str:
    """Returns a sheet in group rules."""
    declared = [
        each for each in read_sheet(text)[1] if isinstance(getattr(each, "rule", None), AtRule)
    ]
    if any(getattr(each, "rule").name == "namespace" for each in declared):
        raise ValueError(f"{url}: it declares namespaces")
    heads = "".join(f"{each} {{\n" for each in conditions)
    return f"{heads}{text.rstrip()}\n{'}' * len(conditions)}"
