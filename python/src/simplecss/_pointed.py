"""The selector at a place of a style sheet, and how specific it is."""

from __future__ import annotations

from typing import List, NamedTuple, Optional, Sequence

from . import _library as library
from ._reading import Contents, ReadAtRule, Source, Span, read_sheet
from ._selectors import Specificity
from ._sheet import StyleSheet
from ._tokens import parts_of


class Pointed(NamedTuple):
    """A selector: where its characters begin and end in the sheet, its text, and its specificity."""

    start: int
    end: int
    text: str
    specificity: Specificity


def selector_at(css: str, offset: int) -> Optional[Pointed]:
    """Returns the selector of a style rule that is at an offset of a sheet, if the library supports it."""
    source = Source(css)
    at = len(library.encode(css[:offset]))
    # Where what is before the blocks of the open rules is, of a group rule nothing.
    heads: List[Optional[Span]] = []
    for rule in Contents(source).rules():
        if rule is None:
            heads.pop()
            continue
        start, end = rule.head
        if at < start:
            return None
        heads.append(rule.head if rule.condition is None else None)
        if at <= end:
            outer = [source.at(each) for each in heads[:-1] if each is not None]
            return None if heads[-1] is None else _selector_in(source, outer, heads[-1], offset)
    return None


def _selector_in(
    source: Source, outer: Sequence[str], head: Span, offset: int
) -> Optional[Pointed]:
    """Returns the selector at an offset of the list that is before a block in these rules."""
    first = source.offset(head[0])
    for part in parts_of(source.at(head)):
        start = first + part[0].start if part else first
        text = "".join(token.text for token in part)
        if start <= offset <= start + len(text):
            specificity = _specificity_of(text, outer, _namespaces_of(source.text))
            return specificity and Pointed(start, start + len(text), text, specificity)
    return None


def _namespaces_of(css: str) -> str:
    """Returns the declarations of namespaces of a sheet."""
    found = (each for each in read_sheet(css)[1] if isinstance(each, ReadAtRule))
    return "".join(str(each.rule) for each in found if each.rule.name == "namespace")


def _specificity_of(selector: str, outer: Sequence[str], front: str) -> Optional[Specificity]:
    """Returns the specificity of a selector of a rule in others, after these declarations of namespaces."""
    heads = "".join(f"{head}{{" for head in (*outer, selector))
    sheet = StyleSheet(f"{front}{heads}top:0{'}' * (1 + len(outer))}")
    found = (each for each in sheet.rules if each.declarations and len(each.parents) == len(outer))
    return next((each.specificity for each in found), None)
