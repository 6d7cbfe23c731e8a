"""Texts of style sheets that are made of rules."""

from __future__ import annotations

import itertools
from typing import TYPE_CHECKING, Iterable, Union

from ._declaration import Declaration
from ._reading import AtRule, ended

if TYPE_CHECKING:
    from ._sheet import Rule, Unsupported

    Made = Union[Rule, Unsupported, AtRule]


def sheet_text(rules: "Iterable[Made]") -> str:
    """Returns the text of a sheet with these rules. Those one after another that are in the same group
    rules are in one. No blank is after a name or a value, since an escape at its end would take it in.
    """
    lines = []
    for conditions, found in itertools.groupby(rules, key=lambda each: each.conditions):
        lines += [f"{_head(*each)}{{" for each in conditions]
        lines += map(_rule_text, found)
        lines.append("}" * len(conditions))
    return "\n".join(lines)


def with_end(rule: "Made") -> "Made":
    """Returns a rule that says the same, of an at-rule with what the end of a sheet closes."""
    if not isinstance(rule, AtRule):
        return rule
    head = _head(rule.name, rule.prelude)
    if rule.block is None:
        front = len(head) - len(rule.prelude)
        return rule._replace(prelude=(ended(head) or head)[front:])
    closed = ended(f"{head}{{{rule.block}")
    return rule if closed is None else rule._replace(block=closed[len(head) + 1 : -1])


def _head(name: str, prelude: str) -> str:
    """Returns an at-rule up to its block."""
    gap = " " if "\\" not in name else "/**/"
    return f"@{name}{gap if prelude else ''}{prelude}"


def _rule_text(rule: "Made") -> str:
    """Returns the text of a rule, with the style rules that it is in."""
    if isinstance(rule, AtRule):
        head = _head(rule.name, rule.prelude)
        return f"{head};" if rule.block is None else f"{head}{{{rule.block}}}"
    element = getattr(rule, "pseudo_element", None)
    head = rule.selector if element is None else f"{rule.selector}::{element}"
    text = f"{head}{{{' '.join(map(_declared, rule.declarations))}}}"
    for parent in reversed(getattr(rule, "parents", ())):
        text = f"{parent}{{{text}}}"
    return text


def _declared(declaration: Declaration) -> str:
    important = "!important" if declaration.important else ""
    return f"{declaration.name}:{declaration.value}{important};"
