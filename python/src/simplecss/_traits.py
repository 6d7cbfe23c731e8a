"""What of a selector decides whether its rules are written into attributes."""

from __future__ import annotations

import functools
from typing import NamedTuple

from ._found_names import Name, names_in, pseudo_names
from ._reading import is_supported
from ._selectors import OF_TREE
from ._tokens import tokens, without_gaps
from ._words import lower

# The pseudo-classes and pseudo-elements that browsers know. A rule set whose selectors have others,
# or a namespace, stays whole, since a browser may drop all of it.
_KNOWN = frozenset(
    "before after first-line first-letter placeholder selection marker"
    " hover active focus focus-within focus-visible link visited any-link target root empty"
    " first-child last-child only-child first-of-type last-of-type only-of-type"
    " enabled disabled checked required optional valid invalid read-only read-write".split()
)
_KNOWN_FUNCTIONS = frozenset(("not", "has", "is", "where"))
_NUMBERED = frozenset(("nth-child", "nth-last-child", "nth-of-type", "nth-last-of-type"))
# What namespaces and parentheses have, and pseudo-classes.
_SPECIAL = frozenset(":|(")
# The ids, classes and attributes that mail clients add to a page, whose rules match nothing yet, and
# how names of further ones begin.
_CLIENT_NAMES = {
    "id": frozenset(("outlook", "messageviewbody", "messagewebviewdiv", "body")),
    "class": frozenset(("externalclass", "readmsgbody", "yshortcuts", "moz-text-html")),
}
_CLIENT_PREFIXES = {
    "class": ("gmail", "mso", "aolmail"),
    "attribute": (
        "data-ogsc",
        "data-ogsb",
        "data-outlook-cycle",
        "x-apple-data-detectors",
        "owa",
    ),
}

# How many texts are kept with what they have, and how long they may be.
_MOST_KEPT, _LONG = 8192, 400


class Traits(NamedTuple):
    """Whether every browser knows the pseudo-classes of a selector, and it has no namespace; whether
    it depends on more than the tree; and whether it has a name that mail clients add.
    """

    is_known: bool
    has_state: bool
    is_of_client: bool


def traits_of(selector: str) -> Traits:
    """Returns what a selector has."""
    return _usual_traits(selector) if len(selector) <= _LONG else _traits(selector)


def _traits(selector: str) -> Traits:
    pseudo = pseudo_names(selector)
    return _traits_as(
        _is_known_selector(selector),
        any(each.is_element or each.name not in OF_TREE for each in pseudo),
        _is_of_client(selector),
    )


# Most selectors have the same.
_traits_as = functools.lru_cache(maxsize=None)(Traits)
_usual_traits = functools.lru_cache(maxsize=_MOST_KEPT)(_traits)


def _is_known_selector(selector: str) -> bool:
    """Whether every browser knows the pseudo-classes of a selector, and it has no namespace."""
    if _SPECIAL.isdisjoint(selector):
        return True
    if ("|" in selector or "(" in selector) and _has_other(selector):
        return False
    return all(_is_known_name(selector, each) for each in pseudo_names(selector))


def _is_known_name(selector: str, name: Name) -> bool:
    """Whether every browser knows a pseudo-class or a pseudo-element, with its arguments."""
    if not name.is_function:
        return name.name in _KNOWN
    if name.name in _NUMBERED:
        return _is_read(selector[name.start : name.after])
    is_language = name.name == "lang" and _is_language(selector[name.end : name.after])
    return is_language or name.name in _KNOWN_FUNCTIONS


@functools.lru_cache(maxsize=1024)
def _is_read(text: str) -> bool:
    """Whether the library matches elements by a selector."""
    return is_supported(text) is True


def _is_language(arguments: str) -> bool:
    """Whether in the parentheses is one name."""
    return [each.kind for each in without_gaps(arguments)] == [
        "delim",
        "ident",
        "delim",
    ]


def _has_other(selector: str) -> bool:
    """Whether a selector has a namespace, or a parenthesis that is not of a pseudo-class."""
    found = [each for each in tokens(selector) if each.kind != "comment"]
    texts = [each.text for each in found]
    functions = sum(each.is_function for each in pseudo_names(selector))
    opened = sum(each.kind == "function" or each.text == "(" for each in found)
    bars = zip(texts, [*texts[1:], ""])
    return opened != functions or any(one == "|" and other != "=" for one, other in bars)


def _is_of_client(selector: str) -> bool:
    """Whether a selector has a name that mail clients add to a page, or `u +`, before which they put a
    doctype as a `u`."""
    return any(
        lower(each.name) in _CLIENT_NAMES.get(each.kind, ())
        or lower(each.name).startswith(_CLIENT_PREFIXES.get(each.kind, ()))
        for each in names_in(selector)
    ) or ("+" in selector and _has_u_before_plus(selector))


def _has_u_before_plus(selector: str) -> bool:
    """Whether a name `u` is before a plus sign."""
    found = without_gaps(selector)
    return any(
        one.kind == "ident" and lower(one.value) == "u" and other.text == "+"
        for one, other in zip(found, found[1:])
    )
