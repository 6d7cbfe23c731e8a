"""CSS: selectors, style sheets, and which rules match the elements of a page.

    >>> import simplecss
    >>> tree = simplecss.Tree.from_html("<ul><li class=a>one<li>two</ul>")
    >>> tree.select("ul > .a")
    [<li class="a">]

The work is done by the C library `libsimplecss`; `docs/PYTHON.md` says where it is looked for.
Every call may be made from any thread.
"""

TYPE_CHECKING = False
if TYPE_CHECKING:
    from ._bundling import bundle, prefix, rewrite_urls, scope
    from ._clean import (
        Cleaned,
        CSSSanitizer,
        Dropped,
        Policy,
        clean,
        clean_style,
        is_clean,
        is_clean_style,
    )
    from ._compare import Difference, compare
    from ._declaration import Declaration
    from ._device import Device
    from ._elements import TreeError
    from ._editing import Edit, EditError
    from ._encoding import PageEncoding, page_encoding
    from ._explaining import Contender, Explanation
    from ._found_names import Name
    from ._inline import Inliner, inline
    from ._library import (
        InternalError,
        LibraryError,
        LimitError,
        __version__,
        is_proved,
        library_path,
    )
    from ._linked import Unread
    from ._lint import Finding, lint
    from ._taken import takes_value
    from ._minify import minify, prettify
    from ._placed import Place
    from ._properties import has_valid_references, is_inherited, longhands, shorthands
    from ._properties import has_valid_references as is_valid_value
    from ._reading import AtRule, Condition, declarations
    from ._resolving import resolve
    from ._selector import Selector
    from ._selectors import SelectorError
    from ._sheet import ByElement, ByName, Rule, Skipped, StyleSheet, Unsupported
    from ._split import NotWritten
    from ._tokens import Token, escape, quote, tokens
    from ._tree import Element, Item, Tree
    from ._unused import Unused

    Unmatched = Unsupported

__all__ = [
    "AtRule",
    "ByElement",
    "ByName",
    "CSSSanitizer",
    "Cleaned",
    "Condition",
    "Contender",
    "Declaration",
    "Device",
    "Difference",
    "Dropped",
    "Edit",
    "EditError",
    "Element",
    "Explanation",
    "Finding",
    "Inliner",
    "InternalError",
    "Item",
    "LibraryError",
    "LimitError",
    "Name",
    "NotWritten",
    "PageEncoding",
    "Place",
    "Policy",
    "Rule",
    "Selector",
    "SelectorError",
    "Skipped",
    "StyleSheet",
    "Token",
    "Tree",
    "TreeError",
    "Unread",
    "Unsupported",
    "Unused",
    "__version__",
    "bundle",
    "clean",
    "clean_style",
    "compare",
    "declarations",
    "escape",
    "has_valid_references",
    "inline",
    "is_clean",
    "is_clean_style",
    "is_inherited",
    "is_proved",
    "library_path",
    "lint",
    "longhands",
    "minify",
    "page_encoding",
    "prefix",
    "prettify",
    "quote",
    "resolve",
    "rewrite_urls",
    "scope",
    "shorthands",
    "takes_value",
    "tokens",
]

if not TYPE_CHECKING:
    import sys as _sys
    from typing import get_type_hints as _get_type_hints

    # The names of each module, which is imported when one of them is first used.
    _NAMES = {
        "_bundling": "bundle prefix rewrite_urls scope",
        "_clean": "CSSSanitizer Cleaned Dropped Policy clean clean_style is_clean is_clean_style",
        "_compare": "Difference compare",
        "_declaration": "Declaration",
        "_device": "Device",
        "_elements": "TreeError",
        "_editing": "Edit EditError",
        "_encoding": "PageEncoding page_encoding",
        "_explaining": "Contender Explanation",
        "_found_names": "Name",
        "_inline": "Inliner inline",
        "_library": "InternalError LibraryError LimitError __version__ is_proved library_path",
        "_linked": "Unread",
        "_lint": "Finding lint",
        "_taken": "takes_value",
        "_minify": "minify prettify",
        "_placed": "Place",
        "_properties": "has_valid_references is_inherited longhands shorthands",
        "_reading": "AtRule Condition declarations",
        "_resolving": "resolve",
        "_selector": "Selector",
        "_selectors": "SelectorError",
        "_sheet": "ByElement ByName Rule Skipped StyleSheet Unsupported",
        "_split": "NotWritten",
        "_tokens": "Token escape quote tokens",
        "_tree": "Element Item Tree",
        "_unused": "Unused",
    }
    # What names of an earlier version are now.
    _OLD = {"Unmatched": "Unsupported", "is_valid_value": "has_valid_references"}
    _MODULES = {name: module for module in _NAMES for name in _NAMES[module].split()}

    def _show_public() -> None:
        """Gives each class that is loaded the name by which it is imported, and its fields their types,
        whose names are not in this module."""
        for module, names in _NAMES.items():
            loaded = _sys.modules.get(f"{__name__}.{module}")
            for each in map(vars(loaded).get, names.split()) if loaded else ():
                if isinstance(each, type) and each.__module__ != __name__:
                    if "__annotations__" in vars(each):
                        each.__annotations__ = _get_type_hints(each)
                    each.__module__ = __name__

    def __getattr__(name: str) -> object:
        """Returns what a name denotes, also an old one."""
        from importlib import import_module

        if name in _OLD:
            old = import_module("._deprecated", __name__)
            old.warn_of_old(f"simplecss.{name}", f"simplecss.{_OLD[name]}")
            return __getattr__(_OLD[name])
        if name not in _MODULES:
            raise AttributeError(f"module {__name__!r} has no attribute {name!r}")
        globals()[name] = found = getattr(import_module("." + _MODULES[name], __name__), name)
        _show_public()
        return found

    def __dir__() -> "list[str]":
        return sorted({*globals(), *__all__})
