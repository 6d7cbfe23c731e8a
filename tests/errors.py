"""What the calls of the Python package raise on random sheets: what `docs/PYTHON.md` names for each, and nothing
else.

`COUNT` sets how many sheets there are, and `SEED` which.
"""
from __future__ import annotations

import os
import random
from typing import Any, Callable, Dict, List, NamedTuple, Optional, Sequence, Tuple, Type

from .common import Case, count, package

package()
import simplecss  # noqa: E402
from simplecss import Selector, SelectorError, StyleSheet, Tree  # noqa: E402

# fmt: off
SELECTORS = (
    "p", "*", ".a", "#x", "[title]", "[title=\"it's\"]", "[title='\"']", "p > b", "b, p", "p:hover", "p::before",
    "a:link", "p:not(.a, b)", ":is(p, !)", "&", "& > b", "> b", "p:nth-child(2n of .a)", ":has(b)", ":x", "::y",
    "p\\", "\\70 ", "a\\31", "a|b", "*|p", "[a|b]", "p!", "", ",", "p,", "#outlook a", ":root", "svg g", "[a=b i]",
    "p:is(", "p[a", "\u6c34", ".\U0001f600", "\0", "--x",
)
NAMES = ("color", "margin", "margin-top", "all", "--a", "--\\62", "*zoom", "fill", "\\63olor", "b", "", "font", "COLOR")
VALUES = (
    "red", "0", "1px", "var(--a)", "var(--a,", "url(x)", "url('a", "'x", "\"it's\"", "a\\", "a\\\n", "f(", "}", "[x]",
    "revert", "revert-layer", "inherit", "!important", "red !important", "red!IMPORTANT", "", ";", "{a:b}", "/*", "/**/",
    "\u6c34", "calc(1px + (2px)", "1e3", "<", "</style>", "\f", "\0",
)
LAYERS = (
    "a", "a.b", "", "a, b", "a,b", "a b", "!", "a/**/.b", "\\61", "a\\", "1", "'a'", "a)", "inherit", "a.", "--a",
    "a\\\n", "/**/", "(a)",
)
GROUPS = (
    "@media print", "@media", "@media (width > 1px)", "@media (a", "@supports (a:b)", "@supports not", "@container (x)",
    "@scope (p)", "@starting-style", "@-moz-document url()", "@x", "@page", "@font-face", "@keyframes k",
    "@property --a", "@namespace", "@charset",
)
STATEMENTS = (
    "@import 'a';", "@import url(a) layer(x) print;", "@import 'a' layer;", "@import 'a' layer(a b);", "@import;",
    "@import 'b' supports(a:b);", "@import 'a' layer(", "@namespace 'x';", "@namespace a url(x);", "@layer a, b;",
    "@layer a b;", "@layer;", "@charset 'x';", "@x;", "<!--", "-->", "}", ")", ";", "/*", "/* c */", "'x\n", "\\", "@",
)
ENDS = ("", "", "", "", "}", "{", "/*", "'", "\\", "(", "@layer", "@media{")
PAGES = (
    "<p id=x class=a title=\"it's\">x<b>y</b>", "<style>p{a:b}</style><p style='color:red'>", "<svg><g fill=red></svg><a href=x>",
    "<!doctype html><p class=A><b style='x:revert-layer'>", "<link rel=stylesheet href=a><p><b>",
)
# fmt: on
LINKED = {"a": "p{color:blue} @layer x{b{c:d}}", "b": "@import 'a'; b{e:f}"}
XML = "<svg xmlns='http://www.w3.org/2000/svg'><style>g{a:b}</style><g id='x' class='a'/></svg>"

# A call of a sheet's text on a page, and what it may raise.
Call = Callable[[str, str], Any]
NOTHING: Tuple[Type[BaseException], ...] = ()


class Row(NamedTuple):
    """A call, and what it may raise."""

    name: str
    call: Call
    allowed: Tuple[Type[BaseException], ...] = NOTHING


def made(sheet: str, **options: Any) -> Tuple[StyleSheet, List[Any]]:
    """Returns a sheet, and what its texts have."""
    found = StyleSheet(sheet, **options)
    parts = [found.rules, found.unsupported, found.at_rules, found.skipped, str(found)]
    return found, parts


def loaded(url: str) -> Optional[str]:
    """Returns a sheet that a page or another sheet names."""
    return LINKED.get(url)


def of_rules(sheet: str, page: str) -> StyleSheet:
    """Returns the sheet of the rules of a sheet."""
    found = StyleSheet(sheet)
    return StyleSheet.of_rules([*found.rules, *found.unsupported, *found.at_rules])


def styled(sheet: str, page: str) -> Any:
    """Returns what wins, with everything that may take part."""
    options: Dict[str, Any] = {"specified": True, "inherit": True, "resolved": True, "ua": True}
    return StyleSheet(sheet).styles(Tree.from_html(page), **options)


def of_page(sheet: str, page: str) -> Any:
    """Returns what wins by the sheets of a page."""
    tree = Tree.from_html(f"<style>{sheet}</style>{page}")
    found = StyleSheet.of_page(tree, load=loaded)
    return found.match(tree), found.styles(tree), str(found)


def inlined(**options: Any) -> Call:
    """Returns the call that writes a sheet into a page."""

    def call(sheet: str, page: str) -> str:
        return simplecss.inline(page, sheet, report=[], **options)

    return call


def inlined_with_another(sheet: str, page: str) -> str:
    """Returns a page with a sheet of its own, and with two that are passed."""
    return simplecss.inline(f"<style>{sheet}</style>{page}", [sheet, "p{a:b}"], load=loaded)


ROWS = (
    Row("contents", lambda sheet, page: made(sheet)),
    Row("contents of the crate's", lambda sheet, page: made(sheet, grammar="simplecss")),
    Row("match", lambda sheet, page: StyleSheet(sheet).match(Tree.from_html(page))),
    Row(
        "match of the crate's",
        lambda sheet, page: StyleSheet(sheet, grammar="simplecss").match(Tree.from_html(page)),
    ),
    Row("styles", styled),
    Row(
        "styles of the crate's",
        lambda sheet, page: StyleSheet(sheet, grammar="simplecss").styles(
            Tree.from_html(page), specified=True, inherit=True
        ),
    ),
    Row(
        "style",
        lambda sheet, page: StyleSheet(sheet).style(
            Tree.from_html(page), "margin-top", shorthands=True, media=lambda text: True
        ),
    ),
    Row("of_page", of_page),
    Row("of_rules", of_rules, (ValueError,)),
    Row("unused", lambda sheet, page: StyleSheet(sheet).unused(Tree.from_html(page))),
    Row("lint", lambda sheet, page: [each.message for each in simplecss.lint(sheet)]),
    Row(
        "lint of the crate's",
        lambda sheet, page: simplecss.lint(sheet, unsupported=True, grammar="simplecss"),
    ),
    Row("minify", lambda sheet, page: simplecss.minify(sheet)),
    Row("prettify", lambda sheet, page: simplecss.prettify(sheet)),
    Row("declarations", lambda sheet, page: simplecss.declarations(sheet)),
    Row("tokens", lambda sheet, page: [each.value for each in simplecss.tokens(sheet)]),
    Row("escape", lambda sheet, page: (simplecss.escape(sheet), simplecss.quote(sheet))),
    Row("selectors", lambda sheet, page: str(Selector(sheet.split("{")[0])), (SelectorError,)),
    Row("select", lambda sheet, page: Tree.from_html(page).select(sheet), (SelectorError,)),
    Row("resolve", lambda sheet, page: simplecss.resolve({"--a": sheet, "color": "var(--a)"})),
    Row("has_valid_references", lambda sheet, page: simplecss.has_valid_references(sheet)),
    Row("inline", inlined(), (ValueError,)),
    Row("inline, no importance", inlined(important=False, remove_classes=True), (ValueError,)),
    Row("inline, all stays", inlined(keep_style=True, base_url="http://h/"), (ValueError,)),
    Row("inline, several sheets", inlined_with_another, (ValueError,)),
    Row(
        "inline, XML", lambda sheet, page: simplecss.inline(XML, sheet, is_xml=True), (ValueError,)
    ),
)


class Source(random.Random):
    """Random sheets, the same in each run."""

    def declaration(self) -> str:
        """A declaration, which may be broken."""
        return f"{self.choice(NAMES)}{self.choice((':', ':', ':', ' :', ''))}{self.choice(VALUES)}"

    def block(self, depth: int) -> str:
        """What is in the block of a style rule."""
        parts: List[str] = []
        for _ in range(self.choice((0, 1, 1, 2, 3))):
            is_rule = depth < 4 and self.random() < 0.25
            parts.append(self.rule(depth + 1) if is_rule else self.declaration() + ";")
        return "".join(parts)

    def rule(self, depth: int) -> str:
        """A rule, which may have others in it."""
        kind = self.random()
        if kind < 0.2:
            return f"@layer {self.choice(LAYERS)}{{{self.inside(depth)}}}"
        if kind < 0.35:
            return f"{self.choice(GROUPS)}{{{self.inside(depth)}}}"
        if kind < 0.45:
            return self.choice(STATEMENTS)
        selectors = ", ".join(self.choice(SELECTORS) for _ in range(self.choice((1, 1, 1, 2))))
        return f"{selectors}{{{self.block(depth)}}}"

    def inside(self, depth: int) -> str:
        """What is in the block of a group rule."""
        if depth >= 4 or self.random() < 0.2:
            return self.block(depth)
        return "".join(self.rule(depth + 1) for _ in range(self.choice((0, 1, 2))))

    def sheet(self) -> str:
        """A sheet, whose end may be missing."""
        text = "".join(self.rule(0) for _ in range(self.choice((1, 1, 2, 3, 5))))
        if self.random() < 0.2:
            text = text[: self.randrange(len(text) + 1)]
        return text + self.choice(ENDS)


class Errors(Case):
    def test_only_what_is_documented_is_raised(self) -> None:
        source = Source(int(os.environ.get("SEED", 1)))
        rows: Sequence[Row] = ROWS
        failures: List[str] = []
        total = count(400)
        for _ in range(total):
            sheet, page = source.sheet(), source.choice(PAGES)
            for row in rows:
                try:
                    row.call(sheet, page)
                except row.allowed:
                    pass
                except Exception as error:
                    failures.append(f"{row.name}: {error!r} of {sheet!r} on {page!r}")
        self.sweep(total * len(rows), failures)
