"""Values whose references are replaced, shorthands, and what is inherited.

The expected values are those of CSS Custom Properties for Cascading Variables 1, sections 2 and 3.
"""

from __future__ import annotations

import collections
import contextlib
import os
import sys
import types
import unittest
from typing import Dict, List
from unittest import mock

sys.path.insert(0, os.path.join(os.path.dirname(os.path.abspath(__file__)), "..", "src"))

from simplecss import (  # noqa: E402
    LimitError,
    StyleSheet,
    Tree,
    longhands,
    resolve,
    shorthands,
)
from simplecss._families import family_of  # noqa: E402
from simplecss._resolving import computed  # noqa: E402

PAGE = '<div style="--x: blue"><p><b style="--x: inherit">a</b></p></div><p>c</p>'


def by_name(sheet: str, page: str = PAGE) -> List[Dict[str, str]]:
    """Returns the values on each element of a page's body, by their names."""
    tree = Tree.from_html(page)
    styles = StyleSheet(sheet).styles(tree, specified=True, resolved=True)
    found = [{each.name: each.value for each in those} for those in styles]
    names = [element.name for element in tree]
    return found[names.index("body") + 1 :]


class UserAgent(unittest.TestCase):
    """The rules that HTML and SVG suggest (HTML Standard, 15.3; SVG 2, 6.8)."""

    def test_layers(self) -> None:
        """All others are above them, also attributes of SVG and rules in layers."""
        tree = Tree.from_html("<ul><li hidden>a</ul><svg><title display=block>b</title></svg>")
        sheet = StyleSheet("@layer a { li { display: flex } } ul { list-style-type: square }")
        for specified, title in ((False, "none"), (True, "block")):
            found = sheet.style(tree, "display", specified=specified, ua=True)
            values = {each.name: found[each] and found[each].value for each in tree}
            self.assertEqual((values["li"], values["title"]), ("flex", title))
            self.assertEqual((values["body"], values["svg"]), ("block", None))
        inherited = sheet.style(tree, "list-style-type", inherit=True, ua=True)
        self.assertEqual(inherited[tree.select("li")[0]].value, "square")

    def test_origin(self) -> None:
        """Their origin is the user agent's (CSS Cascading 5, section 6.1), however specific they are: only
        the sheets of that origin are compared with them."""
        tree = Tree.from_html("<p align=center>")
        texts = (
            "* { text-align: left }",
            "* { text-align: right }",
            "@layer { * { text-align: end } }",
        )
        for origins, value in (
            (("author",) * 3, "right"),
            (("user-agent", "user"), "end"),
            (("user-agent", "user", "user"), "right"),
            (("user-agent",) * 3, "center"),
        ):
            sheet = StyleSheet(*texts, origins=origins)
            self.assertEqual(sheet.style(tree, "text-align", ua=True)[-1].value, value)
            self.assertEqual(sheet.styles(tree, ua=True)[-1][-1].value, value)

    def test_important(self) -> None:
        """What is important of theirs wins over all others."""
        tree = Tree.from_html("<input type=hidden style='display: block !important'>")
        sheet = StyleSheet("input { display: flex !important }", origins=["user"])
        found = sheet.style(tree, "display", specified=True, ua=True)[-1]
        self.assertEqual(str(found), "display: none !important")

    def test_shorthands(self) -> None:
        """A shorthand of the author's wins over a longhand of theirs."""
        tree = Tree.from_html("<ul style='list-style: square'>")
        sheet = StyleSheet("ul { margin: 0 }")
        found = sheet.style(tree, "list-style-type", specified=True, shorthands=True, ua=True)
        self.assertEqual(str(found[-1]), "list-style: square")
        self.assertEqual(
            str(sheet.style(tree, "list-style-type", shorthands=True, ua=True)[-1]),
            "list-style-type: disc",
        )

    def test_logical_names(self):
        tree = Tree.from_html("<p><h1><ul>")
        sheet = StyleSheet("")
        for name, kind, value in (
            ("margin-top", "p", "1em"),
            ("margin-top", "h1", "0.67em"),
            ("margin-bottom", "ul", "1em"),
            ("padding-left", "ul", "40px"),
        ):
            found = sheet.style(tree, name, ua=True, shorthands=True)[tree.select_one(kind)]
            self.assertEqual(found and found.value, value)
        for text, due in (
            ("p { margin-top: 1px; margin-block: 2px }", "margin-block: 2px"),
            ("p { margin-block-start: 1px; margin: 2px }", "margin: 2px"),
            (
                "p { width: 1px; inline-size: 2px !important } p { width: 3px }",
                "inline-size: 2px !important",
            ),
        ):
            asked = (
                ("width", "inline-size")
                if "width" in text
                else ("margin-top", "margin-block-start")
            )
            for name in asked:
                found = StyleSheet(text).style(tree, name, shorthands=True)
                self.assertEqual(str(found[tree.select_one("p")]), due)
        found = sheet.style(tree, "margin-left", ua=True, shorthands=True)[tree.select_one("p")]
        self.assertIsNone(found)

    def test_devices(self) -> None:
        """They are those of each tree, also where one sheet is asked again."""
        sheet = StyleSheet("b { top: 1px }")
        for _ in range(2):
            for text, value in (("<b>", "bolder"), ("<b/>", None)):
                tree = Tree.from_html(text) if value else Tree.from_xml(text)
                for ua in (False, True):
                    weight = sheet.style(tree, "font-weight", ua=ua)[-1]
                    self.assertEqual(weight and weight.value, value if ua else None)
                    self.assertEqual(str(sheet.style(tree, "top", ua=ua)[-1]), "top: 1px")

    def test_limits(self) -> None:
        """The limits of a sheet count what is theirs, too."""
        tree = Tree.from_html("<h1>a</h1>" * 5)
        for limits in ({"limit": 9}, {"answer_limit": 9}):
            sheet = StyleSheet("h1 { top: 1px }", **limits)
            self.assertEqual(str(sheet.styles(tree)[-1][0]), "top: 1px")
            with self.assertRaises(LimitError):
                sheet.styles(tree, ua=True)

    def test_grammar(self) -> None:
        """The crate's grammar has no user agent."""
        tree = Tree.from_html("<p>")
        sheet = StyleSheet("p { top: 1px }", grammar="simplecss")
        with self.assertRaises(ValueError):
            sheet.styles(tree, ua=True)
        with self.assertRaises(ValueError):
            sheet.style(tree, "top", ua=True)


class Families(unittest.TestCase):
    def test_shorthands(self) -> None:
        """A shorthand is of the family of what it sets, and so are two names of one property."""
        for name in {each for part in longhands("all") for each in shorthands(part)} - {"all"}:
            self.assertEqual({family_of(each) for each in longhands(name)}, {family_of(name)})
        for one, other in (("word-wrap", "overflow-wrap"), ("grid-gap", "row-gap")):
            self.assertEqual(family_of(one), family_of(other))


class Resolved(unittest.TestCase):
    def test_inheritance(self) -> None:
        div, first, bold, second = by_name(":root{--x:red} p,b{color:var(--x)}")
        self.assertEqual(div, {"--x": "blue"})
        self.assertEqual(first, {"color": "blue"})
        self.assertEqual(bold, {"--x": "blue", "color": "blue"})
        self.assertEqual(second, {"color": "red"})

    def test_invalid(self) -> None:
        """A declaration that is invalid at computed-value time is left out, with those of circles."""
        found = by_name("div{--a:var(--b);--b:var(--a);--c:initial;color:var(--c,var(--a,1px))}")
        self.assertEqual(found[0], {"--x": "blue", "color": "1px"})
        self.assertNotIn("margin", by_name("div{margin:var(--nothing)}")[0])

    def test_registered(self) -> None:
        """A registered property has its initial value, and parents hand it down if it says so (CSS
        Properties and Values API 1, section 2)."""
        rules = (
            '@property --y{syntax:"<length>";inherits:false;initial-value:3px}'
            "@property --z{syntax:'*';inherits:true;initial-value: a}"
            '@media print{@property --z{syntax:"*";inherits:true}}'
            '@property --y{syntax:"<length>";inherits:false}b{@property --y{}}'
            "div{--y:1px}p{--x:var(--y);width:var(--y);top:var(--z)}"
        )
        div, first, bold, second = by_name(rules + "b{left:var(--x);right:var(--y,0);--y:var(--q)}")
        self.assertEqual(div, {"--x": "blue", "--y": "1px"})
        self.assertEqual(first, {"--x": "3px", "width": "3px", "top": "a"})
        self.assertEqual(bold, {"--x": "3px", "left": "3px", "right": "3px", "--y": "3px"})
        self.assertEqual(second, first)
        # What has no value hands none down.
        found = by_name(rules + "div{--z:initial}p{--z:var(--q)}b{left:var(--z,none)}")
        self.assertEqual([each.get("--z") for each in found], ["a", None, None, None])
        self.assertEqual(found[2]["left"], "none")

    def test_limits(self) -> None:
        """What doubles is cut off."""
        count = 64
        pairs = [(f"--a{n}", f"var(--a{n + 1}) var(--a{n + 1})") for n in range(count)]
        values = computed([*pairs, (f"--a{count}", "x")], longest=100)
        self.assertIsNone(values[0])
        self.assertEqual([len(each or "") for each in values[-4:]], [15, 7, 3, 1])
        with self.assertRaises(LimitError):
            computed([("--a", "long")], most=2)

    def test_read(self) -> None:
        """What is read again for each element has a limit."""
        rules = '@property --a{syntax:"*";inherits:true;initial-value:' + "x" * 99 + "}"
        page = "".join(f'<p style="--b{n}:1">' for n in range(9))
        for sheet in (rules, ":root{--a:" + "x" * 150 + "}"):
            for most, is_refused in ((5000, False), (999, True)):
                with mock.patch("simplecss._resolving.MOST_READ", most):
                    with contextlib.ExitStack() as stack:
                        if is_refused:
                            stack.enter_context(self.assertRaises(LimitError))
                        self.assertEqual(len(by_name(sheet, page)), 9)


class Names(unittest.TestCase):
    def test_shorthands(self) -> None:
        self.assertEqual(
            set(shorthands("border-top-color")) & {"border", "border-top"},
            {"border", "border-top"},
        )
        self.assertNotIn("direction", longhands("all"))

    def test_style(self) -> None:
        tree = Tree.from_html("<p>")
        sheet = StyleSheet("p{margin-left:1px;margin:2px}p{margin-top:3px}")
        for name, text in (
            ("margin-left", "margin: 2px"),
            ("margin-top", "margin-top: 3px"),
        ):
            found = sheet.style(tree, name, shorthands=True)
            self.assertEqual(str(found[len(tree) - 1]), text)

    def test_resolve(self) -> None:
        """What the other packages return (CSS Variables 1, sections 2.3 and 3)."""
        own = [
            ("color", "var(--m, red)"),
            ("--a", "var(--b)"),
            ("--b", "var(--a)"),
            ("x", "[var(--é)]"),
        ]
        own.append(("--é", "é"))
        self.assertEqual(resolve(own, limit=2), [None, None, None, None, "é"])
        rules = [("--m", 'syntax: "*"; inherits: false; initial-value: green')]
        self.assertEqual(resolve(iter(own), [("--m", "blue")], registered=rules)[0], "green")

    def test_mappings_are_pairs(self) -> None:
        rule = 'syntax: "*"; inherits: false; initial-value: green'
        for kind in (dict, collections.OrderedDict, types.MappingProxyType):
            self.assertEqual(
                resolve(
                    kind({"color": "var(--a) var(--b)"}),
                    kind({"--a": "blue"}),
                    registered=kind({"--b": rule}),
                ),
                ["blue green"],
            )
        for pairs in (["ab"], [("a",)], [("a", "b", "c")], [("a", 1)], [(b"a", "b")], [None], 5):
            for words in ((pairs,), ((), pairs)):
                with self.assertRaises(TypeError):
                    resolve(*words)
            with self.assertRaises(TypeError):
                resolve((), registered=pairs)


if __name__ == "__main__":
    unittest.main()
