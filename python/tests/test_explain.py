"""Explanations of what wins: the order of the cascade, criteria, places and forms.

The rows say what CSS Cascading 5 says (sections 6.1 to 6.4 and 7.3); tests/cascade.py asks a browser.
"""

from __future__ import annotations

import contextlib
import io
import json
import os
import pickle
import sys
import tempfile
import unittest
from html.parser import HTMLParser
from pathlib import Path
from typing import Any, List, Optional, Tuple, Type
from unittest import mock

sys.path.insert(0, os.path.join(os.path.dirname(os.path.abspath(__file__)), "..", "src"))

import simplecss  # noqa: E402
from simplecss.__main__ import main  # noqa: E402

IMPORTANCE, STYLE, LAYERS = "origin and importance", "style attribute", "layers"
SPECIFICITY, ORDER = "specificity", "order of appearance"
Said = List[Tuple[str, Optional[str]]]

# A sheet, a page whose first `p` is asked about its `color`, and its declarations with their criteria.
ROWS: List[Tuple[str, str, Said]] = [
    ("", "<p>", []),
    ("p{color:red}", "<p>", [("red", None)]),
    ("p{color:red} p{color:blue}", "<p>", [("blue", None), ("red", ORDER)]),
    ("p{color:red;color:blue}", "<p>", [("blue", None), ("red", ORDER)]),
    ("#a{color:red} p{color:blue}", "<p id=a>", [("red", None), ("blue", SPECIFICITY)]),
    (
        ".a{color:red} p:first-child{color:blue}",
        "<p class=a>",
        [("blue", None), ("red", SPECIFICITY)],
    ),
    ("#a{color:red}", "<p id=a style=color:blue>", [("blue", None), ("red", STYLE)]),
    ("p{color:red!important}", "<p style=color:blue>", [("red", None), ("blue", IMPORTANCE)]),
    (
        "p{color:red!important}",
        "<p style=color:blue!important>",
        [("blue", None), ("red", STYLE)],
    ),
    ("@layer b{#a{color:red}} p{color:blue}", "<p id=a>", [("blue", None), ("red", LAYERS)]),
    (
        "@layer x,y; @layer y{p{color:red}} @layer x{#a{color:blue}}",
        "<p id=a>",
        [("red", None), ("blue", LAYERS)],
    ),
    (
        "@layer x,y; @layer y{p{color:red!important}} @layer x{p{color:blue!important}}",
        "<p>",
        [("blue", None), ("red", LAYERS)],
    ),
    (
        "p{color:red!important} @layer x{p{color:blue!important}} #a{color:lime}",
        "<p id=a>",
        [("blue", None), ("red", LAYERS), ("lime", IMPORTANCE)],
    ),
    (".a{&{color:red} p&{color:blue}}", "<p class=a>", [("blue", None), ("red", SPECIFICITY)]),
    ("p,.a{color:red}", "<p class=a>", [("red", None), ("red", SPECIFICITY)]),
    ("p::before{color:red} q{color:blue}", "<p>", []),
    ("@media print{p{color:red}} p{color:blue}", "<p>", [("blue", None)]),
    ("p{color:var()} p{COLOR:blue}", "<p>", [("blue", None)]),
]


def first(sheet: str, page: str, name: str = "color", **more: Any) -> Any:
    """The explanation of the first `p` of a page."""
    element = simplecss.Tree.from_html(page).select_one("p")
    assert element is not None
    return simplecss.StyleSheet(sheet).explain(element, name, **more)


class Explanations(unittest.TestCase):
    def test_rows(self) -> None:
        for sheet, page, due in ROWS:
            with self.subTest(sheet=sheet, page=page):
                found = first(sheet, page)
                self.assertEqual([(each.value, each.criterion) for each in found.contenders], due)
                won = None if found.winner is None else found.winner.value
                self.assertEqual(won, due[0][0] if due else None)
                self.assertEqual(found.computed, won)

    def test_origins(self) -> None:
        """Of important declarations the user agent's win, and of others the author's."""
        texts = ("p{color:red} p{top:1px!important}", "p{color:blue} p{top:2px!important}")
        sheet = simplecss.StyleSheet(*texts, origins=["user-agent", "user"])
        for name, due in (
            ("color", [("lime", "author"), ("blue", "user"), ("red", "user-agent")]),
            ("top", [("1px", "user-agent"), ("2px", "user"), ("3px", "author")]),
        ):
            element = simplecss.Tree.from_html(
                "<p style='color:lime;top:3px!important'>"
            ).select_one("p")
            assert element is not None
            found = sheet.explain(element, name).contenders
            self.assertEqual([(each.value, each.origin) for each in found], due)
            self.assertEqual([each.criterion for each in found], [None, IMPORTANCE, IMPORTANCE])

    def test_presentation(self) -> None:
        tree = simplecss.Tree.from_html("<svg><rect fill=red></svg>")
        sheet = simplecss.StyleSheet("*{fill:blue}")
        element = tree.select_one("rect")
        assert element is not None
        one, other = sheet.explain(element, "fill").contenders
        self.assertEqual((one.value, one.origin), ("blue", "author"))
        self.assertEqual(
            (other.value, other.origin, other.criterion), ("red", "presentation", IMPORTANCE)
        )

    def test_rolled_back(self) -> None:
        found = first("@layer x{p{color:red}} p{color:revert-layer} #a{color:blue}", "<p id=a>")
        self.assertEqual([each.is_rolled_back for each in found.contenders], [False] * 3)
        found = first("@layer x{p{color:red}} #a{color:revert-layer} p{color:blue}", "<p id=a>")
        self.assertEqual([each.is_rolled_back for each in found.contenders], [True, True, False])
        self.assertEqual(found.winner.value, "red")
        found = first("p{color:revert}", "<p>")
        self.assertEqual((found.winner, found.contenders[0].is_rolled_back), (None, True))

    def test_places(self) -> None:
        sheet = "\u00e4{}\n@layer a.b {\n  @layer c { p { top: 0; color: red } }\n}\n@layer { p { color: blue } }"
        one, other = first(sheet, "<p>").contenders
        self.assertEqual((one.place[:4], one.layer), ((0, None, 5, 14), "(anonymous)"))
        self.assertEqual((other.place[:4], other.layer), ((0, None, 3, 26), "a.b.c"))
        self.assertEqual((one.selector, one.specificity, one.important), ("p", (0, 0, 1), False))
        one = first("", "<div>\n <p style='color: red'>").contenders[0]
        self.assertEqual((one.place[:4], one.selector), ((None, None, 2, 2), None))

    def test_shorthands(self) -> None:
        sheet = "p{margin:1px} p{margin-top:2px} p{margin-block:3px}"
        self.assertEqual(
            [each.value for each in first(sheet, "<p>", "margin-top").contenders],
            ["3px", "2px", "1px"],
        )
        found = first(sheet, "<p>", "margin-top", shorthands=False)
        self.assertEqual([each.value for each in found.contenders], ["2px"])

    def test_inherited(self) -> None:
        found = first("div{color:red;top:1px}", "<div><b><p>")
        self.assertEqual((found.contenders, found.winner, found.computed), ((), None, None))
        self.assertEqual((found.inherited_from.name, found.inherited.computed), ("div", "red"))
        self.assertIsNone(first("div{top:1px}", "<div><p>", "top").inherited_from)

    def test_references(self) -> None:
        page = "<div style='--a: blue'><p>"
        self.assertEqual(first("p{color:var(--a, red)}", page).computed, "blue")
        self.assertEqual(first("p{color:var(--b, red)}", page).computed, "red")
        found = first("p{color:var(--b)}", page)
        self.assertEqual((found.winner.value, found.computed), ("var(--b)", None))

    def test_user_agent(self) -> None:
        found = first("p{display:inline}", "<p>", "display", ua=True)
        self.assertEqual([each.origin for each in found.contenders], ["author", "user-agent"])
        self.assertIsNone(found.contenders[1].place.source)

    def test_refused(self) -> None:
        tree = simplecss.Tree.from_html("<p>")
        sheet = simplecss.StyleSheet("p{color:red}")
        self.assertRaises(TypeError, sheet.explain, tree, "color")
        self.assertRaises(TypeError, sheet.explain, tree[0], b"color")
        port = simplecss.StyleSheet("p{color:red}", grammar="simplecss")
        self.assertRaises(ValueError, port.explain, tree[0], "color")

    def test_pickled(self) -> None:
        sheet = pickle.loads(pickle.dumps(simplecss.StyleSheet("p{color:red}")))
        element = simplecss.Tree.from_html("<p>").select_one("p")
        assert element is not None
        one = sheet.explain(element, "color").contenders[0]
        self.assertEqual(pickle.loads(pickle.dumps(one)), one)


class Tags(HTMLParser):
    """What a page of HTML has: its elements, and its text."""

    def __init__(self, page: str) -> None:
        super().__init__()
        self.names: List[str] = []
        self.text = ""
        self.feed(page)

    def handle_starttag(self, tag: str, attrs: List[Tuple[str, Optional[str]]]) -> None:
        self.names.append(tag)

    def handle_data(self, data: str) -> None:
        self.text += data


class Terminal(io.TextIOWrapper):
    """A stream that says that it is a terminal."""

    def isatty(self) -> bool:
        return True


class Command(unittest.TestCase):
    def run_on(
        self, page: str, *words: str, stream: Type[io.TextIOWrapper] = io.TextIOWrapper
    ) -> Tuple[int, str]:
        """The status and the output of the command on a page, where standard output is such a stream."""
        with tempfile.TemporaryDirectory() as folder:
            path = Path(folder) / "a.html"
            path.write_text(page, encoding="utf-8")
            written = io.BytesIO()
            shown = stream(written, encoding="utf-8")
            with contextlib.redirect_stdout(shown), contextlib.redirect_stderr(io.StringIO()):
                status = main(["explain", *words, str(path)])
            shown.flush()
            return status, written.getvalue().decode("utf-8").replace(f"{folder}{os.sep}", "")

    def test_text(self) -> None:
        page = "<style>#a{color:red} p{color:blue}</style>\n<p id=a>"
        status, text = self.run_on(page, "p", "color")
        lines = [" ".join(line.split()) for line in text.splitlines()]
        self.assertEqual(status, 0)
        self.assertEqual(
            lines,
            [
                'a.html:2:1: <p id="a"> color',
                "wins color: red #a <style>:1:4 author 1,0,0",
                "loses color: blue p <style>:1:17 author 0,0,1 specificity",
            ],
        )
        self.assertNotIn("\033", text)

    def test_colours(self) -> None:
        page = "<style>p{color:red}</style><p>"
        for setting, is_coloured in (("", True), ("1", False)):
            with mock.patch.dict(os.environ, {"NO_COLOR": setting}):
                text = self.run_on(page, "p", "color", stream=Terminal)[1]
                self.assertEqual("\033[32m" in text, is_coloured)
        self.assertNotIn("\033", self.run_on(page, "p", "color")[1])

    def test_json(self) -> None:
        page = "<style>div{color:var(--a, red)}</style><div><p>"
        status, text = self.run_on(page, "p", "color", "--json")
        found = json.loads(text)
        self.assertEqual((status, found["winner"], found["contenders"]), (0, None, []))
        self.assertEqual((found["inherited"]["winner"], found["inherited"]["computed"]), (0, "red"))

    def test_nothing(self) -> None:
        self.assertEqual(self.run_on("<b>", "p", "color"), (1, ""))
        self.assertEqual(self.run_on("<b>", "p[", "color"), (1, ""))

    def test_page(self) -> None:
        """The page of HTML has the text of the sheet as text alone."""
        page = "<style>p{--a:'</td></style ><script>x()</script>'} </style><p><style>p{--a:\"<i>&amp;\"}</style>"
        with tempfile.TemporaryDirectory() as folder:
            target = Path(folder) / "out.html"
            status, text = self.run_on(page, f"--html={target}", "p", "--", "--a")
            self.assertEqual((status, text), (0, ""))
            found = target.read_text(encoding="utf-8")
        tags = Tags(found)
        self.assertFalse({"script", "i", "link", "img"} & set(tags.names))
        self.assertIn("<i>&amp;", tags.text)
        self.assertIn("prefers-color-scheme: dark", found)


if __name__ == "__main__":
    unittest.main()
