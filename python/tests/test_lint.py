"""What `lint` calls a mistake: names that no standard has, declarations that are lost, rules without
declarations, and slips of the pen. And which selectors `unused` says to match nothing. The expected
values are from the standards.

    python3 -m unittest discover python/tests
"""

import contextlib
import io
import json
import os
import sys
import tempfile
import unittest
from contextlib import redirect_stderr, redirect_stdout
from pathlib import Path

sys.path.insert(0, str(Path(__file__).resolve().parents[1] / "src"))
import simplecss  # noqa: E402
from simplecss import (
    __main__ as command,
    _lint,
)  # noqa: E402

# A sheet for each of 19 mistakes that people make, and what is to be reported of it first: the kind,
# where it begins in the sheet, and what was meant.
PLANTED = (
    (".a { colr: red }", "unknown-property", "colr", "color"),
    (
        ".a { background-colour: red }",
        "unknown-property",
        "background",
        "background-color",
    ),
    ("a:hoverr { top: 0 }", "unknown-pseudo-class", ":hoverr", ":hover"),
    ("li:nth-chidl(2n) { top: 0 }", "unknown-pseudo-class", ":nth", ":nth-child"),
    ("p::befor { top: 0 }", "unknown-pseudo-element", "::befor", "::before"),
    ("@medai print { a { top: 0 } }", "unknown-at-rule", "@medai", "@media"),
    (
        "@media (min-widht: 3px) { a { top: 0 } }",
        "unknown-media-feature",
        "min-",
        "min-width",
    ),
    ("a { top: 0; left: 0; top: 1px }", "repeated-declaration", "top: 0", None),
    ("a { }", "empty-rule", "a", None),
    ("a { background: url(x.png; top: 0 }\nb { left: 0 }", "bad-url", "url(", None),
    ("a { content: 'x; top: 0 }\nb { left: 0 }", "bad-string", "'x", None),
    ("a { top: 0 } /* b { left: 0 }", "comment-not-closed", "/*", None),
    ("a { top: 0; /* b }\nc { left: 0 }", "comment-not-closed", "/*", None),
    ("a { top: 0 !importnat }", "misspelt-important", "!importnat", "!important"),
    ("a { top: 0\n left: 0 }", "semicolon-missing", "top", None),
    ("a { top 0; left: 0 }", "broken-declaration", "top 0", None),
    ("a { top: 0; // left\n }", "broken-declaration", "//", None),
    ("a { top: 0 } }\nb { left: 0 }", "stray-bracket", "}\nb", None),
    ("a, { top: 0 }", "invalid-selector", "a,", None),
)
# The document that explains the kinds, in a checkout.
_PATH = Path(__file__).resolve().parents[2] / "docs/LINT.md"
DOCUMENT = _PATH.read_text(encoding="utf-8") if _PATH.exists() else None
# What is right, or meant: that is not reported.
RIGHT = (
    "a { --colr: red; -webkit-colr: red; COLOR: red; zoom: 1 }",
    "a:HOVER, a:before, a::-moz-focus-inner, a:-ms-input-placeholder, a::slotted(b) { top: 0 }",
    "a[href=':hoverr'], a\\:hoverr, a/*:hoverr*/, :lang(':x') { top: 0 }",
    "a:is(b:focus-within, :not(:dir(rtl))):nth-child(2n of .c):has(> :checked) { top: 0 }",
    "@layer a, b; @layer a { } @page :first { size: a4; @top-left { content: 'x' } }",
    "@font-face { src: url(a.eot); src: url(b.woff); font-family: x }",
    "@-moz-document url() { a { top: 0 } } @property --x { syntax: '*'; inherits: true }",
    "@media (width > 3px) and (-webkit-min-device-pixel-ratio: 2), (foo: bar) { a { top: 0 } }",
    "@keyframes x { from { top: 0 } to { top: 1px } }",
    # Browsers take the last value that they support.
    "a { display: block; display: grid; color: red; color: rgb(1 2 3 / 4) }",
    "a { background: #fff; top: 0; background: linear-gradient(red, blue) }",
    "a { text-decoration: none; -webkit-text-decoration: y; text-decoration: underline }",
    "a { top: 0; top: 1px !important }",
    "a { --x: very important; --y: a top: b }",
    # Hacks, for browsers of which each has its own.
    "a { *zoom: 1; _height: 1px }",
    "a { /* nothing yet */ }",
    "a { background: url(data:x) no-repeat; filter: progid:X.Y(a=1) }",
    "a { content: 'top: 0 left: 0'; font-family: important }",
)
# New sheets: what is in a rule of another one is not read, and no mistake.
NESTED = """
.card { color: red; &:hover { color: blue; & > .x { top: 0 } } .title & { top: 0 }
  > h2 { top: 0; + p { left: 0 } } &.wide, &.high { top: 0 } margin: 0;
  @media (width > 40em) { padding: 0; .x { top: 0 } } @supports (top: 0) { & { top: 0 } }
  :hover { top: 0 } a:hover { left: 0 } ::before { top: 0 } [href="x"] { top: 0 }
  &[data-a='b'] { top: 0 } * { top: 0 } #i { top: 0 } span:hover { top: 0 } left: 0 }
@layer base { .a { .b { top: 0 } } } @container (width > 3px) { .a { & .b { top: 0 } } }
@scope (.a) to (.b) { :scope { top: 0 } img { left: 0; &:hover { top: 0 } } }
"""


class Mistakes(unittest.TestCase):
    def test_planted(self):
        for text, kind, begins, meant in PLANTED:
            found = [each for each in simplecss.lint(text) if each.kind == kind]
            with self.subTest(text):
                self.assertEqual(len(found), 1)
                at = text.index(begins)
                row = text.count("\n", 0, at) + 1
                column = at - (text.rfind("\n", 0, at) + 1) + 1
                self.assertEqual(found[0][1:3], (row, column))
                self.assertEqual(found[0].hint, meant)
                if meant is not None:
                    self.assertTrue(found[0].message.endswith(f"(did you mean '{meant}'?)"))

    def test_right(self):
        for text in (*RIGHT, NESTED):
            self.assertEqual(simplecss.lint(text), [], text)

    def test_unknown_names(self):
        for text, expected in (
            ("é { bottm: 0; x1y2z3: 0 }", [("bottm", "bottom"), ("x1y2z3", None)]),
            (
                "é:placeholder, é::hover { top: 0 }",
                [(":placeholder", "::placeholder"), ("::hover", ":hover")],
            ),
            (
                "a:not(:hovr):fist-child { top: 0 }",
                [(":hovr", ":hover"), (":fist-child", ":first-child")],
            ),
            ("@page { top: 0; @top-lef { top: 0 } }", [("@top-lef", "@top-left")]),
            ("@font-face { srcc: url(a) }", [("srcc", "src")]),
            ("a { @media print { tpo: 0 } }", [("tpo", "top")]),
            ("@scope (a) { b { tpo: 0 } }", [("tpo", "top")]),
            (
                "@media é, (hover) and (MIN-WIDHT: 1px) { a { top: 0 } }",
                [("MIN-WIDHT", "min-width")],
            ),
            (
                "@media (oreintation: portrait) { a { top: 0 } }",
                [("oreintation", "orientation")],
            ),
            # Which of the two is meant is not known.
            ("a { src: url(b) }", [("src", None)]),
        ):
            found = [(each.text, each.hint) for each in simplecss.lint(text)]
            self.assertEqual(found, expected, text)

    def test_lost_declarations(self):
        for text, expected in (
            ("a { top: 0; top: 0 }", ["top: 0"]),
            ("a { top: 0 !important; top: 1px }", ["top: 1px"]),
            (
                "a { TOP: 0; left: 0; top: 1px; top: 2px; top: 2px }",
                ["TOP: 0", "top: 2px"],
            ),
            ("a { --x: 0; top: 0; --x: 1 }", ["--x: 1"]),
            # A custom property takes any value, so that none is for other browsers.
            ("a { --x: 0; --x: var(--y, 1) }", ["--x: var(--y, 1)"]),
        ):
            found = [each.text for each in simplecss.lint(text)]
            self.assertEqual(found, expected, text)

    def test_overridden_declarations(self):
        for text, expected in (
            ("a { margin-top: 0; margin: 1px }", ["margin-top: 0"]),
            (
                "a { border-color: red; border-top: 0; border: 0; border-left: 1px }",
                ["border-color: red", "border-top: 0"],
            ),
            ("a { line-height: 2; font: 12px x !important }", ["line-height: 2"]),
            ("a { margin-top: 0 !important; margin: 1px; margin-left: 0 }", []),
            ("a { background-color: #fff; background: rgba(0, 0, 0, .5) }", []),
            ("a { grid-gap: 0; gap: 0 }", []),
        ):
            found = [each.text for each in simplecss.lint(text)]
            self.assertEqual(found, expected, text)

    def test_where_it_begins(self):
        for text, kind, expected in (
            ("a { content: 'b' \"é;\n; top: 0 }", "bad-string", '"é;'),
            ("a { background: url(a), url(b c) }", "bad-url", "url(b c)"),
            ("a { content: 'url(' url(b c) }", "bad-url", "url(b c)"),
            ("a { content: 'b' 'c", "value-not-closed", "'c"),
            ("a { content: 'é' 'c", "value-not-closed", "'c"),
            (
                "a { content: 'é' calc(1px + 'é'",
                "value-not-closed",
                "content: 'é' calc(1px + 'é'",
            ),
            (
                "a { content: 'é' 'x; top: 0 }\nb { left: 0 }",
                "bad-string",
                "'x; top: 0 }",
            ),
            ("a { content: 'é' /* b }", "comment-not-closed", "/* b }"),
            ("é:hover, é:hovré { top: 0 }", "unknown-pseudo-class", ":hovré"),
            ("a { top: 0 IMPORTANT }", "misspelt-important", "IMPORTANT"),
            ("a { /* b }", "comment-not-closed", "/* b }"),
            ("a { top: 0 /* b }", "comment-not-closed", "/* b }"),
            ("@media print { a { top: 0 /* b }", "comment-not-closed", "/* b }"),
            ("a { top: 0 important }", "misspelt-important", "important"),
            ("a { top: 0 !!important }", "misspelt-important", "!important"),
            (
                "a { color: red background: blue !important }",
                "semicolon-missing",
                "color: red",
            ),
            ("@media print { }", "empty-rule", "@media print { }"),
        ):
            found = [each.text for each in simplecss.lint(text) if each.kind == kind]
            self.assertEqual(found, [expected], text)

    def test_late_rules(self):
        # CSS Cascading 5, section 2; CSS Namespaces 3, section 3; CSS Syntax 3, section 3.2.
        for text, expected in (
            ("@charset 'x'; @layer a; @import 'b'; @namespace 'c'; d { top: 0 }", []),
            ("@import 'a'; @namespace b 'c'; @import 'd';", ["@import 'd';"]),
            ("@import 'a'; @layer b; @import 'c';", ["@import 'c';"]),
            ("@layer a; @namespace 'b';", []),
            ("@import 'a'; @foo { } @import 'b'; @namespace 'c';", []),
            (
                "@font-face { src: url(a) } @import 'b'; @namespace 'c';",
                ["@import 'b';", "@namespace 'c';"],
            ),
            ("@media print { @import 'a'; } ", ["@import 'a';"]),
            (
                "@media print { @namespace 'a'; b { top: 0 } } @namespace 'c';",
                ["@namespace 'a';", "@namespace 'c';"],
            ),
            (
                "a { top: 0 } @CHARSET 'x'; @\\69mport 'b'",
                ["@CHARSET 'x';", "@\\69mport 'b'"],
            ),
        ):
            found = [each.text for each in simplecss.lint(text) if each.kind.startswith("late-")]
            self.assertEqual(found, expected, text)

    def test_repeated_rules(self):
        for text, kind, expected in (
            (
                "@import 'a'; @import url(a); @import 'a' print;",
                "repeated-import",
                ["@import url(a);"],
            ),
            (
                "@import 'a' layer(x) screen  and (y); @import 'a' layer( x ) screen and (y);",
                "repeated-import",
                ["@import 'a' layer( x ) screen and (y);"],
            ),
            (
                "@import 'a' layer; @import 'a'; b { top: 0 } @import 'a';",
                "repeated-import",
                [],
            ),
            (
                "a  b { top: 0 } a b { left: 0 } a, b { top: 0 }",
                "repeated-rule",
                ["a b"],
            ),
            ("@media x { a { top: 0 } a { left: 0 } }", "repeated-rule", ["a"]),
            (
                "a { top: 0 } @media x { a { top: 0 } } @media x { a { top: 0 } }",
                "repeated-rule",
                [],
            ),
            (
                "@layer x { a { top: 0 } @media y { a { top: 0 } } a { left: 0 } }",
                "repeated-rule",
                ["a"],
            ),
        ):
            found = [each.text for each in simplecss.lint(text) if each.kind == kind]
            self.assertEqual(found, expected, text)

    def test_in_rules(self):
        for text, expected in (
            ("a, b , a { top: 0 } @media x { c,/**/d, /**/d { top: 0 } }", ["a", "d"]),
            ("a  b, a\nb { top: 0 } :is(a, a), [b=','], ',' { top: 0 }", ["a\nb"]),
            ("é, é { --x: 0; --X: 0; --x: 1; --x: 2 } a { --x: 0 }", ["é", "--x: 1", "--x: 2"]),
            (
                "@scope (a) { b, b { --x: 0; --x: 0 } } @starting-style { c, c { top: 0 } }",
                ["b", "--x: 0", "c"],
            ),
            (
                "@keyframes k { to { top: 0 ! important; left: 0; --x: 0; --x: 0!IMPORTANT } }",
                ["top: 0 ! important", "--x: 0!IMPORTANT", "--x: 0!IMPORTANT"],
            ),
            ("@-WEBKIT-keyframes k { a { top: 0 !important } }", ["a", "top: 0 !important"]),
            ("@media x { @keyframes k { to { top: 0!important", ["top: 0!important"]),
        ):
            kinds = ("repeated-", "important-", "invalid-keyframe")
            found = [each.text for each in simplecss.lint(text) if each.kind.startswith(kinds)]
            self.assertEqual(found, expected, text)

    def test_layers(self):
        for text, expected in (
            (
                "@layer a, b.c; @layer b { d { top: 0 } } @layer e.f { d { top: 0 } }",
                ["@layer e.f"],
            ),
            # A list with one name says no order, and a layer in another one has its own names.
            ("@layer a; @layer b { c { top: 0 } }", []),
            ("@layer a, b; @layer a { @layer c { d { top: 0 } } } @layer { d { top: 0 } }", []),
            ("@layer a, b; @media x { @layer c { d { top: 0 } } } @layer c;", []),
            ("@layer a, b; @layer c { }", ["@layer c { }"]),
            ("@layer { }", ["@layer { }"]),
        ):
            found = [each.text for each in simplecss.lint(text)]
            self.assertEqual(found, expected, text)

    def test_descriptors(self):
        for text, expected in (
            ("@counter-style a { system: fixed 3; symbols: '*' }", []),
            ("@counter-style a { system: fixd 3 }", [("fixd", "fixed")]),
            ("@font-face { font-display: Swap }", []),
            ("@font-face { font-display: none }", [("none", None)]),
            ("@property --x { syntax: '<length># | auto|<color>+'; inherits: false }", []),
            (
                "@property --x { syntax: '<colour>'; inherits: no }",
                [("'<colour>'", None), ("no", None)],
            ),
            ("a { background: -webkit-gradient(linear, 0 0, 0 100%, from(red), to(blue)) }", []),
        ):
            found = [(each.text, each.hint) for each in simplecss.lint(text)]
            self.assertEqual(found, expected, text)

    def test_style_attributes(self):
        page = "<p style='colr: red; top: 0; top: 0; --x: 0; --x: 1'>"
        found = _lint.findings("a.html", page)
        self.assertEqual([each.text for each in found], ["colr", "top: 0", "--x: 1"])


class Values(unittest.TestCase):
    def test_quirks_mode(self):
        """There numbers are lengths, and in attributes of elements that are not in HTML, as in Chromium."""
        sheet = simplecss.StyleSheet("p { width: 2em; width: 34 }")
        own = "style='left: 0; left: 34; color: red; color: abc'"
        for head, width, left, color in (
            ("", "34", "34", "abc"),
            ("<!DOCTYPE html>", "2em", "0", "red"),
        ):
            tree = simplecss.Tree.from_html(f"{head}<p {own}><svg {own}>")
            shape, text = tree.select_one("svg"), tree.select_one("p")
            self.assertEqual(sheet.style(tree, "width")[text].value, width)
            for element, due in ((text, (left, color)), (shape, ("34", "abc"))):
                found = [sheet.explain(element, name).winner for name in ("left", "color")]
                self.assertEqual(tuple(each.declaration.value for each in found), due)
        text = "<p xmlns='http://www.w3.org/1999/xhtml' style='left: 0; left: 34'/>"
        tree = simplecss.Tree.from_xml(text)
        winner = sheet.explain(tree.elements[0], "left").winner
        self.assertEqual(winner.declaration.value, "0")

    def test_takes_value(self):
        for name, value, expected in (
            ("color", "red", True),
            ("COLOR", "ReD", True),
            ("margin", "1px auto", True),
            ("color", "reed", False),
            ("width", "1px 2px", False),
            ("margin", "inherit 1px", False),
            # What the table does not know.
            ("width", "calc(1px + 2%)", None),
            ("width", "-moz-available", None),
            ("width", "1px\\9", None),
            ("width", "", None),
            ("--x", "red", None),
            ("colr", "red", None),
            ("color", "red\nred", None),
            ("color:x", "red", None),
        ):
            self.assertIs(simplecss.takes_value(name, value), expected, (name, value))

    def test_findings(self):
        for text, expected in (
            (
                "a { color: reed; float: lef }",
                [("invalid-value", "reed", "red"), ("invalid-value", "lef", "left")],
            ),
            (
                "a { width: 100; margin: 0 5 }",
                [("unit-missing", "100", None), ("unit-missing", "5", None)],
            ),
            ("a { border: 1px solide red }", [("invalid-value", "solide", "solid")]),
            # The value of a descriptor is none of a property.
            ("@font-face { font-style: oblique 1deg 2deg; src: url(a); font-display: swap }", []),
            ("a { color: red\\9; color: #fff !ie; width: expression(1) }", []),
        ):
            found = [
                each
                for each in simplecss.lint(text)
                if each.kind in ("invalid-value", "unit-missing")
            ]
            self.assertEqual([(each.kind, each.text, each.hint) for each in found], expected, text)


class Kinds(unittest.TestCase):
    def test_ignore(self):
        text = "a { colr: red } b { }"
        kinds = [each.kind for each in simplecss.lint(text)]
        self.assertEqual(kinds, ["unknown-property", "empty-rule"])
        for ignore, count in (
            ("unknown", 1),
            (["empty-rule", "unknown-property"], 0),
            ((), 2),
        ):
            self.assertEqual(len(simplecss.lint(text, ignore=ignore)), count)

    def test_comments(self):
        for text, count in (
            ("a { colr: red } /* simplecss-ignore unknown-property */", 0),
            ("a { colr: red; } /* simplecss-ignore empty, unknown */ b { }", 0),
            ("a { colr: red; /* simplecss-ignore empty */ }", 1),
            ("a { colr: red /* simplecss-ignore */ }", 0),
            ("/* simplecss-ignore */\na { colr: red }", 1),
            ("\n\na:hoverr { top: 0 } /* simplecss-ignore */\nb { }", 1),
            # What is no comment turns nothing off.
            ("a { colr: red; content: 'simplecss-ignore' }", 1),
            ("a { colr: simplecss-ignore }", 1),
        ):
            self.assertEqual(len(simplecss.lint(text)), count, text)
        page = "<style>\na { colr: red } /* simplecss-ignore */</style><p style='tpo: 0'>"
        self.assertEqual([each.text for each in _lint.findings("a.html", page)], ["tpo"])

    def test_each_is_turned_off(self):
        """By its name, and by a comment in its line; and it alone is reported if it is selected."""
        for each in _lint.explained().values():
            kind, wrong = _lint.kind_of(each.reason), each.wrong.replace("\\n", "\n")
            found = [one for one in simplecss.lint(wrong) if one.kind == kind]
            self.assertEqual(len(found) > 0, wrong != "", kind)
            kept = simplecss.lint(wrong, ignore=kind)
            self.assertEqual([one for one in kept if one.kind == kind], [], wrong)
            lines = wrong.split("\n")
            for one in found:
                lines[one.row - 1] = f"/* simplecss-ignore {kind} */" + lines[one.row - 1]
            kept = simplecss.lint("\n".join(lines))
            self.assertEqual([one for one in kept if one.kind == kind], [], wrong)
            for words, due in ((["--select", kind], {kind}), (["--ignore", kind], set())):
                out = io.StringIO()
                with redirect_stdout(out), redirect_stderr(io.StringIO()), given(wrong):
                    command.main(["lint", "--json", *words, "-"])
                shown = {json.loads(line)["kind"] for line in out.getvalue().splitlines()}
                self.assertEqual(shown & {kind}, due if wrong else set(), (words, wrong))
                self.assertTrue(shown <= {kind} or words[0] == "--ignore", (words, wrong))

    def test_each_is_explained(self):
        """Each kind is found in a sheet with it alone, and not in the sheet without it."""
        reasons = {kind for _, kind, _, _ in PLANTED}
        kinds = {_lint.kind_of(each) for each in _lint.explained()}
        self.assertLessEqual(reasons, kinds)
        page = Path(__file__).parents[1].joinpath("README.md").read_text(encoding="utf-8")
        for each in _lint.explained().values():
            kind = _lint.kind_of(each.reason)
            self.assertIn(f"{kind} ", _lint.kinds())
            self.assertIn(f"| `{kind}` | {each.severity} | {each.text} |\n", page)
            wrong, right = (text.replace("\\n", "\n") for text in (each.wrong, each.right))
            if wrong:
                found = {one.kind for one in simplecss.lint(wrong)}
                # The end of the text closes a block, too.
                self.assertEqual(found - {"block-not-closed"} or found, {kind}, wrong)
            self.assertEqual(simplecss.lint(right), [], right)
            self.assertIn(each.text, _lint.explanation(kind))
            if DOCUMENT is not None:
                self.assertIn(
                    f"## {kind}\n\n{each.severity.capitalize()}: {each.text}.\n", DOCUMENT
                )
                for word, css in (("wrong", wrong), ("right", right)) if wrong else ():
                    self.assertIn(f"```css\n/* {word} */\n{css}\n```\n", DOCUMENT)

    def test_severities(self):
        for text, severity in (
            ("a { colr: red }", "error"),
            ("a { }", "warning"),
            ("a { top: 0 } b { top: 0 } a { left: 0 }", "note"),
        ):
            self.assertEqual([each.severity for each in simplecss.lint(text)], [severity])

    def test_explain(self):
        for words, status, begins in (
            (["--explain", "empty-rule"], 0, "empty-rule (warning): a rule without"),
            (["--explain"], 0, "bad-string "),
            (["--explain", "no-such-kind"], 2, ""),
            ([], 2, ""),
        ):
            out = io.StringIO()
            with redirect_stdout(out), redirect_stderr(io.StringIO()):
                self.assertEqual(command.main(["lint", *words]), status)
            self.assertTrue(out.getvalue().startswith(begins), words)


# Selectors, of which each page has an element or none has.
PAGES = (
    "<!doctype html><div class=a><a href=x>y</a><p class=b>c<input type=checkbox></div>",
    "<!doctype html><main><a>x</a></main>",
)
USED = """p, .a, main, a:link, a:visited, a:hover, .a::before, ::before, p::first-line, input:checked,
div:hover > p:not(:hover), div:not(.x):hover, a:not(:visited), main a:not(:link), :is(.b, .x):focus-within, :root:hover,
p:not(:empty):active, main:not(.a:hover), x:host, div:has(> p:hover), p:nth-last-child(1 of .b)"""
UNUSED = """p.x, .x, .x:hover, p:visited, .y:checked, .x::after, [href=':hover'], div:not(.a):hover,
.x:not(:hover), p:not(:hover).x, p:empty, :is(.x,.y):focus-within, main a:link, div main, .a:focus ~ main, nav:target,
a:autofill.x, .x:hover::before, div:has(.x), p:nth-child(2 of .b)"""


class Usage(unittest.TestCase):
    def setUp(self):
        self.trees = list(map(simplecss.Tree.from_html, PAGES))

    def unused(self, text):
        sheet = simplecss.StyleSheet(text)
        return [each.selector for each in sheet.unused(*self.trees)]

    def test_selectors(self):
        self.assertEqual(self.unused(f"{USED} {{ top: 0 }}"), [])
        found = self.unused(f"{UNUSED} {{ top: 0 }}")
        self.assertEqual(found, UNUSED.replace("\n", " ").split(", "))

    def test_rules(self):
        text = "é { top: 0 }\n@media print { p, .x { top: 0 } } @font-face { src: url(a) }"
        found = simplecss.StyleSheet("main { }", text).unused(*self.trees)
        self.assertEqual(
            found,
            [
                simplecss.Unused("é", 1, 1, True, 1, 0, 1),
                simplecss.Unused(".x", 2, 19, False, 1, 31, 33),
            ],
        )
        self.assertEqual(text[31:33], ".x")
        self.assertEqual(len(simplecss.StyleSheet(text).unused()), 3)
        with self.assertRaises(ValueError):
            simplecss.StyleSheet(text, grammar="simplecss").unused(*self.trees)

    def test_command(self):
        with tempfile.TemporaryDirectory() as folder:
            sheet = os.path.join(folder, "a.css")
            text = "a { top: 0 }\n.x { top: 0 }\n@media print { .y, .z { top: 0 } p, .x { left: 0 } }\n"
            Path(sheet).write_text(text, encoding="utf-8")
            for number, page in enumerate(PAGES):
                Path(folder, f"{number}.html").write_text(page, encoding="utf-8")
            lines = [
                f"{sheet}:2:1: '.x' matches nothing",
                f"{sheet}:3:16: '.y' matches nothing",
                f"{sheet}:3:20: '.z' matches nothing",
                f"{sheet}:3:37: '.x' matches nothing, and others of its rule do",
            ]
            self.assertEqual(self.run_command(sheet, folder), (0, "\n".join(lines) + "\n"))
            found = [
                json.loads(it) for it in self.run_command("--json", sheet, folder)[1].splitlines()
            ]
            self.assertEqual([each["selector"] for each in found], [".x", ".y", ".z", ".x"])
            self.assertEqual(
                self.run_command("--print", sheet, folder),
                (0, "a { top: 0 }\n\n@media print {  p, .x { left: 0 } }\n"),
            )
            # Without a sheet, those that the pages link to.
            self.assertEqual(self.run_command(folder), (0, ""))
            page = Path(folder, "2.html")
            page.write_text("<link rel=stylesheet href=a.css><i class=z>", encoding="utf-8")
            lines = [
                each.replace(sheet, os.path.relpath(sheet)) for each in lines if ".z" not in each
            ]
            lines[1] += ", and others of its rule do"
            self.assertEqual(self.run_command(folder), (0, "\n".join(lines) + "\n"))
            self.assertEqual(self.run_command(sheet, os.path.join(folder, "none.html"))[0], 4)

    def run_command(self, *words):
        out = io.StringIO()
        with redirect_stdout(out), redirect_stderr(io.StringIO()):
            status = command.main(["unused", *words])
        return status, out.getvalue()


# What a message has of what was probably meant.
HINT = " (did you mean 'color'?)"


class Fixes(unittest.TestCase):
    def test_fixes(self):
        for text, expected in (
            ("a { colr: red; TPO: 0 }", "a { color: red; top: 0 }"),
            (
                "a { top: 0 ! importnat; left: 0 important }",
                "a { top: 0 !important; left: 0 !important }",
            ),
            (
                "a { top: 0\n left: 0\n right: 0 }",
                "a { top: 0;\n left: 0;\n right: 0 }",
            ),
            ("é { colr: red\n top: 0 }", "é { color: red;\n top: 0 }"),
            (
                "@medai print { a:hovr::befor { top: 0 } }",
                "@media print { a:hover::before { top: 0 } }",
            ),
            ("a:placeholder { top: 0 }", "a::placeholder { top: 0 }"),
            # Two known names are near, or none is, or something else may be meant.
            ("a { foat: 0; hight: 0; scale-x: 0 }", None),
            ("a { top: 0; left: 0; top: 1px } b { } c { d }", None),
            ("a { colr: red } /* simplecss-ignore */", None),
        ):
            self.assertEqual(_lint.fixed(text), expected or text)

    def test_command(self):
        with tempfile.TemporaryDirectory() as folder:
            sheet = os.path.join(folder, "a.css")
            Path(sheet).write_bytes("\ufeffé { colr: red;\r\n src: x }\r\n".encode("utf-8"))
            out, errors = io.StringIO(), io.StringIO()
            with redirect_stdout(out), redirect_stderr(errors):
                self.assertEqual(command.main(["lint", "--fix", sheet]), 1)
            self.assertEqual(errors.getvalue(), f"simplecss: {sheet}: 1 corrected\n")
            self.assertEqual(out.getvalue(), f"{sheet}:2:2: 'src': unknown property\n")
            expected = "\ufeffé { color: red;\r\n src: x }\r\n".encode("utf-8")
            self.assertEqual(Path(sheet).read_bytes(), expected)

    def test_standard_input(self):
        """The corrected text is written, and what is left is reported on standard error."""
        for words, text, status, output, errors in (
            (("--fix",), "a{colr:red}", 0, "a{color:red}", "simplecss: -: 1 corrected\n"),
            (("--fix",), "a{color:red}\n", 0, "a{color:red}\n", ""),
            (
                ("--fix",),
                "é{colr:red;src:x}\n",
                1,
                "é{color:red;src:x}\n",
                "simplecss: -: 1 corrected\n-:1:13: 'src': unknown property\n",
            ),
            ((), "a{colr:red}", 1, f"-:1:3: 'colr': unknown property{HINT}\n", ""),
        ):
            out, error = io.StringIO(), io.StringIO()
            with redirect_stdout(out), redirect_stderr(error), given(text):
                self.assertEqual(command.main(["lint", *words, "-"]), status, text)
            self.assertEqual((out.getvalue(), error.getvalue()), (output, errors), text)


@contextlib.contextmanager
def given(text):
    """Gives a text on standard input."""
    old = sys.stdin
    sys.stdin = io.TextIOWrapper(io.BytesIO(text.encode("utf-8")))
    try:
        yield
    finally:
        sys.stdin = old


class Names(unittest.TestCase):
    def test_nearest(self):
        """A letter too many, too few or another, or two that are exchanged. Of several names the first by
        the alphabet with the same first letter."""
        for name, expected in (
            ("lef", "left"),
            ("lfet", "left"),
            ("lest", "left"),
            ("leeft", "left"),
            ("flot", "float"),
            ("boat", None),
            ("odrer", "order"),
            ("flaot", "float"),
            ("tfloa", None),
            ("colör", "color"),
            ("le", None),
            ("x" * 1000, None),
        ):
            found = [each.hint for each in simplecss.lint(f"a {{ {name}: 0 }}")]
            self.assertEqual(found, [expected], name)


if __name__ == "__main__":
    unittest.main()
