"""Tests of the package over the built library."""

import ast
import concurrent.futures
import io
import json
import os
import pathlib
import pickle
import random
import subprocess
import sys
import tempfile
import unittest
import unittest.mock
import xml.etree.ElementTree
from contextlib import redirect_stderr, redirect_stdout

sys.path.insert(0, os.path.join(os.path.dirname(__file__), "..", "src"))

import simplecss  # noqa: E402
from simplecss import __main__ as command  # noqa: E402
from simplecss import _library as library  # noqa: E402
from simplecss._kept import KeptList  # noqa: E402
from simplecss._selectors import listed  # noqa: E402
from test_cases import CASES  # noqa: E402

SHEET = "li { color: red; margin: 0 } ul > .a { color: blue !important } #x, p:hover { top: 1px }"
PAGE = '<ul><li class="a b">one<li id=x>two</ul><p>three'


class Selectors(unittest.TestCase):
    def test_those_of_the_crate(self):
        selector = simplecss.Selector("ul>li.a", grammar="simplecss")
        self.assertEqual((str(selector), selector.specificity), ("ul > li[class~='a']", (0, 1, 2)))
        self.assertNotEqual(selector, simplecss.Selector(str(selector)))
        with self.assertRaises(ValueError):
            simplecss.Selector("a", grammar="css")

    def test_refusals_of_the_crate(self):
        for text, error in (
            ("", "1:1: selector missing"),
            ("a\n> > b", "2:3: unexpected combinator"),
            ("a[b^=c]", "1:4: invalid attribute selector"),
            ("a, b", "1:1: more than one selector"),
            ("a:foo >", "1:2: unknown pseudo-class ':foo'"),
            ("b,\n c:foo <", "2:3: unknown pseudo-class ':foo'"),
            ("a {", "1:3: unexpected text after a selector"),
        ):
            with self.assertRaises(ValueError, msg=text) as found:
                simplecss.Selector(text, grammar="simplecss")
            self.assertEqual(found.exception.message, error, text)

    def test_one_selector(self):
        self.assertEqual(simplecss.Selector("p::before").pseudo_element, "before")
        with self.assertRaises(simplecss.SelectorError) as found:
            simplecss.Selector("a, b")
        error = found.exception
        self.assertEqual((error.row, error.column, error.reason), (1, 1, "more than one selector"))

    def test_what_is_no_text(self):
        for value, name in (
            (b"a", "bytes"),
            (["a"], "list"),
            (None, "NoneType"),
            (7, "int"),
        ):
            for call in (
                simplecss.Selector,
                simplecss.StyleSheet,
                simplecss.Tree.from_html,
                simplecss.Tree.from_xml,
                simplecss.Tree().select,
            ):
                if (call, name) == (simplecss.Tree.from_html, "bytes"):
                    continue
                with self.assertRaisesRegex(TypeError, f"str.* expected, not {name}"):
                    call(value)
        with self.assertRaisesRegex(TypeError, "read the file first"):
            simplecss.Tree.from_html(pathlib.Path("a.html"))

    def test_matches(self):
        tree = simplecss.Tree.from_html("<ul><li class=a><b>")
        self.assertTrue(simplecss.Selector("LI.a").matches(tree.select_one("li")))
        self.assertFalse(simplecss.Selector("li.b").matches(tree.select_one("li")))
        of_the_crate = simplecss.Selector("li.a", grammar="simplecss")
        self.assertTrue(of_the_crate.matches(tree.select_one("li")))

    def test_surrogates_are_refused(self):
        with self.assertRaises(ValueError):
            simplecss.Selector("\ud800")


class Sheets(unittest.TestCase):
    def test_rules(self):
        rules = simplecss.StyleSheet(SHEET).rules
        self.assertEqual([rule.selector for rule in rules][:1], ["li"])
        self.assertEqual(
            [rule.specificity for rule in rules],
            [(0, 0, 1), (0, 1, 1), (0, 1, 1), (1, 0, 0)],
        )
        self.assertEqual(rules[0].declarations, (("color", "red", False), ("margin", "0", False)))
        self.assertTrue(rules[1].declarations[0].important)

    def test_texts_are_read_one_after_another(self):
        one = simplecss.StyleSheet("a { b: c }", "", 'd { e: "f\\"\n" }')
        self.assertEqual([rule.selector for rule in one.rules], ["a", "d"])
        self.assertEqual(simplecss.StyleSheet().rules, ())
        self.assertEqual(str(simplecss.StyleSheet()), "")

    def test_strings_come_through(self):
        value = '"tab\t quote \' slash \\\\ bell \a é"'
        sheet = simplecss.StyleSheet("a { content: " + value + " }")
        self.assertEqual(sheet.rules[0].declarations[0].value, value)

    def test_printed_sheet(self):
        sheet = simplecss.StyleSheet("a{b:c}")
        self.assertEqual(str(sheet), "a { b:c; }")

    def test_printed_rules_in_rules(self):
        """What is printed says the same, also of rules in rules, and of what the text leaves open."""
        sheet = simplecss.StyleSheet("p { a: b; &:hover { c: d } e: f; @media print { & i { g: h")
        printed = "p { a:b;&:hover { c: d }e:f;@media print { & i { g: h} } }"
        self.assertEqual(str(sheet), printed)
        self.assertEqual(str(simplecss.StyleSheet("a{b:c\\")), "a { b:c\\\ufffd; }")
        self.assertEqual(str(simplecss.StyleSheet("@import 'a", "b{}")), "@import 'a';\nb { }")
        parts = "a:b; c:d!important; &:hover{x:y} &_b{c:d; } @media_print{x:y} x{ { e:f /* p{&_q{a:b}c:d}"
        parts += " >z{a:b} @layer_k{&{a:b}} \\ bad i,b{m:n} @x_(; @font-face{a:'x"
        words = [each.replace("_", " ") for each in parts.split(" ")]
        choose = random.Random(1)
        for _ in range(500):
            inner = "".join(choose.choice(words) for _ in range(choose.randrange(1, 9)))
            if ("'" in inner or "(" in inner) and "}" in inner:
                continue  # A bad string or a stray bracket, which nothing closes.
            sheet = simplecss.StyleSheet("a{" + inner, "z{y:x}")
            again = simplecss.StyleSheet(str(sheet))
            self.assertEqual(str(again), str(sheet), inner)
            self.assertEqual(again.rules, sheet.rules, inner)

    def test_sheet_of_rules(self):
        text = "@layer x, y; p, q > r::before { a: b; c: d !important } a:host { e: f } @font-face { g: h }"
        text += "@media print { @supports (a:b) { i { j: k } } } a { l: m; & b, > c { n: o } @media tv { p: q } }"
        sheet = simplecss.StyleSheet(text)
        every = [*sheet.at_rules, *sheet.rules, *sheet.unsupported]
        made = simplecss.StyleSheet.of_rules(every)
        self.assertEqual([each for each in made.rules if each.declarations], list(sheet.rules))
        self.assertEqual((made.at_rules, made.unsupported), (sheet.at_rules, sheet.unsupported))
        first = sheet.rules[0]
        red = simplecss.Declaration("color", "red", False)
        changed = simplecss.StyleSheet.of_rules([first._replace(selector="b", declarations=(red,))])
        self.assertEqual(str(changed), "b { color:red; }")
        for value in (
            "x; y: z",
            "x } b { y: z",
            "url(x",
            "'x\n",
            "x /*",
            "x !important",
            "",
        ):
            with self.subTest(value), self.assertRaises(ValueError):
                wrong = first._replace(declarations=(red._replace(value=value),))
                simplecss.StyleSheet.of_rules([wrong])
        for selector in ("a, b", "a { } b", "", "a {", "@media x { a"):
            with self.subTest(selector), self.assertRaises(ValueError):
                simplecss.StyleSheet.of_rules([first._replace(selector=selector)])

    def test_sheet_of_rules_that_did_not_change(self):
        """None is refused: an escape that ends a name takes in a blank after it."""
        texts = [
            r"a\31{b:c}",
            r".a\31,.b\31 .c\31{d:e\31!important;f:g\31}",
            r"a\31{b{c:d}&\31{e:f}}",
            r"@media print{a\31{b:c}}",
            r"@layer\31{a{b:c}}",
            r"@x\31(p){q}@x\31 {q}@x\31;@font-face{a:b\31}",
            r"a::before\31{b:c}",
            "@x{y:(",
            "@import 'x",
        ]
        parts = r"a { } b : c ; \31 \31_ _ @media_x{ --x , ( ) [ ] 's' !important @font-face{ & \ @x @\6d_edia"
        parts += r" @layer_y a{b:c} d:e; p,q\31{ ::before ::\62 /**/ \\ /* é"
        words = [each.replace("_", " ") for each in parts.split(" ")]
        choose = random.Random(1)
        for _ in range(2000):
            texts.append("".join(choose.choices(words, k=choose.randrange(1, 14))) + "*/;}")
        seen = 0
        for text in texts:
            sheet = simplecss.StyleSheet(text)
            with self.subTest(text):
                for rules in (sheet.rules, sheet.unsupported):
                    seen += len(simplecss.StyleSheet.of_rules(rules).rules)
        self.assertGreater(seen, 300)
        for text in texts[:9]:
            simplecss.StyleSheet.of_rules(simplecss.StyleSheet(text).at_rules)

    def test_imports_of_several_texts(self):
        """Each is printed where it counts: before all rules, after what may be before it."""
        for texts, printed in (
            (("a{b:c}", "@import 'x.css';d{e:f}"), "@import 'x.css';\na { b:c; }\nd { e:f; }"),
            (
                (
                    "@layer y;@import 'w';a{b:c}",
                    "@charset 'x';@import 'x';@import 'z' print;d{e:f}",
                ),
                "@layer y;\n@import 'w';\n@import 'x';\n@import 'z' print;\na { b:c; }\n"
                "@charset 'x';\nd { e:f; }",
            ),
            # These count nowhere.
            (("a{b:c}", "d{e:f}@import 'x';"), "a { b:c; }\nd { e:f; }\n@import 'x';"),
            (("a{b:c}@import 'x';",), "a { b:c; }\n@import 'x';"),
        ):
            self.assertEqual(str(simplecss.StyleSheet(*texts)), printed, texts)
        page = "<style>a{b:c}</style><style>@import 'x';@import 'none';@import 'y' layer(z);d{e:f}</style>"
        sheets = {"x": "@import 'w';g{h:i}", "y": "j{k:l}"}
        tree = simplecss.Tree.from_html(page)
        sheet = simplecss.StyleSheet.of_page(tree, load=sheets.get)
        expected = "@import 'w';\n@import 'none';\na { b:c; }\ng { h:i; }\n@layer z {\n  j { k:l; }\n}\nd { e:f; }"
        self.assertEqual(str(sheet), expected)
        self.assertEqual([each.url for each in sheet.unread], ["w", "none"])
        self.assertEqual(str(pickle.loads(pickle.dumps(sheet))), expected)

    def test_limit(self):
        two = ("a, b { c: d }", "e { f: g }")
        self.assertEqual(len(simplecss.StyleSheet(*two, limit=3).rules), 3)
        with self.assertRaises(simplecss.LimitError) as found:
            simplecss.StyleSheet(*two, limit=2)
        self.assertIsInstance(found.exception, ValueError)
        with self.assertRaises(simplecss.LimitError):
            simplecss.StyleSheet("a," * 10_000 + "a{" + "b:c;" * 10_000 + "}")

    def test_skipped(self):
        texts = "a { b: c; é; *d: e }", "\n é < f { g: h } i { j: é] }"
        sheet = simplecss.StyleSheet(*texts)
        self.assertEqual(
            [each[:4] for each in sheet.skipped],
            [
                (1, 11, "broken declaration", "é"),
                (1, 14, "broken declaration", "*d: e"),
                (2, 2, "invalid selector", "é < f { g: h }"),
                (2, 21, "stray bracket", "j: é]"),
            ],
        )
        for each in sheet.skipped:
            self.assertEqual(texts[each.source][each.start : each.end], each.text)


class Port(unittest.TestCase):
    """Sheets by the grammar of the Rust crate."""

    def test_rules(self):
        sheet = simplecss.StyleSheet(
            "a { b: c; *d: e } f:g, h { i: J !IMPORTANT }", grammar="simplecss"
        )
        self.assertEqual(str(sheet), "a { b:c;d:e; }\nh { i:J; }")
        self.assertEqual([rule.selector for rule in sheet.rules], ["a", "h"])
        self.assertEqual((sheet.unsupported, sheet.at_rules), ((), ()))
        tree = simplecss.Tree.from_html("<a><h>", is_part=True)
        self.assertEqual(sheet.match(tree), [[0], [1]])
        self.assertEqual(sheet.style(tree, "i"), [None, ("i", "J", False)])

    def test_skipped(self):
        texts = "a { b: c }", "\n @media print { } x:none { y: z }"
        sheet = simplecss.StyleSheet(*texts, grammar="simplecss")
        self.assertEqual(
            [(part.row, part.column, part.source) for part in sheet.skipped],
            [(2, 2, 1), (2, 19, 1)],
        )
        self.assertEqual(sheet.skipped[0].text, "@media print")
        self.assertEqual(sheet.skipped[1].reason, "unknown pseudo-class")
        for each in sheet.skipped:
            self.assertEqual(texts[1][each.start : each.end], each.text)

    def test_selectors_that_print_otherwise(self):
        """What matches does not depend on how a selector is printed."""
        sheet = simplecss.StyleSheet(
            'p[title="it\'s"] { a: b } p { c: d } p[title="it\'s"] { e: f }', grammar="simplecss"
        )
        tree = simplecss.Tree.from_html('<p title="it\'s"><p title=it>', is_part=True)
        self.assertEqual(sheet.match(tree), [[0, 1, 2], [0]])
        self.assertEqual([rule.specificity for rule in sheet.rules], [(0, 0, 1), *[(0, 1, 1)] * 2])
        self.assertEqual(list(map(len, sheet.styles(tree))), [3, 1])
        self.assertEqual(sheet.style(tree, "a"), [("a", "b", False), None])
        few = simplecss.StyleSheet("p { a: b } * { c: d }", grammar="simplecss", answer_limit=3)
        with self.assertRaisesRegex(simplecss.LimitError, "3 rules and declarations"):
            few.match(tree)

    def test_no_other_grammar(self):
        with self.assertRaises(ValueError):
            simplecss.StyleSheet(grammar="css")


class Modern(unittest.TestCase):
    """Sheets by the grammar of browsers."""

    def styles(self, css, page="<p class=a><b>", **options):
        """Returns what wins on the elements of a part of a page."""
        tree = simplecss.Tree.from_html(page, is_part=True)
        found = simplecss.StyleSheet(css).styles(tree, **options)
        return ["; ".join(map(str, each)) for each in found]

    def test_media(self):
        css = (
            "@media print { p { n: 1 } } @media screen, tv { p { m: 2 } } @media all { b { o: 3 } }"
            "@media not print { b { q: 4 } } @media (width > 1px) { b { r: 5 } } @supports (a: b) { b { s: 6 } }"
        )
        self.assertEqual(self.styles(css, media=lambda prelude: "(" in prelude), ["", "r: 5; s: 6"])
        asked = []
        self.styles(css, media=asked.append)
        self.assertEqual(
            asked,
            [
                "print",
                "screen, tv",
                "all",
                "not print",
                "(width > 1px)",
                "@supports (a: b)",
            ],
        )
        with self.assertRaises(TypeError):
            self.styles(css, media=None)

    def test_conditions(self):
        sheet = simplecss.StyleSheet(
            "@Media x { @supports y { a { b: c } } d { e: f } @page { g: h } }"
        )
        self.assertEqual(
            [tuple(map(str, rule.conditions)) for rule in sheet.rules],
            [("@media x", "@supports y"), ("@media x",)],
        )
        self.assertEqual(sheet.at_rules, (("page", "", "g: h", (("media", "x"),)),))
        self.assertEqual(
            str(sheet),
            "@media x {\n  @supports y {\n    a { b:c; }\n  }\n  d { e:f; }\n"
            "  @page { g: h }\n}",
        )
        self.assertEqual(str(simplecss.StyleSheet(str(sheet))), str(sheet))

    def test_parts_of_a_list(self):
        """The text of each selector of a list reads, alone, as that selector."""
        parts = r"a| |>|.b|[d=e]|::before|,|, |~|:is(a,b c)|\62 |/*,*/|:not(a, b)|\,|[d='x,y']|:lang(en, fr)"
        words, choose, count = parts.split("|"), random.Random(1), 0
        while count < 300:
            text = "".join(choose.choice(words) for _ in range(choose.randrange(3, 9))).encode()
            try:
                with KeptList(text, 0) as kept:
                    rows = list(kept.rows())
            except ValueError:
                continue
            if len(rows) > 1:
                count += 1
                found = listed(text.decode())
                alone = [text[start : start + length].decode() for start, length, *_ in rows]
                self.assertEqual([listed(each) for each in alone], [[each] for each in found], text)

    def test_of_any_element(self):
        sheet = simplecss.StyleSheet(
            "a > ::before, c/**/ ::after, e\\ ::marker, g:/**/:selection { i: j }"
            "k { > ::backdrop { m: n } }"
        )
        self.assertEqual(
            sorted(
                (rule.selector, rule.pseudo_element) for rule in sheet.rules if rule.declarations
            ),
            [
                ("> *", "backdrop"),
                ("a > *", "before"),
                ("c/**/ *", "after"),
                ("e\\ ", "marker"),
                ("g", "selection"),
            ],
        )

    def test_pseudo_elements(self):
        sheet = simplecss.StyleSheet("p::before, .a:After, p { n: 1 } ::marker { m: 2 }")
        self.assertEqual(
            [(rule.selector, rule.specificity, rule.pseudo_element) for rule in sheet.rules],
            [
                ("p", (0, 0, 1), None),
                ("*", (0, 0, 1), "marker"),
                ("p", (0, 0, 2), "before"),
                (".a", (0, 1, 1), "After"),
            ],
        )
        self.assertEqual(self.styles("p { n: 1 } p::before { n: 2 }"), ["n: 1", ""])

    def test_unsupported_is_no_mistake(self):
        sheet = simplecss.StyleSheet(
            "@media x { a:host, c:is(:is(d e) f) { d: e } } f, g < h { i: j }"
        )
        self.assertEqual(
            [each.selector for each in sheet.unsupported],
            ["a:host", "c:is(:is(d e) f)"],
        )
        self.assertEqual(sheet.unsupported[0].conditions, (("media", "x"),))
        self.assertEqual(
            (sheet.rules, [each.reason for each in sheet.skipped]),
            ((), ["invalid selector"]),
        )

    def test_unsupported_in_rules(self):
        """Of group rules in style rules, and of nested rules; a list with an invalid selector is none."""
        rows = (
            (":host { @media p { c: d } }", [(":host", "c: d", ["@media p"], ())]),
            ("a { @layer { b:host, c { d: e } } }", [("b:host", "d: e", ["@layer"], ("a",))]),
            ("a { > b:host { c: d } }", [("> b:host", "c: d", [], ("a",))]),
            (":host { b { c: d } &:host { e: f } }", [("&:host", "e: f", [], (":host",))]),
            ("a { :host, b% { c: d } :host, , b { c: d } }", []),
            ("a { b% { :host { c: d } } }", []),
            ("a { b, c { d: e } f { @media p { g: h } } }", []),
        )
        for text, due in rows:
            with self.subTest(text=text):
                found = [
                    (it.selector, str(each), list(map(str, it.conditions)), it.parents)
                    for it in simplecss.StyleSheet(text).unsupported
                    for each in it.declarations
                ]
                self.assertEqual(found, due)
        many = ", ".join([":host"] * 100) + "{" + "@media p { a: b } " * 100 + "}"
        self.assertEqual(len(simplecss.StyleSheet(many, limit=10_000).unsupported), 10_100)
        with self.assertRaises(simplecss.LimitError):
            simplecss.StyleSheet(many, limit=9_999).unsupported

    def test_the_cascade(self):
        self.assertEqual(
            self.styles("P { n: 1 } @media all { P { n: 2 } } B { n: 3 }"),
            ["n: 2", "n: 3"],
        )

    def test_hostile_texts(self):
        for unit in (
            "a{",
            "@media{",
            "(",
            "/*",
            "url(",
            "a,",
            "a:b;",
            "\\",
            "[",
            "'",
            "@",
            "a{b:c}",
            "é{",
        ):
            sheet = simplecss.StyleSheet(unit * (100_000 // len(unit)), limit=None)
            self.assertIsInstance(str(sheet), str)
            self.assertIsInstance(sheet.skipped, list)


class Nested(unittest.TestCase):
    """Style rules in style rules."""

    def test_rules(self):
        text = "a, b { c: d; > e { f: g; @media x { & h::before { i: j } } } k: l } m { n: o }"
        found = [
            (each.selector, each.specificity, str(each.declarations[0]), each.parents)
            for each in simplecss.StyleSheet("p { q: r }", text).rules
        ]
        self.assertEqual(
            found,
            [
                ("p", (0, 0, 1), "q: r", ()),
                ("a", (0, 0, 1), "c: d", ()),
                ("b", (0, 0, 1), "c: d", ()),
                ("a", (0, 0, 1), "k: l", ()),
                ("b", (0, 0, 1), "k: l", ()),
                ("m", (0, 0, 1), "n: o", ()),
                ("> e", (0, 0, 2), "f: g", ("a, b",)),
                ("& h", (0, 0, 4), "i: j", ("a, b", "> e")),
            ],
        )
        last = simplecss.StyleSheet(text).rules[-1]
        self.assertEqual((last.pseudo_element, last.conditions), ("before", (("media", "x"),)))
        for text in (
            "a { @\\6d edia (width) { b: c } }",
            "@\\6d EDIA (width) { a { b: c } }",
        ):
            escaped = simplecss.StyleSheet(text)
            self.assertEqual(escaped.rules[-1].conditions, (("media", "(width)"),))
            tree = simplecss.Tree.from_xml("<a/>")
            self.assertEqual([len(each) for each in escaped.styles(tree)], [1])

    def test_deep(self):
        """Rules in 90 others take no longer than their text, and are rules."""
        tree = simplecss.Tree.from_xml("<a/>")
        sheet = simplecss.StyleSheet("a{" + "&{" * 90 + "b:c" + "}" * 91)
        self.assertEqual([len(each) for each in sheet.styles(tree)], [1])
        # The outermost rule has no declarations of its own.
        self.assertEqual([each for each in sheet.match(tree)], [[0, 1]])

    def test_limits(self):
        tree = simplecss.Tree.from_xml(f"<a>{'<b/>' * 2000}</a>")
        sheet = simplecss.StyleSheet("b{&{c:d}}" * 2000, answer_limit=100_000)
        for ask in (sheet.styles, sheet.match):
            with self.assertRaises(simplecss.LimitError):
                ask(tree)


class Trees(unittest.TestCase):
    def names(self, text):
        """Returns the names and the indices of the parents of the elements of a part of a page."""
        tree = simplecss.Tree.from_html(text, is_part=True)
        return [
            (element.name, None if element.parent is None else element.parent.index)
            for element in tree
        ]

    def test_end_tags_may_be_left_out(self):
        self.assertEqual(
            self.names("<ul><li>a<li>b<ul><li>c</ul><li>d</ul><p>e<p>f<div>g"),
            [
                ("ul", None),
                ("li", 0),
                ("li", 0),
                ("ul", 2),
                ("li", 3),
                ("li", 0),
                ("p", None),
                ("p", None),
                ("div", None),
            ],
        )
        self.assertEqual(
            self.names("<dl><dt>a<dd>b<dt>c</dl>"),
            [("dl", None), ("dt", 0), ("dd", 0), ("dt", 0)],
        )
        self.assertEqual(
            self.names("<p><center>a</center><p><dialog>b"),
            [("p", None), ("center", None), ("p", None), ("dialog", None)],
        )

    def test_elements_that_a_text_leaves_out(self):
        self.assertEqual(
            self.names("<table><col><tr><td>a"),
            [
                ("table", None),
                ("colgroup", 0),
                ("col", 1),
                ("tbody", 0),
                ("tr", 3),
                ("td", 4),
            ],
        )
        tree = simplecss.Tree.from_html("x")
        self.assertEqual([element.name for element in tree], ["html", "head", "body"])
        self.assertEqual(tree[2].text, "x")
        self.assertEqual(
            [element.name for element in simplecss.Tree.from_html("")],
            ["html", "head", "body"],
        )

    def test_misnested_tags(self):
        self.assertEqual(self.names("<b><p>a</b>b</p>"), [("b", None), ("p", None), ("b", 1)])
        self.assertEqual(
            self.names("<table><b>a<tr><td>b</table>"),
            [("b", None), ("table", None), ("tbody", 1), ("tr", 2), ("td", 3)],
        )
        self.assertEqual(self.names("</p></br><image>"), [("p", None), ("br", None), ("img", None)])

    def test_second_html_and_body(self):
        tree = simplecss.Tree.from_html("<html a=1><body b=2><html a=3 c=4><body b=5 d=6>")
        self.assertEqual(tree[0].attributes, {"a": "1", "c": "4"})
        self.assertEqual(tree.select_one("body").attributes, {"b": "2", "d": "6"})

    def test_templates_and_comments(self):
        self.assertEqual(
            self.names("<template><p></template><i>"), [("template", None), ("i", None)]
        )
        self.assertEqual(self.names("<!--><b><!-- > --!><i><!-- <u>"), [("b", None), ("i", 0)])

    def test_void_and_raw(self):
        self.assertEqual(
            self.names("<p><BR><img src=a><style><b></style><title><i></title>"),
            [("p", None), ("br", 0), ("img", 0), ("style", 0), ("title", 0)],
        )
        self.assertEqual(
            self.names("<svg><path/><g/></svg><div/><b>"),
            [("svg", None), ("path", 0), ("g", 0), ("div", None), ("b", 3)],
        )

    def test_attributes(self):
        tree = simplecss.Tree.from_html("\n<A Href='x&amp;y&copy=1' href=z hidden b=/>")
        link = tree.select_one("a")
        self.assertEqual(link.attributes, {"href": "x&y&copy=1", "hidden": "", "b": "/"})
        self.assertEqual((link.row, link.column), (2, 1))
        self.assertIsNone(tree[0].row)

    def test_time_of_hostile_text(self):
        for unit in (
            "<a ",
            '<a "',
            "<a x=",
            '<a x="',
            "<!--",
            "<b id=1><p>",
            "</b>",
            "<table><b>",
        ):
            simplecss.Tree.from_html(unit * (200_000 // len(unit)))
        with self.assertRaises(simplecss.LimitError):
            simplecss.Tree.from_html("".join(f"<b id={number}><p>" for number in range(20_000)))

    def test_xml(self):
        text = (
            '<svg xmlns="http://www.w3.org/2000/svg" xmlns:x="http://www.w3.org/1999/xlink">'
            '<linearGradient id="a"/><!-- b -->\n é<use x:href="#a"/></svg>'
        )
        tree = simplecss.Tree.from_xml(text)
        self.assertEqual([element.name for element in tree], ["svg", "linearGradient", "use"])
        self.assertEqual(tree.select("[*|href='#a'], linearGradient"), [tree[1], tree[2]])
        # The grammar of the Rust crate knows no namespaces.
        for grammar, found in (("modern", []), ("simplecss", [tree[2]])):
            self.assertEqual(tree.select("[href]", grammar=grammar), found)
        self.assertEqual(tree.select("lineargradient"), [])
        self.assertEqual(
            [(element.row, element.column) for element in tree],
            [(1, 1), (1, 80), (2, 3)],
        )
        self.assertEqual(tree[2].source, '<use x:href="#a"/>')
        self.assertEqual(tree[0].text, "\n é")
        root = xml.etree.ElementTree.ElementTree(xml.etree.ElementTree.fromstring(text))
        other = simplecss.Tree.from_etree(root)
        self.assertEqual(
            [(each.name, each.attributes) for each in other],
            [(each.name, each.attributes) for each in tree],
        )
        self.assertIs(other[2].node, root.getroot()[1])
        self.assertEqual(other[0].text, "\n é")
        with self.assertRaises(simplecss.TreeError) as found:
            simplecss.Tree.from_xml("<a>\n</b>")
        self.assertEqual(str(found.exception), "2:1: an end tag that does not match")

    def test_deep(self):
        tree = simplecss.Tree.from_html("<div>" * 20000)
        self.assertEqual(len(tree), 20003)
        self.assertEqual(len(tree.select("div:first-child")), 20000)

    def test_any_value_comes_through(self):
        values = ["", " ", "a=b", "\t", "\n", "a\nb", "a\tb", "a b", "é", "\x01", "'"]
        tree = simplecss.Tree(simplecss.Item("a", {"k": value}) for value in values)

        def found(selectors):
            return [values[element.index] for element in tree.select(selectors)]

        self.assertEqual(found("[k]"), values)
        for value in ("a b", "\x01", "a=b", "a\tb", "\t", ""):
            self.assertEqual(found(f"[k='{value}']"), [value])
        self.assertEqual(found("[k~='a']"), ["a\nb", "a\tb", "a b"])
        self.assertEqual(tree.select("[k~='a']", grammar="simplecss"), [tree[values.index("a b")]])

    def test_class_words(self):
        tree = simplecss.Tree.from_html('<a class="x\n\ty">')
        for grammar in ("modern", "simplecss"):
            self.assertEqual(tree.select(".x.y", grammar=grammar), [tree[3]])
            self.assertEqual(tree.select("[class='x y'], [class='x']", grammar=grammar), [])

    def test_languages(self):
        tree = simplecss.Tree.from_html("<div lang=de-AT><p>a<p lang=EN>b</div><p>c")
        self.assertEqual([each.name for each in tree.select(":lang(de)")], ["div", "p"])
        self.assertEqual([each.text for each in tree.select("p:lang(En)")], ["b"])

    def test_html_compares_without_case(self):
        tree = simplecss.Tree.from_html(
            "<!DOCTYPE html><A HREF=x><INPUT TYPE=Text TITLE=Ab CLASS=C>"
        )
        old = simplecss.Tree.from_html("<p class=A id=B>")
        for selectors in ("A[Href]", "input[type=TEXT]", "INPUT", "A:link"):
            self.assertEqual(len(tree.select(selectors)), 1, selectors)
            self.assertEqual(tree.select(selectors, grammar="simplecss"), [], selectors)
        for selectors in ("[title=ab]", ".c", "a[HREF=X]"):
            self.assertEqual(tree.select(selectors), [], selectors)
        self.assertEqual(len(old.select("p.a#b")), 1)
        # By the grammar of the Rust crate, byte by byte with the tree in lower case.
        self.assertEqual(len(tree.select("a[href]", grammar="simplecss")), 1)
        self.assertEqual(len(old.select("p.a#b", grammar="simplecss")), 1)

    def test_states(self):
        page = "<a href=x>1</a><a>2</a><a href=y id=y>3</a><map><area href>"
        tree = simplecss.Tree.from_html(page)
        self.assertEqual([each.name for each in tree.select(":link")], ["a", "a", "area"])
        self.assertEqual(tree.select("a:hover, a:visited"), [])
        tree = simplecss.Tree.from_html(page, {"#y": "visited", "a": ["hover"]})
        self.assertEqual([each.text for each in tree.select("a:link")], ["1"])
        self.assertEqual([each.text for each in tree.select("a:visited:hover")], ["3"])
        self.assertEqual(tree.select_one("#y").states, {"visited", "hover"})
        with self.assertRaisesRegex(ValueError, "seen"):
            simplecss.Tree.from_html(page, {"a": "seen"})
        sheet = simplecss.StyleSheet("a:link { b: c } a:active { b: d }")
        self.assertEqual(sheet.style(tree, "b")[tree.select_one("a")].value, "c")

    def test_named_states(self):
        states = {"#i": ["target", "hover"], "b": "dir(rtl)", "p, b": "focus-within"}
        tree = simplecss.Tree.from_html("<p id=i><b>1</b><i>2</i>", states)
        for selectors, expected in (
            (":target", ["p"]),
            (":TARGET:hover", ["p"]),
            (":dir(rtl)", ["b"]),
            (":focus-within", ["p", "b"]),
            (":focus-visible, :hover > i", ["i"]),
            (":not(:target) > b, p:has(:dir(rtl))", ["p"]),
        ):
            with self.subTest(selectors):
                self.assertEqual([each.name for each in tree.select(selectors)], expected)
        sheet = simplecss.StyleSheet("p { c: d } :target { c: e } :focus-visible { c: f }")
        self.assertEqual(sheet.style(tree, "c")[tree.select_one("p")].value, "e")
        own = simplecss.Tree.from_html("<p id=i><b>1</b>", {"b": ["--open", "hover"]})
        self.assertEqual([each.name for each in own.select(":--OPEN:hover")], ["b"])
        with self.assertRaises(simplecss.SelectorError):
            tree.select(":--open")
        for name in ("a b", "", "b, i", "nth-child(2)", "dir(x)", "hoover", "\\68over"):
            with self.subTest(name), self.assertRaisesRegex(ValueError, "unknown state"):
                simplecss.Tree.from_html("<p>", {"p": name})

    def test_what_is_empty(self):
        for text, expected in (
            ("<p></p>", True),
            ("<p> </p>", False),
            ("<p>x</p>", False),
            ("<p><!-- --></p>", True),
            ("<p><b></b></p>", False),
            ("<pre>\n</pre>", True),
            ("<pre>\r\n</pre>", True),
            ("<pre>\n\n</pre>", False),
            ("<textarea>\n</textarea>", True),
            ("<title></title>", True),
            ("<template>x</template>", True),
            ("<svg><![CDATA[]]></svg>", True),
            ("<svg><![CDATA[x]]></svg>", False),
        ):
            tree = simplecss.Tree.from_html(text, is_part=True)
            self.assertEqual(tree[0].matches(":empty"), expected, text)
        for text, expected in (
            ("<p/>", True),
            ("<p> </p>", False),
            ("<p><!-- --><?x?></p>", True),
            ("<p>&#65;</p>", False),
        ):
            root = xml.etree.ElementTree.fromstring(text)
            for tree in (
                simplecss.Tree.from_xml(text),
                simplecss.Tree.from_etree(root),
            ):
                self.assertEqual(tree[0].matches(":empty"), expected, text)
        tree = simplecss.Tree(
            [
                simplecss.Item("a"),
                simplecss.Item("b", text="c"),
                simplecss.Item("d", parent=1),
            ]
        )
        self.assertEqual(
            ([each.name for each in tree.select(":empty")], tree[1].text),
            (["a", "d"], "c"),
        )

    def test_names_that_cannot_be_matched(self):
        for item in (simplecss.Item("", {}), simplecss.Item("a", {}, 0)):
            with self.assertRaises(simplecss.TreeError):
                simplecss.Tree([item])
        tree = simplecss.Tree([simplecss.Item("a\tb", {"k=": "v"}, None, 3, 4)])
        self.assertEqual(tree.select("*"), [tree[0]])
        self.assertEqual(tree.select("a"), [])
        with self.assertRaises(ValueError):
            simplecss.Tree([simplecss.Item("\ud800")]).select("a")


class OtherTrees(unittest.TestCase):
    """Trees of other packages, each left out where the package is missing."""

    PAGE = "<!DOCTYPE html><title>t</title><P CLASS='a b' TYPE=X>one<A HREF=x>two</A></P>"
    EMPTY = "<div><p><!-- x --></p><b> </b><i></i>x<u><s></s></u></div>"

    def check(self, tree, other):
        self.assertEqual([each.name for each in other.select("div :empty")], ["p", "i", "s"])
        link = tree.select_one(
            "p.a[type=x]:not(:last-child, .c) > A:link, p.a[type=x] > A:any-link"
        )
        self.assertEqual((link.name, link.text, link.attributes["href"]), ("a", "two", "x"))
        self.assertEqual(tree.select("p")[0].text, "onetwo")
        self.assertEqual(tree.select(".A"), [])
        return link.node

    def test_lxml(self):
        try:
            import lxml.etree
            import lxml.html
        except ImportError:
            self.skipTest("there is no lxml")
        root = lxml.html.document_fromstring(self.PAGE)
        other = simplecss.Tree.from_lxml(lxml.html.document_fromstring(self.EMPTY))
        self.assertIs(self.check(simplecss.Tree.from_lxml(root), other), root.find(".//a"))
        root = lxml.etree.fromstring("<!-- --><r xmlns='x'><?y?><A b='c'>d</A>e</r>")
        tree = simplecss.Tree.from_lxml(root.getroottree())
        self.assertEqual([each.name for each in tree], ["r", "A"])
        self.assertEqual((tree.select("a"), tree[0].text, tree[1].row), ([], "de", 1))

    def test_soup(self):
        try:
            import bs4
        except ImportError:
            self.skipTest("there is no BeautifulSoup")
        soup = bs4.BeautifulSoup(self.PAGE, "html.parser")
        other = simplecss.Tree.from_soup(bs4.BeautifulSoup(self.EMPTY, "html.parser"))
        self.assertIs(self.check(simplecss.Tree.from_soup(soup), other), soup.find("a"))
        tree = simplecss.Tree.from_soup(soup.find("p"))
        self.assertEqual([each.name for each in tree], ["p", "a"])
        # A reader that knows no lines leaves out what says them, and a tag looks for names in itself.
        soup = bs4.BeautifulSoup("<p title><sourceline><sourcepos></p>", "html.parser")
        for tag in soup.find_all(True):
            del tag.sourceline, tag.sourcepos
        soup.p["title"] = None
        tree = simplecss.Tree.from_soup(soup)
        self.assertEqual([(each.row, each.column) for each in tree], 3 * [(None, None)])
        self.assertEqual(tree.select("[title='']"), [tree[0]])

    def test_what_is_no_tree(self):
        for call in (
            simplecss.Tree.from_etree,
            simplecss.Tree.from_lxml,
            simplecss.Tree.from_soup,
        ):
            with self.assertRaisesRegex(TypeError, "not str"):
                call("<p>")


class Namespaces(unittest.TestCase):
    """Prefixes of selectors, in trees of each kind."""

    HTML = "http://www.w3.org/1999/xhtml"
    SVG = "http://www.w3.org/2000/svg"
    MATH = "http://www.w3.org/1998/Math/MathML"
    DECLARED = {"h": HTML, "svg": SVG, "m": MATH, "none": "", "x": "urn:x"}
    PAGE = "<!DOCTYPE html><p><a>1</a><svg><a>2</a></svg><math><mi>3</mi></math>"
    DRAWING = (
        "<r xmlns:s='http://www.w3.org/2000/svg'><s:a href='1'/><a/>"
        "<b xmlns='urn:x'><a id='c'/></b></r>"
    )
    # Selectors, and the numbers of the elements that they match in the drawing, with these prefixes.
    IN_DRAWING = [
        row[1:] for row in CASES["questions"]["namespaces"]["rows"] if row[0] == "drawing"
    ]

    def check_drawing(self, tree):
        for prefixes, selectors, due in self.IN_DRAWING:
            with self.subTest(selectors=selectors, prefixes=prefixes):
                found = self.found(tree, selectors, CASES["prefixes"][prefixes])
                self.assertEqual(" ".join(map(str, found)), due)

    def test_elements(self):
        tree = simplecss.Tree.from_xml(self.DRAWING)
        inner = tree[3]
        self.assertTrue(inner.matches("x|b", namespaces=self.DECLARED))
        self.assertFalse(inner.matches("svg|b", namespaces=self.DECLARED))
        self.assertEqual(tree[4].closest("x|*", namespaces=self.DECLARED), tree[4])
        self.assertEqual(tree[4].closest("|r", namespaces=self.DECLARED), tree[0])
        self.assertEqual(inner.select(":scope > x|a", namespaces=self.DECLARED), [tree[4]])
        self.assertEqual(inner.select("svg|a", namespaces=self.DECLARED), [])
        with self.assertRaises(ValueError):
            inner.matches("b", grammar="simplecss", namespaces={})

    def test_many(self):
        """Sheets know the first 1,024 namespaces of a page, and selectors know all."""
        page = "".join(f"<a xmlns='urn:{number}'/>" for number in range(1100))
        tree = simplecss.Tree.from_xml(f"<r>{page}</r>")
        declared = "".join(f"@namespace x{at} 'urn:{at}';" for at in (0, 1000, 1025, 1099, 9999))
        rules = "".join(f"x{at}|a {{ --x{at}: 1 }}" for at in (0, 1000, 1025, 1099, 9999))
        styles = simplecss.StyleSheet(declared + rules + "*|a { --y: 1 }").styles(tree)
        names = [[each.name for each in declarations] for declarations in styles]
        found = {at: each for at, each in enumerate(names) if each not in ([], ["--y"])}
        self.assertEqual(found, {1: ["--x0", "--y"], 1001: ["--x1000", "--y"]})
        for number in (0, 1000, 1025, 1099):
            spaces = {"x": f"urn:{number}"}
            self.assertEqual(self.found(tree, "x|a", spaces), [number + 1])
        self.assertEqual(self.found(tree, "x|a", {"x": "urn:9999"}), [])

    def found(self, tree, selectors, namespaces):
        """Returns the numbers of the elements that selectors match."""
        return [element.index for element in tree.select(selectors, namespaces=namespaces)]

    def check_page(self, tree):
        """Checks the page: the texts of what selectors match."""
        for selectors, texts in (
            ("svg|a", ["2"]),
            ("h|a", ["1"]),
            ("h|p > svg|*", ["2"]),
            ("m|*", ["3", "3"]),
            ("|*", []),
            ("*|a", ["1", "2"]),
            ("SvG|a, x|a", None),
        ):
            with self.subTest(selectors=selectors):
                if texts is None:
                    with self.assertRaises(simplecss.SelectorError):
                        tree.select(selectors, namespaces=self.DECLARED)
                else:
                    found = tree.select(selectors, namespaces=self.DECLARED)
                    self.assertEqual([each.text for each in found], texts)

    def test_html(self):
        tree = simplecss.Tree.from_html(self.PAGE)
        self.check_page(tree)
        self.assertEqual(
            [each.text for each in tree.iselect("A", namespaces={"": self.SVG})], ["2"]
        )
        # Without a type selector too, but not the subject of a list in parentheses.
        names = [each.name for each in tree.select(":last-child", namespaces={"": self.MATH})]
        self.assertEqual(names, ["math", "mi"])
        names = [each.name for each in tree.select("*|*:is(:root)", namespaces={"": self.MATH})]
        self.assertEqual(names, ["html"])

    def test_xml(self):
        self.check_drawing(simplecss.Tree.from_xml(self.DRAWING))

    def test_etree(self):
        self.check_drawing(
            simplecss.Tree.from_etree(xml.etree.ElementTree.fromstring(self.DRAWING))
        )

    def test_lxml(self):
        try:
            import lxml.etree
            import lxml.html
        except ImportError:
            self.skipTest("there is no lxml")
        self.check_drawing(simplecss.Tree.from_lxml(lxml.etree.fromstring(self.DRAWING)))
        # All elements of its HTML are in the namespace of HTML.
        tree = simplecss.Tree.from_lxml(lxml.html.document_fromstring(self.PAGE))
        self.assertEqual(len(tree.select("h|a", namespaces=self.DECLARED)), 2)
        self.assertEqual(tree.select("svg|*, |*", namespaces=self.DECLARED), [])

    def test_soup(self):
        try:
            import bs4
        except ImportError:
            self.skipTest("there is no BeautifulSoup")
        for features, text, check in (
            ("html5lib", self.PAGE, self.check_page),
            ("lxml-xml", self.DRAWING, self.check_drawing),
        ):
            try:
                soup = bs4.BeautifulSoup(text, features)
            except bs4.FeatureNotFound:
                continue
            with self.subTest(features=features):
                check(simplecss.Tree.from_soup(soup))
        tree = simplecss.Tree.from_soup(bs4.BeautifulSoup(self.PAGE, "html.parser"))
        self.assertEqual(len(tree.select("h|a", namespaces=self.DECLARED)), 2)
        self.assertEqual(tree.select("svg|*, |*", namespaces=self.DECLARED), [])

    def test_items(self):
        """The elements of a program's own are in no namespace."""
        tree = simplecss.Tree([simplecss.Item("a"), simplecss.Item("b", parent=0)])
        self.assertEqual(self.found(tree, "|a > none|b", self.DECLARED), [1])
        self.assertEqual(self.found(tree, "svg|a", self.DECLARED), [])
        self.assertEqual(self.found(tree, "a", {"": self.SVG}), [])
        self.assertEqual(self.found(tree, "a", {"": ""}), [0])
        self.assertEqual(simplecss.Tree().select("svg|a", namespaces=self.DECLARED), [])

    def test_errors(self):
        tree = simplecss.Tree.from_html(self.PAGE)
        for selectors in (
            "y|a",
            "SVG|a",
            "a, y|b",
            "[y|href]",
            ":not(y|a)",
            "%",
        ):
            for namespaces in ({"svg": self.SVG}, {"svg": self.SVG, "": self.HTML}):
                with self.subTest(selectors=selectors, namespaces=namespaces):
                    with self.assertRaises(simplecss.SelectorError):
                        tree.select(selectors, namespaces=namespaces)
        for selectors in ("svg|a", "[svg|a]", "%"):
            with self.assertRaises(simplecss.SelectorError):
                tree.select(selectors, namespaces={})
        for selectors, namespaces, reason in (
            ("svg|a,\n y|b", {"svg": self.SVG}, "2:2: `y` is no declared prefix"),
            (
                "svg|a, b >",
                {"svg": self.SVG},
                "1:11: a blank or the end of the text begins no selector",
            ),
            ("[y|b]", {}, "1:2: `y` is no declared prefix"),
            ("y|b", None, "1:1: `y` is no declared prefix"),
        ):
            with self.subTest(selectors=selectors):
                with self.assertRaises(simplecss.SelectorError) as found:
                    tree.select(selectors, namespaces=namespaces)
                self.assertEqual(found.exception.message, reason)
        for namespaces in (
            [],
            "x",
            1,
            {1: "x"},
            {"a": None},
            {"a": b"x"},
            {"a": []},
            {None: "x"},
        ):
            with self.subTest(namespaces=namespaces):
                with self.assertRaises(TypeError):
                    tree.select("a", namespaces=namespaces)
        for namespaces in ({"\ud800": "x"}, {"a": "\ud800"}):
            with self.assertRaises(UnicodeEncodeError):
                tree.select("a", namespaces=namespaces)
        for namespaces in ({}, self.DECLARED):
            with self.assertRaises(ValueError):
                tree.select("a", grammar="simplecss", namespaces=namespaces)
        with self.assertRaisesRegex(TypeError, "not int"):
            tree.select(1, namespaces={})

    XLINK = "http://www.w3.org/1999/xlink"
    XML = "http://www.w3.org/XML/1998/namespace"
    SPACED = {
        "svg": SVG,
        "l": XLINK,
        "x": XML,
        "xmlns": "http://www.w3.org/2000/xmlns/",
        "none": "",
    }
    LINKS = (
        "<svg xmlns='http://www.w3.org/2000/svg' xmlns:l='http://www.w3.org/1999/xlink'>"
        "<a href='b'/><use l:href='c'/><a l:href='d' href='e'/><text xml:lang='de' class='f'/></svg>"
    )
    IN_LINKS = [row[1:] for row in CASES["questions"]["namespaces"]["rows"] if row[0] == "links"]
    IN_LINKS.append(["of the links", ":lang(de)", "4"])

    def check_links(self, tree, *, has_language=True):
        """Checks the attributes of a drawing that are in namespaces."""
        for prefixes, selectors, due in self.IN_LINKS:
            with self.subTest(selectors=selectors):
                if has_language or ":lang" not in selectors:
                    found = self.found(tree, selectors, CASES["prefixes"][prefixes])
                    self.assertEqual(" ".join(map(str, found)), due)
        # They have no namespaces in the grammar of the Rust crate.
        self.assertEqual(len(tree.select("[href]", grammar="simplecss")), 3 if has_language else 2)

    def test_attributes(self):
        """Attributes are in namespaces in XML."""
        self.check_links(simplecss.Tree.from_xml(self.LINKS))
        root = xml.etree.ElementTree.fromstring(self.LINKS)
        tree = simplecss.Tree.from_etree(root)
        self.check_links(tree)
        self.check_links(pickle.loads(pickle.dumps(tree)))
        self.assertEqual(tree[2].attributes, {"href": "c"})
        self.assertEqual(tree[3].attributes, {"href": "e"})
        self.assertEqual(tree[4].attributes, {"lang": "de", "class": "f"})
        try:
            import bs4

            soup = bs4.BeautifulSoup(self.LINKS, "xml")
        except Exception:
            self.skipTest("there is no BeautifulSoup with lxml")
        tree = simplecss.Tree.from_soup(soup)
        self.check_links(tree, has_language=False)
        self.assertEqual(self.found(tree, "[xmlns|l], [xmlns|xmlns]", self.SPACED), [0])

    def test_attributes_in_html(self):
        """Attributes of SVG and MathML are in namespaces in HTML, and no others."""
        text = (
            "<p xlink:href=a xml:lang=b><svg XLINK:HREF=c viewBox=d xmlns=e xmlns:xlink=f>"
            "<a xml:lang=g xlink:x=h href=i></a></svg><math xml:space=j xmlns:l=k></math>"
        )
        tree = simplecss.Tree.from_html(text, is_part=True)
        for selectors, found in (
            ("[l|href]", [1]),
            ("[L|HREF], [l|Href=c]", None),
            ("[l|HREF=c]", [1]),
            ("[l|href=C]", []),
            (r"[xlink\:href]", [0]),
            (r"[xml\:lang]", [0]),
            ("[x|lang]", [2]),
            ("[*|lang]", [2]),
            (r"[xlink\:x]", [2]),
            ("[xmlns]", []),
            ("[xmlns|xmlns]", [1]),
            ("[xmlns|xlink]", [1]),
            ("[x|space]", [3]),
            (r"[xmlns\:l]", [3]),
            ("[viewbox=d], [*|href=i]", [1, 2]),
        ):
            with self.subTest(selectors=selectors):
                if found is None:
                    with self.assertRaises(simplecss.SelectorError):
                        tree.select(selectors, namespaces=self.SPACED)
                else:
                    self.assertEqual(self.found(tree, selectors, self.SPACED), found)
        self.assertEqual(tree[1].attributes["xlink:href"], "c")

    def test_sheets(self):
        """What `@namespace` rules declare counts in rules, matches and styles."""
        text = (
            f"@import 'a'; @namespace '{self.SVG}'; @namespace h url({self.HTML});"
            f"@namespace l '{self.XLINK}'; a{{b:1}} h|a{{b:2}} [l|href]{{c:3}} *|p::before{{d:4}}"
            "u|a{b:5} a:host{e:6} h|p{a *|*&{f:7} h|a &, u|a{g:8}} @namespace u 'v'; u|a{h:9}"
        )
        sheet = simplecss.StyleSheet(text)
        self.assertEqual(
            [each.selector for each in sheet.rules],
            ["a", "h|a", "*|p", "a *|*&", "[l|href]"],
        )
        self.assertEqual([each.selector for each in sheet.unsupported], ["a:host"])
        invalid = [each.text for each in sheet.skipped if each.reason == "invalid selector"]
        self.assertEqual(invalid, ["u|a{b:5}", "u|a{h:9}"])
        tree = simplecss.Tree.from_html(
            "<p><a></a><svg><a xlink:href=x><foreignObject><p>", is_part=True
        )
        self.assertEqual([each.name for each in tree], ["p", "a", "svg", "a", "foreignObject", "p"])
        self.assertEqual(list(sheet.match(tree)), [[], [1], [], [0, 4], [], [3]])
        self.assertEqual(
            [[each.value for each in found] for found in sheet.styles(tree)],
            [[], ["2"], [], ["1", "3"], [], ["7"]],
        )
        self.assertEqual(
            [each and each.value for each in sheet.style(tree, "b")],
            [None, "2", None, "1", None, None],
        )
        # Elements of a program's own are in no namespace.
        tree = simplecss.Tree([simplecss.Item("a")])
        for declared, found in (("''", [[0]]), ("'x'", [[]])):
            sheet = simplecss.StyleSheet(f"@namespace {declared}; a{{b:c}}")
            self.assertEqual(list(sheet.match(tree)), found)

    def test_states(self):
        """States are set by selectors without namespaces, and then match with them."""
        tree = simplecss.Tree.from_html(self.PAGE, states={"svg a": ["hover", "target"]})
        for selectors in ("svg|a:hover", "*|a:target", "svg|*:hover:not(h|*)"):
            with self.subTest(selectors=selectors):
                found = tree.select(selectors, namespaces=self.DECLARED)
                self.assertEqual([each.text for each in found], ["2"])
        self.assertEqual(tree.select("h|a:hover", namespaces=self.DECLARED), [])

    def test_scope(self):
        """`:scope` is the root here too, in the default namespace alone."""
        tree = simplecss.Tree.from_xml(self.DRAWING)
        for namespaces, found in (({}, [0]), ({"": ""}, [0]), ({"": "urn:x"}, [])):
            for selectors in (":scope", "&"):
                with self.subTest(selectors=selectors, namespaces=namespaces):
                    self.assertEqual(self.found(tree, selectors, namespaces), found)
        self.assertEqual(self.found(tree, ":scope > svg|a", self.DECLARED), [1])
        self.assertEqual([each.index for each in tree[3].select(":scope > a")], [4])

    def test_other_calls_stay(self):
        """A call without namespaces has the same answer before and after one that has them."""
        tree = simplecss.Tree.from_html(self.PAGE)
        before = tree.select("a, mi")
        self.assertEqual(len(before), 3)
        for space, texts in (
            (self.SVG, ["2"]),
            (self.HTML, ["1"]),
            (self.MATH, ["3"]),
            ("", []),
        ):
            found = tree.select("a, mi", namespaces={"": space})
            self.assertEqual([each.text for each in found], texts)
            self.assertEqual(tree.select("a, mi"), before)
            self.assertEqual(tree.select("a, mi", namespaces={}), before)
            with self.assertRaises(simplecss.SelectorError):
                tree.select("svg|a")


class Elements(unittest.TestCase):
    def setUp(self):
        self.tree = simplecss.Tree.from_html(
            "<ul id=u><li class='a b'>one <i>1</i> <li>two</ul>three"
        )

    def test_what_an_element_has(self):
        first = self.tree.select_one("li")
        self.assertEqual((first.index, first.name, first.attributes), (4, "li", {"class": "a b"}))
        self.assertEqual(first.parent, self.tree.select_one("ul"))
        self.assertEqual([each.name for each in first.parent.children], ["li", "li"])
        self.assertEqual((first.text, first.source), ("one 1 ", "<li class='a b'>one <i>1</i> "))
        self.assertEqual(self.tree.select_one("body").text, "one 1 twothree")
        self.assertEqual((first.row, first.column, repr(first)), (1, 10, '<li class="a b">'))
        self.assertIsNone(self.tree[0].parent)

    def test_searches(self):
        inner = self.tree.select_one("i")
        self.assertTrue(inner.matches("u, li > i"))
        self.assertFalse(inner.matches("ul > i"))
        self.assertEqual(inner.closest("ul, li").name, "li")
        self.assertIsNone(inner.closest("table"))
        self.assertEqual(self.tree.select_one("ul").select("*"), self.tree.select("li, i"))
        self.assertEqual(self.tree.select_one("li").select("li"), [])
        self.assertEqual(list(self.tree.iselect("li")), self.tree.select("li"))
        self.assertIsNone(self.tree.select_one("table"))

    def test_scope(self):
        """`:scope` is the element that is asked, and of a tree the root (DOM, section 4.2.6)."""
        top, first = self.tree.select_one("ul"), self.tree.select_one("li")
        for selectors in (":scope > li", "& > li", ":SC\\6fPE > li"):
            with self.subTest(selectors=selectors):
                self.assertEqual(top.select(selectors), self.tree.select("li"))
                self.assertEqual(first.select(selectors), [])
        self.assertEqual(first.select(":scope > *, li"), self.tree.select("i"))
        self.assertEqual(first.select("ul > :scope i"), self.tree.select("i"))
        self.assertTrue(first.matches("ul > :scope"))
        self.assertFalse(first.matches(":scope + li"))
        self.assertEqual(first.closest(":scope, ul"), first)
        self.assertEqual(first.closest(":not(:scope)"), top)
        self.assertEqual([each.name for each in self.tree.select(":scope")], ["html"])

    def test_values_can_be_pickled(self):
        first = pickle.loads(pickle.dumps(self.tree.select_one("li")))
        self.assertEqual((first.text, first.row, len(first.tree.select("li"))), ("one 1 ", 1, 2))
        sheet = simplecss.StyleSheet("a{b:c}", "d{e:f}")
        self.assertEqual(pickle.loads(pickle.dumps(sheet)).rules, sheet.rules)
        for error in (
            simplecss.SelectorError("x", 1, 2),
            simplecss.TreeError("x", None, None),
        ):
            self.assertEqual(str(pickle.loads(pickle.dumps(error))), str(error))

    def test_answers_by_element(self):
        sheet = simplecss.StyleSheet("li { color: red } .a { color: blue }")
        first = self.tree.select_one("li")
        self.assertEqual(sheet.match(self.tree)[first], [0, 1])
        self.assertEqual(sheet.styles(self.tree)[first], [("color", "blue", False)])
        self.assertEqual(sheet.style(self.tree, "color")[first].value, "blue")


class Matching(unittest.TestCase):
    def setUp(self):
        self.sheet = simplecss.StyleSheet(SHEET)
        self.tree = simplecss.Tree.from_html(PAGE, is_part=True)

    def found(self, selectors):
        return [element.index for element in self.tree.select(selectors)]

    def test_select(self):
        self.assertEqual(self.found("li"), [1, 2])
        self.assertEqual(self.found("p, .a, #x"), [1, 2, 3])
        self.assertEqual(self.found("li + li"), [2])
        for text, grammar in (
            ("", "modern"),
            ("li,", "modern"),
            (",li", "modern"),
            ("li p {", "modern"),
            ("a:none()", "modern"),
            ("li ~ li", "simplecss"),
            ("a:none", "simplecss"),
        ):
            with self.assertRaises(simplecss.SelectorError, msg=text):
                self.tree.select(text, grammar=grammar)

    def test_match(self):
        self.assertEqual(self.sheet.match(self.tree), [[], [0, 1], [0, 3], []])
        self.assertEqual(self.sheet.match(simplecss.Tree([])), [])

    def test_style(self):
        self.assertEqual(
            self.sheet.style(self.tree, "color"),
            [None, ("color", "blue", True), ("color", "red", False), None],
        )

    def test_styles(self):
        self.assertEqual(
            self.sheet.styles(self.tree)[1],
            [("margin", "0", False), ("color", "blue", True)],
        )
        self.assertEqual(self.sheet.styles(self.tree)[3], [])

    def test_specified(self):
        sheet = simplecss.StyleSheet(
            "p { color: red !important; top: 1px } rect { fill: red } * { stroke: x }"
        )
        tree = simplecss.Tree.from_html(
            "<p style='color: blue; top: 2px; left: 3px'><svg fill=blue><rect fill=blue /><g stroke=y id=z>"
        )
        styles = sheet.styles(tree, specified=True)
        self.assertEqual(
            [str(each) for each in styles[tree.select_one("p")]],
            ["stroke: x", "top: 2px", "left: 3px", "color: red !important"],
        )
        self.assertEqual(
            [str(each) for each in styles[tree.select_one("rect")]],
            ["stroke: x", "fill: red"],
        )
        self.assertEqual(
            [str(each) for each in styles[tree.select_one("svg")]],
            ["fill: blue", "stroke: x"],
        )
        self.assertEqual(
            sheet.style(tree, "top", specified=True)[tree.select_one("p")].value, "2px"
        )
        self.assertEqual(sheet.style(tree, "top")[tree.select_one("p")].value, "1px")

    def test_presentation(self):
        tree = simplecss.Tree.from_html("<p align=right><p align='a;b: c'><p align='x !important'>")
        sheet = simplecss.StyleSheet(
            "* { text-align: inherit; a: b }",
            "@layer { .x { text-align: left } }",
            origins=("user",),
        )

        def presentation(element):
            align = element.attributes.get("align")
            return {} if align is None else {"text-align": align}

        styles = sheet.styles(tree, specified=True, presentation=presentation)
        self.assertEqual(
            [[str(each) for each in styles[p]] for p in tree.select("p")],
            # After what is the user's; a value alone is none.
            [["a: b", "text-align: right"]] + [["text-align: inherit", "a: b"]] * 2,
        )
        found = sheet.style(tree, "TEXT-align", specified=True, presentation=presentation)
        self.assertEqual(str(found[tree.select("p")[0]]), "text-align: right")

    def test_origins(self):
        text = "p { a: b !important; c: d }"
        tree = simplecss.Tree.from_html("<p>")
        sheet = simplecss.StyleSheet(text, text.replace("b", "e"), origins=["user-agent", "author"])
        for each in (sheet, pickle.loads(pickle.dumps(sheet))):
            won = [str(one) for one in each.styles(tree)[-1]]
            self.assertEqual(won, ["c: d", "a: b !important"])
        for origins, grammar in (
            (("other",), "modern"),
            (("user",), "simplecss"),
            ("user", "modern"),
        ):
            with self.assertRaises(ValueError):
                simplecss.StyleSheet(text, origins=origins, grammar=grammar)
        with self.assertRaises(ValueError):
            simplecss.StyleSheet(text, origins=("user", "user"))

    def test_rolled_back(self):
        tree = simplecss.Tree.from_html("<h1><b>")
        for text, due in (
            (
                "h1 { margin: 0 } h1 { margin-top: revert }",
                "margin: 0; margin-top: revert",
            ),
            (
                "h1 { margin-top: 0 } h1 { margin: revert }",
                "margin-top: 0; margin: revert",
            ),
            ("h1 { m: 0; n: 1 } h1 { all: revert }", "m: 0; n: 1; all: revert"),
            ("@layer { h1 { m: 0 } } h1 { m: 1; m: revert-layer }", "m: 0"),
            ("@layer { h1 { m: 0 } } h1 { n: 1; n: revert-layer }", "m: 0"),
            (
                "@layer a { h1 { m: 3 !important } } h1 { n: 0 !important; o: 1 }",
                "o: 1; n: 0 !important; m: 3 !important",
            ),
        ):
            styles = simplecss.StyleSheet(text).styles(tree)[tree.select_one("h1")]
            self.assertEqual("; ".join(map(str, styles)), due)
        sheet = simplecss.StyleSheet(
            "h1 { color: red; top: 1px } b { color: blue; top: 2px } b { color: revert; top: revert }"
        )
        styles = sheet.styles(tree, inherit=True)[tree.select_one("b")]
        self.assertEqual([str(each) for each in styles], ["color: red", "top: revert"])

    def test_inherit(self):
        sheet = simplecss.StyleSheet("ul { color: red; top: 1px; left: 2px } .a { top: inherit }")
        tree = simplecss.Tree.from_html("<ul><li class=a><b>")
        styles = sheet.styles(tree, inherit=True)
        self.assertEqual(
            [str(each) for each in styles[tree.select_one("li")]],
            ["color: red", "top: 1px"],
        )
        self.assertEqual([str(each) for each in styles[tree.select_one("b")]], ["color: red"])
        found = sheet.style(tree, "left", inherit=["left"])
        self.assertEqual(found[tree.select_one("b")].value, "2px")

    def test_threads(self):
        sheet = simplecss.StyleSheet(SHEET * 50)
        tree = simplecss.Tree.from_html(PAGE * 50, is_part=True)
        # Of `li`, of `ul > .a` and `p:hover` one after another, and of `#x`, fifty each.
        first, second = [*range(50), *range(50, 150, 2)], [*range(50), *range(150, 200)]
        wanted = [[], first, second, []] * 50
        with concurrent.futures.ThreadPoolExecutor(8) as pool:
            answers = list(pool.map(lambda _: sheet.match(tree), range(32)))
        self.assertEqual(answers, [wanted] * 32)


class LongTexts(unittest.TestCase):
    def test_long_texts(self):
        rule = "a{b:c}"
        for grammar, length in (("simplecss", 10_000_000), ("modern", 600_000)):
            sheet = simplecss.StyleSheet(rule * (length // len(rule)), limit=None, grammar=grammar)
            self.assertEqual(len(str(sheet).split("\n")), length // len(rule))


class Inlining(unittest.TestCase):
    def test_winners_and_own(self):
        self.assertEqual(
            simplecss.inline(
                '<P Class=a  style="top: 1px">x</P>',
                ".a { color: red; top: 2px } p { color: blue; left: 0 !important }",
            ),
            '<P Class=a  style="left: 0 !important; color: red; top: 2px; top: 1px">x</P>',
        )

    def test_what_stays(self):
        self.assertEqual(
            simplecss.inline(
                "<head><style>a:hover, b { c: d } @media print { a { b: c } }</style></head><b>"
            ),
            "<head><style>\na:hover { c: d }\n@media print { a { b: c } }\n</style></head>"
            '<b style="c: d">',
        )
        self.assertEqual(simplecss.inline("<style>b { c: d }</style><b/>"), '<b style="c: d"/>')
        self.assertEqual(
            simplecss.inline("<html><body><b>", "a:hover { c: d }"),
            "<html><style>\na:hover { c: d }\n</style><body><b>",
        )

    def test_quotes(self):
        self.assertEqual(
            simplecss.inline("<b style='c: d'>", 'b { e: "f\'&" }'),
            "<b style='e: \"f&#39;&amp;\"; c: d'>",
        )
        self.assertEqual(simplecss.inline("<b>", 'b { e: "f" }'), '<b style="e: &quot;f&quot;">')

    def test_nothing_changes(self):
        text = "<!DOCTYPE html>\r\n<!-- <b> --><B a='x' >&amp;<br/><i\n>\t</i></b ><![CDATA[x]]>"
        self.assertEqual(simplecss.inline(text), text)
        self.assertEqual(simplecss.inline(text, "u { v: w }"), text)

    def test_other_media_stay(self):
        text = '<style media="print">b { c: d }</style><b>'
        self.assertEqual(simplecss.inline(text), text)


class CommandLine(unittest.TestCase):
    def run_command(self, *words):
        out, err = io.StringIO(), io.StringIO()
        with redirect_stdout(out), redirect_stderr(err):
            try:
                status = command.main(list(words))
            except SystemExit as error:
                status = error.code
        return status, out.getvalue(), err.getvalue()

    def setUp(self):
        folder = tempfile.TemporaryDirectory()
        self.addCleanup(folder.cleanup)
        self.sheet = os.path.join(folder.name, "a.css")
        self.page = os.path.join(folder.name, "a.html")
        for name, text in ((self.sheet, SHEET), (self.page, PAGE)):
            with open(name, "w", encoding="utf-8") as file:
                file.write(text)

    def lines(self, *words):
        status, out, err = self.run_command(*words)
        self.assertEqual((status, err), (0, ""), words)
        return out.splitlines()

    def test_select(self):
        self.assertEqual(
            self.lines("select", "li", self.page)[0],
            f'{self.page}:1:5: <li class="a b">',
        )
        self.assertEqual(self.lines("select", "body", self.page), [f"{self.page}: <body>"])
        self.assertEqual(
            self.lines("select", "--text", "li, p", self.page), ["one", "two", "three"]
        )
        self.assertEqual(self.lines("select", "--attr", "id", "li", self.page), ["x"])
        self.assertEqual(self.lines("select", "--html", "li", self.page)[1], "<li id=x>two")
        self.assertEqual(self.lines("select", "--count", "li", self.page), ["2"])
        self.assertEqual(
            self.lines("select", "--count", "li", self.page, self.page),
            [f"{self.page}:2"] * 2,
        )
        self.assertEqual(
            json.loads(self.lines("select", "--json", "#x", self.page)[0]),
            {
                "file": self.page,
                "element": 5,
                "name": "li",
                "row": 1,
                "column": 24,
                "path": "html > body:nth-child(2) > ul:nth-child(1) > li:nth-child(2)",
                "attributes": {"id": "x"},
            },
        )
        self.assertEqual(self.run_command("select", "--quiet", "li", self.page), (0, "", ""))
        self.assertEqual(self.run_command("select", "--quiet", "table", self.page), (1, "", ""))
        self.assertEqual(self.lines("select", "--count", "li ~ li", self.page), ["1"])
        self.assertEqual(
            self.run_command("select", "--grammar", "simplecss", "li ~ li", self.page)[::2],
            (1, "simplecss: selector refused: 1:4: invalid ident\n"),
        )

    def test_match_and_style(self):
        self.assertEqual(
            json.loads(self.lines("match", "--json", self.sheet, self.page)[4]),
            {"element": 4, "name": "li", "rules": [0, 1]},
        )
        self.write(self.sheet, SHEET.replace("ul > .a", "ul >\n.a"))
        lines = self.lines("match", self.sheet, self.page)
        self.assertEqual(lines[4], f'{self.page}:1:5: <li class="a b"> li, ul > .a')
        self.assertEqual(len(self.lines("style", self.sheet, self.page, "color")), 2)
        with open(self.page, "a", encoding="utf-8") as file:
            file.write("<style>p { color: green }</style>")
        self.assertEqual(
            self.lines("style", self.page, "color"),
            [f"{self.page}:1:41: <p> color: green"],
        )

    def test_inline(self):
        page = b"\xef\xbb\xbf<p>\xc3\xa9\r\n<li>"
        with open(self.page, "wb") as file:
            file.write(page)
        words = [sys.executable, "-m", "simplecss", "inline", self.page, self.sheet]
        folder = os.path.dirname(os.path.dirname(simplecss.__file__))
        made = subprocess.run(words, env={**os.environ, "PYTHONPATH": folder}, capture_output=True)
        self.assertEqual((made.returncode, made.stderr), (0, b""))
        self.assertEqual(
            made.stdout,
            page.replace(b"<p>", b"<style>\r\np:hover { top: 1px }\r\n</style><p>").replace(
                b"<li>", b'<li style="color: red; margin: 0">'
            ),
        )

    def write(self, name, text):
        with open(name, "w", encoding="utf-8") as file:
            file.write(text)

    def test_lint(self):
        self.assertEqual(self.run_command("lint", self.sheet), (0, "", ""))
        self.write(self.sheet, "@import 'x';\na { top: 0 }\nd { e }")
        finding = f"{self.sheet}:3:5: 'e': broken declaration\n"
        self.assertEqual(self.run_command("lint", self.sheet), (1, finding, ""))
        status, out, err = self.run_command("lint", self.sheet + "x", self.sheet)
        self.assertEqual((status, out, err.count("\n")), (4, finding, 1))
        self.assertEqual(self.run_command("lint", "--ignore", "broken", self.sheet)[0], 0)
        self.assertEqual(self.run_command("lint", "--select", "broken", self.sheet)[0], 1)

    def kinds(self, text, *words, name=None):
        """The kinds that are reported, with what they are of. The names are made up."""
        self.write(name or self.sheet, text)
        words = ("--json", "--ignore", "unknown", *words, name or self.sheet)
        lines = self.run_command("lint", *words)[1].splitlines()
        found = []
        for each in map(json.loads, lines):
            rows = text.split("\n")[each["row"] - 1 : each["end_row"]]
            rows[-1] = rows[-1][: each["end_column"] - 1]
            found.append((each["kind"], "\n".join(rows)[each["column"] - 1 :]))
        return found

    def test_mistakes(self):
        for text, expected in (
            ("a { b: c; d e; f: g }", [("broken-declaration", "d e")]),
            (
                "a { b: c; : d; e: }",
                [("broken-declaration", ": d"), ("broken-declaration", "e:")],
            ),
            ("a { b: 'c\n; d: e }", [("bad-string", "'c")]),
            ("a { b: c } } d { e: f }", [("stray-bracket", "} d { e: f }")]),
            ("a { b: c) }", [("stray-bracket", "b: c)")]),
            ("a, { b: c } d { e: f }", [("invalid-selector", "a, { b: c }")]),
            ("a { b: url(c d) }", [("bad-url", "url(c d)")]),
            ("a { b: c\n", [("block-not-closed", "a")]),
            ("a { b: 'c", [("block-not-closed", "a"), ("value-not-closed", "'c")]),
            ("@media é { a { b: c }", [("block-not-closed", "@media é")]),
            ("a { b: c } @media é {", [("block-not-closed", "@media é {")]),
            ("a { b: c } /* d */ /*/", [("comment-not-closed", "/*/")]),
            ("@font-face { a: b; é }", [("broken-declaration", "é")]),
            ("é { b: c } d", [("no-block", "d")]),
        ):
            self.assertEqual(self.kinds(text), expected, text)

    def test_a_sheet_with_nine_mistakes(self):
        text = """.a { color red; top: 1px }
.b { left: 1px; : 2px; margin: ; }
.c { content: "x
; color: blue }
.d, .e, { color: red }
.f > { color: red }
.g { width: calc(1px + 2px)); color: red }
.h { color: red } }
.i { color: red }
.j { color: !importantly; background: url(a b.png) }
@media print { .k { color: red }
"""
        self.assertEqual(
            [kind for kind, _ in self.kinds(text)],
            [
                "broken-declaration",
                "broken-declaration",
                "broken-declaration",
                "bad-string",
                "invalid-selector",
                "invalid-selector",
                "stray-bracket",
                "stray-bracket",
                "broken-declaration",
                "bad-url",
                "block-not-closed",
            ],
        )

    def test_unsupported(self):
        text = (
            "@import 'a'; b:host, d ~ d { e: f } @media (g: h) { i { j: k } }"
            "@supports (g: h) { i { j: k } } @media print { l:hover { m: n } } o:checked::after, [p=':q'] { r: s }"
        )
        self.assertEqual(self.kinds(text), [])
        self.assertEqual(
            self.kinds(text, "--all"),
            [
                ("unsupported-at-rule", "@import 'a';"),
                ("unsupported-selector", "b:host"),
                ("unsupported-condition", "@media (g: h)"),
                ("unsupported-pseudo-class", "o:checked::after"),
            ],
        )
        text = "a { b: c; d:hover { e: f } g: h } i { j }"
        self.assertEqual(self.kinds(text), [("broken-declaration", "j")])
        self.assertEqual(
            self.kinds(text, "--all"),
            [
                ("unsupported-nested-rule", "d:hover { e: f }"),
                ("broken-declaration", "j"),
            ],
        )
        text = "@import 'a'; b ~ c, d { e: f } @supports (g: h) { i { j: k } } @media print { l { m: n } }"
        self.assertEqual(
            [kind for kind, _ in self.kinds(text, "--grammar", "simplecss")],
            [
                "at-rule-not-supported",
                "invalid-ident",
                "at-rule-not-supported",
                "at-rule-not-supported",
            ],
        )

    def test_mistakes_of_pages(self):
        text = "<p\n style='b: c; d'>\n<style>\n  e { f } </style>"
        self.assertEqual(
            self.kinds(text, name=self.page),
            [("broken-declaration", "d"), ("broken-declaration", "f")],
        )

    def test_marks_around_a_sheet(self):
        self.write(self.page, "<style>\n<!-- p { color: green } a < b {} -->\n</style><p>")
        self.assertEqual(
            self.lines("style", self.page, "color"),
            [f"{self.page}:3:9: <p> color: green"],
        )
        self.assertEqual(
            self.run_command("lint", self.page)[:2],
            (1, f"{self.page}:2:25: 'a < b {{}}': invalid selector\n"),
        )

    def test_formats_of_lint(self):
        self.write(self.sheet, "a\n<\n50% {}")
        _, out, _ = self.run_command("lint", "--format", "github", self.sheet)
        self.assertEqual(
            out,
            f"::warning file={self.sheet},line=1,endLine=3,col=1,endColumn=7,title=invalid-selector::"
            "'a < 50%25 {}': invalid selector\n",
        )
        _, out, _ = self.run_command("lint", "--format", "sarif", self.sheet)
        log = json.loads(out)
        self.assertEqual(log["version"], "2.1.0")
        result = log["runs"][0]["results"][0]
        self.assertEqual(result["ruleId"], log["runs"][0]["tool"]["driver"]["rules"][0]["id"])
        self.assertEqual(
            result["locations"][0]["physicalLocation"]["region"],
            {"startLine": 1, "startColumn": 1, "endLine": 3, "endColumn": 7},
        )
        _, out, _ = self.run_command("lint", "--format", "checkstyle", self.sheet)
        error = xml.etree.ElementTree.fromstring(out.encode())[0][0]
        self.assertEqual(
            (error.get("line"), error.get("message")),
            ("1", "'a < 50% {}': invalid selector"),
        )

    def test_old_grammar(self):
        new, old = (
            self.run_command("select", "--grammar", word, "li", self.page)
            for word in ("modern", "today")
        )
        self.assertEqual(old, (*new[:2], "simplecss: --grammar today is now --grammar modern\n"))
        self.assertEqual(self.run_command("select", "--grammar", "css", "li", self.page)[0], 2)

    def test_statuses(self):
        self.assertEqual(self.run_command("select", "li,", self.page)[0], 1)
        self.assertEqual(self.run_command("select", "li", self.page + "x")[0], 4)
        self.assertEqual(self.run_command("none")[0], 2)
        self.assertEqual(
            self.run_command("select", "\udcff", self.page),
            (2, "", "simplecss: a word or a name of a file is not UTF-8\n"),
        )
        self.assertEqual(
            self.run_command("--version")[:2],
            (0, f"simplecss {simplecss.__version__}\n"),
        )

    def run_shell(self, line):
        folder = os.path.dirname(os.path.dirname(simplecss.__file__))
        env = {
            **os.environ,
            "PYTHONPATH": folder,
            "PAGE": self.page,
            "RUN": f"{sys.executable} -m simplecss",
        }
        made = subprocess.run(["sh", "-c", line], env=env, capture_output=True, text=True)
        return made.returncode, made.stdout, made.stderr

    def test_streams(self):
        with open(self.page, "w", encoding="utf-8") as file:
            file.write("<p>" * 20_000)
        self.assertEqual(
            self.run_shell("$RUN select p $PAGE | head -n 1"),
            (0, f"{self.page}:1:1: <p>\n", ""),
        )
        if os.path.exists("/dev/full"):
            self.assertEqual(
                self.run_shell("$RUN select p $PAGE >/dev/full"),
                (4, "", "simplecss: cannot write: No space left on device\n"),
            )
            self.assertEqual(
                self.run_shell("$RUN select --help >/dev/full"),
                (4, "", "simplecss: cannot write: No space left on device\n"),
            )
        self.assertEqual(
            self.run_shell("$RUN select p - <&-")[::2],
            (4, "simplecss: cannot read -: standard input is closed\n"),
        )
        self.assertEqual(
            self.run_shell("$RUN select p $PAGE >&-")[::2],
            (4, "simplecss: standard output is closed\n"),
        )


class Errors(unittest.TestCase):
    """A missing library and a mistake in it are two errors."""

    def test_kinds(self):
        self.assertTrue(issubclass(simplecss.LibraryError, OSError))
        self.assertTrue(issubclass(simplecss.InternalError, RuntimeError))
        self.assertFalse(issubclass(simplecss.InternalError, (OSError, ValueError)))

    def test_an_answer_that_cannot_be(self):
        answer = library.Answer(library.REFUSED, b"", None)
        with unittest.mock.patch.object(library, "call", lambda *words, **more: answer):
            with self.assertRaisesRegex(
                simplecss.InternalError, "simplecss_.*: unexpected status 1"
            ):
                simplecss.StyleSheet("a{b:c}").rules
            with tempfile.TemporaryDirectory() as folder:
                path = os.path.join(folder, "a.css")
                with open(path, "w", encoding="utf-8") as file:
                    file.write("a{b:c}")
                errors = io.StringIO()
                with redirect_stderr(errors):
                    status = command.main(["lint", path])
        self.assertEqual((status, "a mistake in simplecss itself" in errors.getvalue()), (4, True))


class Versions(unittest.TestCase):
    def test_of_the_header(self):
        top = os.path.join(os.path.dirname(os.path.abspath(__file__)), "..", "..")
        header = os.path.join(top, "include", "simplecss.h")
        with open(header, encoding="utf-8") as file:
            self.assertIn(f'#define SIMPLECSS_VERSION "{simplecss.__version__}"\n', file.read())


class OldNames(unittest.TestCase):
    """Names of an earlier version still work, and warn."""

    def warned(self, call):
        """Returns what a call returns, which warns at the line of this module that made it."""
        with self.assertWarns(DeprecationWarning) as caught:
            found = call()
        self.assertEqual(caught.filename, __file__)
        return found

    def test_grammar(self):
        tree = simplecss.Tree.from_html("<p><b>")
        bold = tree.select_one("b")
        for call in (
            tree.select,
            tree.select_one,
            lambda text, grammar: list(tree.iselect(text, grammar=grammar)),
            bold.matches,
            bold.closest,
            bold.parent.select,
            lambda text, grammar: simplecss.Selector(text, grammar=grammar),
            lambda text, grammar: simplecss.StyleSheet(text + "{}", grammar=grammar).match(tree),
        ):
            self.assertEqual(
                self.warned(lambda: call("p > b", grammar="today")),
                call("p > b", grammar="modern"),
            )

    def test_unmatched(self):
        sheet = simplecss.StyleSheet("a:host { c: d }")
        self.assertEqual(self.warned(lambda: sheet.unmatched), sheet.unsupported)
        self.assertIs(self.warned(lambda: simplecss.Unmatched), simplecss.Unsupported)
        with self.assertRaises(AttributeError):
            simplecss.Unknown


class Syntax(unittest.TestCase):
    def modules(self):
        """Returns the modules of the package by name, as trees."""
        folder = os.path.dirname(simplecss.__file__)
        found = {}
        for path in pathlib.Path(folder).rglob("*.py"):
            name = str(path.relative_to(folder))
            found[name] = ast.parse(path.read_text("utf-8"), name, feature_version=(3, 9))
        self.assertLessEqual({"_sheet.py", "_html.py"}, found.keys())
        return found

    def test_python_3_9(self):
        self.modules()

    def test_private_names(self):
        """No module uses a name with an underscore that another one defines, but for modules."""
        modules = self.modules()
        defined = {name: set(_private(_defined(tree))) for name, tree in modules.items()}
        for name, tree in modules.items():
            others = set().union(*(names for other, names in defined.items() if other != name))
            self.assertEqual(sorted(set(_private(_used(tree))) & others - defined[name]), [], name)


def _private(names):
    return (name for name in names if name.startswith("_") and not name.startswith("__"))


def _defined(tree):
    """Yields the names of functions and classes, and of what is assigned, also as attributes."""
    for node in ast.walk(tree):
        if isinstance(node, (ast.FunctionDef, ast.ClassDef)):
            yield node.name
        elif isinstance(node, (ast.Name, ast.Attribute)) and isinstance(node.ctx, ast.Store):
            yield node.id if isinstance(node, ast.Name) else node.attr


def _used(tree):
    """Yields the names of attributes, and those that are imported of modules."""
    for node in ast.walk(tree):
        if isinstance(node, ast.Attribute):
            yield node.attr
        elif isinstance(node, ast.ImportFrom) and node.module:
            yield from (each.name for each in node.names)


if __name__ == "__main__":
    unittest.main()
