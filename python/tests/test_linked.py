"""Tests of the sheets that a page names: links, imports, titles and media, where they are looked for, and what the
command line does with many pages."""

import base64
import io
import os
import pathlib
import pickle
import sys
import tempfile
import unittest
import unittest.mock
from contextlib import redirect_stderr, redirect_stdout

sys.path.insert(0, os.path.join(os.path.dirname(os.path.abspath(__file__)), "..", "src"))

import simplecss  # noqa: E402
from simplecss import __main__ as command  # noqa: E402
from simplecss import inline  # noqa: E402
from simplecss._urls import joined  # noqa: E402

ELSEWHERE = "it is elsewhere, and nothing is fetched"
LOSES = "its rules lose to what is written into attributes"


def color_of(page, media="screen", **options):
    """Returns the colour of the last element of a page, and the urls that were not read."""
    tree = simplecss.Tree.from_html(page)
    sheet = simplecss.StyleSheet.of_page(tree, **options)
    winner = sheet.style(tree, "color", media=media)[-1]
    return winner and winner.value, [each.url for each in sheet.unread]


def run(*words):
    output, errors = io.StringIO(), io.StringIO()
    with redirect_stdout(output), redirect_stderr(errors):
        status = command.main(list(words))
    return status, output.getvalue(), errors.getvalue()


class Site(unittest.TestCase):
    def setUp(self):
        folder = tempfile.TemporaryDirectory()
        self.addCleanup(folder.cleanup)
        self.folder = pathlib.Path(folder.name)

    def put(self, **files):
        """Writes files, in whose names `__` is a slash and `_` a point. Returns their names."""
        names = []
        for name, text in files.items():
            path = self.folder / name.replace("__", "/").replace("_", ".")
            path.parent.mkdir(parents=True, exist_ok=True)
            path.write_text(text, "utf-8")
            names.append(str(path))
        return names


class Urls(unittest.TestCase):
    def test_a_base_above(self):
        for base, url, expected in (
            ("../../a.css", "b/c.css", "../../b/c.css"),
            ("../a.css", "../b.css", "../../b.css"),
            ("a/b.css", "../c.css", "c.css"),
            ("a.css", "../../b/c.css", "../../b/c.css"),
            ("/a/b.css", "../../c", "/c"),
            ("http://h/a/b", "../../c", "http://h/c"),
            ("../a.css", "/b.css", "/b.css"),
            ("", "../b", "../b"),
            ("../a.css", "http://h/b", "http://h/b"),
            ("../a.css", "?x=../y", "../a.css?x=../y"),
        ):
            self.assertEqual(joined(base, url), expected, (base, url))


class Loaded(unittest.TestCase):
    """What a callable returns for urls."""

    SHEETS = {
        "a.css": "p{color:red}",
        "b.css": "@import 'a.css'; @import url(c.css) print;",
        "c.css": "p{color:blue}",
    }

    def color(self, head, **options):
        return color_of(f"{head}<p>", load=self.SHEETS.get, **options)[0]

    def test_links_in_use(self):
        for link, expected in (
            ("", "red"),
            ("type=text/css", "red"),
            ("type='TEXT/CSS; charset=x'", "red"),
            ("type=text/plain", None),
            ("media=screen", "red"),
            ("media=print", None),
            ("media=' ALL '", "red"),
            ("disabled", None),
            ("title=x", "red"),
        ):
            self.assertEqual(self.color(f"<link rel=stylesheet href=a.css {link}>"), expected, link)
        self.assertEqual(
            self.color("<link rel=stylesheet href=a.css media=print>", media="print"),
            "red",
        )
        for rel, expected in (
            ("'x StyleSheet'", "red"),
            ("icon", None),
            ("'alternate stylesheet'", None),
        ):
            self.assertEqual(self.color(f"<link rel={rel} href=a.css>"), expected, rel)
        for place in ("svg", "math"):
            self.assertIsNone(self.color(f"<{place}><link rel=stylesheet href=a.css></{place}>"))

    def test_titles(self):
        other = "<link rel='alternate stylesheet' title={} href=a.css>"
        for head, expected in (
            (
                "<style title=x>p{color:blue}</style><link rel=stylesheet title=y href=a.css>",
                "blue",
            ),
            (
                "<style title=x>p{color:blue}</style><link rel=stylesheet title=x href=a.css>",
                "red",
            ),
            (other.format("x"), None),
            (other.format("x") + "<style title=x></style>", "red"),
        ):
            self.assertEqual(self.color(head), expected, head)

    def test_alternates_beside_what_is_written(self):
        link = "<link rel='alternate stylesheet' title=x href=a.css><p>"
        for head, is_written in (("", True), ("<style title=x></style>", False)):
            found = inline(head + link, "p{color:green}", load=self.SHEETS.get)
            self.assertEqual("<p style=" in found, is_written, head)

    def test_order(self):
        link, style = (
            "<link rel=stylesheet href=a.css>",
            "<style>p{color:green}</style>",
        )
        self.assertEqual((self.color(link + style), self.color(style + link)), ("green", "red"))

    def test_imports(self):
        for css, media, expected in (
            ("@import 'a.css';", "screen", "red"),
            ("@import url( 'a.css' ) screen;", "screen", "red"),
            ("@import url(a.css) print;", "screen", None),
            ("@import 'b.css';", "screen", "red"),
            ("@import 'b.css';", "print", "blue"),
            ("@import 'a.css'; p{color:green}", "screen", "green"),
            ("x{} @import 'a.css';", "screen", None),
            ("@charset 'x'; @layer y; ? {} @import 'a.css';", "screen", "red"),
            ("@media screen{@import 'a.css';}", "screen", None),
            ("@import '\\61.css';", "screen", "red"),
        ):
            self.assertEqual(self.color(f"<style>{css}</style>", media=media), expected, css)

    def test_conditions(self):
        tree = simplecss.Tree.from_html(
            "<style>@import 'a' layer(x); @import 'b' print;</style><p>"
        )
        sheet = simplecss.StyleSheet.of_page(
            tree, load=lambda url: f"@media {url} {{ p {{ c:d }} }}"
        )
        self.assertEqual(
            [[*map(str, each.conditions)] for each in sheet.rules],
            [["@layer x", "@media a"], ["@media print", "@media b"]],
        )
        asked = []
        sheet.match(tree, media=lambda text: asked.append(text) or True)
        self.assertEqual(asked, ["a", "print", "b"])
        self.assertEqual(
            str(sheet),
            "\n".join(
                (
                    "@layer x {",
                    "  @media a {",
                    "    p { c:d; }",
                    "  }",
                    "}",
                    "@media print {",
                    "  @media b {",
                    "    p { c:d; }",
                    "  }",
                    "}",
                )
            ),
        )
        again = pickle.loads(pickle.dumps(sheet))
        self.assertEqual((again.rules, again.unread), (sheet.rules, sheet.unread))

    def test_layers(self):
        sheets = {
            "a": "@import 'b' layer(z); p{color:red}",
            "b": "p{color:blue}",
            "y": "@import 'b'; p.x{color:green}",
        }
        for css, expected in (
            ("@import 'a' layer(x); @import 'b' layer(y);", "blue"),
            ("@layer y, x; @import 'a' layer(x); @import 'b' layer(y);", "red"),
            ("@import 'a' layer; p{color:green}", "green"),
            ("@import 'b'; @import 'a' layer;", "blue"),
            ("@layer x.z; @import 'a' layer(x);", "red"),
            ("@layer y, x; @import 'a' layer(x) print; @import 'b' layer(y);", "blue"),
            ("@import 'a' layer(y) supports(a:b); @import 'b' layer(x);", "blue"),
            (
                "@import 'none' layer(y); @import 'a' layer(x); @import 'b' layer(y);",
                "red",
            ),
            # Of one layer without a name, in which the more specific selector wins.
            ("@import 'y' layer;", "green"),
            ("@import 'y' layer; @import 'b' layer;", "blue"),
        ):
            page = f"<style>{css}</style><p class=x>"
            self.assertEqual(color_of(page, load=sheets.get)[0], expected, css)
            # So it is where the sheet is printed.
            tree = simplecss.Tree.from_html(page)
            sheet = simplecss.StyleSheet.of_page(tree, load=sheets.get)
            again = simplecss.StyleSheet(str(sheet)).style(tree, "color")
            self.assertEqual(again[-1].value, expected, css)

    def test_around(self):
        layer, print_ = simplecss.Condition("layer", "x"), ("media", "print")
        unnamed = simplecss.Condition("layer", "")
        tree = simplecss.Tree.from_html("<p>")
        for around, media, expected in (
            ((), "screen", "2"),
            ([[layer]], "screen", "2"),
            ([[], [layer]], "screen", "1"),
            ([[layer], [layer]], "screen", "2"),
            ([[print_], [layer]], "screen", "2"),
            ([[print_], [layer]], "print", "1"),
            ([[unnamed], [unnamed, layer]], "screen", "2"),
        ):
            sheet = simplecss.StyleSheet("p{a:1}", "}q{} p{a:2}", around=around)
            self.assertEqual(sheet.style(tree, "a", media=media)[-1].value, expected)
            again = pickle.loads(pickle.dumps(sheet))
            self.assertEqual(again.style(tree, "a", media=media)[-1].value, expected)
        rule = simplecss.StyleSheet("p{a:1}", around=[[layer]]).rules[0]
        self.assertEqual(rule.conditions, (layer,))
        for around, grammar in (([[], [], []], "modern"), ([[layer]], "simplecss")):
            with self.assertRaises(ValueError):
                simplecss.StyleSheet("", "", around=around, grammar=grammar)

    def test_sheets_that_import_one_another(self):
        sheets = {
            "a": "@import 'b'; p{color:red}",
            "b": "@import 'a'; @import 'b'; q{color:blue}",
        }
        page = "<link rel=stylesheet href=a><p>"
        self.assertEqual(color_of(page, load=sheets.get), ("red", []))
        self.assertEqual(inline(page, load=sheets.get), '<p style="color: red">')
        # A fragment makes no other sheet.
        sheets = {
            "a": "@import 'b' layer(x); p#i{color:red !important}",
            "a#f": "@import 'b' layer(x); p#i{color:red !important}",
            "b": "@import 'a#g'; p{color:blue !important}",
            "a#g": "@import 'b' layer(x); p#i{color:red !important}",
        }
        page = "<link rel=stylesheet href=a#f><p id=i>"
        self.assertEqual(color_of(page, load=sheets.get), ("blue", []))
        self.assertEqual(inline(page, load=sheets.get), '<p id=i style="color: blue !important">')
        # A linked sheet stays if one that stays would import it in a layer without it.
        sheets = {
            "a": "@import 'b' layer(x) screen; p#i{color:red !important}",
            "b": "@import 'a'; p{color:blue !important}",
        }
        page = "<link rel=stylesheet href=a><p id=i>"
        self.assertEqual(color_of(page, load=sheets.get), ("blue", []))
        self.assertEqual(inline(page, load=sheets.get), page)
        # Each imports the next.
        chain = color_of(
            "<link rel=stylesheet href=0><p>",
            load=lambda url: f"@import '{int(url) + 1}'; p{{color:red}}",
        )
        self.assertEqual(chain, ("red", ["16"]))

    def test_what_is_too_much(self):
        # 2^40 sheets.
        def load(url):
            number = int(url.partition("?")[0])
            return (
                f"@import '{number + 1}?a'; @import '{number + 1}?b';/*{' ' * 1000}*/"
                if number < 40
                else ""
            )

        page = "<link rel=stylesheet href=0>"
        for call in (
            lambda: inline(page, load=load, answer_limit=100_000),
            lambda: simplecss.StyleSheet.of_page(
                simplecss.Tree.from_html(page), load=load, answer_limit=100_000
            ),
        ):
            with self.assertRaises(simplecss.LimitError):
                call()

    def test_urls_that_are_asked_for(self):
        asked = []
        page = "<base href=../c/><link rel=stylesheet href=d.css?e><style>@import '/f.css';</style>"
        load = {"https://h/c/d.css?e": "@import 'g/h.css';"}
        unread = color_of(
            page,
            at="https://h/a/b.html",
            load=lambda url: asked.append(url) or load.get(url),
        )[1]
        self.assertEqual(asked, ["https://h/c/d.css?e", "https://h/c/g/h.css", "https://h/f.css"])
        self.assertEqual(unread, ["g/h.css", "/f.css"])
        with self.assertRaises(TypeError):
            color_of("<link rel=stylesheet href=a><p>", load=lambda url: b"")

    def test_urls_before_a_base(self):
        """A link before the `base` is not taken from it, and a `base` in a drawing is none (HTML Standard,
        sections 4.2.3 and 4.2.4)."""
        for page, expected in (
            ("<link rel=stylesheet href=a.css><base href=../c/>", "https://h/a/a.css"),
            ("<base href=../c/><link rel=stylesheet href=a.css>", "https://h/c/a.css"),
            ("<svg><base href=../c/></svg><link rel=stylesheet href=a.css>", "https://h/a/a.css"),
            ("<base><base href=../c/><link rel=stylesheet href=a.css>", "https://h/c/a.css"),
        ):
            for call in (
                lambda load: inline(page, at="https://h/a/b.html", load=load),
                lambda load: color_of(page, at="https://h/a/b.html", load=load),
            ):
                asked = []
                call(asked.append)
                self.assertEqual(asked, [expected], page)

    def test_titles(self):
        """A link without a url is no sheet, and names no preferred title (HTML Standard, section 4.2.4)."""
        for url, expected in (("", "red"), ("a.css", "green")):
            page = f"<link rel=stylesheet title=t href='{url}'><style title=u>p{{color:red}}</style><p>"
            load = {"https://h/a.css": "p{color:green}"}.get
            self.assertEqual(color_of(page, at="https://h/b.html", load=load)[0], expected)

    def test_data(self):
        text = base64.b64encode(b"p{color:red}").decode()
        for data, expected in (
            (f"text/css;base64,{text}", "red"),
            ("text/css;charset=utf-8,p{color:red%7d", "red"),
            ("text/plain,p{color:red}", None),
            ("text/css;base64,!", None),
            ("text/css", None),
        ):
            page = f"<link rel=stylesheet href='data:{data}'><p>"
            self.assertEqual(color_of(page)[0], expected, data)
            self.assertEqual("style=" in inline(page), expected is not None, data)

    def test_other_trees(self):
        import xml.etree.ElementTree as etree

        root = etree.fromstring(
            "<r><style>p{color:red}</style><link rel='stylesheet' href='c.css'/><p/></r>"
        )
        tree = simplecss.Tree.from_etree(root)
        sheet = simplecss.StyleSheet.of_page(tree, load=self.SHEETS.get)
        self.assertEqual(sheet.style(tree, "color")[-1].value, "blue")


class Files(Site):
    def test_where_the_page_is(self):
        (page, *_) = self.put(
            a__b__p_html="<link rel=stylesheet href=../../x.css><link rel=stylesheet href=/y.css><p>",
            x_css="p{color:red}",
            y_css="p{top:0}",
        )
        text = pathlib.Path(page).read_text()
        self.assertEqual(color_of(text, at=page, folder=self.folder), ("red", []))
        self.assertIn(
            '<p style="color: red; top: 0">',
            inline(text, at=pathlib.Path(page), folder=str(self.folder)),
        )
        # Above the folder is nothing.
        self.assertEqual(
            color_of(text, at=page, folder=self.folder / "a")[1],
            ["../../x.css", "/y.css"],
        )
        self.assertEqual(color_of(text, at=page), (None, ["../../x.css", "/y.css"]))
        # A url stands for the folder.
        self.assertEqual(color_of(text, at="http://h/a/b/p.html", folder=self.folder), ("red", []))
        self.assertEqual(color_of(text, at="http://h/p.html", folder=self.folder)[0], "red")

    def test_what_is_never_read(self):
        self.put(
            site__x_css="p{color:red}",
            out_css="p{color:blue}",
            site__x_txt="p{color:blue}",
        )
        os.symlink(self.folder / "out.css", self.folder / "site" / "link.css")
        folder = self.folder / "site"
        for url in (
            "../out.css",
            "link.css",
            "x.txt",
            "http://h/x.css",
            "//h/x.css",
            (self.folder / "out.css").as_uri(),
            "%2e%2e/out.css",
            "/../out.css",
            "\\\\h\\x.css",
            "%00.css",
            "file://h/x.css",
            "[",
            "//[x",
        ):
            for page in (
                f"<link rel=stylesheet href='{url}'><p>",
                f"<style>@import '{url}';</style><p>",
            ):
                self.assertIsNone(color_of(page, folder=folder)[0], page)
                self.assertNotIn("blue", inline(page, folder=folder), page)

    def test_inline_takes_imports(self):
        self.put(
            a__a_css="@import 'b.css'; a:hover{b:url(i.png)} p{c:url(j.png)}",
            a__b_css="p{color:red}",
        )
        page = "<style>@import 'a/a.css'; p{d:e}</style><p>"
        self.assertEqual(
            inline(page, folder=self.folder),
            "<style>\na:hover{b:url(a/i.png)}\n</style>"
            '<p style="color: red; c: url(a/j.png); d: e">',
        )
        self.assertIn(
            "url(http://h/a/i.png)",
            inline(page, folder=self.folder, base_url="http://h/"),
        )

    def test_inline_keeps_the_order_of_imports(self):
        self.put(a_css="p{color:red}", b_css="p{color:blue !important}", c_css="p{top:0}")
        page = "<style>@import 'a.css'; @import 'b.css' print; @import 'c.css'; p{color:green}</style><p>"
        self.assertEqual(
            inline(page, folder=self.folder),
            "<style>\n@import 'a.css';\n@import 'b.css' print;\n</style>"
            '<p style="top: 0; color: green">',
        )
        # What an import that stays may override stays, too.
        self.put(a_css="p.x{color:red}")
        self.assertEqual(
            inline(page.replace("<p", "<p class=x"), folder=self.folder),
            "<style>\n@import 'a.css';\n@import 'b.css' print;\np { color: green }\n</style>"
            '<p class=x style="top: 0">',
        )

    def test_inline_takes_imports_in_layers(self):
        """What wins is said by CSS Cascading 5, sections 2.1 and 6.4."""
        self.put(
            red_css="p{color:red}",
            blue_css="p#i{color:blue}",
            hot_css="p{color:red !important}",
            inner_css="@layer b{p{color:red}} p{top:0}",
            both_css="@layer x; @import 'red.css' layer(y); @import 'blue.css' layer(x);",
            empty_css="",
            cycle_css="@import 'cycle.css' layer(y); @import 'blue.css' layer(x);"
            "@import 'red.css' layer(y);",
            none_css="@import 'red.css'; @import 'blue.css' layer;",
        )
        for css, style in (
            ("@import 'blue.css' layer(x); p{color:green}", "color: green"),
            # What is important in an earlier layer is stronger.
            (
                "@import 'hot.css' layer(x); p{color:green !important}",
                "color: red !important",
            ),
            ("@import 'blue.css' layer(x); @import 'red.css' layer(y);", "color: red"),
            (
                "@layer y, x; @import 'blue.css' layer(x); @import 'red.css' layer(y);",
                "color: blue",
            ),
            # An empty sheet has a place, too.
            (
                "@import 'empty.css' layer(y); @import 'blue.css' layer(x); @import 'red.css' layer(y);",
                "color: blue",
            ),
            ("@import 'cycle.css' layer(c);", "color: blue"),
            # Each layer without a name is one of its own.
            ("@import 'blue.css' layer; @import 'red.css' layer;", "color: red"),
            # Names are within those of the layers around.
            (
                "@layer a.c, a.b; @import 'inner.css' layer(a); @layer a.c{p#i{color:blue}}",
                "color: red; top: 0",
            ),
            (
                "@layer a.b, a.c; @import 'inner.css' layer(a); @layer a.c{p{color:blue}}",
                "color: blue; top: 0",
            ),
            (
                "@import 'inner.css' layer(a.b); @layer a.b.b{p{color:blue}} @layer b{p{left:0}}",
                "color: blue; top: 0; left: 0",
            ),
            ("@import 'both.css' layer(a);", "color: red"),
            (
                "@layer a.y, a.x; @import 'both.css' layer(a);",
                "color: blue",
            ),
            # The layer of what imports it is above those in it.
            ("@import 'none.css' layer(a);", "color: red"),
        ):
            page = f"<style>{css}</style><p id=i>"
            expected = f'<p id=i style="{style}">'
            self.assertEqual(inline(page, folder=self.folder), expected, css)

    def test_inline_keeps_layers_of_imports(self):
        """What stays of a sheet is in its layers."""
        self.put(
            a_css="p{color:red} p:hover{top:0} @media print{p{left:0}}",
            b_css="@import 'a.css' layer(b); p:focus{top:1px}",
            c_css="p:hover{top:0",
            d_css="} p{top:0} p{left:0}",
            e_css="",
            f_css="p:hover{top:0; a:)",
            g_css="p:hover{top:0; a:)} }",
        )
        media = "p:hover{top:0}\n@media print{p{left:0}}"
        for css, kept in (
            ("@import 'a.css' layer(x);", f"@layer x {{\n{media}\n}}"),
            ("@import 'a.css' layer;", f"@layer {{\n{media}\n}}"),
            (
                "@import 'b.css' layer(x.y);",
                f"@layer x.y {{\n@layer b {{\n{media}\n}}\np:focus{{top:1px}}\n}}",
            ),
            (
                "@import 'b.css' layer;",
                f"@layer {{\n@layer b {{\n{media}\n}}\np:focus{{top:1px}}\n}}",
            ),
            (
                "@layer y, x; @import 'e.css' layer(x); @import 'a.css' layer(/**/ y );",
                f"@layer y, x;\n@layer x;\n@layer y {{\n{media}\n}}",
            ),
            # The end of a sheet closes what is open.
            ("@import 'c.css' layer(x);", "@layer x {\np:hover{top:0}\n}"),
            ("@import 'f.css' layer(x);", "@import 'f.css' layer(x);"),
            ("@import 'g.css' layer(x);", "@import 'g.css' layer(x);"),
            ("@import 'g.css';", "p:hover{top:0; a:)}\np { right: 0 }"),
            # No block would have a bracket that closes it.
            ("@import 'd.css' layer(x);", "@import 'd.css' layer(x);"),
            # What is known of layers only where a condition holds says no order.
            (
                "@import 'a.css' layer(x); @media print{@layer y{p{left:0}}}",
                "@import 'a.css' layer(x);\n@media print{@layer y{p{left:0}}}",
            ),
            (
                "@import 'a.css' layer(x); @import 'a.css' layer(y) screen;",
                "@import 'a.css' layer(x);\n@import 'a.css' layer(y) screen;",
            ),
            (
                "@import 'a.css' layer(x) supports(color: red);",
                "@import 'a.css' layer(x) supports(color: red);",
            ),
        ):
            page = f"<style>{css} p{{right:0}}</style><p>"
            found = inline(page, folder=self.folder, important=False)
            self.assertEqual(found.partition("<p")[0], f"<style>\n{kept}\n</style>", css)

    def test_inline_beats_nothing_of_an_import_that_stays_in_a_layer(self):
        """What is important there is stronger than what is important in no layer, and any other
        declaration is weaker."""
        self.put(a_css="p{color:red !important; top:0}")
        page = (
            "<style>@import 'a.css' layer(x) screen; p{color:blue !important; top:1px}</style><p>"
        )
        self.assertEqual(
            inline(page, folder=self.folder),
            "<style>\n@import 'a.css' layer(x) screen;\n</style>"
            '<p style="top: 1px; color: blue">',
        )

    def test_inline_wakes_no_import(self):
        page = "<style>p{color:red} @import 'a.css'; @namespace x 'y'; p:hover{top:0}</style><p>"
        self.assertEqual(inline(page), '<style>\np:hover{top:0}\n</style><p style="color: red">')

    def test_what_is_said(self):
        left = []
        inline(
            "<link rel=stylesheet href=http://h/a.css><style>@import 'b.css'; p{c:d}</style><p>",
            folder=self.folder,
            report=left,
        )
        self.assertEqual(
            [tuple(each) for each in left],
            [
                ("http://h/a.css", f"{ELSEWHERE}: {LOSES}"),
                ("@import 'b.css'", f"there is no such file: {LOSES}"),
            ],
        )

    def test_classes_that_a_link_may_need_stay(self):
        page = "<link rel=stylesheet href=http://h/a.css><p class=a>"
        self.assertEqual(inline(page, "p{b:c}", remove_classes=True).count("class=a"), 1)


class Many(Site):
    """Sheets that import others again and again."""

    MORE = "the page names more than 256 sheets"

    def asked(self, call, **sheets):
        """Returns the urls that a call asks for, each time that it does."""
        urls = []
        call(lambda url: urls.append(url) or sheets.get(url))
        return urls

    def test_each_url_is_read_once(self):
        page = "<link rel=stylesheet href=a><style>@import 'b'; @import 'a';</style><p>"
        sheets = {
            "a": "@import 'c'; p{color:red}",
            "b": "@import 'c'; p{color:blue}",
            "c": "",
        }
        tree = simplecss.Tree.from_html(page)
        for call in (
            lambda load: self.assertIn(
                '<p style="color: red">',
                inline(page, "@import 'c'; @import 'x'", load=load),
            ),
            lambda load: self.assertEqual(
                # A sheet counts where it is imported last.
                simplecss.StyleSheet.of_page(tree, load=load).style(tree, "color")[-1].value,
                "red",
            ),
        ):
            asked = self.asked(call, **sheets)
            self.assertEqual(sorted(set(asked)), sorted(asked))
            self.assertLessEqual(set("abc"), set(asked))

    def test_what_is_missing_is_asked_for_once_and_named_each_time(self):
        tree = simplecss.Tree.from_html("<style>@import 'a'; @import 'a#b';</style>")
        asked = []
        sheet = simplecss.StyleSheet.of_page(tree, load=asked.append)
        self.assertEqual((asked, [each.url for each in sheet.unread]), (["a"], ["a", "a#b"]))

    def test_a_query_makes_no_other_file(self):
        words = [f"@import 'a.css?{each}';" for each in "abcdefg"]
        page, _ = self.put(
            p_html="<link rel=stylesheet href=a.css><p>",
            a_css="".join(words) + "p{color:red} p:nope{a:b}",
        )
        text = (self.folder / "p.html").read_text("utf-8")
        tree = simplecss.Tree.from_html(text)
        found = simplecss.StyleSheet.of_page(tree, folder=self.folder)
        self.assertEqual((len(found.rules), found.unread), (1, ()))
        read = []
        made = pathlib.Path.read_bytes
        with unittest.mock.patch.object(
            pathlib.Path,
            "read_bytes",
            lambda path: read.append(path.name) or made(path),
        ):
            for call, expected in (
                (lambda: inline(text, folder=self.folder), ["a.css"]),
                (lambda: run("inline", page), ["p.html", "a.css"]),
                (lambda: run("match", page), ["p.html", "a.css"]),
                (lambda: run("lint", page), ["p.html", "a.css"]),
                # It finds the sheet, and then reads the page and the sheet.
                (lambda: run("unused", page), ["p.html", "a.css", "a.css", "p.html"]),
            ):
                read.clear()
                call()
                self.assertEqual(read, expected)

    def test_names_that_lead_to_different_places(self):
        self.put(a_css="p{color:red}", b__a_css="p{color:blue}")
        for href, color in (
            ("/a.css", "red"),
            ("a.css", "blue"),
            ("a.css?b#c", "blue"),
            (f"{self.folder.as_uri()}/a.css", "red"),
            ("file:///a.css", None),
        ):
            for before in ("/a.css", "file:///a.css", "a.css"):
                page = f"<link rel=stylesheet href={before}><link rel=stylesheet href={href}><p>"
                at = self.folder / "b" / "p.html"
                last = color_of(page, at=at, folder=self.folder)[0]
                first = {"/a.css": "red", "a.css": "blue"}.get(before)
                self.assertEqual(last, color or first, (before, href))

    def test_at_most_256_sheets(self):
        for count in (256, 257, 300):
            links = "".join(f"<link rel=stylesheet href=a{each}>" for each in range(count))
            tree = simplecss.Tree.from_html(links + "<p>")
            asked = []
            sheet = simplecss.StyleSheet.of_page(
                tree, load=lambda url: asked.append(url) or f"p{{b:{url}}}"
            )
            last = min(count, 256) - 1
            self.assertEqual(sheet.style(tree, "b")[-1].value, f"a{last}")
            self.assertEqual((len(asked), len(sheet.rules)), (last + 1, last + 1))
            self.assertEqual(
                sheet.unread,
                tuple((f"a{each}", self.MORE) for each in range(256, count)),
            )
            left = []
            text = inline(links + "<p>", load=lambda url: f"p{{b:{url}}}", report=left)
            self.assertEqual(text.count("<link"), count - last - 1)
            self.assertEqual(
                [tuple(each) for each in left],
                [(f"a{each}", f"{self.MORE}: {LOSES}") for each in range(256, count)],
            )

    def test_imports_are_counted(self):
        """Each sheet imports two more: 2^16 sheets."""
        page = "<link rel=stylesheet href=a><p>"
        tree = simplecss.Tree.from_html(page)
        reasons = []
        for call in (
            lambda load: inline(page, load=load, report=reasons),
            lambda load: reasons.extend(simplecss.StyleSheet.of_page(tree, load=load).unread),
        ):
            asked = []
            call(lambda url: asked.append(url) or '@import "a/x";@import "b/x" layer(y);')
            self.assertLessEqual(len(asked), 256)
        self.assertIn(self.MORE, [each.reason for each in reasons])

    def test_an_import_of_too_many_makes_no_layer(self):
        links = "<link rel=stylesheet href=a>" * 256
        page = f"{links}<style>@import 'b' layer(x); @layer y, x; @layer x{{p{{a:b}}}} @layer y{{p{{a:c}}}}"
        tree = simplecss.Tree.from_html(page + "</style><p>")
        sheet = simplecss.StyleSheet.of_page(tree, load=lambda url: "")
        self.assertEqual(sheet.style(tree, "a")[-1].value, "b")

    def test_a_sheet_that_is_read_again_takes_room(self):
        page = "<link rel=stylesheet href=a.css>" * 30
        self.put(a_css="p{a:b}" * 1000)
        for call in (
            lambda limit: inline(page, folder=self.folder, answer_limit=limit),
            lambda limit: simplecss.StyleSheet.of_page(
                simplecss.Tree.from_html(page), folder=self.folder, answer_limit=limit
            ),
        ):
            with self.assertRaisesRegex(simplecss.LimitError, "characters of linked sheets"):
                call(1_000_000)
            call(2_000_000)


class CommandLine(Site):
    def setUp(self):
        super().setUp()
        self.page, *_ = self.put(
            a_html="<link rel=stylesheet href=x.css><link rel=stylesheet href=http://h/y.css><p>",
            x_css="p{color:red} p{broken}",
            b__c_html="<p id=c>",
            b__d_txt="<p>",
        )
        self.message = f"simplecss: {self.page}: 'http://h/y.css' is not read: {ELSEWHERE}\n"

    def test_links_are_followed(self):
        self.assertEqual(
            run("style", self.page, "color"),
            (0, f"{self.page}:1:74: <p> color: red\n", self.message),
        )
        self.assertEqual(
            run("match", "--json", self.page)[1].splitlines()[-1],
            '{"element": 5, "name": "p", "rules": [0, 1]}',
        )
        status, out, err = run("inline", self.page)
        self.assertEqual((status, '<p style="color: red">' in out, LOSES in err), (0, True, True))
        self.assertEqual(
            run("style", "--folder", str(self.folder / "b"), self.page, "color")[1], ""
        )

    def test_inline_reads_each_sheet_alone(self):
        page, first, other, last = self.put(
            f_html="<p class=a>x<b>y</b>",
            f_css="b{color:red",
            g_css="/* open",
            h_css='@charset "utf-8"; @namespace n "u"; p{color:blue} p:hover{color:green}',
        )
        self.assertEqual(
            run("inline", page, first, other, last)[:2],
            (
                0,
                '<style>\n@charset "utf-8";\n@namespace n "u";\np:hover{color:green !important}\n'
                '</style><p class=a style="color: blue">x<b style="color: red">y</b>',
            ),
        )

    def test_lint_follows_links(self):
        sheet = self.page.replace("a.html", "x.css")
        found = (
            1,
            f"{os.path.realpath(sheet)}:1:16: 'broken': broken declaration\n",
            self.message,
        )
        self.assertEqual(run("lint", "--ignore", "repeated-rule", self.page), found)
        # Once for all pages.
        (other,) = self.put(e_html="<link rel=stylesheet href=x.css>")
        self.assertEqual(run("lint", "--ignore", "repeated-rule", self.page, other)[1], found[1])
        self.assertEqual(run("lint", sheet, self.page)[1].count("broken declaration"), 1)

    def test_folders_and_patterns(self):
        self.assertEqual(
            run("select", "--count", "p", str(self.folder))[1],
            f"{self.page}:1\n{self.folder / 'b' / 'c.html'}:1\n",
        )
        self.assertEqual(run("select", "--count", "p", str(self.folder / "*" / "*.html"))[1], "1\n")
        status, out, err = run("select", "p", str(self.folder / "none*"))
        self.assertEqual((status, out, "cannot read" in err), (4, "", True))
        self.assertEqual(
            run("style", str(self.folder / "x.css"), str(self.folder), "color")[1].count(
                "color: red"
            ),
            2,
        )
        self.assertEqual(run("lint", str(self.folder))[1].count("broken"), 2)

    def test_outputs(self):
        out = self.folder / "out"
        self.assertEqual(run("inline", self.page, "-o", str(out / "one.html"))[:2], (0, ""))
        self.assertIn("color: red", (out / "one.html").read_text())
        self.assertEqual(
            run("inline", str(self.folder / "b"), self.page, "-o", str(out / "all"))[0],
            0,
        )
        self.assertEqual(
            sorted(each.name for each in (out / "all").iterdir()), ["a.html", "c.html"]
        )
        self.assertEqual(
            run("inline", self.page, str(self.folder / "b"))[::2],
            (2, "simplecss: several pages need -o FOLDER\n"),
        )
        self.assertEqual(
            run("inline", self.page, self.page, "-o", str(out))[::2],
            (2, "simplecss: two of the pages have one name\n"),
        )
        self.assertEqual(
            run("inline", self.page, "-o", str(self.folder / "b" / "d.txt" / "x"))[0], 4
        )

    def test_several_at_once(self):
        names = self.put(**{f"n{number}_html": f"<p id=n{number}>" for number in range(20)})
        self.addCleanup(setattr, command, "_free_processors", command._free_processors)
        answers = []
        for count in (1, 2):
            command._free_processors = lambda: count
            answers.append(run("select", "p", *names))
        self.assertEqual(answers[0], answers[1])
        self.assertEqual(
            answers[0][1],
            "".join(f'{name}:1:1: <p id="n{at}">\n' for at, name in enumerate(names)),
        )

    def test_xml(self):
        (page,) = self.put(a_htm="<?xml version='1.0'?><P/>")
        self.assertEqual(run("select", "--count", "p", page)[1], "1\n")
        self.assertEqual(run("select", "--count", "--xml", "p", page)[1], "0\n")


if __name__ == "__main__":
    unittest.main()
