"""Tests of `inline` on sheets as mail has them."""

import json
import os
import random
import re
import sys
import tempfile
import unittest
import unittest.mock
import xml.etree.ElementTree as ElementTree

sys.path.insert(0, os.path.join(os.path.dirname(__file__), "..", "src"))

import simplecss  # noqa: E402
from simplecss import StyleSheet, Tree, _library, inline  # noqa: E402
from simplecss._kept import STATEMENTS  # noqa: E402


def style_of(css, page="<p class='a b' id=x>", **options):
    """Returns what `inline` writes into the attribute `style` of a page's only tag."""
    text = inline(page, css, **options)
    return text.partition(' style="')[2].partition('"')[0].replace("&quot;", "'")


def inlined(css, tag="a class=b"):
    """Returns what stays in a sheet, and the attribute `style` of a tag."""
    text = inline(f"<{tag}>", css)
    sheet = text.partition("<style>\n")[2].partition("\n</style>")[0]
    return [sheet, text.partition(' style="')[2].partition('"')[0]]


class Rows(unittest.TestCase):
    """The rows of tests/cases/inline.json, each of a call, its words, its options and what is due."""

    def test_rows(self):
        calls = {"inline": inline, "style_of": style_of, "inlined": inlined}
        table = os.path.join(os.path.dirname(__file__), "../../tests/cases/inline.json")
        with open(table, encoding="utf-8") as file:
            groups = json.load(file)["groups"]
        self.assertGreater(sum(map(len, groups.values())), 350)
        for group, rows in groups.items():
            for call, words, options, due in rows:
                with self.subTest(group=group, words=words, options=options):
                    self.assertEqual(calls[call](*words, **options), due)


class Names(unittest.TestCase):
    def test_classes_and_ids_that_the_page_has_are_found(self):
        for selector, tag, is_found in (
            (".a", "<p class='b a'>", True),
            (".a", "<p class='b\fA'>", True),
            (".A.b", "<p class='b\ta'>", True),
            ("#X.a", "<p id=x class=a>", True),
            (".A", "<!doctype html><p class=a>", False),
            (".\\61 b", "<!doctype html><p class=ab>", True),
            (".a\u00a0b", "<p class='a\u00a0b'>", True),
            (".a\\b c", "<p class='a\x0bc'>", True),
            (".a", "<p class='a\u00a0b'>", False),
            ("p:not(.a)", "<p class=b>", True),
            (":is(.a, p)", "<p class=b>", True),
            ("[class~=a]:not(#x)", "<p class=a>", True),
            (".b p", "<p class=a>", False),
        ):
            inliner = simplecss.Inliner(f"{selector} {{ top: 1px }}")
            # At the second page what the selectors need is known.
            for _ in range(2):
                found = 'style="top: 1px"' in inliner.inline(tag)
                self.assertEqual(found, is_found, selector)


class Selectors(unittest.TestCase):
    def test_a_table_has_a_body(self):
        for page in (
            "<table><tr><td>",
            "<table><caption>x<tr><td>",
            "<table><tbody><tr><td>",
        ):
            self.assertIn(
                '<td style="n: 1">',
                inline(page, "table > tbody > tr > td { n: 1 }"),
                page,
            )
            self.assertEqual(inline(page, "table > tr { n: 1 }"), page)


class Documents(unittest.TestCase):
    def test_lone_surrogates(self):
        for words in (("<p>\ud800",), ("<p>", "a{b:'\ud800'}")):
            with self.assertRaises(ValueError):
                inline(*words)

    def test_bytes(self):
        for page in (
            b"\xef\xbb\xbf<p>\xc3\xa9",
            b'<meta charset="iso-8859-1"><p>\xe9\x93\r\n',
            "\ufeff<p>é".encode("utf-16-le"),
            b'<?xml version="1.0" encoding="koi8-r"?><p>\xe1</p>',
            b"<meta http-equiv=content-type content='text/html; charset=koi8-r'><p>\xe1",
        ):
            self.assertEqual(inline(page), page)
        self.assertEqual(
            inline(b"<meta charset=latin1><p>\xe9", "p { n: 'é—水' }"),
            b"<meta charset=latin1><p style=\"n: '\xe9\x97&#27700;'\">\xe9",
        )
        with self.assertRaises(ValueError):
            inline(b"<p>\xff")

    def test_xml(self):
        self.assertEqual(
            inline(
                "<?xml version='1.0'?><s:svg xmlns:s='x'><s:style><![CDATA[a > b, .c{n:1} B{m:2} a:hover{o:3}]]>"
                "</s:style><a><b/></a></s:svg>",
                is_xml=True,
            ),
            "<?xml version='1.0'?><s:svg xmlns:s='x'><s:style>\na:hover{o:3}\n</s:style>"
            '<a><b style="n: 1"/></a></s:svg>',
        )
        self.assertEqual(
            inline("<svg><RECT/></svg>", "rect { n: 1 }", is_xml=True),
            "<svg><RECT/></svg>",
        )
        self.assertEqual(
            inline("<svg><a/></svg>", "a:hover { n: 1 }", is_xml=True),
            "<svg><style>\na:hover { n: 1 }\n</style><a/></svg>",
        )
        with self.assertRaises(simplecss.TreeError):
            inline("<svg><a></svg>", is_xml=True)


class Important(unittest.TestCase):
    """What stays in a sheet gets `!important` where it beats what is written, as it did in the sheet."""

    def test_own_styles(self):
        text = inline("<a>1</a><a style='n:3; m:4'>2</a>", "a{n:1} a:hover{n:2}")
        self.assertEqual(
            text,
            '<style>\na:hover{n:2 !important}\n</style><a style="n: 1">1</a>'
            "<a style='n: 1; m: 4; n: 3 !important'>2</a>",
        )
        # What is no declaration would be lost.
        page = "<a>1</a><a style='{{x}} n:3'>2</a>"
        self.assertEqual(
            inline(page, "a{n:1} a:hover{n:2}"),
            "<style>\na { n: 1 }\na:hover{n:2}\n</style>" + page,
        )
        self.assertIn(
            "n: 3 !important",
            inline("<html><body><body style='n:3'><a>", "a{n:1} *:hover{n:2} body{m:1}"),
        )

    def test_report(self):
        report = []
        inline("<a>", "a{n:1} a:hover{n:2}", report=report)
        self.assertEqual(
            [tuple(each) for each in report],
            [("a:hover", "it depends on a state of the page")],
        )


class KeptRules(unittest.TestCase):
    """What stays in a sheet keeps what it has in a browser, without marks."""

    def test_what_stays_in_layers(self):
        for css, kept in (
            (
                "@layer y { a { n: 1 } b { n: 2 } b:hover { n: 3 } } @layer x { a { n: 4 } }",
                "@layer y {\nb:hover { n: 3 }\n}\n@layer x {\n}",
            ),
            (
                "@layer x { a { n: 1 } a:hover { n: 2 } }",
                "@layer x {\na:hover { n: 2 !important }\n}",
            ),
            (
                "@layer x { a { n: 1 } } @layer y { a:hover { n: 2 } } @layer z { a:focus { n: 3 } }",
                "@layer x {\na { n: 1 }\n}\n@layer y { a:hover { n: 2 } }\n@layer z { a:focus { n: 3 } }",
            ),
            (
                "@layer x, y; @layer x { a { n: 1 } @media print { a { n: 2 } } }",
                "@layer x, y;\n@layer x {\n@media print { a { n: 2 !important } }\n}",
            ),
            ("@layer x, y; @layer y { a { n: 1 } }", ""),
        ):
            found = inline("<a id=i>", css)
            style = f"<style>\n{kept}\n</style>" if kept else ""
            self.assertEqual(found.partition("<a")[0].strip("\n"), style, css)

    def test_time_of_hostile_sheets(self):
        for unit in (
            "a{",
            "@media{",
            "@media x{a{",
            "(",
            "/*",
            "url(",
            "a:hover,",
            "a{b:(",
            "\\",
            "a{&b{",
        ):
            inline("<a>", unit * (20_000 // len(unit)))
        many = ",".join(["a"] * 2000), ";".join(f"p{number}:1" for number in range(2000))
        with self.assertRaises(ValueError):
            inline("<a>", "%s{%s}" % many)
        inline(
            "<a>" * 100,
            "a{b:c}" + "%s{%s}" % (many[0].replace(",", ":hover,"), many[1]),
        )
        self.assertEqual(
            style_of("a { n: 1 }" + "@media x{" * 99 + "a { n: 2 }", "<a>", important=False),
            "",
        )
        for selector in (
            ":has(:is(:not(:nth-child(2))%s))" % ("x" * 5000),
            ":not(.x)" * 5000,
            ":is(%s)" % ("b," * 5000 + "b"),
            "".join(f":not({mark}x" for mark in ".#" * 30) + ")" * 60,
        ):
            inline("<a>", f"a{{n:1}} a{selector}:hover{{n:2}}")


class Options(unittest.TestCase):
    """What premailer and juice have, too."""

    def test_folder(self):
        with tempfile.TemporaryDirectory() as folder:
            os.mkdir(os.path.join(folder, "css"))
            with open(os.path.join(folder, "css", "a.css"), "w", encoding="utf-8") as file:
                file.write("p { background: url(x.png) } p:hover { n: 1 }")
            page = "<head><link rel=stylesheet href='css/a.css?1'></head><p>"
            self.assertEqual(
                inline(page, folder=folder),
                "<head><style>\np:hover { n: 1 }\n</style></head>"
                '<p style="background: url(css/x.png)">',
            )
            self.assertEqual(inline(page), page)
            for href in (
                "http://x/css/a.css",
                "//x/css/a.css",
                "../a.css",
                "css",
                "b.css",
                "/css/../../a.css",
            ):
                other = page.replace("css/a.css?1", href)
                self.assertEqual(inline(other, folder=folder), other)
            self.assertEqual(
                inline(page, "p { background: none }", folder=folder).count("url(css/x.png)"),
                1,
            )

    def test_remove_classes(self):
        self.assertEqual(
            inline(
                "<style>.a { n: 1 } .b:hover { m: 2 }</style><p class='a b'><p class=a ><p CLASS=a id=x>",
                remove_classes=True,
            ),
            '<style>\n.b:hover { m: 2 }\n</style><p class="b" style="n: 1"><p style="n: 1" >'
            '<p id=x style="n: 1">',
        )
        page = r"<style>.a\:b:hover { n: 1 }</style><p class='a:b c'>"
        self.assertIn('class="a:b"', inline(page, remove_classes=True))

    def test_attributes(self):
        self.assertEqual(
            inline(
                "<table><tbody><tr><td width=1><td>",
                "td { width: 20px; height: 5em; text-align: center;"
                " background-color: #FF0000; vertical-align: top }",
                attributes=True,
            ).count(' bgcolor="#ff0000"'),
            2,
        )
        self.assertEqual(
            inline("<img>", "img { width: 50%; height: 7px }", attributes=True),
            '<img style="width: 50%; height: 7px" width="50%" height="7">',
        )

    def test_report(self):
        report = []
        inline(
            "<a>",
            "@media x{} a:hover, a { n: 1 } a::before { m: 2 } a, a:q { o: 3 } a { n: 2 }",
            report=report,
            important=False,
        )
        self.assertEqual(
            [tuple(each) for each in report],
            [
                ("@media x", "an at-rule"),
                ("a:hover", "it depends on a state of the page"),
                ("a", "a rule that stays could override it"),
                ("a::before", "it has a pseudo-element"),
                ("a, a:q", "invalid selector"),
                ("a", "a rule that stays could override it"),
            ],
        )

    def test_ignore(self):
        page = "<style>p{n:1} .x{m:2} b{n:1}</style><p class='x y'>1<p class=y>2<b>3</b>"
        self.assertEqual(
            inline(page, ignore="p.x", remove_classes=True, base_url="http://h/"),
            "<style>\np { n: 1 }\n.x { m: 2 }\n</style>"
            '<p class=\'x y\'>1<p style="n: 1">2<b style="n: 1">3</b>',
        )
        self.assertEqual(
            inline(
                "<a href=x>1</a><a href=y>2</a>",
                ignore="[href=x]",
                base_url="http://h/",
            ),
            '<a href=x>1</a><a href="http://h/y">2</a>',
        )
        report = []
        inline("<p id=a><p>", "p{n:1} p:hover{n:2}", ignore="#a", report=report)
        self.assertEqual(
            [tuple(each) for each in report],
            [
                (
                    "p",
                    "it matches an element without a tag of its own, or one that is ignored",
                ),
                ("p:hover", "it depends on a state of the page"),
            ],
        )
        with self.assertRaises(simplecss.SelectorError):
            inline("<p>", ignore="p:")

    def test_attributes_that_rules_beat(self):
        for css, expected in (
            # A rule that stays beats any attribute, so that it needs no mark for that.
            ("g{fill:red} g:hover{fill:blue}", '<g fill="red"/>'),
            ("@media x{g{fill:blue}} #a g,g{fill:red}", '<g style="fill: red"/>'),
            ("@layer x{g:hover{fill:blue}} g{fill:red}", '<g style="fill: red"/>'),
            ("@layer x{g{fill:blue}} g{fill:red}", '<g fill="red"/>'),
            ("@media x{g{fill:blue!important}} g{fill:red}", '<g fill="red"/>'),
            ("@media x{g{all:unset}} g{fill:red}", '<g style="fill: red"/>'),
        ):
            text = inline(f"<svg><style>{css}</style><g/></svg>", as_attributes=True)
            self.assertIn(expected, text, css)
        page = "<p><svg><style>p,g{fill:red}</style><g/></svg>"
        self.assertEqual(
            inline(page, as_attributes=True),
            '<p style="fill: red"><svg><g fill="red"/></svg>',
        )
        page = '<svg xmlns="http://www.w3.org/2000/svg"><style>g{fill:red}</style><g/></svg>'
        self.assertEqual(
            inline(page, as_attributes=True, is_xml=True),
            '<svg xmlns="http://www.w3.org/2000/svg"><g fill="red"/></svg>',
        )
        self.assertIn(
            '<g style="fill: red"/>',
            inline(
                "<svg><style>g{fill:blue}</style><g/></svg>",
                "#a,svg g{fill:red}",
                as_attributes=True,
                keep_style=True,
            ),
        )

    def test_parts(self):
        for text, names, expected in (
            ("<p>1</p> 2", "p", '<p style="n: 1">1</p> 2'),
            (
                "<tr><td>1</td></tr>",
                "tr,td",
                '<tr style="n: 1"><td style="n: 1">1</td></tr>',
            ),
            (" <!-- a --><th>1", "th", ' <!-- a --><th style="n: 1">1'),
            ("<thead><tr>", "thead,tr", '<thead style="n: 1"><tr style="n: 1">'),
            ("<col><col>", "col", '<col style="n: 1"><col style="n: 1">'),
            ("<caption>1", "caption", '<caption style="n: 1">1'),
            (
                "<template><tr></template><td>",
                "td",
                '<template><tr></template><td style="n: 1">',
            ),
            ("", "p", ""),
        ):
            self.assertEqual(inline(text, names + "{n:1}", is_part=True), expected)
        # As the page that it is of is not here, rules for it stay.
        self.assertEqual(
            inline("<tr>\r\n<td>", "table{n:1} td{n:2} tr:hover td{n:3}", is_part=True),
            "<style>\r\ntable { n: 1 }\r\ntr:hover td{n:3 !important}\r\n</style>"
            '<tr>\r\n<td style="n: 2">',
        )
        self.assertEqual(inline("<tr><td>", "td{n:1}"), "<tr><td>")
        self.assertEqual(inline(b"<td>", "td{n:1}", is_part=True), b'<td style="n: 1">')
        self.assertEqual(
            inline(b"\xef\xbb\xbf<td>", "td{n:1} td:hover{m:1}", is_part=True),
            b'\xef\xbb\xbf<style>\ntd:hover{m:1}\n</style><td style="n: 1">',
        )
        with self.assertRaises(ValueError):
            inline("<g/>", is_part=True, is_xml=True)


class ManyDocuments(unittest.TestCase):
    """One sheet and many documents."""

    CSS = (
        "a{n:1} .b{n:2} a:hover{n:3} a:link{m:1} #outlook a{m:2} @media x{.c{n:4}}"
        " .d{n:5!important} p{all:unset} @keyframes k{50%{m:3}}"
    )
    TAGS = ("a", "a class=b", "a class='b c'", "p", "p class=d", "a href=x", "b")

    def test_each_is_as_alone(self):
        inliner = simplecss.Inliner(self.CSS, remove_classes=True)
        for number in range(200):
            tag = self.TAGS[number % len(self.TAGS)]
            own = f"<style>.b{{m:{number}}} a:visited{{m:1}}</style>" * (number % 3 == 0)
            page = f"{own}<{tag}>{number}"
            report, other = [], []
            text = inliner.inline(page, report=report)
            self.assertEqual(text, inline(page, self.CSS, remove_classes=True, report=other), page)
            self.assertEqual(report, other, page)

    def test_the_sheet_is_read_once(self):
        inliner = simplecss.Inliner(self.CSS)
        call = _library.call
        with unittest.mock.patch.object(_library, "call", side_effect=call) as calls:
            texts = [inliner.inline(f"<a>{number}") for number in range(200)]
        asked = [each.args[::2] for each in calls.call_args_list]
        # The sheet, and the block in it that is one of rules.
        self.assertLessEqual(asked.count(("simplecss_sheet_numbers", STATEMENTS)), 4)
        self.assertEqual(texts[7].rpartition("</style>")[2], '<a style="n: 1">7')

    def test_a_text_is_read_once(self):
        """The same text for many documents, also with other options."""
        css = f"{self.CSS} b {{ n: 3 }}"
        call = _library.call
        with unittest.mock.patch.object(_library, "call", side_effect=call) as calls:
            for number in range(100):
                self.assertIn('style="n: 1"', inline(f"<a>{number}", css, attributes=number < 50))
        asked = [each.args[::2] for each in calls.call_args_list]
        self.assertLessEqual(asked.count(("simplecss_sheet_numbers", STATEMENTS)), 4)

    def test_options_of_each(self):
        sheets = {"http://h/x/a.css": "b{m:2}", "http://h/y/a.css": "b{m:3}"}
        inliner = simplecss.Inliner("@import 'a.css'; b{n:1}", load=sheets.get)
        for folder, value in (("x", 2), ("y", 3)):
            at = f"http://h/{folder}/page.html"
            self.assertEqual(inliner.inline("<b>", at=at), f'<b style="m: {value}; n: 1">')
        self.assertEqual(
            simplecss.Inliner("b{n:1}").inline("<B/><b/>", is_xml=False),
            '<B style="n: 1"/><b style="n: 1"/>',
        )
        self.assertEqual(simplecss.Inliner("b{n:1}").inline(b"<b>"), b'<b style="n: 1">')
        with self.assertRaises(ValueError):
            simplecss.Inliner("style.css")


class Injection(unittest.TestCase):
    """What a sheet or a page says stays in the style element or attribute that it is written in."""

    def test_browsers_that_end_drawings_elsewhere(self):
        """What a browser may take for SVG, though it is HTML here, gets no markup, or is refused."""
        css = 'p:hover{content:"<img src=x>";--a:"\\<b"}@media (1px<width){b{c:"<d"}}'
        kept = inline("<svg></svg><style></style>", css)
        self.assertIn('content:"\\3c img src=x>"', kept)
        self.assertIn('--a:"\\3c b"', kept)
        self.assertIn('(1px< width){b{c:"\\3c d"}', kept)
        self.assertIn('content:"<img src=x>"', inline("<style></style>", css))
        with self.assertRaises(ValueError):
            inline("<p><svg></svg>", "a:hover{--b:c</d>}")
        for page in (
            "<foreignObject><svg></foreignObject><style>g{a:b}</style>",
            "<svg><desc><x-y><search></x-y></desc><style>g{a:b}</style>",
            "<svg><foreignObject><p><b></p>\0</foreignObject><style>g{a:b}</style>",
        ):
            with self.assertRaises(ValueError, msg=page):
                inline(page, "p{a:b}")

    def test_drawings_in_annotations_of_drawings(self):
        """`annotation-xml` of SVG is no place for HTML, and U+FFFD no text before a frameset."""
        page = (
            "<svg><foreignObject><p><b></p></foreignObject><annotation-xml><svg></svg>"
            "<style>p{a:b}</style>"
        )
        names = [each.name for each in simplecss.Tree.from_html(page)]
        self.assertEqual(names.count("b"), 1)
        for text in ("&#0;", "\ufffd", "<svg>&#0;</svg>"):
            names = [each.name for each in simplecss.Tree.from_html(f"{text}<frameset>")]
            self.assertIn("frameset", names, text)

    def test_pages_that_name_two_encodings(self):
        """An escape of ISO-2022-JP is refused where browsers may disagree on the encoding."""
        tail = b"<p>\x1b$B4A\x1b(B"
        for front in (
            b"<!-- --!><meta charset=iso-2022-jp><!-- --><meta charset=utf-8>",
            b"<meta charset='iso-2022&#45;jp'><meta charset=utf-8>",
            b"<title><meta charset=utf-8></title><meta charset=iso-2022-jp>",
        ):
            with self.assertRaises(ValueError, msg=front):
                inline(front + tail, "p{a:b}")
        self.assertIn(b"style=", inline(b"<meta charset=iso-2022-jp>" + tail, "p{a:b}"))

    def test_characters_that_an_encoding_has_as_others(self):
        """The yen sign of EUC-JP would be a backslash."""
        page = b"<meta charset=euc-jp><p>"
        self.assertIn(b"\\a5 ", inline(page, "p:hover{content:'\xa5'}"))
        self.assertNotIn(b"\\;", inline(page, "p{n:red\xa5}p{m:0}"))

    def test_links_in_drawings_are_none(self):
        with tempfile.TemporaryDirectory() as folder:
            with open(os.path.join(folder, "a.css"), "w", encoding="utf-8") as file:
                file.write('p:hover{content:"</noscript><img src=x>"}')
            link = "<link rel=stylesheet href=a.css>"
            for page in (
                f"<svg>{link}</svg>",
                f"<math>{link}</math>",
                "<link rel='x\xa0stylesheet' href=a.css>",
            ):
                self.assertEqual(inline(page, folder=folder), page)
            for first, last in (("<svg><desc>", "</svg>"), ("<math><mi>", "</math>")):
                self.assertEqual(
                    inline(first + link + last, folder=folder),
                    first
                    + '<style>\np:hover{content:"\\3c /noscript>\\3c img src=x>"}\n</style>'
                    + last,
                )
            for first in ("<noscript>", "<p><noscript><div>"):
                self.assertEqual(
                    inline(first + link, folder=folder),
                    first + '<style>\np:hover{content:"<\\/noscript><img src=x>"}\n</style>',
                )
            with open(os.path.join(folder, "a.css"), "w", encoding="utf-8") as file:
                file.write("p, </noscript> {n:1}")
            with self.assertRaises(ValueError):
                inline(f"<noscript>{link}", folder=folder)

    def test_where_a_drawing_is_another_page(self):
        # As a page, the first ends the image's title in the style that `b` would get.
        for page in (
            '<svg><foreignObject><p><![CDATA[><img title="]]></p><b/></foreignObject></svg>',
            "<svg><foreignObject><style>b{n:1}</style></foreignObject><b/></svg>",
        ):
            self.assertEqual(inline(page, "q{n:\"' x='\"}", is_xml=True).count("style="), 0)
        page = "<svg><foreignObject><title/></foreignObject><b/></svg>"
        self.assertEqual(inline(page, "b{n:1}").count("style="), 0)
        self.assertEqual(
            inline(f"<?xml version='1.0'?>{page}", "b{n:1}", is_xml=True).count("style="),
            1,
        )

    def test_names_of_tags_end_at_the_spaces_of_html(self):
        for space in "\x0b\x1c\x1d\x1e\x1f\x85\xa0\u1680\u2000\u2028\u2029\u202f\u205f\u3000":
            self.assertEqual(
                inline(f"<p><script{space}>x</script>", "*{n:1}").partition("</style>")[2],
                f'<p style="n: 1"><script{space} style="n: 1">x</script>',
            )
            self.assertEqual(
                inline(f"<p class='a{space}b c'>", "b{n:1} @x .a.c", remove_classes=True).partition(
                    "<p"
                )[2],
                ' class="c">',
            )
        for space in "\t\n\f\r /":
            self.assertEqual(inline(f"<p{space}x>", "p{n:1}"), f'<p{space}x style="n: 1">')

    def test_iso_2022_jp(self):
        page = b"<meta charset=iso-2022-jp><p>\x1b$B4A\x1b(B"
        css = "p{n:'\x1b$B'} a:hover{content:'\x1b(B\"><img>\u6f22'}"
        self.assertEqual(
            inline(page, css),
            b"<meta charset=iso-2022-jp><style>\na:hover{content:'\\1b (B\"><img>\x1b$B4A\x1b(B'}\n</style>"
            b"<p style=\"n: '\\1b $B'\">\x1b$B4A\x1b(B",
        )
        self.assertEqual(
            inline(page, "@import 'a\\\x1b$B\xe9';"),
            b"<meta charset=iso-2022-jp><style>\n@import 'a\\1b $B\\e9 ';\n</style>"
            + page[page.index(b"<p") :],
        )
        self.assertEqual(inline(page), page)
        # What a browser reads otherwise, or may take for ISO-2022-JP.
        for other in (
            page.replace(b"<p", b"<\x1b$B\x1b(Bp"),
            page.replace(b"(B", b"(J"),
            page + b"\x1b$B",
            page.replace(b"iso-2022-jp", b"iso2022jp"),
            b"<p>\x1b$B",
        ):
            with self.assertRaises(ValueError, msg=other):
                inline(other)

    def test_what_an_encoding_lacks_is_an_escape_in_a_style_element(self):
        self.assertEqual(
            inline(b"<meta charset=latin1><p>", "p:hover{n:\\\u6c34\\\\\u6c34}"),
            b"<meta charset=latin1><style>\np:hover{n:\\6c34 \\\\\\6c34 }\n</style><p>",
        )
        self.assertEqual(
            inline(b"<meta charset=latin1><p>", "p:hover{n:'\xe9\u6c34'}"),
            b"<meta charset=latin1><style>\np:hover{n:'\xe9\\6c34 '}\n</style><p>",
        )

    def test_classes_with_other_characters(self):
        page = "<p class='a\U0001f600 --b'>"
        self.assertIn(
            page,
            inline(page, "@x .a\U0001f600.--b;", remove_classes=True).replace('"', "'"),
        )

    def test_what_no_escape_holds_is_refused(self):
        for css in (
            "p:hover{--a:</style>}",
            "@x </style>;",
            "p:hover, </STYLE x> {n:1}",
            "@media x{</style>}",
        ):
            with self.assertRaises(ValueError, msg=css):
                inline("<p>", css)


class SameTree(unittest.TestCase):
    """HTML compares the attributes of formatting elements where tags are nested wrongly."""

    def shape(self, page):
        """Returns the names and the depths of the elements of a page, without `style`."""
        tree = Tree.from_html(page)
        depths = []
        for element in tree:
            depths.append(0 if element.parent is None else depths[element.parent.index] + 1)
        return [
            (element.name, depth) for element, depth in zip(tree, depths) if element.name != "style"
        ]

    def test_a_style_that_would_change_the_tree_is_left_in_the_sheet(self):
        """In Chromium the second text is not red: it is in three elements."""
        page = "<!DOCTYPE html><p><b><b><b><b>x</p><p>y</p>"
        sheet = "<style>\nb b b b { color: red }\n</style>"
        report = []
        got = inline(page, "b b b b {color: red}", report=report)
        self.assertEqual(got, page.replace("<p>", sheet + "<p>", 1))
        self.assertEqual([each.text for each in report], ["b b b b"])

    def test_classes_that_keep_the_tree_stay(self):
        """In Chromium the second text is as small as the first one: it is in four elements."""
        tags = "".join(f"<small class={name}>" for name in "abcd")
        page = f"<!DOCTYPE html><p>{tags}x</p><p>y</p>"
        got = inline(page, "p { top: 0 }", remove_classes=True)
        self.assertEqual(self.shape(got), self.shape(page))
        self.assertEqual(got.count("class="), 1)

    def test_random_pages(self):
        chance = random.Random(7)
        tags = "b i a small font p div table td em span u nobr".split()
        css = ".x { color: red } b b, i + b { top: 0 } p > small.y { left: 0 } td, a { right: 0 }"
        for _ in range(300):
            parts = []
            for _ in range(chance.randrange(4, 30)):
                name = chance.choice(tags)
                words = ("", " class=x", " class='y z'", " style=top:0", " class=x title=a")
                parts.append(
                    chance.choice(("</%s>", "<%s%s>", "<%s%s>"))
                    .replace("%s", name, 1)
                    .replace("%s", chance.choice(words))
                    + chance.choice(("", "t"))
                )
            page = "<!DOCTYPE html>" + "".join(parts)
            for options in ({}, {"remove_classes": True}):
                with self.subTest(page=page, options=options):
                    self.assertEqual(self.shape(inline(page, css, **options)), self.shape(page))


class Spaces(unittest.TestCase):
    """An attribute of another namespace says nothing (CSS Style Attributes 1; HTML; SVG 2, section 6)."""

    ROOT = (
        '<?xml version="1.0"?><{0} xmlns="http://www.w3.org/{1}" xmlns:x="u"'
        ' xmlns:l="http://www.w3.org/1999/xlink">'
    )
    DRAWING = ROOT.format("svg", "2000/svg") + "{}</svg>"
    PAGE = ROOT.format("html", "1999/xhtml") + "<head>{}</head><body><p/></body></html>"

    def test_styles(self):
        for part, css, expected in (
            (
                '<g x:style="fill:red"/>',
                "g{a:b}",
                '<g x:style="fill:red" style="a: b"/>',
            ),
            (
                '<g x:style="fill:red" style="c: d"/>',
                "g{a:b}",
                '<g x:style="fill:red" style="a: b; c: d"/>',
            ),
            (
                '<g x:style="fill:red"/>',
                "g:hover{fill:green}",
                '<g x:style="fill:red"/>',
            ),
        ):
            found = inline(self.DRAWING.format(part), css, is_xml=True)
            self.assertIn(expected, found)

    def test_specified(self):
        text = self.DRAWING.format('<g x:style="a:b" x:fill="red"/><g style="a:b" fill="red"/>')
        for tree in (
            Tree.from_xml(text),
            Tree.from_etree(ElementTree.fromstring(text)),
        ):
            for grammar in ("modern", "simplecss"):
                sheet = StyleSheet(grammar=grammar)
                found = [list(map(str, each)) for each in sheet.styles(tree, specified=True)]
                self.assertEqual(found, [[], [], ["fill: red", "a: b"]])

    def test_what_an_attribute_says_to_inline(self):
        self.assertIn(
            '<p style="a: b"/>',
            inline(
                self.PAGE.format("<style x:media='print' x:title='t' x:type='u'>p{a:b}</style>"),
                is_xml=True,
            ),
        )
        link = self.PAGE.format("<link rel='stylesheet' href='a' x:disabled=''/>")
        self.assertIn('<p style="a: b"/>', inline(link, load=lambda url: "p{a:b}", is_xml=True))
        for link in ("x:rel='stylesheet' href='a'", "rel='stylesheet' x:href='a'"):
            text = self.PAGE.format(f"<link {link}/>")
            self.assertEqual(inline(text, load=lambda url: "p{a:b}", is_xml=True), text)
            tree = Tree.from_xml(text)
            self.assertEqual(len(StyleSheet.of_page(tree, load=lambda url: "p{a:b}").rules), 0)
        text = self.PAGE.format("<base x:href='http://h/'/><link rel='stylesheet' href='a.css'/>")
        urls = []
        StyleSheet.of_page(Tree.from_xml(text), load=urls.append)
        inline(text, load=urls.append, is_xml=True)
        self.assertEqual(urls, ["a.css", "a.css"])

    def test_links(self):
        drawing = '<a href="b"/><a l:href="b"/><a x:href="b"/><a x:href="b" href="c"/>'
        page = self.PAGE.replace("<p/>", drawing).format("")
        for text, expected in ((self.DRAWING.format(drawing), [1, 2, 4]), (page, [3, 6])):
            for tree in (Tree.from_xml(text), Tree.from_etree(ElementTree.fromstring(text))):
                self.assertEqual([each.index for each in tree.select(":link")], expected)

    def test_other_attributes_stay(self):
        for part, options in (
            ('<g x:class="a b"/>', {"remove_classes": True}),
            ('<image x:href="a" x:src="b"/>', {"base_url": "http://h/"}),
        ):
            text = self.DRAWING.format(part)
            self.assertEqual(inline(text, is_xml=True, **options), text)
        # Browsers take `href` before that of XLink.
        self.assertIn(
            '<a l:href="b" x:href="c" href="http://h/b"/>',
            inline(
                self.DRAWING.format('<a l:href="b" x:href="c"/>'),
                is_xml=True,
                base_url="http://h/",
            ),
        )


class SeveralSheets(unittest.TestCase):
    """Each sheet is read alone, as a browser reads those of several elements."""

    def test_what_is_open_ends_with_its_sheet(self):
        page = "<p class=a>x<b>y</b>"
        for first in ("b{color:red", "/* open", "q{content:'", "@media print{", "b{color:red;/*"):
            text = inline(page, [first, "p{color:blue}"])
            self.assertIn('<p class=a style="color: blue">', text, first)
            self.assertEqual('<b style="color: red">' in text, first[0] == "b", first)

    def test_what_is_at_the_front_of_a_sheet_counts(self):
        for front in ('@charset "utf-8";', '@namespace n "x";', '@import "y.css";'):
            text = inline("<p>", ["p:hover{a:b}", f"{front}p:hover{{c:d}}"])
            sheets = re.findall("<style>\n(.*?)\n</style>", text, re.DOTALL)
            self.assertEqual(len(sheets), 2, text)
            self.assertIn("c:d", sheets[1])
            self.assertTrue(sheets[1].startswith(front), text)
        loaded = inline("<p>", ["p{a:b}", "@import 'y.css'; p{c:d}"], load={"y.css": "p{e:f}"}.get)
        self.assertEqual(loaded, '<p style="a: b; e: f; c: d">')

    def test_their_order_is_that_of_the_cascade(self):
        for sheets, expected in (
            (["p{color:red}", "p{color:blue}"], "color: blue"),
            (["p{color:red}", StyleSheet("p{color:blue}")], "color: blue"),
            (("#x{color:red}", "p{color:blue}"), "color: red"),
            (["p{color:red!important}", "", "p{color:blue}"], "color: red !important"),
            (["@layer a{p{color:red}}", "@layer b{p{color:blue}}"], "color: blue"),
            (["@layer b,a;", "@layer a{p{color:red}}@layer b{p{color:blue}}"], "color: red"),
            (["p{color:red}"] * 3, "color: red"),
            ([], ""),
        ):
            inliner = simplecss.Inliner(sheets)
            for _ in range(2):
                text = inliner.inline("<p id=x>")
                self.assertEqual(text.partition(' style="')[2].partition('"')[0], expected)

    def test_what_stays_overrides_what_is_written_of_others(self):
        for sheets, kept in (
            (["p:hover{color:red}", "p.x{color:blue}"], "color:red}"),
            (["p.x{color:blue}", "p:hover{color:red}"], "color:red !important}"),
        ):
            self.assertIn(kept, inline("<p class=x>", sheets))

    def test_what_is_no_sheet(self):
        for sheets in (b"p{a:b}", ["p{a:b}", b"p{a:b}"], [None], None, 5):
            with self.assertRaises(TypeError):
                inline("<p>", sheets)
        with self.assertRaisesRegex(ValueError, "folder="):
            inline("<p>", ["p{a:b}", "style.css"])

    def test_the_limit_is_of_all(self):
        with self.assertRaises(simplecss.LimitError):
            inline("<p>", ["p{a:b}", "p{c:d}"], limit=1)


class WrongLayers(unittest.TestCase):
    """A block of a layer whose name is wrong is dropped, as Chromium does, and the rest is written."""

    # Names that Chromium takes for one of a block, or not.
    NAMES = (
        *((name, False) for name in ("a,b", "a, b", "a b", "!", "a .b", "a. b", "a\\\n", "a)")),
        *((name, False) for name in ('"a"', "1", "a.", ".a")),
        *((name, True) for name in ("", "a", "a.b", "/**/", "a/**/", "--a", "\\61 b", "inherit")),
    )

    def test_what_the_end_of_the_text_closes(self):
        for end in (
            "@layer '",
            "@layer (",
            "@layer a,b'",
            "@layer a\\{}'",
            "@layer a(",
            "@layer 'x",
        ):
            text = inline(f"<style>q:hover{{top:0}}{end}</style><p><q>", ["p{left:0}", end])
            self.assertIn('<p style="left: 0">', text, end)

    def test_many_layers(self):
        for name in (",".join(f"a{each}" for each in range(1500)), "a" + ".a" * 1500):
            self.assertIn('<p style="top: 0">', inline("<p>", f"@layer {name};p{{top:0}}"))
        text = inline("<p>", f"@layer a{'.a' * 1500}{{p{{left:0}}}}p{{top:0}}")
        self.assertIn('<p style="top: 0">', text)

    def test_imports_after_it_count(self):
        css = "@layer a,b{p{left:0}}@import 'x';p{top:0}"
        self.assertEqual(
            inline("<p>", css, load=lambda url: "p{right:0}"), '<p style="right: 0; top: 0">'
        )


if __name__ == "__main__":
    unittest.main()
