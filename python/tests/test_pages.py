"""What comes in and goes out: encodings, doctypes and presentation attributes of pages, forms of reports, and the
streams and signals of the command line.

The library must be built (`./build library`).
"""

import io
import json
import os
import re
import signal
import subprocess
import sys
import tempfile
import unittest
from contextlib import redirect_stderr, redirect_stdout
from unittest import mock

sys.path.insert(0, os.path.join(os.path.dirname(os.path.abspath(__file__)), "..", "src"))

import simplecss  # noqa: E402
from simplecss import __main__ as command, _library as library  # noqa: E402
from simplecss._encoding import decode_page  # noqa: E402
from simplecss._kept import STATEMENTS  # noqa: E402

FOLDER = os.path.dirname(os.path.dirname(os.path.abspath(simplecss.__file__)))

# Names of encodings, bytes, and what they are to browsers (Encoding Standard).
ENCODINGS = [
    ("utf-8", b"\xc3\xa9", "é"),
    ("ISO-8859-1", b"\x80", "€"),
    ("us-ascii", b"\x80", "€"),
    ("iso-8859-9", b"\x80", "€"),
    ("windows-1251", b"\xc6", "Ж"),
    ("koi8-r", b"\xc1", "а"),
    ("x-mac-roman", b"\x80", "Ä"),
    ("windows-874", b"\xa1", "ก"),
    ("shift_jis", b"\x87\x40", "①"),
    ("windows-31j", b"\x87\x40", "①"),
    ("gb2312", b"\x81\x40", "丂"),
    ("euc-kr", b"\x81\x41", "갂"),
    ("big5", b"\xa4\xa4", "中"),
    ("csISO2022JP", b"\x1b$B4A\x1b(B", "漢"),
    ("x-user-defined", b"\x80", "€"),
    # These are no encodings of pages.
    ("iso2022jp", b"\xc3\xa9", "é"),
    ("shift-jis_2004", b"\xc3\xa9", "é"),
    ("utf-7", b"+AGE-", "+AGE-"),
    ("hex", b"61", "61"),
    ("none", b"\xc3\xa9", "é"),
]


class Encodings(unittest.TestCase):
    def test_names(self):
        for name, data, text in ENCODINGS:
            page = b"<!-- <meta charset=koi8-u> --><meta charset='" + name.encode() + b"'>" + data
            decoded, encode = decode_page(page)
            self.assertEqual((decoded.partition("'>")[2], encode(decoded)), (text, page), name)

    def test_where_a_page_names_its_encoding(self):
        far = b"<style>" + b" " * 2000 + b"</style>"
        for page, text in (
            (
                b"<meta name=description content='how to set charset=koi8-r'>\xc3\xa9",
                "é",
            ),
            (
                b"<meta content='text/html; charset = koi8-r' http-equiv=Content-Type>\xc1",
                "а",
            ),
            (b"<meta http-equiv=refresh content='charset=koi8-r'>\xc3\xa9", "é"),
            (b"<meta charset=none><meta/charset='koi8-r'>\xc1", "а"),
            (b"<metax charset=koi8-r>\xc3\xa9", "é"),
            (b"<meta\x0bcharset=koi8-r>\xc3\xa9", "é"),
            (b"<p title='<meta charset=koi8-r>'>\xc3\xa9", "é"),
            (b"<!--><meta charset=koi8-r>\xc1", "а"),
            (b"<!x <meta charset=koi8-r>\xc3\xa9", "é"),
            (far + b"<meta charset=koi8-r>\xc1", "а"),
            (far + b"<title><meta charset=koi8-r></title>\xc3\xa9", "é"),
            (far + b"<p><meta charset=koi8-r>\xc3\xa9", "é"),
            (b"<?xml version='1.0' encoding='koi8-r'?><p>\xc1", "а"),
        ):
            decoded, encode = decode_page(page)
            self.assertEqual((decoded[-1:], encode(decoded)), (text, page), page[-60:])

    def test_marks(self):
        for name, mark in (
            ("utf-8", b"\xef\xbb\xbf"),
            ("utf-16-le", b"\xff\xfe"),
            ("utf-16-be", b"\xfe\xff"),
        ):
            page = mark + "<meta charset=koi8-r>é".encode(name)
            decoded, encode = decode_page(page)
            self.assertEqual((decoded, encode(decoded)), ("\ufeff<meta charset=koi8-r>é", page))

    def test_what_says_in_which_encoding_a_page_is(self):
        for page, label, found in (
            (b"\xff\xfe<\0", "latin1", ("UTF-16LE", "mark")),
            (b"<meta charset=utf-8>", " Latin1\n", ("windows-1252", "label")),
            (b"<meta charset=x-sjis>", "none", ("Shift_JIS", "meta")),
            (b"<?xml encoding='koi8-r'?>", "", ("KOI8-R", "declaration")),
            (b"", "", ("windows-1252", "default")),
        ):
            self.assertEqual(simplecss.page_encoding(page, label), found)
        with self.assertRaises(TypeError):
            simplecss.page_encoding("<p>")

    def test_trees_of_bytes(self):
        tree = simplecss.Tree.from_html(b"<meta charset=koi8-r><p>\xc1", is_part=True)
        self.assertEqual(tree[1].text, "а")


class Places(unittest.TestCase):
    def cut(self, text, tree):
        """Returns the tags and the attributes of a tree, as they are in its text."""
        return [
            (
                each.start_tag and text[slice(*each.start_tag)],
                each.end_tag and text[slice(*each.end_tag)],
                {name: text[slice(*span)] for name, span in each.attribute_places.items()},
            )
            for each in tree
        ]

    def test_html(self):
        text = "<html A=1><p class = 'x y'b a=é>é<br/></p>x<html a=2 C=3>"
        found = self.cut(text, simplecss.Tree.from_html(text))
        own = {"class": "class = 'x y'", "b": "b", "a": "a=é"}
        self.assertEqual(found[0], ("<html A=1>", None, {"a": "A=1", "c": "C=3"}))
        self.assertEqual(found[1:3], [(None, None, {}), (None, None, {})])
        self.assertEqual(found[3:], [("<p class = 'x y'b a=é>", "</p>", own), ("<br/>", None, {})])

    def test_one_tag_of_several_elements(self):
        text = "<b x=y>1<p>2</b>3"
        found = self.cut(text, simplecss.Tree.from_html(text, is_part=True))
        self.assertEqual([each[0] for each in found], ["<b x=y>", "<p>", "<b x=y>"])
        self.assertEqual(found[2][2], {"x": "x=y"})

    def test_xml(self):
        text = "<é:r xmlns:é='u'><a é:x='1' x = \"2\" é:y='3'/></é:r >"
        found = self.cut(text, simplecss.Tree.from_xml(text))
        self.assertEqual(found[0], ("<é:r xmlns:é='u'>", "</é:r >", {}))
        own = {"x": 'x = "2"', "y": "é:y='3'"}
        self.assertEqual(found[1], ("<a é:x='1' x = \"2\" é:y='3'/>", None, own))

    def test_namespaces(self):
        tree = simplecss.Tree.from_html(
            "<svg><a></a><desc><b></b></desc></svg><math></math>", context="p"
        )
        html, svg, math = "1999/xhtml", "2000/svg", "1998/Math/MathML"
        spaces = [f"http://www.w3.org/{each}" for each in (svg, svg, svg, html, math)]
        self.assertEqual([each.namespace for each in tree], spaces)
        tree = simplecss.Tree.from_xml("<svg><a xmlns='u'/></svg>")
        self.assertEqual([each.namespace for each in tree], [None, "u"])
        self.assertIsNone(simplecss.Tree([simplecss.Item("a")])[0].namespace)

    def test_what_has_no_text_has_no_places(self):
        element = simplecss.Tree([simplecss.Item("a", {"b": "c"})])[0]
        found = element.start_tag, element.end_tag, element.attribute_places
        self.assertEqual(found, (None, None, {}))

    def test_contexts(self):
        # What a browser makes of such a text as the `innerHTML` of these.
        text = "<td>a<tr><td>b<p>c"
        for context, names in (
            ("td", "p"),
            ("tr class=x", "td td p"),
            ("TABLE", "tbody tr td tr td p"),
            ("template", "td td p"),
            ("html", "head body p"),
            ("textarea", ""),
        ):
            tree = simplecss.Tree.from_html(text, context=context)
            self.assertEqual(" ".join(each.name for each in tree), names)
        with self.assertRaises(TypeError):
            simplecss.Tree.from_html(text, context="td", is_part=True)


# Doctypes, and whether browsers show such a page as old ones did (HTML Standard, "The initial insertion mode").
OLD, NEW = True, False
DOCTYPES = [
    ("", OLD),
    ("<!doctype html>", NEW),
    ("<!DOCTYPEhtml>", NEW),
    ("<!doctype html system 'about:legacy-compat'>", NEW),
    ("<!doctype html x>", OLD),
    ("<!doctype html public>", OLD),
    ("<!doctype html public 'x'>", NEW),
    ("<!doctype html public 'x' y>", OLD),
    ("<!doctype html public 'x' 'y' z>", NEW),
    ("<!doctype svg>", OLD),
    ("<!DOCTYPE html PUBLIC '-//W3C//DTD HTML 3.2 Final//EN'>", OLD),
    ("<!DOCTYPE html PUBLIC '-/W3C/DTD HTML 4.0 Transitional/EN'>", OLD),
    ("<!DOCTYPE html PUBLIC '-//W3C//DTD HTML 4.01 Transitional//EN'>", OLD),
    (
        "<!DOCTYPE html PUBLIC '-//W3C//DTD HTML 4.01 Transitional//EN' 'http://www.w3.org/TR/html4/loose.dtd'>",
        NEW,
    ),
    (
        "<!DOCTYPE html PUBLIC '-//W3C//DTD XHTML 1.0 Transitional//EN' 'http://www.w3.org/x'>",
        NEW,
    ),
]


class Doctypes(unittest.TestCase):
    def test_classes_of_old_pages_compare_without_case(self):
        for doctype, is_old in DOCTYPES:
            tree = simplecss.Tree.from_html(doctype + "<p class=a>")
            self.assertEqual(len(tree.select(".A")), int(is_old), doctype)


class Names(unittest.TestCase):
    def test_nul_is_the_character_for_what_is_none(self):
        element = simplecss.Tree.from_html("<p\0q a\0='b\0' A\ufffd=c>")[3]
        self.assertEqual((element.name, element.attributes), ("p\ufffdq", {"a\ufffd": "b\ufffd"}))

    def test_tags_that_differ_in_values_only(self):
        tags = {
            """<i x='""'>""": {"x": '""'},
            """<i x='"b"'>""": {"x": '"b"'},
            """<i x="1" y='2'>""": {"x": "1", "y": "2"},
            """<i x="3" y='4'>""": {"x": "3", "y": "4"},
            """<i x="1" x="2">""": {"x": "1"},
            """<i x="3" x="4">""": {"x": "3"},
            """<i x="1" y>""": {"x": "1", "y": ""},
            """<i x="&lt;" y>""": {"x": "<", "y": ""},
            """<i x="3" y=z>""": {"x": "3", "y": "z"},
            """<i x="a>b" y>""": {"x": "a>b", "y": ""},
        }
        tree = simplecss.Tree.from_html("</i>".join(tags), is_part=True)
        self.assertEqual([each.attributes for each in tree], list(tags.values()))

    def test_names_of_mathml(self):
        element = simplecss.Tree.from_html("<math DefinitionURL=x>", is_part=True)[0]
        self.assertEqual(element.attributes, {"definitionURL": "x"})

    def test_what_is_no_element_and_no_name(self):
        tree = simplecss.Tree.from_html("<p>")
        for make in (
            lambda: simplecss.Tree([("p", {})]),
            lambda: simplecss.Tree.from_html("<p>", {"p": b"hover"}),
            lambda: simplecss.StyleSheet("p{a:b}").styles(tree, inherit=[b"a"]),
        ):
            self.assertRaises(TypeError, make)
        found = simplecss.StyleSheet("body{a:b}").style(tree, "a", inherit="a")
        self.assertEqual(found[tree.select_one("p")].value, "b")


class Presentation(unittest.TestCase):
    def test_attributes_that_are_properties(self):
        tree = simplecss.Tree.from_html(
            "<svg width=9><rect rx=1 x=2 cx=3 fill=red /><circle r=4 x=5 /><path d=M0,0 /><animate fill=freeze /></svg>"
            "<p width=6>"
        )
        styles = simplecss.StyleSheet("rect { x: 7 }").styles(tree, specified=True)
        found = {
            element.name: " ".join(sorted(map(str, styles[element])))
            for element in tree
            if styles[element]
        }
        self.assertEqual(
            found,
            {
                "svg": "width: 9",
                "rect": "fill: red rx: 1 x: 7",
                "circle": "r: 4",
                "path": "d: M0,0",
            },
        )


# Objects of SARIF 2.1.0 (its sections 3.13 to 3.52): the properties that each must have, and the form of each that may
# be there. A form is another object, a list with one form, a set of values, a pattern, or a number that is the least.
URI = re.compile(
    r"(?:[A-Za-z][-+.A-Za-z0-9]*:)?(?:[-\w.~:/?#\[\]@!$&'()*+,;=]|%[0-9A-Fa-f]{2})*",
    re.ASCII,
)
TEXT = re.compile(r"(?s).*")
SARIF = {
    "log": (
        ("version", "runs"),
        {"$schema": URI, "version": {"2.1.0"}, "runs": ["run"]},
    ),
    "run": (
        ("tool",),
        {
            "tool": "tool",
            "results": ["result"],
            "columnKind": {"utf16CodeUnits", "unicodeCodePoints"},
        },
    ),
    "tool": (("driver",), {"driver": "component"}),
    "component": (
        ("name",),
        {"name": TEXT, "version": TEXT, "informationUri": URI, "rules": ["descriptor"]},
    ),
    "descriptor": (
        ("id",),
        {
            "id": TEXT,
            "name": TEXT,
            "shortDescription": "multiformat",
            "fullDescription": "multiformat",
        },
    ),
    "multiformat": (("text",), {"text": TEXT, "markdown": TEXT}),
    "result": (
        ("message",),
        {
            "ruleId": TEXT,
            "ruleIndex": 0,
            "level": {"none", "note", "warning", "error"},
            "message": "message",
            "locations": ["location"],
        },
    ),
    "message": (("text",), {"text": TEXT}),
    "location": ((), {"physicalLocation": "physical"}),
    "physical": (
        ("artifactLocation",),
        {"artifactLocation": "artifact", "region": "region"},
    ),
    "artifact": ((), {"uri": URI, "uriBaseId": TEXT}),
    "region": ((), {"startLine": 1, "startColumn": 1, "endLine": 1, "endColumn": 1}),
}


def faults(value, form, where="$"):
    """Yields what of a value of JSON has not its form."""
    if isinstance(form, list):
        is_right, inner = isinstance(value, list), [(each, form[0], f"{where}[]") for each in value]
    elif isinstance(form, str):
        required, known = SARIF[form]
        is_right = isinstance(value, dict) and set(required) <= value.keys() <= known.keys()
        inner = (
            [(each, known[key], f"{where}.{key}") for key, each in value.items()]
            if is_right
            else []
        )
    else:
        inner = []
        if isinstance(form, int):
            is_right = type(value) is int and value >= form
        else:
            is_known = form.__contains__ if isinstance(form, set) else form.fullmatch
            is_right = isinstance(value, str) and bool(is_known(value))
    if not is_right:
        yield where
    for each in inner:
        yield from faults(*each)


class Reports(unittest.TestCase):
    def setUp(self):
        folder = tempfile.TemporaryDirectory()
        self.addCleanup(folder.cleanup)
        self.names = [os.path.join(folder.name, name) for name in ("a b:%é.css", "b.css", "c.css")]
        for name, text in zip(
            self.names, ("@x;\na { b }\n@y 'é\u0001';", "@x; a { b", "a { top: 0 }")
        ):
            with open(name, "w", encoding="utf-8") as file:
                file.write(text)

    def sarif(self, *names):
        out = io.StringIO()
        with redirect_stdout(out):
            command.main(["lint", "--format", "sarif", *names])
        return json.loads(out.getvalue())

    def test_sarif(self):
        self.assertEqual(
            list(faults({"runs": [{"tool": {}}], "version": "2"}, "log")),
            ["$.runs[].tool", "$.version"],
        )
        log = self.sarif(*self.names)
        self.assertEqual(list(faults(log, "log")), [])
        run = log["runs"][0]
        rules = [each["id"] for each in run["tool"]["driver"]["rules"]]
        self.assertEqual(len(rules), len(set(rules)))
        self.assertLessEqual({each["ruleId"] for each in run["results"]}, set(rules))
        self.assertGreater(len(run["results"]), 1)
        self.assertEqual(self.sarif(self.names[2])["runs"][0]["results"], [])


class Terminal(io.StringIO):
    def isatty(self):
        return True


class CommandLine(unittest.TestCase):
    def setUp(self):
        folder = tempfile.TemporaryDirectory()
        self.addCleanup(folder.cleanup)
        self.folder = folder.name

    def page(self, name, text):
        path = os.path.join(self.folder, name)
        with open(path, "w", encoding="utf-8") as file:
            file.write(text)
        return path

    def start(self, *words, **options):
        environment = {**os.environ, "PYTHONPATH": FOLDER}
        return subprocess.Popen(
            [sys.executable, "-m", "simplecss", *words],
            env=environment,
            stdout=subprocess.PIPE,
            stderr=subprocess.PIPE,
            **options,
        )

    def test_one_page_of_many_is_missing(self):
        page = self.page("a.html", "<p>")
        out, err = io.StringIO(), io.StringIO()
        with redirect_stdout(out), redirect_stderr(err):
            status = command.main(["select", "p", page, page + "x", page])
        self.assertEqual((status, out.getvalue()), (4, f"{page}:1:1: <p>\n" * 2))
        self.assertEqual(
            err.getvalue(),
            f"simplecss: cannot read {page}x: No such file or directory\n",
        )

    def test_options_of_inline(self):
        sheet = self.page("a.css", "td { color: red } g { fill: red } .x { margin: 0 }")
        for words, text, expected in (
            (("--part",), "<td>", '<td style="color: red">'),
            (("--as-attributes",), "<svg><g/></svg>", '<svg><g fill="red"/></svg>'),
            (
                ("--ignore", "#i"),
                "<p class=x id=i><p class=x>",
                "<style>\n.x { margin: 0 }\n</style>"
                '<p class=x id=i><p class=x style="margin: 0">',
            ),
        ):
            page = self.page("a.html", text)
            result = os.path.join(self.folder, "b.html")
            self.assertEqual(command.main(["inline", *words, "-o", result, page, sheet]), 0)
            with open(result, encoding="utf-8", newline="") as file:
                self.assertEqual(file.read(), expected)

    def test_paths_of_wide_pages(self):
        page = self.page("a.html", "<p>" * 20_000)
        out = io.StringIO()
        with redirect_stdout(out):
            self.assertEqual(command.main(["select", "--json", "p", page]), 0)
        last = json.loads(out.getvalue().splitlines()[-1])
        self.assertEqual(last["path"], "html > body:nth-child(2) > p:nth-child(20000)")

    @unittest.skipUnless(hasattr(os, "mkfifo"), "there are no named pipes")
    def test_interrupt_ends_at_once(self):
        # A program that a shell starts in the background ignores the signal, and so would one that it starts.
        before = signal.signal(signal.SIGINT, signal.default_int_handler)
        self.addCleanup(signal.signal, signal.SIGINT, before)
        name = os.path.join(self.folder, "page")
        os.mkfifo(name)
        made = self.start("select", "b", name)
        # Once the page is read, some seconds of work begin.
        with open(name, "w", encoding="utf-8") as file:
            file.write("<b><p>" * 50_000)
        made.send_signal(signal.SIGINT)
        out, err = made.communicate(timeout=60)
        self.assertEqual((made.returncode, out, err), (130, b"", b""))

    def test_progress(self):
        # Some tenths of a second of work, after which a bar is due, and after a minute not.
        page = self.page("a.html", "<b><p>" * 5_000)
        self.addCleanup(setattr, command, "_PATIENCE", command._PATIENCE)
        for patience, is_shown in ((0.0, True), (60.0, False)):
            command._PATIENCE = patience
            out, err = io.StringIO(), Terminal()
            with redirect_stdout(out), redirect_stderr(err):
                self.assertEqual(command.main(["select", "--count", "p", page, page]), 0)
            self.assertEqual("simplecss: [" in err.getvalue(), is_shown)
            # Nothing of it is left.
            self.assertEqual(err.getvalue().endswith("\r\033[K"), is_shown)

    def test_a_library_of_another_version(self):
        code = "import simplecss, simplecss._library as it; it.__version__ = '9'; simplecss.Selector('a')"
        environment = {**os.environ, "PYTHONPATH": FOLDER}
        words = [sys.executable, "-c", code]
        made = subprocess.run(words, env=environment, capture_output=True, text=True, check=False)
        self.assertIn(f"has version {simplecss.__version__}, and this package 9", made.stderr)

    def test_an_end_tag_of_a_drawing_in_which_a_paragraph_ended(self):
        # HTML Standard, "The rules for parsing tokens in foreign content": any other end tag.
        tree = simplecss.Tree.from_html("x<svg><desc><p><hr></svg>t<b>")
        self.assertEqual(tree.select_one("svg").text, "")
        self.assertEqual(tree.select_one("b").parent.name, "body")

    def test_many_pages_read_a_sheet_once(self):
        css = "p { color: red } p:hover { margin: 0 }"
        pages = [f"<p id=a{each}>" for each in range(4)]
        wanted = [simplecss.inline(page, css) for page in pages]
        # The second is another text, which is not read yet.
        for sheet in (simplecss.StyleSheet(css), css + " "):
            with mock.patch.object(library, "call", wraps=library.call) as call:
                self.assertEqual([simplecss.inline(page, sheet) for page in pages], wanted)
            asked = [each.args[::2] for each in call.mock_calls]
            self.assertEqual(asked.count(("simplecss_sheet_numbers", STATEMENTS)), 1)
        self.assertIn('style="color: red"', wanted[0])
        for other in (
            simplecss.StyleSheet(),
            simplecss.StyleSheet(css, css),
            simplecss.StyleSheet(css, grammar="simplecss"),
        ):
            with self.assertRaisesRegex(ValueError, "one text"):
                simplecss.inline("<p>", other)
        with self.assertRaises(TypeError):
            simplecss.inline("<p>", b"p{}")

    def test_modules_are_imported_when_their_names_are_used(self):
        code = (
            "import sys, simplecss; print(*(each for each in sys.modules if 'simplecss' in each))"
        )
        environment = {**os.environ, "PYTHONPATH": FOLDER}
        words = [sys.executable, "-S", "-c", code]
        made = subprocess.run(words, env=environment, capture_output=True, text=True, check=True)
        self.assertEqual(made.stdout, "simplecss\n")
        self.assertLessEqual(set(simplecss.__all__), set(dir(simplecss)))
        self.assertTrue(all(hasattr(simplecss, each) for each in simplecss.__all__))
        self.assertEqual(simplecss.Tree.__module__, "simplecss")


if __name__ == "__main__":
    unittest.main()
