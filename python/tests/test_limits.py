"""Tests of what texts from untrusted sources may cost and reach: time and memory, limits, files of a folder, and
terminals."""

import io
import json
import os
import sys
import tempfile
import time
import unittest
import unittest.mock
import xml.etree.ElementTree
from contextlib import redirect_stderr, redirect_stdout

sys.path.insert(0, os.path.join(os.path.dirname(os.path.abspath(__file__)), "..", "src"))

import simplecss  # noqa: E402
from simplecss import __main__ as command  # noqa: E402
from simplecss import _inline, _jobs, _lint, _staying, _urls, _values  # noqa: E402
from simplecss import _library as library  # noqa: E402
from simplecss._linked import Shelf  # noqa: E402
from simplecss._found_names import classes_in, names_in  # noqa: E402
from simplecss._reading import ReadSelector, read_sheet  # noqa: E402
from simplecss._selectors import states_in  # noqa: E402
from simplecss._traits import traits_of  # noqa: E402
from simplecss._encoding import decode_page  # noqa: E402

# Under this time nothing is said about how time grows.
_SHORT = 0.02


def seconds(call, text):
    """Returns the least processor time of some calls."""
    times = []
    for _ in range(3):
        start = time.process_time()
        call(text)
        times.append(time.process_time() - start)
        if times[-1] > 2:
            break
    return min(times)


def run(*words):
    """Runs the command line. Returns its status, and what it writes."""
    output, errors = io.StringIO(), io.StringIO()
    with redirect_stdout(output), redirect_stderr(errors):
        status = command.main(list(words))
    return status, output.getvalue(), errors.getvalue()


class Folder:
    """A folder with files, while a test runs."""

    def __init__(self, test, **files):
        folder = tempfile.TemporaryDirectory()
        test.addCleanup(folder.cleanup)
        self.path = folder.name
        for name, data in files.items():
            self.put(name, data)

    def put(self, name, data):
        path = os.path.join(self.path, name)
        with open(path, "wb") as file:
            file.write(data if isinstance(data, bytes) else data.encode("utf-8"))
        return path


# What of the package reads a text, a text of a size, and a size at which a square takes long.
def rebased(css):
    return _urls.rebased(css, "http://x/")


def without_pseudo_classes(selector):
    return _staying._wider(ReadSelector(selector, selector, None, None, (0, 0)))


LINEAR = (
    (
        "rules of a short sheet in a group rule with a long head",
        simplecss.minify,
        lambda n: f"@media {'x ' * n}{{{'a{b : c}' * (n // 4)}}}",
        2_000,
    ),
    (
        "brackets of a short sheet",
        simplecss.minify,
        lambda n: "@layer x{ /**/ a {} (" * n,
        2_000,
    ),
    (
        "comments of a selector",
        lambda css: simplecss.inline("<p>", css),
        lambda n: "a:hover:has(" + "/**/" * n + "(((a)))){x:y}",
        16,
    ),
    ("blanks of a url", rebased, lambda n: "a{b:url(" + " " * n, 200),
    (
        "a word that is written again",
        simplecss.inline,
        lambda n: f"<style>{'.a{b:c}' * (n // 4)}</style><p class='{'a ' * n}'>",
        1_000,
    ),
    (
        "children of a parent with words",
        lambda page: simplecss.Tree.from_html(page).select("b"),
        lambda n: f"<p class='{' '.join(f'w{i}' for i in range(n))}'>{'<b></b>' * n}",
        1_000,
    ),
    ("comments that are open", states_in, lambda n: "/*" * n, 8_000),
    (
        "parentheses and comments",
        without_pseudo_classes,
        lambda n: ":a((" + "/*/" * n,
        2_000,
    ),
    ("digits of a value", _values.is_known, lambda n: "1" * n + "x", 4_000),
    (
        "elements with attributes, lint",
        lambda text: _lint.findings("a.html", text),
        lambda n: "<a style=a:b>\n" * n,
        2_000,
    ),
    (
        "at-rules within at-rules",
        lambda text: _lint.findings("a.css", text),
        lambda n: "@font-face{" * n,
        2_000,
    ),
    (
        "states of selectors",
        lambda css: simplecss.StyleSheet(css).unused(simplecss.Tree.from_html("<p>")),
        lambda n: ",".join(f".x{i}:checked" for i in range(n)) + ":hover" * n + "{}",
        500,
    ),
    ("unknown names of a selector", simplecss.lint, lambda n: ":x" * n + "{}", 2_000),
    (
        "unknown names",
        simplecss.lint,
        lambda n: f"a{{{''.join(f'x{i}:y;' for i in range(n))}",
        500,
    ),
    ("strings that are open", simplecss.lint, lambda n: "a{" + 'b:"x\n;' * n, 500),
    (
        "comments that turn kinds off",
        simplecss.lint,
        lambda n: "/*simplecss-ignore b*/a{}" * n,
        500,
    ),
)
# Sizes at which these take milliseconds, since they are linear.
SIZES = {
    "a word that is written again": 4_000,
    "children of a parent with words": 5_000,
    "comments of a selector": 4_000,
    "blanks of a url": 20_000,
    "comments that are open": 20_000,
    "parentheses and comments": 20_000,
    "digits of a value": 20_000,
    "attributes of a printed selector": 20_000,
}
# More inputs of patterns.
PATTERNS = (
    ("urls", rebased, lambda n: "url(" * n),
    ("imports", rebased, lambda n: "@import " * n),
    ("quotes", rebased, lambda n: "'\"" * n),
    ("comments", rebased, lambda n: "/*/" * n),
    ("escapes", rebased, lambda n: '"\\' * n),
    ("strings", states_in, lambda n: '"\\' * n),
    ("parentheses", without_pseudo_classes, lambda n: ":a(" * n),
    ("pairs", without_pseudo_classes, lambda n: ":a(" + "(:b)" * n),
    ("names", without_pseudo_classes, lambda n: ":a((" + ":b" * n),
    ("quotes", without_pseudo_classes, lambda n: ":a(" + "'" * n),
    (
        "numbers",
        traits_of,
        lambda n: ":nth-child(" + " " * n + "n" + " " * n,
    ),
    ("digits", traits_of, lambda n: ":nth-child(" + "1" * n),
    ("functions", traits_of, lambda n: ":not(" * n),
    ("points", _values.is_known, lambda n: "1." * n),
    ("numbers in numbers", traits_of, lambda n: ":nth-child(" * n),
    ("bars", traits_of, lambda n: "|=" * n),
    ("classes", lambda css: classes_in([css]), lambda n: ".a" * n),
    ("names of classes", lambda css: classes_in([css]), lambda n: "." + "a" * n),
    ("clients", traits_of, lambda n: "u " * n + "+"),
    ("blanks of clients", traits_of, lambda n: "u" + " " * n + "+"),
    ("tokens", lambda css: list(simplecss.tokens(css)), lambda n: "\\" * n),
    ("names of selectors", names_in, lambda n: ":is(" * n + ")" * n),
    ("bytes of names", names_in, lambda n: "\xe9 " * n),
)


def kinds(count):
    """Returns paragraphs of as many kinds."""
    return "".join(f"<p class=c{i}>" for i in range(count))


def repeated(count, text):
    """Returns a text for each number below another, which stands where `@` does."""
    return "".join(text.replace("@", str(i)) for i in range(count))


# Pages and sheets of which `inline` compares some parts with all others.
COMPARED = (
    (
        "rules that stay and set everything",
        lambda n: ("<p>", repeated(n, "p{a@:b}") + "p:hover{all:unset}" * n),
    ),
    (
        "the same, with declarations of the element",
        lambda n: (f"<p style='{repeated(n, 'a@:b;')}'>", "p{a:b}" + "p:hover{all:unset}" * n),
    ),
    (
        "the same, important",
        lambda n: (
            "<p>",
            repeated(n, "p{a@:b!important}") + "p:hover{all:unset!important}" * n,
        ),
    ),
    ("kinds of one property", lambda n: (kinds(n), repeated(n, ".c@{a:b}p:hover{a:@}"))),
    ("kinds of several", lambda n: (kinds(n), repeated(n, ".c@{a@:b}p:hover{a@:c}"))),
    (
        "kinds that each have rules that stay",
        lambda n: (kinds(n), repeated(n, ".c@{a:b}.c@:hover{b@:c}p:hover{b@:c}")),
    ),
    ("kinds of winners", lambda n: (kinds(n), repeated(n, ".c@{a:@}p{b@:c}"))),
    ("kinds of one winner", lambda n: (kinds(n), repeated(n, ".c@{a:@}p{b:c}"))),
    (
        "values that are unknown",
        lambda n: (kinds(n), repeated(n, ".c@{a:x@}p{a:y@}") + "p:hover{a:b}"),
    ),
    (
        "what goes back",
        lambda n: (kinds(n), repeated(n, ".c@{a@:revert-layer}p{b@:revert-layer}p:hover{b@:c}")),
    ),
    (
        "what is decided again",
        lambda n: (
            kinds(n),
            repeated(n, ".c@{a:b}p:hover{a:c}.c@{a:d!important}p:hover{a:e@!important}"),
        ),
    ),
)


def calls_of_writing(page, css, limit):
    """Returns how many functions are called while `inline` writes a sheet, up to a limit."""
    calls = 0

    def count(frame, event, argument):
        nonlocal calls
        calls += event in ("call", "c_call")

    def write(inliner, write=_inline._PageInliner.write):
        sys.setprofile(count)
        try:
            write(inliner)
        finally:
            sys.setprofile(None)

    with unittest.mock.patch.object(_inline._PageInliner, "write", write):
        try:
            simplecss.inline(page, css, answer_limit=limit)
        except simplecss.LimitError:
            pass
    return calls


class Time(unittest.TestCase):
    def check_growth(self, name, call, text, size):
        # What takes more than linear time does so each time; what else runs may disturb one.
        for _ in range(3):
            small, large = seconds(call, text(size)), seconds(call, text(4 * size))
            if large < 9 * max(small, _SHORT):
                return
        self.fail(f"{name}: {small} s at {size}, {large} s at four times that")

    def test_time_is_linear(self):
        for name, call, text, small in LINEAR:
            with self.subTest(name):
                # The first size is one at which more than linear time would take seconds.
                self.check_growth(name, call, text, small)
                self.check_growth(name, call, text, SIZES.get(name, small))

    def test_patterns_are_linear(self):
        for name, call, text in PATTERNS:
            with self.subTest(name):
                self.check_growth(name, call, text, 5_000)

    def test_an_open_value_is_closed_by_few_calls(self):
        calls = []
        made = library.call
        library.call = lambda *words, **more: calls.append(words[0]) or made(*words, **more)
        self.addCleanup(setattr, library, "call", made)
        self.assertEqual(read_sheet('a { b: "x')[1][0].declarations[0].value, '"x"')
        self.assertEqual(calls, ["simplecss_sheet_numbers", "simplecss_close"])

    def test_paths_are_limited(self):
        folder = Folder(self)
        page = folder.put("a.html", "<div>" * 3000)
        status, output, _ = run("select", "--json", "*", page)
        paths = [json.loads(line)["path"] for line in output.splitlines()]
        self.assertEqual(
            (status, len(paths), paths[3]),
            (0, 3003, "html > body:nth-child(2) > div:nth-child(1)"),
        )
        self.assertLess(len(output), 1_000_000)
        self.assertIsNone(paths[-1])

    def test_what_elements_within_others_have_is_limited(self):
        folder = Folder(self)
        page = folder.put("a.html", "<div>" * 3000 + "x" * 30_000)
        for option in ("--text", "--html"):
            status, output, errors = run("select", option, "div", page)
            self.assertEqual((status, "characters" in errors), (1, True), option)


class Xml(unittest.TestCase):
    def check_refusal(self, text, reason):
        with self.assertRaisesRegex(simplecss.TreeError, reason):
            simplecss.Tree.from_xml(text)

    def test_entities_of_its_own_are_refused(self):
        entities = "<!ENTITY a '<b/><b/>'>" + "".join(
            f"<!ENTITY {chr(98 + i)} '{f'&{chr(97 + i)};' * 10}'>" for i in range(4)
        )
        text = f"<!DOCTYPE r [{entities}]><r>&e;</r>"
        self.check_refusal(text, "declares entities")
        self.check_refusal("<!DOCTYPE r [<!ENTITY a 'x'>]><r/>", "declares entities")
        self.check_refusal("<!DOCTYPE r [<!ENTITY % a 'x'> %a;]><r/>", "declares entities")
        with self.assertRaises(simplecss.TreeError):
            simplecss.inline(text, "b{c:d}", is_xml=True)

    def test_attributes_that_a_doctype_adds_are_refused(self):
        self.check_refusal('<!DOCTYPE r [<!ATTLIST a x CDATA "v">]><r><a/></r>', "or attributes")

    def test_namespaces_are_limited(self):
        many = "".join(f'<a xmlns="u{number}"/>' for number in range(4097))
        long = "v" * 1001
        for text in (f"<r>{many}</r>", f'<r xmlns:a="{long}"/>'):
            with self.assertRaisesRegex(simplecss.LimitError, "4,096 namespaces"):
                simplecss.Tree.from_xml(text)

    def test_long_attributes_of_its_own_are_read(self):
        self.assertEqual(
            len(simplecss.Tree.from_xml(f'<a b="{"x" * 3_000_000}"/>')[0].attributes["b"]),
            3_000_000,
        )


class Limits(unittest.TestCase):
    def check_limit(self, call, unit="rules and declarations"):
        with self.assertRaisesRegex(simplecss.LimitError, unit):
            call()

    def test_group_rules(self):
        tree = simplecss.Tree.from_html("<b></b>")
        layers = "".join(f"@layer l{number} {{ b {{ c: d }} }}" for number in range(1025))
        self.check_limit(lambda: simplecss.StyleSheet(layers).styles(tree), "1,024 layers")
        queries = (f"(min-width: {n // 99}px) and (min-height: {n % 99}px)" for n in range(10_000))
        text = "".join(f"@media {each} {{ b {{ c: d }} }}" for each in queries)
        self.assertEqual(list(map(len, simplecss.StyleSheet(text).styles(tree))), [0, 0, 0, 1])
        deep = "b{" + "@media screen{" * 9000 + "c:d" + "}" * 9001
        self.assertEqual(list(map(len, simplecss.StyleSheet(deep).styles(tree))), [0, 0, 0, 1])

    def test_rules_of_elements(self):
        tree = simplecss.Tree.from_html("<b></b>" * 97)
        sheet = simplecss.StyleSheet("*{a:b}" * 10, answer_limit=999)
        self.check_limit(lambda: sheet.match(tree))
        self.assertEqual(sum(map(len, sheet.styles(tree))), 100)
        few = simplecss.StyleSheet("*{a:b}" * 10, answer_limit=99)
        self.check_limit(lambda: few.styles(tree))
        self.check_limit(lambda: few.style(tree, "a"))
        sheet = simplecss.StyleSheet("*{a:b}" * 10, answer_limit=1000)
        self.assertEqual(sum(map(len, sheet.match(tree))), 1000)
        self.assertEqual(sheet.match(tree)[99], list(range(10)))
        every = simplecss.StyleSheet("*{a:b}" * 10, answer_limit=None)
        self.assertEqual(every.match(tree), sheet.match(tree))
        rules = "".join(f".c{i % 7}, b:nth-child({i}n), #x{i} {{a:b}}" for i in range(50))
        page = simplecss.Tree.from_html(
            "".join(f"<b class='c{i % 9} c{i % 5}' id=x{i}></b>" for i in range(60))
        )
        for grammar in ("modern", "simplecss"):
            found = [
                simplecss.StyleSheet(rules, answer_limit=limit, grammar=grammar).match(page)
                for limit in (2000, None)
            ]
            self.assertEqual(found[0], found[1])

    def test_limits_that_hold_where_none_is_named(self):
        page = simplecss.Tree.from_html("<b></b>" * 4000)
        self.check_limit(lambda: simplecss.StyleSheet("*{a:b}" * 4000).match(page))
        self.check_limit(lambda: simplecss.inline("<b></b>" * 4000, "*{a:b}" * 4000))
        self.addCleanup(setattr, library, "_MOST_NUMBERS", library._MOST_NUMBERS)
        library._MOST_NUMBERS = 2**17
        self.check_limit(
            lambda: simplecss.StyleSheet("@media{" * 63 + "{}" * 1_000).skipped,
            "more than 131072 numbers",
        )

    def test_declarations_of_elements(self):
        tree = simplecss.Tree.from_html("<b></b>" * 97)
        block = "".join(f"a{i}:b;" for i in range(10))
        sheet = simplecss.StyleSheet(f"*{{{block}}}", answer_limit=999)
        self.check_limit(lambda: sheet.styles(tree))
        self.assertEqual([each.value for each in sheet.style(tree, "a7")], ["b"] * 100)
        # The rules of each element are others.
        page = simplecss.Tree.from_html("".join(f"<b class=c{i}></b>" for i in range(100)))
        rules = f"*{{{block}}}" + "".join(f".c{i}{{a1:c}}" for i in range(100))
        self.check_limit(lambda: simplecss.StyleSheet(rules, answer_limit=999).styles(page))
        self.check_limit(
            lambda: simplecss.StyleSheet(f"html{{{block}}}", answer_limit=500).styles(
                tree, inherit=[f"a{i}" for i in range(10)]
            )
        )

    def test_a_pickled_sheet_has_its_limit(self):
        import pickle

        sheet = pickle.loads(pickle.dumps(simplecss.StyleSheet("*{a:b}", answer_limit=1)))
        self.check_limit(lambda: sheet.match(simplecss.Tree.from_html("<p>")))

    def test_inline(self):
        page = "<b></b>" * 100
        self.check_limit(
            lambda: simplecss.inline(page, "b{a:bbbbbb}", answer_limit=899),
            "899 characters",
        )
        self.assertEqual(
            simplecss.inline(page, "b{a:bbbbbb}", answer_limit=900).count("style="), 100
        )
        self.check_limit(
            lambda: simplecss.inline(page, "b{a:b}b{a:c}", answer_limit=199),
            "199 rules",
        )
        with self.assertRaisesRegex(simplecss.LimitError, "more declarations"):
            simplecss.inline(page, "b{a:b;c:d}", limit=1)
        self.assertIn("c: d", simplecss.inline(page, "b{a:b;c:d}", limit=2))

    def test_a_rule_that_stays_costs_no_product(self):
        page = "".join(f"<b class=c{i}></b>" for i in range(1500))
        css = (
            "".join(f".c{i}{{x:y}}" for i in range(1500))
            + "b:hover{"
            + "".join(f"a{i}:b;" for i in range(1500))
            + "}"
        )
        start = time.process_time()
        self.assertEqual(simplecss.inline(page, css).count('style="x: y"'), 1500)
        self.assertLess(time.process_time() - start, 3)

    def test_what_is_compared_is_limited(self):
        """An answer's limit bounds the work, here as calls of functions, for a sheet and one of four times as
        many rules."""
        for name, make in COMPARED:
            for count in (100, 400):
                with self.subTest(name, count=count):
                    self.assertLess(calls_of_writing(*make(count), 100_000), 400_000)

    def test_what_is_compared_of_usual_sheets_is_not(self):
        folder = os.path.join(
            os.path.dirname(os.path.abspath(__file__)), "..", "..", "tests", "mails"
        )
        for name in sorted(os.listdir(folder)):
            with open(os.path.join(folder, name), "rb") as file:
                page = file.read()
            # A hundredth of the usual limit.
            simplecss.inline(page, answer_limit=100_000)


class Links(unittest.TestCase):
    """`folder=` and `base_url=`."""

    def setUp(self):
        self.folder = Folder(self, **{"a.css": "p{a:b}"})

    def inlined(self, links, **options):
        left = []
        text = simplecss.inline(
            f"<head>{links}</head><p>", folder=self.folder.path, report=left, **options
        )
        return text, [tuple(each) for each in left]

    def test_a_link_that_cannot_be_read_stays(self):
        os.symlink("loop.css", os.path.join(self.folder.path, "loop.css"))
        self.folder.put("latin.css", b"p{c:\xe9}")
        for href, reason in (
            (f"{'x' * 256}.css", None),
            ("%00.css", "its file cannot be read"),
            ("loop.css", None),
            ("latin.css", "its file is not UTF-8"),
            ("none.css", None),
        ):
            link = f'<link rel=stylesheet href="{href}">'
            text, left = self.inlined(link + "<link rel=stylesheet href=a.css>")
            self.assertEqual(text, f'<head>{link}</head><p style="a: b">', href)
            if reason is not None:
                self.assertEqual(
                    left,
                    [
                        (
                            href,
                            f"{reason}: its rules lose to what is written into attributes",
                        )
                    ],
                )

    def test_only_sheets_are_read(self):
        for name in (".env", "a.txt", ".css", "b.css.bak"):
            self.folder.put(name, "p{secret:x}")
            self.assertNotIn("secret", self.inlined(f"<link rel=stylesheet href={name}>")[0], name)
        self.assertNotIn(
            "a: b", self.inlined("<link rel=stylesheet href=a.css type=text/plain>")[0]
        )
        self.assertIn("a: b", self.inlined("<link rel=stylesheet href=a.css type=TEXT/CSS>")[0])
        self.folder.put("B.CSS", "p{c:d}")
        self.assertIn("c: d", self.inlined("<link rel=stylesheet href=B.CSS>")[0])

    def test_what_is_no_url_stays(self):
        text = simplecss.inline("<p><a href='//[x'>", "p{a:url(//[x)}", base_url="http://h/")
        self.assertEqual(text, "<p style=\"a: url(//[x)\"><a href='//[x'>")

    def test_the_sheet_is_rebased(self):
        css = "p{a:url(i.png);b:url( 'j k.png' );c:'url(x)'/*url(y)*/;d:xurl(z)}@import 'k.css';"
        text = simplecss.inline("<p>", css, base_url="http://h/d/")
        for part in (
            "url(http://h/d/i.png)",
            "http://h/d/j%20k.png",
            "'url(x)'",
            "xurl(z)",
        ):
            self.assertIn(part, text)
        self.assertIn(
            "@import 'http://h/d/k.css'",
            simplecss.inline("<p>", "@import 'k.css';p{a:b}", base_url="http://h/d/"),
        )

    def test_a_base_does_not_end_a_url(self):
        self.folder.put("b.css", "p{a:url(i.png)}")
        os.mkdir(os.path.join(self.folder.path, "x)y"))
        os.rename(
            os.path.join(self.folder.path, "b.css"),
            os.path.join(self.folder.path, "x)y", "b.css"),
        )
        self.assertIn(
            "url(x%29y/i.png)",
            self.inlined("<link rel=stylesheet href='x)y/b.css'>")[0],
        )

    def test_a_name_is_no_sheet(self):
        for name in ("style.css", " mail/Style.CSS\n"):
            with self.assertRaisesRegex(ValueError, "folder=") as found:
                simplecss.inline("<p>", name)
            self.assertIn("open(", str(found.exception))
        for css in ("", "p.css{a:b}", "@import 'a.css'", "p{a:b} /* a.css"):
            simplecss.inline("<p class=css>", css)


class Encodings(unittest.TestCase):
    def test_names_are_read_of_tags(self):
        for front, name in (
            (b"<meta name=description content='how to set charset=koi8-r'>", "utf-8"),
            (
                b"<meta http-equiv=content-type content='text/html; charset=koi8-r'>",
                "koi8-r",
            ),
            (
                b"<meta content='x; CHARSET = \"koi8-r\"' http-equiv=Content-Type>",
                "koi8-r",
            ),
            (b"<p title='<meta charset=koi8-r>'>", "utf-8"),
            (b"<meta charset='koi8-r'>", "koi8-r"),
            (b"<meta charset=none><meta charset=koi8-r>", "koi8-r"),
            (b"<!x <meta charset=koi8-r>", "utf-8"),
            (b"<metadata charset=koi8-r>", "utf-8"),
            (b"<meta charset=utf-16>", "utf-8"),
            (b"<!-- <meta charset=cp866> --><META/CHARSET=koi8-r>", "koi8-r"),
            (b"<?xml version='1.0' encoding='koi8-r'?>", "koi8-r"),
        ):
            page = front + "\u0416".encode(name)
            self.assertIn("\u0416", decode_page(page)[0], front)

    def test_what_the_encoding_lacks_is_an_escape_in_a_style(self):
        page = b"<meta charset=latin1><p>"
        text = simplecss.inline(page, "p:hover{a:'\u6c34\u6c341\\\u6c34'} p{b:'\u6c34'}")
        self.assertIn(b"a:'\\6c34 \\6c34 1\\6c34 '", text)
        self.assertIn(b"style=\"b: '&#27700;'\"", text)
        self.assertIn("'\u6c34'".encode(), simplecss.inline(b"<p>", "p:hover{a:'\u6c34'}"))

    def test_xml_has_names_of_one_case(self):
        text = simplecss.inline(
            "<?xml version='1.0'?><r><p STYLE='c: d' style='e: f'/></r>",
            "p{a:b}",
            is_xml=True,
        )
        self.assertEqual(text, "<?xml version='1.0'?><r><p STYLE='c: d' style='a: b; e: f'/></r>")
        simplecss.Tree.from_xml(text)
        found = _lint.findings("a.xml", "<?xml version='1.0'?><r><p STYLE='c' style='e'/></r>")
        self.assertEqual([each.text for each in found], ["e"])


class White(unittest.TestCase):
    """White space and case are HTML's and CSS's, not Unicode's."""

    def test_spaces(self):
        page = "<p class='a\xa0b'>"
        self.assertIn(
            'class="a\xa0b"',
            simplecss.inline(page, ".a\xa0b:hover{c:d}", remove_classes=True),
        )
        self.assertNotIn(
            "x",
            [
                each.name
                for each in simplecss.StyleSheet("@media\xa0screen{a{x:y}}").styles(
                    simplecss.Tree.from_html("<a>"), media="screen"
                )[3]
            ],
        )
        tree = simplecss.Tree.from_html("<svg fill='\xa0'>")
        self.assertEqual(
            [each.value for each in simplecss.StyleSheet().styles(tree, specified=True)[3]],
            ["\xa0"],
        )

    def test_case(self):
        # The sign for kelvin is a K to Unicode.
        self.assertEqual(simplecss.declarations("\u212a:x")[0].name, "\u212a")
        self.assertFalse(traits_of("a:lin\u212a").is_known)
        self.assertTrue(traits_of("a:LINK").is_known)
        self.assertFalse(_values.is_known("blac\u212a"))

    def test_classes_of_any_name_stay(self):
        for name in ("a\U0001f600", "--x", "\u4e00"):
            text = simplecss.inline(
                f'<p class="{name} z">', f".{name}:hover{{a:b}}", remove_classes=True
            )
            self.assertIn(f'class="{name}"', text)


class Terminals(unittest.TestCase):
    HOSTILE = "\x1b]0;x\x07\x1b[2J\x9b1m\x7f"

    def check(self, *words):
        _, output, errors = run(*words)
        for text in (output, errors):
            found = [each for each in text if not each.isprintable() and each not in "\n\t"]
            self.assertEqual(found, [], words)
        return output, errors

    def test_no_control_character_is_written(self):
        folder = Folder(self)
        sheet = folder.put(
            "a.css",
            f"p {{ {self.HOSTILE} }} q{self.HOSTILE} {{ a:b }} p:hover[a='{self.HOSTILE}'] {{ a:b }}",
        )
        page = folder.put(
            "a.html",
            f"<meta charset=utf-8><p id='{self.HOSTILE}' title='{self.HOSTILE}' style='{self.HOSTILE}'>",
        )
        for form in ("text", "json", "github", "sarif", "checkstyle"):
            self.check("lint", "--all", "--format", form, sheet, page)
        self.check("select", "p", page)
        self.check("select", "--json", "p", page)
        self.check("match", sheet, page)
        self.check("style", sheet, page, "a")
        self.check("select", self.HOSTILE, page)
        sheet = folder.put("b.css", f"p:hover[a='{self.HOSTILE}'] {{ a:b }}")
        self.assertIn("\ufffd", self.check("inline", "--json", "--report", page, sheet)[1])
        self.check("select", "p", os.path.join(folder.path, f"none{self.HOSTILE}"))

    def test_data_is_as_it_is_but_on_a_terminal(self):
        folder = Folder(self)
        page = folder.put("a.html", f"<meta charset=utf-8><p title='{self.HOSTILE}'>")
        self.assertEqual(run("select", "--attr", "title", "p", page)[1], self.HOSTILE + "\n")
        terminal = io.StringIO()
        terminal.isatty = lambda: True
        with redirect_stdout(terminal):
            command.main(["select", "--attr", "title", "p", page])
        self.assertNotIn("\x1b", terminal.getvalue())

    def test_checkstyle_is_xml(self):
        found = _lint.findings("a\x01\uffff.css", "p { \uffff\x02\ufffe }")
        root = xml.etree.ElementTree.fromstring(_lint.as_checkstyle(found).encode("utf-8"))
        self.assertEqual(root[0].get("name"), "a\ufffd\ufffd.css")


class Trees(unittest.TestCase):
    def test_an_element_without_a_name(self):
        for element in (
            xml.etree.ElementTree.Element(""),
            xml.etree.ElementTree.Element("{x}"),
        ):
            with self.assertRaisesRegex(simplecss.TreeError, "the name is empty"):
                simplecss.Tree.from_etree(element).select("a")


class Products(unittest.TestCase):
    """Inputs whose time was the product of two of their parts."""

    def test_they_grow_as_the_text(self):
        def declared(count, name):
            return "".join(f"{name}{each}:0;" for each in range(count))

        def inlined(text):
            try:
                simplecss.inline(*text)
            except library.LimitError:
                pass

        def built(text):
            try:
                found = simplecss.Tree.from_html(text)
                for each in found.select("div"):
                    each.text
            except library.LimitError:
                pass

        def matched(text):
            simplecss.StyleSheet(text).match(simplecss.Tree.from_html("<p>"))

        def styled(text):
            simplecss.StyleSheet(text).styles(simplecss.Tree.from_html("<p><b>"))

        cases = (
            (
                lambda n: f"@supports (a:b){' or (c:d)' * n}{{p{{}}}}@media {'((a) and ' * n}{{p{{}}}}",
                4000,
                matched,
            ),
            (
                lambda n: "".join(f"@media (width:{i}px){{p{{a:b}}}}" for i in range(n)),
                800,
                matched,
            ),
            (
                lambda n: f"@media {'a' * 20 * n}{{{'a{}' * n}}}",
                800,
                lambda text: _lint.findings("a", text, True),
            ),
            (
                lambda n: (
                    "<p id=x>",
                    f"*{{b-a:x}}#x{{{declared(n, 'b-c')}}}" + "p:hover{b-a:x}" * n,
                ),
                600,
                inlined,
            ),
            (
                lambda n: ("<p>", f"p{{{declared(n, 'a')}}}" + "p:hover{b:c}" * n),
                500,
                inlined,
            ),
            (
                lambda n: (
                    "<p>",
                    "p{{{0}}}p:hover{{{0}}}".format("".join(f"b:x{i};" for i in range(n))),
                ),
                1500,
                inlined,
            ),
            (lambda n: ("x" + "</p>" * n, f"p{{{declared(n, 'a')}}}"), 600, inlined),
            (lambda n: ("<p>", "p{b:c}p:hover{b:d}" * n), 500, inlined),
            (lambda n: ("<p>", "@layer x{p{b:c}p:hover{b:d}}" * n), 300, inlined),
            (
                lambda n: (
                    "<p>",
                    "".join(f"@layer l{i}{{p{{b:c}}p:hover{{b:d}}}}" for i in range(n)),
                ),
                250,
                inlined,
            ),
            (lambda n: "b{" * n + "c:d", 4000, styled),
            (lambda n: "ul b,p b{&>c,&+d{e:f}" * n, 500, styled),
            (
                lambda n: "".join(f"@layer l{i}{{p{{b:c}}}}" for i in range(n)),
                250,
                styled,
            ),
            (lambda n: "<marquee>" * n + "<b></b>" * n, 1200, built),
            (lambda n: "<div>" * n, 1500, built),
            (lambda n: "".join(f"<b a b c d e f=x{i}>" for i in range(n)), 1500, built),
            (lambda n: "<div>" * n + "</div>" * n + "a<!-->" * n, 1000, built),
            (lambda n: "".join(f"<html a{i}=b>" for i in range(n)), 1500, built),
            (lambda n: "<font>" * n, 3000, built),
            (lambda n: f"<b {' '.join(f'a{i}' for i in range(31))}>" * n, 500, built),
            (lambda n: "<table><tr><td>" * n, 800, built),
        )
        for number, (make, count, call) in enumerate(cases):
            first, second = seconds(call, make(count)), seconds(call, make(4 * count))
            self.assertLess(second, 10 * max(first, _SHORT), number)

    def test_of_equal_formatting_elements_three_are_opened_again(self):
        # HTML Standard, "The list of active formatting elements": the Noah's Ark clause.
        for count in (0, 1, 40):
            others = "".join(f"<b id={i}>" for i in range(count))
            for alike in ("<i>", "<i id=a class=b>", "<i class=b id=a>"):
                tree = simplecss.Tree.from_html(
                    f"<p><i title=a>{others}<i class=b id=a>{alike * 4}<p>x"
                )
                opened = [each.name for each in tree.select("p:last-child *")]
                first = 1 + (alike == "<i>")
                self.assertEqual(opened, ["i"] + count * ["b"] + (first + 2) * ["i"])
        self.assertEqual(
            len(simplecss.Tree.from_html("".join(f"<b id={i}>" for i in range(3000)))),
            3003,
        )
        # Each is compared with the 120 before it, whatever the attributes are.
        long = " ".join(f"a{i}" for i in range(31))
        text = "".join(f"<b {long} id={i % 40}>" for i in range(7000))
        self.assertEqual(len(simplecss.Tree.from_html(text)), 7003)

    def test_what_is_out_of_proportion(self):
        with self.assertRaises(library.LimitError):
            simplecss.Tree.from_html(f"<p><b title={'x' * 20000}>" + "<p>x" * 20000)
        folder = Folder(self, **{"a.css": "a:hover{b:url(x)}" * 100}).path
        link = "<link rel=stylesheet href=a.css>"
        with self.assertRaises(library.LimitError):
            simplecss.inline(link * 10, folder=folder, answer_limit=10000)
        long = f"<link rel=stylesheet href={'x/%2e%2e/' * 100}a.css>"
        with self.assertRaises(library.LimitError):
            simplecss.inline(long, folder=folder, answer_limit=10000)

    def test_lines_of_long_selectors_and_values(self):
        folder = Folder(self, **{"a.css": "p,q{b:" + "x" * 100 + "}", "a.html": "<p>" * 50})
        names = [os.path.join(folder.path, name) for name in ("a.css", "a.html")]
        self.addCleanup(setattr, _jobs, "most_written", _jobs.most_written)
        _jobs.most_written = lambda length: 40
        self.assertEqual(run("match", *names)[0], command.REFUSED)
        self.assertEqual(run("style", *names, "b")[0], command.REFUSED)

    def test_names_of_other_machines_are_none(self):
        names = ["a.css"] if os.name == "nt" else ["a.css", "\\\\a.css"]
        folder = Folder(self, **dict.fromkeys(names, "p{a:b}")).path
        for name in (
            "%5C%5Ca.css",
            "\\\\host\\a.css",
            "%5C%5Chost%5Ca.css",
            "/\\host\\a.css",
            "/c:/a.css",
        ):
            self.assertIsNone(Shelf(folder=folder).read(name), name)
        self.assertEqual(Shelf(folder=folder).read("/a.css"), "p{a:b}")

    def test_words_that_are_wrong(self):
        errors = io.StringIO()
        with redirect_stderr(errors), self.assertRaises(SystemExit):
            command.main(["lint", "a.css", "--\x1b]0;x\x07"])
        self.assertNotIn("\x1b", errors.getvalue())
        self.assertEqual(command.printable_lines("a\r\nb\rc"), "a\nb\ufffdc")


if __name__ == "__main__":
    unittest.main()
