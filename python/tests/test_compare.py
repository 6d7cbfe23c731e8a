"""The properties that two style sheets set differently on the elements of pages, and the command. That none is missed
is judged by a browser elsewhere.

    python3 -m unittest discover python/tests
"""

import importlib
import io
import json
import os
import random
import sys
import tempfile
import types
import unittest
from contextlib import redirect_stderr, redirect_stdout
from unittest import mock

sys.path.insert(0, os.path.join(os.path.dirname(os.path.abspath(__file__)), "..", "src"))

from simplecss import Device, LimitError, StyleSheet, Tree, compare  # noqa: E402
from simplecss import __main__ as command  # noqa: E402
from simplecss._device import says  # noqa: E402
from simplecss._reading import Condition  # noqa: E402
from simplecss._regions import told_apart  # noqa: E402

PAGE = "<!DOCTYPE html><p class=a>x</p>\n<p id=b style='z-index: 1'>y</p>"
# Two sheets, and what they set differently: the index of the element, the longhand and both values.
ROWS = [
    ("p{color:red}", "p { color: red; }", []),
    ("p{color:red}", "p{color:red} b{color:blue}", []),
    ("p{color:red;margin:0  1px}", ".a,#b{color:red} p{margin:0 1px;}", []),
    ("p{color:red} .a{color:blue}", ".a{color:blue} p{color:red}", []),
    (".a{color:blue} p{color:red !important}", "p{color:red}", []),
    ("p{color:red}", ".a{color:red}", [(4, "color", "red", None)]),
    ("p{color:red}", "p{color:red} .a{color:blue}", [(3, "color", "red", "blue")]),
    # The attribute `style` wins over a rule.
    ("", "p{z-index:2}", [(3, "z-index", None, "2")]),
    # Later, a shorthand sets its longhands again.
    (
        ".a{overflow-x:clip;overflow:auto}",
        ".a{overflow:auto;overflow-x:clip}",
        [(3, "overflow-x", "auto", "clip")],
    ),
    # A logical property sets a physical one.
    (
        ".a{top:1px;inset-block-start:2px}",
        ".a{inset-block-start:2px;top:1px}",
        [(3, "inset-block-start", "2px", "1px"), (3, "top", "2px", "1px")],
    ),
    # What is rolled back counts by longhands.
    (
        "@layer x{.a{overflow-x:clip}} .a{overflow-x:revert-layer}",
        "@layer x{.a{overflow:auto}} .a{overflow-x:revert-layer}",
        [(3, "overflow-x", "clip", "auto"), (3, "overflow-y", None, "auto")],
    ),
    (".a{--x:1}", ".a{--x:2}", [(3, "--x", "1", "2")]),
]

# Tests of media queries that tell 4,608 devices apart.
TESTS = (
    "prefers-color-scheme:dark,prefers-reduced-motion,prefers-reduced-transparency,prefers-contrast:more,"
    "prefers-contrast:less,prefers-contrast:custom,forced-colors:active,hover,pointer:fine,pointer:coarse,"
    "color-gamut:p3,color-gamut:rec2020,dynamic-range:high,grid"
).split(",")
# A property, two texts of a value, and whether they are one value (CSS Values 4: sections 2.1, 4.1, 5.1, 6.1).
FORMS = [
    ("color", "RED", "red", True),
    ("color", "#FFF", "#fff", True),
    ("color", "#fff", "#ffffff", False),
    ("margin", "1px  2PX", "1px/**/ 2px", True),
    ("width", "calc( 1px + 2px )", "CALC(1px + 2px)", True),
    ("opacity", "0.50", ".5", True),
    ("z-index", "1", "1.0", False),
    ("background", "url(a.png)", 'URL("a.png")', True),
    ("background", "url(a.png)", "url(A.png)", False),
    ("content", "'a'", '"a"', True),
    ("content", "'a'", '"A"', False),
    ("content", "counter(a)", "counter(A)", False),
    ("animation-name", "a", "A", False),
    ("anchor-name", "--a", "--A", False),
    ("grid-template-columns", "[a] 1fr", "[A] 1fr", False),
    ("grid-template-columns", "[a] 1fr", "[a] 1FR", True),
    ("--x", "a", "A", False),
    ("--x", "a", " a ", True),
]


def run(*words):
    """Runs the command line. Returns its status, and what it writes."""
    output, errors = io.StringIO(), io.StringIO()
    with redirect_stdout(output), redirect_stderr(errors):
        status = command.main(["compare", *words])
    return status, output.getvalue(), errors.getvalue()


class Texts(unittest.TestCase):
    def test_rows(self):
        tree = Tree.from_html(PAGE)
        for old, new, due in ROWS:
            with self.subTest(old=old, new=new):
                found = [
                    (
                        each.element.index,
                        each.name,
                        each.old and each.old.value,
                        each.new and each.new.value,
                    )
                    for each in compare(StyleSheet(old), StyleSheet(new), tree)
                ]
                self.assertEqual(found, due)

    def test_trees_and_devices(self):
        """Each tree in order, on one device."""
        trees = [Tree.from_html("<p>x"), Tree.from_html("<b>y"), Tree.from_html("<p>z")]
        old, new = StyleSheet("p{top:1px}"), StyleSheet("@media (min-width: 1000px){p{top:1px}}")
        self.assertEqual(compare(old, new, *trees, media=Device(width=1000)), [])
        found = compare(old, new, *trees, media=Device(width=999))
        self.assertEqual([each.element.tree for each in found], [trees[0], trees[2]])
        self.assertEqual(compare(old, new), [])

    def test_places(self):
        old, new = StyleSheet("b{}\np{margin:1px}"), StyleSheet("p{top:1px;\n  margin: 2px}")
        found = compare(old, new, Tree.from_html("<p style='left: 1px'>x"))
        by_name = {each.name: each for each in found}
        self.assertEqual(
            sorted(by_name),
            [f"margin-{side}" for side in ("bottom", "left", "right", "top")] + ["top"],
        )
        both = by_name["margin-top"]
        self.assertEqual(
            (both.old.place[:4], both.new.place[:4]), ((0, None, 2, 3), (0, None, 2, 3))
        )
        self.assertEqual((both.new.place.start, both.new.place.end), (13, 24))
        found = compare(
            StyleSheet(""),
            StyleSheet("p{left:2px!important}"),
            Tree.from_html("<p style='left:1px'>x"),
        )
        self.assertEqual([(each.old.place, each.new.place.column) for each in found], [(None, 3)])

    def test_normal_form(self):
        """Texts of values that browsers read alike are equal, and others are not."""
        tree = Tree.from_html("<p>x")
        for name, one, other, is_same in FORMS:
            with self.subTest(name=name, one=one, other=other):
                sheets = (StyleSheet(f"p{{{name}:{value}}}") for value in (one, other))
                self.assertEqual(compare(*sheets, tree) == [], is_same)

    def test_all_conditions(self):
        """What one device does not show: the first device of each difference is named."""
        tree = Tree.from_html("<p>x")
        old = StyleSheet(
            "p{top:1px} @media (min-width: 60em){p{left:1px}} @media print{p{right:1px}}"
        )
        new = StyleSheet(
            "p{top:1px} @media (min-width: 961px){p{left:1px}} @media print{p{right:2px}}"
        )
        self.assertEqual(compare(old, new, tree), [])
        found = compare(old, new, tree, all_conditions=True)
        said = [(each.name, each.device.width, each.device.type) for each in found]
        self.assertEqual(said, [("left", 960, "screen"), ("right", 1280, "print")])
        with self.assertRaisesRegex(TypeError, "on devices"):
            compare(old, new, tree, media=lambda query: True, all_conditions=True)
        many = "".join(f"@media ({each}){{p{{top:0}}}}" for each in TESTS)
        with self.assertRaisesRegex(LimitError, "4096 devices"):
            compare(StyleSheet(many), new, tree, all_conditions=True)

    def test_limits(self):
        """Longhands that are asked for one after another, and differences."""
        tree = Tree.from_html("<p>x")
        many = StyleSheet("".join(f"p{{--x{number}:revert}}" for number in range(4000)))
        with self.assertRaisesRegex(
            LimitError, "10000000 elements and declarations for all longhands"
        ):
            compare(many, many, tree)
        page = Tree.from_html("<b>x</b>" * 5000)
        with self.assertRaisesRegex(LimitError, "1000000 differences"):
            compare(StyleSheet("*{all:unset}"), StyleSheet("*{all:initial}"), page)


class Devices(unittest.TestCase):
    """On each device the conditions say what they say on one of those that are told apart."""

    PARTS = (
        "(min-width: {0}px)",
        "(max-width: {1}em)",
        "({0}px <= width < {2}px)",
        "(height > calc({1}px * 3))",
        "(orientation: portrait)",
        "(min-aspect-ratio: {1}/{2})",
        "(aspect-ratio: 4/3)",
        "(max-device-width: {0}px)",
        "(min-resolution: 1.{1}dppx)",
        "(-webkit-min-device-pixel-ratio: 2)",
        "(hover)",
        "(any-pointer: coarse)",
        "(prefers-color-scheme: dark)",
        "(color)",
        "(min-monochrome: 2)",
        "print",
        "(update: fast)",
        "(what: ever)",
    )

    def condition(self, source):
        """A random condition."""
        numbers = [source.choice((1, 2, 3, 16, 37, 100, 600)) for _ in range(3)]
        parts = [source.choice(self.PARTS).format(*numbers) for _ in range(source.randint(1, 3))]
        if "print" in parts:
            return f"{source.choice(('', 'not '))}print and (min-width: {numbers[0]}px)"
        words = [each if source.random() < 0.7 else f"(not {each})" for each in parts]
        return source.choice((" and ", " or ", ", ")).join(words)

    def device(self, source):
        """A random device."""
        sizes = (1, 2, 15, 16, 17, 36, 37, 48, 99, 100, 300, 592, 599, 600, 601, 800, 1280, 4000)
        return Device(
            width=source.choice(sizes),
            height=source.choice(sizes),
            type=source.choice(("screen", "print", "speech")),
            resolution=source.choice((0.5, 1, 1.016, 1.1, 1.6, 2, 3)),
            dark=source.random() < 0.5,
            hover=source.random() < 0.5,
            pointer=source.choice(("none", "coarse", "fine")),
            any_pointer=source.choice(("none", "coarse", "fine", "coarse fine")),
            device_width=source.choice((None, *sizes)),
            color=source.choice((0, 8)),
            monochrome=source.choice((0, 1, 2, 3)),
            update=source.choice((None, "none", "slow", "fast")),
        )

    def test_random(self):
        source = random.Random(93)
        for _ in range(20):
            every = sorted({self.condition(source) for _ in range(source.randint(1, 4))})
            conditions = [Condition("media", each) for each in every]
            found = told_apart(conditions, Device())
            answers = {tuple(says(each, one) for each in conditions) for one in found}
            self.assertEqual(len(answers), len(found))
            self.assertEqual(
                [says(each, found[0]) for each in conditions],
                [says(each, Device()) for each in conditions],
            )
            for _ in range(150):
                device = self.device(source)
                said = tuple(says(each, device) for each in conditions)
                self.assertIn(said, answers, (every, device))


class Command(unittest.TestCase):
    def setUp(self):
        room = tempfile.TemporaryDirectory()
        self.addCleanup(room.cleanup)
        self.page = self.write(room.name, "page.html", PAGE)
        self.old = self.write(room.name, "old.css", "p{color:red}")
        self.new = self.write(room.name, "new.css", "p{color:red}.a{color:blue}#b{top:1px}")

    def write(self, folder, name, text):
        """Writes a file, and returns its path."""
        path = os.path.join(folder, name)
        with open(path, "w", encoding="utf-8") as file:
            file.write(text)
        return path

    def test_lines(self):
        due = (
            f'{self.page}:1:16: <p class="a"> color: color: red ({self.old}:1:3)'
            f" -> color: blue ({self.new}:1:16)\n"
            f'{self.page}:2:1: <p id="b"> top: nothing -> top: 1px ({self.new}:1:30)\n'
        )
        self.assertEqual(run(self.old, self.new, self.page), (1, due, ""))
        self.assertEqual(run(self.old, self.old, self.page), (0, "", ""))

    def test_json(self):
        status, output, _ = run("--json", self.old, self.new, self.page)
        rows = [json.loads(line) for line in output.splitlines()]
        self.assertEqual(status, 1)
        self.assertEqual(
            [(each["name"], each["old"] is None) for each in rows],
            [("color", False), ("top", True)],
        )
        place = {"file": self.new, "row": 1, "column": 30}
        due = {"name": "top", "value": "1px", "important": False, "place": place}
        self.assertEqual((rows[1]["new"], rows[1]["device"]), (due, {}))

    def test_all_conditions(self):
        """Each difference once, on the first device on which it is."""
        wide = self.write(
            os.path.dirname(self.page),
            "wide.css",
            "@media (max-width:9px) and (hover:none){p{color:red}}",
        )
        none = self.write(os.path.dirname(self.page), "none.css", "")
        self.assertEqual(run(wide, none, self.page), (0, "", ""))
        status, output, errors = run("--all-conditions", wide, none, self.page)
        shown = f"color: color: red ({wide}:1:43) -> nothing (8 x 800, hover: false)\n"
        due = f'{self.page}:1:16: <p class="a"> {shown}{self.page}:2:1: <p id="b"> {shown}'
        self.assertEqual((status, output, errors), (1, due, ""))
        status, output, _ = run("--json", "--all-conditions", wide, none, self.page)
        rows = [json.loads(line) for line in output.splitlines()]
        self.assertEqual([each["device"] for each in rows], [{"width": 8, "hover": False}] * 2)

    def test_fixture(self):
        """The fixture of pytest, which need not be installed here, fails with the lines of the command."""
        with mock.patch.dict(sys.modules, {"pytest": types.SimpleNamespace(fixture=lambda f: f)}):
            same_look = importlib.import_module("simplecss.pytest_plugin").same_look()
        same_look(self.old, self.old, self.page)
        with self.assertRaisesRegex(AssertionError, "looks other than .*\n.* color: color: red "):
            same_look(self.old, self.new, self.page, width=300, all_conditions=True)
        with self.assertRaisesRegex(AssertionError, "cannot read"):
            same_look(self.old, self.new + ".no", self.page)

    def test_missing_files(self):
        status, _, errors = run(self.old, self.new + ".no", self.page)
        self.assertEqual(status, 4)
        self.assertIn("cannot read", errors)


if __name__ == "__main__":
    unittest.main()
