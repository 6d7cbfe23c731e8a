"""Tests of devices: what media queries say on them, and which conditions of `@supports` hold. The answers are those
of Chromium 156 on such a device."""

import io
import os
import sys
import tempfile
import unittest
from contextlib import redirect_stderr, redirect_stdout

sys.path.insert(0, os.path.join(os.path.dirname(os.path.abspath(__file__)), "..", "src"))

import simplecss  # noqa: E402
from simplecss import Condition, Device  # noqa: E402
from simplecss import __main__ as command  # noqa: E402
from simplecss._device import says  # noqa: E402

TRUE, UNKNOWN = "true", "unknown"


class Media(unittest.TestCase):
    def test_devices(self):
        self.assertEqual(says(Condition("media", "print"), Device(type="PRINT")), TRUE)
        self.assertEqual(
            says(
                Condition("media", "speech, (prefers-reduced-motion)"),
                Device(reduced_motion=True),
            ),
            TRUE,
        )
        for device, text in (
            (Device(device_width=400), "(device-width: 400px) and (width: 1280px)"),
            (Device(device_height=1), "(device-height: 1px)"),
            (Device(color=0, monochrome=2), "(monochrome: 2) and (not (color))"),
            (Device(color_index=256), "(color-index)"),
            (Device(color_gamut="P3"), "(color-gamut: p3) and (not (color-gamut: rec2020))"),
            (Device(high_dynamic_range=True), "(dynamic-range: high)"),
            (Device(grid=True), "(grid)"),
            (Device(update="slow"), "(update: slow)"),
            (Device(type="print"), "(update: none) and (overflow-block: paged)"),
            (Device(scripting="none"), "not (scripting)"),
            (Device(display_mode="standalone"), "(display-mode: standalone)"),
            (Device(reduced_transparency=True), "(prefers-reduced-transparency)"),
            (Device(contrast="more"), "(prefers-contrast: more)"),
            (Device(forced_colors=True), "(forced-colors: active)"),
            (Device(hover=False, any_hover=True), "(any-hover) and (hover: none)"),
            (
                Device(any_pointer="Coarse"),
                "(any-pointer: fine) and (any-pointer: coarse) and (pointer: fine)",
            ),
            (
                Device(pointer="none", any_pointer="coarse fine"),
                "(any-pointer: fine) and (any-pointer: coarse) and (pointer: none)",
            ),
            (Device(pointer="none"), "not (any-pointer)"),
        ):
            self.assertEqual(says(Condition("media", text), device), TRUE, text)
        for wrong in (
            Device(type="tv"),
            Device(pointer="mouse"),
            Device(width=-1),
            Device(height=2**32),
            Device(device_width=0),
            Device(contrast="high"),
            Device(any_pointer="fine mouse"),
        ):
            with self.assertRaises(ValueError):
                says(Condition("media", "all"), wrong)
        for wrong in (Device(width=1.5), Device(type=None)):
            with self.assertRaises(TypeError):
                says(Condition("media", "all"), wrong)

    def test_other_group_rules_hold_on_no_device(self):
        for name in ("layer", "container", "document", "import"):
            self.assertEqual(says(Condition(name, "a"), Device()), UNKNOWN, name)


class Supports(unittest.TestCase):
    def test_conditions(self):
        for text, holds in (
            ("(display: grid)", True),
            ("not (display: grid)", False),
            ("(DIS\\70lay:GRID)", True),
            ("(foo: bar)", False),
            ("not (foo: bar)", True),
            ("(--x:)", True),
            ("(color:)", False),
            ("(src: url(a))", False),
            ("display: grid", False),
            ("(display: grid) and (not (foo: bar))", True),
            ("(foo: bar) or (position: sticky)", True),
            ("", False),
            ("(display: grid) and (width: 1px) or (foo: bar)", False),
            ("selector(a > b)", True),
            ("selector(a, b)", False),
            ("selector(a:nth-child(2n))", True),
            ("not selector(!)", True),
            ("foo(x)", False),
            ("not foo(x)", True),
            ("(display: grid", True),
            ("(-webkit-touch-callout: none)", False),
            ("(-moz-appearance: none)", False),
            ("(color: 'a\n)", False),
            ("not (x 'a\n)", False),
            ("(display: grid))", False),
            ("(display: grid)) or ((display: grid)", False),
            ("not (])", False),
        ):
            self.assertEqual(
                says(Condition("supports", text), Device()),
                "true" if holds else "false",
                text,
            )


class Sheets(unittest.TestCase):
    CSS = (
        "p { n: 1 } @media (max-width: 400px) { p { m: 2 } } @supports (display: grid) { @media print, (min-width: 400px)"
        "{ p { o: 3 } } } @layer a { p { q: 4 } }"
    )

    def styles(self, **options):
        tree = simplecss.Tree.from_html("<p>", is_part=True)
        return "; ".join(map(str, simplecss.StyleSheet(self.CSS).styles(tree, **options)[0]))

    def test_rules_apply_where_their_conditions_hold(self):
        self.assertEqual(self.styles(), "q: 4; n: 1; o: 3")
        self.assertEqual(self.styles(media="screen"), "q: 4; n: 1; o: 3")
        self.assertEqual(self.styles(media=Device(width=375)), "q: 4; n: 1; m: 2")
        self.assertEqual(self.styles(media=Device(width=400)), "q: 4; n: 1; m: 2; o: 3")
        device = Device(width=375, type="print")
        self.assertEqual(self.styles(media=device), "q: 4; n: 1; m: 2; o: 3")
        asked = []
        self.assertEqual(self.styles(media=asked.append), "q: 4; n: 1")
        self.assertEqual(asked, ["(max-width: 400px)", "@supports (display: grid)"])

    def test_layers(self):
        tree = simplecss.Tree.from_html("<p id=a>", is_part=True)
        for css, expected in (
            ("@layer x { #a { n: 1 } } p { n: 2 }", "n: 2"),
            ("@layer y, x; @layer x { p { n: 1 } } @layer y { #a { n: 2 } }", "n: 1"),
            (
                "@layer y, x; @layer x { p { n: 1 ! important } } @layer y { p { n: 2 !important } }",
                "n: 2 !important",
            ),
            (
                "@media print { @layer y, x; } @layer x { p { n: 1 } } @layer y { p { n: 2 } }",
                "n: 2",
            ),
            (
                "p { @media screen { n: 1; @supports (color: red) { m: 2 } } @media print { n: 3 } o: 4 }",
                "n: 1; m: 2; o: 4",
            ),
        ):
            found = simplecss.StyleSheet(css).styles(tree)[0]
            self.assertEqual("; ".join(map(str, found)), expected, css)

    def test_inline_writes_no_rule_with_a_condition(self):
        text = simplecss.inline("<p>", self.CSS, important=False)
        self.assertIn("@media print, (min-width: 400px)", text)
        self.assertNotIn('style="n: 1; o: 3"', text)

    def test_words_of_the_command(self):
        with tempfile.TemporaryDirectory() as folder:
            page = os.path.join(folder, "a.html")
            with open(page, "w", encoding="utf-8") as file:
                file.write(
                    f"<style>{self.CSS} @media (prefers-color-scheme: dark) and (height: 1px) {{ p {{ n: 5 }} }}</style><p>"
                )
            for words, name, expected in (
                ([], "o", "3"),
                (["--width", "375"], "o", ""),
                (["--width", "375"], "m", "2"),
                ([], "n", "1"),
                (["--media", "print", "--width=0"], "o", "3"),
                (["--dark", "--height", "1"], "n", "5"),
                (["--dark"], "n", "1"),
            ):
                with redirect_stdout(io.StringIO()) as out:
                    self.assertEqual(command.main(["style", *words, page, name]), 0)
                self.assertEqual(out.getvalue().partition(f" {name}: ")[2].strip(), expected, words)
            for words in (
                ["--width", "-1"],
                ["--width", "1px"],
                ["--height", "4294967296"],
                ["--media", "tv"],
            ):
                with redirect_stderr(io.StringIO()), self.assertRaises(SystemExit):
                    command.main(["match", *words, page])


if __name__ == "__main__":
    unittest.main()
