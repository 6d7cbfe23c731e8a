"""A sheet with one fault for each rule of stylelint's recommended set (stylelint-config-recommended 16), and one without
it: which of them `lint` finds.

    python3 -m unittest tests.recommended
"""
from __future__ import annotations

import sys
import unittest
from pathlib import Path

sys.path.insert(0, str(Path(__file__).resolve().parents[1] / "python" / "src"))
import simplecss  # noqa: E402

# The rule, a sheet with its fault alone, and one without it.
FOUND = (
    ("annotation-no-unknown", "a { color: red !imprtant; }", "a { color: red !important; }"),
    (
        "at-rule-descriptor-no-unknown",
        "@counter-style foo { unknown-descriptor: cyclic; }",
        "@counter-style foo { system: cyclic; }",
    ),
    (
        "at-rule-descriptor-value-no-unknown",
        "@counter-style foo { system: unknown; }",
        "@counter-style foo { system: cyclic; }",
    ),
    ("at-rule-no-deprecated", "@viewport { width: device-width; }", "a { top: 0 }"),
    (
        "at-rule-no-unknown",
        "@unknown (max-width: 960px) { a { top: 0 } }",
        "@media (max-width: 960px) { a { top: 0 } }",
    ),
    (
        "at-rule-prelude-no-invalid",
        "@property foo { syntax: '<color>'; inherits: false; initial-value: red }",
        "@property --foo { syntax: '<color>'; inherits: false; initial-value: red }",
    ),
    ("block-no-empty", "a {}", "a { top: 0 }"),
    ("color-no-invalid-hex", "a { color: #12345aa }", "a { color: #12345a }"),
    (
        "custom-property-no-missing-var-function",
        ":root { --foo: red; } a { color: --foo; }",
        ":root { --foo: red; } a { color: var(--foo); }",
    ),
    (
        "declaration-block-no-duplicate-custom-properties",
        "a { --p: pink; --q: red; --p: orange; }",
        "a { --p: pink; --q: red; }",
    ),
    (
        "declaration-block-no-duplicate-properties",
        "a { color: pink; background: orange; color: orange; }",
        "a { color: pink; background: orange; }",
    ),
    (
        "declaration-block-no-shorthand-property-overrides",
        "a { padding-left: 10px; padding: 20px; }",
        "a { padding: 20px; padding-left: 10px; }",
    ),
    ("declaration-property-value-no-unknown", "a { top: unknown; }", "a { top: auto; }"),
    (
        "font-family-no-duplicate-names",
        "a { font-family: Times, Arial, Times, serif; }",
        "a { font-family: Times, Arial, serif; }",
    ),
    (
        "function-calc-no-unspaced-operator",
        "a { top: calc(1px+2px); }",
        "a { top: calc(1px + 2px); }",
    ),
    (
        "keyframe-block-no-duplicate-selectors",
        "@keyframes foo { from { top: 0 } from { left: 0 } }",
        "@keyframes foo { from { top: 0 } to { left: 0 } }",
    ),
    (
        "keyframe-declaration-no-important",
        "@keyframes foo { from { opacity: 0 !important } }",
        "@keyframes foo { from { opacity: 0 } }",
    ),
    (
        "media-feature-name-value-no-unknown",
        "@media (min-width: 600) { a { top: 0 } }",
        "@media (min-width: 600px) { a { top: 0 } }",
    ),
    (
        "media-query-no-invalid",
        "@media screen and(min-width: 1px) { a { top: 0 } }",
        "@media screen and (min-width: 1px) { a { top: 0 } }",
    ),
    ("media-type-no-deprecated", "@media tv { a { top: 0 } }", "@media screen { a { top: 0 } }"),
    (
        "named-grid-areas-no-invalid",
        "a { grid-template-areas: 'a a a' 'b b'; }",
        "a { grid-template-areas: 'a a a' 'b b b'; }",
    ),
    (
        "no-duplicate-at-import-rules",
        "@import 'a.css';\n@import url(a.css);",
        "@import 'a.css';\n@import url(b.css);",
    ),
    (
        "no-duplicate-selectors",
        "a { top: 0 }\nb { top: 0 }\na { left: 0 }",
        "a { top: 0 }\nb { top: 0 }",
    ),
    (
        "no-invalid-double-slash-comments",
        "a { // color: pink;\n }",
        "a { /* color: pink; */ top: 0 }",
    ),
    (
        "no-invalid-position-at-import-rule",
        "a { top: 0 }\n@import 'foo.css';",
        "@import 'foo.css';\na { top: 0 }",
    ),
    ("no-invalid-position-declaration", "color: red;", "a { color: red; }"),
    ("no-irregular-whitespace", "a { top:\u00a00 }", "a { top: 0 }"),
    ("property-no-unknown", "a { colr: blue; }", "a { color: blue; }"),
    ("selector-anb-no-unmatchable", "a:nth-child(0) { top: 0 }", "a:nth-child(1) { top: 0 }"),
    ("selector-pseudo-class-no-unknown", "a:unknown { top: 0 }", "a:hover { top: 0 }"),
    ("selector-pseudo-element-no-unknown", "a::pseudo { top: 0 }", "a::before { top: 0 }"),
    ("selector-type-no-unknown", "unknown { top: 0 }", "ul { top: 0 }"),
    ("string-no-newline", "a { content: 'first\n second'; }", "a { content: 'first second'; }"),
    (
        "syntax-string-no-invalid",
        "@property --foo { syntax: '<colr>'; inherits: false; initial-value: red }",
        "@property --foo { syntax: '<color>'; inherits: false; initial-value: red }",
    ),
)
# What is a matter of taste, or what sheets do for old browsers: that is not reported.
LEFT = (
    ("comment-no-empty", "/**/\na { top: 0 }", "/* a */\na { top: 0 }"),
    (
        "declaration-property-value-keyword-no-deprecated",
        "a { text-rendering: optimizelegibility; word-break: break-word; }",
        "a { word-break: break-all; }",
    ),
    (
        "font-family-no-missing-generic-family-keyword",
        "a { font-family: Helvetica, Arial; }",
        "a { font-family: Helvetica, Arial, sans-serif; }",
    ),
    (
        "media-feature-name-no-unknown",
        "@media screen and (unknown) { a { top: 0 } }",
        "@media screen and (hover) { a { top: 0 } }",
    ),
    ("nesting-selector-no-missing-scoping-root", "& { top: 0 }", "a { top: 0 }"),
    (
        "no-descending-specificity",
        "b a { top: 0 }\na { top: 1px }",
        "a { top: 1px }\nb a { top: 0 }",
    ),
    ("no-empty-source", "", "a { top: 0 }"),
    ("property-no-deprecated", "a { clip: rect(0, 0, 0, 0); }", "a { clip-path: none }"),
)


def kinds_in(text: str) -> list[str]:
    """The kinds that are found in a sheet."""
    return [each.kind for each in simplecss.lint(text)]


class Recommended(unittest.TestCase):
    def test_found(self) -> None:
        self.assertEqual((len(FOUND), len(LEFT)), (34, 8))
        for rule, wrong, right in FOUND:
            with self.subTest(rule):
                self.assertNotEqual(kinds_in(wrong), [])
                self.assertEqual(kinds_in(right), [])

    def test_left(self) -> None:
        for rule, wrong, right in LEFT:
            with self.subTest(rule):
                self.assertEqual(kinds_in(wrong), [])
                self.assertEqual(kinds_in(right), [])


if __name__ == "__main__":
    unittest.main()
