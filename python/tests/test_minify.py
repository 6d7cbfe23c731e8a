"""Tests of `minify` and `prettify`, which print a style sheet.

Their rows are in tests/cases/calls.json, and tests/printed.py compares the rules that a browser reads of both texts.
"""

import random
import unittest

from test_linked import Site, run

import simplecss
from simplecss import minify, prettify

PIECES = (
    "a .b #c * > + ~ , { } { } : ; :hover ::before [x='y'] | /**/ ' \" \\ url( ) ( ! important --v @x"
    " @layer @media @import @charset print a{b:c} a{} 1 2n - -- é <!-- -->"
).split() + [
    " ",
    "\n",
    "@media x{",
    "/* ; } */",
    "p , q { r : s ; t : u }",
    "--v: { a }",
]


class Minify(unittest.TestCase):
    def test_no_comment_is_lost(self):
        """With lines; and each result says what the text does."""
        source = random.Random(75)
        more = ["/* 1 */", "/* 2 */\n", "\n/*! 3 */", "/*\n4 */"]
        for _ in range(500):
            text = "".join(source.choices([*PIECES, *more], k=source.randint(1, 20)))
            lines, short = prettify(text), minify(text)
            with self.subTest(text):
                self.assertEqual(comments(lines), comments(text))
                self.assertEqual(prettify(lines), lines)
                for each in (lines, short):
                    self.assertEqual(said(each), said(text))

    def test_words(self):
        with self.assertRaises(TypeError):
            minify(b"a{}")
        with self.assertRaises(ValueError):
            minify("\ud800")


def said(text):
    """Returns the tokens of the selectors, which may be relative ones, and of the declarations of a text."""
    return [
        (words(each.selector), each.pseudo_element, words(" ".join(map(str, each.declarations))))
        for each in simplecss.StyleSheet(text).rules
        if each.declarations
    ]


def comments(text):
    """Returns the comments of a text that say something, without what ends them."""
    every = [each.text for each in simplecss.tokens(text) if each.kind == "comment"]
    return sorted(each.rstrip("*/") for each in every if each != "/**/")


def words(text):
    """Returns the tokens of a text without those between them."""
    kinds = ("whitespace", "comment")
    return [each.text for each in simplecss.tokens(text) if each.kind not in kinds]


class Command(Site):
    def test_command(self):
        one, other = self.put(a_css="a { b: c }\n", b_css="p {}\n")
        self.assertEqual(run("minify", one), (0, "a{b:c}\n", ""))
        self.assertEqual(run("minify", one, other)[0], 2)
        self.assertEqual(
            run("minify", "a.html")[::2], (2, "simplecss: a.html is not a style sheet\n")
        )
        out = self.folder / "out"
        self.assertEqual(run("minify", str(self.folder), "-o", str(out))[0], 0)
        self.assertEqual((out / "a.css").read_text(), "a{b:c}\n")
        self.assertEqual((out / "b.css").read_text(), "\n")
        self.assertEqual(
            run("minify", "--json", one)[1], f'{{"file": "{one}", "css": "a{{b:c}}"}}\n'
        )


if __name__ == "__main__":
    unittest.main()
