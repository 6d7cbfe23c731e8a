"""Tests of wrong arguments: each raises an error that says what is wrong."""

import inspect
import os
import pickle
import sys
import typing
import unittest
import warnings

sys.path.insert(0, os.path.join(os.path.dirname(__file__), "..", "src"))

import simplecss  # noqa: E402
from simplecss import Item, Selector, StyleSheet, Tree  # noqa: E402

PAGE = "<ul><li>one<li>two</ul>"


class Arguments(unittest.TestCase):
    def test_an_element_of_another_tree_is_a_key_error(self) -> None:
        sheet, tree, other = (StyleSheet("li{a:b}"), Tree.from_html(PAGE), Tree.from_html(PAGE))
        for answers in (sheet.styles(tree), sheet.match(tree), sheet.style(tree, "a")):
            for element, answer in zip(tree, answers):
                self.assertIs(answers[element], answer)
                self.assertIs(answers[element.index], answer)
                with self.assertRaises(KeyError):
                    answers[other[element.index]]
            self.assertEqual(answers[1:3], list(answers)[1:3])
            again, its_tree = pickle.loads(pickle.dumps((answers, tree)))
            self.assertEqual(again[its_tree[3]], answers[tree[3]])

    def test_names_of_files_are_refused(self) -> None:
        """Each is a name where a text is expected, which was read as a text."""
        for name in ("style.css", "css/a.css", " STYLE.CSS\n", "C:\\a.css"):
            for call in (
                StyleSheet,
                simplecss.lint,
                simplecss.minify,
                simplecss.prettify,
                lambda css: StyleSheet("", css),
                lambda css: StyleSheet(css, grammar="simplecss"),
                lambda css: simplecss.inline("<p>", css),
            ):
                with self.assertRaisesRegex(ValueError, "name of a"):
                    call(name)
        for name in ("page.html", "a/b.HTM", "mail.xhtml", "drawing.svg", "feed.xml"):
            for call in (
                simplecss.inline,
                Tree.from_html,
                Tree.from_xml,
            ):
                with self.assertRaisesRegex(ValueError, "name of a"):
                    call(name)

    def test_texts_are_no_names(self) -> None:
        for text in ("a{b:url(x.css)}", "/**/\na.css", "@import 'a.css'", "a{} b.css", ""):
            StyleSheet(text)
        for text in ("<p>a.html", "see\npage.html", "page.html or other", "", "b.css"):
            Tree.from_html(text)
            self.assertEqual(simplecss.inline(text), text)
        # What a page has is a text, whatever it looks like.
        page = Tree.from_html("<style>style.css</style>")
        self.assertEqual(StyleSheet.of_page(page).rules, ())
        self.assertIn("style.css", simplecss.inline("<style>style.css</style><p>"))

    def test_a_limit_is_tested_when_the_sheet_is_made(self) -> None:
        plain, nested = "a,b,c{a:b;c:d}" * 2000, "a,b,c{a:b;&:hover,d,e,f{c:d}}" * 2000
        for css in (plain, nested):
            for grammar in ("modern", "simplecss"):
                with self.assertRaises(simplecss.LimitError):
                    StyleSheet(css, limit=10, grammar=grammar)
            with self.assertRaises(simplecss.LimitError):
                StyleSheet.of_page(Tree.from_html(f"<style>{css}</style>"), limit=10)
            StyleSheet(css, limit=None)
        for css in ("a{b:c}", "a{b{c:d}}"):
            with self.assertRaises(simplecss.LimitError):
                StyleSheet(css, limit=0)
            StyleSheet(css, limit=1)
        self.assertEqual(len(StyleSheet("a,b{c:d}", limit=2).rules), 2)
        with self.assertRaises(simplecss.LimitError):
            StyleSheet("a,b{c:d}", limit=1)

    def test_types_of_all_parameters_are_known(self) -> None:
        seen = 0
        for name in simplecss.__all__:
            found = getattr(simplecss, name)
            members = [
                each
                for key, each in (vars(found).items() if inspect.isclass(found) else ())
                if not key.startswith("_") or key == "__init__"
            ]
            for each in (found, *members):
                function = getattr(each, "__func__", getattr(each, "fget", each))
                if inspect.isfunction(function) or inspect.isclass(function):
                    typing.get_type_hints(function)
                    seen += 1
        self.assertGreater(seen, 50)
        self.assertIn(StyleSheet, typing.get_args(typing.get_type_hints(simplecss.inline)["css"]))

    def test_a_wrong_device_is_a_value_error(self) -> None:
        tree = Tree.from_html("<p>")
        for sheet in (StyleSheet("p{a:b}"), StyleSheet("@media print{p{a:b}}"), StyleSheet()):
            for call in (sheet.match, sheet.styles, lambda *a, **b: sheet.style(*a, "a", **b)):
                for media in ("tv", "", simplecss.Device(type="tv"), simplecss.Device(width=-1)):
                    with self.assertRaisesRegex(ValueError, "of a device is"):
                        call(tree, media=media)
                with self.assertRaises(TypeError):
                    call(tree, media=5)
        with self.assertRaisesRegex(ValueError, "of a device is"):
            StyleSheet("p{a:b}", grammar="simplecss").match(tree, media="tv")

    def test_wrong_types_are_type_errors(self) -> None:
        tree = Tree.from_html("<p>")
        for call in (
            lambda: Selector("p").matches(5),
            lambda: Selector("p").matches(tree),
            lambda: Tree([Item("a", {"b": 5})]),
            lambda: Tree([Item("a", {5: "b"})]),
            lambda: StyleSheet("a{}", limit=1.5),
            lambda: StyleSheet("a{}", answer_limit="5"),
            lambda: simplecss.inline("<p>", limit=1.5),
            lambda: simplecss.inline("<p>", base_url=5),
            lambda: simplecss.inline("<p>", report=()),
            lambda: simplecss.Inliner("", base_url=b"x"),
            lambda: simplecss.Inliner("").inline("<p>", report="x"),
            lambda: simplecss.inline(5),
            lambda: Tree.from_html(5),
            lambda: Tree.from_html("<p>", encoding="utf-8"),
        ):
            with self.assertRaises(TypeError):
                call()

    def test_the_old_name_of_has_valid_references_warns(self) -> None:
        self.assertTrue(simplecss.has_valid_references("garbage !!"))
        self.assertFalse(simplecss.has_valid_references("var(a)"))
        with warnings.catch_warnings(record=True) as found:
            warnings.simplefilter("always")
            self.assertFalse(simplecss.is_valid_value("var(a)"))
        self.assertEqual([each.category for each in found], [DeprecationWarning])
        self.assertIn("has_valid_references", str(found[0].message))
        self.assertEqual(found[0].filename, __file__)
        self.assertNotIn("is_valid_value", simplecss.__all__)


if __name__ == "__main__":
    unittest.main()
