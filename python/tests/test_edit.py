"""Edits of sheets by places."""

import unittest

import simplecss


class Edits(unittest.TestCase):
    def test_lists(self) -> None:
        """Selectors that go take their commas with them, and the last one its rule."""
        for text, gone, due in (
            ("a , b/**/, c{d:e}", "a", "b/**/, c{d:e}"),
            ("a , b/**/, c{d:e}", "b", "a , c{d:e}"),
            ("a , b/**/, c{d:e}", "bc", "a{d:e}"),
            ("a{b:c}\n d{e:f}\n", "a", " d{e:f}\n"),
            ("x{y:z} a,b{b:c} d{e:f}", "ab", "x{y:z} d{e:f}"),
        ):
            edit = simplecss.Edit(text)
            edit.selectors(lambda each, gone=gone: None if each in gone else each)  # type: ignore[misc]
            self.assertEqual(edit.text, due)

    def test_overlaps(self) -> None:
        """What is in a part that goes, goes; two parts that cut one another are refused."""
        edit = simplecss.Edit("a{b:c;d:e}")
        rule = edit.sheet.rules[0]
        edit.declarations(lambda each: each._replace(value="f")).remove(rule).insert(
            "g{}", after=rule
        )
        self.assertEqual(edit.text, "\ng{}")
        edit = simplecss.Edit("a{b:c;d:e}")
        rule = edit.sheet.rules[0]
        edit.replace(rule.declarations[0], "x:y").replace(rule.declarations[0], "z:y")
        self.assertEqual(edit.text, "a{z:y;d:e}")

    def test_places_of_others(self) -> None:
        with self.assertRaises(ValueError):
            simplecss.Edit("a{b:c}").remove(simplecss.Declaration("b", "c", False))

    def test_flat(self) -> None:
        """Edits before it are made first, and those after it are of the new text."""
        edit = simplecss.Edit("a{ b:c; &.d{e:f} }").selectors(lambda each: f"{each}x")
        edit.flatten().selectors(lambda each: f".y {each}")
        self.assertEqual(edit.text, ".y ax { b:c }\n.y ax.d { e:f }")

    def test_bundles(self) -> None:
        files = {"b.css": "@import 'c.css' print;p{background:url(i.png)}", "c.css": "q{r:s}"}
        text = "@import url(sub/b.css) layer(x);\na{b:c}"

        def load(url: str) -> "str | None":
            return files.get(url.rpartition("/")[2])

        due = "@layer x {\n@media print {\nq{r:s}\n}p{background:url(sub/i.png)}\n}\na{b:c}"
        self.assertEqual(simplecss.bundle(text, at="/x/a.css", load=load), due)
        for wrong in (
            "@import 'sub/b.css';@import 'none.css';",
            "@import 'sub/b.css';@namespace 'x';",
        ):
            with self.assertRaises(ValueError):
                simplecss.bundle(wrong, at="/x/a.css", load=load)
        self.assertEqual(simplecss.bundle("@import '//x/y.css';a{}"), "@import '//x/y.css';a{}")


if __name__ == "__main__":
    unittest.main()
