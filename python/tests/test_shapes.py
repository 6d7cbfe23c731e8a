"""Shapes that people know from other packages: attributes of elements as in lxml and BeautifulSoup, results
that are mappings, errors that show where they are, and public names of classes."""

import os
import pickle
import sys
import unittest
import xml.etree.ElementTree

sys.path.insert(0, os.path.join(os.path.dirname(__file__), "..", "src"))

import simplecss  # noqa: E402

PAGE = '<ul><li class="a b" title="">one</li><li id="x">two</li></ul>'
SHEET = "li { COLOR: red; margin: 0; --X: 1; --x: 2 } .a { color: blue !important; color: green }"


class Attributes(unittest.TestCase):
    def setUp(self):
        self.tree = simplecss.Tree.from_xml(PAGE)
        self.judge = list(xml.etree.ElementTree.fromstring(PAGE).iter())

    def test_as_in_etree(self):
        for element, judge in zip(self.tree, self.judge):
            for name in ("class", "title", "id", "CLASS", ""):
                with self.subTest(element=element, name=name):
                    self.assertEqual(element.get(name), judge.get(name))
                    self.assertEqual(element.get(name, "z"), judge.get(name, "z"))
                    self.assertEqual(name in element, name in judge.attrib)
                    if name in judge.attrib:
                        self.assertEqual(element[name], judge.attrib[name])
                    else:
                        self.assertRaises(KeyError, element.__getitem__, name)

    def test_no_sequence(self):
        """An element is neither a list of its children nor of its attributes."""
        element = self.tree[1]
        self.assertRaises(TypeError, iter, element)
        self.assertRaises(TypeError, element.__getitem__, 0)
        self.assertTrue(element and self.tree[0])

    def test_select_one(self):
        for element in self.tree:
            for selectors in ("li", ":scope > #x", "ul", "*"):
                with self.subTest(element=element, selectors=selectors):
                    found = element.select(selectors)
                    self.assertEqual(element.select_one(selectors), (found or [None])[0])
                    self.assertEqual(list(element.iselect(selectors)), found)


class Mappings(unittest.TestCase):
    def setUp(self):
        self.tree, self.sheet = simplecss.Tree.from_xml(PAGE), simplecss.StyleSheet(SHEET)
        self.first, self.second = self.tree.select("li")

    def test_of_elements(self):
        style = self.sheet.style(self.tree, "color")
        found = dict(style)
        self.assertEqual(list(found), list(self.tree))
        self.assertEqual(
            [None if each is None else each.value for each in found.values()],
            [None, "blue", "red"],
        )
        self.assertEqual(list(style.items()), list(zip(self.tree, style)))
        self.assertEqual((style.values(), list(style.keys())), (list(style), list(self.tree)))
        self.assertIn(self.first, style)
        self.assertIn(None, style)
        other = simplecss.Tree.from_xml(PAGE)[0]
        self.assertNotIn(other, style)
        self.assertEqual((style.get(other, 3), style.get(self.second).value), (3, "red"))

    def test_of_names(self):
        winners = self.sheet.styles(self.tree)[self.first]
        self.assertEqual(
            {name: each.value for name, each in dict(winners).items()},
            {"margin": "0", "--X": "1", "--x": "2", "color": "blue"},
        )
        self.assertEqual((winners["Color"].value, winners["--x"].value), ("blue", "2"))
        self.assertEqual(winners.keys(), [each.name for each in winners])
        self.assertEqual(winners.items(), list(zip(winners.keys(), winners.values())))
        self.assertTrue("COLOR" in winners and "top" not in winners and winners[0] in winners)
        self.assertRaises(KeyError, winners.__getitem__, "top")
        self.assertEqual((winners.get("top"), winners.get("top", 1)), (None, 1))
        self.assertEqual(winners[1:], list(winners)[1:])
        self.assertEqual(pickle.loads(pickle.dumps(winners)), winners)


class Places(unittest.TestCase):
    def shown(self, text):
        """What is shown of a list of selectors that is refused, and the character above the caret."""
        with self.assertRaises(simplecss.SelectorError) as raised:
            simplecss.Tree().select(text)
        error = raised.exception
        first, line, caret = str(error).split("\n")
        self.assertEqual(first, f"{error.row}:{error.column}: {error.reason}")
        self.assertEqual(caret.strip(), "^")
        return line, line[len(caret) - 1 : len(caret)]

    def test_caret(self):
        rows = [
            ("a > > b", "  a > > b", ">"),
            ("a,\n  b%", "    b%", "%"),
            ("é\U0001f600 , 1", "  é\U0001f600 , 1", "1"),
            ("a\r\n, b\f, )", "  , b\ufffd, )", ")"),
            ("a >", "  a >", ""),
        ]
        for text, line, marked in rows:
            with self.subTest(text=text):
                self.assertEqual(self.shown(text), (line, marked))

    def test_long(self):
        line, marked = self.shown("a, " * 100_000 + "%" + " b" * 1000)
        self.assertLess(len(line), 80)
        self.assertEqual(marked, "%")

    def test_hostile(self):
        """No character of a selector is a command to a terminal."""
        line, _ = self.shown("\x1b[31m\u202e, a")
        self.assertTrue(line.isprintable())

    def test_pickled(self):
        with self.assertRaises(simplecss.SelectorError) as raised:
            simplecss.Selector("a, b")
        error = pickle.loads(pickle.dumps(raised.exception))
        self.assertEqual((str(error), error.text), (str(raised.exception), "a, b"))


class Names(unittest.TestCase):
    def test_public(self):
        """The name of each class is the one by which it is imported."""
        classes = [getattr(simplecss, each) for each in simplecss.__all__]
        classes = [each for each in classes if isinstance(each, type)]
        self.assertGreater(len(classes), 20)
        for each in classes:
            with self.subTest(name=each.__name__):
                self.assertEqual(each.__module__, "simplecss")
                self.assertIs(pickle.loads(pickle.dumps(each)), each)

    def test_raised(self):
        """Also that of an error that nobody has imported."""
        with self.assertRaises(ValueError) as raised:
            simplecss.Tree().select("a,")
        self.assertEqual(type(raised.exception).__module__, "simplecss")


if __name__ == "__main__":
    unittest.main()
