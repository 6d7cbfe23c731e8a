"""Tests of `simplecss.sieve`: `python3 -m unittest discover python/tests`. It needs BeautifulSoup."""

import gc
import os
import pickle
import sys
import unittest
import weakref

sys.path.insert(0, os.path.join(os.path.dirname(__file__), "..", "src"))

import simplecss  # noqa: E402
from simplecss import sieve  # noqa: E402

try:
    import bs4
except ImportError:
    raise unittest.SkipTest("there is no BeautifulSoup")

PAGE = "<div id=a class='x y'><p class=x>one</p><p>two<a href=q>t</a></p></div><p>three</p>"


def soup_of(text=PAGE):
    return bs4.BeautifulSoup(text, "html.parser")


class Sieve(unittest.TestCase):
    def setUp(self):
        self.soup = soup_of()
        self.first, self.second, self.third = self.soup.find_all("p")

    def test_calls(self):
        soup, div, link = self.soup, self.soup.div, self.soup.a
        self.assertEqual(sieve.select("p", soup), [self.first, self.second, self.third])
        self.assertEqual(sieve.select("p", soup, limit=2), [self.first, self.second])
        self.assertEqual(list(sieve.iselect("p", soup, None, 1)), [self.first])
        self.assertIs(sieve.select_one("p:not(.x)", soup), self.second)
        self.assertIsNone(sieve.select_one("p", link))
        self.assertEqual(sieve.select(":scope > p", div), [self.first, self.second])
        self.assertTrue(sieve.match(".x.y", div))
        self.assertFalse(sieve.match("*", soup))
        self.assertIs(sieve.closest("div, a p", link), div)
        self.assertIsNone(sieve.closest("p", soup))
        self.assertEqual(sieve.filter(".x", soup.find_all("p")), [self.first])
        self.assertEqual(sieve.filter("p", [self.first, self.first.string, link]), [self.first])
        self.assertEqual(sieve.filter(":scope > .x, a", div), [self.first])
        self.assertEqual(sieve.escape("1a"), "\\31 a")
        self.assertIsNone(sieve.purge())

    def test_compiled(self):
        found = sieve.compile("x|p, a", {"x": "http://www.w3.org/1999/xhtml"})
        self.assertEqual(found.select(self.soup.div), [self.first, self.second, self.soup.a])
        self.assertIs(sieve.compile(found), found)
        self.assertEqual(sieve.select(found, self.soup.div, limit=1), [self.first])
        self.assertEqual((found.pattern, found.flags, found.custom), ("x|p, a", 0, None))
        for more in ({"flags": sieve.DEBUG}, {"namespaces": {"a": "b"}}, {"custom": {":--a": "b"}}):
            with self.assertRaises(ValueError):
                sieve.compile(found, **more)
        self.assertIs(sieve.select_one(simplecss.Selector("p"), self.soup), self.first)
        self.assertEqual(pickle.loads(pickle.dumps(found)), found)

    def test_refusals(self):
        for text, reason in (
            ("a >> b", "`>` begins no selector"),
            (":host", "`:host` is unsupported"),
            ("x|a", "`x` is no declared prefix"),
            (":--a", "`:--a` is unknown"),
        ):
            with self.assertRaises(sieve.SelectorSyntaxError) as found:
                sieve.compile(text)
            self.assertEqual(found.exception.reason, reason)
        for call in (sieve.select, sieve.match, sieve.closest):
            for value in (None, "p", 7):
                with self.assertRaises(TypeError):
                    call("p", value)

    def test_custom(self):
        custom = {":--head": "div:has(> :--FIRST)", ":--first": "p:first-child"}
        self.assertEqual(sieve.select(":--first", self.soup, custom=custom), [self.first])
        self.assertEqual(sieve.select(":--head", self.soup, custom=custom), [self.soup.div])
        self.assertEqual(
            sieve.select(":not(:--first) > a", self.soup, custom=custom), [self.soup.a]
        )
        with self.assertRaises(ValueError):
            sieve.compile("a", custom={":--a": ":--b", ":--b": ":--a"})

    def test_changes(self):
        """What was changed since is read again, also where the selectors ask of a part alone."""
        soup, div = self.soup, self.soup.div
        for selectors in (".x", ".x:not(:has(a))"):
            self.assertEqual(sieve.select(selectors, div), [self.first])
            self.first["class"] = ["z"]
            self.assertEqual(sieve.select(selectors, div), [])
            self.first["class"].append("x")
            self.assertEqual(sieve.select(selectors, div), [self.first])
        self.assertEqual(sieve.select("div > .x", div), [self.first])
        div.name = "section"
        self.assertEqual(sieve.select("div > .x", div), [])
        self.assertTrue(sieve.match("section a", soup.a))
        self.assertFalse(sieve.match(":empty", self.first))
        self.first.clear()
        self.assertTrue(sieve.match(":empty", self.first))
        self.third.append(self.second)
        self.assertIs(sieve.closest("body > p, p", soup.a), self.second)
        self.assertTrue(sieve.match("p > p > a", soup.a))
        soup.a.decompose()
        self.assertEqual(sieve.select("a", soup), [])
        new = soup.new_tag("a")
        self.assertTrue(sieve.match(":root", new))
        self.first.insert(0, new)
        self.assertEqual(sieve.select("p > a", soup), [new])
        self.first.extract()
        self.assertEqual(sieve.select("a", soup), [])
        self.assertEqual(sieve.select("a", self.first), [new])
        del div["id"]
        self.assertFalse(sieve.match("[id]", div))

    def test_promises(self):
        """Within `unchanged` nothing is looked at, but for a tag that is new."""
        self.first["class"] = "y"
        with sieve.unchanged(self.soup.div):
            self.assertEqual(sieve.select("p.y:not(p p)", self.soup), [self.first])
            self.first["class"] = "z"
            self.assertEqual(sieve.select(".y:first-child", self.soup.div), [self.first])
            with sieve.unchanged(self.soup):
                self.assertTrue(sieve.match(".y", self.first))
            self.assertTrue(sieve.match(".y", self.first))
        self.assertFalse(sieve.match(".y", self.first))
        with sieve.unchanged(self.soup):
            new = self.soup.new_tag("b")
            self.soup.div.append(new)
            self.assertTrue(sieve.match("div > p + b", new))
        new.extract()
        self.assertFalse(sieve.match("div > b", new))

    def test_parts(self):
        """Selectors that ask of a part alone are answered where the rest has changed, and others are, too."""
        for number, selectors in enumerate(
            ("p", ":scope > p", "p:nth-child(1)", "p:last-of-type, p")
        ):
            self.third["class"] = str(number)
            page = vars(self.soup).get(sieve._PLACE)
            self.assertIn(self.first, sieve.select(selectors, self.soup.div))
            self.assertIs(vars(self.soup)[sieve._PLACE], page or vars(self.soup)[sieve._PLACE])
        for selectors in ("p:not(:has(+ .z))", "div:first-child > p", "p ~ p, .x", ":root p"):
            self.third["class"] = selectors
            page = vars(self.soup)[sieve._PLACE]
            sieve.select(selectors, self.soup.div)
            self.assertIsNot(vars(self.soup)[sieve._PLACE], page)

    def test_as_they_are_written(self):
        """Without a doctype names of classes and ids compare as with one."""
        self.assertEqual(sieve.select(".X, #A", self.soup), [])
        self.assertEqual(sieve.select("DIV", self.soup), [self.soup.div])
        self.first["title"] = None
        self.assertTrue(sieve.match("[title='']", self.first))

    def test_pages_end_with_their_soups(self):
        sieve.select("p", self.soup)
        page = weakref.ref(vars(self.soup)[sieve._PLACE])
        again = pickle.loads(pickle.dumps(self.soup))
        self.assertEqual(len(sieve.select("p", again)), 3)
        del self.soup, self.first, self.second, self.third
        gc.collect()
        self.assertIsNone(page())

    def test_without_lines(self):
        """A reader that knows no lines leaves out what says them, and a tag looks for names in itself."""
        soup = soup_of("<p><sourceline>one</sourceline><sourcepos>two</sourcepos></p>")
        for tag in soup.find_all(True):
            del tag.sourceline, tag.sourcepos
        tree = simplecss.Tree.from_soup(soup)
        self.assertEqual([(each.row, each.column) for each in tree], 3 * [(None, None)])

    def test_deep_soups(self):
        top = tag = bs4.Tag(name="p")
        for _ in range(400):
            tag.append(bs4.Tag(name="p"))
            tag = tag.contents[0]
        self.assertEqual(len(sieve.select("p p", top)), 400)
        self.assertIs(sieve.closest("p:not(p p)", tag), top)


if __name__ == "__main__":
    unittest.main()
