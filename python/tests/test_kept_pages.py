"""Tests of the pages of trees that the library keeps: `python3 -m unittest discover python/tests`."""

import copy
import gc
import os
import pickle
import random
import sys
import threading
import unittest
import unittest.mock

sys.path.insert(0, os.path.join(os.path.dirname(__file__), "..", "src"))

import simplecss  # noqa: E402
from simplecss import _library as library  # noqa: E402
from simplecss._elements import Question  # noqa: E402
from simplecss._tree import elements_of  # noqa: E402

CARD = "<div class=card><div><a href=x>one</a></div><p>two</div>"


class Calls:
    """The calls of the library within a `with`: of each its name and its arguments."""

    def __enter__(self):
        plain, self.made = library._function, []

        def function(name):
            def call(*words):
                self.made.append((name, words))
                return plain(name)(*words)

            return call

        self.patch = unittest.mock.patch.object(library, "_function", function)
        self.patch.start()
        return self

    def __exit__(self, *_):
        self.patch.stop()

    def count(self, name):
        return sum(each == f"simplecss_{name}" for each, _ in self.made)

    def asked(self):
        """How many elements were asked about, by which ranges."""
        parts = [words[4:6] for name, words in self.made if name == "simplecss_page_select"]
        return sum(end - start for start, end in parts), len(parts)


def cards(count):
    return simplecss.Tree.from_html("<!DOCTYPE html>" + count * CARD)


class Parts(unittest.TestCase):
    def test_a_question_asks_its_part(self):
        tree = cards(200)
        all_cards = tree.select(".card")
        for call, most in (
            (lambda card: card.select(":scope > div > a"), 3),
            (lambda card: card.closest(":scope, .zzz"), 1),
            (lambda card: card.matches(":scope:not(.zzz)"), 1),
            (lambda card: list(card.iselect(":scope a, :scope > p")), 3),
        ):
            with Calls() as calls:
                found = [call(card) for card in all_cards]
            self.assertTrue(all(found))
            self.assertEqual(calls.asked(), (most * len(all_cards), len(all_cards)))

    def test_many_questions_are_one(self):
        """As soon as as many elements were asked as there are, all are: the others only look."""
        tree = cards(200)
        for selectors in ("a", ":has(> a)", "p:nth-child(2 of p, div)", ".zzz", "div > :not(a)"):
            with self.subTest(selectors=selectors):
                due = {each.index for each in tree.select(selectors)}
                again = cards(200)
                with Calls() as calls:
                    found = {each.index for each in again if each.matches(selectors)}
                self.assertEqual(found, due)
                self.assertLessEqual(calls.asked()[0], 2 * len(tree))
                self.assertLessEqual(calls.asked()[1], len(tree) // 32)

    def test_deep_trees(self):
        """The ancestors of an element are asked one by one, or all elements at once."""
        tree = simplecss.Tree(
            [simplecss.Item("p", {}, at - 1 if at else None) for at in range(5_000)]
        )
        with Calls() as calls:
            self.assertIsNone(tree[-1].closest(":scope > p"))
            self.assertEqual(tree[-1].closest("p:not(:scope)"), tree[-2])
            self.assertIsNone(tree[-1].closest(":has(> .a)"))
        self.assertLessEqual(calls.asked()[0], 4 * len(tree))
        self.assertLessEqual(calls.asked()[1], 200)

    def test_the_first_match_alone(self):
        tree = cards(2_000)
        with Calls() as calls:
            self.assertEqual(tree.select_one("a"), next(tree.iselect("a")))
            self.assertEqual(next(tree.select_one("body").iselect("div a")).name, "a")
        self.assertLess(calls.asked()[0], 500)
        self.assertEqual(list(tree.iselect(".card, p")), tree.select(".card, p"))
        self.assertEqual(len(list(cards(2_000).iselect(".card"))), 2_000)
        self.assertEqual(len(list(cards(2_000)[0].iselect("p:not(.zzz)"))), 2_000)

    def test_parts_are_as_the_whole(self):
        tree, chosen = cards(60), random.Random(1)
        elements = elements_of(tree)
        for selectors in ("*", "a", "body > div", "div + div", ":last-child", "p ~ a", ":not(p)"):
            due = [each.index for each in tree.select(selectors)]
            for _ in range(50):
                start, end = sorted(chosen.choices(range(len(tree) + 1), k=2))
                found = elements.found(Question(selectors, "modern", ()), start, end)
                self.assertEqual(found, [each for each in due if start <= each < end])

    def test_refusals(self):
        leaf = cards(100).select_one("a")
        for tree in (simplecss.Tree(), leaf):
            for call in (tree.select, tree.iselect, tree.select_one):
                with self.assertRaises(simplecss.SelectorError) as found:
                    call("a, b >> c")
                self.assertEqual(found.exception.message, "1:7: `>` begins no selector")
        for call in (leaf.matches, leaf.closest):
            for selectors in ("a >> b", "svg|a"):
                with self.assertRaises(simplecss.SelectorError):
                    call(selectors)
            with self.assertRaises(simplecss.SelectorError):
                call("svg|a", namespaces={"x": "urn:x"})
            self.assertFalse(call("svg|a", namespaces={"svg": "http://www.w3.org/2000/svg"}))

    def test_selectors_that_are_read(self):
        tree = cards(2)
        link = tree.select_one(simplecss.Selector("div > a"))
        self.assertEqual(link.name, "a")
        self.assertEqual(tree.select(simplecss.Selector("A")), tree.select("a"))
        self.assertEqual(list(tree.iselect(simplecss.Selector("p"))), tree.select("p"))
        self.assertEqual(link.closest(simplecss.Selector(".card")), link.parent.parent)
        self.assertTrue(link.matches(simplecss.Selector(":scope")))
        self.assertFalse(link.matches(simplecss.Selector("A", grammar="simplecss")))
        self.assertTrue(link.matches(simplecss.Selector("a", grammar="simplecss")))
        selector = simplecss.Selector("a", grammar="simplecss")
        with self.assertRaises(ValueError):
            tree.select(selector, namespaces={})
        tree = simplecss.Tree.from_html(CARD, {simplecss.Selector("a"): "visited"})
        self.assertEqual(tree.select_one(":visited").name, "a")
        css = "p { color: red }"
        page = simplecss.inline("<p>", css, is_part=True, ignore=simplecss.Selector("p"))
        self.assertNotIn("style=", page)


class Lasting(unittest.TestCase):
    def test_pages_are_freed(self):
        # Those of other tests are no part of this.
        gc.collect()
        with Calls() as calls:
            for _ in range(20):
                tree = cards(3)
                tree.select("a")
                tree.select("svg|a", namespaces={"svg": "http://www.w3.org/2000/svg"})
            del tree
            gc.collect()
        self.assertEqual((calls.count("page_new"), calls.count("page_free")), (40, 40))

    def test_few_are_kept(self):
        """Those of more prefixes than usual are made again."""
        tree = cards(3)
        with Calls() as calls:
            for number in range(20):
                tree.select("x|a", namespaces={"x": f"urn:{number}"})
            self.assertLess(calls.count("page_new") - calls.count("page_free"), 5)

    def test_states_are_another_page(self):
        tree = simplecss.Tree.from_html(CARD, {"a": "hover", ":hover": "focus"})
        self.assertEqual(tree.select(":hover"), tree.select("a"))
        self.assertEqual(tree.select(":focus"), [])

    def test_copies(self):
        tree = cards(3)
        due = [each.index for each in tree.select("a")]
        for other in (pickle.loads(pickle.dumps(tree)), copy.deepcopy(tree), copy.copy(tree)):
            self.assertEqual([each.index for each in other.select("a")], due)

    def test_threads(self):
        tree = cards(200)
        due = [each.index for each in tree.select("a")]
        found = []

        def ask(number):
            for at in range(50):
                found.append([each.index for each in tree.select(f"a:not(.x{number}-{at})")])

        threads = [threading.Thread(target=ask, args=(number,)) for number in range(8)]
        for each in threads:
            each.start()
        for each in threads:
            each.join()
        self.assertEqual(found, 400 * [due])

    def test_within_a_question(self):
        """What runs while a thread asks, such as a signal's function, may ask."""
        tree = cards(3)
        tree.select("a")
        (page,) = elements_of(tree)._computed.pages.values()
        with page._lock:
            self.assertEqual(len(tree.select("p")), 3)

    @unittest.skipUnless(hasattr(os, "fork"), "there is no fork")
    def test_forks(self):
        """A process that begins while a thread asks is not kept waiting for it."""
        tree = cards(3)
        tree.select("a")
        (page,) = elements_of(tree)._computed.pages.values()
        is_held, is_done = threading.Event(), threading.Event()

        def hold():
            with page._lock:
                is_held.set()
                is_done.wait()

        thread = threading.Thread(target=hold)
        thread.start()
        is_held.wait()
        child = os.fork()
        if not child:
            os._exit(len(tree.select("p")) if len(tree.select("a")) == 3 else 1)
        _, status = os.waitpid(child, 0)
        is_done.set()
        thread.join()
        self.assertEqual(os.WEXITSTATUS(status), 3)
        self.assertEqual(len(tree.select("p")), 3)


if __name__ == "__main__":
    unittest.main()
