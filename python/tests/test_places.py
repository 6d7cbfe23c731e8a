"""Places of rules, declarations and at-rules in sheets."""

import pickle
import unittest

import simplecss

TEXT = "/* é */\n.a, b { top: 0; left : 1px !important }\n@font-face { src: url(f) }\n@media all { c { d: e } }"


def at(text: str, place: simplecss.Place) -> str:
    """What is at a place."""
    return text[place.start : place.end]


class Places(unittest.TestCase):
    def test_rules(self) -> None:
        sheet = simplecss.StyleSheet("x{}", TEXT)
        found = {rule.selector: rule.place for rule in sheet.rules if rule.place}
        self.assertEqual({name: place[:4] for name, place in found.items()}["b"], (1, None, 2, 5))
        self.assertEqual(at(TEXT, found["b"]), "b { top: 0; left : 1px !important }")
        self.assertEqual(at(TEXT, found["c"]), "c { d: e }")
        font = sheet.at_rules[0].place
        assert font is not None
        self.assertEqual((font.row, at(TEXT, font)), (3, "@font-face { src: url(f) }"))

    def test_declarations(self) -> None:
        rule = next(each for each in simplecss.StyleSheet(TEXT).rules if each.selector == ".a")
        texts = [at(TEXT, each.place) for each in rule.declarations if each.place]
        self.assertEqual(texts, ["top: 0", "left : 1px !important"])

    def test_nested(self) -> None:
        text = "a { b: c; &:hover { d: e } @media all { f: g } ::x { h: i } }"
        sheet = simplecss.StyleSheet(text)
        found = [at(text, each.place) for each in sheet.rules if each.place]
        self.assertEqual(sorted(found), sorted([text, "&:hover { d: e }", "@media all { f: g }"]))

    def test_no_part_of_a_rule(self) -> None:
        """A rule with a place is one without, and a changed one has none."""
        one, other = (
            simplecss.StyleSheet("a{b:c}").rules[0],
            simplecss.StyleSheet("\na{b:c}").rules[0],
        )
        self.assertEqual((one, hash(one)), (other, hash(other)))
        self.assertNotEqual(one.place, other.place)
        self.assertIsNone(one._replace(selector="d").place)
        self.assertEqual(pickle.loads(pickle.dumps(other)).place, other.place)


if __name__ == "__main__":
    unittest.main()
