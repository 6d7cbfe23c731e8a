"""The table of the values that properties take beside a browser: random values of random
properties, of which `CSS.supports` says whether it takes them, and sheets of pages in quirks mode
and of others which it keeps.

The browser is Debian's `chromium`; the library is that of the Python package. What the table does
not know is not compared, but there has to be an answer for many values. What is valid or invalid is
so by the standards too, of which the table was made; a browser of another version may take more.
"""

from __future__ import annotations

import random
import re
from typing import Any, List, Optional, Tuple

from tests.common import TOP, Case, browser_answers, count, package, read

package()
import simplecss  # noqa: E402
from simplecss import _taken  # noqa: E402

PAGE = """
<meta charset=utf-8><body><style id=made></style><p id=styled><script id=input type="application/json">%s</script>
<script>
const input = JSON.parse(document.getElementById("input").textContent);
const { sheet } = document.getElementById("made"), element = document.getElementById("styled");
const answers = input.map(([name, value]) => {
    sheet.insertRule(`a { ${name}: ${value} }`);
    const [rule] = sheet.cssRules, isKept = rule.style.length > 0;
    sheet.deleteRule(0);
    element.setAttribute("style", `${name}: ${value}`);
    return [CSS.supports(name, value), isKept, element.style.length > 0].map(Number);
});
document.body.textContent = "ANSWER" + JSON.stringify(answers) + "END";
</script>
"""
# fmt: off
OTHERS = (
    "0", "1", "2", "+3", "-1", "400", "1.5", ".5", "-.5", "0.0", "1e3", "-0", "0px", "1px", "-2px",
    "1.5em", "3REM", "10vw", "5%", "-5%", "0%", "150%", "90deg", "-1turn", "2rad", "1s", "100ms",
    "-1S", "1fr", "2dppx", "96dpi", "1hz", "3foo", "#fff", "#ABCD", "#12345", "#a1b2c3", "red",
    "CurrentColor", "transparent", "canvas", "'a'", '"b c"', "url(x)", "foo", "inherit", "INITIAL",
    "unset", "revert", "revert-layer", "-webkit-auto", "x\\\\9", "calc(1px + 2%)", "var(--a)",
    "/**/auto/**/", "-moz-box", "-webkit-sticky", "-webkit-box", "-ms-grid", "\\\\9", "a\\\\75to", "--x",
    "-moz-calc(1px)", "-webkit-calc(1px)", "-o-x(var(--a))", "if(else: 1)", "attr(x)", "url( y )",
)
# fmt: on
# Numbers and colours without a number sign, and the one of them of which the table always says whether it is taken.
NUMBERS = ("34", "-34", "1.5", "0", "-0.0", "0e3", "fff", "123456", "abc123", "1 2", "34 red")
EXACT = ("34",)
SEPARATORS = (" ", " ", " ", "  ", ",", " / ", "/**/ ")
GAPS = re.compile(rb"/\*.*?\*/|\s")
# At least this share of the answers is known, and of those of the browser that refuse a value this one.
KNOWN, REFUSED = 0.4, 0.7


def rows() -> List[List[str]]:
    """The fields of the rows of the table."""
    text = read(f"{TOP}/crates/css_values/src/value_data.rt")
    table = text[text.index("pub const VALUES") :].split('"')[1]
    plain = re.sub(r"\\\n\s*", "", table)
    return [line.split("|") for line in plain.split("\\n")[:-1]]


class Source:
    """Makes properties with values: words of the property or of another one, numbers and others."""

    def __init__(self) -> None:
        self.random = random.Random(91)
        self.rows = rows()

    def _word(self, row: List[str]) -> str:
        words = (row[3] + " " + row[5]).replace("?", "").split()
        return self.random.choice(words) if words else "auto"

    def _component(self, row: List[str]) -> str:
        choice = self.random.random()
        if choice < 0.5:
            return self._word(row)
        if choice < 0.7:
            return self._word(self.random.choice(self.rows))
        return self.random.choice(OTHERS)

    def pair(self) -> Tuple[str, str]:
        row = self.random.choice(self.rows)
        parts = [self._component(row)]
        while self.random.random() < 0.3:
            parts += self.random.choice(SEPARATORS), self._component(row)
        return self.random.choice(row[0].split()), "".join(parts)


def is_refused(name: str, value: str, values: _taken.Values) -> bool:
    """Whether a declaration is left out of what wins, in a sheet and in a style attribute."""
    text = f"{name}: {value}".encode()
    sheet, style = values.in_sheet(b"a { " + text + b" }"), values.in_style(text)
    is_kept = style == text
    assert is_kept or not style.strip(), (name, value)
    # In a block, comments after a declaration are none of it.
    assert (sheet[4:-2] == text) if is_kept else not GAPS.sub(b"", sheet[4:-2]), (name, value)
    return not is_kept


class KnownValues(Case):
    pairs: List[Tuple[str, str]] = []
    # What the browser says of each: whether it takes the value, and whether a sheet and a style attribute keep it in
    # quirks mode, and in another.
    quirky: Optional[List[Any]] = None
    standard: Optional[List[Any]] = None

    @classmethod
    def setUpClass(cls) -> None:
        source = Source()
        cls.pairs = [source.pair() for _ in range(count(20_000))]
        cls.quirky = browser_answers(PAGE, cls.pairs)
        cls.standard = browser_answers("<!DOCTYPE html>" + PAGE, cls.pairs)

    def setUp(self) -> None:
        if self.standard is None or self.quirky is None:
            self.skipTest("values: chromium is missing")

    def test_random_values(self) -> None:
        found = [simplecss.takes_value(*pair) for pair in self.pairs]
        known = [
            (pair, ours, bool(theirs[0]))
            for pair, ours, theirs in zip(self.pairs, found, self.standard or ())
            if ours is not None
        ]
        self.assertGreater(len(known), KNOWN * len(self.pairs))
        failures = [
            f"{': '.join(pair)}: {ours}, in the browser {theirs}"
            for pair, ours, theirs in known
            if ours != theirs
        ]
        self.sweep(len(known), failures)

    def refused(self, values: _taken.Values, answers: List[Any]) -> None:
        """The browser keeps nothing that wins nowhere, and most that it does not keep does."""
        found = [is_refused(*pair, values) for pair in self.pairs]
        refused = [pair for pair, ours in zip(self.pairs, found) if ours]
        self.assertGreater(len(refused), REFUSED * sum(not each[1] for each in answers))
        failures = [
            f"{': '.join(pair)}: refused, in the browser {theirs}"
            for pair, ours, theirs in zip(self.pairs, found, answers)
            if ours and any(theirs[1:])
        ]
        self.sweep(len(refused), failures)

    def test_refused_values(self) -> None:
        self.refused(_taken.Values.TAKEN, self.standard or [])

    def test_refused_in_quirks_mode(self) -> None:
        self.refused(_taken.Values.QUIRKS, self.quirky or [])

    def test_numbers(self) -> None:
        """Numbers and bare colours are refused of each property of the table exactly where the browser refuses them."""
        names = sorted({name for row in rows() for name in row[0].split()})
        pairs = [(name, value) for name in names for value in NUMBERS]
        for values, head in ((_taken.Values.QUIRKS, ""), (_taken.Values.TAKEN, "<!DOCTYPE html>")):
            kept = [bool(each[1]) for each in browser_answers(head + PAGE, pairs) or ()]
            ours = [not is_refused(*pair, values) for pair in pairs]
            failures = [
                f"{values.name}: {': '.join(pair)}: {mine}, in the browser {theirs}"
                for pair, mine, theirs in zip(pairs, ours, kept)
                if mine != theirs and (theirs or pair[1] in EXACT)
            ]
            self.sweep(len(pairs), failures)
