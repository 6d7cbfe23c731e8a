"""Mistakes in random sheets of rare pieces: those that the Python package finds are those that the C library writes.
`tests/checkout.py` compares the same with what Rust and JavaScript find.

The sheets are made of what each kind of mistake has, wrong and right, whole or in pieces that are left out, repeated and
replaced.
"""
from __future__ import annotations

import functools
import random
from typing import Any, Dict, List, Tuple

from tests.common import Case, count, package

package()
from simplecss import _lint, _taken, lint, tokens  # noqa: E402
from simplecss._reading import Source  # noqa: E402

# How many sheets there are.
SHEETS = 20_000
# Pieces of sheets beside those of the kinds.
# fmt: off
RARE = (
    "}", "{", "(", ")", "[", "]", ";", ":", "'", '"', "\\", "\n", "\r\n", "\f", "é", "\u00a0", "\u2028", "\ufeff",
    "/*", "*/", "<!--", "-->", "//", "!", "#", "@", "&", "|", "||", "::", "--", "-", "+", ">", "~", "*", "u+26",
    "!important", "!imprtant", "! important", "\\61 ", "a\\62", "url(", "url('x')", "var(--x)", "var(", "calc(1px+2px)",
    "--x:{a}", "--:1", "@layer a,b;", "@layer a{", "@import 'a.css';", "@charset 'utf-8';", "@namespace a 'b';",
    "@media(min-widht:1px){", "@supports (top:0){", "@font-face{", "@page:first{", "@keyframes k{", "@property --x{",
    "@starting-style{", "@scope(a){", "@container(x>1px){", "@counter-style a{", ":is(", ":not(:hoverr)", ":has(>a)",
    ":nth-child(0n)", ":nth-child(2n+1 of .a)", "svg|a", "a,", ",a", "50%", "from,to", "1pxx", "#12345", "1e3px", "0",
    "34", "top:34", "font:34", "color:reed", "colr:red", "margin:0 0 0 0 0", "*zoom:1", "_top:0", "-moz-box", "TOP:AUTO",
    "/* simplecss-ignore */", "/* simplecss-ignore unknown */", "/*\nsimplecss-ignore invalid-value, empty */",
)
# fmt: on


class Random(random.Random):
    """Makes sheets, the same in each run."""

    def __init__(self, seed: int) -> None:
        super().__init__(seed)
        each = _lint.explained().values()
        both = [css.replace("\\n", "\n") for it in each for css in (it.wrong, it.right) if css]
        self.whole = both
        self.pieces = [[token.text for token in tokens(css)] for css in both]
        self.others = [*RARE, *(text for texts in self.pieces for text in texts)]

    def changed(self, pieces: List[str]) -> str:
        """Some pieces, of which one or two are left out, repeated or replaced."""
        found = list(pieces)
        for _ in range(self.choice((1, 1, 2))):
            at = self.randrange(len(found))
            ways: List[List[str]] = [[], [found[at]] * 2, [self.choice(RARE)]]
            found[at : at + 1] = self.choice([*ways, [found[at], self.choice(self.others)]])
            if not found:
                break
        return "".join(found)

    def part(self) -> str:
        chance = self.random()
        if chance < 0.35:
            return self.choice(self.whole)
        if chance < 0.8:
            return self.changed(self.choice(self.pieces))
        return "".join(self.choice(self.others) for _ in range(self.randrange(1, 12)))

    def sheet(self) -> str:
        parts = [self.part() for _ in range(self.choice((1, 1, 2, 3, 5)))]
        return self.choice(("", " ", "\n")).join(parts)


@functools.lru_cache(maxsize=None)
def sheets() -> Tuple[str, ...]:
    """The sheets."""
    source = Random(91)
    return tuple(source.sheet() for _ in range(count(SHEETS)))


def written_of(text: str) -> List[List[str]]:
    """What the C library writes of a sheet, by where it begins: the kind, two offsets, and what was meant; and two offsets
    with what corrects it."""
    return sorted(_taken.lines_of(text.encode(), 0), key=lambda fields: int(fields[1]))


def lines_of(text: str) -> str:
    """That, as lines."""
    return "".join("\t".join(fields) + "\n" for fields in written_of(text))


def placed(text: str) -> List[Dict[str, Any]]:
    """That, with rows and columns, without what comments turn off."""
    source = Source(text)
    found = []
    ignored = _lint._ignored(_lint.SheetText(text))
    for kind, start, end, hint, *edit in written_of(text):
        row, column = source.position(source.offset(int(start)))
        words, name = ignored.get(row, ()), _lint.kind_of(kind)
        if not any(name.startswith(word) for word in words):
            right = [*(source.offset(int(at)) for at in edit[:2]), *edit[2:]]
            place = [row, column, *source.position(source.offset(int(end)))]
            found.append({"kind": name, "place": place, "hint": hint or None, "edit": right})
    return sorted(found, key=lambda one: (one["place"][0], one["place"][1]))


def in_python(text: str) -> List[Dict[str, Any]]:
    """What the Python package finds, in the same form."""
    edits = {
        (each.finding.row, each.finding.column, each.finding.kind): list(each.edit or ())
        for each in _lint.found_in("", text)
    }
    return [
        {
            "kind": each.kind,
            "place": [each.row, each.column, each.end_row, each.end_column],
            "hint": each.hint,
            "edit": edits[each.row, each.column, each.kind],
        }
        for each in lint(text)
    ]


class Linted(Case):
    def test_python(self) -> None:
        failures = []
        kinds = set()
        for text in sheets():
            found, due = in_python(text), placed(text)
            kinds |= {one["kind"] for one in found}
            if found != due:
                failures.append(f"{text!r}: {found}, in C {due}")
        self.sweep(len(sheets()), failures)
        known = {_lint.kind_of(reason) for reason, it in _lint.explained().items() if it.wrong}
        if len(sheets()) >= SHEETS:
            self.assertEqual(known - kinds, set())
