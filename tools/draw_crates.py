#!/usr/bin/env python3
"""Draws docs/crates.svg: what people use at the top, and below it the crates of crates.txt, each above
those that it uses, in columns by what they are about. Colored lines are the ways of a mail that `inline`
writes and of `styles`.

    draw_crates.py > docs/crates.svg

Crates of tests and examples are left out, and so is a line that others bring along. A crate that
COLUMNS does not name is in the column REST, and what MAKES does not name has no words.
"""
import os
import sys
from typing import Dict, List, Set, Tuple

TOP = os.path.dirname(os.path.dirname(os.path.abspath(__file__)))
# What each crate makes of what is below it.
MAKES = {
    "css_text": "names, strings, blanks",
    "simplecss_grammar": "the rules of CSS 2.1",
    "simplecss_selector": "selectors, matching",
    "simplecss_declaration": "declarations, blocks",
    "css_syntax": "tokens, statements",
    "css_conditions": "media queries, @supports",
    "css_matching": "matching with ~",
    "css_selector_text": "modern selectors, read",
    "css_selectors": "what they match",
    "css_open_elements": "what open elements have",
    "css_index": "which rules match",
    "css_cascade": "the order of layers",
    "css_sheet": "rules in order, imports",
    "css_styles": "what wins",
    "css_explain": "and by what others lose",
    "css_values": "var(), shorthands",
    "css_lint": "mistakes in sheets",
    "clean_values": "urls answered, prefixes",
    "css_clean": "strangers' CSS, kept safe",
    "clean_calls": "calls: cleaning",
    "css_tree": "pages for selectors",
    "css_html": "tokens of pages",
    "css_html_tree": "trees of pages",
    "css_xml": "XML documents",
    "html_calls": "calls: HTML",
    "html_edits": "edits of pages",
    "edit_calls": "calls: edits",
    "css_edits": "edits of sheets",
    "css_edit_calls": "calls: edits of sheets",
    "page_sheets": "sheets of pages",
    "css_inline": "sheets in attributes",
    "inline_calls": "calls: inlined pages",
    "html_encodings": "encodings of pages",
    "css_laws": "laws of several crates",
    "clean_laws": "laws of cleaned sheets",
    "sheet_laws": "laws of sheets that are cut",
    "xml_laws": "laws of tokens of XML",
    "simplecss": "rules in order, index",
    "css_elements": "trees, as rows",
    "simplecss_tree": "trees for the port",
    "cssq_tree": "the tree of a text",
    "cssq": "winners, output",
    "cssq_cli": "files, arguments",
    "handles": "objects that C holds",
    "kept_lists": "selectors that stay",
    "kept_sheets": "sheets that stay",
    "kept_pages": "pages that stay",
    "kept_queries": "pages with sheets that stay",
    "list_calls": "calls: kept lists",
    "call_answers": "what calls answer",
    "port_calls": "calls: the port",
    "sheet_calls": "calls: sheets",
    "lint_calls": "calls: lint",
    "page_calls": "calls: pages",
    "simplecss_calls": "calls: what wins",
    "simplecss_c": "the C library",
}
# What people use, and the crates that it uses.
DOORS = {
    "Python": ("simplecss_c",),
    "JavaScript": ("simplecss_c",),
    "C": ("simplecss_c",),
    "Rust": (
        "css_styles",
        "css_explain",
        "css_lint",
        "css_clean",
        "html_calls",
        "css_conditions",
        "cssq",
    ),
    "cssq, a program": ("cssq_cli",),
}
MAKES.update(
    {
        "Python": "inline, select, styles",
        "JavaScript": "select, styles, lint",
        "C": "simplecss.h",
        "Rust": "the crate, modern",
        "cssq, a program": "match, style",
    }
)
# The columns: what they are about, a color, and their crates. REST has what no column names.
REST = 1
COLUMNS = (
    (
        "Style sheets",
        "#eef4fb",
        "css_text css_syntax css_conditions css_cascade css_sheet css_values css_lint clean_values"
        " css_clean css_styles css_explain css_edits sheet_calls lint_calls clean_calls css_edit_calls",
    ),
    (
        "The C library, and laws",
        "#f3f3f3",
        "simplecss_c simplecss_calls call_answers css_laws clean_laws sheet_laws xml_laws",
    ),
    (
        "Selectors and pages",
        "#eef7ee",
        "css_matching css_selector_text css_selectors css_index css_open_elements css_elements css_tree"
        " page_calls kept_lists list_calls kept_sheets kept_pages kept_queries handles css_html"
        " css_html_tree css_xml html_encodings html_calls html_edits edit_calls page_sheets"
        " css_inline inline_calls",
    ),
    (
        "CSS 2.1: the port",
        "#fbf4ea",
        "simplecss_grammar simplecss_selector simplecss_declaration simplecss simplecss_tree cssq_tree cssq"
        " cssq_cli port_calls",
    ),
)
# The color of each way, and the edges that it takes, from below to above.
WAYS = {
    "a mail: inline in Python": (
        "#d9690a",
        (
            "css_text css_syntax css_selector_text css_sheet sheet_calls simplecss_c Python;"
            " css_selector_text css_selectors css_index css_tree page_calls simplecss_calls simplecss_c;"
            " css_text css_html css_html_tree html_calls simplecss_c"
        ),
    ),
    "styles": (
        "#2a8a3e",
        (
            "css_text css_syntax css_selector_text css_sheet css_styles simplecss_calls"
            " simplecss_c Python; css_selector_text css_selectors css_index css_tree page_calls simplecss_calls;"
            " css_syntax css_conditions sheet_calls simplecss_c; css_syntax css_values css_styles"
        ),
    ),
}
WIDE, HIGH, GAP_X, GAP_Y, LEFT, TOP_SPACE, APART = 164, 44, 24, 46, 40, 120, 30
# How far from the middle of a gap the lines through it are.
SHIFTS = (0, -5, 5, -9, 9)

Edge = Tuple[str, str]


def read_uses() -> Dict[str, Set[str]]:
    """Which crates of the picture each crate names."""
    uses = {}
    with open(os.path.join(TOP, "crates.txt"), encoding="utf-8") as file:
        for line in file:
            name, colon, rest = line.split("#")[0].partition(":")
            if colon and not name.startswith(("example_", "tests_")):
                uses[name.split()[0]] = set(rest.split())
    return {name: {other for other in others if other in uses} for name, others in uses.items()}


def below(name: str, uses: Dict[str, Set[str]]) -> Set[str]:
    """All crates that a crate is built of."""
    found = set(uses[name])
    for other in uses[name]:
        found |= below(other, uses)
    return found


def direct(uses: Dict[str, Set[str]]) -> List[Edge]:
    """The pairs of a crate and one that it uses, without those that another one brings along."""
    edges = []
    for name, others in uses.items():
        brought = set().union(*(below(other, uses) for other in others))
        edges += [(name, other) for other in others if other not in brought]
    return sorted(edges)


def levels_of(uses: Dict[str, Set[str]]) -> Dict[str, int]:
    """How high each box is: above all that it uses, and the doors above all."""
    level: Dict[str, int] = {}
    while len(level) < len(uses):
        for name, others in uses.items():
            if name not in level and others <= set(level):
                level[name] = 1 + max((level[other] for other in others), default=-1)
    top = 1 + max(number for name, number in level.items() if name not in DOORS)
    return {name: top if name in DOORS else number for name, number in level.items()}


def columns_of(uses: Dict[str, Set[str]]) -> List[List[str]]:
    """The crates of each column."""
    columns = [[name for name in names.split() if name in uses] for _, _, names in COLUMNS]
    known = {name for column in columns for name in column} | set(DOORS)
    columns[REST] += [name for name in uses if name not in known]
    return columns


def places_of(uses: Dict[str, Set[str]]) -> Dict[str, Tuple[float, float]]:
    """The upper left corner of each box: by its column and its level, in a row near those that it
    uses."""
    level, left = levels_of(uses), float(LEFT)
    top = max(level.values())
    places: Dict[str, Tuple[float, float]] = {}
    for column in columns_of(uses):
        rows = [[name for name in column if level[name] == number] for number in range(top)]
        wide = max(map(len, rows)) * (WIDE + GAP_X) - GAP_X
        for number, row in enumerate(rows):
            start = left + (wide - len(row) * (WIDE + GAP_X) + GAP_X) / 2
            row.sort(key=lambda name: (middle(name, uses, places), name))
            for index, name in enumerate(row):
                at = start + index * (WIDE + GAP_X)
                places[name] = (at, TOP_SPACE + (top - number) * (HIGH + GAP_Y))
        left += wide + 2 * APART
    start = (left - len(DOORS) * (WIDE + 2 * GAP_X)) / 2
    for index, name in enumerate(DOORS):
        places[name] = (start + index * (WIDE + 2 * GAP_X), TOP_SPACE - 30)
    return places


def middle(name: str, uses: Dict[str, Set[str]], places: Dict[str, Tuple[float, float]]) -> float:
    """Where what a crate uses is, on average."""
    found = [places[other][0] for other in uses[name] if other in places]
    return sum(found) / len(found) if found else 0.0


def way_edges(words: str, uses: Dict[str, Set[str]]) -> List[Edge]:
    """The pairs of a crate and the one above it of a way, without crates that the one above does not
    use."""
    edges: List[Edge] = []
    for part in words.split(";"):
        names = part.split()
        kept = [name for name, above in zip(names, names[1:]) if name in uses[above]]
        edges += zip(kept, [*kept[1:], names[-1]])
    return edges


class Lines:
    """Lines between boxes, which go through the gaps of the rows on their way."""

    def __init__(self, places: Dict[str, Tuple[float, float]]) -> None:
        self.places = places
        tops = sorted({y for _, y in places.values()})
        self.rows = [sorted(place for place in places.values() if place[1] == y) for y in tops]
        # How many lines go through each gap so far.
        self.taken: Dict[Tuple[float, float], int] = {}

    def gap(self, row: List[Tuple[float, float]], x: float) -> float:
        """Where a line that is to cross a row at `x` crosses it, beside the boxes."""
        inside = [each for each, _ in row if each - GAP_X / 2 < x < each + WIDE + GAP_X / 2]
        if not inside:
            return x
        sides = (inside[0] - GAP_X / 2, inside[0] + WIDE + GAP_X / 2)
        found = min(sides, key=lambda each: abs(each - x))
        number = self.taken[found, row[0][1]] = self.taken.get((found, row[0][1]), -1) + 1
        return found + SHIFTS[number % len(SHIFTS)]

    def line(self, upper: str, lower: str, color: str, width: float, shift: float) -> str:
        """A line from the lower edge of the upper box to the upper edge of the lower one."""
        (x, y), (u, v) = self.places[upper], self.places[lower]
        x, u, y = x + WIDE / 2 + shift, u + WIDE / 2 + shift, y + HIGH
        # Lines of two colors between the same boxes are apart, wherever they lead.
        lift = shift / 2 if u <= x else -shift / 2
        points = [(x, y + lift)]
        for row in self.rows:
            top = row[0][1]
            if y < top < v:
                last, start = points[-1]
                place = self.gap(row, last + (u - last) * (top - start) / (v - start))
                points += [(place, top - 4), (place, top + HIGH + 4)]
        points.append((u, v + lift))
        words = " ".join(f"{left:g},{below:g}" for left, below in points)
        return f'<polyline points="{words}" fill="none" stroke="{color}" stroke-width="{width:g}"/>'


def box(name: str, place: Tuple[float, float]) -> List[str]:
    """The box of a crate or a door, with its name and what it makes."""
    x, y = place
    fill, pen = ("#334155", "white") if name in DOORS else ("white", "#111")
    return [
        (
            f'<rect x="{x:g}" y="{y:g}" width="{WIDE}" height="{HIGH}" rx="6" fill="{fill}"'
            ' stroke="#667"/>'
        ),
        (
            f'<text x="{x + WIDE / 2:g}" y="{y + 19:g}" text-anchor="middle"'
            f' font-weight="bold" fill="{pen}">{name}</text>'
        ),
        (
            f'<text x="{x + WIDE / 2:g}" y="{y + 35:g}" text-anchor="middle"'
            f' fill="{pen}" fill-opacity="0.8">{MAKES.get(name, "")}</text>'
        ),
    ]


def backgrounds(uses: Dict[str, Set[str]], places: Dict[str, Tuple[float, float]]) -> List[str]:
    """The columns, with what they are about."""
    parts = []
    low = max(y for _, y in places.values()) + HIGH + 2 * APART
    for (title, color, _), column in zip(COLUMNS, columns_of(uses)):
        left = min(places[name][0] for name in column) - APART + 6
        right = max(places[name][0] for name in column) + WIDE + APART - 6
        top = TOP_SPACE + HIGH
        parts.append(
            f'<rect x="{left:g}" y="{top}" width="{right - left:g}" height="{low - top:g}" rx="10"'
            f' fill="{color}"/>'
        )
        parts.append(
            f'<text x="{(left + right) / 2:g}" y="{low - 14:g}" text-anchor="middle" font-size="15"'
            f' fill="#556">{title}</text>'
        )
    return parts


def legend() -> List[str]:
    """What lines mean."""
    rows = [("#999", 1.5, "the upper one uses the lower one, with all below that")]
    rows += [(color, 3, name) for name, (color, _) in WAYS.items()]
    parts = []
    for index, (color, width, words) in enumerate(rows):
        x, y = LEFT + (0, 450, 700)[index], 34
        parts.append(
            f'<line x1="{x}" y1="{y}" x2="{x + 36}" y2="{y}" stroke="{color}" stroke-width="{width}"/>'
        )
        parts.append(f'<text x="{x + 46}" y="{y + 5}" font-size="14">{words}</text>')
    return parts


def picture() -> str:
    """The picture."""
    uses = read_uses()
    uses.update({name: set(others) & set(uses) for name, others in DOORS.items()})
    places = places_of(uses)
    wide = max(x for x, _ in places.values()) + WIDE + LEFT + APART
    high = max(y for _, y in places.values()) + HIGH + 2 * APART + 20
    parts = [
        f'<svg xmlns="http://www.w3.org/2000/svg" width="{wide:g}" height="{high:g}"'
        ' font-family="sans-serif" font-size="12">'
    ]
    parts.append(f'<rect width="{wide:g}" height="{high:g}" fill="white"/>')
    parts += [*backgrounds(uses, places), *legend()]
    lines = Lines(places)
    ways = [(*way, way_edges(words, uses)) for way, words in ((w[:1], w[1]) for w in WAYS.values())]
    colored = {edge for _, edges in ways for edge in edges}
    plain = [(upper, lower) for upper, lower in direct(uses) if (lower, upper) not in colored]
    parts += [lines.line(upper, lower, "#b4bac2", 1.2, 0) for upper, lower in plain]
    for index, (color, edges) in enumerate(ways):
        for lower, upper in edges:
            parts.append(lines.line(upper, lower, color, 3, 4 - 8 * index))
    parts += [part for name in uses for part in box(name, places[name])]
    return "\n".join([*parts, "</svg>"]) + "\n"


if __name__ == "__main__":
    sys.stdout.write(picture())
