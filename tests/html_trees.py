"""Judges the trees that `simplecss_html` reads by html5lib-tests and by a browser, whole: with comments, document
types, the content of templates, and fragments in every context.

The tests are in Debian's source of html5lib (see tests/trees.py). Those of `DIFFERENCES` do not hold, for the
reasons that it names; one that holds again fails. The browser is Debian's `chromium`. It reads random pages and
fragments of rare pieces, which are the same in each run of a seed, which `SEED` in the environment sets; `COUNT` says
how many there are.
"""
from __future__ import annotations

import glob
import itertools
import os
import random
import re
from typing import Dict, Iterator, List, NamedTuple, Optional, Sequence, Tuple

from tests.common import LEFT_OUT, TOP, Case, browser_answers, count, package

package()
from simplecss import _library as library  # noqa: E402
from tests import judges_tests, trees  # noqa: E402

LEAST = 1700
SPACES = ("", "html", "svg", "math")
KINDS = ("", "text", "cdata", "comment", "doctype")
# The attributes of SVG and MathML that are in a namespace.
SPACED = re.compile(
    "^(xlink:(?:actuate|arcrole|href|role|show|title|type)|xml:(?:lang|space)|xmlns:xlink)$"
)
DIFFERENCES: Dict[str, Sequence[str]] = {
    trees.IN_SELECT: (
        *trees.DIFFERENCES[trees.IN_SELECT],
        "<input><option>",
        "<keygen><option>",
        "<textarea><option>",
        "<option><XH<optgroup>",
    ),
}

# What random pages are made of: start tags that the standard has rules for, others, end tags, texts and comments.
# fmt: off
NAMES = (
    "html", "head", "body", "title", "style", "script", "template", "noscript", "base", "meta", "frameset", "frame", "noframes", "p",
    "div", "h1", "h2", "ul", "li", "dl", "dt", "dd", "pre", "listing", "textarea", "form", "input", "button", "select", "option",
    "optgroup", "hr", "table", "caption", "colgroup", "col", "tbody", "thead", "tr", "td", "th", "a", "b", "i", "font", "nobr", "em",
    "code", "applet", "marquee", "object", "svg", "math", "mi", "mtext", "mglyph", "malignmark", "annotation-xml", "foreignObject",
    "desc", "image", "img", "br", "xmp", "iframe", "plaintext", "ruby", "rb", "rt", "rtc", "rp", "main", "details", "summary", "menu",
    "dialog", "search", "keygen", "area", "x-y", "center", "blockquote", "span", "isindex", "wbr", "embed", "param", "source", "track",
)
# These are rarely meant, and hide what follows.
HIDING = ("plaintext", "frameset", "script", "xmp", "iframe", "textarea", "style", "noframes", "title")
WORDS = (
    "", "", "", "", " a=b", " a=b c='d'", " A=&lt;", " class=x class=y", "/", " /", " type=hidden", " TYPE='HIDDEN '", " color=red",
    " size=1", " face", " xlink:href=u", " xml:lang=en", " definitionurl=v", " viewbox=1", " encoding=text/html",
    " encoding='application/xhtml+xml'", " id=1", " selected", " xmlns=x", " xmlns:xlink=y",
)
TEXTS = (
    "x", "x", "y", " ", "\n", "\t", "\r\n", "&amp;", "&lt;b>", "&notin;", "&#128;", "<!-- c -->", "<!-->", "<!x>", "<?y>", "</>", "</ z>",
    "<![CDATA[w]]>", "<!DOCTYPE html>", "<!doctype x>", "<", "&", "\f", "é", "<br/>", "</br>", "</p>", "<a href=1>", "<b>", "<i>",
    "<table>", "<tr>", "<td>", "<p>", "<font color=red>", "<svg>", "<math>", "<mi>", "<template>", "<select>", "<option>",
)
FRONTS = (
    *("<!DOCTYPE html>",) * 3, "", "", "<!DOCTYPE html SYSTEM 'about:legacy-compat'>", "<!-- f -->",
    "<!DOCTYPE HTML PUBLIC '-//W3C//DTD HTML 4.01 Transitional//EN' 'http://www.w3.org/TR/html4/loose.dtd'>",
    "<!DOCTYPE html PUBLIC '-//W3C//DTD HTML 3.2 Final//EN'>",
)
# Whose content a fragment is: a namespace, and a start tag.
CONTEXTS = (
    *(f"html {name}" for name in NAMES if name not in ("plaintext", "html")), "html html", "html foreignobject",
    "svg svg", "svg g", "svg foreignObject", "svg desc", "svg title", "svg a", "svg script", "math math", "math mi", "math mtext",
    "math annotation-xml", "math mglyph",
)
# fmt: on
# What the browser has of pages: lines as the tests of html5lib have them, each with its depth.
SCRIPT = """<!DOCTYPE html><meta charset=utf-8><script id=input type="application/json">%s</script><body><script>
const HTML = "http://www.w3.org/1999/xhtml", SVG = "http://www.w3.org/2000/svg", MATH = "http://www.w3.org/1998/Math/MathML";
const spaces = {html: HTML, svg: SVG, math: MATH}, names = {[HTML]: "", [SVG]: "svg ", [MATH]: "math "};
const ofAttributes = {"http://www.w3.org/1999/xlink": "xlink ", "http://www.w3.org/XML/1998/namespace": "xml "};
function keyOf(each) {
    if (each.namespaceURI === "http://www.w3.org/2000/xmlns/") return each.name === "xmlns" ? "xmlns" : "xmlns " + each.localName;
    return each.namespaceURI === null ? each.name : ofAttributes[each.namespaceURI] + each.localName;
}
function linesOf(top) {
    const found = [], waiting = [...top.childNodes].reverse().map(node => [0, node]);
    while (waiting.length > 0) {
        const [depth, node] = waiting.pop();
        if (node.nodeType === 3) found.push([depth, `"${node.data}"`]);
        if (node.nodeType === 8) found.push([depth, `<!-- ${node.data} -->`]);
        // An instruction is a comment for html5lib and here.
        if (node.nodeType === 7) found.push([depth, `<!-- ?${node.target}${node.data && " "}${node.data} -->`]);
        if (node.nodeType === 10) {
            const ids = node.publicId || node.systemId ? ` "${node.publicId}" "${node.systemId}"` : "";
            found.push([depth, `<!DOCTYPE ${node.name}${ids}>`]);
        }
        if (node.nodeType !== 1) continue;
        found.push([depth, `<${names[node.namespaceURI]}${node.localName}>`]);
        const own = [...node.attributes].map(each => [keyOf(each), each.value]).sort((a, b) => a[0] < b[0] ? -1 : a[0] > b[0] ? 1 : 0);
        for (const [key, value] of own) found.push([depth + 1, `${key}="${value}"`]);
        const isTemplate = node instanceof HTMLTemplateElement;
        if (isTemplate) found.push([depth + 1, "content"]);
        const inner = (isTemplate ? node.content : node).childNodes;
        for (const child of [...inner].reverse()) waiting.push([depth + 1 + isTemplate, child]);
    }
    return found;
}
const page = document.implementation.createHTMLDocument("");
const answers = JSON.parse(document.getElementById("input").textContent).map(([context, text]) => {
    if (context === "") return linesOf(new DOMParser().parseFromString(text, "text/html"));
    const [space, name] = context.split(" "), top = page.createElementNS(spaces[space], name);
    top.innerHTML = text;
    return linesOf(top instanceof HTMLTemplateElement ? top.content : top);
});
document.documentElement.textContent = "ANS" + "WER" + JSON.stringify(answers) + "END";
</script>"""
# What Chromium reads otherwise than HTML's sections 13.2.4.2, 13.2.6.4.9, 13.2.6.4.13 and 13.2.6.4.18 say: a `search` is special; in
# a template a `form` between the rows of a table is none, white space there opens no element again, and after what may be
# in a head there may be a part of a table. And what it reads as a node of its own: an instruction, which here is a comment.
OTHERWISE = re.compile(
    r"<search|<noscript.*<\?|<template.*(?:<base|<title|<noframes|<t(?:able|body|head|r)\b.*(?:<form|\s.*</?t))",
    re.I | re.S,
)
# How many pages the browser reads at once.
AT_ONCE = 1000


class Row(NamedTuple):
    """A node: the number of its parent from 1, or 0, what its text or its name is, and an element's
    attributes."""

    kind: str
    space: str
    parent: int
    text: str
    attributes: Dict[str, str]


def cut(numbers: List[int], widths: Sequence[Tuple[int, int]]) -> Iterator[List[List[int]]]:
    """Yields rows of numbers, so many of each width."""
    at = 0
    for count, width in widths:
        yield [numbers[at + width * row : at + width * (row + 1)] for row in range(count)]
        at += count * width


def rows_of(test: trees.Test) -> Tuple[List[Row], List[Tuple[int, Row]]]:
    """Returns the elements of a test's page, and its other nodes, each with how many elements begin before
    it."""
    space, _, name = test.context.rpartition(" ")
    number = SPACES.index(space or "html") if name else 0
    data = test.data.encode()
    found, strings = library.page_of(data, number, name.encode(), int(test.has_scripts))
    count, numbers = found[0], list(found)
    attributes, elements, others, merged = numbers[1 + 2 * count : 5 + 2 * count]
    strings_count = 2 * attributes + elements + others
    widths = [
        (count, 1),
        (attributes, 5),
        (elements, 6),
        (others, 5),
        (merged, 2),
        (strings_count, 1),
    ]
    counts, _, tags, nodes, more, ends = cut(numbers[8 + 2 * count :], widths)
    starts = [0, *(end for end, in ends)]
    texts = [strings[start:end].decode() for start, end in zip(starts, starts[1:])]
    of_tags: List[List[Tuple[str, str]]] = [[]]
    pairs = list(zip(texts[: 2 * attributes : 2], texts[1 : 2 * attributes : 2]))
    for (size,) in counts:
        of_tags.append(pairs[:size])
        pairs = pairs[size:]
    every: List[Row] = []
    for index, (tag, parent, _, of_space, _, _) in enumerate(tags):
        further = [
            pair for element, other in more if element == index + 1 for pair in of_tags[other]
        ]
        own: Dict[str, str] = {}
        for key, value in (*of_tags[tag], *further):
            own.setdefault(key, value)
        text = texts[2 * attributes + index]
        every.append(Row("element", SPACES[of_space], parent, text, own))
    rest: List[Tuple[int, Row]] = []
    for (kind, begun, parent, start, end), text in zip(nodes, texts[2 * attributes + elements :]):
        text = text if kind < 3 else data[start:end].decode()
        rest.append((begun, Row(KINDS[kind], "", parent, text, {})))
    return every, rest


def comment_of(data: str) -> str:
    """Returns what a comment says."""
    if not data.startswith("<!--"):
        return data[2 if data[1] in "!/" else 1 :].removesuffix(">")
    found = re.match(r"<!--(?:-?>|(.*?)(?:--!?>|--!?$|-?$))", data, re.S)
    return (found and found[1]) or ""


def doctype_of(data: str) -> str:
    """Returns a document type as the tests write it."""
    quoted = r"""(?:"([^">]*)["]?|'([^'>]*)[']?)"""
    space = r"[\t\n\f\r ]*"
    name = r"([^\t\n\f\r >]*)"
    identifiers = rf"(?:(public|system){space}(?:{quoted}{space}{quoted}?)?)?"
    found = re.match(rf"<!doctype{space}{name}{space}{identifiers}", data, re.I)
    assert found
    first = found[3] if found[3] is not None else found[4]
    second = found[5] if found[5] is not None else found[6]
    word = found[1].lower().replace("\0", "\ufffd")
    if first is None:
        return f"<!DOCTYPE {word}>"
    public, system = ("", first) if found[2].lower() == "system" else (first, second or "")
    return f'<!DOCTYPE {word} "{public}" "{system}">'


def lines_of(test: trees.Test) -> Iterator[Tuple[int, str]]:
    """Yields the tree of a page as the tests write it, each line with its depth."""
    elements, others = rows_of(test)
    # The depth of what is in each element, and before these of what is in none.
    inner = [0]
    for index in range(len(elements) + 1):
        if index:
            row = elements[index - 1]
            is_template = (row.space, row.text) == ("html", "template")
            yield from element_lines(row, inner[row.parent], is_template)
            inner.append(inner[row.parent] + 1 + is_template)
        for begun, row in others:
            if begun == index:
                yield inner[row.parent], line_of(row)


def line_of(row: Row) -> str:
    """Returns the line of a text, a comment or a document type."""
    if row.kind == "doctype":
        return doctype_of(row.text)
    if row.kind == "comment":
        said = comment_of(row.text).replace("\r\n", "\n").replace("\r", "\n")
        return f"<!-- {said} -->".replace("\0", "\ufffd")
    return f'"{row.text}"'


def element_lines(row: Row, depth: int, is_template: bool) -> Iterator[Tuple[int, str]]:
    """Yields the lines of an element and of its attributes."""
    prefix = "" if row.space == "html" else row.space + " "
    yield depth, f"<{prefix}{row.text}>"
    spaced = {
        key.replace(":", " ") if prefix and SPACED.match(key) else key: value
        for key, value in row.attributes.items()
    }
    for key in sorted(spaced):
        yield depth + 1, f'{key}="{spaced[key]}"'
    if is_template:
        yield depth + 1, "content"


def joined(lines: Iterator[Tuple[int, str]]) -> List[Tuple[int, str]]:
    """Returns the lines with texts side by side as one, and without empty ones."""
    found: List[Tuple[int, str]] = []
    is_text = False
    for depth, text in lines:
        if text == '""':
            continue
        was_text, is_text = is_text, text.startswith('"')
        if is_text and was_text and found[-1][0] == depth:
            found[-1] = (depth, found[-1][1][:-1] + text[1:])
        else:
            found.append((depth, text))
    return found


def difference(test: trees.Test) -> str:
    """Returns how the tree of a test differs from what it expects, or nothing."""
    pairs = itertools.zip_longest(joined(lines_of(test)), trees.nodes_of(test.document))
    return next((f"{ours}, and not {theirs}" for ours, theirs in pairs if ours != theirs), "")


def piece(rng: random.Random) -> str:
    """Returns a random piece of a page."""
    kind = rng.randrange(8)
    name = rng.choice(NAMES)
    if name in HIDING and rng.randrange(6):
        name = "b"
    if kind < 4:
        return f"<{rng.choice((name, name, name.upper()))}{rng.choice(WORDS)}>"
    if kind < 6:
        return f"</{name}>"
    return rng.choice(TEXTS)


def random_page(rng: random.Random) -> str:
    """Returns a random page, or one of the shapes of which elements are opened again."""
    pieces = [piece(rng) for _ in range(rng.randint(1, 14))]
    if rng.randrange(4) == 0:
        again = rng.choice(
            ("<b>", "<font>", "<i a=b>", "<a href=x>", "<b class=x>", "<nobr>", "<html c=d>")
        )
        pieces += [
            again + rng.choice(("", "", "<p>", "x", "</p>")) for _ in range(rng.randint(2, 9))
        ]
        pieces += [piece(rng) for _ in range(rng.randint(0, 4))]
    return "".join(pieces)


def random_texts(number: int) -> List[Tuple[str, str]]:
    """Returns random pages, and fragments with their contexts."""
    rng = random.Random(int(os.environ.get("SEED", "1")))
    pages = [("", rng.choice(FRONTS) + random_page(rng)) for _ in range(number)]
    return pages + [(rng.choice(CONTEXTS), random_page(rng)) for _ in range(number // 2)]


def browser_lines(texts: Sequence[Tuple[str, str]]) -> Optional[List[List[Tuple[int, str]]]]:
    """Returns the lines that the browser has of texts, each with its context, or none without a browser."""
    found: List[List[Tuple[int, str]]] = []
    for start in range(0, len(texts), AT_ONCE):
        answers = browser_answers(SCRIPT, texts[start : start + AT_ONCE])
        if answers is None:
            return None
        found += [[(depth, text) for depth, text in each] for each in answers]
    return found


def browser_difference(context: str, text: str, theirs: Sequence[Tuple[int, str]]) -> Optional[str]:
    """Returns how the tree of a text differs from that of the browser, if it does. What browsers read in different
    ways is left out."""
    space, _, name = context.partition(" ")
    within = f"{space} {name}" if space not in ("", "html") else name
    numbers, _ = library.page_of(
        text.encode(), SPACES.index(space) if space else 0, name.encode(), 0
    )
    if numbers[6 + 2 * numbers[0]] or OTHERWISE.search(text):
        return LEFT_OUT
    ours = joined(lines_of(trees.Test("", text, within, False, [])))
    # An identifier that is empty is like one that is missing in a DOM.
    ours = [(depth, line.replace(' "" "">', ">")) for depth, line in ours]
    for one, other in itertools.zip_longest(ours, joined(iter(theirs))):
        if one != other:
            return f"{context!r} {text!r}: {one}, and in the browser {other}"
    return None


class HtmlTrees(Case):
    def test_browser(self) -> None:
        """Random pages and fragments of rare pieces are what a browser makes of them."""
        self.against(
            browser_lines,
            random_texts(count(1000)),
            lambda asked, theirs: [browser_difference(*asked, theirs)],
        )

    def test_html5lib(self) -> None:
        """The trees that html5lib-tests expect, whole."""
        folder = os.path.join(TOP, "out", "judges")
        why = judges_tests.fetch(trees.PROJECT, folder)
        if why:
            self.skipTest(f"the tests of html5lib: {why}")
        paths = sorted(glob.glob(os.path.join(folder, trees.FILES)))
        every = [test for path in paths for test in trees.tests_of(path)]
        failures = list(trees.failures_of(every, DIFFERENCES, difference))
        self.sweep(len(every), failures)
        self.assertGreaterEqual(len(every), LEAST)
