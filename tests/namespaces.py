"""Namespaces beside a browser and soupsieve: which elements random selectors match in trees of HTML,
SVG, MathML and others, where prefixes are declared, and which are refused; and which rules of random
sheets apply, by the `@namespace` rules of each.

The browser is Debian's `chromium`, soupsieve Debian's `python3-soupsieve`, used by
/usr/bin/python3. The library is built by `./build library`. The trees and the texts are equal in each
run.
"""
from __future__ import annotations

import re
import xml.etree.ElementTree
from functools import partial
from typing import Any, Callable, Dict, Iterator, List, Optional, Sequence, Tuple

from tests import modern_selectors
from tests.common import LEFT_OUT, Case, browser_answers, count, debian_answers, package, row

package()
from simplecss import SelectorError, StyleSheet, Tree, escape  # noqa: E402

# An element: its namespace, its name, its attributes, each with its namespace, its name and its
# value, and its children, elements and texts.
Element = Tuple[str, str, List[Tuple[str, str, str]], List[Any]]
# Prefixes and their namespaces, and a tree and texts for them.
Namespaces = Dict[str, str]
# The numbers of the elements that a text matches, or None if it is refused.
Found = Optional[List[int]]
Work = Tuple[Element, Namespaces, List[str]]

HTML = "http://www.w3.org/1999/xhtml"
SVG = "http://www.w3.org/2000/svg"
MATH = "http://www.w3.org/1998/Math/MathML"
# Those in which a browser asks for the class of an element by each rule that ends with one.
STYLED = (HTML, SVG, MATH)
# Those of elements; and one that no element is in.
SPACES = (HTML, SVG, SVG, MATH, "", "", "urn:x")
DECLARED = (HTML, SVG, SVG, MATH, "", "urn:x", "urn:y")
NAMES = ("a", "b", "g", "li")
# Prefixes that may be declared, and others that are not.
PREFIXES = ("svg", "h", "SVG", "x-y", "\xe9", "not", "a")
UNDECLARED = ("u", "Svg", "html")
ATTRIBUTES, WORDS = ("class", "id", "title"), ("c", "d", "c d", "")
# Those of attributes, which are seldom in one.
OF_ATTRIBUTES = (SVG, "urn:x", MATH)
OPERATORS = ("", "", "=c", "~=d", "^=c", "$='d'", "*=c", "|=c", "='C' i")
# fmt: off
STRUCTURES = (
    "root", "empty", "first-child", "last-child", "only-child", "first-of-type", "last-of-type",
    "only-of-type", "scope", "nth-of-type(2n)", "nth-last-of-type(2)", "nth-child(odd)",
)
# fmt: on


class Source(modern_selectors.Source):
    """Random trees, namespaces and selectors."""

    declared: Namespaces = {}

    def spaced_tree(self, depth: int = 0) -> Element:
        """A random element."""
        space = self.choice(SPACES)
        attributes = [
            ("", name, self.choice(WORDS))
            for name in ATTRIBUTES
            if self.random() < 0.4 and (name != "class" or space in STYLED)
        ]
        attributes += [
            (each, name, self.choice(WORDS))
            for each in OF_ATTRIBUTES
            for name in ATTRIBUTES
            if self.random() < 0.1
        ]
        children: List[Any] = []
        for _ in range(self.choice((1, 2, 3, 4)) if depth < 3 else 0):
            children.append(self.spaced_tree(depth + 1))
        if not children and self.random() < 0.4:
            children.append("text")
        return space, self.choice(NAMES), attributes, children

    def namespaces(self) -> Namespaces:
        """Random prefixes with their namespaces."""
        found = {prefix: self.choice(DECLARED) for prefix in PREFIXES if self.random() < 0.7}
        if self.random() < 0.6:
            found[""] = self.choice(DECLARED)
        return found

    def prefix(self) -> str:
        """What is before a name: a prefix with its `|`, or nothing."""
        kind = self.random()
        if kind < 0.35:
            return ""
        if kind < 0.5:
            return self.choice(("|", "*|"))
        known = sorted(name for name in self.declared if name)
        if kind < 0.97 and known:
            return self.name(self.choice(known)) + self.comment() + "|" + self.comment()
        return self.choice(UNDECLARED) + "|"

    def simple(self) -> str:
        kind = self.random()
        if kind < 0.03:
            return "&"
        if kind < 0.4:
            return self.choice((".c", ".d", "#c", "#d"))
        if kind < 0.7:
            front = self.prefix() if self.random() < 0.6 else ""
            return f"[{front}{self.choice(ATTRIBUTES)}{self.choice(OPERATORS)}]"
        return ":" + self.choice(STRUCTURES)

    def plain(self) -> str:
        front = ""
        if self.random() < 0.75:
            front = self.prefix() + self.choice(("*", *NAMES, *NAMES))
        more = self.choice((0, 0, 1) if front else (1, 1, 2))
        return front + "".join(self.comment() + self.simple() for _ in range(more))

    def part(self, depth: int) -> str:
        return self.complex(depth)

    def listed(self) -> str:
        """A list, most often of one selector, without pseudo-elements."""
        parts = []
        for _ in range(self.choice((1, 1, 1, 2))):
            text = self.compound()
            for _ in range(self.choice((0, 0, 1, 2))):
                text += self.choice(modern_selectors.COMBINATORS) + self.compound()
            parts.append(text)
        return ", ".join(parts)

    def work(self, number: int) -> Work:
        """A tree, namespaces and so many texts, of which one in three has rare forms."""
        self.declared = self.namespaces()
        texts = []
        for at in range(number):
            self.is_rare = at % 3 == 0
            texts.append(self.listed())
        return self.spaced_tree(), self.declared, texts


def named(space: str, name: str) -> str:
    """A name in a namespace, as ElementTree has it."""
    return f"{{{space}}}{name}" if space else name


def etree_of(element: Element) -> xml.etree.ElementTree.Element:
    """The element as one of ElementTree."""
    space, name, attributes, children = element
    made = xml.etree.ElementTree.Element(named(space, name))
    for inner, key, value in attributes:
        made.set(named(inner, key), value)
    for child in children:
        if isinstance(child, str):
            made.text = child
        else:
            made.append(etree_of(child))
    return made


def ours(tree: Tree, namespaces: Namespaces, text: str) -> Found:
    """The numbers of the elements that a text matches, or None if it is refused."""
    try:
        return [element.index for element in tree.select(text, namespaces=namespaces)]
    except SelectorError:
        return None


# What makes the elements of a tree in a browser.
# What shows the answers of a page.
SHOWN = """
const shown = document.createElementNS("http://www.w3.org/1999/xhtml", "html");
shown.textContent = "ANS" + "WER" + JSON.stringify(answers) + "END";
document.documentElement.replaceWith(shown);
</script>
"""
BUILD = """
function build([space, name, attributes, children]) {
    const made = document.createElementNS(space || null, name);
    for (const [space, key, value] of attributes) made.setAttributeNS(space || null, key, value);
    for (const child of children) made.append(typeof child == "string" ? child : build(child));
    return made;
}
"""
PAGE = (
    r"""
<!DOCTYPE html><meta charset=utf-8><script id=input type="application/json">%s</script>
<script>
CSS.registerProperty({ name: "--found", syntax: "*", inherits: false });
"""
    + BUILD
    + r"""
const answers = [];
for (const [tree, namespaces, texts] of JSON.parse(document.getElementById("input").textContent)) {
    const root = build(tree);
    document.documentElement.replaceWith(root);
    const all = [...document.querySelectorAll("*")];
    const front = Object.entries(namespaces).map(([prefix, space]) =>
        `@namespace ${prefix && CSS.escape(prefix)} "${space}";`).join("");
    answers.push(texts.map(text => {
        const sheet = new CSSStyleSheet();
        sheet.replaceSync(`${front}${text} { --found: 1 }`);
        if (![...sheet.cssRules].some(rule => rule.selectorText !== undefined)) return null;
        // So that nothing is kept of elements that are not rendered.
        root.remove();
        document.adoptedStyleSheets = [sheet];
        document.append(root);
        return [...all.keys()].filter(at =>
            getComputedStyle(all[at]).getPropertyValue("--found") != "");
    }));
}
"""
    + SHOWN
)

SHEETS = (
    r"""
<!DOCTYPE html><meta charset=utf-8><script id=input type="application/json">%s</script>
<script>
const names = [...Array(12).keys()].map(at => `--p${at}`);
for (const name of names) CSS.registerProperty({ name, syntax: "*", inherits: false });
"""
    + BUILD
    + r"""
const answers = [];
for (const [tree, texts] of JSON.parse(document.getElementById("input").textContent)) {
    const root = build(tree);
    document.documentElement.replaceWith(root);
    const all = [...document.querySelectorAll("*")];
    answers.push(texts.map(text => {
        const sheet = new CSSStyleSheet();
        sheet.replaceSync(text);
        root.remove();
        document.adoptedStyleSheets = [sheet];
        document.append(root);
        const styles = all.map(element => getComputedStyle(element));
        return names.map(name => [...all.keys()].filter(at => styles[at].getPropertyValue(name) != ""));
    }));
}
"""
    + SHOWN
)

SOUP_MODULES = ("soupsieve", "bs4", "lxml")
SOUP = r"""
import json, sys
import soupsieve
from bs4 import BeautifulSoup, Comment, Tag
from bs4.element import NamespacedAttribute
from soupsieve.css_match import CSSMatch

class Above(Tag):
    # The parent of a root: soupsieve would take a document for a further ancestor.
    def __bool__(self):
        return False

def commented(tag):
    # soupsieve does not find the child B by `An+B` if B is the number of nodes.
    for _ in range(8):
        tag.append(Comment(""))
    return tag

def build(soup, element):
    space, name, attributes, children = element
    tag = soup.new_tag(name, namespace=space or None)
    for at, (space, key, value) in enumerate(attributes):
        tag[NamespacedAttribute(f"p{at}", key, space) if space else key] = value
    for child in children:
        tag.append(child if isinstance(child, str) else build(soup, child))
    return commented(tag)

def select(root, numbers, namespaces, text):
    try:
        selector = soupsieve.compile(text, namespaces)
        finder = CSSMatch(selector.selectors, root, selector.namespaces, selector.flags)
        return [numbers[id(tag)] for tag in [root, *root.find_all(True)] if finder.match(tag)]
    except (soupsieve.SelectorSyntaxError, NotImplementedError):
        return None

answers = []
for tree, namespaces, texts in json.load(sys.stdin):
    soup = BeautifulSoup("", "xml")
    root, above = build(soup, tree), Above(name="above", is_xml=True)
    above.append(root)
    commented(above)
    numbers = {id(tag): number for number, tag in enumerate([root, *root.find_all(True)])}
    answers.append([select(root, numbers, namespaces, text) for text in texts])
json.dump(answers, sys.stdout)
"""


def works() -> List[Work]:
    """Random trees with texts."""
    source = Source("namespaces")
    return [source.work(50) for _ in range(count(2000) // 50)]


# A browser takes a large number for another. It exempts the last subject of a list alone from the
# default namespace: soupsieve exempts each of them, as the standard does.
ODD_IN_BROWSERS = re.compile(r"\d{10}")
LISTED = re.compile(r":(is|not|where|has)\(.*,", re.IGNORECASE | re.DOTALL)
# soupsieve refuses comments round `|`, and of attributes with a name in any namespace it asks one. It
# has no prefix of no namespace for them.
ODD_IN_SOUP = re.compile(r"\|/\*|\*/\s*\||\[\s*(/\*.*?\*/)*\*\||\[\|")
SPACED_ATTRIBUTE = re.compile(r"\[[^\]|]+\|(?!=)")
# In soupsieve compound selectors without a type selector are in any namespace.
NO_TYPE = re.compile(r"(^|[\s,(>+~]|\*/)[.#:\[]")
ALL_DECLARED = {prefix: SVG for prefix in (*PREFIXES, *UNDECLARED)}


def bare_refusal(tree: Tree, text: str) -> str:
    """Why a text is refused without its prefixes too, or nothing."""
    try:
        tree.select(re.sub(r"[\w*-]*\|(?!=)", "", modern_selectors.plain(text)))
    except SelectorError as error:
        return error.reason
    return ""


# Statements of sheets that may be before `@namespace`, or between two, and others that end these: all
# that a browser knows.
FRONTS = (
    *(
        '@charset "utf-8";',
        "@import 'a';",
        "@import url(b) print;",
        "@layer x;",
        "@layer x, y.z;",
    ),
    *(
        "@foo;",
        "@foo {}",
        "@media;",
        "@import;",
        "@layer 1;",
        "@layer x y;",
        "1 {}",
        "a..b {}",
        "}",
    ),
    *(
        "<!--",
        "-->",
        "/**/",
        "@namespace;",
        "@namespace x;",
        "@import 'a' {}",
        "@layer x",
    ),
)
ENDS = (
    *(
        "a {}",
        "@media print {}",
        "@font-face {}",
        "@supports (a: b) {}",
        "@layer {}",
        "@layer x {}",
    ),
    *(
        "@page {}",
        "@keyframes a {}",
        "@counter-style a {}",
        "svg|a {}",
        "*|a {}",
        "|a {}",
        "u|a {}",
    ),
)
# How many properties the rules of a sheet have. The first is that of rules between `@namespace` rules.
PROPERTIES = 12


class SheetSource(Source):
    """Random sheets with `@namespace` rules."""

    def url(self, space: str) -> str:
        """A url, in one of its forms."""
        if self.random() < 0.6:
            return self.string(space)
        inner = space if space and self.random() < 0.5 else self.string(space)
        return self.choice((f"url({inner})", f"URL( {inner} )"))

    def declaration(self) -> str:
        """A `@namespace` rule, which may be invalid."""
        gap = self.choice((" ", "  ", "/**/ ", "\n"))
        prefix = self.choice(("", *PREFIXES, *PREFIXES))
        front = self.choice(("@namespace", "@namespace", "@NameSpace", "@n\\61mespace")) + gap
        front += self.name(prefix) + gap if prefix else ""
        self.declared[prefix] = ""
        end = self.choice((";",) * 12 + (" ;", "/**/;", " x;", " {}", " {};", ' "a";'))
        return front + self.url(self.choice(DECLARED)) + end

    def rule(self, number: int) -> str:
        """A rule with a property of its own, perhaps in another."""
        self.is_rare = number % 3 == 0
        text, own = self.listed(), f"--p{number}: 1"
        kind = self.random()
        if kind < 0.15:
            return f"@media all {{{text} {{{own}}}}}"
        if kind < 0.3:
            inner = self.choice(("&", "& ", "", "> ", "~ ")) + self.plain()
            return f"{text} {{{inner} {{{own}}}}}"
        return f"{text} {{{own}}}"

    def sheet(self) -> Tuple[str, List[str]]:
        """A sheet, and its rules."""
        self.declared = {}
        parts = []
        for _ in range(self.choice((0, 1, 2, 3, 5, 8))):
            kind = self.random()
            ends = (*ENDS, self.rule(0)) if kind > 0.95 else FRONTS
            parts.append(self.declaration() if kind < 0.7 else self.choice(ends))
        rules = [self.rule(number) for number in range(1, PROPERTIES)]
        return self.choice((" ", "\n", "")).join((*parts, *rules)), rules


def is_known(judge: str, tree: Tree, namespaces: Namespaces, text: str, found: Found) -> bool:
    """Whether a difference from a judge is one of those that are named."""
    reason = "" if found is not None else bare_refusal(tree, text)
    if reason:
        # Combinators in lists of lists are unsupported; `:has()` in `:has()` is in soupsieve alone.
        is_inner = judge == "soupsieve" and reason == "`:has` is not expected here"
        return is_inner or reason.endswith(" is unsupported")
    if found is None and ours(tree, ALL_DECLARED, text) is not None:
        # A prefix that is not declared refuses the list; in a browser not within these lists,
        # and nowhere in soupsieve.
        return judge == "soupsieve" or bool(modern_selectors.FORGIVING.search(text))
    if judge == "chromium":
        is_listed = "" in namespaces and LISTED.search(text)
        return bool(is_listed or ODD_IN_BROWSERS.search(text))
    if "" in namespaces and NO_TYPE.search(text):
        return True
    is_spaced = "" in namespaces.values() and SPACED_ATTRIBUTE.search(text)
    odd = ODD_IN_SOUP.search(text) or modern_selectors.ODD_IN_SOUP.search(text)
    return bool(is_spaced or odd)


class Random(Case):
    """What random texts match."""

    def compare(self, name: str, finds: Callable[[List[Work]], Optional[Any]]) -> None:
        """Compares with what another finds."""
        matched: List[bool] = []

        def question(work: Work, answers: Sequence[Found]) -> Iterator[Optional[str]]:
            element, namespaces, texts = work
            tree = Tree.from_etree(etree_of(element))
            for text, theirs in zip(texts, answers):
                found = ours(tree, namespaces, text)
                if found != theirs and is_known(name, tree, namespaces, text, found):
                    yield LEFT_OUT
                else:
                    matched.append(bool(found))
                    yield row(f"{text!r} in {namespaces}", found, theirs)

        missing = f"namespaces beside {name}, which is missing or does not answer"
        self.against(finds, works(), question, missing)
        self.assertGreater(10 * sum(matched), len(matched))

    def test_chromium(self) -> None:
        self.compare("chromium", partial(browser_answers, PAGE))

    def test_soupsieve(self) -> None:
        self.compare("soupsieve", lambda work: debian_answers(SOUP, work, *SOUP_MODULES))


class Sheets(Case):
    """Which rules of random sheets apply to which elements."""

    def test_chromium(self) -> None:
        source = SheetSource("sheets")
        number = count(1600) // 16
        work = [(source.spaced_tree(), [source.sheet() for _ in range(8)]) for _ in range(number)]
        applied: List[bool] = []

        def browser(work: List[Any]) -> Optional[List[Any]]:
            asked = [(tree, [text for text, _ in sheets]) for tree, sheets in work]
            return browser_answers(SHEETS, asked)

        def question(one: Any, answers: Any) -> Iterator[Optional[str]]:
            element, sheets = one
            tree = Tree.from_etree(etree_of(element))
            for (text, rules), due in zip(sheets, answers):
                found = styled(tree, text)
                applied.extend(map(bool, due[1:]))
                for at in range(1, PROPERTIES):
                    if found[at] != due[at] and is_known_in_sheets(tree, rules[at - 1]):
                        yield LEFT_OUT
                    else:
                        yield row(f"{text!r}: --p{at} applies to", found[at], due[at])

        missing = "sheets with namespaces: chromium is missing or does not answer"
        left_out = self.against(browser, work, question, missing)
        self.assertGreater(5 * sum(applied), len(applied))
        self.assertLess(15 * left_out, len(applied))


def styled(tree: Tree, text: str) -> List[List[int]]:
    """For each property the numbers of the elements that a sheet's rules set it on."""
    found: List[List[int]] = [[] for _ in range(PROPERTIES)]
    for index, declarations in enumerate(StyleSheet(text).styles(tree)):
        for each in declarations:
            found[int(each.name[3:])].append(index)
    return found


def is_known_in_sheets(tree: Tree, rule: str) -> bool:
    """Whether a rule has what `is_known` names: a list in which a prefix may not be declared, or
    a default namespace may not count; or combinators in a list of a list. A browser does not restrict
    an `&` that is not written to the default namespace."""
    selector, *inner = rule.removeprefix("@media all {").split("{")
    forgiving = modern_selectors.FORGIVING.search(rule) and "|" in rule
    odd = forgiving or LISTED.search(rule) or ODD_IN_BROWSERS.search(rule)
    is_implied = len(inner) > 1 and "&" not in inner[0]
    return bool(odd or is_implied or bare_refusal(tree, selector).endswith(" is unsupported"))


# Tags of pages: elements of HTML, SVG and MathML, those that lead from one into another, and some
# that end SVG.
TAGS = (
    *(
        "a",
        "p",
        "div",
        "span",
        "table",
        "title",
        "font",
        "font color=x",
        "br",
        "select",
    ),
    *("svg", "g", "foreignObject", "desc", "linearGradient", "svg/", "g/", "image"),
    *(
        "math",
        "mi",
        "mtext",
        "mglyph",
        "annotation-xml",
        "annotation-xml encoding=text/html",
    ),
)
# Attributes of pages, of which some are in namespaces in SVG and MathML; and what they may be then.
OF_PAGES = (
    *("xlink:href", "XLINK:Title", "xlink:other", "xml:lang", "xml:space", "xmlns", "xmlns:xlink"),
    *("href", "title", "xml:base"),
)
# fmt: off
LOCAL = (
    "href", "title", "other", "lang", "space", "xmlns", "xlink", "base", "xlink:href", "xlink:title",
    "xlink:other", "xml:lang", "xml:space", "xmlns:xlink", "xml:base",
)
# fmt: on
NAMED_SPACES = (
    *("", "http://www.w3.org/1999/xlink", "http://www.w3.org/XML/1998/namespace"),
    "http://www.w3.org/2000/xmlns/",
)
HTML_PAGE = r"""
<!DOCTYPE html><meta charset=utf-8><script id=input type="application/json">%s</script>
<script>
const answers = JSON.parse(document.getElementById("input").textContent).map(text => {
    const page = new DOMParser().parseFromString(text, "text/html");
    return [...page.querySelectorAll("*")].map(each => [each.localName, each.namespaceURI,
        [...each.attributes].map(one => [one.namespaceURI ?? "", one.localName])]);
});
document.documentElement.textContent = "ANS" + "WER" + JSON.stringify(answers) + "END";
</script>
"""


def random_page(source: Source) -> str:
    """A page with random tags."""
    text, is_open = "<!DOCTYPE html>", ["body"]
    for _ in range(source.randrange(2, 25)):
        if source.random() < 0.7:
            tag = source.choice(TAGS)
            # In SVG a browser ends no element of HTML by a tag whose name has a capital there.
            is_open += [tag.split()[0].rstrip("/")] if tag == tag.lower() else []
            text += (
                f"<{tag}{' ' + source.choice(OF_PAGES) + '=v ' if source.random() < 0.4 else ''}>"
            )
        else:
            text += f"</{source.choice(is_open[-3:])}>"
    return text


def found_in(tree: Tree) -> List[Any]:
    """The name of each element of a page, its namespace, and its attributes with theirs, but for those of
    other names."""
    found: List[Any] = [[element.name, "", []] for element in tree]
    for space in STYLED:
        for element in tree.select("x|*", namespaces={"x": space}):
            found[element.index][1] = space
    for space in NAMED_SPACES:
        for name in LOCAL:
            text = f"[x|{escape(name)}]"
            for element in tree.select(text, namespaces={"x": space}):
                found[element.index][2].append([space, name])
    return found


class Pages(Case):
    def test_html(self) -> None:
        """The elements of a page are in the namespaces that a browser gives them."""
        source = Source("pages")
        drawn: List[bool] = []

        def question(text: str, due: Any) -> Iterator[Optional[str]]:
            found = [[*each[:2], sorted(each[2])] for each in found_in(Tree.from_html(text))]
            drawn.extend(space != HTML for _, space, _ in due)
            for each in due:
                each[2] = sorted(it for it in each[2] if it[1] not in ("color", "encoding"))
            if [each[0] for each in found] != [each[0] for each in due]:
                # Chromium corrects some misnested tags in another way than the standard.
                yield LEFT_OUT
            else:
                yield row(text, found, due)

        pages = [random_page(source) for _ in range(count(2000))]
        missing = "namespaces of pages: chromium is missing or does not answer"
        left_out = self.against(partial(browser_answers, HTML_PAGE), pages, question, missing)
        self.assertGreater(sum(drawn), len(pages))
        self.assertLess(100 * left_out, len(pages))
