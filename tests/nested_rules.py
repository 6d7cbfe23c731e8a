"""Nested style rules beside a browser: of random sheets, each declaration with the selectors of its
rule and of all rules around it; which declarations win on the elements of random trees; and how
random pages look before and after `inline`.

The browser is Debian's `chromium`, the program `tests_driver`. Each declaration is of a custom property of
its own, so that its name says where it is. Selectors are such as both print alike.
"""
from __future__ import annotations

import os
import random
import re
from collections import Counter
from functools import partial
from typing import Any, Dict, Iterator, List, NamedTuple, Optional, Sequence, Tuple

from tests.common import Case, browser_answers, count, in_turns, package, row, rows
from tests.syntax import fields_of

package()
from simplecss import StyleSheet, Tree, inline  # noqa: E402

SIMPLE = ("a", "b", ".c", "#d", "*", "a.c", "b:hover", "[e]", "a:first-child", ".c.f")
WITHIN = ("&", "&", "& b", ".c &", "& &", "&.c", "&:hover", "a&", "& > &", ".c & .f", "& > b ~ a")
RELATIVE = ("> a", "+ .c", "~ b", "> &", "a", ".c", "b > a", ":hover", "#d + a", ">a.c", "+ & > b")
SHADOWED = (":host", "b:host", ":host(.c) a", "::slotted(a)", "& :host", ":is(:host)")
WRONG = ("a..b", "1", "a >", "> > a", "&&&%", "a ! b", ", a")
# Of no element; and invalid parts of forgiving lists, which count no more than the others.
ELEMENTS = ("a::before", "#d::after", ".c.f::before", "&::after", "b &::before")
FORGIVING = (
    ":is(.c, !&)",
    ":is(!, .f)",
    ":where(a, [&], b)",
    "b:is(.c, &::before)",
    ":not(:is(.f, !&))",
)
# `:has()` around `&`, where `&` may stand for a list that has one.
HAS = (
    *("a:has(b)", "b:has(> a)", ":has(.c)", "a:has(~ b)", "b:not(:has(a))", ":is(a:has(b), .c)"),
    *("a:has(.f), b", ":not(:has(.c))", "b:has(+ a), a", "*:has(#d)", "a", ".c", ":has(b, .f) > *"),
)
WITHIN_HAS = (
    *("a:has(&)", ":has(:is(&))", "b:not(:has(&))", ":has(:nth-child(1 of &))", ":has(> &)"),
    *("& :has(&)", "&:has(&)", ":has(:not(&))", "a:not(:has(:not(&)))", ":has(& b)", ":has(& > a)"),
    *(":is(a, :has(&))", ":where(:has(~ &)) *", ":has(+ &)", "&", "& b", ":not(&)", "&:has(b)"),
    *("&:not(:has(a))", ":has(:nth-last-child(2n+1 of &, a))", ":has(:is(&, .c))", ":has(&, .f)"),
    *(":has(.f &)", ":has(:not(& a))", ".c:has(b) &", "b:has(a)", ":has(:where(& > &, b))"),
)
GROUPS = ("@media all", "@supports (color: red)", "@layer x", "@layer", "@MEDIA screen")
SKIPPED = ("foo;", "@foo;", "color:;", ";", "/* x */", "foo: ;", "{}")

PAGE = """
<!DOCTYPE html><meta charset=utf-8><script id=input type="application/json">%s</script>
<script>
function declared(style, chain, found) {
    for (const name of style) found.push([name, chain]);
}
function walk(rules, chain, found) {
    for (const rule of rules) {
        const inner = rule.selectorText ? [rule.selectorText, ...chain] : chain;
        if (rule.style) declared(rule.style, inner, found);
        if (rule.cssRules) walk(rule.cssRules, inner, found);
    }
    return found;
}
const answers = JSON.parse(document.getElementById("input").textContent).map(text => {
    const sheet = new CSSStyleSheet();
    sheet.replaceSync(text);
    return walk(sheet.cssRules, [], []);
});
document.documentElement.textContent = "ANSWER" + JSON.stringify(answers) + "END";
</script>
"""

# The properties do not inherit, so that each has a value where a declaration of it applies.
WON = """
<!DOCTYPE html><meta charset=utf-8><script id=input type="application/json">%s</script>
<style id=sheet></style><div id=room></div>
<script>
const input = JSON.parse(document.getElementById("input").textContent);
for (const name of input.names) CSS.registerProperty({name, syntax: "*", inherits: false});
const room = document.getElementById("room"), sheet = document.getElementById("sheet");
function built([name, attributes, children]) {
    const made = document.createElement(name);
    for (const [key, value] of attributes) made.setAttribute(key, value);
    made.append(...children.map(built));
    return made;
}
function values(element, names) {
    const style = getComputedStyle(element);
    return names.map(name => [name, style.getPropertyValue(name)]).filter(each => each[1] !== "");
}
const answers = input.cases.map(({text, tree, names}) => {
    sheet.textContent = text;
    room.replaceChildren(built(tree));
    return [...room.querySelectorAll("*")].map(element => values(element, names));
});
document.documentElement.textContent = "ANSWER" + JSON.stringify(answers) + "END";
</script>
"""

# The computed styles of pages, before and after.
LOOKS = """
<!DOCTYPE html><meta charset=utf-8><script id=input type="application/json">%s</script><iframe id=room></iframe>
<script>
const input = JSON.parse(document.getElementById("input").textContent), room = document.getElementById("room");
function looks(text) {
    const page = room.contentDocument;
    page.open();
    page.write(text);
    page.close();
    return [...page.body.querySelectorAll("*")].map(element => {
        const style = room.contentWindow.getComputedStyle(element);
        return input.names.map(name => style.getPropertyValue(name));
    });
}
const answers = input.pages.map(pair => pair.map(looks));
document.documentElement.textContent = "ANSWER" + JSON.stringify(answers) + "END";
</script>
"""

# What pages declare, and which computed values are compared.
COLORS = ("red", "green", "blue", "tan")
DECLARED = {
    "color": COLORS,
    "background": COLORS,
    "background-color": COLORS,
    "width": ("10px", "20px", "50%"),
    "margin": ("1px", "2px 3px"),
    "margin-left": ("4px", "5px"),
    "font-size": ("11px", "12px"),
    "font": ("13px serif", "14px serif"),
    "letter-spacing": ("1px", "2px", "revert-layer"),
    "border": ("1px solid red", "2px solid blue"),
    "border-left-color": COLORS,
    "--x": ("1", "2"),
}
LOOKED_AT = (
    *(
        "color",
        "background-color",
        "width",
        "margin-left",
        "margin-top",
        "font-size",
        "font-family",
    ),
    *("letter-spacing", "border-left-color", "border-top-color", "border-left-width", "--x"),
)
# What hold in the browser, and what do not.
STATES = (":read-only", ":not(:hover)", ":hover", ":not(:read-only)", ":is(.c:read-only, .f)")
HOLDING = (
    "@media all",
    "@media print",
    "@media (width > 1px)",
    "@supports (color: red)",
    "@layer x",
)
ORDERING = (
    "@layer",
    "@layer y",
    "@layer z",
    "@layer x",
    "@container (width > 1px)",
    "@starting-style",
)

# The elements around such a tree, as far as selectors see them.
AROUND = '<html><head/><body><div id="room">%s</div></body></html>'
SEEN_AROUND = '<html><head><meta/><script/><style/></head><body><div id="room">%s</div><script/></body></html>'

# Sheets and which elements of `ROWS_TREE` have `--p0x: 1`, by their places there, as Chromium says.
ROWS_TREE: "Built" = (
    "a",
    [("class", "c"), ("e", "x")],
    [("b", [], []), ("a", [("class", "f")], [("b", [("id", "d")], [])])],
)
ROWS: Tuple[Tuple[str, List[int]], ...] = (
    # Selectors with a pseudo-element are not in the list that `&` stands for, and do not count.
    (".c, .c::after { &[e] { --p0x: 1 } } .c[e] { --p0x: 2 }", []),
    (".c, .c::after { &[e] { --p0x: 1 } } [e] { --p0x: 2 }", [0]),
    ("#z::before, .c { & b { --p0x: 1 } } .c.c b { --p0x: 2 }", []),
    ("#z::before, .c { & b { --p0x: 1 } } b { --p0x: 2 }", [1, 3]),
    ("#z, .c { & b { --p0x: 1 } } .c.c b { --p0x: 2 }", [1, 3]),
    (".c, b::before { & { --p0x: 1 } } .c { --p0x: 2 }", []),
    ("::before, .c { & { --p0x: 1 } } :where(.c) { --p0x: 2 }", [0]),
    (".c::before { & { --p0x: 1 } & b { --p0x: 1 } }", []),
    # An `&` counts in an invalid selector of a forgiving list, too, unless it is part of another token.
    (".f { :is(b, !&) { --p0x: 1 } }", [1, 3]),
    (".f { :where(b, [&], c) { --p0x: 1 } }", [1, 3]),
    (".f { :is(b, :foo(&)) { --p0x: 1 } }", [1, 3]),
    (".f { :is(b, &::before) { --p0x: 1 } }", [1, 3]),
    (".f { :is(b, :not(!&)) { --p0x: 1 } }", [1, 3]),
    (".f { :not(:is(b, !&)) { --p0x: 1 } }", [0, 2]),
    (".f { :is(b, !) { --p0x: 1 } }", [3]),
    (".f { :is(b, \\&) { --p0x: 1 } }", [3]),
    (".f { :is(b, !/*&*/) { --p0x: 1 } }", [3]),
    (".f { :is(b, '&') { --p0x: 1 } }", [3]),
    (".f { :is(b, [a='&']) { --p0x: 1 } }", [3]),
    (".f { :is(b, !url(&)) { --p0x: 1 } }", [3]),
    # Inside `:has()` an `&` stands for its list with each `:has()` false, but counts as much as ever.
    ("a:has(b) { :has(&) { --p0x: 1 } }", []),
    ("a:has(b), #d { a:has(&) { --p0x: 1 } }", [0, 2]),
    ("a:has(b) { a:not(:has(&)) { --p0x: 1 } }", [0, 2]),
    ("a:has(b) { a:has(:not(&)) { --p0x: 1 } }", [0, 2]),
    ("a:not(:has(b)) { a:has(> &) { --p0x: 1 } }", [0]),
    ("a:has(b), b { a:has(> :nth-child(1 of &)) { --p0x: 1 } }", [0, 2]),
    ("a:has(b) { a:has(> :nth-child(1 of &)) { --p0x: 1 } }", []),
    ("a:has(b) { a:nth-child(1 of &) { --p0x: 1 } }", [0, 2]),
    ("a:has(b) { &.f { a:has(&) { --p0x: 1 } } }", []),
    ("a:has(b) { &.f { & b { --p0x: 1 } } }", [3]),
    ("a:has(b) { :has(&) { :not(&) { --p0x: 1 } } }", [0, 1, 2, 3]),
    ("a:has(b), .f { .c:has(&) { --p0x: 1 } } a[e].c.c { --p0x: 2 }", []),
    ("#z:has(b), .f { .c:has(&) { --p0x: 1 } } a[e].c.c { --p0x: 2 }", [0]),
)

# An element: its name, its attributes and its children.
Built = Tuple[str, List[Tuple[str, str]], List["Built"]]
# A declaration: its property and the lists of selectors around it, from the innermost, each in order.
Placed = Tuple[str, List[List[str]]]


class Source:
    """Random sheets, the same in each run."""

    def __init__(self, seed: int, shared: int = 0) -> None:
        """With a number of properties that declarations share, and not one of its own for each."""
        self._random = random.Random(seed)
        self._properties = 0
        self._shared = shared

    def _declaration(self) -> str:
        self._properties += 1
        if not self._shared:
            return f"--p{self._properties}x:1;"
        name = self._random.randrange(self._shared)
        important = "!important" if self._random.random() < 0.1 else ""
        return f"--p{name}x:{self._properties}{important};"

    def _list(self, depth: int) -> str:
        one = self._random.choice
        kinds = (SIMPLE,) if depth == 0 else (SIMPLE, WITHIN, RELATIVE)
        parts = [one(one(kinds)) for _ in range(one((1, 1, 1, 2, 3)))]
        if self._random.random() < 0.05:
            parts.append(one(WRONG))
        if self._shared and self._random.random() < 0.3:
            parts.append(one(one((ELEMENTS, FORGIVING))))
        return one((", ", ",", " , ")).join(parts)

    def _item(self, depth: int) -> str:
        kind = self._random.random()
        if depth > 0 and kind < 0.4:
            return self._declaration()
        if kind < 0.48:
            return self._random.choice(SKIPPED) if depth > 0 else ""
        if depth > 5:
            return ""
        if kind < 0.62:
            # Outside of style rules a group rule has no declarations.
            inner = depth + 1 if depth > 0 else 0
            return f"{self._random.choice(GROUPS)} {{{self._items(inner)}}}"
        return f"{self._list(depth)} {{{self._items(depth + 1)}}}"

    def _items(self, depth: int) -> str:
        blank = self._random.choice(("", " ", "\n"))
        return blank.join(self._item(depth) for _ in range(self._random.randrange(6)))

    def sheet(self, cut: float = 0.1) -> str:
        """A sheet, of which some are cut."""
        self._properties = 0
        text = self._items(0) + self._items(0)
        is_cut = self._random.random() < cut
        return text[: self._random.randrange(len(text) + 1)] if is_cut else text

    def tree(self, depth: int = 0) -> Built:
        """A tree of elements."""
        one = self._random.choice
        attributes = [("class", one(("c", "f", "c f", "g"))), ("id", one("de")), ("e", "x")]
        kept = [each for each in attributes if self._random.random() < 0.4]
        count = self._random.randrange(1, 4) if depth < 4 else 0
        return one("ab"), kept, [self.tree(depth + 1) for _ in range(count)]


class Unsupported(Source):
    """Random sheets, of which some selectors are of shadow trees."""

    def _list(self, depth: int) -> str:
        text, shadowed = super()._list(depth), self._random.choice(SHADOWED)
        return self._random.choice((text, text, text, f"{text}, {shadowed}", shadowed))


class Having(Source):
    """Random sheets of one rule in another, whose selectors have `:has()`.

    The browser keeps what it found of `:has(&)` and of `:nth-child(.. of S)` by their texts, also for another
    `&` and inside `:has()`. So there is one chain of rules in each sheet.
    """

    def sheet(self, cut: float = 0.1) -> str:
        """A chain of two to four rules. None is cut."""
        chain = [self._random.choice(HAS)]
        for _ in range(self._random.randrange(1, 4)):
            parts = [self._random.choice(WITHIN_HAS) for _ in range(self._random.choice((1, 1, 2)))]
            chain.append(", ".join(parts))
        blocks = [f"{each} {{ --p0x: {depth}; " for depth, each in enumerate(chain)]
        return "".join(blocks) + "}" * len(blocks)


class Pages(Source):
    """Random pages with a sheet, the same in each run."""

    def _declaration(self) -> str:
        one = self._random.choice
        name = one(tuple(DECLARED))
        return f"{name}:{one(DECLARED[name])}{' !important' * (self._random.random() < 0.15)};"

    def _selector(self, depth: int) -> str:
        one = self._random.choice
        found = one(one((SIMPLE,) if depth == 0 else (SIMPLE, WITHIN, RELATIVE)))
        return found + one(STATES) if self._random.random() < 0.15 else found

    def _list(self, depth: int) -> str:
        return ", ".join(self._selector(depth) for _ in range(self._random.choice((1, 1, 1, 2, 3))))

    def _item(self, depth: int) -> str:
        kind = self._random.random()
        if depth > 0 and (kind < 0.5 or depth > 3):
            return self._declaration()
        if kind < 0.55:
            return self._random.choice(SKIPPED) if depth > 0 else ""
        if kind < 0.65:
            group = self._random.choice(self._random.choice((HOLDING, ORDERING)))
            return f"{group} {{{self._items(depth + 1 if depth > 0 else 0)}}}"
        return f"{self._list(depth)} {{{self._items(depth + 1)}}}"

    def page(self) -> str:
        """A page, some of whose elements have declarations of their own. The parser of HTML moves
        no element of it."""
        page = f"<style>{self.sheet(cut=0.02)}</style><body>{self._html(self.tree())}"
        return "<!DOCTYPE html>" + re.sub(r"\bb\b", "cite", re.sub(r"\ba\b", "q", page))

    def _html(self, built: Built) -> str:
        name, attributes, children = built
        own = [("style", self._declaration())] if self._random.random() < 0.1 else []
        words = "".join(f' {key}="{value}"' for key, value in (*attributes, *own))
        return f"<{name}{words}>{''.join(map(self._html, children))}</{name}>"


def xml_of(built: Built) -> str:
    """The tree as XML."""
    name, attributes, children = built
    words = "".join(f' {key}="{value}"' for key, value in attributes)
    return f"<{name}{words}>{''.join(map(xml_of, children))}</{name}>"


class Rules(NamedTuple):
    """The rules of a sheet by the offset of their blocks, and the lists, each with what it is under."""

    blocks: Dict[int, Tuple[str, List[str], int]]
    lists: List[Tuple[List[str], int]]


def rules_of(fields: Sequence[Sequence[str]]) -> Rules:
    """What the program prints of a sheet."""
    rules = Rules({}, [])
    selectors: List[str] = []
    under = 0
    for kind, first, second, block in fields:
        if kind == "rule":
            number, start = second.split()
            rules.blocks.setdefault(int(start), (block, [], int(number)))[1].append(first)
        elif kind == "list":
            selectors.append(first)
            under = int(second)
        else:
            rules.lists.append((selectors, under))
            selectors = []
    return rules


def chain_of(rules: Rules, selectors: List[str], number: int) -> Iterator[List[str]]:
    """These selectors and the lists that they are under."""
    yield sorted(selectors)
    while number:
        outer, number = rules.lists[number - 1]
        yield sorted(outer)


def ours(fields: Sequence[Sequence[str]]) -> List[Placed]:
    """The declarations of the rules that the program reads, as they stand in the sheet."""
    rules = rules_of(fields)
    placed = []
    for _, (block, selectors, number) in sorted(rules.blocks.items()):
        chain = list(chain_of(rules, selectors, number))
        names = [text for text in block.split(":")[:-1] if "--p" in text]
        placed += [(name[name.index("--p") :], chain) for name in names]
    return placed


def won(names: List[str], cases: List[Dict[str, Any]]) -> Optional[List[Any]]:
    """The values that the browser computes of these properties in each case."""
    return browser_answers(WON, {"names": names, "cases": cases})


def theirs(found: Sequence[Tuple[str, Sequence[str]]]) -> List[Placed]:
    """The declarations that the browser reads."""
    return [(name, [sorted(selectors.split(", ")) for selectors in chain]) for name, chain in found]


class NestedRules(Case):
    def test_sheets(self) -> None:
        """The declarations that the program reads, each with the selectors around it."""
        source = Source(66)
        texts = [source.sheet() for _ in range(count(3_000))]

        def browser(asked: List[Any]) -> Optional[List[Any]]:
            return browser_answers(PAGE, [text for text, _ in asked])

        def question(one: Any, answer: Any) -> Iterator[Optional[str]]:
            text, fields = one
            yield row(repr(text), ours(fields), theirs(answer))

        self.against(browser, zip(texts, fields_of("nesting", texts)), question)

    def test_unsupported(self) -> None:
        """Each declaration that the browser reads is in a rule of the package or in an unsupported one for each
        selector, also those of group rules and nested rules whose selectors are unsupported."""
        source = Unsupported(70)

        def question(text: str, answer: Any) -> Iterator[Optional[str]]:
            sheet = StyleSheet(text)
            stated = [each.declarations for each in sheet.rules]
            stated += [each.declarations for each in sheet.unsupported]
            names = (it.name for declarations in stated for it in declarations)
            mine = Counter(name for name in names if name.startswith("--"))
            yield row(
                repr(text), mine, Counter({it: len(chain[0].split(", ")) for it, chain in answer})
            )

        texts = (source.sheet() for _ in range(count(2_000)))
        self.against(partial(browser_answers, PAGE), texts, question)

    def test_winners(self) -> None:
        """The package finds the values that the browser computes, and the rules of `match` have them."""
        source = Source(67, shared=6)
        names = [f"--p{number}x" for number in range(6)]
        cases = [
            {"text": source.sheet(cut=0), "tree": source.tree(), "names": names}
            for _ in range(count(1_000))
        ]

        def question(case: Dict[str, Any], answer: Any) -> List[Optional[str]]:
            sheet, tree = StyleSheet(case["text"]), Tree.from_xml(AROUND % xml_of(case["tree"]))
            found = []
            for each, matched in zip(sheet.styles(tree), sheet.match(tree)):
                stated = {it.name for rule in matched for it in sheet.rules[rule].declarations}
                found.append((sorted([it.name, it.value] for it in each), stated))
            due = [(sorted(each), {name for name, _ in each}) for each in answer]
            return rows(repr(case["text"]), found[-len(due) :], due)

        self.against(in_turns(lambda asked: won(names, asked)), cases, question)

    def test_has(self) -> None:
        """Inside `:has()` each `:has()` is false that `&` reaches, as in the browser."""
        source, names = Having(int(os.environ.get("SEED", 89))), ["--p0x"]
        cases: List[Dict[str, Any]] = [
            {"text": source.sheet(), "tree": source.tree(), "names": names}
            for _ in range(count(1_000))
        ]

        def question(case: Dict[str, Any], answer: Any) -> Iterator[Optional[str]]:
            tree = Tree.from_xml(SEEN_AROUND % xml_of(case["tree"]))
            found = StyleSheet(case["text"]).style(tree, "--p0x")[-len(answer) - 1 : -1]
            mine = [each.value if each else None for each in found]
            yield row(repr(case["text"]), mine, [each[0][1] if each else None for each in answer])

        self.against(in_turns(lambda asked: won(names, asked)), cases, question)

    def test_rows(self) -> None:
        """What `&` stands for, what it counts, and where it is."""
        tree = Tree.from_xml(AROUND % xml_of(ROWS_TREE))
        for text, due in ROWS:
            with self.subTest(text=text):
                found = StyleSheet(text).style(tree, "--p0x")[-4:]
                self.assertEqual([at for at, it in enumerate(found) if it and it.value == "1"], due)

        def question(case: Dict[str, Any], answer: Any) -> Iterator[Optional[str]]:
            found = [at for at, each in enumerate(answer) if each == [["--p0x", "1"]]]
            yield row(case["text"], found, case["due"])

        names = ["--p0x"]
        cases = [{"text": it, "due": due, "tree": ROWS_TREE, "names": names} for it, due in ROWS]
        self.against(lambda asked: won(names, asked), cases, question)

    def test_inlined(self) -> None:
        """Pages look in the browser as they did before `inline`."""
        source = Pages(int(os.environ.get("SEED", 68)))
        pages = [source.page() for _ in range(count(100))]

        def browser(pages: List[Any]) -> Optional[List[Any]]:
            return browser_answers(LOOKS, {"names": LOOKED_AT, "pages": pages})

        def question(pair: Tuple[str, str], looks: Any) -> Iterator[Optional[str]]:
            yield row(pair, *reversed(looks))

        self.against(browser, [(page, inline(page)) for page in pages], question)
