"""The cascade beside a browser: which declarations win on the elements of random drawings, of rules in
layers, of style attributes and of presentation attributes, and which of a longhand's and its shorthands'.

The browser is Debian's `chromium`. No property inherits, and each declaration has a value of its own, so that
the value that is computed says which one won.
"""
from __future__ import annotations

import html
import json
import random
from typing import Any, Dict, Iterator, List, Optional, Sequence, Tuple

from tests.common import Case, browser_answers, count, in_turns, package, read, row, rows

package()
from simplecss import StyleSheet, Tree, compare  # noqa: E402

COLORS = ("flood-color", "stop-color", "lighting-color")
INITIAL = {"flood-color": "rgb(0, 0, 0)", "stop-color": "rgb(0, 0, 0)"}
INITIAL["lighting-color"] = "rgb(255, 255, 255)"
MARGINS = ("margin-top", "margin")
BACK = ("revert-layer", "revert-layer", " Revert-Layer/**/", "revert", "/**/ REVERT ", "r\\65vert")
# Names of layers, and what a rule in them gives.
NAMES = (
    *(("a/**/.b", "red"), ("a./**/b", "red"), ("a/**//**/./**/b/**/", "red")),
    *(("/**/a", "red"), ("a /**/.b", None), ("a/**/ .b", None), ("a/**/. b", None)),
    *(("a/**/b", None), ("a/**/.", None), ("a/**/./**/", None), (".a", None)),
)
# Those of them that stand in what is applied, without what is around them.
UNDONE = ("revert-layer", "Revert-Layer", "revert", "REVERT", "r\\65vert")
SELECTORS = (".a", ".b", "#d", "rect", "g", "*", "g .b", "rect.a", ":is(#d, .b)", "g > rect")
GROUPS = (
    *("@layer x", "@layer y", "@layer x.z", "@layer", "@media all", "@layer y"),
    *("@layer x/**/.z", "@layer y./**//*.*/z", "@layer/**/y/**/", "@layer x .z", "@layer x/**/y"),
)
ORDERS = ("y/**/, x", "x/**/./**/z,y", "y.z,/**/x/**/.z", "x. z, y", "y, x/**/ .z")

# What may stand in the fallback of a reference, and what makes the declaration invalid there.
FILLINGS = (
    *("", "1px", "a b", "'!;)'", '"var()"', "[;!]", "{!;}", "{var(--a)}", "/*!*/", "(;)", "a, b"),
    *(
        "url(x)",
        "\\!",
        "f(;)",
        "<!-- -->",
        "'\\'!'",
        "url(';')",
        "/*var()*/",
        "var /**/(b)",
        "var2(b)",
    ),
    *("!", "!important", ";", "]", "a ! b", "url(var(--a))", "'x\n'", "/**/!", "a;b"),
)
REFERRED: Tuple[str, ...] = (
    "--a",
    "\\2d-a",
    "\\2d\\2d a",
    "--\\29",
    "-\\-a",
    "---",
    "--\u00e9",
    "--1",
    "--\\31 ",
    "a",
)
REFERRED += (
    "-a",
    "--",
    "\\2d a",
    "",
    "'--a'",
    "--a b",
    "--a/**/b",
    "(--a)",
    "{--a}",
    "--a;",
    "--a!",
)
# Beside the reference that names the color: a browser reads values with references only as far as these go.
SPELLINGS = ("var({}{})", "VAR( {} {})", "v\\61r({}{})", "var(/**/{}/**/{})")
AROUND = ("{}", "{}", "f({})", "[{}]", "{{{}}}", "a {}", "/**/{}/**/ b")

PAGE = """
<!DOCTYPE html><meta charset=utf-8><script id=input type="application/json">%s</script>
<style id=sheet></style><div id=room></div>
<script>
const input = JSON.parse(document.getElementById("input").textContent);
const room = document.getElementById("room"), sheet = document.getElementById("sheet");
const answers = input.cases.map(({text, drawing}) => {
    sheet.textContent = text;
    room.innerHTML = drawing;
    return [...room.querySelectorAll("svg *")].map(element => {
        const style = getComputedStyle(element);
        return input.names.map(name => style.getPropertyValue(name));
    });
});
document.documentElement.textContent = "ANSWER" + JSON.stringify(answers) + "END";
</script>
"""

# The same of whole documents: the color of each element that has an attribute `t`.
DOCUMENTS = """
<!DOCTYPE html><meta charset=utf-8><script id=input type="application/json">%s</script>
<iframe id=frame width=800></iframe>
<script>
const frame = document.getElementById("frame");
const answers = JSON.parse(document.getElementById("input").textContent).map(text => {
    const page = frame.contentDocument;
    page.open();
    page.write(text);
    page.close();
    const found = [...page.querySelectorAll("[t]")];
    return found.map(element => frame.contentWindow.getComputedStyle(element).color);
});
document.documentElement.textContent = "ANSWER" + JSON.stringify(answers) + "END";
</script>
"""
SHOWN = {
    **{"red": "rgb(255, 0, 0)", "green": "rgb(0, 128, 0)", "blue": "rgb(0, 0, 255)"},
    **{"lime": "rgb(0, 255, 0)", "gray": "rgb(128, 128, 128)", "purple": "rgb(128, 0, 128)"},
    **{"teal": "rgb(0, 128, 128)"},
}

INHERITED = ("inherit", "unset")

# What is applied to elements of these kinds, which browsers give margins, in place of rules.
KINDS = ("blockquote", "ul", "div")
SHORT = {
    "margin": "{}px",
    "margin-top": "{}px",
    "margin-left": "{}px",
    "margin-block": "{}px",
    "padding": "{}px",
    "padding-left": "{}px",
    "padding-inline-start": "{}px",
    "border": "{}px solid rgb({}, 0, 7)",
    "border-top": "{}px solid rgb({}, 0, 8)",
    "border-color": "rgb({}, 0, 9)",
    "border-top-width": "{}px",
    "border-style": "dotted",
    "font": "{}px serif",
    "font-size": "{}px",
    "background": "rgb({}, 0, 5)",
    "background-color": "rgb({}, 0, 6)",
    "color": "rgb({}, 0, 4)",
    "all": "unset",
}
COMPUTED = (
    "margin-top",
    "margin-bottom",
    "margin-left",
    "padding-left",
    "padding-top",
    "border-top-width",
    "border-top-color",
    "border-left-style",
    "border-left-color",
    "font-size",
    "font-family",
    "background-color",
    "color",
    "display",
)
APPLIED = """
<!DOCTYPE html><meta charset=utf-8><script id=input type="application/json">%s</script>
<style id=sheet></style><main id=room></main>
<script>
const input = JSON.parse(document.getElementById("input").textContent);
const room = document.getElementById("room"), sheet = document.getElementById("sheet");
const values = element => input.names.map(name => getComputedStyle(element).getPropertyValue(name));
const answers = input.cases.map(({text, drawing, styles}) => {
    sheet.textContent = text;
    room.innerHTML = drawing;
    const elements = [...room.querySelectorAll("*")], due = elements.map(values);
    sheet.textContent = "";
    elements.forEach((element, index) => element.setAttribute("style", styles[index]));
    return [due, elements.map(values)];
});
document.documentElement.textContent = "ANSWER" + JSON.stringify(answers) + "END";
</script>
"""


class Source:
    """Random sheets and drawings, the same in each run."""

    def __init__(self, seed: int) -> None:
        self._random = random.Random(seed)
        self._number = 0

    def _color(self) -> str:
        self._number += 1
        return f"rgb({self._number % 200 + 1}, {self._number // 200}, 7)"

    def declarations(self) -> str:
        """Some declarations."""
        found = []
        for _ in range(self._random.randrange(1, 5)):
            name = self._random.choice((*COLORS, *MARGINS))
            value = self._color() if name in COLORS else self._length()
            if self._random.random() < 0.2:
                value = self._random.choice(BACK)
            important = self._random.choice(("", "", " !important"))
            found.append(f"{name}: {value}{important}")
        return "; ".join(found)

    def _length(self) -> str:
        self._number += 1
        return f"{self._number}px"

    def _item(self, depth: int) -> str:
        if depth < 3 and self._random.random() < 0.5:
            inner = "".join(self._item(depth + 1) for _ in range(self._random.randrange(4)))
            return f"{self._random.choice(GROUPS)} {{{inner}}}"
        if self._random.random() < 0.1:
            return f"@layer {self._random.choice(ORDERS)};"
        return f"{self._random.choice(SELECTORS)} {{{self.declarations()}}}"

    def sheet(self) -> str:
        """A sheet of rules in layers."""
        self._number = 0
        return "".join(self._item(0) for _ in range(self._random.randrange(8)))

    def changed(self) -> Tuple[str, str]:
        """A sheet, and the same with a rule or a layer taken out, put elsewhere or put in."""
        self._number = 0
        items = [self._item(0) for _ in range(self._random.randrange(2, 7))]
        others = [*items, self._item(0)] if self._random.random() < 0.3 else items.copy()
        taken = others.pop(self._random.randrange(len(others)))
        if self._random.random() < 0.7:
            others.insert(self._random.randrange(len(others) + 1), taken)
        return "".join(items), "".join(others)

    def element(self, depth: int = 0) -> str:
        """An element with what is in it."""
        is_likely = self._random.random
        words = [f' class="{self._random.choice(("a", "b", "a b"))}"', ' id="d"']
        words += [f' {name}="{self._hint()}"' for name in COLORS]
        words.append(f' style="{self.declarations()}"')
        kept = "".join(word for word in words if is_likely() < 0.4)
        inner = "".join(
            self.element(depth + 1) for _ in range(self._random.randrange(3 if depth < 3 else 1))
        )
        name = self._random.choice(("g", "rect"))
        return f"<{name}{kept}>{inner}</{name}>"

    def short(self, back: Tuple[str, ...]) -> str:
        """Some declarations of shorthands and of longhands, some of which are rolled back."""
        found = []
        for _ in range(self._random.randrange(1, 5)):
            name, form = self._random.choice(tuple(SHORT.items()))
            self._number += 1
            value = form.format(self._number % 200 + 1, self._number % 256)
            if self._random.random() < 0.3:
                value = self._random.choice(back)
            important = self._random.choice(("", "", " !important"))
            found.append(f"{name}: {value}{important}")
        return "; ".join(found)

    def rules(self, back: Tuple[str, ...], layers: Tuple[str, ...]) -> str:
        """Rules with such declarations, some in layers."""
        self._number = 0
        selectors = (*KINDS, ".a", ".b", "#d", "div .a", "div > *")
        found = []
        for _ in range(self._random.randrange(1, 7)):
            rule = f"{self._random.choice(selectors)} {{{self.short(back)}}}"
            layer = self._random.choice(("", *layers))
            found.append(f"{layer} {{{rule}}}" if layer else rule)
        return "".join(found)

    def blocks(self, depth: int = 0) -> str:
        """An element of HTML with what is in it."""
        words = (' class="a"', ' class="b"', ' class="a b"', ' id="d"', "", "")
        inner = "".join(
            self.blocks(depth + 1) for _ in range(self._random.randrange(3 if depth < 2 else 1))
        )
        kind = self._random.choice(KINDS)
        return f"<{kind}{self._random.choice(words)}>{inner}</{kind}>"

    def _reference(self, depth: int) -> str:
        """A reference `var()`, which may be invalid, with what is around it."""
        inner = f",{self._filling(depth + 1)}" if self._random.random() < 0.6 else ""
        name = self._random.choice(REFERRED[:9] * 3 + REFERRED)
        found = self._random.choice(SPELLINGS).format(name, inner)
        return self._random.choice(AROUND).format(found)

    def _filling(self, depth: int) -> str:
        """What is in a fallback."""
        if depth < 4 and self._random.random() < 0.5:
            return self._reference(depth)
        return self._random.choice(FILLINGS[:20] * 2 + FILLINGS)

    def references(self, known: Dict[str, str]) -> str:
        """Some declarations, of which a half refer to a color of a number, with a fallback that may be
        invalid. What each value comes to, if it is declared, is noted."""
        found = []
        for _ in range(self._random.randrange(1, 5)):
            name = self._random.choice(("flood-color", "stop-color", "--x"))
            value = color = self._color()
            if self._random.random() < 0.7:
                value = f"var(--c{self._number},{self._filling(0)})"
            known[value] = color
            found.append(f"{name}: {value}{self._random.choice(('', '', ' !important'))}")
        return "; ".join(found)

    def referring(self) -> Dict[str, Any]:
        """Rules and an element with such declarations, the last of which the end of the text may close."""
        self._number, known = 0, {"": ""}
        rules = [f"rect {{{self.references(known)}}}", f".a {{{self.references(known)}}}"]
        style = self.references(known)
        if self._random.random() < 0.2:
            color = self._color()
            known[f"var(--c{self._number})"] = color
            style += f"; stop-color: var(--c{self._number}"
        colors = "".join(f"--c{number}: {color};" for number, color in self._colors())
        drawing = f'<svg><rect class="a" style="{html.escape(style)}"/></svg>'
        return {"text": f"* {{{colors}}}" + "".join(rules), "drawing": drawing, "known": known}

    def _colors(self) -> List[Tuple[int, str]]:
        """The numbers of colors that were made, each with its color."""
        made = range(1, self._number + 1)
        return [(each, f"rgb({each % 200 + 1}, {each // 200}, 7)") for each in made]

    def _hint(self) -> str:
        """The value of a presentation attribute, of which some are none."""
        wrong = ("{}; stop-color: red", "{} !important", "{}}}", ";{}", "")
        return self._random.choice(("{}",) * 9 + wrong).format(self._color())


def computed(page: str, names: Sequence[str], cases: List[Any]) -> Optional[List[Any]]:
    """The values that the browser computes of these properties in each case."""
    return browser_answers(page, {"names": names, "cases": cases})


def taken_out(source: Source) -> Iterator[Dict[str, Any]]:
    """Sheets and drawings where more and more of the declarations of a property that apply to the last element are
    of another property, as they are explained, and what is left then. None is rolled back."""
    text, drawing = source.sheet(), f"<svg>{source.element()}</svg>"
    tree = Tree.from_html(drawing)
    drawn = [each for each in tree if each.name in ("g", "rect")]
    for name in COLORS:
        found = StyleSheet(text).explain(drawn[-1], name).contenders
        if not all(each.value.startswith("rgb(") for each in found):
            continue
        for value in (*(each.value for each in found), INITIAL[name]):
            yield {
                **{"text": text, "drawing": drawing, "name": name, "value": value},
                "index": len(drawn) - 1,
            }
            for before, after in ((": ", ""), ('="', '"')):
                one = f"{name}{before}{value}{after}"
                text, drawing = text.replace(one, f"x{one}"), drawing.replace(one, f"x{one}")


class Cascade(Case):
    def test_winners(self) -> None:
        """The package finds the values that the browser computes."""
        source = Source(101)
        cases = [
            {"text": source.sheet(), "drawing": f"<svg>{source.element()}{source.element()}</svg>"}
            for _ in range(count(1_500))
        ]
        names = [*COLORS, "margin-top"]

        def question(case: Dict[str, Any], due: Any) -> List[Optional[str]]:
            sheet, tree = StyleSheet(case["text"]), Tree.from_html(case["drawing"])
            styles = sheet.styles(tree, specified=True)
            margins = sheet.style(tree, "margin-top", specified=True, shorthands=True)
            found = []
            for element in tree:
                stands = (each for each in styles[element] if each.value not in UNDONE)
                won = {each.name: each.value for each in stands}
                margin = margins[element]
                mine = [won.get(name, INITIAL[name]) for name in COLORS]
                if element.name in ("g", "rect"):
                    found.append([*mine, "0px" if margin is None else margin.value])
            return rows(case, found, due)

        self.against(in_turns(lambda asked: computed(PAGE, names, asked)), cases, question)

    def test_compared(self) -> None:
        """Where the browser computes another value by a changed sheet, `compare` names the property."""
        source, names = Source(109), [*COLORS, "margin-top"]
        pairs = [source.changed() for _ in range(count(400))]
        drawings = [f"<svg>{source.element()}{source.element()}</svg>" for _ in pairs]
        cases = [
            [{"text": text, "drawing": drawing} for text in pair]
            for pair, drawing in zip(pairs, drawings)
        ]
        quiet = 0

        def question(case: List[Dict[str, str]], due: List[Any]) -> List[Optional[str]]:
            nonlocal quiet
            old, new = (StyleSheet(each["text"]) for each in case)
            tree = Tree.from_html(case[0]["drawing"])
            shown = [each for each in tree if each.name in ("g", "rect")]
            found = {(each.element, each.name) for each in compare(old, new, tree)}
            quiet += not found
            named = [[name for name in names if (element, name) in found] for element in shown]
            missed = [
                [
                    name
                    for name, one, other in zip(names, *both)
                    if one != other and name not in those
                ]
                for those, *both in zip(named, *due)
            ]
            return rows(case, missed, [[] for _ in shown])

        def judge(asked: List[List[Dict[str, str]]]) -> Optional[List[Any]]:
            found = computed(PAGE, names, [each for case in asked for each in case])
            return found if found is None else list(zip(found[::2], found[1::2]))

        self.against(judge, cases, question)
        self.assertLess(len(cases) // 20, quiet)

    def test_explained(self) -> None:
        """Each declaration of an explanation is what the browser shows once those before it are taken out."""
        source = Source(104)
        cases = [each for _ in range(count(800)) for each in taken_out(source)]

        def question(case: Dict[str, Any], due: Any) -> List[Optional[str]]:
            return rows(case, [case["value"]], [due[case["index"]][COLORS.index(case["name"])]])

        self.against(lambda asked: computed(PAGE, COLORS, asked), cases, question)

    def test_written_sheets(self) -> None:
        """Sheets that were written for what the standards say of nesting, layers, rolling back, selectors and syntax,
        those of tests/cases/wins.json: each element has the color that the browser computes."""
        cases = json.loads(read("tests", "cases", "wins.json"))["cases"]

        def document(case: List[str], sheet: str) -> str:
            style, body = (
                f"<style>{sheet}</style>",
                f"<div style='color: rgb(1, 2, 3)'>{case[2]}</div>",
            )
            return f"<!DOCTYPE html><html><head>{style}</head><body>{body}</body></html>"

        def question(case: List[str], due: Any) -> List[Optional[str]]:
            tree, sheet = Tree.from_html(document(case, "")), StyleSheet(case[1])
            shown: Dict[Any, str] = {None: "rgb(0, 0, 0)"}
            for each, won in zip(tree, sheet.style(tree, "color", specified=True)):
                inherited = shown[each.parent]
                value = won.value if won else "inherit"
                shown[each] = SHOWN.get(value, value) if value not in INHERITED else inherited
            found = [shown[each] for each in tree if "t" in each.attributes]
            if len(case) == 3:
                return rows(case[:2], found, due)
            return [None if found != due else f"{case[0]}: no difference by {case[3]}"]

        def judge(asked: List[List[str]]) -> Optional[List[Any]]:
            found = browser_answers(DOCUMENTS, [document(case, case[1]) for case in asked])
            return found if found is None else list(found)

        self.against(judge, cases, question)

    def test_invalid_references(self) -> None:
        """A declaration with an invalid `var()` does not count: what is before it does, as in the browser."""
        source, names = Source(103), ["flood-color", "stop-color", "--x"]
        cases = [source.referring() for _ in range(count(1_500))]

        def question(case: Dict[str, Any], due: Any) -> List[Optional[str]]:
            styles = StyleSheet(case["text"]).styles(
                Tree.from_html(case["drawing"]), specified=True
            )
            won = {each.name: each.value for each in styles[-1]}
            mine = [case["known"].get(won.get(name, "")) or INITIAL.get(name, "") for name in names]
            return rows(case, [mine], due)

        self.against(lambda asked: computed(PAGE, names, asked), cases, question)

    def test_applied(self) -> None:
        """What wins, written into `style` in order, gives an element the values that the rules do."""
        source = Source(102)
        kinds = (
            (("revert", " REVERT/**/"), ("@layer x", "@layer y", "@layer x.z", "@layer")),
            (("revert", "revert-layer"), ()),
        )
        cases: List[Dict[str, Any]] = []
        texts = (
            "div{margin:0} div{margin-top:revert}",
            "ul{margin-top:0} ul{margin:revert}",
            "ul{margin-top:0;color:red} ul{all:revert}",
            "@layer a{div{margin-top:3px!important}} div{margin:0!important}",
        )
        for number in range(count(1_500)):
            text = texts[number] if number < len(texts) else source.rules(*kinds[number % 2])
            cases.append({"text": text, "drawing": source.blocks() + source.blocks()})
        for case in cases:
            tree = Tree.from_html(f"<!DOCTYPE html>{case['drawing']}")
            styles = StyleSheet(case["text"]).styles(tree)
            case["styles"] = [
                "; ".join(map(str, styles[each])) for each in tree if each.name in KINDS
            ]

        def question(case: Dict[str, Any], answer: Any) -> List[Optional[str]]:
            due, found = answer
            return rows(f"{case['text']}: {case['styles']}", found, due)

        self.against(lambda asked: computed(APPLIED, COMPUTED, asked), cases, question)

    def test_origins(self) -> None:
        """By CSS Cascading 5, section 6.1: importance, and of important declarations the earlier origin."""
        tree = Tree.from_html(
            "<svg><rect style='e: style; d: style !important' fill='hint'/></svg>"
        )
        sheet = StyleSheet(
            "#x, rect { a: program; b: program !important; fill: program; d: program !important }",
            "rect { a: user; b: user !important; c: user !important; fill: user }",
            "@layer { rect { a: author; c: author !important; fill: author; e: author } }",
            origins=("user-agent", "user"),
        )
        index = [each.name for each in tree].index("rect")
        won = {each.name: each.value for each in sheet.styles(tree, specified=True)[index]}
        due = {"a": "author", "b": "program", "c": "user", "d": "program", "e": "style"}
        self.assertEqual(won, {**due, "fill": "author"})
        no_author = StyleSheet(
            "rect { fill: program }", "rect { fill: user }", origins=("user-agent", "user")
        )
        hinted = no_author.style(tree, "fill", specified=True)[index]
        self.assertEqual(hinted and hinted.value, "hint")

    def test_names_of_layers(self) -> None:
        """Comments may be around the dot of a name, since they are no tokens, and white space may not."""
        ordered = "@layer {}; @layer x.a {{ rect {{ color: red }} }} @layer x.b {{ rect {{ color: blue }} }}"
        texts = [
            *((f"@layer {name} {{ rect {{ color: red }} }}", due) for name, due in NAMES),
            (ordered.format("x.b/**/, x/**/.a"), "red"),
            (ordered.format("x.b, x./**/a"), "red"),
            (ordered.format("x.b, x .a"), "blue"),
            ("@import url() layer(a); @layer a/**/. b {} rect { color: red }", "red"),
        ]
        drawing = "<svg><rect/></svg>"
        tree = Tree.from_html(drawing)
        for text, due in texts:
            with self.subTest(text=text):
                found = StyleSheet(text).style(tree, "color")[-1]
                self.assertEqual(found and found.value, due)
        shown = {"red": "rgb(255, 0, 0)", "blue": "rgb(0, 0, 255)", None: "rgb(0, 0, 0)"}

        def question(case: Dict[str, Any], answer: Any) -> Iterator[Optional[str]]:
            yield row(case["text"], answer, [[shown[case["due"]]]])

        cases = [{"text": text, "drawing": drawing, "due": due} for text, due in texts]
        self.against(lambda asked: computed(PAGE, ["color"], asked), cases, question)

    def test_layers_of_origins(self) -> None:
        """By CSS Cascading 5, section 6.4.3: each origin has its own order of layers."""
        text = "@layer {0}; @layer a {{ p {{ x: {1}-a; y: {1}-a !important }} }} @layer b {{ p {{ x: {1}-b; y: {1}-b !important }} }}"
        sheet = StyleSheet(
            text.format("a, b", "program"), text.format("b, a", "author"), origins=("user-agent",)
        )
        found = sheet.styles(Tree.from_html("<p>"), specified=True)[-1]
        self.assertEqual(
            {each.name: each.value for each in found}, {"x": "author-a", "y": "program-a"}
        )

    def test_reverting(self) -> None:
        """By CSS Cascading 5, sections 7.3.4 and 7.3.5: to the origin before, of which hints are the
        author's, or to the layer before."""
        tree = Tree.from_html(
            "<svg><rect style='e: revert; f: revert-layer' fill='hint' stroke='hint'/></svg>"
        )
        sheet = StyleSheet(
            "rect { a: program; b: program; c: revert; --d: program; e: program; fill: program; stroke: program }",
            "rect { a: user; b: revert; --d: user; e: user; g: revert-layer }",
            "rect { a: revert; b: revert; --d: Revert; e: author; f: author; fill: revert; stroke: revert-layer }",
            origins=("user-agent", "user"),
        )
        index = [each.name for each in tree].index("rect")
        won = {each.name: each.value for each in sheet.styles(tree, specified=True)[index]}
        due = {
            "a": "user",
            "b": "program",
            "c": "revert",
            "--d": "user",
            "e": "user",
            "f": "author",
        }
        self.assertEqual(won, {**due, "fill": "program", "stroke": "hint"})
        short = StyleSheet(
            "@layer { p { margin: 1px } } p { margin-top: 2px; margin: revert-layer }"
        )
        found = short.style(Tree.from_html("<p>"), "margin-top", shorthands=True)[-1]
        self.assertEqual(str(found), "margin: 1px")

    def test_named(self) -> None:
        """Of an important declaration of a longhand and one of its shorthand, that in the earlier layer wins."""
        tree = Tree.from_html("<p>")
        sheet = StyleSheet(
            "@layer a { p { margin: 1px !important } } @layer b { p { margin-top: 2px !important } }"
        )
        found = sheet.style(tree, "margin-top", shorthands=True)[-1]
        self.assertEqual(str(found), "margin: 1px !important")
