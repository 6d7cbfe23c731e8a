"""Edits of style sheets by places, beside tinycss2 and a browser.

The sheets are random, those of `printed`, and the same in each run. Of random edits tinycss2 says that every
other node of the sheet is as it was, and a browser that its rules are the old ones with the edits. Elements look the
same under a sheet and under the flat one, and so they do under a bundle. Source maps lead from what is kept to where it was. The browser is
Debian's `chromium`, tinycss2 may be Debian's alone; the library is built by `./build library`.
"""
from __future__ import annotations

import base64
import importlib.util
import random
import re
from typing import Any, Callable, Dict, Iterator, List, Optional, Tuple, Union

from tests.common import (
    Case,
    browser_answers,
    by_debian,
    count,
    package,
    real_sheets,
    sheets_folder,
)
from tests.printed import PAGE, Source

package()
import simplecss  # noqa: E402

SHEETS = count(300)
# Selectors that are edited, and values.
PLAIN = re.compile(r"[^:\\&(]*[\w\]]")
MARK = ".edited"
DIGITS = "ABCDEFGHIJKLMNOPQRSTUVWXYZabcdefghijklmnopqrstuvwxyz0123456789+/"
# What would be read as something else in place of a selector, a value, a declaration and a statement.
BAD_SELECTORS = ("a{", "a}", "a{}b", "", " a", "a ", "a;b{}", "'", "/*", "a[", "a\\", "@media x")
BAD_VALUES = (
    "",
    "1;b:c",
    "1}",
    "}",
    "1 !important",
    " 1",
    "1 ",
    "'",
    "(",
    ")",
    "/*",
    "1\\",
    "url(a b)",
    "{}",
)
BAD_CONTENTS = ("}", "a{", "} b{", "'", "/*", "a{b:'}", "a:b}c{d:e")
BAD_STATEMENTS = ("}", "a{", "a", "'", "/*", "a{b:c", "@x")
LINES = re.compile("\r\n|\n|\r|\f")
# The properties that are compared of elements, and the elements.
NAMES = ("color", "top", "left", "width", "z-index")
ELEMENTS = (
    "<div class=a id=i><p class=b>1<b class=c>2</b></p><p class='a b'>3<i class=c id=j>4</i></p>"
    "<div class=c><p class=a>5</p></div></div>"
)
INNER = (
    "&",
    "& .c",
    ".b &",
    "&.a",
    "> p",
    "+ .b",
    ".c",
    "&:not(.b)",
    "p&",
    "& > .a, .b",
    ":is(&, .c)",
    "~ p",
)
OUTER = (".a", ".b", "p", "#i", "div, .c", ".a, #i", "div .a", "p > b", "b, i", ".a .c")

# What the computed values of the elements are under each of some sheets.
LOOK = (
    """
<!DOCTYPE html><meta charset=utf-8><body>%s
<script id=input type="application/json">%%s</script>
<script>
const input = JSON.parse(document.getElementById("input").textContent);
const elements = [...document.querySelectorAll("body > div, body > div *")];
async function look(text) {
    const made = document.createElement("style");
    const loaded = new Promise(done => made.onload = made.onerror = done);
    made.textContent = text;
    document.head.append(made);
    await loaded;
    const found = elements.map(e => input.names.map(name => getComputedStyle(e)[name]));
    made.remove();
    return found;
}
async function all() {
    const answer = [];
    for (const texts of input.sheets) {
        const found = [];
        for (const text of texts) found.push(await look(text));
        answer.push(found);
    }
    document.documentElement.textContent = "ANS" + "WER" + JSON.stringify(answer) + "END";
}
all();
</script>
"""
    % ELEMENTS
)

Rule = Dict[str, Any]
Outer = Union[simplecss.Rule, simplecss.AtRule]


def nodes_of(text: str) -> List[str]:
    """The statements of a sheet, as tinycss2 writes them."""
    import tinycss2

    every = tinycss2.parse_stylesheet(text, skip_whitespace=True, skip_comments=True)
    return [
        tinycss2.serialize([each]) if each.type != "error" else str(each.kind) for each in every
    ]


def changed(selector: str) -> str:
    """A selector that is edited, or as it was."""
    return selector + MARK if PLAIN.fullmatch(selector) else selector


def moved(one: simplecss.Declaration) -> simplecss.Declaration:
    """A declaration with another value, or as it was."""
    is_edited = one.name == "z-index" and one.value in ("1", "-1", "+1", "-0")
    return one._replace(value="7") if is_edited else one


def unmarked(rules: List[Rule]) -> List[Rule]:
    """Rules of a browser without marks."""
    return [
        {
            **rule,
            **(
                {"selectorText": rule["selectorText"].replace(MARK, "")}
                if "selectorText" in rule
                else {}
            ),
            **({"rules": unmarked(rule["rules"])} if "rules" in rule else {}),
        }
        for rule in rules
    ]


def marks_in(rules: List[Rule]) -> int:
    """How many selectors are marked."""
    own: int = sum(rule.get("selectorText", "").count(MARK) for rule in rules)
    return own + sum(marks_in(rule.get("rules", [])) for rule in rules)


def seven(rules: List[Rule], in_style: bool = False) -> List[Rule]:
    """Rules of a browser with the other value in style rules."""
    found = []
    for rule in rules:
        is_style = rule["kind"] in ("CSSStyleRule", "CSSNestedDeclarations")
        style = dict(rule.get("style", {}))
        if is_style and style.get("z-index", ["auto"])[0] in ("1", "-1", "0"):
            style["z-index"] = ["7", style["z-index"][1]]
        inner = {"rules": seven(rule["rules"])} if "rules" in rule else {}
        found.append({**rule, **({"style": style} if "style" in rule else {}), **inner})
    return found


def without_seven(rules: List[Rule]) -> List[Rule]:
    """Rules of a browser without the texts that the values are in."""
    return [
        {
            **{k: v for k, v in rule.items() if k != "text"},
            **({"rules": without_seven(rule["rules"])} if "rules" in rule else {}),
        }
        for rule in rules
    ]


def nested(source: random.Random, depth: int) -> str:
    """A random style rule, which may have rules in it."""
    items = []
    for _ in range(source.randrange(1, 4)):
        if depth and source.random() < 0.5:
            head = (
                source.choice(INNER)
                if source.random() < 0.8
                else "@media " + source.choice(("all", "print"))
            )
            items.append(f"{head} {{ {nested(source, depth - 1)} }}")
        else:
            name = source.choice(("top", "left", "width"))
            items.append(
                f"{name}: {source.randrange(99)}px{source.choice(('', '', ' !important'))};"
            )
    return " ".join(items)


def importing(source: random.Random, depth: int) -> str:
    """A random sheet that imports others, which are in its urls."""
    # One between imports ends them (CSS Cascading 5), and not in every browser.
    parts = [f"@layer {source.choice(('x', 'y', 'x.z'))};"] if source.random() < 0.3 else []
    for _ in range(source.randrange(3) if depth else 0):
        inner = base64.b64encode(importing(source, depth - 1).encode()).decode()
        layer = source.choice(("", "", " layer", " layer(x)", " layer(y)", " layer(x.z)"))
        supports = source.choice(("", "", " supports(color: red)", " supports(foo: bar)"))
        media = source.choice(("", "", " print", " (width > 1px)", " screen, print"))
        parts.append(f"@import url(data:text/css;base64,{inner}){layer}{supports}{media};")
    for _ in range(source.randrange(1, 4)):
        name = source.choice(NAMES[1:])
        value = source.randrange(99) if name == "z-index" else f"{source.randrange(99)}px"
        important = source.choice(("", "", "", " !important"))
        rule = f"{source.choice(OUTER)} {{ position: relative; {name}: {value}{important} }}"
        around = source.choice(("", "", "@layer x", "@layer y", "@media all", "@layer"))
        parts.append(f"{around} {{ {rule} }}" if around else rule)
    return "\n".join(parts)


def decoded(mappings: str) -> Iterator[Tuple[int, int, int, int]]:
    """The segments of a source map: lines and columns there, and where they were."""
    last = [0, 0, 0, 0]
    for line, part in enumerate(mappings.split(";")):
        last[0] = 0
        for segment in part.split(",") if part else ():
            values, value, shift = [], 0, 0
            for digit in map(DIGITS.index, segment):
                value, shift = value | (digit & 31) << shift, shift + 5
                if not digit & 32:
                    values.append(-(value >> 1) if value & 1 else value >> 1)
                    value = shift = 0
            last = [one + step for one, step in zip(last, values)]
            yield line, last[0], last[2], last[3]


def is_outside(text: str, placed: Outer) -> bool:
    """Whether what has a place is in no block."""
    assert placed.place is not None
    before = [each.text for each in simplecss.tokens(text[: placed.place.start])]
    return before.count("{") == before.count("}")


def always(text: str) -> Callable[[str], Optional[str]]:
    """What gives a text for all."""
    return lambda each: text


def with_value(value: str) -> Callable[[simplecss.Declaration], simplecss.Declaration]:
    """What gives declarations a value."""
    return lambda one: one._replace(value=value)


class BesideTinycss2(Case):
    """The other statements stay as they are."""

    def test_statements(self) -> None:
        """Taken out and put in."""
        if importlib.util.find_spec("tinycss2") is None:
            by_debian(self, "tinycss2", "edited statements")
            return
        made = 0
        for seed in range(SHEETS):
            source = Source(seed)
            text = source.sheet()
            before = nodes_of(text)
            edit = simplecss.Edit(text)
            sheet = edit.sheet
            every: List[Outer] = [*sheet.rules, *sheet.at_rules]
            outer = [
                each
                for each in every
                if not each.conditions
                and not getattr(each, "parents", ())
                and is_outside(text, each)
            ]
            if not outer:
                continue
            chosen = source.choice(outer)
            place = chosen.place
            assert place is not None and place.start is not None
            start = place.start
            kind = source.choice(("remove", "before", "after"))
            try:
                if kind == "remove":
                    new = edit.remove(chosen).text
                else:
                    places = (chosen, None) if kind == "before" else (None, chosen)
                    new = edit.insert("ins{ert:ed}", before=places[0], after=places[1]).text
            except simplecss.EditError:
                # What is open at the end of the sheet cannot go, and nothing can follow it.
                self.assertGreater(len(text), start)
                continue
            made += 1
            after = nodes_of(new)
            if kind == "remove":
                gone = [
                    index
                    for index in range(len(before))
                    if before[:index] + before[index + 1 :] == after
                ]
                self.assertTrue(gone, (seed, text, new))
            else:
                put = [
                    index
                    for index in range(len(after))
                    if after[:index] + after[index + 1 :] == before
                ]
                self.assertTrue(put, (seed, kind, text, new))
        self.assertGreater(made, SHEETS // 2)
        self.passes(made)


class BesideABrowser(Case):
    """The rules of a browser are the old ones with the edits."""

    def test_selectors_and_values(self) -> None:
        texts = [Source(seed).sheet() for seed in range(SHEETS)]
        sheets = []
        for text in texts:
            marked = simplecss.Edit(text).selectors(changed, nested=True).text
            valued = simplecss.Edit(text).declarations(moved).text
            self.assertEqual(marked.replace(MARK, ""), text)
            sheets.append([text, marked, valued])
        answer = browser_answers(PAGE, {"sheets": sheets, "names": []})
        if answer is None:
            self.skipTest("edited sheets: no browser answers")
        marks = sevens = 0
        for (text, marked, valued), (old, new, other) in zip(sheets, answer):
            self.assertEqual(unmarked(new), old, (text, marked))
            marks += marks_in(new)
            if "\\7a" in text or re.search("@scope|@starting-style", text, re.IGNORECASE):
                # A name with an escape is not looked for, and no rule in these.
                continue
            self.assertEqual(without_seven(other), without_seven(seven(old)), (text, valued))
            sevens += valued != text
        self.assertGreater(marks, SHEETS // 3)
        self.assertGreater(sevens, SHEETS // 20)
        self.passes(marks + sevens)

    def test_flat(self) -> None:
        source = random.Random(0)
        sheets, left = [], 0
        for _ in range(SHEETS):
            rules = (f"{source.choice(OUTER)} {{ {nested(source, 3)} }}" for _ in range(3))
            text = "\n".join(["* { position: relative }", *rules])
            edit = simplecss.Edit(text).flatten()
            left += len(edit.left)
            flat = edit.text
            self.assertTrue(edit.left or not any(each.parents for each in edit.sheet.rules), flat)
            sheets.append([text, flat])
        answer = browser_answers(LOOK, {"sheets": sheets, "names": NAMES})
        if answer is None:
            self.skipTest("edited sheets: no browser answers")
        for (text, flat), (old, new) in zip(sheets, answer):
            self.assertEqual(old, new, (text, flat))
        self.assertLess(left, SHEETS // 10)
        self.passes(len(sheets))


class Bundled(Case):
    """Elements look the same under a sheet that imports others, and under one sheet of all."""

    def test_browser(self) -> None:
        source = random.Random(1)
        sheets = []
        for _ in range(SHEETS // 2):
            text = importing(source, 3)
            sheets.append([text, simplecss.bundle(text)])
        answer = browser_answers(LOOK, {"sheets": sheets, "names": NAMES})
        if answer is None:
            self.skipTest("bundled sheets: no browser answers")
        self.assertGreater(len({str(old) for old, _ in answer}), SHEETS // 10)
        for (text, one), (old, new) in zip(sheets, answer):
            self.assertEqual(old, new, (text, one))
        self.passes(len(sheets))


class Refused(Case):
    """What would be read as something else is refused."""

    TEXT = "a, .b { c: d; e: f }\n@media all { g { h: i } }\n"

    def refuses(self, bad: str, edit: simplecss.Edit) -> None:
        """An edit is refused."""
        with self.subTest(bad), self.assertRaises(simplecss.EditError):
            self.fail(edit.text)

    def test_selectors(self) -> None:
        for bad in BAD_SELECTORS:
            self.refuses(bad, simplecss.Edit(self.TEXT).selectors(always(bad)))

    def test_values(self) -> None:
        for bad in BAD_VALUES:
            self.refuses(bad, simplecss.Edit(self.TEXT).declarations(with_value(bad)))

    def test_parts(self) -> None:
        for bad in BAD_CONTENTS:
            edit = simplecss.Edit(self.TEXT)
            self.refuses(bad, edit.insert(bad, into=edit.sheet.rules[0]))
        for bad in BAD_STATEMENTS:
            edit = simplecss.Edit(self.TEXT)
            self.refuses(bad, edit.insert(bad, before=edit.sheet.rules[0]))


class Maps(Case):
    """Source maps lead to where it was."""

    def test_places(self) -> None:
        for seed in range(100):
            text = Source(seed).sheet()
            edit = simplecss.Edit(text).selectors(changed).declarations(moved)
            new, found = edit.text, edit.source_map()
            self.assertEqual((found["version"], found["sourcesContent"]), (3, [text]))
            mappings = found["mappings"]
            assert isinstance(mappings, str)
            lines, origins = LINES.split(new), LINES.split(text)
            for line, column, old_line, old_column in decoded(mappings):
                # Those that are all in an edited list of selectors are not looked for.
                is_one = origins.count(lines[line]) == 1 and (
                    ";" in lines[line] or "}" in lines[line]
                )
                if not column and is_one:
                    self.assertEqual((origins[old_line], old_column), (lines[line], 0))
                    self.passes(1)


class Real(Case):
    """Sheets of packages: an edit that changes nothing leaves them, and edits are taken back."""

    def test_back(self) -> None:
        for text in sorted(real_sheets(sheets_folder()), key=len)[: count(60)]:
            edit = simplecss.Edit(text)
            same = edit.selectors(lambda each: each).urls(lambda each: each).text
            self.assertEqual(same, text)
            marked = simplecss.Edit(text).selectors(lambda each: f"{MARK} {each}").text
            back = simplecss.Edit(marked).selectors(lambda each: each[len(MARK) + 1 :]).text
            self.assertEqual(back, text)
            self.passes(1)
