"""The states that attributes decide on random forms, beside a browser and soupsieve: `:checked`, `:disabled`,
`:default` and nine more; and `:dir()`.

The browser is Debian's `chromium`, soupsieve Debian's `python3-soupsieve`, used by /usr/bin/python3. The
library is built by `./build library`. The pages are the same in each run of a seed, which `SEED` in the
environment sets; `COUNT` says how many there are.
"""
from __future__ import annotations

import json
import os
import random
import time
from functools import partial
from typing import Any, Callable, Dict, Iterator, List, Optional, Sequence, Tuple

from tests.common import LEFT_OUT, Case, browser_answers, count, debian_answers, package, row

package()
from simplecss import StyleSheet, Tree  # noqa: E402

# fmt: off
STATES = (
    "checked", "disabled", "enabled", "required", "optional", "read-only", "read-write",
    "placeholder-shown", "default", "indeterminate", "open", "defined", "dir(ltr)", "dir(rtl)",
)
TYPES = (
    "text", "search", "url", "tel", "email", "password", "date", "month", "week", "time",
    "datetime-local", "number", "range", "color", "checkbox", "radio", "file", "submit", "image",
    "reset", "button", "hidden", "", "bogus", "CheckBox", "RADIO", "Submit", "Url", "radio ",
)
BUTTON_TYPES = ("submit", "reset", "button", "", "bogus", "RESET", "SUBMIT", "Button")
EDITING = ("", "true", "false", "TRUE", "False", "plaintext-only", "bogus", "inherit")
DIRECTIONS = ("ltr", "rtl", "RTL", "Ltr", "auto", "", "bogus", "rtl ")
NAMES = ("", "a", "A", "b")
VALUES = ("", "x", " ", "\n", "1", "-1.5e3", "\t \n")
# Words of custom elements, of which the last are none.
CUSTOM = ("x-y", "my-element", "font-face", "missing-glyph", "annotation-xml", "b")
# fmt: on

SCRIPT = """<!DOCTYPE html><meta charset=utf-8><script id=input type="application/json">%s</script><body><script>
const names = STATES, answers = [];
const without = ["hidden", "range", "color", "submit", "image", "reset", "button"];
// Whether the direction of an element depends on a text.
function isOfText(element) {
    const said = element.closest("[dir=ltr i], [dir=rtl i], [dir=auto i], bdi, input[type=tel i]");
    return said?.matches("[dir=auto i], bdi:not([dir=ltr i], [dir=rtl i])") ?? false;
}
// Which states attributes decide. What a browser changes by itself is asked of attributes.
function isIn(element, name) {
    if (name.startsWith("dir(")) return !isOfText(element) && element.matches(":" + name);
    const found = element.matches(":" + name), kind = element.localName;
    if (name == "checked" && kind == "option") return element.defaultSelected;
    if (name == "checked" && kind == "input") return found || element.type == "radio" && element.defaultChecked;
    if (name == "optional" && (kind == "button" || kind == "input" && without.includes(element.type))) return false;
    if (["option", "optgroup"].includes(kind) && element.closest("select:disabled")) {
        if (name == "disabled") return null;
        if (name == "enabled") return null;
    }
    return found;
}
for (const text of JSON.parse(document.getElementById("input").textContent)) {
    const frame = document.createElement("iframe");
    frame.sandbox = "allow-same-origin";
    document.body.append(frame);
    const page = frame.contentDocument;
    page.open();
    page.write(text);
    page.close();
    answers.push([...page.body.querySelectorAll("*")].map(each => [each.localName, names.map(name => isIn(each, name))]));
    frame.remove();
}
document.documentElement.textContent = "ANS" + "WER" + JSON.stringify(answers) + "END";
</script>""".replace(
    "STATES", json.dumps(STATES)
)

# The same of the pages as XHTML, each of which is before its answers.
XML_SCRIPT = (
    SCRIPT[: SCRIPT.index("for (const text of")]
    + """
for (const text of JSON.parse(document.getElementById("input").textContent)) {
    const parser = new DOMParser(), page = parser.parseFromString(text, "text/html");
    const xml = new XMLSerializer().serializeToString(page.documentElement);
    const read = parser.parseFromString(xml, "application/xhtml+xml");
    answers.push([xml, [...read.body.querySelectorAll("*")].map(each => [each.localName, names.map(name => isIn(each, name))])]);
}
document.documentElement.textContent = "ANS" + "WER" + JSON.stringify(answers) + "END";
</script>"""
)

SOUP = r"""
import json, sys
import bs4, soupsieve
texts, states, known = json.load(sys.stdin)
answers = []
for text in texts:
    page = bs4.BeautifulSoup(text, "html5lib")
    every = page.body.find_all(True)
    answers.append([[tag.name, [soupsieve.match(":" + each, tag) if each in known else None for each in states]]
        for tag in every])
json.dump(answers, sys.stdout)
"""

# What a browser changes by itself, or knows otherwise: a page, a selector, and how many elements it matches
# here and there.
DIFFERENCES = (
    ("<select><option>a<option>b</select>", "option:checked", 0, 1),
    ("<select><option selected>a<option selected>b</select>", "option:checked", 2, 1),
    ("<input type=radio name=a checked><input type=radio name=a checked>", ":checked", 2, 1),
    ("<button></button><input type=hidden><input type=submit>", ":optional", 0, 3),
    ("<select disabled><option>a<optgroup><option>b</select>", "select :disabled", 0, 3),
    ("<input type=number placeholder=a value=b>", ":placeholder-shown", 0, 1),
    ("<form id=f></form><button form=f></button>", ":default", 0, 1),
    ("<svg><x-y></x-y></svg>", "x-y:defined", 0, 1),
    ("<svg></svg>", "svg:read-only", 1, 0),
    ("<p dir=auto>a<b>b</b></p>", ":dir(ltr)", 0, 2),
    ("<bdi>a</bdi><bdi dir=bogus></bdi>", ":dir(ltr)", 0, 2),
    ("<input dir=auto>", ":dir(ltr)", 0, 1),
)
# What it does not: rare paths first.
EQUAL = (
    (
        "<fieldset disabled><legend><input></legend><legend><input></legend><input></fieldset>",
        ":enabled",
        1,
    ),
    ("<fieldset disabled><div><legend><input></legend></div></fieldset>", ":enabled", 0),
    (
        "<fieldset disabled><legend><fieldset disabled><legend><input></legend><input></fieldset></legend></fieldset>",
        "input:enabled",
        1,
    ),
    (
        "<fieldset disabled><fieldset><legend><input></legend></fieldset></fieldset>",
        ":enabled",
        0,
    ),
    ("<fieldset disabled><p></p><legend><button></button></legend></fieldset>", ":enabled", 1),
    ("<select multiple><optgroup disabled><option>a</select>", "option:disabled", 1),
    ("<select multiple disabled></select><p></p><object></object>", ":enabled", 0),
    ("<input TYPE=CHECKBOX CHECKED><input type='checkbox ' checked>", ":checked", 1),
    (
        "<div contenteditable=PLAINTEXT-ONLY><p contenteditable=false><b></b></p></div>",
        ":read-write",
        1,
    ),
    (
        "<textarea placeholder=a>\n</textarea><textarea placeholder=a>\n\n</textarea>",
        ":placeholder-shown",
        1,
    ),
    (
        "<form><button type=RESET></button><button disabled></button><button></button></form>",
        ":default",
        1,
    ),
    ("<form><button command=close></button><button commandfor=x></button></form>", ":default", 0),
    (
        "<input type=radio name=a><form><input type=radio name=a checked></form>",
        ":indeterminate",
        1,
    ),
    ("<progress value></progress><progress></progress>", ":indeterminate", 1),
    ("<select open></select><details open></details><dialog></dialog>", ":open", 1),
    ("<p dir=RTL><b dir=bogus><i dir></i></b><b dir=ltr></b></p>", ":dir(rtl)", 3),
    ("<p dir=rtl><input type=TEL><input type=tel dir=rtl><input></p>", ":dir(ltr)", 1),
    ("<p dir=auto>a<b dir=rtl></b></p>", "b:dir(R\\74 l)", 1),
    ("<b is=c></b><b is></b><x-y></x-y><font-face></font-face>", "b:defined, font-face:defined", 1),
)


class Source(random.Random):
    """Random forms."""

    def has(self, name: str, chance: float = 0.3) -> str:
        """An attribute without a value, or nothing."""
        return f" {name}" if self.random() < chance else ""

    def valued(self, name: str, values: Sequence[str], chance: float = 0.5) -> str:
        """An attribute with one of these values, or nothing."""
        return f' {name}="{self.choice(values)}"' if self.random() < chance else ""

    def shared(self) -> str:
        """Attributes that any element may have."""
        words = (
            self.has("required", 0.1),
            self.has("checked", 0.1),
            self.has("disabled", 0.1),
            self.has("open", 0.1),
            self.valued("contenteditable", EDITING, 0.1),
            self.has("is", 0.03),
            self.valued("dir", DIRECTIONS, 0.15),
        )
        return "".join(dict.fromkeys(words))

    def input(self) -> str:
        """An input element. One of numbers has a number."""
        kind = self.choice(TYPES)
        named = f' type="{kind}"' if self.random() < 0.9 else ""
        value = self.valued("value", ("", "1") if kind == "number" else VALUES, 0.4)
        return (
            f"<input{named}{value}{self.valued('name', NAMES)}{self.valued('placeholder', VALUES)}"
            f"{self.has('readonly')}{self.has('checked')}{self.has('required')}{self.has('disabled')}"
            f"{self.valued('dir', DIRECTIONS, 0.1)}>"
        )

    def option(self) -> str:
        """An option."""
        return f"<option{self.has('selected')}{self.has('disabled')}>a</option>"

    def group(self) -> str:
        """A group of options."""
        options = "".join(self.option() for _ in range(self.randrange(3)))
        return f"<optgroup{self.has('disabled')}>{options}</optgroup>"

    def select(self) -> str:
        """A select element."""
        parts = "".join(
            self.choice((self.option(), self.group(), "<hr>")) for _ in range(self.randrange(5))
        )
        return f"<select{self.has('multiple')}{self.has('required')}{self.has('disabled', 0.1)}>{parts}</select>"

    def leaf(self) -> str:
        """An element without elements, or a select element."""
        kind = self.random()
        if kind < 0.5:
            return self.input()
        if kind < 0.65:
            command = self.has("command", 0.1) + self.has("commandfor", 0.1)
            return f"<button{self.valued('type', BUTTON_TYPES)}{command}{self.has('disabled', 0.1)}></button>"
        if kind < 0.75:
            text = self.choice(("", "", "x", "\n", "\n\n", " "))
            words = self.valued("placeholder", VALUES) + self.has("readonly") + self.shared()
            return f"<textarea{words}>{text}</textarea>"
        if kind < 0.85:
            return self.select()
        if kind < 0.9:
            return f"<progress{self.valued('value', VALUES)}></progress>"
        return f"<datalist>{self.option()}</datalist>"

    def part(self, depth: int, in_form: bool) -> str:
        """A part of a page."""
        if depth == 5 or self.random() < 0.4:
            return self.leaf()
        names = ["fieldset", "fieldset", "legend", "legend", "div", "details", "dialog", "progress"]
        names += ["bdi"] if self.random() < 0.3 else []
        names += [self.choice(CUSTOM)] + ([] if in_form else ["form", "form"])
        name = self.choice(names)
        within = "".join(
            self.part(depth + 1, in_form or name == "form") for _ in range(self.randrange(5))
        )
        words = self.has("disabled", 0.5) if name == "fieldset" else self.shared()
        return f"<{name}{words}>{within}</{name}>"

    def page(self) -> str:
        """A page."""
        return "<!DOCTYPE html><body>" + "".join(
            self.part(0, False) for _ in range(self.randrange(1, 6))
        )


# For each element of a body its name, and whether it is in each state, or None if that is not compared.
Answers = List[Tuple[str, List[Optional[bool]]]]


def ours(tree: Tree) -> Answers:
    """What the library says of a page."""
    found = [{each.index for each in tree.select(f"body :{state}")} for state in STATES]
    return [
        (each.name, [each.index in indices for indices in found]) for each in tree.select("body *")
    ]


def compared(
    text: str, tree: Tree, answers: Sequence[Any], states: Sequence[str] = STATES
) -> Iterator[Optional[str]]:
    """A row for each state, of all elements of a page. What is not compared is None in the answers."""
    mine = ours(tree)
    names = row(text, [each[0] for each in mine], [each[0] for each in answers])
    for at, state in enumerate(STATES):
        if state in states:
            due = [found[at] for _, found in answers]
            pairs = zip(mine, due)
            found = [None if each is None else in_states[at] for (_, in_states), each in pairs]
            yield names or row(f"{state} of the elements of {text}", found, due)


class Forms(Case):
    def setUp(self) -> None:
        source = Source(int(os.environ.get("SEED", 1)))
        self.pages = [source.page() for _ in range(count(600))]

    def test_browser(self) -> None:
        """The elements of random pages are in the states in which a browser's are."""

        def browser(pages: List[str]) -> Optional[List[Any]]:
            parts = [pages[at : at + 500] for at in range(0, len(pages), 500)]
            found = [browser_answers(SCRIPT, part) for part in parts]
            return None if None in found else [each for part in found for each in part or ()]

        def question(page: str, answers: Any) -> Iterator[Optional[str]]:
            return compared(page, Tree.from_html(page), answers)

        self.against(browser, self.pages, question, "states of forms: there is no chromium")

    def test_xhtml(self) -> None:
        """So they are as XHTML."""

        def question(_: str, answers: Any) -> Iterator[Optional[str]]:
            return compared(answers[0], Tree.from_xml(answers[0]), answers[1])

        missing = "states of forms in XHTML: there is no chromium"
        self.against(partial(browser_answers, XML_SCRIPT), self.pages[:500], question, missing)

    def test_soup(self) -> None:
        """And in those in which soupsieve has them, of the two states of which it takes the same attributes
        into account."""
        states = ("checked", "indeterminate")

        def soup(pages: List[str]) -> Optional[List[Any]]:
            return debian_answers(SOUP, [pages, STATES, states], "soupsieve", "bs4", "html5lib")

        def question(page: str, answers: Any) -> Iterator[Optional[str]]:
            # html5lib has fewer elements in a `select`.
            tree = Tree.from_html(page)
            if [each[0] for each in answers] != [each[0] for each in ours(tree)]:
                return iter([LEFT_OUT] * len(states))
            return compared(page, tree, answers, states)

        pages, missing = self.pages[:300], "states of forms: there is no soupsieve"
        left_out = self.against(soup, pages, question, missing)
        self.assertLess(left_out, len(states) * len(pages) * 2 / 3)


class Rows(Case):
    def test_rows(self) -> None:
        """Rare paths, as a browser has them, and each difference, as it is stated."""
        rows = [(page, text, both, both) for page, text, both in EQUAL] + list(DIFFERENCES)
        for page, text, here, there in rows:
            with self.subTest(page=page, text=text):
                tree = Tree.from_html(f"<!DOCTYPE html><body>{page}")
                self.assertEqual(len(tree.select(f"body :is({text})")), here)
        theirs = browser_answers(COUNTING, [[page, text] for page, text, _, _ in rows])
        if theirs is not None:
            self.assertEqual(theirs, [there for _, _, _, there in rows])

    def test_documents(self) -> None:
        """Other documents have none of these states."""
        tree = Tree.from_xml("<a><input type='checkbox' checked='' disabled=''/></a>")
        for state in STATES:
            with self.subTest(state=state):
                self.assertEqual(tree.select(f":{state}"), [])

    def test_styles(self) -> None:
        """The declarations that win take them into account."""
        tree = Tree.from_html("<!DOCTYPE html><body><fieldset disabled><input>")
        sheet = StyleSheet(
            "input:disabled { a: b } input:enabled { a: c } :not(:disabled) { d: e }"
        )
        found = [str(each) for each in sheet.styles(tree)[tree.select("input")[0]]]
        self.assertEqual(found, ["a: b"])

    def test_names(self) -> None:
        """Names of states have any case, and escapes."""
        tree = Tree.from_html("<!DOCTYPE html><body><input type=checkbox checked>")
        for text in (":CHECKED", ":\\63hecked", ":not(:Indeterminate):Default"):
            with self.subTest(text=text):
                self.assertEqual(len(tree.select(f"input{text}")), 1)


COUNTING = (
    SCRIPT[: SCRIPT.index("const names")]
    + """
const answers = JSON.parse(document.getElementById("input").textContent).map(([text, selector]) => {
    const frame = document.createElement("iframe");
    document.body.append(frame);
    const page = frame.contentDocument;
    page.open();
    page.write("<!DOCTYPE html><body>" + text);
    page.close();
    const found = page.body.querySelectorAll(selector).length;
    frame.remove();
    return found;
});
document.documentElement.textContent = "ANS" + "WER" + JSON.stringify(answers) + "END";
</script>"""
)


class Costs(Case):
    def seconds(self, text: str) -> float:
        """How long the processor takes to select in a page, at best."""
        tree = Tree.from_html(text)
        tree.select("b")
        best = 60.0
        for _ in range(3):
            begun = time.process_time()
            tree.select(":disabled, :enabled, :read-write, :default, :indeterminate")
            best = min(best, time.process_time() - begun)
        return best

    def test_growth(self) -> None:
        """Time is linear in chains of fieldsets, in radio buttons of one group, and in attributes."""
        shapes: Dict[str, Callable[[int], str]] = {
            "fieldsets": lambda n: "<fieldset disabled contenteditable>" * n + "<input>",
            "radios": lambda n: "<form>" + "<input type=radio name=a>" * n,
            "groups": lambda n: "".join(f"<input type=radio checked name=n{i}>" for i in range(n)),
            "buttons": lambda n: "<form><button></button></form>" * n,
            "attributes": lambda n: "<input " + " ".join(f"a{i}" for i in range(n)) + ">",
        }
        for name, shape in shapes.items():
            with self.subTest(name=name):
                few, many = (self.seconds("<!DOCTYPE html>" + shape(n)) for n in (5000, 20000))
                self.assertLess(many, 8 * few + 0.05)
