"""Random pages before and after `simplecss.inline`, in states of their elements and at two widths, in a
browser: the values of some properties are the same.

Sheets have states, media, importance, layers, conditions, animations, nested rules, selectors that
the library does not read, `all` and `revert`, and elements have styles of their own. A state is an
attribute in both pages, so that each element can be in any. What `inline` writes with
`important=False`, and into the attributes of drawings, is compared, too, and the mails of tests/mails
are, also without their `style` elements. The pages are the same in each run of a seed, which `SEED` in
the environment sets; `COUNT` says how many there are. The browser is Debian's `chromium`. The library
is built by `./build library`.
"""
from __future__ import annotations

import io
import os
import random
import re
import shutil
from contextlib import redirect_stdout
from typing import Any, Callable, Dict, Iterator, List, Optional, Sequence, Set

from tests import browser
from tests.common import Case, browser_answers, count, package

package()
import simplecss  # noqa: E402

# The mails of which something for every screen stays: nested rules, layers, lists that a browser may
# refuse, a link whose colour would be that of visited ones, and elements whose attributes would change
# the tree.
STAYING = {
    "24-nested-rules.html",
    "25-layers.html",
    "31-lists-with-invalid-selectors.html",
    "36-links.html",
    "41-wrongly-nested-tags.html",
}
# How many pages one run of the browser compares.
RUN = 250
# fmt: off
SELECTORS = (
    "p", ".a", ".b", "p.a", "p.a.b", "#i", "div p", "div > .a", "*", "p:not(.b)", "div .b",
    ":where(.a)", "[title]", "a:link", "p:first-child",
)
# What the library does not read, or reads in part.
ODD_SELECTORS = ("p:has(b)", "p:dir(ltr)", "div > :nth-child(2)", "p:nth-child(1 of .a)")
STATES = (":hover", ":focus", ":active")
PROPERTIES = (
    ("color", ("red", "green", "blue", "black", "oklch(50% 0.2 30)")),
    ("padding", ("1px", "2px", "3px 4px")),
    ("padding-left", ("5px", "6px", "7px")),
    ("margin", ("1px", "2px")),
    ("margin-top", ("8px", "9px")),
    ("max-width", ("100px", "120px")),
    ("font", ("italic 10px serif", "12px sans-serif")),
    ("font-size", ("11px", "13px")),
    ("--v", ("1", "2")),
    ("opacity", (".5", ".6")),
)
DRAWN_PROPERTIES = (
    ("fill", ("red", "green", "blue", "oklch(50% 0.2 30)")),
    ("stroke", ("red", "green", "#00f")),
    ("stroke-width", ("2", "3px", "4")),
    ("stroke-dasharray", ("1 2", "3px 4px")),
    ("font-size", ("11px", "13px", "0")),
    ("font", ("italic 10px serif", "12px sans-serif")),
    ("marker", ("none", "url(#m)")),
    ("marker-start", ("none", "url('#n')")),
    ("x", ("1px", "2px", "3%")),
    ("opacity", (".5", ".6")),
    ("text-decoration", ("underline", "none")),
    ("overflow", ("visible", "hidden")),
)
ODD_PROPERTIES = (
    ("all", ("unset", "initial")),
    ("color", ("revert", "revert-layer", "inherit")),
    ("margin-inline-start", ("3px",)),
    ("animation", ("k 8s -3s linear paused", "none")),
)
MEDIA = ("(max-width: 500px)", "screen", "print", "(min-width: 300px)")
# fmt: on

SCRIPT = """<!DOCTYPE html><meta charset=utf-8><script id=input type="application/json">%s</script><body><script>
const input = JSON.parse(document.getElementById("input").textContent), answer = [];
const names = ["color", "padding-left", "padding-top", "margin-top", "margin-left", "max-width", "font-size",
    "font-style", "font-family", "--v", "opacity", "fill", "stroke", "stroke-width", "stroke-dasharray",
    "marker-start", "marker-end", "x", "overflow-x", "text-decoration-line"];
const frames = [400, 800].map(width => {
    const frame = document.createElement("iframe");
    frame.width = width;
    frame.height = 300;
    frame.sandbox = "allow-same-origin";
    document.body.append(frame);
    return frame;
});
// Which elements are in which states: in the first run none, in the last all.
function states(run, index, number) {
    return ["hover", "focus", "active"].filter((_, at) => run == 7 || run &&
        (index * 7919 + at * 104729 + run * 1299709 + number * 31 >>> 3) %% 3 == 0).join(" ");
}
function values(frame, text, number) {
    const page = frame.contentDocument, found = [];
    page.open();
    page.write(text);
    page.close();
    for (let run = 0; run < 8; run++) {
        const every = [...page.body.querySelectorAll("*"), page.body, page.documentElement];
        every.forEach((element, index) => element.setAttribute("zz", states(run, index, number)));
        for (const [index, element] of every.entries()) {
            const style = frame.contentWindow.getComputedStyle(element);
            for (const name of names) found.push([run, index, name, style.getPropertyValue(name)]);
        }
    }
    return found;
}
window.onload = () => {
    for (const [number, before, after] of input) for (const frame of frames) {
        const first = values(frame, before, number), second = values(frame, after, number);
        const at = first.findIndex((each, index) => String(each) != String(second[index]));
        if (at >= 0 || first.length != second.length)
            answer.push([number, [frame.width, first[at], second[at]]]);
    }
    document.documentElement.textContent = "ANS" + "WER" + JSON.stringify([input.length, answer]) + "END";
};
</script>
"""


class Source(random.Random):
    """Random pages, the same in each run."""

    is_odd = False
    is_drawn = False

    def declaration(self, importance: float = 0.15) -> str:
        """A declaration, which may be important."""
        usual = DRAWN_PROPERTIES if self.is_drawn else PROPERTIES
        name, values = self.choice(usual + ODD_PROPERTIES * self.is_odd)
        return f"{name}: {self.choice(values)}{' !important' * (self.random() < importance)}"

    def block(self, importance: float = 0.15) -> str:
        """Some declarations."""
        found = (self.declaration(importance) for _ in range(self.randint(1, 3)))
        return "; ".join(found) + self.choice(("", ";", " ;"))

    def selector(self, has_state: bool) -> str:
        """A selector, which may have a state."""
        text = self.choice(SELECTORS + ODD_SELECTORS * self.is_odd)
        return text + (self.choice(STATES) if has_state and self.random() < 0.7 else "")

    def rule(self, has_state: bool) -> str:
        """A rule set."""
        count_of = self.choice((1, 1, 1, 2))
        selectors = ", ".join(self.selector(has_state) for _ in range(count_of))
        return f"{selectors} {{ {self.block()} }}"

    def nested(self) -> str:
        """A rule set with rules in it, or with braces that are none of rules."""
        inner = self.choice(
            (
                f"& p {{ {self.block()} }} &{self.choice(('.b', ':hover'))} {{ {self.block()} }}",
                f"@media {self.choice(MEDIA)} {{ {self.block()} }} {self.block()}",
                f"b:hover {{ {self.block()} & .a {{ {self.block()} }} }} {self.block()}",
                f"color: {{{{ x }}}}; {self.block()}",
                f"--v: {{ x }}; padding: f({{ {self.block()} }}); {self.block()}",
            )
        )
        return f"{self.selector(False)} {{ {self.block()}; {inner} }}"

    def layer(self) -> str:
        """A layer with rules, or what says the order of layers."""
        inner = " ".join(self.rule(self.random() < 0.3) for _ in range(self.randint(1, 2)))
        name = self.choice(("x", "y", "x.z", ""))
        return self.choice(
            (
                f"@layer {name} {{ {inner} }}",
                f"@layer {name} {{ {inner} }}",
                f"@layer y, {name or 'x'};",
                f"@layer {name} {{ {self.rule(False)} @layer z {{ {inner} }} }}",
                f"@layer {name} {{ {self.rule(False)} @media {self.choice(MEDIA)} {{ {inner} }} }}",
                f"@layer {name} {{ @layer z; @layer z.w {{}} {inner} }}",
                f"@media {self.choice(MEDIA)} {{ @layer {name} {{ {inner} }} }}",
            )
        )

    def statement(self) -> str:
        """A statement of a sheet."""
        kind = self.random()
        if kind < 0.6:
            return self.rule(self.random() < 0.4)
        if kind < 0.85:
            rules = (self.rule(self.random() < 0.3) for _ in range(self.randint(1, 2)))
            return f"@media {self.choice(MEDIA)} {{ {' '.join(rules)} }}"
        if kind < 0.9:
            return f"@supports (display: grid) {{ {self.rule(False)} }}"
        if kind < 0.95:
            return self.layer()
        if self.is_odd and kind < 0.98:
            return self.nested()
        return f"@keyframes k {{ from {{ {self.block(0)} }} 50% {{ {self.block(0)} }} }}"

    def sheet(self) -> str:
        """A `style` element."""
        media = ' media="screen"' * (self.random() < 0.15)
        each = self.layer if self.random() < 0.2 else self.statement
        statements = " ".join(each() for _ in range(self.randint(2, 6)))
        return f"<style{media}>{statements}</style>"

    def element(self, inner: str, name: str) -> str:
        """An element."""
        words = [name]
        if self.random() < 0.7:
            words.append(f'class="{self.choice(("a", "b", "a b"))}"')
        if self.random() < 0.2:
            words.append("title=t")
        if self.random() < 0.4:
            words.append(f'style="{self.block(0.2)}"')
        return f"<{' '.join(words)}>{inner}</{name}>"

    def page(self) -> str:
        """A page."""
        self.is_odd = self.random() < 0.4
        head = "".join(self.sheet() for _ in range(self.choice((1, 1, 2))))
        parts = []
        for _ in range(2):
            inner = self.element("x", "p") + self.element("y", "p") * (self.random() < 0.5)
            inner += "<a href=x>z</a>" * (self.random() < 0.3)
            parts.append(self.element(inner, "div"))
        return f"<!DOCTYPE html><html><head>{head}</head><body>{''.join(parts)}</body></html>"


class Drawings(Source):
    """Random pages with drawings, whose elements have presentation attributes."""

    is_drawn = True

    def selector(self, has_state: bool) -> str:
        """A selector, of elements of a drawing."""
        text = super().selector(has_state).replace("div", "svg")
        return re.sub(r"(?<![-:(.\w])p\b", self.choice(("rect", "text", "*")), text)

    def element(self, inner: str, name: str) -> str:
        """An element of a drawing."""
        name = {"div": "svg", "p": self.choice(("g", "rect", "text", "use"))}.get(name, name)
        found = super().element(inner, name)
        own = ' fill="black"' * (self.random() < 0.3) + ' x="7"' * (self.random() < 0.2)
        return f"<{name}{own}{found[len(name) + 1 :]}"


def with_states(page: str) -> str:
    """Returns a page in whose sheets an attribute says what states are."""
    state = re.compile(r":(hover|focus|active)(?![-\w])")
    return re.sub(
        r"(<style[^>]*>)(.*?)(</style>)",
        lambda found: found[1] + state.sub(r"[zz~=\1]", found[2]) + found[3],
        page,
        flags=re.DOTALL,
    )


def has_left(page: str) -> bool:
    """Whether something stays in a sheet since what stays could override it."""
    report: List[simplecss.NotWritten] = []
    simplecss.inline(page, report=report)
    return any("could override" in each.reason for each in report)


class Browser(Case):
    def setUp(self) -> None:
        if not (shutil.which("chromium") or shutil.which("chromium-browser")):
            self.skipTest("states of inlined pages: there is no chromium")


class Mails(Browser):
    """The mails of tests/mails, in the two kinds of clients."""

    def differing(self, compare: Callable[[Sequence[str]], int]) -> Set[str]:
        """The names of the mails that look otherwise."""
        lines = io.StringIO()
        with redirect_stdout(lines):
            compare(browser.mails())
        return {line.partition(":")[0] for line in lines.getvalue().splitlines() if ": " in line}

    def test_mails(self) -> None:
        """They look the same where `style` elements are kept."""
        self.assertEqual(self.differing(browser.compare_mails), set())

    def test_bare_mails(self) -> None:
        """They look the same where these are dropped, but for what stays in them."""
        self.assertLessEqual(self.differing(browser.compare_bare), STAYING)


class States(Browser):
    def test_pages(self) -> None:
        """Nothing of them changes, in any state."""
        source = Source(int(os.environ.get("SEED", 1)))
        pages = [source.page() for _ in range(count(140))]
        self.compare(pages, {})
        # What is left where nothing is made important is much more.
        left = sum(map(has_left, pages))
        self.assertLess(left, len(pages) // 2)

    def test_pages_without_importance(self) -> None:
        """Nor where nothing is made important."""
        source = Source(int(os.environ.get("SEED", 1)))
        self.compare([source.page() for _ in range(count(50))], {"important": False})

    def test_drawings(self) -> None:
        """Nor in drawings, where attributes are written in place of styles."""
        source = Drawings(int(os.environ.get("SEED", 1)))
        pages = [source.page() for _ in range(count(80))]
        options: Dict[str, Any] = {"as_attributes": True, "ignore": ".b.a"}
        written = sum(simplecss.inline(each, **options).count(" stroke=") for each in pages)
        self.assertGreater(written, len(pages) // 10)
        self.compare(pages, options)

    def compare(self, pages: Sequence[str], options: Dict[str, Any]) -> None:
        """Compares pages before and after."""

        def browser(pages: List[str]) -> List[Any]:
            found: List[Any] = [None] * len(pages)
            for first in range(0, len(pages), RUN):
                work = [
                    (number, with_states(page), with_states(simplecss.inline(page, **options)))
                    for number, page in enumerate(pages[first : first + RUN], first)
                ]
                answer = browser_answers(SCRIPT, work)
                if answer is None or answer[0] != len(work):
                    self.fail(f"the browser did not answer on pages from {first} on")
                for number, how in answer[1]:
                    found[number] = how
            return found

        def question(page: str, how: Any) -> Iterator[Optional[str]]:
            yield how and f"{how}\n  {page}\n  {simplecss.inline(page, **options)}"

        self.against(browser, pages, question)
