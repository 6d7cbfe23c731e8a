"""What wins on whole pages beside a browser, on three devices: of random sheets with nested rules, layers,
`:has()`, lists after `An+B`, conditions, imports, `style` attributes, importance and `revert-layer`, all
together.

The browser is Debian's `chromium`, and each device is a frame of a size of its own. The properties do not
inherit, and each declaration has a value of its own, so that the value that is computed says which one won.
"""
from __future__ import annotations

import html
import os
import random
import urllib.parse
from typing import Any, List, NamedTuple, Optional

from tests.common import Case, browser_answers, count, package, rows

package()
from simplecss import Device, StyleSheet, Tree  # noqa: E402

# The width and the height of each device.
SIZES = ((320, 600), (800, 500), (1300, 300))
NAMES = tuple(f"--p{number}x" for number in range(5))
# How many pages the browser shows at once.
ON_A_PAGE = 250

SIMPLE = (
    *(
        "div",
        "span",
        ".a",
        ".b",
        "#c",
        "*",
        "[e]",
        "span.a",
        ".a.b",
        "div > .a",
        ".b ~ *",
        "#c span",
    ),
    *(
        ":is(.a, #c)",
        ":where(#c, .b)",
        "div:not(.a)",
        ":not(.b, span)",
        "span:first-child",
        "div + *",
    ),
    *("[e~=x i]", ":nth-last-child(2n+1)", ":empty", "div :only-child", ":root .a", "div ~ span.b"),
)
HAS = (
    *(":has(.a)", "div:has(> span)", ":has(+ .b)", "span:not(:has(*))", ":has(~ #c) .a"),
    *(".a:has(.b, > #c)", "div:has(:is(.a, .b) > *)", ":is(:has(#c), .b)", ":has(:not(.a))"),
)
NUMBERED = (
    *(":nth-child(1 of .a)", "div:nth-child(even of .a, .b)", ":nth-last-child(-n+2 of span)"),
    *(
        ":nth-child(2n+1 of :not(.b))",
        ".b :nth-last-child(1 of :has(*))",
        ":not(:nth-child(1 of div))",
    ),
)
NESTED = (
    *(
        "&",
        "& span",
        ".a &",
        "&.b",
        "& > *",
        "> .a",
        "+ div",
        "~ .b",
        "&:has(.a)",
        "& & ",
        ":not(&)",
    ),
    *(
        ":is(&, #c)",
        "&:nth-child(odd of .b)",
        "div&",
        "& + &",
        ".b > &",
        ":where(&) .a",
        "&:not(.a)",
    ),
)
LAYERS = ("@layer x", "@layer y", "@layer", "@layer x.z", "@layer y.z")
ORDERS = ("@layer y, x;", "@layer x.z;", "@layer z, y;", "@layer;", "@layer y.z, y.x;")
MEDIA = (
    *(
        "all",
        "screen",
        "print",
        "not print",
        "(width > 500px)",
        "(max-width: 500px)",
        "(width: 800px)",
    ),
    *("(400px <= width < 1000px)", "(orientation: portrait)", "(min-aspect-ratio: 2/1)", "not all"),
    *("(width > 500px) and (height > 400px)", "print, (height < 400px)", "not (width > 1000px)"),
    *(
        "screen and (min-width: 40em)",
        "(width < 400px) or (width > 1000px)",
        "(unknown)",
        "(height)",
    ),
)
SUPPORTS = (
    *("(order: 1)", "not (order: 1)", "(foo: bar)", "selector(a:has(b))", "selector(a::foo)"),
    *("(order: 1) and (not (foo: bar))", "(foo: bar) or selector(a > b)", "(--a: b)"),
)
# Texts that stand for others, where a meaning would be wrong: a negation that is none, layers in another order, and
# so on.
WRONG = (
    *((":not(", ":is("), (":has(", ":is("), (" of .a", " of .b"), (":where(", ":is("), ("&", "*")),
    *(("@layer y, x;", "@layer x, y;"), ("@layer x.z", "@layer y"), ("revert-layer", "unset")),
    *(
        (" !important", ""),
        ("width &gt;", "width &lt;"),
        ("width >", "width <"),
        ("@media not", "@media"),
    ),
    *(("@supports not", "@supports"), (" layer(x)", ""), ("style=", "styles="), (" + ", " ~ ")),
)
SKIPPED = (";", "foo;", "@foo;", "--p0x", "{}", "/* x */", "span:unknown { --p0x: 0 }")

PAGE = """<!DOCTYPE html><meta charset=utf-8><script id=input type="application/json">%s</script><body>
<script>
const { names, sizes, pages } = JSON.parse(document.getElementById("input").textContent);
const frames = sizes.map(([width, height]) => {
    const frame = document.createElement("iframe");
    frame.style = `border: 0; width: ${width}px; height: ${height}px`;
    document.body.append(frame);
    return frame;
});
function shown(frame, page) {
    return new Promise(done => {
        frame.onload = () => {
            const view = frame.contentWindow;
            for (const name of names) view.CSS.registerProperty({ name, syntax: "*", inherits: false });
            done([...frame.contentDocument.body.querySelectorAll("*")].map(element => {
                const style = view.getComputedStyle(element);
                return names.map(name => style.getPropertyValue(name));
            }));
        };
        frame.srcdoc = page;
    });
}
addEventListener("load", async () => {
    const answers = [];
    for (const page of pages) answers.push(await Promise.all(frames.map(frame => shown(frame, page))));
    document.documentElement.textContent = "ANSWER" + JSON.stringify(answers) + "END";
});
</script>
"""


class Element(NamedTuple):
    """An element of a page: its start tag, its name and what is in it."""

    start: str
    name: str
    inner: List["Element"]

    def __str__(self) -> str:
        return f"{self.start}{''.join(map(str, self.inner))}</{self.name}>"


class Source(random.Random):
    """Random pages, the same in each run."""

    def __init__(self, seed: str) -> None:
        super().__init__(seed)
        self.number = 0

    def declaration(self) -> str:
        """A declaration with a value that no other has, or one that rolls back."""
        self.number += 1
        value = "revert-layer" if self.random() < 0.08 else str(self.number)
        important = " !important" if self.random() < 0.15 else ""
        return f"{self.choice(NAMES)}: {value}{important};"

    def list(self, depth: int) -> str:
        """A list of selectors, of which those of a nested rule may have `&`."""
        kinds = (SIMPLE, SIMPLE, HAS, NUMBERED) if depth == 0 else (SIMPLE, NESTED, NESTED, HAS)
        return ", ".join(self.choice(self.choice(kinds)) for _ in range(self.choice((1, 1, 1, 2))))

    def group(self) -> str:
        """What is before the block of a group rule."""
        media, supports = f"@media {self.choice(MEDIA)}", f"@supports {self.choice(SUPPORTS)}"
        return self.choice((media, media, supports, self.choice(LAYERS)))

    def item(self, depth: int) -> str:
        """What is in a sheet or in a block, where `depth` style rules are around it."""
        kind = self.random()
        if depth > 0 and kind < 0.45:
            return self.declaration()
        if kind < 0.5:
            return self.choice(SKIPPED if depth > 0 else ORDERS)
        if depth > 2:
            return ""
        if kind < 0.68:
            return f"{self.group()} {{ {self.items(depth)} }}"
        return f"{self.list(depth)} {{ {self.declaration()} {self.items(depth + 1)} }}"

    def items(self, depth: int) -> str:
        """Several of them."""
        return " ".join(self.item(depth) for _ in range(self.choice((0, 1, 1, 2, 3))))

    def imported(self, depth: int) -> str:
        """An import, into a layer or not, in conditions or not."""
        layer = self.choice(("", "", " layer", " layer(x)", " layer(y.z)"))
        supports = f" supports({self.choice(SUPPORTS)})" if self.random() < 0.3 else ""
        media = f" {self.choice(MEDIA)}" if self.random() < 0.5 else ""
        return f'@import "{url_of(self.sheet(depth + 1))}"{layer}{supports}{media};'

    def sheet(self, depth: int = 0) -> str:
        """A sheet, which may import others."""
        front = self.choice(("", "", *ORDERS))
        imports = [
            self.imported(depth) for _ in range(self.choice((0, 0, 1, 2)) if depth < 2 else 0)
        ]
        return " ".join((front, *imports, self.items(0), self.items(0)))

    def element(self, depth: int = 0) -> Element:
        """An element with others in it."""
        words = [f'class="{self.choice(("a", "b", "a b"))}"', 'id="c"', 'e="x y"']
        words.append(f'style="{self.declaration()}"')
        kept = "".join(f" {word}" for word in words if self.random() < 0.35)
        inner = [self.element(depth + 1) for _ in range(self.randrange(4) if depth < 3 else 0)]
        name = self.choice(("div", "span"))
        return Element(f"<{name}{kept}>", name, inner)

    def styled(self) -> str:
        """A `style` element, or a link to a sheet, which may have media of its own."""
        media = f' media="{html.escape(self.choice(MEDIA))}"' if self.random() < 0.3 else ""
        if self.random() < 0.3:
            return f'<link rel="stylesheet"{media} href="{html.escape(url_of(self.sheet()))}">'
        return f"<style{media}>{self.sheet()}</style>"

    def page(self) -> str:
        """A page with one to three sheets."""
        self.number = 0
        sheets = "".join(self.styled() for _ in range(self.choice((1, 1, 2, 3))))
        body = "".join(str(self.element()) for _ in range(2))
        return f"<!DOCTYPE html><html><head>{sheets}</head><body>{body}</body></html>"


def url_of(sheet: str) -> str:
    """The url that is a sheet."""
    return f"data:text/css,{urllib.parse.quote(sheet)}"


def browser(pages: List[str]) -> Optional[List[Any]]:
    """The values of the properties of each element of each page, on each device."""
    found: List[Any] = []
    for start in range(0, len(pages), ON_A_PAGE):
        asked = {"names": NAMES, "sizes": SIZES, "pages": pages[start : start + ON_A_PAGE]}
        answers = browser_answers(PAGE, asked)
        if answers is None:
            return None
        found += answers
    return found


def found_on(page: str) -> List[List[List[str]]]:
    """The same as the package finds them, of one page."""
    tree = Tree.from_html(page)
    sheet, found = StyleSheet.of_page(tree), []
    for width, height in SIZES:
        styles = sheet.styles(tree, media=Device(width=width, height=height), specified=True)
        won = [
            # One that is rolled back to nothing stands as it is.
            {one.name: one.value for one in styles[each] if one.value != "revert-layer"}
            for each in tree
            if each.name in ("div", "span")
        ]
        found.append([[each.get(name, "") for name in NAMES] for each in won])
    return found


class Winning(Case):
    def test_pages(self) -> None:
        """What wins on each element is what the browser computes on each device. Of each wrong meaning a page
        tells: one where the package reads another text."""
        source = Source(os.environ.get("SEED", "winning"))
        pages = [source.page() for _ in range(count(600))]
        untold = set(WRONG)

        def question(page: str, due: List[Any]) -> List[Optional[str]]:
            for right, wrong in sorted(untold):
                if right in page and found_on(page.replace(right, wrong)) != due:
                    untold.discard((right, wrong))
            return rows(page, found_on(page), due)

        self.against(browser, pages, question)
        if len(pages) >= 200:
            self.assertFalse(untold, "no page tells these apart")
