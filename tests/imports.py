"""The `@import` rules of sheets beside a browser: of random sheets, which are in force, and of each
its url, its layer, its condition and its media queries; and what wins of sheets that are imported and
linked in layers, in conditions and one through another.

The browser is Debian's `chromium`, the program `tests_driver`. A name of a layer and media queries
are compared as the browser prints them. The named differences (`docs/DIFFERENCES.md`) are not
tried: known at-rules whose preludes are invalid, unknown pseudo-classes, and conditions of
`supports(..)` for which the browser drops the rule.
"""
from __future__ import annotations

import html
import random
import urllib.parse
from typing import Any, Callable, Dict, Iterator, List, NamedTuple, Optional, Tuple

from tests.common import Case, browser_answers, count, in_turns, package, row, rows
from tests.syntax import Fields, fields_of

package()
from simplecss import StyleSheet, Tree  # noqa: E402

# fmt: off
URLS = (
    '"a"', "'a'", '"a b"', "url(a)", "url('a')", 'url("a")', "url( a )", "url( 'a' )", "URL(a)",
    "u\\72l(a)", "u\\000072 l(a)", "url( 'a'/**/)", "url(\\61 b)", "'\\61 b'", "'a\\\nb'",
    '"a\\"b"', "url(a\\)b)", "''", "url()", "url(\t)", "'\xe9'", "url(\xe9)", "'a;b'", "'a{b'",
    "url(a;b)", "url(a{b)", "url(a'b)", "url(a b)", "url('a' b)", "'a\nb'", "url(a(b)",
    "url('a')url(b)", "url(/**/a)", "url(/**/'a')", "src('a')", "a", "", "1", "url (a)",
    "url/**/(a)", "-url(a)", "urls(a)", "url('a\n')", "url(a\\\nb)", "@a", "/**/'a'", "(a)",
    "url('a',b)",
)
LAYERS = (
    "layer", "LAYER", "l\\61yer", "layer(a)", "layer(a.b)", "Layer( a.b )", "layer(/**/a/**/)",
    "layer(a\\.b)", "l\\61 yer(\\61 b.c)", "layer()", "layer( )", "layer(a b)", "layer(a,b)",
    "layer(a .b)", "layer(a. b)", "layer(.a)", "layer(a.)", "layer(1)", "layer('a')", "layer((a))",
    "layer(a)layer(b)", "layer layer", "layers", "layer (a)", "layer/**/(a)", "layer(\xe9)",
    "layer(--a)", "layer(-a.-b)", "layer(a.b.c.d)", "layer(a])", "layer(a;b)", "layer(a",
    "layer(a{b})", "layer,", "-layer", "layer\\(a)", "layer([a)", "layer(url(a))", "layer(-->)",
    "layer(a-->)",
)
CONDITIONS = (
    "supports(color:red)", "SUPPORTS((color:red))", "s\\75pports(color : red)",
    "supports( color:red )", "supports(not (foo:bar))", "supports((color:red) and (foo:bar))",
    "supports(selector(a))", "supports(foo(a))", "supports(/**/color:red/**/)",
    "supports(color:red!important)", "supports(--a:{b})", "supports(--a:')')",
    "supports((--a:(b)) or (c:d))", "supports(--x:\\))", "supports (color:red)",
    "supports/**/(color:red)", "supports ", "support(color:red)",
    "supports(color:red)supports(color:red)", "supports(color:red) layer", "supports\\(a)",
)
MEDIA = (
    "screen", "print", "screen, print", "(width > 1px)", "not all", "screen and (width)", "foo",
    "SCREEN", ")", "]", "[]", "(a", "1", "!", ",", "screen,", "'a'", "all", "only screen",
    "\\73 creen", "scr\xe9n", "<!-- screen", "-->", "@a", "#a", "and", "layer(1)", "(width),",
    "not (width)", "}", "{", "(;)", "[;]", "(})",
)
COMMENTS = ("/**/", "/* x */", "/*;*/")
GAPS = ("", "", " ", " ", " ", "/**/", " /* x */ ", "\n", "\r\n\t", "/*;*/")
KEYWORDS = (
    "@import", "@import", "@import", "@IMPORT", "@\\69mport", "@i\\6d port", "@imports", "@-import",
    "@ import",
)
ENDS = (";", ";", ";", ";", ";", ";", " ;", "{}", "{};", "", "}", ";;")
# What no import follows, what is nothing to imports, and what may be before the first.
RULES = (
    "a{}", "a,b{c:d}", "*{}", "&{}", ".a>b{}", "@media{}", "@media x{a{}}",
    "@supports(color:red){}", "@layer{}", "@layer a{}", "@namespace 'a';", "@namespace a url(b);",
    "@namespace a'b';", "@font-face{}", "@page{}", "@keyframes a{}", "@-webkit-keyframes a{}",
    "@container(width>1px){}", "@scope{}", "@starting-style{}", "@view-transition{}",
    "@counter-style a{}", "@font-feature-values a{}", "@font-palette-values --a{}",
    "@position-try --a{}", "@function --a(){}", "@property --a{syntax:'*';inherits:false}",
    "@M\\65 dia{}", "a:hover{}", "a{b:c", "@media{", "@supports (color:red){a", "@PAGE{}",
    "@l\\61yer{}", "@layer a.b{}",
)
NOTHING = (
    "", "", "a,{}", "{}", "1{}", "@foo;", "@foo{}", "@media;", "@font-face;", "@keyframes a;",
    "@charset 'a';", '@charset "utf-8";', "@charset{}", "@charset;", "<!--", "-->", "/**/",
    "@layer a b;", "@layer;", "@layer a,b{}", "@layer a.{}", "@layer 1;", "@namespace a;",
    "@namespace 'a' b;", "@namespace;", "@namespace 'a'{}", "@namespace 1'a';",
    "@namespace a b 'c';", "@viewport{}", "@mixin --a(){}", "@-moz-keyframes a{}", "@document a{}",
    "@", "@1;", "a{", "a}{}", ")a{}", "@namespace url(a b);", ";", "a b", "@-a;", "@import;",
    "@import a;",
)
LISTS = ("@layer a;", "@layer a, b.c;", "@LAYER a;", "@l\\61yer a;", "@layer a/**/;")
# fmt: on

PAGE = """<!DOCTYPE html><meta charset=utf-8>
<meta http-equiv=Content-Security-Policy content="default-src 'unsafe-inline'">
<script id=input type="application/json">%s</script>
<script>
const input = JSON.parse(document.getElementById("input").textContent);
function sheet(text, media) {
    const made = document.createElement("style");
    made.media = media;
    made.textContent = text;
    document.head.append(made);
    const found = made.sheet;
    made.remove();
    return found;
}
const imports = rule => [rule.href, rule.layerName, rule.supportsText, rule.media.mediaText];
const answer = {
    sheets: input.sheets.map(text =>
        [...sheet(text, "").cssRules].filter(rule => rule instanceof CSSImportRule).map(imports)),
    layers: input.layers.map(name => sheet(`@layer ${name};`, "").cssRules[0]?.nameList[0]),
    media: input.media.map(media => sheet("", media).media.mediaText),
};
const escaped = c => "\\\\u" + c.charCodeAt(0).toString(16).padStart(4, "0");
const printed = JSON.stringify(answer).replace(/[^ -~]/g, escaped);
document.documentElement.textContent = "ANSWER" + printed + "END";
</script>
"""


class Source(random.Random):
    """Random sheets, the same in each run."""

    def gap(self) -> str:
        return self.choice(GAPS)

    def prelude(self) -> str:
        """What an import has, which may be in another order."""
        parts = [self.choice(URLS[:20] if self.random() < 0.6 else URLS)]
        parts += [self.choice(row) for row in (LAYERS, CONDITIONS, MEDIA) if self.random() < 0.4]
        if self.random() < 0.05:
            self.shuffle(parts)
        return "".join(self.gap() + part for part in parts) + self.gap()

    def imported(self) -> str:
        return self.choice(KEYWORDS) + self.prelude() + self.choice(ENDS)

    def statement(self) -> str:
        form = self.random()
        if form < 0.6:
            return self.imported()
        return self.choice(NOTHING if form < 0.8 else LISTS if form < 0.9 else RULES)

    def sheet(self) -> str:
        return "".join(
            self.statement() + self.gap() for _ in range(self.choice((1, 1, 2, 3, 4, 5)))
        )


def bare(text: Optional[str]) -> Optional[str]:
    """A text without the comments that it may have, and without blanks at either end: where the
    browser prints what is in parentheses as written, it keeps other comments than are read."""
    for comment in COMMENTS:
        text = text and text.replace(comment, "")
    return text and text.strip()


def compared(href: str, layer: Optional[str], condition: Optional[str], media: str) -> List[Any]:
    """What is compared of an import."""
    return [href, layer, bare(condition), bare(media)]


def printed(read: Fields, layers: Dict[str, Any], media: Dict[str, Any]) -> List[Any]:
    """An import as the browser prints it."""
    url, layer, condition, queries = read
    name = layers.get(layer[1:], "") if layer else None
    return compared(url, name, condition[1:] if condition else None, media[queries])


class Imports(Case):
    def compare(self, make: Callable[[], str], usual: int) -> None:
        """Compares imports of sheets with those that the browser has."""
        sheets = [make() for _ in range(count(usual))]
        names: Dict[str, Any] = {}
        queries: Dict[str, Any] = {}

        def browser(asked: List[Tuple[str, List[Fields]]]) -> Optional[List[Any]]:
            every = [each for _, read in asked for each in read]
            layers = sorted({layer[1:] for _, layer, _, _ in every} - {""})
            media = sorted({query for _, _, _, query in every})
            found = browser_answers(PAGE, {"sheets": sheets, "layers": layers, "media": media})
            if found is None:
                return None
            names.update(zip(layers, found["layers"]))
            queries.update(zip(media, found["media"]))
            self.assertGreater(sum(map(len, found["sheets"])), len(sheets) // 4)
            return list(found["sheets"])

        def question(one: Tuple[str, List[Fields]], imports: Any) -> Iterator[Optional[str]]:
            text, read = one
            found = [printed(each, names, queries) for each in read]
            yield row(repr(text), found, [compared(*each) for each in imports])

        self.against(browser, zip(sheets, fields_of("imports", sheets)), question)

    def test_one(self) -> None:
        """A sheet of one import."""
        source = Source("one")
        self.compare(source.imported, 3_000)

    def test_sheets(self) -> None:
        """Sheets of imports and other rules."""
        source = Source("sheets")
        self.compare(source.sheet, 4_000)


WON = """<!DOCTYPE html><meta charset=utf-8>
<script id=input type="application/json">%s</script>
<script>
const input = JSON.parse(document.getElementById("input").textContent);
const loaded = made => new Promise(done => { made.onload = made.onerror = done; });
async function answer({ sheets, body }) {
    const host = document.createElement("div"), room = host.attachShadow({ mode: "open" });
    document.body.append(host);
    for (const { text, url, media } of sheets) {
        const made = document.createElement(url === null ? "style" : "link");
        if (media !== null) made.media = media;
        if (url === null) made.textContent = text;
        else Object.assign(made, { rel: "stylesheet", href: url });
        const done = loaded(made);
        room.append(made);
        await done;
    }
    room.append(document.createRange().createContextualFragment(body));
    const found = [...room.querySelectorAll("p")].map(element => {
        const style = getComputedStyle(element);
        return input.names.map(name => style.getPropertyValue(name));
    });
    host.remove();
    return found;
}
addEventListener("load", async () => {
    const answers = [];
    for (const one of input.cases) answers.push(await answer(one));
    document.documentElement.textContent = "ANSWER" + JSON.stringify(answers) + "END";
});
</script><body>
"""
INITIAL = {"order": "0", "z-index": "auto"}
BODY = "<p><p class=a><p class=b><p class='a b'><p id=d class=a>"
FRONTS = (
    "",
    "",
    "@layer y, x;",
    "@layer x.z;",
    "@layer z; @layer y;",
    "@media;",
    "@foo{} @layer y;",
)
INTO = ("", "", " layer", " layer", " layer(x)", " layer(y)", " layer(x.z)", " layer(1)")
UNDER = ("", "", "", " supports(order: 1)", " supports(foo: bar)", " supports(not (foo: bar))")
SEEN = ("", "", "", " screen", " print", " (width > 1px)", " not all", " print, screen")
BLOCKS = ("@layer x", "@layer y", "@layer", "@layer x.z", "@media all", "@media print", "@layer z")


class Imported(NamedTuple):
    """A sheet of a page: its text, the url of one that is linked, and its media."""

    text: str
    url: Optional[str]
    media: Optional[str]

    def element(self) -> str:
        """The element of the page that is the sheet."""
        media = "" if self.media is None else f' media="{html.escape(self.media)}"'
        if self.url is None:
            return f"<style{media}>{self.text}</style>"
        return f'<link rel=stylesheet{media} href="{html.escape(self.url)}">'


class Importing(random.Random):
    """Random sheets that import others, the same in each run."""

    def __init__(self, seed: str) -> None:
        super().__init__(seed)
        self.number = 0

    def url(self, text: str, kind: str = "text/css") -> str:
        return f"data:{kind},{urllib.parse.quote(text)}"

    def declaration(self) -> str:
        self.number += 1
        value = "revert-layer" if self.random() < 0.1 else str(self.number)
        return f"{self.choice(tuple(INITIAL))}:{value}{self.choice(('', '', ' !important'))}"

    def item(self, depth: int) -> str:
        """A rule, or a group rule with others, of which the text may end before its end."""
        if depth < 2 and self.random() < 0.4:
            inner = "".join(self.item(depth + 1) for _ in range(self.randrange(1, 3)))
            return f"{self.choice(BLOCKS)}{{{inner}}}"
        selector = self.choice(("p", ".a", ".b", "#d", ".a.b", "*"))
        return f"{selector}{{{self.declaration()};{self.declaration()}}}"

    def imported(self, depth: int) -> str:
        """An import, which may be of what is no sheet."""
        kind = "text/plain" if self.random() < 0.05 else "text/css"
        url = self.url(self.sheet(depth + 1), kind)
        return f'@import "{url}"{self.choice(INTO)}{self.choice(UNDER)}{self.choice(SEEN)};'

    def sheet(self, depth: int = 0) -> str:
        """A sheet, which a brace may begin, and in which a rule may be open at the end."""
        imports = [
            self.imported(depth) for _ in range(self.choice((0, 1, 1, 2)) if depth < 3 else 0)
        ]
        items = [self.item(0) for _ in range(self.randrange(3))]
        begin = self.choice(("", "", "", "} "))
        text = "".join((self.choice(FRONTS), *imports, begin, *items))
        braces = len(text) - len(text.rstrip("}"))
        return text[: len(text) - self.randrange(braces + 1)] if self.random() < 0.4 else text

    def page(self) -> List[Imported]:
        """The sheets of a page."""
        self.number = 0
        found = []
        for _ in range(self.choice((1, 1, 2, 3))):
            text, media = self.sheet(), self.choice((None, None, *SEEN))
            url = self.url(text) if self.random() < 0.4 else None
            found.append(Imported(text, url, media))
        return found


class Winning(Case):
    def test_winners(self) -> None:
        """What wins of sheets that a page has, links to and imports, and that these import."""
        source = Importing("imported")
        pages = [source.page() for _ in range(count(1_000))]
        initial = list(INITIAL.values())

        def browser(pages: List[List[Imported]]) -> Optional[List[Any]]:
            cases = [{"sheets": [one._asdict() for one in each], "body": BODY} for each in pages]
            found = browser_answers(WON, {"names": list(INITIAL), "cases": cases})
            every = [each != initial for page in found or [] for each in page]
            self.assertGreaterEqual(sum(every), len(every) // 4)
            return found

        def question(page: List[Imported], due: Any) -> List[Optional[str]]:
            text = "".join(each.element() for each in page) + BODY
            tree = Tree.from_html(text)
            found = []
            for element, won in zip(tree, StyleSheet.of_page(tree).styles(tree)):
                # One that is rolled back to nothing stands as it is.
                mine = {each.name: each.value for each in won if each.value != "revert-layer"}
                if element.name == "p":
                    found.append([mine.get(name, value) for name, value in INITIAL.items()])
            return rows(text, found, due)

        self.against(in_turns(browser), pages, question)
