"""Random hostile pages and style sheets through `simplecss.inline`, opened in a browser before and
after it: no script runs that did not run before, and no element and no attribute but `style` is
there that was not.

The pages are the same in each run of a seed, which `SEED` in the environment sets: soups of foreign
content, raw text, references, CDATA, comments, odd spaces, templates, `noscript` and what is not
closed, some in XML, and some in bytes of ISO-2022-JP. Each is opened with scripts and without. The
browser is Debian's `chromium`. The library is built by `./build library`.
"""
from __future__ import annotations

import os
import random
import shutil
import tempfile
from typing import Any, Dict, Iterator, List, NamedTuple, Optional, Sequence, Union
from xml.parsers import expat

from tests.common import Case, browser_answers, count, package, write

package()
import simplecss  # noqa: E402

# How many pages one run of the browser opens.
RUN = 100
# What a script does that runs: 1 in a page, 2 if it comes of a sheet beside it.
PAGE_RAN, SHEET_RAN = "top.ran(1,location.href)", "top.ran(2,location.href)"
# fmt: off
NAMES = (
    "p", "p", "b", "b", "a", "div", "table", "tr", "td", "caption", "colgroup", "svg", "svg",
    "math", "g", "defs", "title", "desc", "foreignObject", "annotation-xml", "mi", "mtext",
    "noscript", "noscript", "template", "head", "html", "body", "select", "option", "button",
    "form", "br", "hr", "li", "pre", "nobr", "font", "center", "image", "mglyph", "malignmark",
    "frameset", "x-y", "SVG", "P", "sv\0g", "\u017fvg", "textarea", "input", "search",
    "foreignobject",
)
# fmt: on
# fmt: off
RAW = (
    "style", "title", "textarea", "xmp", "iframe", "noembed", "noframes", "noscript", "script",
    "STYLE", "plaintext",
)
# fmt: on
# What ends the name of a tag, and what only seems to.
# fmt: off
SPACES = (
    " ", " ", "\n", "\t", "\f", "\r", "/", "\x0b", "\x1c", "\x1f", "\x85", "\xa0", "\u2028",
    "\u3000", "\ufeff",
)
# fmt: on
# fmt: off
ATTRIBUTES = (
    "id=x", "class=a", "class='a b'", 'class="b\xa0a"', "style=margin:0", "style='top:0;left:1px'",
    'style="n:\'<p>\'"', "style", "style= ", "STYLE=a:b", "title='", 'title="',
    "title='</noscript><b>'", 'title="<style>"', "title=&lt;p", "href=x", 'href="?a&amp;b"',
    "color=red", "encoding=text/html", "width=1", "x=`", "x='\"'", "x=a\"b", "=x", "a/b",
    "title='--></title></style></noscript>'", "href='&#27;$B'",
)
# fmt: on
MARKUP = "<img src=x onerror={}>"
TEXTS = (
    "x",
    " ",
    "&lt;",
    "&lt;img src=x onerror=" + PAGE_RAN + "&gt;",
    "&lt",
    "&#60;b",
    "&amp",
    "<",
    "</",
    "<!",
    "<?",
    "&",
    "]]>",
    "-->",
    "'",
    '"',
    "/*",
    "*/",
    "{",
    "}",
    "\0",
    "\x0b",
    "<\u017f>",
    "\u6c34",
    "&#27;",
    "&#0;",
    "\x1b$B",
    "\x1b(B",
)
# fmt: off
COMMENTS = (
    "<!-- c -->", "<!-->", "<!--->", "<!-- --!>", "<!-- <style> -->", "<!-- ", "<!x>", "<?x>",
    "</ x>", "<!---", "--!>", "<!-- ' -->", "<![CDATA[", "<![CDATA[<p>]]>", "<![CDATA[ & ]]>",
    "<!doctype html>", "<!-- --", "<!--<!---->",
)
# fmt: on
SCRIPTS = (
    f"<script>{PAGE_RAN}</script>",
    "<script>0",
    "<script><!--<script></script>",
    "</script>",
    "<script></\u017fcript>",
    "<script\x0b>" + PAGE_RAN + "</script>",
    "<script\x85>" + PAGE_RAN + "</script>",
    "<svg><script>0</script>",
)
SHEETS_IN_PAGES = (
    "<style>",
    "</style>",
    "<style>%s</style>",
    "<style>%s</style>",
    "<svg><style>%s</style></svg>",
    "<svg><style>%s",
    "<svg><defs><style>%s</style></defs>",
    "<math><style>%s</style>",
    "<svg><desc><style>%s</style>",
    "<noscript><style>%s</style></noscript>",
    "<noscript><style>%s",
    "<svg><style><!--%s--></style>",
    "<svg><style><![CDATA[%s]]></style>",
    "<svg><style>%s<g></style>",
    "<template><style>%s</style></template>",
    "<link rel=stylesheet href=a.css>",
    "<link rel='x\xa0stylesheet' href=a.css>",
    "<svg><link rel=stylesheet href=a.css>",
    "<math><link rel=stylesheet href=a.css></math>",
    "<noscript><link rel=stylesheet href=a.css></noscript>",
    "<svg><foreignObject><link rel=stylesheet href=a.css>",
    "<style onload=%s>" % PAGE_RAN,
    "<p><noscript><div><link rel=stylesheet href=a.css>",
    "<p><noscript><div><link rel=stylesheet href=a.css></noscript>",
    "<svg><<style>b{n:1}</style>img src=x onerror=" + PAGE_RAN + ">",
    '<noscript><p title="</noscript><img src=x alt=\'"></noscript><b>',
    "<noscript><svg><desc></noscript></desc><style>%s</style>",
)
# fmt: off
FRONTS = (
    "", "", "<!doctype html>", "<!-- c -->", "<html><head>", "<head id=x>", "<p>", "<svg>", "<b>",
)
# fmt: on
# fmt: off
SELECTORS = (
    "p", "b", "*", "g", ".a", "#x", "svg", "script", "[title]", "td", "noscript *", ":root",
    "style", "a",
)
# fmt: on
# What changes the meaning of the bytes after it in ISO-2022-JP.
SHIFTS = (b"\x1b$B\x1b(B", b"\x1b(J", b"\x1b$B", b"\x1b(B", b"\x1b$B4A\x1b(B")
STATES = ("", "", ":hover", ":hover", "::before", ":hover, b")
# What would end what a sheet is written into, where nothing prevents it.
# fmt: off
ENDS = (
    "", "", "</style>", "</style>", "</STYLE >", "</noscript>", "</noscript>", "</noscript>",
    "</noscript/", "</title>", "</textarea>", "</script>", "-->", "--!>", "]]>", "]]></style>",
    "'>", "\">", "&quot;>", "&#34;>", "</svg>",
    "</template>", "\x1b(B\">", "\x1b(B", "\x85>", "`>",
)
# fmt: on
# fmt: off
VALUES = (
    "red", "0", "1px", "url(x)", "\u6c34", "\xe9", "var(--x)", "a\\", "a\\\n", "\\", "'\\", "f(",
    "f(1", "'x", "/* c", "\0", "\x1b$B", "\x1b(J\\", "\x0e", "\x7f", "\x80", "\ufffe", "'\\\n'",
    "\"a\\\"b\"", "!important", "<!--", "<", "&lt;", "&", "a\fb", "\\1b$B", "\\\x1b$B", "U+26", "{",
    "}", "[x]", "('')",
)
# fmt: on
# fmt: off
PLACES = (
    "'%s'", '"%s"', "/*%s*/", "url(%s)", "url('%s')", "\\%s", "f('%s')", "%s", "'\\'%s'",
    "'\\\n%s'", "'%s\\", "\"%s",
)
# fmt: on
OPTIONS: Sequence[Dict[str, Any]] = (
    {},
    {},
    {},
    {"remove_classes": True},
    {"attributes": True},
    {"keep_style": True},
    {"base_url": "http://x/y?a&b"},
)
# fmt: off
XML_PARTS = (
    "<g/>", "<g><p/></g>", "<p class='a' id=\"x\"/>", "<b STYLE='a' style='b:c'/>",
    "<![CDATA[<&]]>", "&lt;", "&amp;", "]]&gt;", "<style>%s</style>",
    "<style><![CDATA[%s]]></style>", "<style/>", "<defs><style>%s</style></defs>",
    "<style>%s<g/></style>", "<?x > ?>", "<!-- <p> -->", "<g title='?>'/>", "<!-- --!> -->",
    "<foreignObject><p><![CDATA[><img title=\"]]></p><b/></foreignObject>", "<title/>",
    "<foreignObject><style>%s</style></foreignObject>", "<foreignObject><title/></foreignObject>",
    "<h:style>p{a:b}</h:style>", "<a href='x'/>", "]]", "<link rel='stylesheet' href='a.css'/>",
)
# fmt: on
XML_ROOTS = (
    ("<svg xmlns='http://www.w3.org/2000/svg' xmlns:h='http://www.w3.org/1999/xhtml'>", "</svg>"),
    (
        (
            "<?xml version='1.0'?><svg xmlns='http://www.w3.org/2000/svg'"
            " xmlns:h='http://www.w3.org/1999/xhtml'><g>"
        ),
        "</g></svg>",
    ),
    (
        (
            "<?xml version='1.0'?><html xmlns='http://www.w3.org/1999/xhtml'"
            " xmlns:h='x'><head></head><body>"
        ),
        "</body></html>",
    ),
    (
        (
            "<?xml version='1.0'?><h:svg xmlns:h='http://www.w3.org/2000/svg'"
            " xmlns='http://www.w3.org/1999/xhtml'>"
        ),
        "</h:svg>",
    ),
)

SCRIPT = """<!DOCTYPE html><meta charset=utf-8><script id=input type="application/json">%s</script><script>
const input = JSON.parse(document.getElementById("input").textContent), answer = [], runs = new Map();
window.ran = (what, where) => { runs.set(where, [...(runs.get(where) || []), what]); };
function is_sheet(node) {
    const is_link = node.localName == "link" && /stylesheet/i.test(node.getAttribute("rel"));
    return is_link || /^(h:)?style$/.test(node.localName);
}
// Elements, and texts without their white space, one in a line, but for what `inline` may change.
function walk(node, depth, skipped, with_scripts, lines) {
    for (const child of node.childNodes) {
        if (child.nodeType == 3 || child.nodeType == 4) {
            const text = child.data.replace(/\\s/g, "");
            const last = lines.length - 1;
            if (lines.length && lines[last].startsWith(depth + " text ")) lines[last] += text;
            else if (text) lines.push(depth + " text " + text);
        }
        if (child.nodeType != 1 || is_sheet(child)) continue;
        const names = [...child.attributes].filter(each => !skipped.includes(each.name.toLowerCase()));
        const words = names.map(each => each.name + "=" + each.value).sort();
        lines.push([depth, child.namespaceURI, child.localName, ...words].join(" "));
        if (with_scripts && child.localName == "noscript" && child.namespaceURI.endsWith("xhtml")) continue;
        const is_template = child.content && child.content.nodeType == 11;
        walk(is_template ? child.content : child, depth + 1, skipped, with_scripts, lines);
    }
    return lines;
}
function opened(url, with_scripts) {
    const frame = document.createElement("iframe");
    if (!with_scripts) frame.sandbox = "allow-same-origin";
    return new Promise(done => {
        frame.onload = () => setTimeout(() => { done(frame); }, 0);
        frame.src = url;
        document.body.append(frame);
    });
}
async function read(url, skipped, with_scripts) {
    runs.delete(url);
    const frame = await opened(url, with_scripts);
    const lines = walk(frame.contentDocument, 0, skipped, with_scripts, []);
    frame.remove();
    return [lines, runs.get(url) || []];
}
// What is there after, and was not before, or the other way round.
function difference(before, after) {
    const found = after[1].filter(each => each == 2 || !before[1].includes(each)).map(each => "ran: " + each);
    const at = after[0].findIndex((line, index) => line != before[0][index]);
    if (at >= 0 || before[0].length != after[0].length) {
        const place = at < 0 ? after[0].length : at;
        found.push("before " + before[0][place] + ", after " + after[0][place]);
    }
    return found;
}
async function work(queue) {
    for (let next = queue.shift(); next; next = queue.shift()) {
        const [number, before, after, skipped] = next;
        for (const with_scripts of [true, false]) {
            const first = await read(before, skipped, with_scripts);
            const found = difference(first, await read(after, skipped, with_scripts));
            if (found.length) answer.push([number, with_scripts, found]);
        }
    }
}
window.onunhandledrejection = event => { document.documentElement.textContent = "failed: " + event.reason; };
window.onload = async () => {
    const queue = [...input];
    await Promise.all([1, 2, 3, 4].map(() => work(queue)));
    document.documentElement.textContent = "ANS" + "WER" + JSON.stringify([input.length, answer]) + "END";
};
</script><body>
"""

Document = Union[str, bytes]


class Page(NamedTuple):
    """A page, the sheet that is written into it, the sheet that it may link to, the name of its
    file, and options."""

    document: Document
    sheet: str
    linked: str
    suffix: str
    options: Dict[str, Any]


class Source(random.Random):
    """Random pages and sheets, the same in each run."""

    def value(self) -> str:
        """A value of a declaration, often one that would end what it is in, and begin an
        element."""
        if self.random() < 0.4:
            return self.choice(VALUES)
        markup = MARKUP.format(SHEET_RAN)
        payload = self.choice(
            (markup, markup, f"' onerror={SHEET_RAN} x='", f"<script>{SHEET_RAN}</script>", "")
        )
        return self.choice(PLACES) % (
            self.choice(("", "", "", "&lt;", "\x1b$B")) + self.choice(ENDS) + payload
        )

    def rule(self) -> str:
        """A rule, which may be broken."""
        parts = [
            f"{self.choice(('n', 'color', 'content', '--a', 'width'))}:{self.value()}"
            for _ in range(self.choice((1, 1, 2)))
        ]
        text = f"{self.choice(SELECTORS)}{self.choice(STATES)}{{{';'.join(parts)}}}"
        if self.random() < 0.1:
            text = f"@media {self.choice(('all', self.value()))}{{{text}}}"
        if self.random() < 0.08:
            text = f"@import {self.choice((self.value(), 'url(a.css)'))};{text}"
        return text

    def sheet(self) -> str:
        """A style sheet, whose end may be missing."""
        text = "\n".join(self.rule() for _ in range(self.choice((0, 1, 1, 2, 3))))
        return text[: self.randrange(len(text) + 1)] if self.random() < 0.2 else text

    def tag(self) -> str:
        """A start tag, which may not end."""
        parts = [f"<{self.choice(NAMES)}"]
        for _ in range(self.choice((0, 0, 1, 1, 2, 3))):
            parts.append(self.choice(SPACES) + self.choice(ATTRIBUTES))
        return "".join(parts) + self.choice((">", ">", ">", ">", ">", " >", "/>", "\x0b>", ""))

    def part(self) -> str:
        """A part of a page."""
        kind = self.random()
        if kind < 0.35:
            return self.tag()
        if kind < 0.5:
            return f"</{self.choice(NAMES + RAW)}{self.choice(('', '', '', *SPACES))}>"
        if kind < 0.65:
            return self.choice(TEXTS)
        if kind < 0.72:
            return self.choice(COMMENTS)
        if kind < 0.78:
            return self.choice(SCRIPTS)
        if kind < 0.85:
            return f"<{self.choice(RAW[:-1])}>{self.choice(TEXTS + COMMENTS)}"
        text = self.choice(SHEETS_IN_PAGES)
        return text.replace("%s", self.sheet().replace(SHEET_RAN, PAGE_RAN))

    def html(self) -> str:
        """A page in HTML."""
        front = self.choice(FRONTS)
        text = front + "".join(self.part() for _ in range(self.randrange(1, 14)))
        return text[: self.randrange(len(text) + 1)] if self.random() < 0.15 else text

    def japanese(self) -> bytes:
        """A page in bytes of ISO-2022-JP."""
        name = self.choice(("iso-2022-jp", "csISO2022JP", "iso-2022-jp ", "iso2022jp"))
        text = self.html().replace("\x1b", "").encode("iso2022_jp", "xmlcharrefreplace")
        if self.random() < 0.3:
            at = self.randrange(len(text) + 1)
            text = text[:at] + self.choice(SHIFTS) + text[at:]
        return f"<meta charset='{name}'>".encode() + text

    def xml(self) -> str:
        """A page in XML, or what is almost one."""
        first, last = self.choice(XML_ROOTS)
        text = "".join(self.choice(XML_PARTS) for _ in range(self.randrange(1, 7)))
        return first + text.replace("%s", self.choice(("p{a:b}", "g:hover{a:b}", ""))) + last

    def page(self) -> Page:
        """A page and a sheet."""
        kind = self.random()
        options = self.choice(OPTIONS)
        if kind < 0.1:
            return Page(self.japanese(), self.sheet(), self.sheet(), "html", options)
        if kind < 0.2:
            text = self.xml()
            # What begins as XML may be opened as HTML, and a drawing may be put into a page.
            if not is_xml(text) or self.random() < 0.5:
                return Page(text, self.sheet(), self.sheet(), "html", options)
            options = {**options, "is_xml": True}
            suffix = "html" if not text.startswith("<?xml") and self.random() < 0.5 else "xhtml"
            return Page(text, self.sheet(), self.sheet(), suffix, options)
        return Page(self.html(), self.sheet(), self.sheet(), "html", options)


def is_xml(text: str) -> bool:
    """Whether a text is a document in XML."""
    try:
        expat.ParserCreate(None, "}").Parse(text, True)
    except expat.ExpatError:
        return False
    return True


def skipped_attributes(options: Dict[str, Any]) -> List[str]:
    """Returns the attributes that `inline` may write, by its options."""
    found = ["style"]
    if "remove_classes" in options:
        found.append("class")
    if "attributes" in options:
        found += ["width", "height", "bgcolor", "align", "valign"]
    if "base_url" in options:
        found += ["href", "src", "background", "action", "poster"]
    return found


def encoded(document: Document) -> bytes:
    """Returns a page in bytes; a text has a mark that says how it is encoded."""
    return (
        document
        if isinstance(document, bytes)
        else ("\ufeff" + document.lstrip("\ufeff")).encode("utf-8")
    )


def written(folder: str, name: str, document: Document) -> str:
    """Writes a page. Returns where a browser finds it."""
    path = os.path.join(folder, name)
    with open(path, "wb") as file:
        file.write(encoded(document))
    return f"file://{path}"


def inlined(page: Page, folder: str) -> Document:
    """Returns a page with its sheets written into it. One that is refused raises `ValueError`."""
    write(os.path.join(folder, "a.css"), page.linked)
    if isinstance(page.document, bytes):
        return simplecss.inline(page.document, page.sheet, folder=folder, **page.options)
    return simplecss.inline(page.document, page.sheet, folder=folder, **page.options)


class Hostile(Case):
    def setUp(self) -> None:
        if not (shutil.which("chromium") or shutil.which("chromium-browser")):
            self.skipTest("hostile pages through inline: there is no chromium")

    def test_pages(self) -> None:
        """A browser finds nothing after `inline` that it did not before."""
        source = Source(int(os.environ.get("SEED", 1)))

        def browser(pages: List[Page]) -> List[Optional[str]]:
            found: Dict[int, str] = {}
            for first in range(0, len(pages), RUN):
                with tempfile.TemporaryDirectory() as folder:
                    found.update(self.opened(pages[first : first + RUN], first, folder))
            return [found.get(number) for number in range(len(pages))]

        def question(page: Page, how: Optional[str]) -> Iterator[Optional[str]]:
            with tempfile.TemporaryDirectory() as folder:
                yield how and f"{how}\n  {page!r}\n  {inlined(page, folder)!r}"

        self.against(browser, [source.page() for _ in range(count(200))], question)

    def opened(self, pages: List[Page], first: int, folder: str) -> Dict[int, str]:
        """Returns what a browser finds of pages after `inline` that it did not before; those that
        are refused hold."""
        work = []
        for number, page in enumerate(pages, first):
            try:
                after = inlined(page, folder)
            except ValueError:
                continue
            before = written(folder, f"{number}before.{page.suffix}", page.document)
            names = skipped_attributes(page.options)
            work.append(
                (number, before, written(folder, f"{number}after.{page.suffix}", after), names)
            )
        answer = browser_answers(SCRIPT, work, ("--allow-file-access-from-files",))
        if answer is None or answer[0] != len(work):
            self.fail(f"the browser did not answer on pages {first} to {first + len(pages) - 1}")
        found: Dict[int, str] = {}
        for number, with_scripts, lines in answer[1]:
            how = "with scripts" if with_scripts else "without scripts"
            found.setdefault(number, f"{how}: {'; '.join(lines)}"[:300])
        return found
