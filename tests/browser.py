#!/usr/bin/env python3
"""Compares the Python package with a browser: headless Chromium (Debian's package `chromium`).

    browser.py mails [FILE..]     the computed styles of documents before and after `inline`
    browser.py bare [FILE..]      the computed styles of documents, of whose sheets only the rules for
                                  every screen are left, and after `inline` without any sheet
    browser.py trees [FILE..]     the elements and attributes of `Tree.from_html` with those of the
                                  browser, and which are empty
    browser.py selectors          what random selectors find in random documents of HTML
    browser.py links              the colours of random pages whose sheets are in files and import
                                  one another, before and after `inline`
    browser.py soup [FILE..]      what selectors find, with soupsieve over html5lib (no browser)
    browser.py unused [FILE..]    the selectors that match nothing on pages, beside what the browser finds
    browser.py reports [FILE..]   whether the browser takes what `lint` reports: at most one in 100
    browser.py printed [FILE..]   the rules of sheets, and of these as the package prints them

Without files, `mails` and `bare` take those of `tests/mails`, and `trees` and `soup` take these
and pages of Debian packages below /usr/share/doc. `reports` takes sheets of Bootstrap, jQuery UI,
Font Awesome and Sphinx below /usr/share, and `printed` 200 of all there. Each test is
a document.
What differs is listed, and the last line is `N passed, M failed`. Run by hand, but for `soup`,
which tests/library.py runs. The library is built by `./build library`.
"""
from __future__ import annotations

import collections
import glob
import html
import json
import os
import random
import re
import shutil
import subprocess
import sys
import tempfile
from typing import Any, Counter, Dict, List, Sequence, Set, Tuple

TOP = os.path.dirname(os.path.dirname(os.path.abspath(__file__)))
# As a script, this folder is where modules are looked for.
sys.path[0] = TOP

from tests import modern_selectors  # noqa: E402
from tests.common import package  # noqa: E402

package()
import simplecss  # noqa: E402
from simplecss import _lint  # noqa: E402
from simplecss._page import EditedPage  # noqa: E402

# How many differences of a document are listed.
SHOWN = 4
# fmt: off
SELECTORS = (
    "*", "p", "a", "a[href]", "A[HREF]", "ul > li", "table td", "td + td", "tr td:first-child",
    "p + p", "[class]", "[id]", "div p a", "li li", ":first-child", "html > body > *", "h1 + p",
    "head > title", "body h2, body h3", "img[alt]", "td[align=center]", "[lang|=en]",
    "div > div > p", "pre code", "dl > dt + dd", "tbody > tr", "a:link", "span span",
    "input[type=text]", "h2 ~ p", "li:nth-child(2n+1)", "tr:nth-child(even) > td",
    "td:nth-last-child(2)", "p:first-of-type", "dd:last-of-type", "p:nth-of-type(3n)",
    "li:last-child", "p:only-child", "p:not([class])", "p:not(:first-child, :last-child)",
    ":is(h1, h2) + p", ":where(ul, ol) > li", "a[href^=http]", "a[href$='.html']", "a[href*='#']",
    "a[href^=HTTP i]", ":root > body", "body *:not(p):not(a)",
)
# fmt: on

# What soupsieve finds less of, and why: the others are found by both.
WIDER = {
    "a:link": "a link in SVG",
    "li:nth-child(2n+1)": "by `An+B` soupsieve does not find the child B if there are B nodes",
    "td[align=center]": (
        "of the values that HTML compares without case, soupsieve compares those of `type`"
    ),
}

SCRIPT = """
<script>
const input = JSON.parse(document.getElementById("input").textContent), answer = [];
function all(page) { return [...page.documentElement.querySelectorAll("*")]; }
function styles(frame) {
    const page = frame.contentDocument, found = [];
    for (const element of page.body.querySelectorAll("*")) {
        if (element.closest("style, script")) continue;
        const style = frame.contentWindow.getComputedStyle(element), values = {};
        for (const name of style) values[name] = style.getPropertyValue(name);
        found.push([element.localName, values]);
    }
    return found;
}
// What a layout makes of others.
const sizes = ["block-size", "inline-size", "width", "height", "top", "left", "right", "bottom",
    "perspective-origin", "transform-origin"];
// Takes the rules out that are not for every screen.
function prune(sheet) {
    for (let i = sheet.cssRules.length - 1; i >= 0; i--) {
        const rule = sheet.cssRules[i], kind = rule.constructor.name;
        if (/^CSS(Media|Import|Container|Keyframes)Rule$/.test(kind)) sheet.deleteRule(i);
        else if (rule.cssRules) prune(rule);
    }
}
// The styles of all elements, which those of an array have as an order of their own.
function bare(frame, is_before) {
    const page = frame.contentDocument, found = [], still = new frame.contentWindow.CSSStyleSheet();
    still.replaceSync("*, ::before, ::after { transition: none !important; animation: none !important }");
    for (const sheet of is_before ? [...page.styleSheets] : []) {
        const media = sheet.media.mediaText.trim().toLowerCase();
        if (media && media != "all" || sheet.title) sheet.disabled = true;
        else prune(sheet);
    }
    if (!is_before) page.querySelectorAll("style, link").forEach(each => { each.disabled = true; });
    page.adoptedStyleSheets = [still];
    for (const element of [page.documentElement, ...all(page)]) {
        const style = frame.contentWindow.getComputedStyle(element), values = {};
        for (const name of style) if (!sizes.includes(name)) values[name] = style.getPropertyValue(name);
        found.push(element.closest("head, style, script, template") ? null : [element.localName, values]);
    }
    return found;
}
function tree(text) {
    const found = [], page = new DOMParser().parseFromString(text, "text/html");
    function walk(element, depth) {
        const attributes = [...element.attributes].map(each => [each.name, each.value]).sort();
        found.push([depth, element.localName, attributes, element.matches(":empty")]);
        for (const child of element.children) walk(child, depth + 1);
    }
    walk(page.documentElement, 0);
    return found;
}
function found([text, lists]) {
    const page = new DOMParser().parseFromString(text, "text/html");
    const every = [page.documentElement, ...all(page)];
    return lists.map(list => {
        try {
            return [...page.querySelectorAll(list)].map(each => every.indexOf(each));
        } catch {
            return null;
        }
    });
}
function rules(text) {
    const sheet = new CSSStyleSheet();
    sheet.replaceSync(text);
    return [...sheet.cssRules].map(rule => rule.cssText);
}
// Whether a rule set has rules, or a declaration has a property.
function takes(text, isRule) {
    if (isRule) return rules(text).length > 0;
    const found = new CSSStyleSheet();
    found.replaceSync("x{" + text + "}");
    return found.cssRules[0].style.length > 0;
}
window.onload = () => {
    const frames = [...document.querySelectorAll("iframe")];
    if (input.kind == "mails")
        for (let i = 0; i < frames.length; i += 2)
            answer.push([styles(frames[i]), styles(frames[i + 1])]);
    if (input.kind == "bare")
        for (let i = 0; i < frames.length; i += 2)
            answer.push([bare(frames[i], true), bare(frames[i + 1], false)]);
    if (input.kind == "trees") for (const text of input.texts) answer.push(tree(text));
    if (input.kind == "selectors") for (const each of input.texts) answer.push(found(each));
    if (input.kind == "reports")
        for (const [text, isRule] of input.texts) answer.push(takes(text, isRule));
    if (input.kind == "printed")
        for (const [one, other] of input.texts) answer.push([rules(one), rules(other)]);
    if (input.kind == "unused")
        for (const text of input.texts)
            answer.push(frames.some(frame => frame.contentDocument.querySelector(text)));
    document.documentElement.textContent = "ANS" + "WER" + JSON.stringify(answer) + "END";
};
window.onerror = text => { document.documentElement.textContent = "failed: " + text; };
</script>
"""


FRAME = '<iframe width=1280 height=800 sandbox="allow-same-origin" src="file://{}"></iframe>'
PAGE = '<!DOCTYPE html><meta charset=utf-8><script id=input type="application/json">{}</script>'


def run_browser(values: Any, names: Sequence[str], folder: str) -> Any:
    """Returns the answer of the browser about documents in frames, of which these are the files."""
    browser = (
        shutil.which("chromium")
        or shutil.which("chromium-browser")
        or shutil.which("google-chrome")
    )
    if not browser:
        sys.exit(
            "tests/browser.py: left out, for there is no chromium; Debian's package is `chromium`"
        )
    frames = "".join(FRAME.format(html.escape(name)) for name in names)
    data = json.dumps(values).replace("<", "\\u003c")
    page = os.path.join(folder, "pages.html")
    with open(page, "w", encoding="utf-8") as file:
        file.write(PAGE.format(data) + frames + SCRIPT)
    words = [
        browser,
        "--headless",
        "--no-sandbox",
        "--disable-gpu",
        "--allow-file-access-from-files",
        f"--user-data-dir={folder}/profile",
        "--virtual-time-budget=60000",
        "--dump-dom",
        "file://" + page,
    ]
    made = subprocess.run(words, capture_output=True, check=False)
    answer = re.search(r"ANSWER(.*)END", made.stdout.decode(), re.DOTALL)
    if not answer:
        sys.exit(
            "tests/browser.py: no answer:"
            f" {made.stdout.decode()[-300:]} {made.stderr.decode()[-500:]}"
        )
    return json.loads(html.unescape(answer[1]))


def read(name: str) -> str:
    """Returns the text of a page in UTF-8."""
    with open(name, encoding="utf-8", errors="replace", newline="") as file:
        return file.read()


def mails() -> List[str]:
    """Returns the names of the mails of this repository."""
    return sorted(glob.glob(os.path.join(TOP, "tests", "mails", "*.html")))


def pages() -> List[str]:
    """Returns the names of the mails, and of some pages of Debian packages."""
    found = []
    counts: Counter[str] = collections.Counter()
    for name in sorted(glob.glob("/usr/share/doc/**/*.html", recursive=True)):
        package = name.split("/")[4]
        if os.path.isfile(name) and 4000 < os.path.getsize(name) < 400000 and counts[package] < 2:
            counts[package] += 1
            found.append(name)
    return mails() + found[:30]


class Report:
    """Counts documents, and lists what differs."""

    def __init__(self) -> None:
        self.passed = self.failed = 0

    def add(self, name: str, differences: Sequence[str]) -> None:
        """Counts a document, and lists the first of its differences."""
        self.passed += not differences
        self.failed += bool(differences)
        for line in differences[:SHOWN]:
            print(f"{os.path.basename(name)}: {line}")
        if len(differences) > SHOWN:
            print(f"{os.path.basename(name)}: and {len(differences) - SHOWN} more")

    def end(self) -> int:
        """Prints the last line, and returns the exit status."""
        print(f"{self.passed} passed, {self.failed} failed")
        return 1 if self.failed else 0


def before_and_after(kind: str, names: Sequence[str]) -> List[Tuple[str, Any, Any]]:
    """Returns documents with what the browser answers of them before and after `inline`."""
    with tempfile.TemporaryDirectory() as folder:
        frames = []
        for number, name in enumerate(names):
            with open(name, "rb") as file:
                data = file.read()
            for when, text in (("before", data), ("after", simplecss.inline(data))):
                frames.append(os.path.join(folder, f"{number}{when}.html"))
                with open(frames[-1], "wb") as file:
                    file.write(text)
        answers = run_browser({"kind": kind}, frames, folder)
    return [(name, before, after) for name, (before, after) in zip(names, answers)]


def tagged(name: str) -> Set[int]:
    """Returns the indices of the elements of a document that have a tag of their own."""
    tags = EditedPage(read(name)).tags
    return {index for index, tag in enumerate(tags) if tag is not None}


def compare_bare(names: Sequence[str]) -> int:
    """Compares the computed styles of a document with those that its attributes alone give."""
    report = Report()
    count = differing = 0
    for name, before, after in before_and_after("bare", names):
        own = tagged(name)
        before = [(index, each) for index, each in enumerate(before) if each]
        after = [each for each in after if each]
        found = [] if len(before) == len(after) else [f"{len(before)} elements, after {len(after)}"]
        for (index, (element, old)), (_, new) in zip(before, after):
            other = [each for each in old if old[each] != new.get(each)]
            count += index in own
            differing += index in own and bool(other)
            if index in own and other:
                values = f"{old[other[0]]!r}, after {new.get(other[0])!r}"
                found.append(f"{index} <{element}> {other[0]}: {values}")
        report.add(name, found)
    print(f"{differing} of {count} elements that have a tag look otherwise without any sheet")
    return report.end()


def compare_mails(names: Sequence[str]) -> int:
    """Compares the computed styles before and after `inline`."""
    report = Report()
    for name, before, after in before_and_after("mails", names):
        found = (
            []
            if len(before) == len(after) > 0
            else [f"elements: {len(before)}, after: {len(after)}"]
        )
        for number, ((element, old), (_, new)) in enumerate(zip(before, after), 1):
            other = [each for each in old if old[each] != new.get(each)]
            found += [
                f"{number} <{element}> {each}: {old[each]!r}, after: {new.get(each)!r}"
                for each in other
            ]
        report.add(name, found)
    return report.end()


def elements_of(text: str) -> List[List[Any]]:
    """Returns the depth, name and attributes of each element, and whether it is empty, as the
    browser does."""
    return [
        [
            element.depth,
            element.name,
            sorted([key, value] for key, value in element.attributes.items()),
            element.matches(":empty"),
        ]
        for element in simplecss.Tree.from_html(text)
    ]


def compare_trees(names: Sequence[str]) -> int:
    """Compares the trees of documents."""
    report = Report()
    texts = [read(name) for name in names]
    with tempfile.TemporaryDirectory() as folder:
        for name, text, theirs in zip(
            names, texts, run_browser({"kind": "trees", "texts": texts}, [], folder)
        ):
            ours = elements_of(text)
            theirs = [
                [depth, element, sorted(attributes), is_empty]
                for depth, element, attributes, is_empty in theirs
            ]
            found = [f"{a}, in the browser {b}" for a, b in zip(ours, theirs) if a != b]
            if len(ours) != len(theirs):
                found.insert(0, f"{len(ours)} elements, in the browser {len(theirs)}")
            report.add(name, found)
    return report.end()


def markup(element: modern_selectors.Element) -> str:
    """Returns an element of tests/modern_selectors.py as markup, with an attribute whose values
    HTML compares without case."""
    name, attributes, children = element
    words = "".join(f' {key}="{html.escape(value)}"' for key, value in attributes.items()).replace(
        "title=", "TYPE="
    )
    inside = "".join(each if isinstance(each, str) else markup(each) for each in children)
    return f"<{name}{words}>{inside}</{name}>"


def random_document(source: modern_selectors.Source, number: int) -> Tuple[str, List[str]]:
    """Returns a document, without a doctype if the number is odd, and lists that the browser should
    read alike."""
    text = "" if number % 2 else "<!DOCTYPE html>"
    lists = [source.listed().replace("title", "type") for _ in range(50)]
    # Without a doctype, attribute selectors ignore the case of ids and classes, too.
    odd = re.compile(r"\[[^\]]*(?:class|id|\\)" if number % 2 else r"(?!)")
    lists = [
        each
        for each in lists
        if not modern_selectors.ODD_IN_BROWSERS.search(each) and not odd.search(each)
    ]
    return f"{text}<div>{markup(source.tree())}</div>", lists


def compare_selectors(_: Sequence[str]) -> int:
    """Compares what random selectors find."""
    report = Report()
    source = modern_selectors.Source("HTML")
    texts = [random_document(source, number) for number in range(100)]
    left_out = 0
    with tempfile.TemporaryDirectory() as folder:
        answers = run_browser({"kind": "selectors", "texts": texts}, [], folder)
    for number, ((text, lists), answer) in enumerate(zip(texts, answers)):
        tree = simplecss.Tree.from_html(text)
        found = []
        for each, theirs in zip(lists, answer):
            try:
                mine = [element.index for element in tree.select(each)]
            except simplecss.SelectorError as error:
                if error.reason.endswith(" is unsupported"):
                    left_out += 1
                    continue
                mine = None
            found += [] if mine == theirs else [f"{each!r}: {mine}, in the browser {theirs}"]
        report.add(f"document {number}", found)
    print(
        f"{sum(len(lists) for _, lists in texts)} lists; {left_out} left out, which are unsupported"
    )
    return report.end()


# How many frames of a page are looked at together.
FRAMES = 400


class Site(random.Random):
    """Random pages and the files of their sheets, some of which are missing."""

    FOLDERS = ("", "a/", "a/b/")
    CLASSES = ("c0", "c1", "c2", "c3")
    # What is before the imports of a sheet, and what is after the url of one.
    FRONTS = (
        "",
        "",
        "@charset 'utf-8';",
        "@layer y;",
        "@layer y, x;",
        "@layer a.b;",
        "x{}",
        "? {}",
    )
    AFTER = (
        *("", "", " screen", " print", " all", " layer", " layer(x)", " layer(y)", " layer(a.b)"),
        *(" layer(x) screen", " supports(color:red)", " layer(x) supports(color:red)"),
    )

    def named(self, files: Sequence[str], page: str) -> str:
        """A url of a file, from where a page or a sheet is."""
        name = self.choice(files)
        if self.random() < 0.1:
            return "missing.css"
        above = os.path.relpath(name, os.path.dirname(page) or ".")
        return above + self.choice(("", "", "?v=1", "#x"))

    def rules(self) -> str:
        """Some rules."""
        return "\n".join(
            f".{self.choice(self.CLASSES)}{self.choice(('', '', ':hover', '.d'))}"
            f"{{color:rgb({self.randrange(256)}, {self.randrange(256)}, {self.randrange(256)})"
            f"{self.choice(('', '', '', ' !important'))}}}"
            for _ in range(self.choice((1, 2, 3)))
        )

    def sheet(self, files: Sequence[str], place: str) -> str:
        """A sheet, which may import others."""
        imports = []
        for _ in range(self.choice((0, 0, 1, 2))):
            url = self.named(files, place)
            form = self.choice(("'{}'", '"{}"', "url({})", "url('{}')"))
            imports.append(f"@import {form.format(url)}{self.choice(self.AFTER)};")
        front = self.choice(self.FRONTS)
        return "\n".join([front, *imports, self.rules()])

    def element(self, files: Sequence[str], place: str, base: str) -> str:
        """An element with a sheet, or one that links to it."""
        more = self.choice(("", "", "", " media=screen", " media=print", " media=' ALL '"))
        more += self.choice(("", "", "", " title=x", " title=y"))
        if self.random() < 0.5:
            return f"<style{more}>{self.sheet(files, base)}</style>"
        rel = self.choice(("stylesheet", "stylesheet", "StyleSheet x", "'alternate stylesheet'"))
        more += self.choice(("", "", "", " type=text/css", " type=text/plain", " disabled"))
        return f'<link rel={rel} href="{self.named(files, base)}"{more}>'

    def page(self, folder: str) -> str:
        """Writes a page and its sheets into a folder. Returns the name of the page."""
        files = [f"{self.choice(self.FOLDERS)}s{number}.css" for number in range(5)]
        place = self.choice(self.FOLDERS) + "page.html"
        base = self.choice(("", "", "", "x/", "../"))
        url = os.path.normpath(os.path.join(os.path.dirname(place), base, "x"))
        if url.startswith(".."):
            base, url = "", place
        texts = {name: self.sheet(files, name) for name in files}
        head = f"<base href={base}>" if base else ""
        head += "".join(self.element(files, place, url) for _ in range(self.choice((1, 2, 3))))
        classes = (self.choice(self.CLASSES) + self.choice(("", " d")) for _ in range(8))
        texts[place] = head + "".join(f"<p class='{each}'>x" for each in classes)
        for name, text in texts.items():
            os.makedirs(os.path.dirname(os.path.join(folder, name)), exist_ok=True)
            with open(os.path.join(folder, name), "w", encoding="utf-8") as file:
                file.write("<!DOCTYPE html>" * (name == place) + text)
        name = os.path.join(folder, place)
        return name


def compare_links(_: Sequence[str]) -> int:
    """Compares the colours of pages whose sheets are in files."""
    report = Report()
    source = Site(int(os.environ.get("SEED", 1)))
    with tempfile.TemporaryDirectory() as folder:
        frames, winners = [], []
        for number in range(int(os.environ.get("COUNT", 200))):
            top = os.path.join(folder, str(number))
            name = source.page(top)
            text = read(name)
            tree = simplecss.Tree.from_html(text)
            sheet = simplecss.StyleSheet.of_page(tree, at=name, folder=top)
            colors = zip(tree, sheet.style(tree, "color"))
            winners.append([each.value if each else "" for it, each in colors if it.name == "p"])
            frames += [name, name.replace("page.html", "after.html")]
            with open(frames[-1], "w", encoding="utf-8") as file:
                file.write(simplecss.inline(text, at=name, folder=top))
        # A browser has no more than 1,000 frames of a page.
        runs = [frames[at : at + FRAMES] for at in range(0, len(frames), FRAMES)]
        answers = (pair for run in runs for pair in run_browser({"kind": "mails"}, run, folder))
        for name, mine, (before, after) in zip(frames[::2], winners, answers):
            theirs = [values["color"] for _, values in before]
            later = [values["color"] for _, values in after]
            mine = [each or "rgb(0, 0, 0)" for each in mine]
            found = [f"{a}, in the browser {b}" for a, b in zip(mine, theirs) if a != b]
            found += [f"{b}, after {a}" for b, a in zip(theirs, later) if a != b]
            report.add(os.path.relpath(name, folder), found)
            if found and "SHOW" in os.environ:
                print(read(name))
    return report.end()


def sheets_in(folder: str, words: Sequence[str] = ("",)) -> List[str]:
    """Returns the names of style sheets below a folder whose paths have one of the words, each text
    once."""
    found: Dict[str, str] = {}
    for name in sorted(glob.glob(os.path.join(folder, "**", "*.css"), recursive=True)):
        if (
            os.path.isfile(name)
            and any(word in name for word in words)
            and 0 < os.path.getsize(name) < 300000
        ):
            found.setdefault(read(name), name)
    return list(found.values())


# The kinds of what is no CSS, which no browser takes.
NO_CSS = ("bad", "broken", "invalid", "no-block", "stray")


def compare_reports(names: Sequence[str]) -> int:
    """Asks the browser whether it takes what `lint` reports as none of CSS, each text alone."""
    names = names or sheets_in("/usr/share", ("bootstrap", "jquery-ui", "awesome", "sphinx"))
    every = [(name, each) for name in names for each in _lint.findings(name, read(name))]
    found = [(name, each) for name, each in every if each.kind.startswith(NO_CSS)]
    texts = [(each.text, each.text.endswith("}")) for _, each in found]
    with tempfile.TemporaryDirectory() as folder:
        answers = run_browser({"kind": "reports", "texts": texts}, [], folder)
    taken = [
        f"{each.row}:{each.column}: {each.message}"
        for (_, each), answer in zip(found, answers)
        if answer
    ]
    for line in taken[:10]:
        print(line)
    rows = sum(read(name).count("\n") for name in names)
    print(
        f"{len(names)} sheets of {rows} lines: {len(found)} reports, of which the browser takes"
        f" {len(taken)}"
    )
    for kind, number in collections.Counter(each.kind for _, each in found).most_common():
        print(f"{number} {kind}")
    passed = len(taken) * 100 <= len(found)
    print(f"{int(passed)} passed, {int(not passed)} failed")
    return 0 if passed else 1


# What is taken as met: pseudo-elements, and states, of which none within `:not()` is.
ELEMENTS = re.compile(
    r"::?(?:before|after|first-line|first-letter)(?![\w-])|::[\w-]+(?:\([^)]*\))?"
)
STATE = (
    r":(?:hover|active|focus(?:-visible|-within)?|visited|checked|disabled|enabled|target|valid"
    r"|invalid|indeterminate|required|optional|read-only|read-write|placeholder-shown|-[\w-]+)(?![\w(-])"
)
NO_STATE = re.compile(rf":not\(\s*{STATE}\s*\)|{STATE}")


def without_states(selector: str) -> str:
    """Returns a selector without its states and its pseudo-element."""

    def left(found: "re.Match[str]") -> str:
        """Returns what is left of a state, which may begin a compound."""
        return "" if found.string[: found.start()][-1:] not in ("", *" \t\n>+~(,") else "*"

    return NO_STATE.sub(left, ELEMENTS.sub(left, selector))


def compare_unused(names: Sequence[str]) -> int:
    """Compares the selectors of sheets that match nothing on pages with those that the browser finds
    nothing for, without their states."""
    names = names or pages()
    texts = list(map(read, sheets_in("/usr/share", ("bootstrap", "jquery-ui", "sphinx", "style"))))
    sheet = simplecss.StyleSheet(*texts, limit=None)
    selectors = sorted({each.selector for each in sheet.unused()})
    unused = {each.selector for each in sheet.unused(*map(tree_of, names))}
    with tempfile.TemporaryDirectory() as folder:
        work = {"kind": "unused", "texts": list(map(without_states, selectors))}
        answers = run_browser(work, [os.path.abspath(name) for name in names], folder)
    found = [it for it, is_used in zip(selectors, answers) if is_used == (it in unused)]
    for selector in found[:SHOWN]:
        print(selector)
    print(f"{len(selectors)} selectors, of which {sum(answers)} match something")
    print(f"{len(selectors) - len(found)} passed, {len(found)} failed")
    return 1 if found else 0


def tree_of(name: str) -> simplecss.Tree:
    return simplecss.Tree.from_html(read(name))


def compare_printed(names: Sequence[str]) -> int:
    """Compares the rules that the browser has of sheets and of what the package prints of them."""
    report = Report()
    every = sheets_in("/usr/share")
    names = names or random.Random(1).sample(every, min(200, len(every)))
    texts = [(text, str(simplecss.StyleSheet(text, limit=None))) for text in map(read, names)]
    with tempfile.TemporaryDirectory() as folder:
        for name, found in zip(names, run_browser({"kind": "printed", "texts": texts}, [], folder)):
            report.add(name, differing_rules(*found))
    return report.end()


def differing_rules(before: Sequence[str], after: Sequence[str]) -> List[str]:
    """Returns how rules differ."""
    found = [f"{a[:120]}, then {b[:120]}" for a, b in zip(before, after) if a != b]
    counts = f"{len(before)} rules, then {len(after)}"
    return [counts, *found] if len(before) != len(after) else found


def compare_soup(names: Sequence[str]) -> int:
    """Compares what selectors find with soupsieve, over the tree of html5lib."""
    try:
        import bs4
        import html5lib  # noqa: F401
    except ImportError:
        packages = "Debian's packages are `python3-bs4 python3-html5lib`"
        sys.exit(
            f"tests/browser.py: left out, for there is no html5lib or BeautifulSoup; {packages}"
        )
    report = Report()
    for name in names:
        soup = bs4.BeautifulSoup(read(name), "html5lib")
        tree = simplecss.Tree.from_soup(soup)
        found = []
        for selectors in SELECTORS:
            mine, theirs = [element.node for element in tree.select(selectors)], soup.select(
                selectors
            )
            if selectors in WIDER:
                known = set(map(id, theirs))
                mine = [node for node in mine if id(node) in known]
            if len(mine) != len(theirs) or any(a is not b for a, b in zip(mine, theirs)):
                found.append(f"{selectors}: {len(mine)}, by soupsieve {len(theirs)}")
        report.add(name, found)
    return report.end()


def main() -> int:
    kinds = {
        "mails": compare_mails,
        "bare": compare_bare,
        "trees": compare_trees,
        "selectors": compare_selectors,
        "links": compare_links,
        "soup": compare_soup,
        "reports": compare_reports,
        "unused": compare_unused,
        "printed": compare_printed,
    }
    usual = {
        "mails": mails,
        "bare": mails,
        "selectors": list,
        "links": list,
        "reports": list,
        "unused": list,
        "printed": list,
    }
    words = sys.argv[1:] or ["mails"]
    if words[0] not in kinds:
        sys.exit(__doc__)
    return kinds[words[0]](words[1:] or usual.get(words[0], pages)())


if __name__ == "__main__":
    sys.exit(main())
