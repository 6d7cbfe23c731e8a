"""A browser's own style sheets beside a browser: the computed values of properties whose computed value
is the specified one, on pages with `ua=True`, `specified=True` and `inherit=True`.

The browser is Debian's `chromium`. It also tells which value of a longhand a declaration sets, so that
nothing here reads CSS. `DIFFERING` names each difference, and why.
"""
from __future__ import annotations

import glob
import importlib
import os
from typing import Any, Dict, Iterator, List, NamedTuple, Optional, Tuple

from tests.common import LEFT_OUT, TOP, Case, browser_answers, package, read, row

# The properties, and their initial values.
# fmt: off
INITIAL = {
    "display": "inline", "position": "static", "float": "none", "text-align": "start",
    "white-space": "normal", "list-style-type": "disc", "visibility": "visible",
    "font-style": "normal", "text-transform": "none", "direction": "ltr", "unicode-bidi": "normal",
    "clear": "none", "caption-side": "top", "border-collapse": "separate", "cursor": "auto",
    "contain": "none", "box-sizing": "content-box", "border-top-style": "none",
    "border-right-style": "none", "border-bottom-style": "none", "border-left-style": "none",
    "overflow-x": "visible", "overflow-y": "visible", "vertical-align": "baseline", "appearance": "none",
    "text-decoration-line": "none", "text-decoration-style": "solid", "object-fit": "fill",
    "list-style-position": "outside", "table-layout": "auto", "empty-cells": "show", "resize": "none",
    "word-break": "normal", "overflow-wrap": "normal", "font-variant-caps": "normal",
}
# Where a browser's value is another one: the element, the property, and why.
FORMS = "HTML leaves it to browsers how form controls look"
COLLAPSED = "HTML collapses rows and columns that are hidden"
CASE = "the library compares values of `type` without case in HTML, even where a selector says `s`"
FRAMES = "the browser draws the sides that `frame` names with solid lines, and `rules=rows` at cells"
ALIGNED = "the browser also aligns what `align` floats, and has own words for `middle` and `bottom`"
SIDES = ("top", "right", "bottom", "left")
LENGTHS = "a length, which the browser computes"
DRAWN = "SVG 2 says that they are not shown; in the browser they have no box, whatever the value"
DIFFERING = {
    **{("cursor", name): FORMS for name in ("input", "select", "option", "textarea", "button", "optgroup")},
    **{("white-space", name): FORMS for name in ("select", "option", "input", "optgroup", "button")},
    **{("display", name): FORMS for name in ("select", "option", "datalist", "legend", "fieldset", "meter", "progress")},
    **{("text-align", name): FORMS for name in ("select", "option", "optgroup")},
    **{("display", name): DRAWN for name in ("defs", "linearGradient", "style", "title", "desc", "clipPath")},
    ("cursor", "label"): FORMS,
    **{(f"overflow-{axis}", "select"): FORMS for axis in "xy"},
    **{(f"border-{side}-style", name): FRAMES for side in SIDES for name in ("table", "td", "th")},
    **{("vertical-align", name): ALIGNED for name in ("img", "iframe", "object", "embed")},
    **{("vertical-align", name): LENGTHS for name in ("meter", "progress")},
    ("text-decoration-line", "area"): "it has no text, and the browser underlines only `a`",
    ("white-space", "wbr"): "in a `nobr` lines may break there; the browser does not say so by this",
    ("list-style-type", "li"): CASE,
    **{("visibility", name): COLLAPSED for name in ("colgroup", "col", "thead", "tbody", "tfoot", "tr", "td", "th")},
    ("text-align", "th"): "a rule cannot say that it is centred only where its row does not say otherwise",
}
# fmt: on
# What the browser calls `center` where blocks in it are centred too, and the like.
CENTRED = {f"-webkit-{side}": side for side in ("center", "left", "right")}
HIDDEN = "area base datalist head link meta noembed param script style template title".split()
ELEMENTS = (
    "address article aside b bdi bdo blockquote big br center cite code dd del details dfn dialog dir div"
    " dl dt em fieldset figcaption figure footer form h1 h2 h3 h4 h5 h6 header hgroup hr i ins kbd label"
    " legend li listing main mark menu nav ol output p pre q s samp search section small span strike"
    " strong sub summary sup u ul var xmp"
).split()
KINDS = (
    "text search tel url email password date time number range color checkbox radio file submit image"
    " reset button"
).split()
ATTRIBUTES = ("", " hidden", " dir=rtl", " dir=LTR", " dir=auto", ' style="display: flex"')
PAGE = """<!DOCTYPE html><meta charset=utf-8><body><script id=input type="application/json">%s</script>
<script>
const input = JSON.parse(document.getElementById("input").textContent);
function shown(text) {
    const frame = document.createElement("iframe");
    frame.style.cssText = "width: 1280px; height: 800px";
    document.body.append(frame);
    const page = frame.contentDocument;
    page.open();
    page.write(text);
    page.close();
    const found = [...page.querySelectorAll("*")].map(element => {
        const style = frame.contentWindow.getComputedStyle(element);
        return [element.localName, ...input.names.map(name => style.getPropertyValue(name))];
    });
    frame.remove();
    return found;
}
function set([name, value]) {
    const style = document.createElement("p").style;
    style.setProperty(name, value);
    return input.names.map(each => style.getPropertyValue(each));
}
const answer = {pages: input.pages.map(shown), set: input.set.map(set)};
document.documentElement.textContent = "ANSWER" + JSON.stringify(answer) + "END";
</script>
"""


def mails() -> Iterator[str]:
    """Yields the pages of mails."""
    for path in sorted(glob.glob(os.path.join(TOP, "tests", "mails", "*.html"))):
        yield read(path)


def rare() -> Iterator[str]:
    """Yields pages with each element and attribute of the sheets."""
    for attribute in ATTRIBUTES:
        inside = "".join(f"<div><{name}{attribute}>a<i>b</i></{name}></div>" for name in ELEMENTS)
        yield f"<!DOCTYPE html><body>{inside}<a href=x{attribute}>c</a><svg><g{attribute}/></svg>"
    yield "<!DOCTYPE html>" + "".join(
        f'<input type=hidden style="display: flex{each}">' for each in ("", " !important")
    )
    important = ' style="display: block !important; contain: none !important"'
    yield f"<!DOCTYPE html><table><form{important}></form><tbody><form{important}></form><tr><form{important}></table>"
    sizes = ("auto", "AUTO, 1px", "automatic", "1px")
    yield "<!DOCTYPE html>" + "".join(
        f'<img loading=lazy sizes="{each}" style="contain: {value}">'
        for each in sizes
        for value in ("layout", "layout !important")
    )
    edges = [f"border={each}" for each in (0, 1)]
    edges += [
        f"frame={each}" for each in "void above below hsides lhs rhs vsides box border".split()
    ]
    edges += [f"rules={each} border=1" for each in "none groups rows cols all".split()]
    inside = "<colgroup><col><thead><tr><th>a<tbody><tr><td>b<td>c<tfoot><tr><td>d"
    for each in edges:
        yield f"<!DOCTYPE html><table {each}>{inside}</table><table {each}><tr><td>e</table>"
    sides = "top middle bottom baseline texttop absmiddle abscenter left right center".split()
    for side in sides:
        drawn = "".join(
            f"<{name} align={side}></{name}>" for name in "img iframe object embed".split()
        )
        cells = f"<tr valign={side}><td>a<td valign={side}>b<tbody valign={side}><tr><td>c<th align={side}>d"
        table = f"<hr align={side}><hr noshade><table>{cells}</table>"
        yield f"<!DOCTYPE html>{drawn}{table}<video></video><canvas></canvas><img border=2>"
    inputs = "<input>" + "".join(f"<input type={each}>" for each in KINDS)
    controls = "".join(
        f"<{name}></{name}>" for name in "button textarea select meter progress".split()
    )
    yield f"<!DOCTYPE html>{inputs}{controls}"
    lists = "<ul><li>a<ol type=I><li type=a>b<ul><li>c<dir><li type=square>d</dir></ul></ol><menu></menu></ul>"
    cells = "<caption align=bottom>a<thead><tr><td nowrap>b<tbody align=right><tr><td align=center>c<td>d"
    yield f"<!DOCTYPE html><body>{lists}<table rules=all align=right><col><colgroup hidden>{cells}</table>"
    yield f"<body><table>{cells}<tr hidden><td>e</table><br clear=all><nobr>a<wbr></nobr><img align=left>{lists}"


def is_blockified(values: Dict[str, str], above: Dict[str, str]) -> bool:
    """Whether an element is a block by what it and its parent are: out of flow, or in a flexible box."""
    is_out = values["float"] != "none" or values["position"] in ("absolute", "fixed")
    return is_out or above["display"] in ("flex", "inline-flex", "grid", "inline-grid")


class Element(NamedTuple):
    """What an element has by the sheets: the declaration that sets each property."""

    name: str
    parent: Optional[int]
    settings: Dict[str, Tuple[str, str]]


class UserAgent(Case):
    """The sheets of HTML and SVG."""

    def setUp(self) -> None:
        package()
        self.simplecss = importlib.import_module("simplecss")

    def elements(self, text: str) -> List[Element]:
        """Returns the elements of a page."""
        tree = self.simplecss.Tree.from_html(text)
        sheet = self.simplecss.StyleSheet(*[each.text for each in tree if each.name == "style"])
        settings = {
            name: sheet.style(tree, name, specified=True, inherit=True, shorthands=True, ua=True)
            for name in INITIAL
        }
        found = []
        for element in tree:
            those = {name: each[element] for name, each in settings.items()}
            known = {name: each[:2] for name, each in those.items() if each is not None}
            above = element.parent
            found.append(Element(element.name, None if above is None else above.index, known))
        return found

    def computed(
        self, element: Element, above: Dict[str, str], values: Dict[Tuple[str, str], Dict[str, str]]
    ) -> Dict[str, str]:
        """Returns the computed values of an element, of which the browser said what each declaration
        sets. One that it does not know is "?"."""
        found = {}
        for name, initial in INITIAL.items():
            value = ""
            if name in element.settings:
                value = values[element.settings[name]][name] or "?"
            is_inherited = self.simplecss.is_inherited(name)
            if value == "inherit" or (is_inherited and value in ("", "unset")):
                value = above[name]
            found[name] = initial if value in ("", "initial", "unset") else value
        return found

    def left_out(self, pages: List[str]) -> float:
        """The values are those of a browser, but for those that are named: which part of them is."""
        every = [self.elements(text) for text in pages]
        pairs = {each for page in every for element in page for each in element.settings.values()}
        declared = sorted(pairs)
        values: Dict[Tuple[str, str], Dict[str, str]] = {}

        def browser(_: List[List[Element]]) -> Optional[List[Any]]:
            work = {"pages": pages, "set": declared, "names": list(INITIAL)}
            answer = browser_answers(PAGE, work)
            if answer is None:
                return None
            sets = zip(declared, answer["set"])
            values.update((pair, dict(zip(INITIAL, those))) for pair, those in sets)
            return list(answer["pages"])

        def question(page: List[Element], shown: Any) -> Iterator[Optional[str]]:
            self.assertEqual([each.name for each in page], [each[0] for each in shown])
            found: List[Dict[str, str]] = []
            for element, (_, *due) in zip(page, shown):
                above = INITIAL if element.parent is None else found[element.parent]
                found.append(self.computed(element, above, values))
                for (name, value), wanted in zip(found[-1].items(), due):
                    if value == "?":
                        found[-1][name] = wanted
                        continue
                    # What is below is compared by itself.
                    found[-1][name] = said = CENTRED.get(wanted, wanted)
                    if name == "display" and is_blockified(found[-1], above):
                        yield None
                    elif value != said and (name, element.name) in DIFFERING:
                        yield LEFT_OUT
                    else:
                        yield row(f"{name} of {element.name}", value, said)

        left_out = self.against(browser, every, question)
        return left_out / sum(map(len, every)) / len(INITIAL)

    def test_mails(self) -> None:
        """999 in a thousand values are those of a browser."""
        self.assertLess(self.left_out(list(mails())), 1 / 1000)

    def test_rare(self) -> None:
        """No other value differs on pages that have each element and attribute of the sheets."""
        self.assertLess(self.left_out(list(rare())), 1 / 200)
