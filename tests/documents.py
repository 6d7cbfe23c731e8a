"""Documents in XML beside Python's expat, libxml2 and a browser: which random texts are well-formed, and what the elements of
those are, with their namespaces, attributes, places and texts.

expat is Python's own; libxml2 is that of Debian's `python3-lxml`, used by /usr/bin/python3; the browser is
Debian's `chromium`. The library is built by `./build library`. The texts are the same in each run of a
seed, which `SEED` in the environment sets; `COUNT` says how many there are.
"""
from __future__ import annotations

import json
import os
import random
from typing import Any, Iterator, List, Optional, Tuple
from xml.etree import ElementTree
from xml.parsers import expat

from tests.common import Case, browser_answers, count, debian_answers, package, row

package()
from simplecss import _edits  # noqa: E402
from simplecss._xml import XmlError, XmlPage  # noqa: E402

# Markup that is rare, or not well-formed where it may be.
# fmt: off
PIECES = (
    "<a>", "</a>", "<b>", "</b>", "<a/>", '<b x="1"/>', "<c y='2' z=\"3\">", "</c>", "text", " ", "\n", "\t", "\r",
    "&amp;", "&lt;", "&apos;", "&#65;", "&#x42;", "&#0;", "&#xFFFE;", "&#xD800;", "&#x1F600;", "&#x110000;",
    "&#99999999999;", "&#;", "&#x;", "&#X41;", "&foo;", "&AMP;", "&", "<", ">", "]]>", "]]", "<!-- c -->", "<!---->",
    "<!-- a--b -->", "<!--->", "<!-->", "<!-- --->", "<![CDATA[x<y&z]]>", "<![CDATA[]]>", "<![CDATA[]]]]>",
    "<![cdata[x]]>", "<?pi x?>", "<?pi?>", "<?pi??>", "<?pi?x?>", '<?xml version="1.0"?>', "<?XML x?>", "<?p:q x?>", "<? x?>",
    "<!DOCTYPE a>", '<!DOCTYPE a SYSTEM "x">', '<!DOCTYPE a PUBLIC "x" \'y\'>', '<!DOCTYPE a PUBLIC "x">',
    "<!DOCTYPE a [<!-- x --><?p?> ]>", "<!DOCTYPE a [<!ELEMENT a (b)>] >", "<!doctype a>", "<!DOCTYPEa>", "<!DOCTYPE>",
    '<!DOCTYPE a SYSTEM"x">', '<!DOCTYPE a SYSTEM "x>', "<!DOCTYPE a [ x ]>", '<!DOCTYPE a PUBLIC "{" "y">', "<a b=c>", "<a b>",
    '<a b = "c" >', '<a b="c"d="e">', '<a b="&lt;&#10;">', '<a b="<">', '<a b="&x;">', '<a b="]]>">', '<a b="', "<a b='x\"y'>",
    '<a xmlns="u">', '<p:a xmlns:p="v">', "</p:a>", "<p:a>", '<a p:x="1">', '<a xmlns:p="u" xmlns:q="u" p:x="1" q:x="2">',
    '<a x="1" x="2">', '<a xmlns:p="">', '<a xmlns="">', '<a xmlns:xml="u">', '<a xmlns:xmlns="u">', '<a xml:lang="en">', "<a:b:c>",
    "<:a>", "<a:>", "<1a>", "<_a>", "</_a>", "<é>", "</é>", "<a·>", "</a·>", "<a-b.c1/>", '<a\n b\n=\n"1\r\n2\t3"\n>', "</a >", "</ a>",
    '</a b="c">', "</a/>", "</>", "<>", "\f", "\x01", "\x7f", "\ufffe", "\ufeff", "<a / >", "<a/", "\u2028", "<\u0300/>",
    "<a\u0300/>", '<a xmlns:p="http://www.w3.org/2000/xmlns/">', '<a xmlns="http://www.w3.org/XML/1998/namespace">',
    '<a xmlns:xml="http://www.w3.org/XML/1998/namespace">', '<p:a xmlns:p="u" p:x="1" x="1"/>',
    '<?xml version="1.0" encoding="UTF-8" standalone="yes"?>', '<?xml version="1.0" standalone="maybe"?>',
    '<?xml encoding="UTF-8"?>', "<?xml version='1.0'encoding='utf-8'?>",
)
# fmt: on
FRONTS = (
    "",
    "",
    "",
    '<?xml version="1.0"?>',
    "<?xml version='1.0' encoding='utf-8'?>\n",
    "<!DOCTYPE a>",
    "\ufeff",
)
AFTER = ("", "", "", "\n", "<!-- -->", " x", "<?p?>", "<a/>")
# What libxml2, which the browser has, accepts: no space before the name of a document type (production 28), and names that are not of
# Namespaces in XML 1.0, sections 3 and 7.
LENIENT = ("<!DOCTYPEa>", "<?p:q", "http://www.w3.org/2000/xmlns/")
# A start tag that is read: its namespace and name, its attributes so, and the offset of its byte.
Found = Tuple[List[Any], str]

LXML = r"""
import json, sys
from lxml import etree
parser = lambda: etree.XMLParser(resolve_entities=False, huge_tree=True, no_network=True)
def is_read(text):
    try:
        etree.fromstring(text.encode("utf-8"), parser())
    except etree.XMLSyntaxError:
        return False
    return True
json.dump([is_read(each) for each in json.load(sys.stdin)], sys.stdout)
"""

SCRIPT = """<!DOCTYPE html><meta charset=utf-8><script id=input type="application/json">%s</script><body><script>
const answers = JSON.parse(document.getElementById("input").textContent).map(text => {
    const page = new DOMParser().parseFromString(text, "application/xml");
    if (page.getElementsByTagName("parsererror").length > 0) return null;
    const attributes = of => Array.from(of.attributes, each => [each.namespaceURI ?? "", each.localName, each.value])
        .filter(each => each[0] !== "http://www.w3.org/2000/xmlns/").sort();
    return [...page.querySelectorAll("*")].map(each => [[each.namespaceURI ?? "", each.localName], attributes(each)]);
});
document.documentElement.textContent = "ANS" + "WER" + JSON.stringify(answers) + "END";
</script>"""


def text_of(rng: random.Random) -> str:
    """A random text, of which some are well-formed."""
    middle = "".join(rng.choice(PIECES) for _ in range(rng.randint(0, 6)))
    kind = rng.randrange(4)
    if kind < 2:
        return f'{rng.choice(FRONTS)}<r xmlns:p="ns">{middle}</r>{rng.choice(AFTER)}'
    if kind == 2:
        name = rng.choice("ab")
        return f"{rng.choice(FRONTS)}<r><{name}>{middle}</{rng.choice('ab')}></r>"
    return middle


def by_library(text: str) -> Optional[Found]:
    """What the library reads."""
    try:
        page = XmlPage(text)
    except XmlError:
        return None
    columns = zip(page.spaces_of_elements(), page.names(), page.every_attribute(), page.tags())
    tags = [
        [[space, name], sorted([*each] for each in attributes), len(text[: tag[0]].encode("utf-8"))]
        for space, name, attributes, tag in columns
    ]
    return tags, "".join(page.texts()[2].all())


def _cut(name: str) -> List[str]:
    space, _, local = name.rpartition("}")
    return [space, local]


def by_expat(text: str) -> Optional[Found]:
    """What expat reads."""
    parser = expat.ParserCreate("utf-8", "}")
    tags: List[Any] = []
    texts: List[str] = []

    def start(name: str, attributes: List[str]) -> None:
        pairs = zip(attributes[::2], attributes[1::2])
        found = sorted([*_cut(key), value] for key, value in pairs)
        tags.append([_cut(name), found, parser.CurrentByteIndex])

    parser.ordered_attributes = True
    parser.StartElementHandler = start
    parser.CharacterDataHandler = texts.append
    try:
        parser.Parse(text.encode("utf-8"), True)
    except expat.ExpatError:
        return None
    return tags, "".join(texts)


def is_lenient(text: str) -> bool:
    """Whether a text has what libxml2 accepts."""
    return any(each in text for each in LENIENT)


# What may be in an element, and values and texts of which something would be markup or white space.
CONTENTS = (
    "", "text", " ", "\r\n", "&amp;lt;", "]]", "&gt;", "<!-- <style>x</style> -->", "<![CDATA[<style>&]]>", "<?pi <style>?>", "é",
)  # fmt: skip
NAMES = ("a", "style", "p:style", "p:link", "link", "STYLE", "q:style", "styles", "p:a")
ATTRIBUTES = (
    "",
    ' style="x: y"',
    " k='&quot;1'",
    ' STYLE="z"',
    " p:style='1'",
    '\tstyle\n=\r"&#10;\'\t"',
    ' k=""',
)
VALUES = (
    "",
    "a",
    "a;\"b'",
    "<&>",
    "\t",
    "\n",
    "\r\n",
    "]]>",
    "&amp;",
    "é\U0001f600",
    "--",
    "&#9;",
    "</style>",
    "\x7f\x85",
)
TEXTS = (
    *(each for each in VALUES if each),
    "a{b:c}",
    "]]]]>>",
    "<![CDATA[x]]>",
    "<!--",
    "\r",
    "a]]",
)


def element_of(rng: random.Random, depth: int) -> str:
    """A random element, with elements in it."""
    name = rng.choice(NAMES)
    tag = name + "".join({rng.choice(ATTRIBUTES) for _ in range(rng.randrange(3))})
    # Two attributes of one name are none.
    tag = (
        name if tag.count("style") - name.count("style") > 1 and tag.count("p:style=") != 1 else tag
    )
    tag = name if tag.count(" k=") > 1 else tag
    if rng.randrange(4) == 0:
        return f"<{tag}{rng.choice(('', ' '))}/>"
    inner = (
        element_of(rng, depth + 1) if depth < 4 and rng.randrange(2) else rng.choice(CONTENTS)
        for _ in range(rng.randrange(4))
    )
    return f"<{tag}{rng.choice(('', ' ', chr(10)))}>{''.join(inner)}</{name}>"


class Edited:
    """A document with random edits, and what a tree of another program is with them."""

    def __init__(self, rng: random.Random) -> None:
        inner = "".join(element_of(rng, 0) for _ in range(rng.randint(1, 3)))
        self.text = (
            f'{rng.choice(FRONTS)}<r xmlns:p="n" xmlns:q="m" xmlns="{rng.choice("dn")}">{inner}</r>'
        )
        self.root = ElementTree.fromstring(self.text)
        self.edits: List[_edits.Edit] = []
        page = XmlPage(self.text)
        parents = {child: each for each in self.root.iter() for child in each}
        for index, each in enumerate(list(self.root.iter())):
            tag, end = page.tags()[index], page.ends()[index]
            kind = rng.randrange(6)
            is_sheet = each.tag.rpartition("}")[2] in ("style", "link")
            if kind < 3:
                self._change(rng, index, tag, each)
            elif kind == 3 and tag[1] < end[1]:
                self._put_in(rng, index, tag, each)
            elif is_sheet and not len(each):
                self._sheet(rng, index, (tag, end), (parents[each], each))

    def _change(self, rng: random.Random, index: int, tag: Tuple[int, int], each: Any) -> None:
        for name in rng.sample(("style", "k", "STYLE"), rng.randint(1, 2)):
            kind, value = rng.choice((_edits.SET, _edits.BEFORE, _edits.REMOVE)), rng.choice(VALUES)
            self.edits.append(_edits.Edit(kind, *tag, index, name, value))
            if kind == _edits.REMOVE:
                each.attrib.pop(name, None)
            else:
                each.set(name, value + (each.get(name, "") if kind == _edits.BEFORE else ""))

    def _put_in(self, rng: random.Random, index: int, tag: Tuple[int, int], each: Any) -> None:
        name = self.text[tag[0] + 1 : tag[1]].split(">")[0].split("/")[0].split()[0]
        text = rng.choice(TEXTS)
        self.edits.append(
            _edits.Edit(_edits.PUT_IN, tag[1], tag[1], -1, name.rpartition(":")[0], text)
        )
        made = ElementTree.Element(each.tag.rpartition("}")[0] + "}style")
        made.text, made.tail, each.text = _lines(text), each.text, None
        each.insert(0, made)

    def _sheet(self, rng: random.Random, index: int, places: Any, elements: Any) -> None:
        (tag, end), (parent, each) = places, elements
        kind = rng.choice((_edits.TEXT, _edits.TAKE_OUT, _edits.REPLACE))
        text = rng.choice(TEXTS)
        if kind == _edits.TEXT:
            if each.tag.endswith("}style") and tag[1] < end[1]:
                self.edits.append(_edits.Edit(kind, tag[1], end[0], index, "", text))
                each.text = _lines(text)
            return
        self.edits.append(_edits.Edit(kind, tag[0], max(tag[1], end[1]), index, "", text))
        if kind == _edits.REPLACE:
            each.tag, each.text = each.tag.rpartition("}")[0] + "}style", _lines(text)
            each.attrib.clear()
            return
        at = list(parent).index(each)
        if at:
            parent[at - 1].tail = (parent[at - 1].tail or "") + (each.tail or "")
        else:
            parent.text = (parent.text or "") + (each.tail or "")
        parent.remove(each)


def _lines(text: str) -> str:
    """A text with its ends of lines as XML reads them."""
    return text.replace("\r\n", "\n").replace("\r", "\n")


def _shown(each: Any) -> Iterator[Any]:
    """What a tree is, element by element."""
    yield each.tag, sorted(each.attrib.items()), each.text or "", len(each)
    for child in each:
        yield from _shown(child)
        yield child.tail or ""


class Edits(Case):
    def test_expat(self) -> None:
        """A document with edits is for expat what it was with these edits of its tree."""
        rng = random.Random(int(os.environ.get("SEED", 1)))
        rows = [Edited(rng) for _ in range(count(5_000))]
        self.assertGreater(sum(1 for each in rows if each.edits), len(rows) // 2)
        found: List[str] = []
        for each in rows:
            text = _edits.edited(each.text, each.edits, True)
            due, new = list(_shown(each.root)), list(_shown(ElementTree.fromstring(text)))
            found += [f"{each.text!r} with {each.edits} is {text!r}"] if due != new else []
        self.sweep(len(rows), found)


class Documents(Case):
    def setUp(self) -> None:
        rng = random.Random(int(os.environ.get("SEED", 1)))
        self.texts = [text_of(rng) for _ in range(count(20_000))]

    def test_expat(self) -> None:
        ours = [by_library(text) for text in self.texts]
        self.assertGreater(len([each for each in ours if each]), len(ours) // 20)
        found = (row(repr(text), our, by_expat(text)) for text, our in zip(self.texts, ours))
        self.sweep(len(ours), [line for line in found if line])

    def test_libxml2(self) -> None:
        theirs = debian_answers(LXML, self.texts, "lxml")
        if theirs is None:
            self.skipTest("documents beside libxml2: python3-lxml is missing")
        pairs = [pair for pair in zip(self.texts, theirs) if not is_lenient(pair[0])]
        found = (row(repr(text), by_library(text) is not None, due) for text, due in pairs)
        self.sweep(len(pairs), [line for line in found if line])

    def test_browser(self) -> None:
        few = self.texts[: count(20_000) // 10]
        texts = [text for text in few if not is_lenient(text)]
        answers = browser_answers(SCRIPT, texts)
        if answers is None:
            self.skipTest("documents beside a browser: chromium is missing or does not answer")
        ours = [
            None if each is None else [tag[:2] for tag in each[0]]
            for each in map(by_library, texts)
        ]
        found = (row(repr(text), our, due) for text, our, due in zip(texts, ours, answers))
        self.sweep(len(texts), [line for line in found if line])
