"""Tests of documents in XML: the states of elements of HTML, and the sheets that `xml-stylesheet` names.

The expected values are those of Chromium 156 on the same text as .xhtml or .svg.
"""

import os
import sys
import unittest

sys.path.insert(0, os.path.join(os.path.dirname(__file__), "..", "src"))

from simplecss import StyleSheet, Tree, inline  # noqa: E402

# Elements in the body of a page, each with its id, and what Chromium says of them.
BODY = """<body dir="rtl" id="body"><input type="CHECKBOX" checked="checked" id="a"/>
<input CHECKED="x" type="checkbox" id="b"/><button disabled="disabled" id="c"/><INPUT type="checkbox" checked="" id="d"/>
<p dir="LTR" id="e">x</p><select id="f"><option selected="" id="g">a</option><option id="h">b</option></select>
<input required="" placeholder="q" id="i"/><textarea id="j"/><details open="" id="k"/><div contenteditable="" id="l"/>
<x-y id="m"/><svg xmlns="http://www.w3.org/2000/svg" id="n"><input xmlns="" checked="" type="checkbox" id="o"/>
<g dir="ltr" id="p"/><foreignObject id="q"><input xmlns="http://www.w3.org/1999/xhtml" disabled="" id="r"/>
</foreignObject></svg><progress id="s"/><form id="t"><button id="u"/></form><a id="v"/><fieldset disabled="" id="w">
<input id="x"/></fieldset></body>"""
PAGE = f'<html xmlns="http://www.w3.org/1999/xhtml" id="html"><head/>{BODY}</html>'
STATES = {
    ":checked": "a g",
    ":disabled": "c r w x",
    ":enabled": "a b f g h i j u",
    ":required": "i",
    # Chromium takes buttons for optional, which the standard does not.
    ":optional": "a b f j r x",
    ":read-write": "i j l",
    "body :read-only": "a b c d e f g h k m r s t u v w x",
    ":placeholder-shown": "i",
    ":default": "a g u",
    ":indeterminate": "s",
    ":open": "k",
    "body :not(:defined)": "m",
    "html:defined, body:defined, svg:defined, g:defined": "html body n p",
    ":dir(ltr):not(head)": "html e",
    "body:dir(rtl), svg:dir(rtl), svg *:dir(rtl)": "body n o p q r",
    # As before.
    ":link, :any-link, :hover": "",
    "INPUT": "d",
    "[CHECKED], [TYPE=checkbox]": "b",
}


def trees():
    """Yields the page as each reader reads it."""
    yield Tree.from_xml(PAGE)
    try:
        import lxml.etree

        yield Tree.from_lxml(lxml.etree.fromstring(PAGE))
    except ImportError:
        pass
    import xml.etree.ElementTree

    yield Tree.from_etree(xml.etree.ElementTree.fromstring(PAGE))


class States(unittest.TestCase):
    def test_of_attributes(self):
        for tree in trees():
            for selector, ids in STATES.items():
                found = [each.attributes.get("id") for each in tree.select(selector)]
                self.assertEqual(" ".join(found), ids, selector)

    def test_of_sheets(self):
        tree = Tree.from_xml(PAGE)
        sheet = StyleSheet("input:checked{a:b} :disabled{c:d}")
        for element, found in zip(tree, sheet.styles(tree)):
            key = element.attributes.get("id", "")
            expected = ["a: b"] * (key == "a") + ["c: d"] * (key in ("c", "r", "w", "x"))
            self.assertEqual([*map(str, found)], expected, key)

    def test_of_callers(self):
        """A caller's own are beside these."""
        tree = Tree.from_xml(PAGE, {"#h": "checked", "#a": "hover"})
        found = [each.attributes["id"] for each in tree.select(":checked")]
        self.assertEqual(found, ["a", "g", "h"])
        self.assertEqual(len(tree.select("#a:checked:hover")), 1)

    def test_drawings_have_none(self):
        drawing = (
            '<svg xmlns="http://www.w3.org/2000/svg"><g checked="" disabled=""/><input/></svg>'
        )
        for text in (drawing, '<a><input checked="" type="checkbox"/></a>'):
            tree = Tree.from_xml(text)
            for selector in STATES:
                if selector.startswith(":") and ":not" not in selector:
                    self.assertEqual(tree.select(selector), [], selector)


# Instructions before a drawing, and what Chromium fills a `rect` with by the sheets below.
SHEETS = {
    "a.css": "rect{fill:red}",
    "b.css": "rect{fill:blue}",
    "c.css": "@import 'a.css';circle{fill:lime}rect:hover{fill:blue}",
}
LINKS = (
    ('<?xml-stylesheet href="a.css"?>', "red"),
    ("<?xml-stylesheet type='text/css' href='a.css' media='all'?>", "red"),
    ('<?xml-stylesheet href="a.css"?><!-- --><?xml-stylesheet href="b.css"?>', "blue"),
    ('<?xml-stylesheet href="a.css" title="x"?><?xml-stylesheet href="b.css" title="y"?>', "red"),
    ('<?xml-stylesheet href="&#97;.css"?>', "red"),
    ('<?xml-stylesheet href="data:text/css,rect{fill:lime}"?>', "lime"),
    ('<?xml-stylesheet href="a.css" media="print"?>', None),
    ('<?xml-stylesheet href="a.css" type="text/xsl"?>', None),
    ('<?xml-stylesheet href="a.css" type="TEXT/CSS"?>', None),
    ('<?xml-stylesheet href="a.css" type="text/css; charset=utf-8"?>', None),
    ('<?xml-stylesheet href="a.css" title="x" alternate="yes"?>', None),
    ('<?xml-stylesheet href="a.css" alternate="yes"?>', None),
    ('<?xml-stylesheet type="text/css"?>', None),
    ("<?xml-stylesheet href=a.css?>", None),
    ('<?xml-stylesheet href="a.css" href="b.css"?>', None),
    ('<?xml-stylesheet href="a.css" bogus?>', None),
    ('<?xml-stylesheet HREF="a.css"?>', None),
    ('<?xml-stylesheet href="#a.css"?>', None),
    ('<?stylesheet href="a.css"?>', None),
    ('<!DOCTYPE svg [<?xml-stylesheet href="a.css"?>]>', None),
)


def drawing(front, inner="", after=""):
    """Returns a drawing with a `rect`, after instructions."""
    return f'{front}<svg xmlns="http://www.w3.org/2000/svg">{inner}<rect/></svg>{after}'


class Links(unittest.TestCase):
    def fill(self, text, **options):
        """Returns the fill of the `rect`, and what was not read."""
        tree = Tree.from_xml(text)
        sheet = StyleSheet.of_page(tree, **{"load": SHEETS.get, **options})
        found = sheet.style(tree, "fill")[tree.select_one("rect")]
        return found and found.value, [tuple(each) for each in sheet.unread]

    def test_sheets_of_pages(self):
        for link, value in LINKS:
            self.assertEqual(self.fill(drawing(link)), (value, []), link)
        link = LINKS[0][0]
        for text, value in (
            (drawing(link, "<style>rect{fill:lime}</style>"), "lime"),
            (drawing("", "<style>rect{fill:lime}</style>", link), "red"),
            (drawing("", link), None),
            (
                drawing(
                    '<?xml-stylesheet href="a.css" title="q"?>',
                    '<style title="z">rect{fill:lime}</style>',
                ),
                "red",
            ),
            (drawing('<?xml-stylesheet href="c.css"?>'), "red"),
        ):
            self.assertEqual(self.fill(text)[0], value, text)

    def test_what_is_not_read_is_said(self):
        text = drawing('<?xml-stylesheet href="none.css"?>')
        self.assertEqual(self.fill(text), (None, [("none.css", "`load` has no sheet for it")]))
        unread = [("none.css", "no folder is given for it")]
        self.assertEqual(self.fill(text, load=None), (None, unread))

    def test_the_base_of_a_page_comes_after_it(self):
        asked = []
        page = '<html xmlns="http://www.w3.org/1999/xhtml"><head><base href="sub/"/></head><body/></html>'
        for read in (
            lambda text, **more: StyleSheet.of_page(Tree.from_xml(text), **more),
            lambda text, **more: inline(text, is_xml=True, **more),
        ):
            link = '<?xml-stylesheet href="a.css"?>'
            read(link + page, at="http://x/y.html", load=asked.append)
            read(page + link, at="http://x/y.html", load=asked.append)
        self.assertEqual(asked, ["http://x/a.css", "http://x/sub/a.css"] * 2)

    def test_trees_of_others(self):
        try:
            import bs4
            import lxml.etree
        except ImportError:
            self.skipTest("there is no lxml")
        # BeautifulSoup has what is in a doctype beside it.
        for link, value in LINKS[:-1]:
            text = drawing(link)
            for tree in (
                Tree.from_lxml(lxml.etree.fromstring(text)),
                Tree.from_lxml(lxml.etree.ElementTree(lxml.etree.fromstring(text))),
                Tree.from_soup(bs4.BeautifulSoup(text, "xml")),
            ):
                found = StyleSheet.of_page(tree, load=SHEETS.get).style(tree, "fill")[-1]
                self.assertEqual(found and found.value, value, link)

    def test_inline(self):
        """What is read is written, and the instruction goes; a rule that stays is in a `style` element before
        the others."""
        for link, inner, staying in (
            ("a.css", "", ""),
            (
                "c.css",
                "<style>g:hover{a:b}</style>",
                "<style>\nrect:hover{fill:blue !important}\n</style><style>g:hover{a:b}</style>",
            ),
        ):
            text = drawing(f'<?xml-stylesheet href="{link}"?>', inner)
            found = inline(text, is_xml=True, load=SHEETS.get)
            self.assertEqual(
                found, drawing("", staying).replace("<rect", '<rect style="fill: red"')
            )
        for front, after in (("", LINKS[0][0]), (LINKS[6][0], ""), (LINKS[7][0], "")):
            text = drawing(front, "<style>rect{fill:lime}</style>", after)
            found = inline(text, is_xml=True, load=SHEETS.get)
            self.assertIn(front + after, found)
            # The sheet after the root wins.
            self.assertEqual('style="fill: lime"' in found, not after)

    def test_attributes(self):
        """Presentation attributes are not written beside a sheet that was not read, which would beat them."""
        for link, name, attribute in (
            ("a.css", "fill", 'fill="lime"'),
            ("none.css", "fill", 'style="fill: lime"'),
        ):
            text = drawing(f'<?xml-stylesheet href="{link}"?>', "<style>rect{fill:lime}</style>")
            report = []
            found = inline(text, is_xml=True, load=SHEETS.get, as_attributes=True, report=report)
            self.assertIn(attribute, found)
            self.assertEqual([each.text for each in report], ["none.css"] * (link == "none.css"))
            self.assertEqual("xml-stylesheet" in found, link == "none.css")


class Written(unittest.TestCase):
    """Documents that `inline` has written: for a browser the text of an element has no comment, a newline in a value
    is a space, and one that is written as a reference is itself."""

    FRONT = '<?xml version="1.0"?><svg xmlns="http://www.w3.org/2000/svg" xmlns:s="http://www.w3.org/2000/svg">'

    def written(self, inner: str, css: str = "") -> str:
        text = inline(f"{self.FRONT}{inner}</svg>", css, is_xml=True)
        self.assertTrue(text.startswith(self.FRONT) and text.endswith("</svg>"))
        return text[len(self.FRONT) : -len("</svg>")]

    def test_comments_are_no_part_of_a_sheet(self):
        sheet = "g{a:b}<!-- g{c:d} --><![CDATA[g>x{e:f}]]> g:hover{i:'&lt;&amp;'}"
        self.assertEqual(
            self.written(f"<s:style>{sheet}</s:style><g/>"),
            "<s:style>\ng:hover{i:'&lt;&amp;'}\n</s:style><g style=\"a: b\"/>",
        )

    def test_newlines_in_values(self):
        self.assertEqual(
            self.written('<g style="k:l"/>', "g{a:b\nc}"), '<g style="a: b&#10;c; k:l"/>'
        )


if __name__ == "__main__":
    unittest.main()
