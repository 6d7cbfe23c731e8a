"""Judges modern selectors by the tests of other projects: cssselect, css-select (with those of
Sizzle, NWMatcher and qwery), css-what and cascadia (both with web-platform-tests), jQuery, nokogiri
and Servo's crate `selectors`.

The tests are fetched from Debian's archive by apt-get, once, into out/judges, and node runs those
in JavaScript. What cannot be fetched is left out, and a line says so. Expectations of selectors
outside the grammar are counted by what they need; with `SHOW_ALL` in the environment each is
listed. Those of `DIFFERENCES` do not hold, for the reasons that it names; one that holds again
fails. The library is built by `./build library`.
"""
from __future__ import annotations

import collections
import os
import re
from typing import Callable, Dict, List, Optional, Sequence, Set, Tuple

from tests.common import TOP, Case, package

package()
from simplecss import Element, SelectorError, Tree  # noqa: E402
from simplecss._selectors import Listed, listed  # noqa: E402
from tests import judges_tests  # noqa: E402

# An escape, a comment or a string.
OPAQUE = (
    r"""\\.|/\*[^*]*(?:\*(?!/)[^*]*)*(?:\*/|\Z)"""
    r"""|"[^"\\]*(?:\\.[^"\\]*)*(?:"|\\?\Z)|'[^'\\]*(?:\\.[^'\\]*)*(?:'|\\?\Z)"""
)
# What a test expects of a text: that it finds these elements, that it is read, or that it is
# refused.
FIND, READ, REFUSE = "find", "read", "refuse"
# Pseudo-classes that no standard has, of jQuery, css-select, cascadia, nokogiri and cssselect.
EXTENSIONS = "|".join(
    (
        "contains icontains containsown haschild matches matchesown eq gt lt nth first last even"
        " odd only parent header input button submit reset image radio checkbox text password file"
        " selected hidden visible animated humanoid foovalue foo aaron first-or-second"
        " five-attributes nb-attr"
    ).split()
)
# Pseudo-classes of what a browser knows of an element besides the tree, or of the call.
STATES = "checked|disabled|enabled|target|scope|host|host-context|focus-visible"
# What a text outside the grammar has, where strings, escapes and comments are blank, and which
# expectations of it are left out. A name that is not known is read, as that of a state.
OUTSIDE = tuple(
    (reason, re.compile(pattern, re.IGNORECASE), kinds)
    for reason, pattern, kinds in (
        (":has()", r":has\(", (FIND, READ, REFUSE)),
        ("an extension", r"[!#]=|@|/|<|\[\d|\w\(\)", (FIND, READ)),
        ("an extension", rf"(?<!:):({EXTENSIONS})\(", (FIND, READ)),
        ("an extension", rf"(?<!:):({EXTENSIONS})(?![-\w(])", (FIND, READ, REFUSE)),
        ("a state, or what a call is about", rf":({STATES})\(", (FIND, READ, REFUSE)),
        ("a state, or what a call is about", rf":({STATES})(?![-\w(])", (FIND, REFUSE)),
        ("an unsupported selector in a list", r":(is|not|where)\([^)]*:host", (FIND, READ, REFUSE)),
        ("`of` in :nth-child()", r":nth-(last-)?child\([^)]*\bof\b", (FIND, READ, REFUSE)),
        ("a pseudo-element with an argument", r"::[-\w]+\(", (FIND, READ, REFUSE)),
        ("a pseudo-class after a pseudo-element", r"::[-\w]+:(?!:)", (FIND, READ)),
        ("a namespace or the column combinator", r"\|(?!=)", (FIND, READ, REFUSE)),
        ("a combinator at the beginning", r"(^|,)\s*[>+~]", (FIND, READ)),
    )
)

# Values without quotes that are no names.
UNQUOTED = (
    "[test=]",
    "a[href*=#]",
    "p a[href*=#]",
    "p a[href^=#]",
    "#qunit-fixture option[value=1]",
    "#qunit-fixture li[tabIndex=-1]",
)
# The texts whose expectations do not hold, and why: what the standards say, or docs/DIFFERENCES.md.
DIFFERENCES: Tuple[Tuple[str, Dict[str, Sequence[str]]], ...] = (
    (
        "a selector has a compound at least (Selectors 3, section 4)",
        {
            "css-select": ("", " ", "\t"),
            "css-what": ("", " ", "\t"),
        },
    ),
    (
        "the value of an attribute is a name or a string (Selectors 3, section 6.3)",
        {
            "css-select": UNQUOTED,
            "css-what": UNQUOTED,
            "nokogiri": ("img[width=200]",),
        },
    ),
    (
        "an id is a name (Selectors 3, section 6.5)",
        {
            "css-what": ("#.identifier",),
            "nokogiri": ("#3 ~ p", "#5 ~ p", "#3 + p", "#5 + p"),
        },
    ),
    (
        "the end of the text closes what is open (CSS Syntax 3, sections 4.3.5 and 5.4.8)",
        {
            "cascadia": ("[a='x]", "[a=a i"),
            "css-what": ("input[name=']",),
            "cssselect": ("[rel=stylesheet", ":lang(fr"),
        },
    ),
    (
        "a newline is in no string (CSS Syntax 3, section 4.3.5)",
        {"css-what": ('[value="\nsome text\n"]',)},
    ),
    (
        "the argument is no An+B (CSS Syntax 3, section 6)",
        {
            "css-what": (
                ":nth-child(- 1n)",
                ":nth-child(-)",
                ":nth-child(-1 n)",
                ":nth-child(2+0)",
                ":nth-child(2n+-0)",
                ":nth-child(asdf)",
            ),
        },
    ),
    (
        "no standard has a function of this name",
        {
            "css-what": (
                ":first-child(n)",
                ":last-child(n)",
                ":only-child(n)",
                ":nth-last-last-child(1)",
                ":bar(baz)",
            ),
        },
    ),
    (
        "a name that no browser knows is invalid (Selectors 4, section 3.9)",
        {
            "css-what": (
                "::foo",
                ":first-last-child",
                ":last-last-child",
                ":nth-child",
                ":only-last-child",
                ":visble",
            ),
            "cssselect": ("::text-content", "::text-node", "::attr-href"),
        },
    ),
    ("a selector may have a pseudo-element (Selectors 3, section 7)", {"css-select": ("::after",)}),
    (
        "a list has complex selectors (Selectors 4, sections 4.2 and 4.4)",
        {
            "cssselect": (":is(a b)", ":where(a b)"),
        },
    ),
    (
        "`:is()` and `:where()` leave out what is no selector (Selectors 4, section 18.1)",
        {
            "cssselect": (":is(:before)", ":where(:before)"),
            "servo": ("foo:where()", "foo:where(::before)"),
        },
    ),
    (
        "`&` is a selector (CSS Nesting 1, section 3.1)",
        {
            "cascadia": ("div & address, p",),
        },
    ),
    (
        "a list may have functions with lists (Selectors 4, sections 4.2 and 4.3)",
        {
            "cssselect": (":not(:not(a))",),
        },
    ),
    (
        "a type selector is of the local name (Selectors 3, section 6.1.1)",
        {
            "css-select": ("soap\\:Envelope",),
        },
    ),
    (
        "classes are compared without case in a page without a doctype (Selectors 4, section 6.6)",
        {
            "cascadia": ("div.teST",),
        },
    ),
    (
        "only an empty value begins, ends or is in none (Selectors 3, section 6.3.2)",
        {
            "cascadia": ('p[class$=" "]', 'p[class^=" "]', 'p[class*=" "]'),
        },
    ),
    (
        "an element with white space is not empty (Selectors 3, section 6.6.5.12)",
        {
            "cascadia": ("#pseudo-empty p:empty", "#pseudo-empty :empty"),
        },
    ),
    (
        "links are `a` and `area` (HTML Standard, `:link`)",
        {
            "cssselect": (":link",),
            "cascadia": ("#head :link, #head :visited",),
        },
    ),
    (
        (
            "all siblings of the type are counted, with or without the class (Selectors 3, section"
            " 6.6.5.4)"
        ),
        {
            "nokogiri": ("div .a:nth-of-type(2n)", "div .a:nth-of-type(2n+1)"),
        },
    ),
    (
        "docs/DIFFERENCES.md: `*` is printed, and so are the quotes of a language",
        {
            "cssselect": ("*:before", ":not(*.foo)", ":not(*[foo])"),
            "servo": (".foo:lang(en-US)",),
        },
    ),
)


def blanked(text: str) -> str:
    """The text with an `x` in place of each escape, `""` of each string, and nothing of each
    comment."""
    kinds = {"\\": "x", "/": ""}
    return re.sub(OPAQUE, lambda found: kinds.get(found[0][0], '""'), text, flags=re.DOTALL)


def outside(text: str, kind: str) -> Optional[str]:
    """What puts a text outside the grammar, of which this is expected."""
    shown = blanked(text)
    for reason, pattern, kinds in OUTSIDE:
        if kind in kinds and pattern.search(shown):
            return reason
    return None


class Judge:
    """Counts what the tests of a project expect of selectors."""

    def __init__(self, project: str) -> None:
        self.project = project
        self.shows_all = "SHOW_ALL" in os.environ
        self.judged = self.held = 0
        self.failures: List[str] = []
        self.left_out: Dict[str, int] = collections.Counter()
        self.rows = {text: reason for reason, each in DIFFERENCES for text in each.get(project, ())}
        self.used: Set[str] = set()

    def leave_out(self, texts: Sequence[str], reason: str) -> None:
        """Counts an expectation that is not judged."""
        self.left_out[reason] += 1
        if self.shows_all:
            print(f"{self.project}: not judged, {reason}: {', '.join(map(repr, texts))}")

    def settle(self, texts: Sequence[str], kind: str, holds: bool, shown: str) -> None:
        """Counts an expectation of texts: one that does not hold must be a difference that is
        named."""
        reason = next(filter(None, (outside(text, kind) for text in texts)), None)
        if reason:
            self.leave_out(texts, reason)
            return
        self.judged += 1
        row = next((text for text in texts if text in self.rows), None)
        if row is not None and not holds:
            self.used.add(row)
        elif holds:
            self.held += 1
        else:
            self.failures.append(f"{', '.join(map(repr, texts))}: {shown}")

    def reads(self, text: str) -> None:
        """The text is a list of selectors."""
        self.settle([text], READ, printed(text) is not None, "refused")

    def refuses(self, text: str) -> None:
        """The text is no list of selectors."""
        self.settle([text], REFUSE, printed(text) is None, f"read as {printed(text)}")

    def reads_as(self, text: str, other: str) -> None:
        """Both texts are read as the same."""
        found, wanted = printed(text), printed(other)
        holds = found is not None and found == wanted
        self.settle([text], READ, holds, f"read as {found}, and not as {wanted}")

    def prints(self, text: str, wanted: str) -> None:
        """The text is printed so."""
        self.settle(
            [text],
            READ,
            printed(text) == wanted,
            f"printed as {printed(text)}, and not as {wanted}",
        )

    def has_specificity(self, text: str, wanted: Tuple[int, ...]) -> None:
        """The selector has this specificity."""
        found = [each.specificity for each in reading(text) or []]
        self.settle([text], READ, found == [wanted], f"specificity {found}, and not {wanted}")

    def finds(
        self, tree: Tree, text: str, wanted: object, seen: Callable[[List[Element]], object]
    ) -> None:
        """The text finds what is wanted, of which `seen` says how it is seen."""
        try:
            found = seen(tree.select(text))
        except SelectorError as error:
            found = error
        self.settle([text], FIND, found == wanted, f"found {found}, and not {wanted}")

    def printed(self, text: str) -> Optional[str]:
        """The text as it is printed, or None if it is refused."""
        return printed(text)

    def end(self, case: Case, least: int) -> None:
        """Counts and prints what was judged, at least so many expectations. Each difference must
        have shown."""
        unseen = [f"{text!r} is no difference any more" for text in self.rows.keys() - self.used]
        failures = self.failures + unseen
        case.sweep(self.held + len(failures), failures)
        with case.subTest("expectations"):
            case.assertGreaterEqual(self.judged, least)
        print(
            f"{self.project}: {self.judged} expectations, {len(self.used)} differences that are"
            " named"
        )
        for reason, count in sorted(self.left_out.items(), key=lambda each: -each[1]):
            print(f"{self.project}: {count} not judged: {reason}")


def reading(text: str) -> Optional[List[Listed]]:
    """The selectors of a text, or None if it is refused."""
    try:
        return listed(text)
    except SelectorError:
        return None


def printed(text: str) -> Optional[str]:
    """A text as it is printed, with the names of pseudo-classes in lower case, or None if it is
    refused."""
    found = reading(text)
    if found is None:
        return None
    return re.sub(r":[-\w]+", lambda each: each[0].lower(), ", ".join(each.text for each in found))


class Judges(Case):
    """The projects, each a test."""

    folder = os.path.join(TOP, "out", "judges")

    @classmethod
    def tearDownClass(cls) -> None:
        judges_tests.forget_lists(cls.folder)

    def judge(self, name: str) -> None:
        """Judges by the tests of a project."""
        (project,) = (each for each in judges_tests.PROJECTS if each.name == name)
        why = judges_tests.fetch(project, self.folder)
        if why:
            self.skipTest(f"the tests of {name}: {why}")
        judge = Judge(name)
        project.judge(self.folder, judge)
        judge.end(self, project.least)

    def test_cssselect(self) -> None:
        self.judge("cssselect")

    def test_css_select(self) -> None:
        self.judge("css-select")

    def test_css_what(self) -> None:
        self.judge("css-what")

    def test_jquery(self) -> None:
        self.judge("jquery")

    def test_cascadia(self) -> None:
        self.judge("cascadia")

    def test_nokogiri(self) -> None:
        self.judge("nokogiri")

    def test_servo(self) -> None:
        self.judge("servo")
