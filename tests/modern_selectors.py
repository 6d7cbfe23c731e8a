"""Modern selectors beside soupsieve and a browser: what random selectors match, which texts are
refused, how selectors are serialized, and which languages are in language ranges.

The program is `tests_driver`. soupsieve is Debian's `python3-soupsieve`, used by
/usr/bin/python3; the browser is Debian's `chromium`. What is missing is left out. The trees and the
texts are equal in each run.
"""
from __future__ import annotations

import os
import random
import re
from functools import partial
from typing import Any, Callable, Dict, Iterator, List, Optional, Sequence, Tuple, Union

from tests.common import LEFT_OUT, Case, browser_answers, count, debian_answers, row
from tests.syntax import replies_of

# An element: its name, its attributes, and its children, which are elements and texts.
Element = Tuple[str, Dict[str, str], List[Any]]
# A tree, and texts for it.
Work = Tuple[Element, List[str]]
# What a text is: the numbers of the elements that it matches, None if it is refused, or that there
# is no answer.
Found = Union[List[int], None, str]

NAMES = ("a", "b", "li", "x-y", "\xe9")
WORDS = ("c", "d", "C", "1", "e-f", "\xe9t\xe9", "a b", "en", "en-US", "", " ", "x.y", "-")
ATTRIBUTES = ("class", "id", "title", "lang", "data-x")
OPERATORS = ("=", "~=", "|=", "^=", "$=", "*=")
# fmt: off
STRUCTURES = (
    "root", "empty", "first-child", "last-child", "only-child", "first-of-type", "last-of-type",
    "only-of-type", "FIRST-child", "Empty", "scope", "SCOPE",
)
# fmt: on
NUMBERINGS = ("nth-child", "nth-last-child", "nth-of-type", "nth-last-of-type", "NTH-Child")
# fmt: off
PROGRESSIONS = (
    "odd", "even", "ODD", "1", "2", "+3", "-1", "0", "n", "-n", "+n", "2n", "2n+1", "2N + 1",
    "-n+3", "-2n + 5", "3n - 1", "0n+2", "n+0", " 2n ", "-0n-0", "+2n+0", "00002n+00001",
    "99999999999n+1", "n- 2", "-n- 1", "2n/**/+ 1",
)
# With escapes and comments, and texts that are none.
RARE_PROGRESSIONS = (
    "+/**/n", "2\\6e", "2\\6e -1", "2n/**/+/**/1", "n-1", "-n-1", "+N-1", "2n-/**/1", "2N\\-1",
    "\\-n", "o\\64 d", "e\\56 en", "-/**/n", "2/**/n", "+ n", "2n- 1", "+\\6e", "n--1", "2e1",
    "+odd", "n-1n", "2.0", "n\\2d 2", "2\\6e/**/-/**/1", "+/**/2n", "-n-\\31", "2n +-1", "n/**/n",
)
# fmt: on
# Pseudo-elements, which may have one colon (Selectors 3, section 7).
ELEMENTS = ("before", "after", "first-line", "first-letter", "BEFORE")
COMBINATORS = (" ", " > ", " + ", " ~ ", ">", "+", "~", "  ", "\n>\t", " /**/ ", "/**/ ~")
# Parts of a list that are no selectors, or are, with others.
# fmt: off
NO_SELECTORS = (
    "", "%%", "5", "a >", "> a", "{,}", "(a, b)", "[x,]", "url(a,b)", "'a,b'", "a!b", "#1", "]",
    "/*,*/ %", "a::before", ".", "a -->b", "a, %, b",
)
# fmt: on
# What a text is changed by, so that many changed texts are no selectors.
# fmt: off
CHANGES = (
    ".", "#", ":", "::", "[", "]", "(", ")", "=", "'", '"', "\\", "\n", ",", ">", "*", "a", "1",
    " ", "|", "/*", "/**/", "+", "~", "-", "n", "!", "=>", "\\\n", "\\31 ", ":not(", ":is(",
    ":foo(", ":before", "::after", "&",
)
# fmt: on


class Source(random.Random):
    """Random trees and selectors, the same in each run."""

    # Whether comments and escapes are also where hardly anyone writes them.
    is_rare = False

    def comment(self) -> str:
        """Nothing, or a comment on a rare path."""
        if not self.is_rare or self.random() < 0.85:
            return ""
        return self.choice(("/**/", "/* .b */", "/*\n*/", "/***/"))

    def keyword(self, word: str) -> str:
        """The word, on a rare path with escapes."""
        return self.name(word) if self.is_rare else word

    def tree(self, depth: int = 0) -> Element:
        """A random element."""
        attributes = {name: self.choice(WORDS) for name in ATTRIBUTES if self.random() < 0.4}
        children: List[Any] = []
        for _ in range(self.choice((0, 1, 2, 3, 4)) if depth < 4 else 0):
            children.append(self.tree(depth + 1))
            if self.random() < 0.2:
                children.append(self.choice(("text", "")))
        if not children and self.random() < 0.3:
            children.append("text")
        return self.choice(NAMES), attributes, children

    def escaped(self, letter: str) -> str:
        """The letter as an escape."""
        number = f"{ord(letter):x}"
        return "\\" + self.choice(
            (number + " ", number.zfill(6), number.upper().zfill(6) + " ", number + "\n")
        )

    def name(self, value: str) -> str:
        """A name of this value, with escapes where it needs them, and sometimes where it does
        not."""
        spelled = ""
        for at, letter in enumerate(value):
            bare = letter.isalpha() or (at and (letter in "-_" or letter.isdigit()))
            usual = 0.85 if self.is_rare else 0.93
            spelled += letter if bare and self.random() < usual else self.escaped(letter)
        return spelled

    def string(self, value: str) -> str:
        """A string of this value."""
        quote = self.choice("'\"")
        return (
            quote
            + "".join(self.escaped(letter) if self.random() < 0.1 else letter for letter in value)
            + quote
        )

    def attribute(self) -> str:
        """An attribute selector."""
        name, value = self.name(self.choice(ATTRIBUTES)), self.choice(WORDS)
        blank = self.choice(("", "", "", " ", "/**/"))
        if self.random() < 0.2:
            return f"[{blank}{name}{blank}]"
        text = self.string(value) if self.random() < 0.6 or not value else self.name(value)
        flag = self.choice(("", "", " i", " s", " I"))
        return f"[{blank}{name}{blank}{self.choice(OPERATORS)}{blank}{text}{blank}{flag}{blank}]"

    def simple(self) -> str:
        """A simple selector that is no type selector."""
        kind = self.random()
        if kind < 0.03:
            return "&"
        if kind < 0.3:
            return f".{self.comment()}" + self.name(self.choice([word for word in WORDS if word]))
        if kind < 0.4:
            return "#" + self.name(self.choice([word for word in WORDS if word]))
        if kind < 0.6:
            return self.attribute()
        if kind < 0.8:
            return f":{self.comment()}" + self.keyword(self.choice(STRUCTURES))
        number = self.choice(PROGRESSIONS + RARE_PROGRESSIONS if self.is_rare else PROGRESSIONS)
        inside = self.comment() + number + self.comment()
        return f":{self.comment()}{self.keyword(self.choice(NUMBERINGS))}({inside})"

    def plain(self) -> str:
        """A compound selector without lists."""
        front = self.choice(("", "", "*", self.name(self.choice(NAMES))))
        return front + "".join(
            self.comment() + self.simple()
            for _ in range(self.choice((0, 1, 1, 2) if front else (1, 1, 2)))
        )

    def compound(self, depth: int = 0) -> str:
        """A compound selector, with lists up to four deep."""
        if depth == 4 or self.random() < 0.7:
            return self.plain()
        parts = self.choice((",", " , ", ", ")).join(
            self.part(depth + 1) for _ in range(self.choice((1, 1, 2, 3)))
        )
        front = self.plain() if self.random() < 0.5 else ""
        name, blank = self.choice(("not", "is", "where", "NOT")), self.choice(("", " "))
        kind = self.random()
        if kind < 0.2:
            name = self.choice(("nth-child", "nth-last-child"))
            parts = f"{self.choice(PROGRESSIONS)} of {parts}"
        elif kind < 0.4:
            name = "has"
            parts = ",".join(self.relative(depth + 1) for _ in range(self.choice((1, 1, 2))))
        return f"{front}:{name}({blank}{parts}{blank})"

    def relative(self, depth: int) -> str:
        """A selector that is relative to the element which `:has()` asks about."""
        sign = self.choice(("", "", "> ", ">", "+ ", "~ ", "/**/>"))
        return sign + self.comment() + self.complex(depth)

    def part(self, depth: int) -> str:
        """A part of a list, on a rare path perhaps no selector."""
        if self.is_rare and self.random() < 0.1:
            return self.choice(NO_SELECTORS)
        return self.complex(depth)

    def complex(self, depth: int) -> str:
        """A complex selector in lists, with few combinators in inner ones."""
        text = self.compound(depth)
        for _ in range(self.choice((0, 0, 0, 1, 2) if depth == 1 else (0, 0, 0, 0, 0, 0, 1))):
            text += self.choice(COMBINATORS) + self.compound(depth)
        return text

    def selector(self) -> str:
        """A selector."""
        text = self.compound()
        for _ in range(self.choice((0, 0, 1, 1, 2, 3))):
            text += self.choice(COMBINATORS) + self.compound()
        if self.random() < 0.08:
            text += (
                self.choice(("", self.choice(COMBINATORS)))
                + self.comment()
                + self.choice((":", "::", f":{self.comment()}:"))
                + self.comment()
                + self.name(self.choice(ELEMENTS))
            )
        return text

    def listed(self) -> str:
        """A list of selectors, most often of one."""
        return self.choice((",", " , ")).join(
            self.selector() for _ in range(self.choice((1, 1, 1, 2, 3)))
        )

    def rare(self) -> str:
        """A list with comments between any tokens and escapes in any word, perhaps cut anywhere."""
        self.is_rare = True
        text = self.listed()
        return text[: self.randrange(len(text) + 1)] if self.random() < 0.4 else text

    def changed(self) -> str:
        """A text that may be no selector."""
        text = self.listed()
        for _ in range(self.choice((1, 1, 2))):
            at, to = sorted(self.randrange(len(text) + 1) for _ in range(2))
            text = text[:at] + self.choice(CHANGES + ("",)) + text[self.choice((at, at + 1, to)) :]
        return text


def lines_of(element: Element, depth: int = 0) -> List[str]:
    """The tree as the program reads it: for each element a line of depth, name, whether it has
    text, and attributes."""
    name, attributes, children = element
    content = "1" if any(child for child in children if isinstance(child, str)) else "0"
    fields = [str(depth), name, content]
    fields += [f"{key}={value}" for key, value in attributes.items()]
    found = ["\1".join(fields)]
    for child in children:
        if not isinstance(child, str):
            found += lines_of(child, depth + 1)
    return found


def answers_of(word: str, tree: Element, texts: Sequence[str]) -> List[str]:
    """What the program prints with a word, of a tree and lists of selectors."""
    return replies_of(word, ["\n".join(lines_of(tree)), *texts])


def seconds_of_programs() -> float:
    """How long the processor has worked for the programs that have ended."""
    return sum(os.times()[2:4])


def ours(tree: Element, texts: Sequence[str]) -> List[str]:
    """What the program prints of each text: the numbers of the elements that it matches, or
    `refused` and why."""
    replies = answers_of("match", tree, texts)
    assert len(replies) == len(texts), (len(replies), len(texts))
    return replies


def found_of(reply: str) -> Found:
    """The numbers of a reply, or None if the text is refused."""
    if reply.startswith("refused"):
        return None
    return [int(number) for number in reply.split("\1")[0].split(":", 1)[1].split()]


def printed_of(reply: str) -> Optional[str]:
    """The list of a reply as it is serialized, or None if the text is refused."""
    return None if reply.startswith("refused") else reply.split("\1", 1)[1]


SOUP = r"""
import json, signal, sys
import soupsieve
from bs4 import BeautifulSoup, Comment, Tag
from soupsieve.css_match import CSSMatch

class Above(Tag):
    # The parent of a root: soupsieve would take a document for a further ancestor.
    def __bool__(self):
        return False

class Slow(Exception):
    pass

def stop(number, frame):
    raise Slow

signal.signal(signal.SIGALRM, stop)

def build(soup, element):
    tag = soup.new_tag(element[0])
    for key, value in element[1].items():
        tag[key] = value
    for child in element[2]:
        tag.append(child if isinstance(child, str) else build(soup, child))
    return commented(tag)

def commented(tag):
    # soupsieve does not find the child B by `An+B` if B is the number of nodes.
    for _ in range(8):
        tag.append(Comment(""))
    return tag

def select(root, numbers, text):
    # Some texts take it very long, and numbers of escapes above 10FFFF raise another error.
    signal.setitimer(signal.ITIMER_REAL, 0.5)
    try:
        selector = soupsieve.compile(text)
        # `:scope` is the root, and not the tag.
        finder = CSSMatch(selector.selectors, root, selector.namespaces, selector.flags)
        return [numbers[id(tag)] for tag in [root, *root.find_all(True)] if finder.match(tag)]
    except (soupsieve.SelectorSyntaxError, NotImplementedError):
        return None
    except (Slow, ValueError):
        return "no answer"
    finally:
        signal.setitimer(signal.ITIMER_REAL, 0)

answers = []
for tree, texts in json.load(sys.stdin):
    soup = BeautifulSoup("", "xml")
    root, above = build(soup, tree), Above(name="above", is_xml=True)
    above.append(root)
    commented(above)
    numbers = {id(tag): number for number, tag in enumerate([root, *root.find_all(True)])}
    answers.append([select(root, numbers, text) for text in texts])
json.dump(answers, sys.stdout)
"""

PAGE = """
<!DOCTYPE html><meta charset=utf-8><script id=input type="application/json">%s</script>
<script>
const answers = [];
function build(page, element) {
    const made = page.createElementNS(null, element[0]);
    for (const name in element[1]) made.setAttribute(name, element[1][name]);
    for (const child of element[2])
        made.append(typeof child == "string" ? child : build(page, child));
    return made;
}
for (const [tree, texts] of JSON.parse(document.getElementById("input").textContent)) {
    const page = document.implementation.createDocument(null, "", null);
    page.append(build(page, tree));
    const all = [...page.querySelectorAll("*")];
    answers.push(texts.map(text => {
        try {
            return [...page.querySelectorAll(text)].map(each => all.indexOf(each));
        } catch {
            return null;
        }
    }));
}
document.documentElement.textContent = "ANS" + "WER" + JSON.stringify(answers) + "END";
</script>
"""


SHEET = """
<!DOCTYPE html><meta charset=utf-8><script id=input type="application/json">%s</script>
<script>
const answers = JSON.parse(document.getElementById("input").textContent).map(text => {
    const sheet = document.createElement("style");
    sheet.textContent = text + " {}";
    document.head.append(sheet);
    const rule = sheet.sheet.cssRules[0];
    sheet.remove();
    return rule && rule.selectorText !== undefined ? rule.selectorText : null;
});
document.documentElement.textContent = "ANS" + "WER" + JSON.stringify(answers) + "END";
</script>
"""


# Differences that docs/DIFFERENCES.md names, by a list that is read before the place of a refusal, by
# lists, and by a namespace.
INNER = re.compile(r":(is|where|not|has|nth-[a-z-]*)\([^()]*(\([^()]*)*$", re.IGNORECASE)
FORGIVING = re.compile(r":(is|where)\(", re.IGNORECASE)
NESTED = re.compile(r":(is|where|not)\(.*:(is|where|not)\(", re.IGNORECASE | re.DOTALL)
NAMESPACE = re.compile(r"\|(?!=)")
# A browser knows no flag `s`, and takes a large number for another; it refuses pseudo-classes that
# it does not know, and reads `:is()` and a further pseudo-element after one.
ODD_IN_BROWSERS = re.compile(
    r"""[\s'"/]s\s*(/\*.*?(\*/|$)\s*)*(\]|$)|\d{10}|:(before|after)(:(is|where)\(|::)""",
    re.IGNORECASE,
)
KNOWN = {
    *STRUCTURES,
    *ELEMENTS,
    *(name + "(" for name in (*NUMBERINGS, "not", "is", "where", "NOT", "has")),
}
# soupsieve leaves nothing out of a list, takes an empty value for the start of each, finds nothing by `n-1`, refuses two blanks
# before a sign and newlines after escapes, takes away comments before it reads escapes, takes the
# name `*` for any, knows `!=`, and refuses pseudo-elements, `&`, comments within and directly
# before a simple selector, and escapes in `An+B` and in flags.
ODD_IN_SOUP = re.compile(
    r"""[$^*]=\s*(/\*.*?\*/\s*)*(''|"")|\bn\s*-\s*\d|\s(\s|/\*.*?\*/)+[,+>~]|\\[0-9a-f]{0,6}\n|\\/?\*"""
    r"|&|:(:|before|after|first-l)|!=|\*/[.#:\[]|[.:]/\*|nth-[\w-]*\([^)]*\\|\\\w\s*\]",
    re.IGNORECASE | re.DOTALL,
)


def plain(text: str) -> str:
    """The text without comments, with an escape as the letter, digit or hyphen that it spells, or as
    an underscore."""

    def spelled(found: "re.Match[str]") -> str:
        letter = chr(int(found[1], 16) % 0x110000) if found[1] else found[2]
        return letter if letter.isalnum() or letter == "-" else "_"

    kept = r"""(\\.|"(?:\\.|[^"\\\n])*"|'(?:\\.|[^'\\\n])*')"""
    text = re.sub(kept + r"|/\*.*?(?:\*/|$)", lambda found: found[1] or "", text, flags=re.DOTALL)
    return re.sub(r"\\(?:([0-9a-fA-F]{1,6})\s?|(.|$))", spelled, text, flags=re.DOTALL)


def is_open(text: str) -> bool:
    """Whether a comment, a string or a bracket is open at the end of the text, which soupsieve
    refuses."""
    closed = r"""\\.|/\*.*?\*/|"(?:\\.|[^"\\\n])*"|'(?:\\.|[^'\\\n])*'"""
    left = re.sub(closed, "", text, flags=re.DOTALL)
    brackets = left.count("(") > left.count(")") or left.count("[") > left.count("]")
    return brackets or bool(re.search(r"/\*|[\"']", left))


def front_of(text: str, reply: str) -> str:
    """The text before the place of a refusal, without what is in parentheses."""
    row, column = (int(number) for number in reply.split(":")[1:3])
    lines = text.split("\n")[:row]
    front = plain("\n".join(lines[:-1] + [lines[-1][: column - 1]]))
    inside = 1
    while inside:
        front, inside = re.subn(r"\([^()]*\)", "", front)
    return front


def has_unknown(text: str) -> bool:
    """Whether the text has the name of a pseudo-class or a pseudo-element that a browser may not
    know."""
    names = re.findall(r"(::?)([\w-]*\(?)", plain(text))
    return any(name not in (ELEMENTS if colons == "::" else KNOWN) for colons, name in names)


def is_known(judge: str, text: str, reply: str, theirs: Found) -> bool:
    """Whether a difference from a judge is one of those that are named."""
    odd = ODD_IN_BROWSERS if judge == "chromium" else ODD_IN_SOUP
    if any(map(odd.search, (text, plain(text)))):
        return True
    if judge == "soupsieve" and is_open(text):
        return True
    # soupsieve finds nothing by a prefix that is not declared.
    if judge == "soupsieve" and reply.endswith(" is no declared prefix"):
        return True
    if reply.endswith(" is unsupported"):
        odd_here = (FORGIVING, NESTED, NAMESPACE)
        return any(each.search(plain(text)) for each in odd_here)
    if found_of(reply) is None:
        return bool(INNER.search(front_of(text, reply)))
    is_forgiving = bool(FORGIVING.search(plain(text)))
    if judge == "soupsieve" and theirs is None and is_forgiving:
        return True
    return has_unknown(text) and (theirs is None or is_forgiving)


# Each judge, and what it finds by texts in trees, or None if it is missing.
JUDGES: Dict[str, Callable[[List[Work]], Optional[Any]]] = {
    "soupsieve": lambda work: debian_answers(SOUP, work, "soupsieve", "bs4", "lxml"),
    "chromium": partial(browser_answers, PAGE),
}


class Random(Case):
    """What random texts match."""

    def compare(self, kind: str, judges: Sequence[str] = tuple(JUDGES)) -> None:
        """Compares random texts of this kind with what these judges find."""
        source = Source(kind)
        number = count(1000) // 50
        work = [
            (source.tree(), [getattr(source, kind)() for _ in range(50)]) for _ in range(number)
        ]
        replies = [ours(tree, texts) for tree, texts in work]
        for name in judges:
            with self.subTest(judge=name):
                self.beside(name, kind, work, replies)

    def beside(self, name: str, kind: str, work: List[Work], replies: List[List[str]]) -> None:
        """Compares with what one judge finds."""

        def judge(_: List[Any]) -> Optional[Any]:
            return JUDGES[name](work)

        def question(one: Tuple[Work, List[str]], answers: Any) -> Iterator[Optional[str]]:
            (_, texts), replies = one
            for text, reply, theirs in zip(texts, replies, answers):
                found = found_of(reply)
                is_odd = found != theirs and is_known(name, text, reply, theirs)
                if theirs == "no answer" or is_odd:
                    yield LEFT_OUT
                else:
                    yield row(f"{text!r}: {reply!r}", found, theirs)

        missing = f"{kind} selectors beside {name}, which is missing or does not answer"
        self.against(judge, zip(work, replies), question, missing)

    def test_selectors(self) -> None:
        self.compare("listed")

    def test_changed_texts(self) -> None:
        self.compare("changed")

    def test_rare_paths(self) -> None:
        """soupsieve closes nothing, and reads comments and escapes as no tokens."""
        self.compare("rare", ("chromium",))


# A tree, lists of a selector each, and for each element the numbers of those that match it. The
# sixth matches no element.
INDEXED: Tuple[Element, Sequence[str], List[List[int]]] = (
    ("div", {}, [("p", {"class": "b"}, []), ("p", {"class": "c  b c"}, [])]),
    # fmt: off
    (
        "p", "*", ".b", "div > p", ":is(.b, #x)", "p::before", ".b > p", "div p + p", ".c", ".B",
        ".b + .c",
    ),
    # fmt: on
    [[1], [0, 1, 2, 3, 4], [0, 1, 2, 3, 4, 7, 8, 10]],
)


# How selectors are found: by an index, and by a walk along the page.
SEARCHES = ("index", "walk")


def numbers_of(search: str, tree: Element, texts: Sequence[str]) -> List[List[int]]:
    """For each element the numbers of the lists of which a search by all of them finds a selector, each
    once."""
    return [sorted(set(map(int, one.split()))) for one in answers_of(search, tree, texts)]


class Index(Case):
    """What an index over selectors, and a walk, finds."""

    def test_table(self) -> None:
        tree, texts, wanted = INDEXED
        for search in SEARCHES:
            with self.subTest(search):
                self.assertEqual(numbers_of(search, tree, texts), wanted)

    def test_random_selectors(self) -> None:
        """It finds what testing each selector finds."""
        source = Source("index")
        failures = []
        elements = 0
        for _ in range(count(1000) // 50):
            tree, lists = source.tree(), [source.listed() for _ in range(50)]
            tested = [found_of(reply) or [] for reply in ours(tree, lists)]
            found = [numbers_of(search, tree, lists) for search in SEARCHES]
            for element, both in enumerate(zip(*found)):
                others = [number for number, which in enumerate(tested) if element in which]
                elements += 1
                for search, numbers in zip(SEARCHES, both):
                    if numbers != others:
                        shown = f"the {search} finds {numbers}, and not {others}"
                        failures.append(f"element {element} of {tree}: {shown}")
        self.sweep(elements, failures)


# How many lists may be within one another.
DEEPEST = 32


# Lists with combinators, and whether one such selector is within another in a list: then they are
# unsupported, for their tests multiply.
COMBINED = (
    (":not(:where(.c, .c *))", False),
    (":is(:where(:not(a b)))", False),
    (":is(a b, :is(a > b))", False),
    (":is(a :is(b, c)) b", False),
    (":is(:is(a b) c)", True),
    ("a :not(b :where(a :is(b) + c))", True),
    (":is(:is(:is(a b) b))", True),
)


class Nested(Case):
    def test_combinators(self) -> None:
        """Selectors with combinators in lists within lists."""
        replies = ours(("a", {"class": "c"}, [("b", {}, [])]), [text for text, _ in COMBINED])
        for (text, is_deep), reply in zip(COMBINED, replies):
            with self.subTest(text=text):
                self.assertEqual(reply.endswith(f"`{text}` is unsupported"), is_deep, reply)

    def test_parts_left_out(self) -> None:
        """What is no selector is left out at any depth, and what is too deep is not."""
        tree: Element = ("a", {"class": "c"}, [("b", {}, [])])
        start = seconds_of_programs()
        inner = "x, " * 10_000 + ".c"
        text = ":is(" * DEEPEST + inner + " %), .c" * (DEEPEST - 1) + ")"
        (reply,) = ours(tree, [text])
        self.assertEqual(reply.split("\1")[0], "0,1,0: 0")
        (reply,) = ours(tree, [":is(" * (DEEPEST + 1) + "a" + ")" * DEEPEST + ", .c)"])
        self.assertTrue(reply.endswith("is nested too deep"), reply)
        self.assertLess(seconds_of_programs() - start, 10)

    def test_lists_within_lists(self) -> None:
        """Lists within lists have their meaning: of `:not()` within `:not()` each other one is the
        class itself."""
        tree: Element = ("a", {"class": "c"}, [("b", {}, [])])
        depths = (1, 2, 3, DEEPEST - 1, DEEPEST, DEEPEST + 1, 100_000)
        texts = [":not(" * depth + ".c" + ")" * depth for depth in depths]
        texts += [":is(" * depth + ".c, x" + ")" * depth for depth in depths]
        start = seconds_of_programs()
        replies = ours(tree, texts)
        self.assertLess(seconds_of_programs() - start, 10)
        for text, reply in zip(texts, replies):
            depth, name = text.count("("), text.split("(")[0]
            if depth > DEEPEST:
                place = 1 + DEEPEST * len(name + "(")
                wanted = f"refused: 1:{place}: `{name}` is nested too deep"
            else:
                wanted = f"0,1,0: {depth % 2 if name == ':not' else 0}\1{text}"
            with self.subTest(depth=depth, name=name):
                self.assertEqual(reply, wanted)


# Texts whose serialization shows something: names that need escapes, strings, `An+B`, lists,
# combinators, blanks.
# fmt: off
SERIALIZED = (
    "*", "*.a", "a.b#c", "a  >  b", "a>b+c~d e", "#\\31 x", ".\\31 23", "#-\\31 ", "#\\-", "#--",
    ".a\\.b", ".a\\20 b", ".a\\7f b", ".a\\1 b", ".a\\1f c", ".\\1f600 ", "\\@x", ".\xe9", ".\\e9",
    "\\61 ", "a\\62 c", "\\-a", "-\\-a", "--a", "_a", "a\\:hover", ".\\0 ", ".\\d800 x", "[a]",
    "[a=b]", "[a='b\"c']", '[a="x\\\\y"]', "[ a ~= b i ]", "[a^=''] ", "[a$=b]", '[a*="\\a "]',
    "[a|='\\7f\\\n']", "[\\31 a='\xe9']", ":ROOT", ":First-Child", ":nth-child(odd)",
    ":nth-child(even)", ":nth-child( 2n + 1 )", ":nth-child(+n)", ":nth-child(-n+3)",
    ":nth-child(0n+5)", ":nth-child(5)", ":nth-child(n)", ":nth-child(2n+0)", ":nth-child(-5)",
    ":nth-child(-n)", ":nth-last-child(-2n - 1)", ":nth-of-type(3n-1)", ":nth-last-of-type(1n+2)",
    ":not( .a )", ":not(.a,b)", ":is(*,a)", ":where( a , .b )", ":IS(a)", ":not(:not(a))",
    "a:not( :IS(.a,:Where( b )) , [c] )", "a::before", "::before", "a:before", ":AFTER",
    "a > :first-line", "a:\\66irst-letter, b", "a > ::after", "*::after", ":hover", ":not(*)",
    ":not(*.a)", "a /**/ b", "a,b , c", ":lang(en)", ":SCOPE", ":scope > a", ":sc\\6fpe", "&", "&.a",
    ".a&", "a&", "a/**/&", "*&", "&&", "&>a", "a &,& + &", ":is(&,a)", ":not(a&)", "&::before",
    ":not(*.a)", "a /**/ b", "a,b , c", ":lang(en)", ":is()", ":where( )", ":is(,)", ":is(a,)",
    ":is(a, %%, b)", ":is(%%)", ":is(a, {x,y}, b)", ":is(a, [x,y], b)", ":is(a, 'x,y', b)",
    ":is(a, (x,y), b)", ":is(a, url(x,y), b)", ":is(a, f(x,y), b)", ":is(a ! b, c)",
    ":is(a /*,*/ 5, b)", ":is(a b, c >, d)", ":is(> a, b)", ":is(::before, a)", ":is(a:before)",
    ":not(:is(%%))", ":is(:not(a, %%), b)", ":is(:is(%%), a)", ":is(a -->c, b)", ":is(a, ], b)",
    ":is(:nth-child(x), b)", ":is([a=], b)", ":is([a=b x], c)", ":is(#1, b)", ":is(a\\, b)", ":is({),},],b)",
    ":is(a:not(b) c > d, :where(e ~ f))", ":not(:where(.a, .a *))", ":is(:is(:is(a b)))",
)
# fmt: on
# A browser drops a `*` before other simple selectors, and writes a language range as it was written
# and a pseudo-element in lower case.
DROPPED = re.compile(r'("(?:\\.|[^"\\])*"|\\.)|\*(?=[.#:\[&])')


def as_browsers_do(printed: str) -> str:
    """A serialized list with the differences that docs/DIFFERENCES.md names."""
    shown = re.sub(
        r':lang\("(\w+)"\)', r":lang(\1)", DROPPED.sub(lambda found: found[1] or "", printed)
    )
    return re.sub(r"::[\w-]+", lambda found: found[0].lower(), shown)


# A browser keeps what it leaves out of a list if there is an `&` or a `:scope` in it.
HAS_IN_HAS = re.compile(r":has\(.*:has\(", re.IGNORECASE | re.DOTALL)


def is_odd(text: str) -> bool:
    """Whether a browser reads the text otherwise or prints another number."""
    is_known = any(each.search(text) for each in (ODD_IN_BROWSERS, HAS_IN_HAS))
    return is_known or "-0" in text


# A text, and what the program replies.
Replied = Tuple[str, str]


def beside(page: str) -> Callable[[List[Replied]], Optional[List[Any]]]:
    """What asks a browser how it serializes each text, of which it refuses some."""
    return lambda asked: browser_answers(page, [text for text, _ in asked])


class Serialized(Case):
    def test_serialized(self) -> None:
        """How selectors are serialized, beside a browser."""
        source = Source("printed")
        texts = list(SERIALIZED) + [source.listed() for _ in range(count(1000))]
        self.against(beside(SHEET), zip(texts, ours(("a", {}, []), texts)), self.question)

    def question(self, one: Replied, other: Optional[str]) -> Iterator[Optional[str]]:
        text, reply = one
        printed = printed_of(reply)
        if text not in SERIALIZED and (None in (other, printed) or is_odd(text)):
            yield LEFT_OUT
        else:
            yield row(repr(text), as_browsers_do(printed or "refused"), other)


# Lists of nested rules.
# fmt: off
NESTED_LISTS = (
    "&", ".x", "& .x", "> b", "+b", "~ b", ">b,c", "x, > y", "& > b", "> & b", "+ .c &", ".x &",
    ":is(&)", ":not(&)", ":is(.x)", ":not(.x)", ":where(&) b", "::before", "&::before", ">::before",
    "a&", "a b", "a > &", "> a > b", "> a > &", "[a='&']", ".\\26", ":is(.x, &) y", "/**/> b",
    "> /**/ b", ":scope", ":scope > b", "*", "*&", "+ &", ":is(:is(&))", ":hover",
)
NESTED_REFUSED = (
    "&a", "&*", "&1", ">> b", "> ", "b >", "b, , c", "> b, ::b(", "||b", "& &b", "",
)
# fmt: on
NESTED_SHEET = SHEET.replace('text + " {}"', '"c {" + text + " {}}"').replace(
    "cssRules[0];", "cssRules[0]?.cssRules[0];"
)


class NestedRules(Case):
    def test_nested(self) -> None:
        """Lists of nested rules, as a browser serializes them and as it refuses them."""
        source = Source("nested")
        texts = [*NESTED_LISTS, *NESTED_REFUSED]
        texts += [
            source.choice(("", "", *COMBINATORS)) + source.listed() for _ in range(count(1000))
        ]
        self.against(beside(NESTED_SHEET), zip(texts, replies_of("nested", texts)), self.question)

    def question(self, one: Replied, other: Optional[str]) -> Iterator[Optional[str]]:
        text, reply = one
        printed = printed_of(reply)
        if text in NESTED_REFUSED:
            yield row(repr(text), (printed, other), (None, None))
        elif text not in NESTED_LISTS and (None in (other, printed) or is_odd(text)):
            yield LEFT_OUT
        else:
            yield row(repr(text), as_browsers_do(printed or "refused"), other)


# What is before a pseudo-element, pseudo-elements, and what follows them, of which the last six are
# in no selector.
BEFORE_ELEMENTS = ("", "a", ".c > a", "a ", "a + ", ":hover", "a:host", "*")
PSEUDO_ELEMENTS = (
    "::before",
    ":AFTER",
    ":/**/:first-line",
    "::part(c)",
    "::part( c d )",
    "::slotted(a.b)",
    "::highlight(x)",
    "::-webkit-scrollbar-thumb",
    "::part(a/**/b)",
    "::cue(b)",
    "::marker",
)
AFTER_ELEMENTS = (
    "",
    ":hover",
    "::before",
    ":is(:hover)",
    ":not(:hover)",
    "::after:hover",
    ", b",
    "/**/:focus",
    ":first-child",
    ":/**/hover",
)
NEVER_AFTER = (".c", " a", ":url(x)", "[c]", "#c", " > a")
BROKEN_ELEMENTS = ("::part()", "::before(a)", ":before(a)", "::url(x)", "::part(]", "::", "::1")
# Pseudo-classes with arguments that have no meaning here, in a selector and a list.
FUNCTIONS = (
    ":has(a)",
    ":has(> a)",
    "a:has(a, b) > c",
    ":host",
    ":host(a)",
    ":host(a b)",
    ":host-context(a)",
    ":dir(ltr)",
    "a:not(:has(b))",
    "a:is(:has(b))",
    "a, :host(b), c",
    "a:state(x):hover",
    ":nth-child(2n of a)",
    ":nth-last-child(even of .b, c > d)",
    "a:nth-child(n + 1/**/of/**/a:has(b)):hover",
    ":not(:nth-child(-n- 1 o\\66 .c))",
    ":nth-child(2 of :nth-last-child(n of *|b))",
)
# Namespaces that need no `@namespace`.
NAMESPACES = (
    "*|a",
    "*|*",
    "|a",
    "|*.c",
    "*/**/|/**/a",
    "a > |b",
    "a |b",
    ":not(*|a, |*)",
    "*|\\61::before",
    "[*|a]",
    "[/**/|/**/a]",
    '[ *|a |= "b" i ]',
    "[|a~=b]",
    "[*|a|=b]",
)
# What is neither.
NEVER = (
    "*| a",
    "* | a",
    "*|",
    "|",
    "*|a|b",
    "a||b",
    "a*|b",
    ".c|b",
    "[*]",
    "[*|*]",
    "[* |a]",
    "[*| a]",
    "[|*=b]",
    "[a| =b]",
    "[|a| =b]",
    ":nth-of-type(2n of a)",
    ":nth-last-of-type(n of a)",
    ":nth-child(2n of )",
    ":nth-child(2n of ,a)",
    ":nth-child(2n of > a)",
    ":nth-child(2n of a, %)",
    ":nth-child(2n a)",
    ":nth-child(2n+1of a)",
    ":nth-child(n+ 1of a)",
    ":nth-child(n+1e3 of a)",
    ":nth-child(of a)",
)


class Unsupported(Case):
    def test_elements(self) -> None:
        """Texts that a browser reads are selectors, whether they have a meaning or not, and what is
        in none of the standard is in none."""
        texts = [
            before + element + after
            for before in BEFORE_ELEMENTS
            for element in PSEUDO_ELEMENTS
            for after in AFTER_ELEMENTS
        ]
        refused = [
            before + element + after
            for before in BEFORE_ELEMENTS
            for element, after in [
                *((element, after) for element in PSEUDO_ELEMENTS for after in NEVER_AFTER),
                *((element, "") for element in BROKEN_ELEMENTS),
            ]
        ]
        refused += NEVER
        texts += [*FUNCTIONS, *NAMESPACES]
        read: List[str] = []

        def question(one: Replied, other: Optional[str]) -> Iterator[Optional[str]]:
            text, reply = one
            read.extend([other] if other else [])
            is_read = not reply.startswith("refused") or reply.endswith(" is unsupported")
            is_wrong = other and not is_read or text in refused and (other or is_read)
            yield f"{text!r}: chromium has {other!r}, and not {reply!r}" if is_wrong else None

        every = [*texts, *refused]
        self.against(beside(SHEET), zip(every, ours(("a", {}, []), every)), question)
        self.assertGreater(len(read), 300)


# Language ranges, tags that are in each, and tags that are not: the examples of RFC 4647, section
# 3.3.2, and of Selectors 4, section 8.2, tags of RFC 5646, and at least one tag for each step. An
# element without a language has the tag "".
GERMAN = [
    "de-DE",
    "de-de",
    "de-Latn-DE",
    "de-Latf-DE",
    "de-DE-x-goethe",
    "de-Latn-DE-1996",
    "de-Deva-DE",
]
NOT_GERMAN = ["", "de", "de-x-DE", "de-Deva", "de-1-DE", "en-DE", "de-DEU"]
LANGUAGES = (
    ("de-*-DE", GERMAN, NOT_GERMAN),
    ("de-DE", GERMAN, NOT_GERMAN),
    ("DE-*-*-de-*", GERMAN, NOT_GERMAN),
    ("*-DE", GERMAN + ["en-DE"], ["", "de", "DE", "de-x-DE", "de-1-DE"]),
    ("*-*-DE", GERMAN + ["en-DE"], ["", "de", "DE", "de-x-DE", "de-1-DE"]),
    ("de", GERMAN + ["de", "DE", "de-x-DE", "de-1-DE"], ["", "deu", "en-DE", "i-de"]),
    ("de-*", GERMAN + ["de", "DE", "de-x-DE", "de-1-DE"], ["", "deu", "en-DE", "i-de"]),
    (
        "*-CH",
        ["de-CH", "it-CH", "fr-CH", "rm-CH", "gsw-Latn-CH"],
        ["", "de", "CH", "de-x-CH", "de-CHE"],
    ),
    ("*-Latn", ["sr-Latn", "de-Latn-DE", "gsw-Latn-CH"], ["", "Latn", "de-DE", "sr-x-Latn"]),
    ("EN-gb", ["en-GB", "EN-GB-oed", "en-Latn-gb"], ["", "en", "en-US", "english-GB", "en-a-GB"]),
    ("zh-Hans-CN", ["zh-Hans-CN", "zh-cmn-Hans-CN"], ["", "zh-CN-Hans", "zh-Hant-CN", "zh-Hans"]),
    ("az-x-AZE", ["az-x-AZE", "az-Arab-x-AZE-derbend"], ["", "az-AZE", "az-Arab-a-x-AZE"]),
    ("az-AZE", ["az-AZE", "az-Arab-AZE"], ["", "az-x-AZE", "az-Arab-x-AZE-derbend"]),
    ("i-*-klingon", ["i-klingon"], ["", "i", "klingon", "i-x-klingon"]),
    ("*", GERMAN + ["de", "i-klingon", "x-whine"], [""]),
    ("", [""], GERMAN + ["de", "i-klingon", "x-whine"]),
)
# soupsieve finds nothing by a range that is empty or that ends with `*`.
ODD_RANGES = re.compile(r"^$|-\*$")

SOUP_LANGUAGES = r"""
import json, sys
import soupsieve
from bs4 import BeautifulSoup

ranges, tags = json.load(sys.stdin)
answers = []
for wanted in ranges:
    selector, found = soupsieve.compile(f':lang("{wanted}")'), []
    for tag in tags:
        page = BeautifulSoup("<b></b>", "html.parser")
        page.b["lang"] = tag
        if selector.match(page.b):
            found.append(tag)
    answers.append(found)
json.dump(answers, sys.stdout)
"""


class Languages(Case):
    """Which languages are in ranges."""

    tags = sorted({tag for _, found, others in LANGUAGES for tag in found + others})
    ranges = [wanted for wanted, _, _ in LANGUAGES]

    def ours_in(self, texts: Sequence[str]) -> List[List[str]]:
        """The tags that the program finds by each text. An element without the attribute has its
        parent's language, and the root has none."""
        children: List[Any] = [("b", {"lang": tag}, [("c", {}, [])]) for tag in self.tags]
        answers = []
        for text, reply in zip(texts, ours(("a", {}, children), texts)):
            numbers = found_of(reply)
            assert isinstance(numbers, list), (text, reply)
            found = [tag for at, tag in enumerate(self.tags) if 2 * at + 1 in numbers]
            inherited = [tag for at, tag in enumerate(self.tags) if 2 * at + 2 in numbers]
            with self.subTest(text=text):
                self.assertEqual((inherited, 0 in numbers), (found, "" in found))
            answers.append(found)
        return answers

    def test_ranges(self) -> None:
        answers = self.ours_in([f':lang("{wanted}")' for wanted in self.ranges])
        for (wanted, inside, outside), found in zip(LANGUAGES, answers):
            for tag in inside + outside:
                with self.subTest(range=wanted, tag=tag):
                    self.assertEqual(tag in found, tag in inside)

    def test_two_ranges(self) -> None:
        both, first, second = self.ours_in(
            [r":lang(\*-CH, 'en-GB')", r":lang(\*-CH)", ":lang(en-GB)"]
        )
        self.assertEqual(both, sorted(first + second))

    def test_soupsieve(self) -> None:
        def soup(asked: List[Any]) -> Optional[List[Any]]:
            return debian_answers(SOUP_LANGUAGES, [self.ranges, self.tags], "soupsieve", "bs4")

        def question(one: Any, other: List[str]) -> Iterator[Optional[str]]:
            yield LEFT_OUT if ODD_RANGES.search(one[0]) else row(one[0], one[1], other)

        answers = self.ours_in([f':lang("{wanted}")' for wanted in self.ranges])
        missing = "languages beside soupsieve, which is missing"
        self.against(soup, zip(self.ranges, answers), question, missing)
