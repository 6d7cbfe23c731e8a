"""Each request for memory that a call of the libraries makes is refused, one after another, in the
program `tests_refusals`.

A call answers that it is out of memory if the refused request was its own, and what it answers with
ample memory if the request was the logger's or for the table of an index, which answers by its
ordered map then; there is no other answer. A table is made for the first key of each kind, and
again for the second. In each of these runs the calls that take no memory answer the same, and make
no request. A line for each call says how many requests were refused.
"""
from __future__ import annotations

import re
from typing import Callable, List, NamedTuple, Sequence, Tuple

from tests.common import Case, refusable, run_refused

# Whether what a call prints after a request was refused is an answer, beside what it prints with
# ample memory.
Answers = Callable[[str, str], bool]

# What the calls that allocate nothing print in each run.
FREE = (
    "free: Answers { stream: 19, tokens: (6, 2), elements: 10, matches: 4, winners: (1, 1),"
    " equalities: 19, is_empty: true, tables: (4, 4, 7, true) }"
)


SHEETS = [
    "a, b { color:red }",
    "#x { color:red } a { color:blue }",
    ":le, b { color:red }",
    "a, b < c { color:red }",
    "a /, b { color:red }",
    "a { }} b { color:red }",
    "a { } } b { color:red }",
    "p { font:12px/1.5 serif; color:red } q { color:blue }",
    "p { color:green; color{;color:maroon} }",
    "@ a { color:red }",
    "@media screen { p:before { content: 'Hello'; } } a { color:red }",
    "#x { a:b }",
    "a > b { c:d } b { e:f }",
]
SELECTORS = [
    "[x=\"a'][y='b\"]",
    '[x="a\\\'b"]',
    '[x="a\'b"]',
    "a > .b",
    "a b > c d + e#f.g:hover",
    "a < b",
    ":le",
]
MANY = "0\ta\t" + "\t".join(f"k{i}={i}" for i in range(40))
# Trees, and the number of their lines before the first faulty one.
TREES = [
    ("0\ta\n1\tb\n1\tc\n2\tb\n", 4),
    ("1\ta", 0),
    ("0\ta\n2\tb", 1),
    ("0\ta\n\n", 1),
    ("0", 0),
    ("0\ta\tk", 0),
    ("0\ta\tk=1\tk=2", 0),
    (MANY + "\n1\tb", 2),
    (MANY + "\tk7=x\n1\tb", 0),
    ("0\ta\n1\tb" + MANY[3:] + "\tk", 1),
]
MATCHED = ("a > b { c:d } b { e:f }", "0\ta\n1\tb\n1\tc\n2\tb\n")


def plain(out: str, whole: str) -> bool:
    return out == "refused\n"


def unwritten(out: str, whole: str) -> bool:
    return out == "refused after 0 bytes\n"


def one_copy(out: str, whole: str) -> bool:
    """One of several copies is refused, and the others are what they were."""
    is_refused = "other" not in out and out.count("refused") == 1
    return is_refused and len(out.splitlines()) == len(whole.splitlines())


def at_line(limit: int) -> Answers:
    """The call is out of memory at a line of a tree, up to this one, or has its whole answer."""

    def is_answer(out: str, whole: str) -> bool:
        found = re.fullmatch(r"refused at (\d+)\n", out)
        return out == whole or found is not None and 1 <= int(found[1]) <= limit

    return is_answer


def unchanged(printed: str, after: str) -> Answers:
    """The sheet is what it was, and the same call then reads all."""
    return lambda out, whole: whole == after and out == "out of memory\n" + printed + after


def is_unchanged(out: str, whole: str) -> bool:
    """The same, of the sheet `x { y:z }`."""
    return out == "out of memory\nx { y:z; }\n" + whole


class Row(NamedTuple):
    """A call: its name and words, what it answers if a request was refused, and how many are for
    tables."""

    name: str
    words: Sequence[str]
    answers: Answers
    tables: int


ROWS: List[Row] = []


def add(name: str, words: Sequence[str], answers: Answers, tables: int = 0) -> None:
    """Adds a call to those whose requests are refused."""
    ROWS.append(Row(name, words, answers, tables))


for text in SELECTORS:
    add("Selector::parse", ["selector", text], plain)
    add("run_selector", ["run_selector", text], unwritten)
for text in SHEETS:
    add("StyleSheet::parse", ["sheet", text], plain)
    add("clone", ["copies", text], one_copy)
    add("run_sheet", ["run_sheet", text, "#x { a:b }"], unwritten)
for tree, limit in TREES:
    add("Page::read", ["page", tree], at_line(limit))
for text, tables in zip(SHEETS, (1, 2, 1)):
    add("run_match", ["run_match", text, MATCHED[1]], unwritten, tables)
add("run_match", ["run_match", *MATCHED], unwritten, 2)
WINNING = ("a { c:red !important; c:blue } a { c:green }", "0\ta")
for sheet, tree, name, tables in [(*WINNING, "c", 1), (*MATCHED, "e", 2)]:
    add("run_style", ["run_style", sheet, tree, name], unwritten, tables)

for text in SHEETS:
    add("StyleSheet::read", ["sheets", text, "#x { a:b }", text], plain)
    add("StatementReader::read_next", ["statements", text], plain)
for text in ["a < b, c:d { e } @f", "a < b { c:d }"]:
    add("find_skipped", ["skipped", text], plain)
CASCADE = (
    "#a .b { c:d !important; e:f } * { c:g } .b.i { h:j } b { c:k }",
    "0\ta\tid=a\n1\tb\tclass=i b\n1\tb\n",
)
add("RuleIndex::new, matching", ["index", *CASCADE], plain, 3)
add("RuleSearch::new", ["search", CASCADE[0]], plain, 3)
add("RuleSearch::matching", ["kept", *CASCADE], plain)
add("winners", ["winners", *CASCADE], plain)
add("Tree::push, set_attribute", ["tree", "a", "b", "c"], plain)
# Elements with no class, one, two and a repeated one.
CHAIN = ("", "a", "b a", "c a c")
add("NumberedTree::new", ["numbered", *CHAIN], plain)
LISTED = "*, .a, .b > .a, :is(#x, .c), [class], .c::before, :not(.c)"
add("SelectorIndex::new, matching", ["modern", LISTED, *CHAIN], plain)
add("TreeWalk::new, matching", ["tree_walk", LISTED, *CHAIN], plain)
add("RuleWalk::new, matching", ["rule_walk", CASCADE[0], *CHAIN], plain, 3)

# After a refused request the sheet is unchanged, and the same call then reads all: the sheet's
# text, the one that is read into it, and what the sheet prints before and after.
MORE = [
    ("x { y:z }", "a, b { c:d }", "x { y:z; }\n", "x { y:z; }\na { c:d; }\nb { c:d; }\n"),
    (
        "#x { a:b }",
        "p { c:d } q, r > s { e:f; g:h } @media { } :le { }",
        "*[id='x'] { a:b; }\n",
        "p { c:d; }\nq { e:f;g:h; }\nr > s { e:f;g:h; }\n*[id='x'] { a:b; }\n",
    ),
    (
        "#b { x:y } a { x:y; z:w } .e { x:y }",
        ".f > g { x:y } h {} #i j { x:y; x:z } * { x:y } m + n { x:y }",
        "a { x:y;z:w; }\n*[class~='e'] { x:y; }\n*[id='b'] { x:y; }\n",
        (
            "* { x:y; }\na { x:y;z:w; }\nm + n { x:y; }\n*[class~='e'] { x:y; }\n*[class~='f'] > g"
            " { x:y; }\n*[id='b'] { x:y; }\n*[id='i'] j { x:y;x:z; }\n"
        ),
    ),
]
for text, more, printed, after in MORE:
    add("parse_more", ["more", text, more], unchanged(printed, after))
for text in SHEETS:
    add("parse_more", ["more", "x { y:z }", text], is_unchanged)
    add("StyleSheet::read, within a limit", ["within", "x { y:z }", text], is_unchanged)


class Run(NamedTuple):
    """A run: its status, what it printed, what the calls that take no memory printed, and its
    requests."""

    status: int
    out: str
    free: List[str]
    requests: bytes


def run(words: Sequence[str], refuse: int) -> Run:
    """Runs the program, and counts the requests between the marks."""
    status, out, _, requests = run_refused(
        [refusable("tests_refusals"), *words], refuse, marked=True
    )
    lines = out.decode().splitlines(keepends=True)
    free = [line.rstrip("\n") for line in lines if line.startswith("free: ")]
    return Run(
        status, "".join(line for line in lines if not line.startswith("free: ")), free, requests
    )


class Calls(Case):
    """The calls of `ROWS`: a test for each name."""

    def setUp(self) -> None:
        refusable("tests_refusals")

    def refuse_each(self, row: Row) -> int:
        """Refuses the requests of a call one by one. Returns how many there were."""
        total = 0
        for logger in ("lost", "kept"):
            words, unnoticed, failures = [logger, *row.words], 0, []
            whole = run(words, 0)
            self.assertEqual((whole.status, set(whole.free)), (0, {FREE}))
            self.assertFalse(whole.out.startswith("refused"), "with ample memory")
            number = 1
            while b"x" in (got := run(words, number)).requests:
                # The keys of a faulty line are compared without memory, if need be.
                unnoticed += got.out == whole.out and not whole.out.startswith("fault ")
                is_answer = got.out == whole.out or row.answers(got.out, whole.out)
                if got.status or set(got.free) != {FREE} or not is_answer:
                    failures.append(f"{words} with request {number} refused: {got}")
                number += 1
            total += number - 1
            self.sweep(number - 1, failures)
            if logger == "lost":
                self.assertEqual(unnoticed, row.tables, "requests that are not noticed, and tables")
        return total

    def refuse_all(self, name: str) -> None:
        """Refuses the requests of all calls of a name."""
        total = 0
        for row in ROWS:
            if row.name == name:
                with self.subTest(words=row.words):
                    total += self.refuse_each(row)
        self.assertGreater(total, 0, f"{name} makes no request")
        print(f"{name}: {total} refused requests")

    def test_kept_once(self) -> None:
        """What is found for an element is kept once for all elements with its name and classes."""
        one, two = (
            len(
                run(
                    ["lost", "kept", CASCADE[0], f"0\ta\n1\tb\tclass=i b\n1\tb\tclass={other}\n"], 0
                ).requests
            )
            for other in ("i b", "b i")
        )
        self.assertGreater(one, 0)
        self.assertEqual(2 * one, two)


for each in dict.fromkeys(row.name for row in ROWS):
    setattr(
        Calls, "test_" + re.sub(r"\W+", "_", each), lambda self, name=each: self.refuse_all(name)
    )
