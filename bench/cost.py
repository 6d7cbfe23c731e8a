"""Measures how the time of the program grows with its input: each input at a size and at ten times
that size.

    cost.py [PROGRAM [MATCHER]] [--modern SELECTORS] [--library LIBRARY] [--python]

PROGRAM is the built `cssq`.

MATCHER, if given, is another program of the command `match`: its time at the larger size stands
last for the inputs of `match`. SELECTORS, if given, is the built `tests_driver`, which reads
modern selectors, matches them on a tree and prints them. LIBRARY, if given, is the C library: pages
that are hostile to a search are matched by its calls, at a size and at four times that size, by both
grammars. With --python, calls of the Python package are measured, too, in a process each: at a size and at four
times that size, and the most memory. Where what would be made is a product, the larger size may be
refused: its time is that until then.

Prints a line for each input: processor time in milliseconds at both sizes, least of some runs, and
their ratio. Time that grows no faster than N log N has a ratio of about 10 to 12. The output of the
last input is a product, since each of its N rules has N declarations of its own: its ratio nears
100. So is what is called a product of modern selectors: the length of a selector times that of a
value, or the elements times those that are before or above each. Inputs are made by this script;
nothing else is needed.
"""
from __future__ import annotations

import argparse
import os
import resource
import subprocess
import sys
import tempfile
from typing import Any, Callable, Dict, Iterator, List, Optional, Sequence, Tuple

sys.path.insert(0, os.path.dirname(os.path.dirname(os.path.abspath(__file__))))

from bench.library import Library  # noqa: E402

# What a size makes: a text, lines of a tree, or words and the file that is standard input.
Text = Callable[[int], str]
Lines = Callable[[int], List[str]]
Words = Tuple[List[str], Optional[str]]
# What an input is, its size, and its words at a size.
Input = Tuple[str, int, Callable[[int], Words]]
folder = tempfile.mkdtemp()


def absolute(path: str) -> str:
    """The path from the root."""
    return os.path.abspath(path)


def put(name: str, text: str) -> str:
    path = os.path.join(folder, name)
    with open(path, "w", encoding="utf-8") as file:
        file.write(text)
    return path


def milliseconds(binary: str, words: Sequence[str], stdin: Optional[str], runs: int = 5) -> float:
    """The least processor time of some runs."""
    best = float("inf")
    quiet: Dict[str, Any] = {"stdout": subprocess.DEVNULL, "stderr": subprocess.DEVNULL}
    for _ in range(runs):
        before = resource.getrusage(resource.RUSAGE_CHILDREN)
        with open(stdin or os.devnull, "rb") as file:
            subprocess.run([binary, *words], stdin=file, check=False, **quiet)
        after = resource.getrusage(resource.RUSAGE_CHILDREN)
        spent = after.ru_utime + after.ru_stime - before.ru_utime - before.ru_stime
        best = min(best, 1000 * spent)
    return best


def deep(n: int) -> str:
    return "".join(f"{depth}\ta\n" for depth in range(n))


def chain(n: int) -> str:
    return " ".join(["a"] * n)


def sheet_of(text: Text) -> Callable[[int], Words]:
    return lambda n: (["sheet", put("text.css", text(n))], None)


def selector_of(text: Text) -> Callable[[int], Words]:
    return lambda n: ([], put("text", text(n)))


def match_of(sheet: Text, tree: Text) -> Callable[[int], Words]:
    return lambda n: (["match", put("text.css", sheet(n)), put("text.tree", tree(n))], None)


def children(words: int) -> Text:
    """A parent with `words` words in its class, and n children."""
    return lambda n: "0\tr\tclass=" + " ".join(f"w{i}" for i in range(words)) + "\n" + "1\ta\n" * n


def rules_of(count: Optional[int], selector: str) -> Text:
    """`count` rules, or n, each with its number in the selector."""
    return lambda n: "".join(selector.format(i) + " { b:c }\n" for i in range(count or n))


def leaves(ancestors: int) -> Text:
    """n leaves under as many ancestors, each with four classes of its own."""
    path = "".join(f"{i}\tdiv\tclass=a{i} b{i} c{i} d{i}\n" for i in range(ancestors))
    return lambda n: path + f"{ancestors}\tp\tclass=leaf\n" * n


def utilities(n: int) -> str:
    """n elements, each with 8 of 400 classes."""
    return "0\tr\n" + "".join(
        "1\tp\tclass=" + " ".join(f"u{(i * 37 + 53 * k * k) % 400}" for k in range(8)) + "\n"
        for i in range(n)
    )


def element(depth: int = 0, name: str = "a", title: str = "", classes: str = "") -> str:
    """A line of a tree of `tests_driver`."""
    attributes = [
        f"{key}={value}" for key, value in (("title", title), ("class", classes)) if value
    ]
    return "\1".join([str(depth), name, "0", *attributes])


def one_element(_: int) -> List[str]:
    """An element alone."""
    return [element(title="a", classes="a")]


def list_of(text: Text, tree: Lines = one_element) -> Callable[[int], Words]:
    """A list of selectors, and the lines of a tree."""
    return lambda n: (["match"], put("text", "\n".join(tree(n)) + "\0" + text(n)))


def index_of(text: Text, tree: Lines) -> Callable[[int], Words]:
    """Lists of selectors for an index, and the lines of a tree."""
    return lambda n: (["index"], put("text", "\n".join(tree(n)) + "\0" + text(n)))


def value_of(value: Text) -> Lines:
    """An element with this value, as its class, too."""
    return lambda n: [element(title=value(n), classes=value(n))]


def line_of(name: str = "a") -> Lines:
    """A parent of n children, and of one with another name."""
    return lambda n: [element(name="r"), *(element(1, name) for _ in range(n)), element(1, "b")]


def path(n: int) -> List[str]:
    """A chain of n elements."""
    return [element(depth) for depth in range(n)]


def words(n: int) -> str:
    """n words."""
    return " ".join(f"w{i}" for i in range(n))


INPUTS: List[Input] = [
    ("a selector after comments", 10_000, selector_of(lambda n: "/**/" * n + "a")),
    ("comments within a compound", 10_000, selector_of(lambda n: "a" + "/**/" * n + ".b")),
    ("comments within a gap", 10_000, selector_of(lambda n: "a " + "/**/" * n + "b")),
    ("a selector of components", 100_000, selector_of(chain)),
    ("closing braces", 400_000, sheet_of(lambda n: "}" * n + "a { b:c }")),
    ("opening braces", 400_000, sheet_of(lambda n: "{" * n + "}")),
    ("a comment", 800_000, sheet_of(lambda n: "/*" + "x" * n + "*/ a { b:c }")),
    (
        "a rule set of selectors",
        4_000,
        sheet_of(lambda n: ", ".join(f"a{i}" for i in range(n)) + " { b:c }"),
    ),
    ("a block of declarations", 40_000, sheet_of(lambda n: "a { " + "b:c; " * n + "}")),
    ("refused rule sets", 50_000, sheet_of(lambda n: "a < b { c:d } " * n)),
    ("at-rules of one at-sign, reported", 20_000, sheet_of(lambda n: "a:zz {}" + "@" * n)),
    (
        "rule sets of one specificity",
        20_000,
        sheet_of(lambda n: "".join(f".c{i} {{ d:e }}\n" for i in range(n))),
    ),
    (
        "a line of attributes",
        40_000,
        match_of(
            lambda n: "a { b:c }", lambda n: "0\ta\t" + "\t".join(f"k{i}=v" for i in range(n))
        ),
    ),
    ("a chain of elements, and one step", 10_000, match_of(lambda n: "x > a { b:c }", deep)),
    ("siblings", 50_000, match_of(lambda n: "b + a { b:c }", lambda n: "0\tr\n" + "1\ta\n" * n)),
    (
        "attribute keys",
        2_000,
        match_of(
            rules_of(None, "[k{}]"), lambda n: "0\ta\thref=x\ttitle=y\n" + "1\tb\tk1=v\n" * 100
        ),
    ),
    (
        "classes of parents",
        2_000,
        match_of(rules_of(None, ".x{} > *"), lambda n: children(1000)(100)),
    ),
    (
        "children of a parent of 1,000 words",
        30_000,
        match_of(rules_of(20, ".x{} > *"), children(1000)),
    ),
    (
        "the same with 200 classes of parents",
        30_000,
        match_of(rules_of(200, ".x{} > *"), children(1000)),
    ),
    (
        "siblings of 1,000 words",
        100,
        match_of(
            rules_of(200, ".x{} + *"),
            lambda n: (
                "0\tr\n" + ("1\ta\tclass=" + " ".join(f"w{i}" for i in range(1000)) + "\n") * n
            ),
        ),
    ),
    (
        "elements of a class of their own",
        30_000,
        match_of(
            rules_of(20, ".x{}"),
            lambda n: "0\tr\n" + "".join(f"1\ta\tclass=w{i} y\n" for i in range(n)),
        ),
    ),
    (
        "two elements of many words",
        40_000,
        match_of(
            rules_of(20, ".x{}"),
            lambda n: "0\tr\n" + 2 * ("1\ta\tclass=" + " ".join(f"w{i}" for i in range(n)) + "\n"),
        ),
    ),
    (
        "rules of one key",
        2_000,
        match_of(rules_of(None, "p{} .a"), lambda n: "0\tb\tclass=a\n" * 100),
    ),
    (
        "rules of one key that match",
        2_000,
        match_of(rules_of(None, ".a[t=x{}], .a"), lambda n: "0\tb\tclass=a\tt=y\n" * 100),
    ),
    (
        "leaves under 50 ancestors of 4 classes",
        2_000,
        match_of(rules_of(200, ".q{} .leaf"), leaves(50)),
    ),
    ("leaves under 500 ancestors", 300, match_of(rules_of(200, ".q{} .leaf"), leaves(500))),
    (
        "elements of 8 utility classes",
        8_000,
        match_of(rules_of(400, ".u{0}, .v .u{0}, .u{0}:hover"), utilities),
    ),
    (
        "values of 1,000 bytes before four others",
        2_000,
        match_of(
            lambda n: "a { b:c }",
            lambda n: "0\ts\n"
            + ("1\tp\td=" + "M0 0L9 9z " * 100 + "\tfill=a\tx=1\ty=2\tz=3\n") * n,
        ),
    ),
    (
        "selectors times declarations",
        300,
        sheet_of(lambda n: ",".join(["a"] * n) + "{" + "b:c;" * n + "}"),
    ),
]

MODERN: List[Input] = [
    ("unclosed functions", 100_000, list_of(lambda n: ":not(" * n)),
    ("functions in functions, too deep", 100_000, list_of(lambda n: ":not(" * n + "a" + ")" * n)),
    ("compounds, descendants", 20_000, list_of(lambda n: " ".join(["a"] * n))),
    ("compounds, siblings", 20_000, list_of(lambda n: "~".join(["a"] * n))),
    ("classes of a compound", 40_000, list_of(lambda n: ".a" * n)),
    ("a list in a function", 20_000, list_of(lambda n: ":is(" + ",".join(["b"] * n) + ")")),
    ("a list that leaves out parts", 20_000, list_of(lambda n: ":is(" + "5 a," * n + "b)")),
    (
        "lists that leave out a part, 32 deep",
        20_000,
        list_of(lambda n: ":is(" * 32 + "a," * n + "5 )" + " 5)" * 31),
    ),
    ("functions of a compound", 10_000, list_of(lambda n: ":is(a)" * n)),
    ("digits of An+B", 100_000, list_of(lambda n: f":nth-child({'9' * n}n+{'9' * n})")),
    (
        "blanks within An+B",
        100_000,
        list_of(lambda n: f":nth-child({' ' * n}2n{' ' * n}+{' ' * n}1)"),
    ),
    ("a string", 100_000, list_of(lambda n: f'[a="{"x" * n}"]')),
    ("a string that is not closed", 100_000, list_of(lambda n: f'[a="{"x" * n}')),
    ("escapes of a name", 40_000, list_of(lambda n: "\\41 " * n)),
    ("escapes of a string", 40_000, list_of(lambda n: '[a="' + "\\41 " * n + '"]')),
    ("comments of a selector", 40_000, list_of(lambda n: "/**/" * n + "a" + "/**/" * n)),
    ("selectors of a list", 20_000, list_of(lambda n: ",".join(["a"] * n))),
    ("selectors, and none after a comma", 20_000, list_of(lambda n: "a," * n)),
    ("languages", 20_000, list_of(lambda n: ":lang(" + ",".join(["a"] * n) + ")")),
    (
        "a text in a value",
        100_000,
        list_of(lambda n: f'[title*="{"a" * (n // 2)}b"]', value_of(lambda n: "a" * n)),
    ),
    (
        "a text in a value, without case",
        100_000,
        list_of(lambda n: f'[title*="{"aB" * (n // 4)}c" i]', value_of(lambda n: "Ab" * (n // 2))),
    ),
    (
        "a word of a value",
        100_000,
        list_of(lambda n: "[title~=b], .b", value_of(lambda n: "a " * n)),
    ),
    ("50 compounds on a chain", 2_000, list_of(lambda n: "a " * 50 + "b", path)),
    ("a step on a chain", 10_000, list_of(lambda n: "x > a", path)),
    ("compounds, ~, on siblings", 10_000, list_of(lambda n: "~".join(["a"] * n) + "~b", line_of())),
    ("compounds, +, on siblings", 10_000, list_of(lambda n: "+".join(["a"] * n) + "+b", line_of())),
    (
        "numbers of siblings",
        20_000,
        list_of(lambda n: ":nth-child(2n), :nth-last-of-type(3n)", line_of()),
    ),
    (
        "siblings of names of their own",
        20_000,
        list_of(
            lambda n: ":nth-last-of-type(2)",
            lambda n: [element(name="r"), *(element(1, f"a{i}") for i in range(n))],
        ),
    ),
    (
        "classes times words, a product",
        500,
        list_of(lambda n: "".join(f".w{i}" for i in range(n)), value_of(words)),
    ),
    ("descendants on a chain, a product", 1_000, list_of(lambda n: "x a", path)),
    ("siblings, a product", 1_000, list_of(lambda n: "x ~ a", line_of())),
    (
        "a word n times, n selectors of it",
        4_000,
        index_of(lambda n: "\0".join([".a"] * n), value_of(lambda n: "a " * n)),
    ),
    (
        "n children of n words",
        2_000,
        index_of(
            lambda n: ".x > b\0b",
            lambda n: [*value_of(words)(n), *(element(1, "b") for _ in range(n))],
        ),
    ),
    (
        "+ and then ~, a product",
        1_000,
        list_of(lambda n: "x+" + "+".join(["a"] * (n // 2)) + "~b", line_of()),
    ),
]


# What a process of Python runs: a call on an input of size n, whose text is made before.
CALL = """
import contextlib, io, resource, sys, time
import simplecss
from simplecss import __main__ as command, _lint
n = int(sys.argv[1])
text = eval(sys.argv[2])
start = time.process_time()
with contextlib.redirect_stdout(io.StringIO()):
    try:
        eval(sys.argv[3])
    except ValueError:
        pass
spent = 1000 * (time.process_time() - start)
print(spent, resource.getrusage(resource.RUSAGE_SELF).ru_maxrss // 1024)
"""
PAGE = os.path.join(folder, "page.html")
# What finds what wins of a sheet on elements, and what writes it.
STYLES = "simplecss.StyleSheet(text).styles(simplecss.Tree.from_html('<ul><li><b>' * 9))"
INLINE = "simplecss.inline('<ul><li><b class=x>' * 9, text)"
# A text of size n, and the call.
PYTHON: Sequence[Tuple[str, int, str, str]] = [
    ("rules in rules, styles", 5_000, "n * 'b{c:d;'", STYLES),
    ("rules in rules, inline", 5_000, "n * 'b{c:d;'", INLINE),
    ("lists with combinators in rules", 1_000, "n * 'ul b,li b{&>c,&+d{e:f}'", STYLES),
    ("rules of a rule", 2_000, "'b{' + n * '&>c,&+d{e:f}' + '}'", STYLES),
    ("layers, styles", 256, "''.join(f'@layer l{i}{{b{{c:d}}}}' for i in range(n))", STYLES),
    (
        "layers of which something stays, inline",
        256,
        "''.join(f'@layer l{i}{{b{{c:d}}b:hover{{c:e}}}}' for i in range(n))",
        INLINE,
    ),
    ("a layer many times, inline", 1_000, "n * '@layer x{b{c:d}b:hover{c:e}}'", INLINE),
    ("layers in layers, styles", 200, "(16 * '@layer a{b{c:d}' + 16 * '}') * n", STYLES),
    (
        "group rules that hold",
        1_250,
        "''.join(f'@media (width>{i}px){{b{{c:d}}}}' for i in range(n))",
        STYLES,
    ),
    ("rules that stay of one name, inline", 1_000, "n * '.x{c:d}.x:hover{c:e}'", INLINE),
    (
        "a selector with comments, inline",
        2_000,
        "'a:hover:has(' + n * '/**/' + '(((a)))){x:y}'",
        "simplecss.inline('<p>', text)",
    ),
    (
        "blanks in a url, inline",
        20_000,
        "'a{b:url(' + n * ' '",
        "simplecss.inline('<p>', text, base_url='http://x/')",
    ),
    (
        "digits of a value, inline",
        20_000,
        "'p{a:' + n * '1' + 'x}'",
        "simplecss.inline('<p>', text)",
    ),
    (
        "entities with elements",
        20_000,
        "'<!DOCTYPE r [<!ENTITY e \"' + 50 * '<b/>' + '\">]><r>' + n * '&e;' + '</r>'",
        "simplecss.Tree.from_xml(text)",
    ),
    (
        "entities of text",
        2_000,
        "'<!DOCTYPE r [<!ENTITY e \"' + n * 'x' + '\">]><r>' + n * '&e;' + '</r>'",
        "simplecss.Tree.from_xml(text)",
    ),
    (
        "attributes that a doctype adds",
        2_000,
        "'<!DOCTYPE r [<!ATTLIST a x CDATA \"' + n * 'x' + '\">]><r>' + n * '<a/>' + '</r>'",
        "simplecss.Tree.from_xml(text)",
    ),
    (
        "names in a namespace",
        5_000,
        "'<r xmlns:a=\"' + n * 'x' + '\">' + ''.join(f'<a:b{i}/>' for i in range(n)) + '</r>'",
        "simplecss.Tree.from_xml(text)",
    ),
    (
        "attributes with open values, lint",
        400,
        "n * '<p style=\"a:((((\">'",
        "_lint.findings('a.html', text)",
    ),
    ("style attributes, lint", 5_000, "n * '<a style=a:b>'", "_lint.findings('a.html', text)"),
    (
        "elements within others, select --json",
        2_000,
        f"open({PAGE!r}, 'w').write(n * '<div>')",
        f"command.main(['select', '--json', '*', {PAGE!r}])",
    ),
    (
        "elements within others, select --html",
        2_000,
        f"open({PAGE!r}, 'w').write(n * '<div>')",
        f"command.main(['select', '--html', '*', {PAGE!r}])",
    ),
    (
        "rules that match every element, match",
        2_500,
        "n * '*{a:b}'",
        "simplecss.StyleSheet(text).match(simplecss.Tree.from_html(n * '<b></b>'))",
    ),
    (
        "declarations of every element, styles",
        2_500,
        "'*{' + ''.join(f'a{i}:b;' for i in range(n)) + '}'",
        "simplecss.StyleSheet(text).styles(simplecss.Tree.from_html(n * '<b></b>'))",
    ),
    (
        "declarations of every element, inline",
        2_500,
        "'*{' + ''.join(f'a{i}:b;' for i in range(n)) + '}'",
        "simplecss.inline(n * '<b></b>', text)",
    ),
    (
        "a rule that stays and n others, inline",
        1_000,
        (
            "'b:hover{' + ''.join(f'a{i}:b;' for i in range(n)) + '}' + ''.join(f'.c{i}{{x:y}}' for"
            " i in range(n))"
        ),
        "simplecss.inline(''.join(f'<b class=c{i}></b>' for i in range(n)), text)",
    ),
    (
        "declarations that children inherit",
        2_000,
        "'<b style=\"' + ''.join(f'a{i}:b;' for i in range(n)) + '\">' + n * '<i></i>'",
        (
            "simplecss.StyleSheet().styles(simplecss.Tree.from_html(text), specified=True,"
            " inherit=True)"
        ),
    ),
    (
        "group rules of 63 levels",
        5_000,
        "63 * '@media{' + n * '{}'",
        "simplecss.StyleSheet(text).rules",
    ),
    (
        "formatting elements, none alike",
        2_000,
        "''.join(f'<b a b c d e f=x{i}>' for i in range(n))",
        "simplecss.Tree.from_html(text)",
    ),
    (
        "formatting elements with 31 attributes",
        2_000,
        "n * ('<b ' + ' '.join(f'a{i}' for i in range(31)) + '>')",
        "simplecss.Tree.from_html(text)",
    ),
    (
        "the same with one of 40 ids",
        2_000,
        "''.join('<b ' + ' '.join(f'a{i}' for i in range(31)) + f' id={i % 40}>' for i in range(n))",
        "simplecss.Tree.from_html(text)",
    ),
    (
        "the same, each four times, a product",
        2_000,
        (
            "''.join('<b ' + ' '.join(f'a{i}' for i in range(31)) + f' id={i % (n // 4)}>' for i in"
            " range(n))"
        ),
        "simplecss.Tree.from_html(text)",
    ),
    (
        "siblings, ~, a product",
        2_000,
        "n * '<p>'",
        "simplecss.Tree.from_html(text).select('x ~ p')",
    ),
]


def chain_of(n: int) -> str:
    """A chain of n elements, the first of which has a language."""
    return "0\ta\tlang=en\n" + "".join(f"{depth}\ta\n" for depth in range(1, n))


def keyed(n: int) -> str:
    """An element of n attributes."""
    return "0\ta" + "".join(f"\tk{i}=v" for i in range(n)) + "\n"


def numbered(selector: str) -> Callable[[int], List[str]]:
    """n selectors, each with its number."""
    return lambda n: [selector.format(i) for i in range(n)]


# What is hostile to a search, a size, the selectors at a size, and the page.
SEARCHES: List[Tuple[str, int, Callable[[int], List[str]], Text]] = [
    (
        "200 rules on leaves under 50 ancestors",
        5_000,
        lambda n: numbered(".q{} .leaf")(200),
        leaves(50),
    ),
    ("a chain of elements", 5_000, lambda n: numbered(".x{0} .c{0}")(97), lambda n: deep(n)),
    (
        "children of a parent of 1,000 words",
        10_000,
        lambda n: numbered(".x{} > *")(20),
        children(1_000),
    ),
    ("a parent of n words and n children", 2_000, lambda n: [".x > *"], lambda n: children(n)(n)),
    (
        "a repeated word and n rules",
        2_000,
        lambda n: n * [".a"],
        lambda n: f"0\ta\tclass={n * 'a '}\n",
    ),
    ("n rules [k=v], an element of n attributes", 1_000, numbered("[k{}='v']"), keyed),
    ("n ids that no element has", 20_000, numbered("#i{}"), lambda n: "0\ta\tid=x\n"),
    (":lang(x) on a chain", 2_000, lambda n: [":lang(x)"], chain_of),
]


def show_searches(library: Library) -> None:
    """Prints the lines of the calls of the C library, by both grammars."""
    print(
        f"{'call of the C library':46} {'size':>9} {'ms':>9} {'four times':>10} {'ms':>9} {'ratio':>6}"
    )
    for name, size, selectors, page in SEARCHES:
        for grammar, is_modern in (("CSS 2.1", False), ("modern", True)):
            small, large = (
                library.match(selectors(n), page(n), is_modern) for n in (size, 4 * size)
            )
            print(
                f"{name + ', ' + grammar:56} {size:9} {small:9.1f} {4 * size:10} {large:9.1f}"
                f" {large / max(small, 0.1):6.1f}",
                flush=True,
            )


def call(size: int, text: str, expression: str, runs: int = 3) -> Tuple[float, int]:
    """The least processor time of some processes that make a call, in milliseconds, and their most
    memory."""
    words = [sys.executable, "-c", CALL, str(size), text, expression]
    top = os.path.dirname(os.path.dirname(os.path.abspath(__file__)))
    environment = {**os.environ, "PYTHONPATH": os.path.join(top, "python", "src")}
    found = []
    for _ in range(runs):
        done = subprocess.run(words, capture_output=True, text=True, check=True, env=environment)
        found.append(done.stdout.split())
    return min(float(time) for time, _ in found), max(int(memory) for _, memory in found)


def show_calls() -> None:
    """Prints the lines of the calls of the Python package."""
    print(
        f"{'call of Python':40} {'size':>9} {'ms':>9} {'four times':>10} {'ms':>9} {'ratio':>6}"
        f" {'MB':>6}"
    )
    for name, size, text, expression in PYTHON:
        small, _ = call(size, text, expression)
        large, memory = call(4 * size, text, expression)
        ratio = large / max(small, 0.1)
        print(
            f"{name:40} {size:9} {small:9.1f} {4 * size:10} {large:9.1f} {ratio:6.1f} {memory:6}",
            flush=True,
        )


def show(
    name: str, size: int, words_of: Callable[[int], Words], binary: str, matcher: Optional[str]
) -> None:
    """Prints the line of an input."""
    small = milliseconds(binary, *words_of(size))
    large = milliseconds(binary, *words_of(10 * size), runs=3)
    beside = ""
    if matcher and words_of(10 * size)[0][:1] == ["match"]:
        beside = f" {milliseconds(matcher, *words_of(10 * size), runs=3):9.1f}"
    ratio = large / max(small, 0.1)
    print(
        f"{name:40} {size:9} {small:9.1f} {10 * size:10} {large:9.1f} {ratio:6.1f}{beside}",
        flush=True,
    )


def main() -> None:
    parser = argparse.ArgumentParser()
    parser.add_argument("program", type=absolute, nargs="?")
    parser.add_argument("matcher", type=absolute, nargs="?")
    parser.add_argument("--modern", type=absolute)
    parser.add_argument("--library", type=absolute)
    parser.add_argument("--python", action="store_true")
    given = parser.parse_args()
    print(f"{'input':40} {'size':>9} {'ms':>9} {'ten times':>10} {'ms':>9} {'ratio':>6}")
    for name, size, words_of in INPUTS if given.program else []:
        show(name, size, words_of, given.program, given.matcher)
    for name, size, words_of in MODERN if given.modern else []:
        show(name, size, words_of, given.modern, None)
    if given.library:
        show_searches(Library(given.library))
    if given.python:
        show_calls()


if __name__ == "__main__":
    main()
