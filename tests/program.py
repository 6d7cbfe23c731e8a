"""The built program `cssq`: its answers to words, files and mistakes, each request for memory
refused, and its three streams closed, full, or a pipe that nobody reads.

Each run is ended after 20 seconds of processor time. Where the tests are run as root, the program
is run as nobody, since root may read every file.
"""
from __future__ import annotations

import os
import resource
import shutil
import subprocess
import tempfile
import time
import unicodedata
from typing import Any, Dict, List, Mapping, Optional, Sequence, Tuple

from tests.common import Case, Refused, program, refusable, run_refused, version

USAGE = "usage: cssq [selector TEXT | sheet FILE... | match FILE TREE | style FILE TREE NAME]"
REFUSED = "cssq: selector refused"
CANNOT_WRITE = "cssq: cannot write"
CANNOT_READ_INPUT = "cssq: cannot read standard input"
NOBODY = 65534
# The most seconds of processor time of a run. The longest takes about one.
SECONDS = 20
STREAMS = {"stdin": 0, "stdout": 1, "stderr": 2}
MANY = 100_000

# The files of each test's folder.
sheet, other, tree, broken, empty = "a.css", "b.css", "a.tree", "broken.tree", "empty"
FILES = {
    sheet: b"a > b { c:d } b { e:f } @x; g < { h:i }",
    other: b"#x { c:d !important }",
    tree: b"0\ta\n1\tb\n1\tc\tk=v\tl=w\n2\tb\n",
    broken: b"0\ta\n2\tb\n",
    empty: b"",
    "page.css": b"p { a:b }",
    "page.tree": b"0\tdiv\n",
    "latin.css": b"p { content: '\xe9' }",
    "utf16.css": "p { a:b }".encode("utf-16"),
    "cut.css": "p { content: '\u20ac".encode()[:-1],
    "locked.css": b"p { a:b }",
}

# words, standard input, status, output, the line that says why
ANSWERS: Sequence[Tuple[List[Any], bytes, int, str, str]] = [
    (["selector", "a > .b"], b"", 0, "a > *[class~='b']\t0,1,1\n", ""),
    (["selector", "a, b"], b"", 0, "a\t0,0,1\n", ""),
    (["selector", ""], b"", 1, "", REFUSED),
    (["selector", "a <"], b"", 1, "", REFUSED),
    ([], b"a > .b\n", 0, "a > *[class~='b']\t0,1,1\n", ""),
    ([], b"", 1, "", REFUSED),
    ([], b"a\xff", 4, "", CANNOT_READ_INPUT),
    (["sheet", sheet], b"", 0, "b { e:f; }\na > b { c:d; }\n", ""),
    (
        ["sheet", sheet, other],
        b"",
        0,
        "b { e:f; }\na > b { c:d; }\n*[id='x'] { c:d !important; }\n",
        "",
    ),
    (["sheet", empty], b"", 0, "", ""),
    (["match", sheet, tree], b"", 0, "1:\n2: 1 2\n3:\n4: 1\n", ""),
    (["match", sheet, empty], b"", 0, "", ""),
    (["match", sheet, broken], b"", 1, "", "cssq: tree fault 1 at line 2"),
    (["style", sheet, tree, "e"], b"", 0, "1:\n2: f\n3:\n4: f\n", ""),
    (["style", sheet, broken, "e"], b"", 1, "", "cssq: tree fault 1 at line 2"),
    (["style", sheet, tree], b"", 2, "", USAGE),
    (["sheet"], b"", 2, "", USAGE),
    (["selector"], b"", 2, "", USAGE),
    (["selector", "a", "b"], b"", 2, "", USAGE),
    (["match", sheet], b"", 2, "", USAGE),
    (["other"], b"", 2, "", USAGE),
    (["--version"], b"", 0, f"cssq {version()}\n", ""),
    (["--version", "a"], b"", 2, "", USAGE),
    (["--help", "selector"], b"", 2, "", USAGE),
    (["selector", "--help"], b"", 1, "", REFUSED),
    (["selector", b"\xff"], b"", 2, "", USAGE),
]

# The text of a selector, what is printed, and the warning. Nothing is printed if the selector is
# refused.
SELECTORS = [
    # No selector.
    ("", "", ":1:1: '': selector missing"),
    (" ", "", ":1:2: '': selector missing"),
    ("/**/", "", ":1:5: '': selector missing"),
    (", a", "", ":1:1: '': selector missing"),
    # A character that begins no part of a selector: later CSS, other languages, a name with another
    # first character.
    ("a < b", "", ":1:3: 'a < b': invalid ident"),
    ("a<b", "", ":1:2: 'a<b': invalid ident"),
    ("a ~ b", "", ":1:3: 'a ~ b': invalid ident"),
    ("ns|a", "", ":1:3: 'ns|a': invalid ident"),
    ("*|a", "", ":1:2: '*|a': invalid ident"),
    ("\\26 a", "", ":1:1: '\\26 a': invalid ident"),
    ('"a"', "", ":1:1: '\"a\"': invalid ident"),
    ("@media", "", ":1:1: '@media': invalid ident"),
    ("a;", "", ":1:2: 'a;': invalid ident"),
    ("//div", "", ":1:1: '//div': selector missing"),
    ("1a", "", ":1:1: '1a': invalid ident"),
    (".1a", "", ":1:2: '.1a': invalid ident"),
    ("#", "", ":1:2: '#': invalid ident"),
    ("a.", "", ":1:3: 'a.': invalid ident"),
    ("a..b", "", ":1:3: 'a..b': invalid ident"),
    ("a::before", "", ":1:3: 'a::before': invalid ident"),
    ("a: hover", "", ":1:3: 'a: hover': invalid ident"),
    ("a\n\n  < b", "", ":3:3: 'a': invalid ident"),
    # Combinators.
    ("> a", "", ":1:1: '> a': unexpected combinator"),
    ("a >", "", ":1:1: 'a >': selector missing"),
    ("a > > b", "", ":1:1: 'a > > b': unexpected combinator"),
    ("a/**/b", "", ":1:1: 'a/**/b': unexpected selector"),
    # Attributes.
    ("a[b", "", ":1:1: 'a[b': unexpected end of stream"),
    ("a[ b]", "", ":1:3: 'a[ b]': invalid ident"),
    ("a[b ]", "", ":1:1: 'a[b ]': invalid attribute selector"),
    ("a[b^=c]", "", ":1:1: 'a[b^=c]': invalid attribute selector"),
    ("a[b=]", "", ":1:5: 'a[b=]': invalid ident"),
    ("a[b=1]", "", ":1:5: 'a[b=1]': invalid ident"),
    ("a[b='c]", "", ":1:1: 'a[b='c]': unexpected end of stream"),
    ("a[b=c i]", "", ":1:6: 'a[b=c i]': invalid byte"),
    ("a[b~c]", "", ":1:5: 'a[b~c]': invalid byte"),
    # Pseudo-classes.
    ("a:foo", "", ":1:2: 'a:foo': unknown pseudo-class ':foo'"),
    ("a:foo <", "", ":1:2: 'a:foo <': unknown pseudo-class ':foo'"),
    ("a:foo >", "", ":1:2: 'a:foo >': unknown pseudo-class ':foo'"),
    ("b >\n  \u00e9:x:first-child", "", ":2:4: 'b >': unknown pseudo-class ':x'"),
    ("a:HOVER", "", ":1:2: 'a:HOVER': unknown pseudo-class ':HOVER'"),
    ("a:before", "", ":1:2: 'a:before': unknown pseudo-class ':before'"),
    ("a:nth-child(2)", "", ":1:2: 'a:nth-child(2)': unknown pseudo-class ':nth-child'"),
    ("a:lang", "", ":1:1: 'a:lang': unexpected end of stream"),
    ("a:lang()", "", ":1:1: 'a:lang()': invalid language pseudo-class"),
    # Comments.
    ("a /* b", "", ":1:3: 'a /* b': invalid comment"),
    ("a / b", "", ":1:3: 'a / b': invalid comment"),
    # What follows a selector.
    ("a, b", "a\t0,0,1", ": ', b' was not read"),
    ("a,", "a\t0,0,1", ": ',' was not read"),
    ("a { b:c }", "a\t0,0,1", ": '{ b:c }' was not read"),
    ("a/b", "a\t0,0,1", ": '/b' was not read"),
    ("a,\nb", "a\t0,0,1", ": ',' was not read"),
    # A byte order mark.
    ("\ufeffa", "\ufeffa\t0,0,1", ":1:1: a byte order mark is part of the first name"),
]
# A style sheet, what of it is printed, and the warnings.
SHEETS: Sequence[Tuple[str, str, List[str]]] = [
    # Declarations. What is broken takes the rest of its block with it.
    ("a { b:c; color red; d:e }", "a { b:c; }\n", [":1:10: 'color red': broken declaration"]),
    ("a { b:c d:e }", "a { b:c d; }\n", [":1:10: ':e': broken declaration"]),
    ("a { b:c !IMPORTANT; d:e }", "a { b:c; }\n", [":1:10: 'IMPORTANT': broken declaration"]),
    (
        "a { b:calc(1px + (2px)); c:d }",
        "a { b:calc(1px + (2px); }\n",
        [
            ":1:7: 'calc(1px + (2px)': a parenthesis of the value is left open",
            ":1:23: ')': broken declaration",
        ],
    ),
    (
        "a { b:-webkit-calc(1px); c:d }",
        "a { b:-webkit-calc; }\n",
        [":1:19: '(1px)': broken declaration"],
    ),
    (
        "a { b:linear-gradient(to right, rgb(1,2,3), red; c:d }",
        "a { b:linear-gradient(to right, rgb(1,2,3), red;c:d; }\n",
        [
            ":1:7: 'linear-gradient(to right, rgb(1,2,3), red': a parenthesis of the value is left"
            " open"
        ],
    ),
    (
        'a { b:url("c)d"); e:f }',
        'a { b:url("c)d; }\n',
        [
            ":1:7: 'url(\"c)d': a parenthesis of the value is left open",
            ":1:15: '\"); e:f }': string or function not closed",
        ],
    ),
    ("a { b:rgb(1, 2; c:d } e { f:g }", "", [":1:5: 'b:rgb(1, 2': broken declaration"]),
    ("a { b:; c:d }", "", [":1:5: 'b:': broken declaration"]),
    ("a { :b }", "", [":1:5: ':b': broken declaration"]),
    ("a { --b:c }", "", [":1:5: '--b:c': broken declaration"]),
    ("a { $b:c }", "", [":1:5: '$b:c': broken declaration"]),
    ("a { b:c; // d:e\n f:g }", "a { b:c; }\n", [":1:10: '// d:e': broken declaration"]),
    ("a { b:c\\9; d:e }", "a { b:c; }\n", [":1:8: '\\9': broken declaration"]),
    ("a { b { c:d } }", "", [":1:5: 'b { c:d': broken declaration"]),
    # Selectors.
    ("a < b { c:d }", "", [":1:1: 'a < b': invalid ident"]),
    ("a,\nb <\nc { d:e }", "a { d:e; }\n", [":2:1: 'b <': invalid ident"]),
    ("a, , b { c:d }", "a { c:d; }\nb { c:d; }\n", [":1:4: '': selector missing"]),
    (", a { b:c }", "a { b:c; }\n", [":1:1: ',': comma before a selector"]),
    ("a::before, b { c:d }", "", [":1:1: 'a::before, b': invalid ident"]),
    ("a:root, b { c:d }", "b { c:d; }\n", [":1:1: 'a:root': unknown pseudo-class"]),
    ("{ a:b }", "", [":1:1: '': selector missing"]),
    ("a/b { c:d }", "a { c:d; }\n", [":1:2: '/b': unexpected text after a selector"]),
    ("a { b:c };\nd { e:f }", "a { b:c; }\n", [":1:10: ';': invalid ident"]),
    # Blocks, comments and at-rules.
    ("a { b:c }\nd", "a { b:c; }\n", [":2:2: '': block missing"]),
    ("a { b:c d", "a { b:c d; }\n", []),
    (
        "a { b }} c { d:e }",
        "c { d:e; }\n",
        [":1:5: 'b': broken declaration", ":1:8: '}': unexpected closing brace"],
    ),
    ("<!-- a { b:c } -->", "", [":1:1: '<!-- a': invalid ident", ":1:16: '-->': invalid ident"]),
    ("a { b:c } /* d { e:f }", "a { b:c; }\n", [":1:11: '/* d { e:f }': comment not closed"]),
    (
        "a { b:c 'd } e { f:g }",
        "a { b:c; }\n",
        [":1:9: ''d } e { f:g }': string or function not closed"],
    ),
    (
        "a { b:1px var(c; d:e }",
        "a { b:1px; }\n",
        [":1:11: 'var(c; d:e }': string or function not closed"],
    ),
    ("a { b:c; /* d } e { f:g }", "", [":1:5: 'b:c': broken declaration"]),
    (
        "@import 'b.css';\na { c:d }",
        "a { c:d; }\n",
        [":1:1: '@import 'b.css'': at-rule not supported"],
    ),
    (
        "@media print { a { b:c } }\nd { e:f }",
        "d { e:f; }\n",
        [":1:1: '@media print': at-rule not supported"],
    ),
    # Bytes.
    (
        "\ufeffa { b:c }",
        "\ufeffa { b:c; }\n",
        [":1:1: a byte order mark is part of the first name"],
    ),
    (
        "a < b { c:d }\r\ne { f }\r\n",
        "",
        [":1:1: 'a < b': invalid ident", ":2:5: 'f': broken declaration"],
    ),
]
# A tree, the number of its fault and of the line, and the warning. Without a fault its elements
# have no rule.
TREES = [
    # The depth.
    ("div\n", 1, 1, ":1: the depth 'div' is no number (a TAB belongs after it)"),
    ("0 div\n", 1, 1, ":1: the depth '0 div' is no number (a TAB belongs after it)"),
    ("\tdiv\n", 1, 1, ":1: the depth '' is no number (a TAB belongs after it)"),
    ("-1\tdiv\n", 1, 1, ":1: the depth '-1' is no number (a TAB belongs after it)"),
    ("00\tdiv\n", 1, 1, ":1: the depth '00' begins with a zero"),
    ("1\tdiv\n", 1, 1, ":1: the depth '1' is not 0, as that of the first line is"),
    ("0\tdiv\n2\tp\n", 1, 2, ":2: the depth '2' is more than one deeper than '0'"),
    (
        "0\tdiv\n99999999999999999999\tp\n",
        1,
        2,
        ":2: the depth '99999999999999999999' is more than one deeper than '0'",
    ),
    ("0\tdiv\n\n0\tdiv\n", 1, 2, ":2: the line is empty"),
    ("0\tdiv\n\n", 1, 2, ":2: the line is empty"),
    ("\ufeff0\tdiv\n", 1, 1, ":1: a byte order mark is before the depth"),
    # The name.
    ("0\n", 2, 1, ":1: no name follows the depth '0' (a TAB belongs between them)"),
    ("0\tdiv\n1\t\n", 2, 2, ":2: the name is empty"),
    ("0\tdiv\n1\t\tclass=note\n", 2, 2, ":2: the name is empty"),
    # Attributes.
    ("0\tp\tchecked\n", 3, 1, ":1: the attribute 'checked' has no '='"),
    ("0\tp\tclass=a\tb c\n", 3, 1, ":1: the attribute 'b c' has no '='"),
    ("0\tp\t\tclass=a\n", 3, 1, ":1: an attribute is empty (two TABs, or one at the end)"),
    ("0\tp\tclass=a\t\n", 3, 1, ":1: an attribute is empty (two TABs, or one at the end)"),
    ("0\tp\tclass=a\tid=b\tclass=c\n", 4, 1, ":1: the key 'class' comes a second time"),
    ("0\tp\t=a\t=b\n", 4, 1, ":1: the key '' comes a second time"),
    # A field that ends in a carriage return.
    ("0\tdiv\r\n1\tp\r\n", 0, 2, ": lines end in CR LF; the CR belongs to the last field"),
]
# A page, the tree that it has, and the warnings.
PAGES: Sequence[Tuple[bytes, str, List[str]]] = [
    (
        b"<!doctype html><DIV ID=x><p>a<p class='b c'>d<br><img alt>e</div>",
        "0\tdiv\tid=x\n1\tp\n1\tp\tclass=b c\n2\tbr\n2\timg\talt=\n",
        [],
    ),
    (b"<ul>\n <li>a<li>b</ul><p a=1 A=2>", "0\tul\n1\tli\n1\tli\n0\tp\ta=1\n", []),
    (
        b"<a>\n<b title='c\td\r\n e' f=g>",
        "0\ta\n1\tb\ttitle=c d  e\tf=g\n",
        [":2:1: 'b': a TAB or newline in 'title' is written as a space"],
    ),
    (b"\xef\xbb\xbf<a>", "0\ta\n", []),
    (b"", "", []),
    (b"text <head", "", []),
    (b"<x-html>", "0\tx-html\n", []),
    # A whole page, with what it leaves out.
    (b"<!-- <HEAD> --><p>", "0\thtml\n1\thead\n1\tbody\n2\tp\n", []),
    (
        b"<html a=1><p><html a=2 b='\t'><body c=3><body c=4 d>",
        "0\thtml\ta=1\tb= \n1\thead\n1\tbody\tc=3\td=\n2\tp\n",
        [":1:1: 'html': a TAB or newline in 'b' is written as a space"],
    ),
    (
        b"<p><body b='&#9;'>",
        "0\thtml\n1\thead\n1\tbody\tb= \n2\tp\n",
        [": 'body': a TAB or newline in 'b' is written as a space"],
    ),
    # References, elements that are moved, reopened or left out, and names with capitals.
    (b"<i a='&lt;&amp;x&copy=&quot;'>", '0\ti\ta=<&x&copy="\n', []),
    (b"<table><tr><td><b><tr><i>", "0\ti\n0\ttable\n1\ttbody\n2\ttr\n3\ttd\n4\tb\n2\ttr\n", []),
    (b"<b c=d>e<p>f</b>g", "0\tb\tc=d\n0\tp\n1\tb\tc=d\n", []),
    (b"<template><p></template><q>", "0\ttemplate\n0\tq\n", []),
    (b"<SVG VIEWBOX=1><CLIPPATH><A>", "0\tsvg\tviewBox=1\n1\tclipPath\n2\ta\n", []),
    (b"<math DEFINITIONURL=1><Mi>", "0\tmath\tdefinitionURL=1\n1\tmi\n", []),
    (b"<noscript><u></noscript>", "0\tnoscript\n1\tu\n", []),
    ("<é É='ü'>".encode(), "", []),
    ("<xÉ É='ü'>".encode(), "0\txÉ\tÉ=ü\n", []),
]
# Words that the program does not know.
UNKNOWN = [
    ["select", "a"],
    ["--help", "a"],
    ["--versions"],
    ["selector"],
    ["selector", "a", "b"],
    ["sheet"],
    ["match", "page.css"],
    ["match"],
    ["match", "page.css", "page.tree", "a"],
    ["style", "page.css", "page.tree"],
    ["style", "page.css", "page.tree", "a", "b"],
    ["Sheet", "page.css"],
    [""],
]
# A file, and why it cannot be read.
UNREADABLE = [
    ("missing.css", "missing.css: no such file"),
    ("missing/page.css", "missing/page.css: no such file"),
    ("", ": no such file"),
    ("folder", "folder: a folder"),
    ("page.css/page.css", "page.css/page.css: not a directory"),
    ("locked.css", "locked.css: permission denied"),
    ("latin.css", "latin.css: not UTF-8 at byte offset 14"),
    ("utf16.css", "utf16.css: not UTF-8 at byte offset 0"),
    ("cut.css", "cut.css: not UTF-8 at byte offset 14"),
]
# Files of a test, words, the status, what is printed, and the lines on standard error.
SEVERAL: Sequence[Tuple[Dict[str, bytes], List[str], int, str, List[str]]] = [
    (
        {"first.css": b"a { b:c(d(e) } f < g { }", "second.css": b"@h; i { j:k(l(m)); n:o(p(q) }"},
        ["sheet", "first.css", "second.css"],
        0,
        "a { b:c(d(e); }\ni { j:k(l(m); }\n",
        [
            "first.css:1:7: 'c(d(e)': a parenthesis of the value is left open",
            "first.css:1:16: 'f < g': invalid ident",
            "second.css:1:1: '@h': at-rule not supported",
            "second.css:1:11: 'k(l(m)': a parenthesis of the value is left open",
            "second.css:1:17: ')': broken declaration",
        ],
    ),
    (
        {"second.css": b"@h; i { j:k(l(m)); n:o(p(q) }", "crlf.tree": b"0\tdiv\r\n2\tp\r\n"},
        ["match", "second.css", "crlf.tree"],
        1,
        "",
        [
            "second.css:1:1: '@h': at-rule not supported",
            "second.css:1:11: 'k(l(m)': a parenthesis of the value is left open",
            "second.css:1:17: ')': broken declaration",
            "crlf.tree: lines end in CR LF; the CR belongs to the last field",
            "crlf.tree:2: the depth '2' is more than one deeper than '0'",
            "cssq: tree fault 1 at line 2",
        ],
    ),
    # Parentheses that are closed, or in a string or a comment.
    (
        {
            "closed.css": (
                b"a { b:url('c(d'); e:'f(' g; h:i /* ( */; j:k(l) m(n) } o[p='q(r'] {"
                b" s:t('u\\'(') }"
            )
        },
        ["sheet", "closed.css"],
        0,
        "a { b:url('c(d');e:'f(' g;h:i;j:k(l) m(n); }\no[p='q(r'] { s:t('u\\'('); }\n",
        [],
    ),
    # The same text is in a comment before the value.
    (
        {"open.css": b"a { /* c:f((1) */ b:f((1); }\nd { e/*:g((1)*/:g((1); }"},
        ["sheet", "open.css"],
        0,
        "a { b:f((1); }\nd { e:g((1); }\n",
        [
            "open.css:1:21: 'f((1)': a parenthesis of the value is left open",
            "open.css:2:17: 'g((1)': a parenthesis of the value is left open",
        ],
    ),
]
# The words of calls of which each request for memory is refused, and their standard input.
REFUSABLE: Sequence[Tuple[List[str], bytes]] = [
    (["selector", "a > .b"], b""),
    (["selector", "a <"], b""),
    ([], b"a > .b\n"),
    (["sheet", sheet], b""),
    (["sheet", sheet, other], b""),
    (["match", sheet, tree], b""),
    (["match", sheet, broken], b""),
    (["style", sheet, tree, "e"], b""),
]


def opened(kind: str) -> int:
    """A descriptor of this kind: `full`, or `unread`, a pipe that nobody reads. One that is to be
    `closed` is anything yet."""
    if kind == "full":
        return os.open("/dev/full", os.O_WRONLY)
    if kind == "unread":
        reader, writer = os.pipe()
        os.close(reader)
        return writer
    return os.open(os.devnull, os.O_RDWR)


def faults(err: bytes) -> Tuple[List[str], List[str]]:
    """The lines of standard error that say why the program ended, and the last line."""
    lines = err.decode(errors="replace").splitlines()
    return [line for line in lines if line.startswith(("cssq:", "usage:"))], lines[-1:]


def cut(out: Optional[bytes]) -> Optional[bytes]:
    """The beginning of a large output, to be shown."""
    return out if out is None or len(out) < 1000 else out[:1000] + b" .."


def quoted(value: str) -> str:
    """The value of an attribute selector, in quotes that it has not."""
    return f'"{value}"' if "'" in value else f"'{value}'"


def sheet_of(tree: str) -> str:
    """A sheet whose rules tell the elements of a tree from those of another: by their names and attributes, and each
    by what is above it and before it."""
    rows = [line.split("\t") for line in tree.splitlines()]
    parts = {
        f"[{key}={quoted(value)}]"
        for row in rows
        for key, _, value in (it.partition("=") for it in row[2:])
    }
    names = {row[1] for row in rows}
    selectors = [*names, *parts, ":first-child"]
    selectors += [f"{one}{by}{two}" for one in names for two in names for by in (" > ", " + ")]
    return "".join(
        f"{it} {{ a:b }}\n" for it in sorted(selectors) if '"' not in it or "'" not in it
    )


class Program(Case):
    """Runs a copy of the program, in a folder with `FILES`."""

    folder: str
    program: str
    # The limit of declarations that the environment sets.
    limit: Optional[str] = None

    def setUp(self) -> None:
        room = tempfile.TemporaryDirectory()
        self.addCleanup(room.cleanup)
        self.folder = room.name
        os.chmod(self.folder, 0o755)
        # The user nobody may run the copy, wherever the program itself is.
        self.program = shutil.copy(program("cssq_cli"), os.path.join(self.folder, "cssq"))
        os.chmod(self.program, 0o755)
        os.mkdir(os.path.join(self.folder, "folder"))
        for name, data in FILES.items():
            self.put(name, data)
        os.chmod(os.path.join(self.folder, "locked.css"), 0)

    def put(self, name: str, data: bytes) -> str:
        """A file of these bytes."""
        path = os.path.join(self.folder, name)
        with open(path, "wb") as file:
            file.write(data)
        os.chmod(path, 0o644)
        return name

    def start(
        self, words: Sequence[Any], kinds: Mapping[str, str], **streams: Any
    ) -> "subprocess.Popen[bytes]":
        """Starts the program as nobody, with streams of these kinds by their names, and the others
        as they are given."""
        given = {name: opened(kind) for name, kind in kinds.items()}
        usual = {"stdin": subprocess.DEVNULL, "stdout": subprocess.PIPE, "stderr": subprocess.PIPE}
        streams = {**usual, **streams, **given}
        environment = {**os.environ, **({"CSSQ_LIMIT": self.limit} if self.limit else {})}

        def prepare() -> None:
            resource.setrlimit(resource.RLIMIT_CPU, (SECONDS, SECONDS))
            if os.geteuid() == 0:
                os.setgroups([])
                os.setgid(NOBODY)
                os.setuid(NOBODY)
            for name, kind in kinds.items():
                if kind == "closed":
                    os.close(STREAMS[name])

        command = [self.program, *words]
        child = subprocess.Popen(
            command, cwd=self.folder, env=environment, preexec_fn=prepare, **streams
        )
        for descriptor in given.values():
            os.close(descriptor)
        return child

    def ends(
        self, words: Sequence[Any], stdin: bytes, kinds: Mapping[str, str]
    ) -> Tuple[int, Optional[bytes], Optional[bytes]]:
        """What the program ends with, and what it writes to those streams that are of no kind."""
        with open(os.path.join(self.folder, self.put("stdin", stdin)), "rb") as file:
            child = self.start(words, kinds, **({} if "stdin" in kinds else {"stdin": file}))
            out, err = child.communicate()
        return child.returncode, out, err

    def answers(
        self,
        words: Sequence[Any],
        stdin: bytes,
        kinds: Mapping[str, str],
        status: int,
        out: str,
        line: str,
    ) -> None:
        """The program answers so: its status, its output, and its one line after all warnings, `""`
        for none. What goes to a stream of some kind is not compared."""
        with self.subTest(words=[word[:80] for word in words], stdin=stdin[:80], kinds=kinds):
            got, printed, err = self.ends(words, stdin, kinds)
            holds = printed is None or printed == out.encode()
            self.assertEqual((got, holds), (status, True), f"{cut(printed)!r} {cut(err)!r}")
            if err is not None:
                reasons, last = faults(err)
                self.assertEqual(
                    (reasons, last if line else []), ([line], [line]) if line else ([], [])
                )

    def says(
        self, words: Sequence[str], stdin: bytes, status: int, out: str, lines: Sequence[str]
    ) -> None:
        """The program answers so: its status, its output, and all that is on standard error."""
        with self.subTest(words=words, stdin=stdin):
            got, printed, err = self.ends(words, stdin, {})
            wanted = (status, out, "".join(line + "\n" for line in lines))
            self.assertEqual((got, (printed or b"").decode(), (err or b"").decode()), wanted)


# What a terminal takes for commands.
CONTROL = "\x1b]0;x\x07\x9b31m\r\x7f\x08"


class Controls(Program):
    def test_control_characters(self) -> None:
        """No control character of a text or a name reaches a terminal through the lines of standard
        error, newlines and TABs apart."""
        text = f"a{CONTROL}b {{ c:d }}\n@{CONTROL};\np {{ {CONTROL}:q }}\nq {{ a:b({CONTROL} }}"
        rows = (
            ["selector", f"a{CONTROL}<"],
            ["sheet", self.put("control.css", text.encode())],
            ["match", sheet, self.put("depth.tree", f"0\ta\n{CONTROL}\tb\n".encode())],
            ["style", sheet, self.put("field.tree", f"0\ta\t{CONTROL}\n".encode()), "c"],
        )
        for words in rows:
            with self.subTest(words=words):
                err = (self.ends(words, b"", {})[2] or b"").decode()
                reached = {c for c in err if unicodedata.category(c) == "Cc"} - {"\n", "\t"}
                self.assertEqual(reached, set(), err)
                self.assertIn("\ufffd", err)


class Refusals(Program):
    """Each request for memory of a call is refused, one after another."""

    def run_with_shim(self, words: Sequence[str], stdin: bytes, refuse: int) -> Refused:
        self.put("stdin", stdin)
        with open(os.path.join(self.folder, "stdin"), "rb") as file:
            return run_refused([self.program, *words], refuse, stdin=file, cwd=self.folder)

    def is_answer(self, words: Sequence[str], got: Refused) -> bool:
        """Whether the program wrote nothing, and said why."""
        lines = got.err.decode().splitlines()
        last = lines[-1] if lines else ""
        names = [name for name in words[1:] if name in FILES] or ["standard input"]
        wanting = {
            3: last == "cssq: want of memory",
            4: last in [f"cssq: cannot read {name}" for name in names],
            2: last == USAGE,
        }
        return got.out == b"" and wanting.get(got.status, False)

    def test_refused_requests(self) -> None:
        refusable("cssq_cli")
        total = 0
        for words, stdin in REFUSABLE:
            whole = self.run_with_shim(words, stdin, 0)
            failures: List[str] = []
            number = 1
            while b"x" in (got := self.run_with_shim(words, stdin, number)).requests:
                is_full = (got.status, got.out) == (whole.status, whole.out)
                if not is_full and not self.is_answer(words, got):
                    failures.append(f"{words} with request {number} refused: {got}")
                number += 1
            with self.subTest(words=words):
                self.sweep(number - 1, failures)
                self.assertGreater(number, 1, "it makes no request for memory")
            total += number - 1
        print(f"the program: {total} refused requests")


class Words(Program):
    """Its answers to words and files."""

    def test_answers(self) -> None:
        for words, stdin, status, out, line in ANSWERS:
            self.answers(words, stdin, {}, status, out, line)

    def test_unreadable(self) -> None:
        """Of files that cannot be read the first in the words' order is reported, and nothing is
        written."""
        names = ["missing.css", "folder", "locked.css", "latin.css", sheet + "/below.css", ""]
        for bad in names:
            rows = [
                ["sheet", bad],
                ["sheet", sheet, bad, other],
                ["match", bad, tree],
                ["match", sheet, bad],
                ["style", bad, tree, "c"],
                ["style", sheet, bad, "c"],
            ]
            for worse in names:
                rows += [["sheet", bad, worse], ["match", bad, worse], ["style", bad, worse, "c"]]
            for words in rows:
                self.answers(words, b"", {}, 4, "", f"cssq: cannot read {bad}")


class Mistakes(Program):
    """What the program says of mistakes. A row has what it prints, and its lines on standard error
    before the one of the status."""

    def test_selectors(self) -> None:
        for text, printed, warning in SELECTORS:
            wanted = (0, printed + "\n") if printed else (1, "")
            last = [] if printed else [REFUSED]
            self.says(["selector", text], b"", *wanted, ["selector" + warning] + last)
            self.says([], text.encode(), *wanted, ["standard input" + warning] + last)

    def test_sheets(self) -> None:
        for text, printed, warnings in SHEETS:
            self.put("text.css", text.encode())
            lines = ["text.css" + line for line in warnings]
            self.says(["sheet", "text.css"], b"", 0, printed, lines)
            self.says(["match", "text.css", "empty"], b"", 0, "", lines)

    def test_trees(self) -> None:
        for text, fault, line, warning in TREES:
            self.put("text.tree", text.encode())
            wanted = (
                (1, "") if fault else (0, "".join(f"{number}:\n" for number in range(1, line + 1)))
            )
            last = [f"cssq: tree fault {fault} at line {line}"] if fault else []
            lines = ["text.tree" + warning] + last
            self.says(["match", "page.css", "text.tree"], b"", *wanted, lines)
            self.says(["style", "page.css", "text.tree", "c"], b"", *wanted, lines)

    def test_pages(self) -> None:
        """A page answers as its tree, and to any change of a line another way."""
        for data, tree, warnings in PAGES:
            self.put("tree.css", sheet_of(tree).encode())
            self.put("text.tree", tree.encode())
            _, wanted, _ = self.ends(["match", "tree.css", "text.tree"], b"", {})
            for name in ("text.html", "text.htm"):
                self.put(name, data)
                lines = [name + it for it in warnings]
                self.says(["match", "tree.css", name], b"", 0, (wanted or b"").decode(), lines)
            self.put("text.html.tree", data)
            self.assertEqual(
                self.ends(["match", "page.css", "text.html.tree"], b"", {})[0], bool(data)
            )

    def test_nested_pages(self) -> None:
        """A page whose elements are out of proportion is not read, and a deep one is."""
        self.put("deep.html", b"<p><b title=" + b"x" * 20_000 + b">" + b"<p>x" * 20_000)
        reason = "elements are nested in a way that takes time or elements out of proportion"
        lines = [f"deep.html: {reason}", "cssq: cannot read deep.html"]
        self.says(["match", "page.css", "deep.html"], b"", 4, "", lines)
        self.put("deep.html", b"<div>" * (MANY // 5))
        wanted = "".join(f"{number}:\n" for number in range(1, MANY // 5 + 1))
        self.says(["match", "page.css", "deep.html"], b"", 0, wanted, [])

    def test_unknown_words(self) -> None:
        for words in UNKNOWN:
            self.says(words, b"", 2, "", [USAGE])

    def test_files(self) -> None:
        for name, reason in UNREADABLE:
            for words in (
                ["sheet", "page.css", name],
                ["match", name, "page.tree"],
                ["style", "page.css", name, "a"],
            ):
                self.says(words, b"", 4, "", [reason, f"cssq: cannot read {name}"])
        self.says(
            [], b"a\xff", 4, "", ["standard input: not UTF-8 at byte offset 1", CANNOT_READ_INPUT]
        )

    def test_several_texts(self) -> None:
        """Warnings of several texts and of a tree, in order."""
        for files, words, status, printed, lines in SEVERAL:
            for name, data in files.items():
                self.put(name, data)
            self.says(words, b"", status, printed, lines)

    def test_limit(self) -> None:
        """The limit that the environment sets, over all texts of a call."""
        self.put("two.css", b"a, b { c:d } @x;")
        self.put("one.css", b"e { f:g }")
        self.put("text.css", b"a, b, c { d:e }")
        at_rule = "two.css:1:14: '@x': at-rule not supported"
        over = [
            "cssq: the rules have more than 2 declarations (CSSQ_LIMIT)",
            "cssq: want of memory",
        ]
        self.limit = "3"
        printed = "a { c:d; }\nb { c:d; }\ne { f:g; }\n"
        self.says(["sheet", "two.css", "one.css"], b"", 0, printed, [at_rule])
        self.limit = "2"
        self.says(["sheet", "two.css", "one.css"], b"", 3, "", [at_rule, *over])
        self.says(["match", "text.css", "page.tree"], b"", 3, "", over)
        self.limit = "two"
        for words in (["sheet", "two.css", "one.css"], ["match", "text.css", "page.tree"]):
            self.says(words, b"", 2, "", ["cssq: CSSQ_LIMIT is no number"])


class Large(Program):
    """Inputs of a hundred thousand parts, and 750,000 siblings: the answers, on an ordinary stack
    and in little time. Testing each of the hundred thousand rules on each of the hundred thousand
    elements would take minutes."""

    def test_selector(self) -> None:
        chain = " ".join(["a"] * MANY)
        self.answers([], chain.encode(), {}, 0, f"{chain}\t0,0,255\n", "")

    def test_sheets(self) -> None:
        for text, out in [
            (b"}" * MANY + b"a { b:c }", ""),
            (b"{" * MANY + b"}", ""),
            (b"a { " + b"b:c;" * MANY + b"}", "a { " + "b:c;" * MANY + " }\n"),
        ]:
            self.answers(["sheet", self.put("large.css", text)], b"", {}, 0, out, "")

    def test_depth(self) -> None:
        self.put("child.css", b"a > a { b:c }")
        self.put("deep.tree", "".join(f"{depth}\ta\n" for depth in range(MANY)).encode())
        out = "1:\n" + "".join(f"{number}: 1\n" for number in range(2, MANY + 1))
        self.answers(["match", "child.css", "deep.tree"], b"", {}, 0, out, "")

    def test_open_elements(self) -> None:
        """Rules that need an ancestor which no open element is are left out: to test each on each
        leaf would climb twenty thousand ancestors half a million times."""
        rules = [f".m{number} .leaf {{ a:b }}\n" for number in range(500)] + [".n .leaf { c:d }"]
        self.put("leaves.css", "".join(rules).encode())
        depth = 20_000
        path = "".join(f"{number}\tdiv\n" for number in range(depth)) + f"{depth}\tdiv\tclass=n\n"
        leaves = f"{depth + 1}\tp\tclass=leaf\n" * 1_000
        self.put("leaves.tree", (path + leaves).encode())
        out = "".join(f"{number}:\n" for number in range(1, depth + 2))
        out += "".join(f"{number}: 501\n" for number in range(depth + 2, depth + 1_002))
        self.answers(["match", "leaves.css", "leaves.tree"], b"", {}, 0, out, "")

    def test_siblings(self) -> None:
        self.put("step.css", b"b + a { c:d }")
        self.put("wide.tree", b"0\ta\n" * 749_998 + b"0\tb\n0\ta\n")
        out = "".join(f"{number}:\n" for number in range(1, 750_000)) + "750000: 1\n"
        self.answers(["match", "step.css", "wide.tree"], b"", {}, 0, out, "")

    def test_classes(self) -> None:
        self.put(
            "many.css",
            "".join(f".c{number} {{ a:v{number} }}\n" for number in range(MANY)).encode(),
        )
        self.put(
            "many.tree", "".join(f"0\ta\tclass=c{number}\n" for number in range(MANY)).encode()
        )
        out = "".join(f"{number}: {number}\n" for number in range(1, MANY + 1))
        self.answers(["match", "many.css", "many.tree"], b"", {}, 0, out, "")
        out = "".join(f"{number + 1}: v{number}\n" for number in range(MANY))
        self.answers(["style", "many.css", "many.tree", "a"], b"", {}, 0, out, "")


class Streams(Program):
    """The status reports what cannot be written, with no line if nobody reads it; standard error
    changes no status."""

    def test_output(self) -> None:
        for kind in ("closed", "full", "unread"):
            for words, stdin, status, out, line in ANSWERS:
                why = "" if kind == "unread" else CANNOT_WRITE
                fails = (4, "", why) if out else (status, out, line)
                self.answers(words, stdin, {"stdout": kind}, *fails)
                self.answers(words, stdin, {"stderr": kind}, status, out, line)
                self.answers(words, stdin, {"stdout": kind, "stderr": kind}, *fails)

    def test_closed(self) -> None:
        for words, _, status, out, line in ANSWERS:
            wanted = (status, out, line) if words else (4, "", CANNOT_READ_INPUT)
            self.answers(words, b"", {"stdin": "closed"}, *wanted)
            all_closed = (4, "", CANNOT_WRITE) if wanted[1] else wanted
            self.answers(words, b"", {name: "closed" for name in STREAMS}, *all_closed)

    def test_folder_as_input(self) -> None:
        descriptor = os.open(self.folder, os.O_RDONLY)
        child = self.start([], {}, stdin=descriptor)
        out, err = child.communicate()
        os.close(descriptor)
        self.assertEqual((child.returncode, out, faults(err)[0]), (4, b"", [CANNOT_READ_INPUT]))

    def test_input_in_pieces(self) -> None:
        child = self.start([], {}, stdin=subprocess.PIPE)
        assert child.stdin
        for piece in (b"a ", b"> .", b"b\n"):
            child.stdin.write(piece)
            child.stdin.flush()
            time.sleep(0.05)
        out, _ = child.communicate()
        self.assertEqual((child.returncode, out), (0, b"a > *[class~='b']\t0,1,1\n"))

    def test_large_output(self) -> None:
        """More than a pipe holds: a reader that waits gets all of it, and one that leaves after a
        byte is no reason for a line."""
        text = "".join(f"n{i} {{ a:b; }}\n" for i in range(20_000)).encode()
        words = ["sheet", self.put("large.css", text)]
        child = self.start(words, {})
        time.sleep(0.1)
        out, err = child.communicate()
        self.assertEqual((child.returncode, out == text, err), (0, True, b""), len(out))
        child = self.start(words, {})
        assert child.stdout and child.stderr
        child.stdout.read(1)
        child.stdout.close()
        err = child.stderr.read()
        child.stderr.close()
        self.assertEqual((child.wait(), err), (4, b""))
