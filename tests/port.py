"""Rows of the port of `simplecss`: what its sheets, selectors, trees and winners are, by the C library, the
program `cssq`, `tests_driver` and the example `example_linter`.

What is asked of crates, and no program answers, is in `crates/tests_port`.
"""
from __future__ import annotations

import ctypes
import os
import re
import tempfile
from typing import Any, Dict, List, Optional, Sequence, Tuple, Union

from tests.common import Answer, Case, answer, library_path, program, write
from tests.library_calls import DONE, NO_LIMIT, TOO_SMALL, Tree, buffer_of, call, tree_of
from tests.program import USAGE

# An element's name, and the values of its attributes `id` and `class`, if it has them.
Entry = Tuple[str, Optional[str], Optional[str]]
# How long most answers are at most.
ROOM = 1 << 10

# A sheet, a line of elements, each the child of the one before, and the values of the rules that match
# the last of them, in order.
FOUND: Sequence[Tuple[str, Sequence[Entry], str]] = [
    # By each kind of key, in the order of the rules, which is that of their specificity.
    ("#x{n:1} .b{n:2} a{n:3} *{n:4} #y{n:5} .c{n:6} p{n:7}", [("a", "x", "b")], "4 3 2 1"),
    # The key is of the last component, and the others are tested too.
    ("p a{n:1} .b .c{n:2} .c .b{n:3}", [("p", None, "b"), ("a", None, "c")], "1 2"),
    ("p > a{n:1} q > a{n:2}", [("p", None, None), ("a", None, None)], "1"),
    # The first id is the key, or else the first class, and all are tested.
    ("#x#y{n:1} .b.c{n:2} a.b{n:3} a#x.b{n:4}", [("a", "x", "b")], "3 4"),
    (".b.c{n:1} .c.b{n:2}", [("a", None, "c b")], "1 2"),
    # `[id=x]` has an id's key and `[class~=b]` a class's; other operators have none.
    (
        "[id=x]{n:1} [class~=b]{n:2} [class='b c']{n:3} [class|=b]{n:4} [class]{n:5} [id]{n:6} [id~=x]{n:7}",
        [("a", "x", "b c")],
        "2 3 5 1 6 7",
    ),
    ("[type=text]{n:1} [class='a b']{n:2}", [("a", None, "a b")], "2"),
    # A class that the value repeats matches once.
    (".b{n:1} .c{n:2}", [("a", None, "b b c b")], "1 2"),
    # Words are separated by single spaces 0x20; a tab separates none.
    (".b{n:1} .c{n:2}", [("a", None, " b  c ")], "1 2"),
    (".b{n:1} .c{n:2}", [("a", None, "b\tc")], ""),
    ("[class~='']{n:1}", [("a", None, "b  c")], "1"),
    ("[class~='']{n:1}", [("a", None, "b c")], ""),
    ("[class~='']{n:1}", [("a", None, "")], "1"),
    ("[class~='']{n:1}", [("a", None, None)], ""),
    # Names and values match byte by byte.
    ("A{n:1} #X{n:2} .B{n:3}", [("a", "x", "b")], ""),
    # An id is no class and no name.
    ("#b{n:1} .x{n:2} x{n:3} b{n:4}", [("a", "x", "b")], ""),
    ("[id='']{n:1}", [("a", "", None)], "1"),
    ("[id='']{n:1}", [("a", None, None)], ""),
    ("p{n:1} #x{n:2} .b{n:3}", [("a", None, None)], ""),
    ("", [("a", "x", "b")], ""),
]
# Rules of all kinds of keys, some with the same key, and some that also require a parent or a class.
KEYED = (
    "*{n:1} a{n:2} p{n:3} .b{n:4} .c{n:5} #x{n:6} #y{n:7} p a{n:8} p>a{n:9} .b a{n:10} .b .c{n:11} "
    "a.b{n:12} a.c.b{n:13} #x.b{n:14} a#x{n:15} [id=x]{n:16} [class='b c']{n:17} [class~='']{n:18} p *{n:19} "
    "*.c{n:20} [class|=b]{n:21} a:first-child{n:22} .c .b{n:23} #x .b{n:24} #x #y{n:25} a+a{n:26} .b.c{n:27}"
)
# Lines of elements, the last of which is matched.
LINES: Sequence[Sequence[Entry]] = [
    [("a", None, None)],
    [("a", "x", "b")],
    [("a", "y", "c b c")],
    [("p", "x", "b c"), ("a", "y", "c")],
    [("p", None, " b"), ("q", None, None), ("a", "x", "b ")],
    [("a", "x", None), ("p", "y", "c  b")],
    [("q", "", "")],
    [("q", "z", "d e")],
    [("p", None, "c"), ("p", None, "b\tc")],
]
# For each element the index of its parent, its name and its attributes: two trees. The pointer is over
# the element 7.
ELEMENTS: Sequence[Tuple[Optional[int], str, Sequence[Tuple[str, str]]]] = [
    (None, "html", [("lang", "en")]),
    (0, "head", []),
    (0, "a", [("id", "x")]),
    (2, "b", [("class", "y w")]),
    (2, "c", []),
    (4, "b", []),
    (2, "c", []),
    (0, "d", [("lang", "en-US")]),
    (7, "e", []),
    (None, "f", [("lang", "english")]),
    (9, "g", [("id", "X")]),
]
HOVERED = 7
# Selectors, and the indices of the elements that they match. By CSS 2.1: sections 5.2 to 5.9 for
# names, combinators and attributes, 5.11.1 for `:first-child`, and 5.11.4 for `:lang`, which
# children inherit and which compares ASCII letters without their case.
MATCHED: Sequence[Tuple[str, Sequence[int]]] = [
    ("*", [0, 1, 2, 3, 4, 5, 6, 7, 8, 9, 10]),
    ("b", [3, 5]),
    ("B", []),
    ("a b", [3, 5]),
    ("a > b", [3]),
    ("a > b + c", [4]),
    ("c + c", [6]),
    ("html + f", [9]),
    ("* > :first-child", [1, 3, 5, 8, 10]),
    ("#x", [2]),
    ("#X", [10]),
    (".y", [3]),
    (".w.y", [3]),
    (".Y", []),
    ("[class='y w']", [3]),
    ("[lang|=en]", [0, 7]),
    (":lang(en)", [0, 1, 2, 3, 4, 5, 6, 7, 8]),
    (":lang(EN-us)", [7, 8]),
    (":lang(english)", [9, 10]),
    (":hover", [7]),
    (":link", []),
]
# The states of an element, by their bits.
STATES = (":link", ":visited", ":hover", ":active", ":focus")
# Sheets, their printed text, and the printed text of that. The last two show what the law of printing
# excludes: a bare apostrophe in a value, and white space past ASCII.
PRINTED: Sequence[Tuple[str, str, str]] = [
    (
        "a .b { c:d } .b:lang( en ) { c:d }",
        "a *[class~='b'] { c:d; }\n*[class~='b']:lang(en) { c:d; }",
        "a *[class~='b'] { c:d; }\n*[class~='b']:lang(en) { c:d; }",
    ),
    ('[x="a\'b"] { c:d } e { f:g }', "e { f:g; }\n*[x='a'b'] { c:d; }", "e { f:g; }"),
    ("a { b:\u3000(x) }", "a { b:(x); }", ""),
]
# Sheets, selectors and declarations, sound ones and broken ones. Beside each, over all its fronts: how
# many tokens and errors and how many declarations they have, how many begin with a selector, and how
# many bytes their sheets print. The numbers are those of the Rust crate `simplecss` 0.2.2 with names
# from U+00A0 on and `/` as a term.
TEXTS: Sequence[Tuple[str, List[int]]] = [
    ("a, b { color:red }", [19, 0, 18, 159]),
    ("#x { color:red } a { color:blue }", [34, 0, 32, 627]),
    (":le, b { color:red }", [21, 0, 0, 77]),
    ("a, b < c { color:red }", [23, 0, 22, 77]),
    ("a /, b { color:red }", [39, 0, 2, 77]),
    ("a { }} b { color:red }", [23, 0, 22, 77]),
    ("a { } } b { color:red }", [24, 0, 23, 0]),
    ("p { font:12px/1.5 serif; color:red } q { color:blue }", [54, 0, 53, 1371]),
    ("p { color:green; color{;color:maroon} }", [40, 0, 39, 512]),
    ("@ a { color:red }", [35, 0, 0, 77]),
    ("@media screen { p:before { content: 'Hello'; } } a { color:red }", [129, 0, 0, 77]),
    ("a/**/b", [10, 0, 3, 0]),
    ("a/**/.b", [12, 0, 4, 0]),
    ("a /**/.b", [16, 0, 4, 0]),
    ("[x=\"a'][y='b\"]", [15, 0, 1, 0]),
    ('[x="a\\\'b"]', [11, 0, 1, 0]),
    ('[x="a\'b"]', [10, 0, 1, 0]),
    ("color:red !importantly:x", [86, 19, 5, 0]),
    ("a:\u3000", [6, 0, 1, 0]),
    ("a\nbc <", [18, 0, 5, 0]),
    ('[a="x"\u00e9]', [9, 0, 0, 0]),
    ("a {}} b { color:red }", [22, 0, 21, 0]),
    ("a { b:c; color:red; /* open", [28, 0, 27, 267]),
    ("a { color:red 'x", [17, 0, 16, 93]),
    ("a { color:red", [14, 0, 13, 45]),
    ("a:1-2", [10, 3, 1, 0]),
    ("a:#-12", [12, 4, 1, 0]),
    ("color:red ! foo:x", [51, 12, 5, 0]),
    ("color:; x:y", [18, 0, 5, 0]),
    ("*zoom:1;", [16, 2, 1, 0]),
    ("x\u009fy\u00a0z", [10, 0, 1, 0]),
    ("\u00e9 > [a\u00ed] { \u00a0:\u3000 }", [45, 0, 11, 0]),
    (":lang(\u3000en\u00a0) + * /*\U0001f600*/ > .\U0001f600#-", [79, 0, 8, 0]),
]
# What is skipped of each text: row and column, what is quoted, and why, a line each.
SKIPPED: Sequence[Tuple[str, str]] = [
    ("", ""),
    ("a { }", ""),
    ("a { /* c */ }", ""),
    ("a, b > c { d:e; f:g !important }", ""),
    ("a < b { c:d }", "1:1: 'a < b': invalid ident\n"),
    (
        "x { y:z }\n\nq, a < b , c { d:e }",
        # With a refused last selector everything up to the block is skipped.
        "3:4: 'a < b , c': invalid ident\n",
    ),
    ("\u00e9, \u00e9 < { b:c }", "1:4: '\u00e9 <': invalid ident\n"),
    ("a:foo { b:c }", "1:1: 'a:foo': unknown pseudo-class\n"),
    ("a > { b:c }", "1:1: 'a >': selector missing\n"),
    (
        "@import 'x'; a { b:c }\r\n@media print { a { b:c } }",
        "1:1: '@import 'x'': at-rule not supported\n2:1: '@media print': at-rule not supported\n",
    ),
    ("a { b:c; d } e { f:g }", "1:10: 'd': broken declaration\n"),
    (
        "a { b:c;\n  d e; f:g }\nh { :i }",
        "2:3: 'd e': broken declaration\n3:5: ':i': broken declaration\n",
    ),
    ("a { b:c } /* d */ /* e", "1:19: '/* e': comment not closed\n"),
    (
        # The comment belongs to what follows the declaration, so the declaration is broken.
        "a { b:c; /* d } e",
        "1:5: 'b:c': broken declaration\n",
    ),
    ("a {\n  b: x 'c }\nd { e:f }", "2:8: ''c }': string or function not closed\n"),
    ("a { b:c; d:e f(g; h:i }", "1:14: 'f(g; h:i }': string or function not closed\n"),
    (", a { b:c }", "1:1: ',': comma before a selector\n"),
    ("a/b { c:d }", "1:2: '/b': unexpected text after a selector\n"),
    ("a { b:c }\nd", "2:2: '': block missing\n"),
    ("a { b }}\nc { d:e }", "1:5: 'b': broken declaration\n1:8: '}': unexpected closing brace\n"),
    (
        # A selector is skipped for what is first at fault.
        "a:b[:c { d:e }",
        "1:1: 'a:b[:c': unknown pseudo-class\n",
    ),
]
# The hints on each text: row and column, and what is surprising, a line each.
HINTS: Sequence[Tuple[str, str]] = [
    ("", ""),
    ("a, b > c { d:e; f:g !important; h: i /* j */ ; k:l ! important }", ""),
    ("@media x { a { b:c\\9 } } d < e { f:g\\9 }", ""),
    ("a { b:c", ""),
    ("a { width:10px\\9; b:c }", "1:11: '10px': the value is cut here\n"),
    # A parenthesis in a comment does not count.
    ("a { b:calc(1px /* ( */); c:d }", ""),
    # A string that is not closed is skipped.
    ("a {\n  b: x 'c }\nd { e:f }", ""),
    ("a { b:c *zoom:1 }", "1:7: 'c': the value is cut here\n"),
    (
        "a { b:calc(1px + (2px)); c:d }",
        "1:7: 'calc(1px + (2px)': a parenthesis of the value is left open\n",
    ),
    # The same text is in a comment before the value, and before the colon.
    ("a { /* c:f((1) */ b:f((1); }", "1:21: 'f((1)': a parenthesis of the value is left open\n"),
    ("a { b/*:f((1)*/:f((1); }", "1:17: 'f((1)': a parenthesis of the value is left open\n"),
    ("a { b:c } */ d { e:f }", "1:11: a '*/' that closes no comment is read as the selector '*'\n"),
    ("x { y:z }\na:foo, b { c:d }", "2:1: a selector is refused, and the others are kept\n"),
    ("a { c:red!; d:e }", "1:7: 'red': '!' without 'important' follows\n"),
    ("a { b:c ! IMPORTANT; d:e }", "1:7: 'c': '!' without 'important' follows\n"),
    (
        "a { b:c } e:foo, */ f { g:h }",
        "1:11: a selector is refused, and the others are kept\n1:18: a '*/' that closes no comment is read as the selector '*'\n",
    ),
    # Without a selector that is kept there is no rule.
    ("e:foo { a:b! }", ""),
    # A value that is not closed is skipped.
    ("a { b:c f( }", ""),
    ("\ufeffa { b:c }", "1:1: a byte order mark is part of the first name\n"),
]
# Texts of trees, and the number of elements, or the number of the fault of the first faulty line, and
# the line.
READ: Sequence[Tuple[str, Union[int, Tuple[int, int]]]] = [
    ("1\ta", (1, 1)),
    ("0\ta\n2\tb", (1, 2)),
    ("0\ta\n\n", (1, 2)),
    ("\n", (1, 1)),
    ("\ta", (1, 1)),
    ("00\ta", (1, 1)),
    ("0\ta\n01\tb", (1, 2)),
    ("0\ta\n+1\tb", (1, 2)),
    ("0\ta\n1 \tb", (1, 2)),
    ("0\ta\n-1\tb", (1, 2)),
    ("0\ta\n99999999999999999999\tb", (1, 2)),
    ("0\ta\n18446744073709551617\tb", (1, 2)),
    ("0\r\n", (1, 1)),
    ("0", (2, 1)),
    ("0\t", (2, 1)),
    ("0\t\tk", (2, 1)),
    ("0\ta\tk", (3, 1)),
    ("0\ta\t", (3, 1)),
    ("0\ta\tk=1\t\tk=2", (3, 1)),
    ("0\ta\tk=1\tk=2", (4, 1)),
    ("0\ta\tk=1\tk=2\tl", (4, 1)),
    ("0\ta\t=x\t=y", (4, 1)),
    ("0\ta\n1\tb\n2\tc\tk\n9\td", (3, 3)),
    ("", 0),
    ("0\ta", 1),
    ("0\ta\n", 1),
    ("0\ta\r\n", 1),
    ("0\ta\t=\tk=", 1),
    ("0\ta\tk=1=2\tK=1", 1),
    ("0\ta\n1\tb\n0\tc\n1\td\n2\te\n1\tf", 6),
    # A sound text that is cut after each of its bytes.
    ("", 0),
    ("0", (2, 1)),
    ("0\t", (2, 1)),
    ("0\ta", 1),
    ("0\ta\n", 1),
    ("0\ta\n1", (2, 2)),
    ("0\ta\n1\t", (2, 2)),
    ("0\ta\n1\tb", 2),
    ("0\ta\n1\tb\t", (3, 2)),
    ("0\ta\n1\tb\tk", (3, 2)),
    ("0\ta\n1\tb\tk=", 2),
    ("0\ta\n1\tb\tk=v", 2),
    ("0\ta\n1\tb\tk=v\n", 2),
]
# What follows the attributes `k0` to the one before a count, and the same.
ENDS: Sequence[Tuple[str, Union[int, Tuple[int, int]]]] = [
    ("", 1),
    ("\tk0=", (4, 1)),
    ("\tk13=", (4, 1)),
    ("\tk13=\tk", (4, 1)),
    ("\tk", (3, 1)),
    ("\tk\tk0=", (3, 1)),
    ("\t=\t=", (4, 1)),
]
# A tree with the elements `a` to `i`, and for each the indices of its parent and its previous sibling.
TIED = "0\ta\n1\tb\n2\tc\n1\td\n0\te\n1\tf\n2\tg\n2\th\n0\ti\n"
TIES: Sequence[Tuple[Optional[int], Optional[int]]] = [
    (None, None),
    (0, None),
    (1, None),
    (0, 1),
    (None, 0),
    (4, None),
    (5, None),
    (5, 6),
    (None, 4),
]
# Trees with `,` and `;` for TABs and newlines: two elements, each with a child; an element, its child,
# and the child of that; a drawing of two rectangles.
TWO_ROOTS = "0,a;1,b;0,a;1,c;"
CHAIN = "0,a,class=w;1,b,class=x;2,c,class=w"
DRAWING = "0,svg;1,g;2,rect,class=round blue;2,rect,color=red"
# A tree, a selector, and the numbers of the elements that it matches.
TAKEN: Sequence[Tuple[str, str, str]] = [
    (TWO_ROOTS, "b + c", ""),
    (TWO_ROOTS, "a + a > c", "4"),
    (TWO_ROOTS, ":first-child", "1 2 4"),
    (TWO_ROOTS, "a b", "2"),
    (TWO_ROOTS, "a + a", "3"),
    (CHAIN, "a > .x", "2"),
    (CHAIN, "a > b > c", "3"),
    (CHAIN, "b > a", ""),
    (CHAIN, "*", "1 2 3"),
    (CHAIN, "* > * > * > *", ""),
    (DRAWING, "rect:first-child", "3"),
    (DRAWING, "[color=red]", "4"),
    (DRAWING, "svg rect", "3 4"),
    (DRAWING, "svg > g > rect", "3 4"),
    (DRAWING, ".blue", "3"),
    ("0,div,id=div1;1,p;2,ol;3,li;4,g;5,p,id=p1;", "div ol>li p", "6"),
    ("0,div,id=div1", "*", "1"),
    ("0,div,id=div1", "div", "1"),
    ("0,div,id=div1", "p", ""),
    ("0,div,id=div1", "#div1", "1"),
    ("0,div,id=div1", "#d1", ""),
    ("0,div,id=div1", "p#div1", ""),
    ("0,div;1,p,id=p1", "div p", "2"),
    ("0,div;1,p,id=p1", "div > p", "2"),
    ("0,div;1,p,id=p1", "div + p", ""),
    ("0,div;1,p,id=p1", "[id=p1]", "2"),
    ("0,div;1,p,id=p1", "p:first-child", "2"),
    ("0,div;1,g;2,p", "div p", "3"),
    ("0,div;1,g;2,p", "div g p", "3"),
    ("0,div;1,g;2,p", "div * p", "3"),
    ("0,div;1,g;2,p", "div > p", ""),
    ("0,div;1,div;2,g;3,p", "div p", "4"),
    ("0,div;1,g;2,p;3,div", "div p", "3"),
    ("0,div;1,q;2,p", "div g p", ""),
    ("0,p", "div > p", ""),
    ("0,div;1,p;2,rect;2,rect,color=green", "div p *[color]", "4"),
    ("0,div;1,p;2,rect;2,rect,color=green", "div p [color]", "4"),
    ("0,div;1,p;2,ol;3,g;4,li;5,g;6,p", "div ol>li p", ""),
    ("0,div;1,g;1,p", "g + p", "3"),
    ("0,div;1,g;1,p", "p:first-child", ""),
    ("0,div;1,test;1,g;1,p", "g + p", "4"),
    ("0,div;1,p;1,g", "g + p", ""),
    ("0,div;1,p,class=test warn", "[class~=warn]", "2"),
    ("0,div;1,p,class=test warn", "[class~='test warn']", ""),
    ("0,div;1,p,lang=en", "[lang=en]", "2"),
    ("0,div;1,p,lang=en", "[lang|=en]", "2"),
    ("0,div;1,p,lang=en-US", "[lang='en-US']", "2"),
    ("0,div;1,p,lang=en-US", "[lang|=en]", "2"),
    ("0,p,a=-y", "[a|='']", "1"),
    ("0,p,a=y", "[a|='']", ""),
    ("0,div;1,p,class=pastoral blue aqua marine", ".marine.pastoral", "2"),
    ("0,div;1,p;1,p", ":first-child", "1 2"),
    ("0,b;0,x;0,c", "b + c", ""),
]
# Sheets, and all declarations that win on an element `a`, with `!` after an important one.
WINS: Sequence[Tuple[str, str]] = [
    ("", ""),
    ("b{c:x}", ""),
    ("a{c:x}", "c:x"),
    ("a{c:x;d:y;e:z}", "c:x d:y e:z"),
    ("a{c:x;d:y}a{e:z;c:w}", "d:y e:z c:w"),
    ("a{c:x !important;d:y}a{c:z;d:w}", "c:x! d:w"),
    ("a{c:x;c:y;d:z !important;d:w}", "c:y d:z!"),
    ("a{c:x !important;c:x !important}a{c:y}", "c:x!"),
    ("a{c:x}b{c:y !important}a:first-child{d:z}", "c:x d:z"),
    ("a{d:x;c:x}*{d:y;b:y}", "b:y d:x c:x"),
    ("a{c:x;c:y}a{c:z}", "c:z"),
    ("a{c:x}b{c:y}", "c:x"),
    ("a{c:x !important;c:y}a{c:z}", "c:x!"),
    ("a{c:x !important}a{c:y !important;c:z}", "c:y!"),
    ("a{c:x}a b{c:y}a:first-child{c:z}", "c:z"),
    ("a{d:x}", "d:x"),
    ("b{c:x !important}", ""),
]
# Lines of words that are no command.
NOTHING = [
    "selector",
    "selector a b",
    "",
    "a",
    "Selector a",
    "selectors a",
    " selector a",
    "select a",
    "sheet",
    "match",
    "match a",
    "match a b c",
    "style",
    "style a b",
    "style a b c d",
    "styles a b c",
    "Style a b c",
]
# Files, and words with what is printed. A selector without text is refused.
FILES = {"a": "p { c:d }", "b": "0\tp\n", "c": "q { e:f }", "sheet": "r { g:h }"}
COMMANDS: Sequence[Tuple[str, int, str]] = [
    ("selector a", 0, "a\t0,0,1\n"),
    ("selector ", 1, ""),
    ("selector selector", 0, "selector\t0,0,1\n"),
    ("match a b", 0, "1: 1\n"),
    ("style a b c", 0, "1: d\n"),
    ("style a b ", 0, "1:\n"),
    ("sheet a", 0, "p { c:d; }\n"),
    ("sheet a b c", 0, "p { c:d; }\nq { e:f; }\n"),
    ("sheet sheet", 0, "r { g:h; }\n"),
]


def line_of(entries: Sequence[Entry]) -> Tree:
    """The tree of a line of elements."""
    elements: List[Tuple[Any, ...]] = []
    for depth, (name, *values) in enumerate(entries):
        own = [
            each.encode()
            for key, value in zip(("id", "class"), values)
            if value is not None
            for each in (key, value)
        ]
        elements.append((depth, name.encode(), *own))
    return tree_of(*elements)


def two_trees() -> Tree:
    """The trees of `ELEMENTS`."""
    depths: List[int] = []
    elements = []
    for index, (parent, name, attributes) in enumerate(ELEMENTS):
        depths.append(0 if parent is None else depths[parent] + 1)
        own = [each.encode() for pair in attributes for each in pair]
        elements.append(((depths[-1], 4 * (index == HOVERED), 0), name.encode(), *own))
    return tree_of(*elements)


class Library(Case):
    """What the C library answers."""

    library: ctypes.CDLL

    @classmethod
    def setUpClass(cls) -> None:
        cls.library = ctypes.CDLL(library_path())

    def asks(self, name: str, *arguments: Any) -> Tuple[int, str]:
        """The status and the answer of a call of the port."""
        status, length, out, room = TOO_SMALL, 0, b"", ROOM
        while status == TOO_SMALL:
            status, out, length, _ = call(self.library, f"simplecss_port_{name}", arguments, room)
            room = length
        return status, out[:length].decode()

    def printed(self, *texts: str) -> str:
        """The printed sheet of texts."""
        status, out = self.asks("sheet", *buffer_of([text.encode() for text in texts]), NO_LIMIT)
        self.assertEqual(status, DONE)
        return out.rstrip("\n")

    def matched(self, sheet: str, tree: Tree) -> List[List[int]]:
        """The indices of the rules that match each element."""
        status, out = self.asks("match", *buffer_of([sheet.encode()]), NO_LIMIT, tree)
        self.assertEqual(status, DONE, sheet)
        return [[int(it) - 1 for it in row.split(":")[1].split()] for row in out.splitlines()]

    def taken(self, selector: str, tree: Tree) -> List[int]:
        """The indices of the elements that a selector matches."""
        rows = self.matched(selector + "{a:b}", tree)
        return [index for index, row in enumerate(rows) if row]

    def test_index(self) -> None:
        """What an index finds, in order."""
        for sheet, line, due in FOUND:
            values = re.findall(r"n:(\d+);", self.printed(sheet))
            found = self.matched(sheet, line_of(line))[-1]
            with self.subTest(sheet=sheet, line=line):
                self.assertEqual(" ".join(values[each] for each in found), due)

    def test_each_rule(self) -> None:
        """An index finds what is found of each rule alone."""
        rules = self.printed(KEYED).splitlines()
        self.assertEqual(len(rules), 27)
        for line in LINES:
            tree = line_of(line)
            alone = [index for index, rule in enumerate(rules) if self.matched(rule, tree)[-1]]
            with self.subTest(line=line):
                self.assertEqual(self.matched(KEYED, tree)[-1], alone)

    def test_trees(self) -> None:
        tree = two_trees()
        for selector, due in MATCHED:
            with self.subTest(selector=selector):
                self.assertEqual(self.taken(selector, tree), due)

    def test_states(self) -> None:
        """An element in one state is in no other."""
        for number, state in enumerate(STATES):
            tree = tree_of(((0, 1 << number, 0), b"a"))
            for other in STATES:
                with self.subTest(state=state, other=other):
                    self.assertEqual(self.taken(other, tree), [0] if state == other else [])

    def test_printed_again(self) -> None:
        for text, due, again in PRINTED:
            with self.subTest(text=text):
                self.assertEqual(self.printed(text), due)
                self.assertEqual(self.printed(due), again)

    def test_cut_sheet(self) -> None:
        """A sheet that is cut keeps what is whole."""
        text = 'a { b:"c" }'
        for end in range(len(text) + 1):
            with self.subTest(end=end):
                self.assertEqual(self.printed(text[:end]), "" if end < 9 else 'a { b:"c"; }')

    def test_fronts(self) -> None:
        """What each text that is cut at every character has."""
        for text, due in TEXTS:
            fronts = [text[:end] for end in range(len(text) + 1)]
            given = "\1".join(fronts).encode()
            tokens = answer([program("tests_driver"), "tokens"], input=given).out.splitlines()
            lines = [line.lstrip("\1") for line in tokens]
            items = [line for line in lines if line]
            declarations = sum(line.startswith("Declaration ") for line in items)
            words = [program("cssq_cli"), "selector"]
            statuses = [answer([*words, front]).status for front in fronts]
            self.assertLessEqual(set(statuses), {0, 1})
            sheets = sum(len(self.printed(front).encode()) for front in fronts)
            found = [len(items) - declarations, declarations, statuses.count(0), sheets]
            with self.subTest(text=text):
                self.assertEqual(found, due)

    def winners(self, sheet: str, tree: Tree) -> List[Tuple[str, str, bool]]:
        """The declarations that win on the one element of a tree."""
        status, out = self.asks("styles", *buffer_of([sheet.encode()]), NO_LIMIT, tree)
        self.assertEqual(status, DONE)
        count, _, rest = out.partition("\n")
        found = []
        for _ in range(int(count)):
            numbers, _, rest = rest.partition("\n")
            name, value, important = map(int, numbers.split())
            found.append((rest[:name], rest[name : name + value], bool(important)))
            rest = rest[name + value + 1 :]
        self.assertEqual(rest, "")
        return found

    def wins(self, sheet: str, name: str) -> str:
        """The line of the declaration that wins for a name on one element `a`, as the program writes it."""
        with tempfile.TemporaryDirectory() as folder:
            write(os.path.join(folder, "a.css"), sheet)
            write(os.path.join(folder, "a.tree"), "0\ta\n")
            found = answer([program("cssq_cli"), "style", "a.css", "a.tree", name], cwd=folder)
        self.assertEqual(found.status, 0, found.err)
        return found.out

    def test_winners(self) -> None:
        """All that win, which are the same by their names, and what wins for the name `c`."""
        tree = tree_of((0, b"a"))
        for sheet, due in WINS:
            every = self.winners(sheet, tree)
            lines = {name: f"1: {value}" + " !important" * mark for name, value, mark in every}
            with self.subTest(sheet=sheet):
                found = [f"{name}:{value}" + "!" * important for name, value, important in every]
                self.assertEqual(" ".join(found), due)
                for name, line in {"c": "1:", **lines}.items():
                    self.assertEqual(self.wins(sheet, name), line + "\n")

    def test_many_winners(self) -> None:
        """Two rules, each with a declaration for each of many names, whose values are the number of the
        rule."""
        names = [f"n{number}" for number in range(3000)]
        rules = ["a {" + "".join(f" {name}: {rule};" for name in names) + " }" for rule in (0, 1)]
        found = self.winners("".join(rules), tree_of((0, b"a")))
        self.assertEqual(found, [(name, "1", False) for name in names])


class Programs(Case):
    """What programs answer on files."""

    def setUp(self) -> None:
        room = tempfile.TemporaryDirectory()
        self.addCleanup(room.cleanup)
        self.folder = room.name

    def runs(self, crate: str, words: Sequence[str], files: Dict[str, str], **more: Any) -> Answer:
        """What a program ends with, where these files are."""
        for name, text in files.items():
            write(os.path.join(self.folder, name), text)
        return answer([program(crate), *words], cwd=self.folder, **more)

    def read_tree(self, text: str) -> Union[int, Tuple[int, int]]:
        """How many elements a tree has, or its fault and the line."""
        found = self.runs("cssq_cli", ["match", "a.css", "a.tree"], {"a.css": "", "a.tree": text})
        fault = re.search(r"^cssq: tree fault (\d+) at line (\d+)$", found.err, re.MULTILINE)
        self.assertEqual((found.status, bool(fault)), (int(bool(fault)),) * 2, found.err)
        return (int(fault[1]), int(fault[2])) if fault else len(found.out.splitlines())

    def test_tree_texts(self) -> None:
        for text, due in READ:
            with self.subTest(text=text):
                self.assertEqual(self.read_tree(text), due)

    def test_many_attributes(self) -> None:
        for count in (14, 15, 16, 17, 40, 1000):
            front = "0\ta" + "".join(f"\tk{number}=" for number in range(count))
            for end, due in ENDS:
                with self.subTest(count=count, end=end):
                    self.assertEqual(self.read_tree(front + end), due)

    def test_ties(self) -> None:
        """Which element is the parent and which the previous sibling, of all pairs."""
        names = "abcdefghi"
        for sign, place in ((">", 0), ("+", 1)):
            pairs = [(one, other) for one in names for other in names]
            sheet = "\n".join(f"{one} {sign} {other} {{ a:b }}" for one, other in pairs)
            files = {"a.css": sheet, "a.tree": TIED}
            rows = self.runs("cssq_cli", ["match", "a.css", "a.tree"], files).out.splitlines()
            self.assertEqual(len(rows), len(TIES))
            for index, (line, ties) in enumerate(zip(rows, TIES)):
                found = [pairs[int(it) - 1] for it in line.split(":")[1].split()]
                tied = ties[place]
                due = [] if tied is None else [(names[tied], names[index])]
                with self.subTest(index=index, sign=sign):
                    self.assertEqual(found, due)

    def test_small_trees(self) -> None:
        """Which elements of small trees each selector matches."""
        for tree, selector, due in TAKEN:
            text = tree.replace(",", "\t").replace(";", "\n")
            files = {"a.css": selector + " { a:b }", "a.tree": text}
            found = self.runs("cssq_cli", ["match", "a.css", "a.tree"], files)
            numbers = re.findall(r"^(\d+): 1$", found.out, re.MULTILINE)
            with self.subTest(tree=tree, selector=selector):
                self.assertEqual((found.status, " ".join(numbers)), (0, due))

    def test_commands(self) -> None:
        for line in NOTHING:
            with self.subTest(line=line):
                found = self.runs("cssq_cli", line.split(" "), {})
                self.assertEqual((found.status, found.out), (2, ""))
                self.assertIn(USAGE, found.err)
        for line, status, due in COMMANDS:
            with self.subTest(line=line):
                found = self.runs("cssq_cli", line.split(" "), FILES)
                self.assertEqual((found.status, found.out), (status, due))
        found = self.runs("cssq_cli", [], {}, input=b"p > q")
        self.assertEqual((found.status, found.out), (0, "p > q\t0,0,2\n"))

    def linted(self, text: str, *words: str) -> str:
        """What the linter prints of a text."""
        found = self.runs("example_linter", [*words, "a.css"], {"a.css": text})
        return found.out.replace("a.css:", "")

    def test_skipped(self) -> None:
        for text, due in SKIPPED:
            with self.subTest(text=text):
                self.assertEqual(self.linted(text), due)

    def test_hints(self) -> None:
        for text, due in HINTS:
            with self.subTest(text=text):
                self.assertEqual(self.linted(text, "--hints"), self.linted(text) + due)

    def test_statements(self) -> None:
        """An at-sign with no name is a statement of its own."""
        found = self.linted("@" * 20_000).splitlines()
        self.assertEqual(len(found), 20_000)
        for column, line in enumerate(found, 1):
            if not line.startswith(f"1:{column}: '@': "):
                self.fail(line)
