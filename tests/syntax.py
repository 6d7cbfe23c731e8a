"""The reader of modern style sheets beside tinycss2, soupsieve and a browser: statements and
declarations of random texts, of a table and of real sheets.

The program is `tests_driver`. tinycss2 is Debian's `python3-tinycss2`, used by /usr/bin/python3;
what is missing is left out. The texts are equal in each run.
"""
from __future__ import annotations

import random
import re
import subprocess
from functools import partial
from typing import Any, Callable, Dict, Iterator, List, Optional, Sequence, Tuple

from tests.common import (
    LEFT_OUT,
    Case,
    browser_answers,
    count,
    debian_answers,
    program,
    real_sheets,
    row,
    sheets_folder,
)

# What the program prints of an item, and what the tables have of a declaration, a statement and a
# selector.
Fields = Tuple[str, ...]
Declared = Tuple[str, str, str]
Stated = Tuple[str, str, Optional[str]]

# The pieces of random texts: what is rare in style sheets comes as often as what is common.
# fmt: off
PIECES = (
    "a", "b", "\xe9", "ab", "url(", "URL(", "Url( ", "xurl(", "f(", "-f(", "--x", "-", "--", "(",
    ")", "[", "]", "{", "}", ";", ";", ":", ":", ":", "!", "!important", "! IMPORTANT",
    "!/**/important", "'", '"', "\\", "\\)", "\\'", "\\a ", "\\a\n", "\\61\r\n", "\n", "\r", "\f",
    "\r\n", " ", " ", "/*", "*/", "/**/", "/", "*", "<!--", "-->", "#", "#a", "@", "@m", "1", "1.5",
    "1e3", "1e-", "5px", ".", ",", "+", "$", "url(x)", "'s'", "\\", "\x0b", "\x7f", "a:b", "c:d;",
    "x:'y'",
)
# fmt: on
# fmt: off
MORE = PIECES + (
    "{", "}", "{}", "{a:b}", "@media x", "@import 'y';", "a", "b ", ",", ".c", "#d", "<!--", "-->",
    "@f{g{h:i}}", "}", "}",
)
# fmt: on

BRACELESS = tuple(piece for piece in PIECES if piece != "{")

# The pieces of random blocks for a browser: declarations, and rules among them.
# fmt: off
BLOCK = (
    "color:red", "color:blue;", "color:green;", "width:1px;", "height:2px", "width:2px\\\n;",
    "colo\\72:red;", "color:redd;", "--x:{q:r};", "--x: (;);", "--y:", ";", ";", ";", " ", "5", ":",
    "color:", "!x", "p q", "color:x'\n", "content:'a\n", "p{", ".b{", "& q{", "> p{", "span:hover{",
    "color:hover{", "p:not(.z){", "--x:hover{", "@media all{", "@foo x{", "p'\n{", "a:{", "}", "}",
    "}", "};", "\n", "/*", "*/", "(", ")", "[", "]", "'", "\\", "!important", "!imp\\6f rtant;", "url(",
    "<!--", "-->",
)
# fmt: on
# What a browser keeps of the declarations of a sheet's first rule, and of these declarations, of
# which each that is none alone is left out. It writes a value that is open again with an end.
BLOCKS = """
<!DOCTYPE html><meta charset=utf-8><script id=input type="application/json">%s</script>
<script>
function sheet(text) { const made = new CSSStyleSheet(); made.replaceSync(text); return made.cssRules; }
function kept(text) { const rules = sheet("x{" + text); return rules.length ? rules[0].style.cssText : ""; }
const asked = new Map();
function is_one(text) { if (!asked.has(text)) asked.set(text, kept(text) != ""); return asked.get(text); }
function own(rule) {
  if (!rule || rule.selectorText != "a") return null;
  const runs = Array.from(rule.cssRules).filter(one => one.constructor.name == "CSSNestedDeclarations");
  return kept(kept([rule.style, ...runs.map(one => one.style)].map(one => one.cssText).join(" ")));
}
const texts = JSON.parse(document.getElementById("input").textContent);
const answers = texts.map(([text, found]) =>
  [own(sheet(text)[0]), found === null ? null : kept(kept(found.filter(is_one).join(";")))]);
document.documentElement.textContent = "ANS" + "WER" + JSON.stringify(answers) + "END";
</script>
"""

# The same with group rules in them, but layers, which have an order of their own.
# fmt: off
GROUPED = BLOCK + (
    "@media all{color:red;", "@media all{", "@MEDIA all{", "@m\\65 dia all{",
    "@supports (color:red){", "@container x{", "p{color:blue}", "p:hover{width:9px}", "color:red}",
    "width:1px;}", "color:green;", "height:3px;",
) + 8 * ("}",) + 2 * ("@media all{color:red;", "@media all{", "color:green;", "height:3px;")
# fmt: on
# What a browser keeps of the declarations of a sheet's first rule and of the group rules in it, in
# order, and of these stretches of them, each read alone.
STRETCHES = """
<!DOCTYPE html><meta charset=utf-8><script id=input type="application/json">%s</script>
<script>
function sheet(text) { const made = new CSSStyleSheet(); made.replaceSync(text); return made.cssRules; }
function kept(text) { const rules = sheet("x{" + text); return rules.length ? rules[0].style.cssText : ""; }
function all(stretches) { return kept(stretches.map(kept).join(" ")); }
function own(rule) {
  if (rule.selectorText) return [];
  return rule.style ? [rule.style.cssText] : Array.from(rule.cssRules || []).flatMap(own);
}
function stretches(rule) {
  if (!rule || rule.selectorText != "a") return null;
  return all([rule.style.cssText, ...Array.from(rule.cssRules).flatMap(own)]);
}
const texts = JSON.parse(document.getElementById("input").textContent);
const answers = texts.map(([text, found]) => [stretches(sheet(text)[0]), all(found)]);
document.documentElement.textContent = "ANS" + "WER" + JSON.stringify(answers) + "END";
</script>
"""

# The pieces of random style attributes for a browser.
# fmt: off
STYLE = (
    "color", "width", "content", "--x", ":", ":", ":", ":", ";", ";", "red", "1px", "url(x",
    "url('y')", "calc(1px + (2px", ")", "'s", "'", '"', "(", "[", "]", "{", "}", "!important", " ",
    "/*", "*/", "c\\6f lor", "rgb(1,2,3)", ",", "color:red;", "width:1px;", "content:'a",
    "--y:{a;b}",
)
# fmt: on
STYLES = """
<!DOCTYPE html><meta charset=utf-8><script id=input type="application/json">%s</script>
<script>
const style = document.createElement("p").style;
function kept(text) { style.cssText = ""; style.cssText = text; return style.cssText; }
const pairs = JSON.parse(document.getElementById("input").textContent);
const answers = pairs.map(pair => pair.map(kept));
document.documentElement.textContent = "ANS" + "WER" + JSON.stringify(answers) + "END";
</script>
"""

# The pieces of random declarations with escapes in their names.
# fmt: off
ESCAPES = (
    "\\", "\\61", "\\61 ", "\\0", "\\000061", "\\0000611", "\\10ffff\n", "\\110000\t", "\\ffffff",
    "\\e9\r\n", "\\\xe9", "\\g", "\\\\", "\\:", "\\;", "a", "F", "0", "-", "_", "\xe9", " ", ":b;",
    ":b;", ":b;c",
)
# fmt: on

# Texts of blocks, in which rules may be, with the same (CSS Syntax 3, editor's draft, "consume a
# block's contents").
BLOCKS_READ = (
    ("span:hover{color:red}color:blue", [("color", "blue", "")]),
    (" b{c:d} color:red; margin:0 ", [("color", "red", ""), ("margin", "0", "")]),
    ("a:b{c}d:e", [("d", "e", "")]),
    ("5px {; c:d } e:f", [("e", "f", "")]),
    ("a b;c{d}e:f", [("e", "f", "")]),
    ("--x:hover{..} c:d; e:f", [("--x", "hover{..} c:d", ""), ("e", "f", "")]),
    ("--x y{a:b}c:d", [("c", "d", "")]),
    ("--x:'a\n{b:c};d:e", [("d", "e", "")]),
)

# Texts of sheets, with each statement: `@` and the name of an at-rule, or nothing; its prelude; and
# its block, or None.
STATEMENTS: Tuple[Tuple[str, List[Stated]], ...] = (
    ("", []),
    (" /**/ ", []),
    ("foo", []),
    ("foo{a:b}", [("", "foo", "a:b")]),
    ("<!-- foo{} -->bar{}", [("", "foo", ""), ("", "bar", "")]),
    ("@import 'x' screen;a{}", [("@import", "'x' screen", None), ("", "a", "")]),
    ("@media x{a{b:c}d{}}e{}", [("@media", "x", "a{b:c}d{}"), ("", "e", "")]),
    ("@media x", [("@media", "x", None)]),
    ("@{a:b}c{}", [("", "@", "a:b"), ("", "c", "")]),
    ("a[b{c}]{d}", [("", "a[b{c}]", "d")]),
    ("a'{'{b}", [("", "a'{'", "b")]),
    ("a{'}'}b{", [("", "a", "'}'"), ("", "b", "")]),
    ("a{(}b{c}", [("", "a", "(}b{c}")]),
    ("}a{b}", [("", "}a", "b")]),
    ("a;b{c}", [("", "a;b", "c")]),
    ("a{b/*}*/c}d{}", [("", "a", "b/*}*/c"), ("", "d", "")]),
    ("a{b\\}c}d{}", [("", "a", "b\\}c"), ("", "d", "")]),
    ("@a\\62 c d{}", [("@a\\62 c", "d", "")]),
)

# Texts of declarations, and these printed as one list.
LISTS = (
    ("", ""),
    ("color:red", "color: red;"),
    (" a : b c ! important ;; --x:{y}", "a: b c!important; --x: {y};"),
    ("a:b; c; d:e", "a: b; d: e;"),
    ("--x:;a:'b'", "--x: ; a: 'b';"),
)

# Declarations whose values the end of the text closes, and the same with what closes them. A bracket
# that closes nothing makes a declaration invalid.
CLOSED = (
    ("a:red", "a: red; "),
    ("a:'b", "a: 'b'; "),
    ("a:url(b", "a: url(b); "),
    ("a:calc(1px + [2", "a: calc(1px + [2]); "),
    ("a:(b /* c", "a: (b /* c*/); "),
    ("--a:{'b", "--a: {'b'}; "),
    ("a:b)", ""),
)

# A sheet, and its selectors in the order of the cascade: by specificity (Selectors 4, section 17),
# then by source, but for those in `@media print`. Of its last rule set one selector is invalid, so
# the set is dropped (Selectors 4, section 3.9). Its rules have eight declarations.
SHEET = """p.b, :is(#x, .b) + p { color: red; margin: 1px }
p { color: green !important; margin: 2px }
@media print { p { color: black !important } }
@supports (a: b) { p:not(.b) { COLOR: blue } }
p::before { color: gray !important }
div, p > > a { color: white !important }"""
ORDER = ["p", "p::before", "p.b", "p:not(.b)", ":is(#x, .b) + p"]
TOO_MANY = ["too many declarations"]

# Sheets with group rules in style rules, which hold but for `@media print`, and for each rule its
# selector and its declarations.
IN_RULES = (
    (
        "a,b{c:d;@media x{e:f;p{g:h}i:j}k:l}",
        [("a", "c:d"), ("b", "c:d"), ("a", "e:f"), ("b", "e:f"), ("a", "i:j"), ("b", "i:j")]
        + [("a", "k:l"), ("b", "k:l"), ("p", "g:h")],
    ),
    ("a{@m\\65 dia PRINT{b:c}@media x{@media print{d:e}f:g}h:i}", [("a", "f:g"), ("a", "h:i")]),
    ("a{@font-face{b:c}d:e}", [("a", "@font-face{b:c}d:e")]),
    ("p{q{@media x{a:b}}c:d}", [("p", "c:d"), ("q", "a:b")]),
    ("@media{" * 99 + "a{b:c}", [("a", "b:c")]),
    (
        "a{" + "@media{" * 99 + "b:" + "(" * 64 + ")" * 64 + "}" * 100 + "d{e:f}",
        [("a", "b:" + "(" * 64 + ")" * 64), ("d", "e:f")],
    ),
)

# Sheets with layers, and the selectors of their rules in the order of the cascade (CSS Cascading 5,
# section 6.4), which Chromium has too.
LAYERED = (
    ("p{c:d}@layer x{#q{c:d}}", ["#q", "p"]),
    ("@layer y,x;@layer x{#p{c:d}}@layer y{#q{c:d}}", ["#q", "#p"]),
    ("@layer x{#p{c:d}@layer y{#q{c:d}}}", ["#q", "#p"]),
    ("@layer x.y{#p{c:d}}@layer z{#q{c:d}}@layer x{#r{c:d}}", ["#p", "#r", "#q"]),
    ("@layer x{@layer y;}@layer z{#q{c:d}}@layer x.y{#p{c:d}}", ["#p", "#q"]),
    ("@layer{#p{c:d}}@layer x{#q{c:d}}@layer{#r{c:d}}", ["#p", "#q", "#r"]),
    ("@media print{@layer x,y;}@layer y{#p{c:d}}@layer x{#q{c:d}}", ["#p", "#q"]),
    ("@layer x{}@layer y{#p{c:d}}@layer x{#q{c:d}}", ["#q", "#p"]),
    ("@layer y{#p{c:d}}@layer x,z{#q{c:d}}@layer 1{#r{c:d}}", ["#p"]),
    ("@LAYER x{#p{c:d}}@l\\61yer y{p{c:d}}@layer \\78{#q{c:d}}", ["#p", "#q", "p"]),
    ("@layer X{#p{c:d}}@layer x{#q{c:d}}@layer X{#r{c:d}}", ["#p", "#r", "#q"]),
    ("#p{@layer x{c:d}e:f}@layer y{#q{c:d}}", ["#p", "#q", "#p"]),
    ("@layer " + ",".join(f"l{n}" for n in range(1024)) + ";p{c:d}", ["p"]),
    ("@layer " + ",".join(f"l{n}" for n in range(1025)) + ";p{c:d}", ["too many layers"]),
)

# Sheets, and of each rule set the preludes of its group rules, its prelude, and its declarations in
# their place: a newline that ends a string is the last byte of a block, and brackets are counted
# from the brace of each block.
PLACED: Tuple[Tuple[str, List[Tuple[str, str, List[Declared]]]], ...] = (
    ('a{content:"foo;\n}b{c:d}', [("", "a", []), ("", "b", [("c", "d", "")])]),
    ("a{b:c;d:'e\r\n}", [("", "a", [("b", "c", "")])]),
    ("a{b:c\\\n}", [("", "a", [("b", "c\\\n", "")])]),
    ("@m\\65 dia x{a{b:c}}", [("x,", "a", [("b", "c", "")])]),
    ("@-m\\6fz-document x{@\\6c ayer{a{b:c}}}", [("x,,", "a", [("b", "c", "")])]),
    (
        "@media x{a{b:" + "(" * 64 + ")" * 64 + "}c{d:e}}f{g:h}",
        [
            ("x,", "a", [("b", "(" * 64 + ")" * 64, "")]),
            ("x,", "c", [("d", "e", "")]),
            ("", "f", [("g", "h", "")]),
        ],
    ),
    (
        "a{b:" + "(" * 99 + "[" + "}" + ")" * 99 + ";c:d}e{f:g}",
        [("", "a", [("c", "d", "")]), ("", "e", [("f", "g", "")])],
    ),
    ("@media{" * 65 + "a{b:c}" + "}" * 65 + "d{e:f}", [("", "d", [("e", "f", "")])]),
)

# Lists of selectors, and why a rule set of each is dropped, by the grammar of Selectors 4.
SELECTORS = (
    ("a", ""),
    ("*", ""),
    ("a,b > c + d ~ e f", ""),
    ("a.b#c[d]:link", ""),
    ("a/**/.b", ""),
    ("a /**/ b", ""),
    ("a/**/b", "invalid selector"),
    ("*|a, |a, *|*, |*", ""),
    ("[*|b=c], [*|b], [|b]", ""),
    # A prefix that the sheet does not declare (CSS Namespaces 3, section 3).
    ("b|a", "invalid selector"),
    ("b|*, c", "invalid selector"),
    ("[a|b=c]", "invalid selector"),
    ("[a=b i], [a='b' S], [a=\"b\"i]", ""),
    ("[a~=b][a|=b][a^=b][a$=b][a*=b]", ""),
    ("[a='b,c']", ""),
    ("[a,b]", "invalid selector"),
    ("[a=]", "invalid selector"),
    ("[a=b c]", "invalid selector"),
    ("[]", "invalid selector"),
    ("a:not(b, c):nth-child(2n + 1 of d)", ""),
    ("a:not()", "invalid selector"),
    ("a:hover::before, ::after, :first-line, a > ::marker", ""),
    ("a::before:hover, a::part(c)", ""),
    ("a::before b", "invalid selector"),
    ("a::before.b", "invalid selector"),
    ("a:", "invalid selector"),
    ("a::", "invalid selector"),
    ("a,", "invalid selector"),
    (",a", "invalid selector"),
    ("a,,b", "invalid selector"),
    ("", "invalid selector"),
    ("> a", "invalid selector"),
    ("a >", "invalid selector"),
    ("a > > b", "invalid selector"),
    ("a || b", "invalid selector"),
    ("#1", "invalid selector"),
    (".1", "invalid selector"),
    (". a", "invalid selector"),
    ("1", "invalid selector"),
    ("50%", "invalid selector"),
    ("#\\31, .\\31 a, \\61", ""),
    ("a, b\\\n", "invalid selector"),
    ("a\\\n, b", "invalid selector"),
    ("a, b -->c", "invalid selector"),
    ("a b)", "stray bracket"),
    ("a['b\n]", "bad string"),
    ("a:b(url(c d))", "bad url"),
)

# Lists of selectors, and of each part whether the library reads it, as the standard means it, and
# its pseudo-element.
READ = (
    ("a, b > c + d e, *", [("a", True, ""), ("b > c + d e", True, ""), ("*", True, "")]),
    (
        "a.b#c[d][e=f][g|='h'][i~=j]:first-child:hover",
        [("a.b#c[d][e=f][g|='h'][i~=j]:first-child:hover", True, "")],
    ),
    ("p/**/.k, p /**/ .k", [("p/**/.k", True, ""), ("p /**/ .k", True, "")]),
    ("/**/ a /**/, b/**/", [("a", True, ""), ("b", True, "")]),
    (
        "p::before, :first-line, ::part(z)",
        [
            ("p::before", True, "before"),
            (":first-line", True, "first-line"),
            ("::part(z)", True, "part(z)"),
        ],
    ),
    (
        "a:not(b)::after, c ::before",
        [("a:not(b)::after", True, "after"), ("c ::before", True, "before")],
    ),
    ("a::before:hover", [("a::before:hover", False, "")]),
    (
        "a > ::after, c:/**/:marker/**/, & > e",
        [("a > ::after", True, "after"), ("c:/**/:marker", True, "marker"), ("& > e", True, "")],
    ),
    (
        ":lang(en), :lang('en'), :lang(en, fr), :lang( en )",
        [
            (":lang(en)", True, ""),
            (":lang('en')", True, ""),
            (":lang(en, fr)", True, ""),
            (":lang( en )", True, ""),
        ],
    ),
    (
        "#id, [id=a], [id], [ids], [idea=x]",
        [
            ("#id", True, ""),
            ("[id=a]", True, ""),
            ("[id]", True, ""),
            ("[ids]", True, ""),
            ("[idea=x]", True, ""),
        ],
    ),
    (
        "[a~=''], [a~='b c'], [a~='b'], [a='']",
        [
            ("[a~='']", True, ""),
            ("[a~='b c']", True, ""),
            ("[a~='b']", True, ""),
            ("[a='']", True, ""),
        ],
    ),
    (
        "[a='b\\'c'], .\\31, [a='/*'], [a='/b']",
        [
            ("[a='b\\'c']", True, ""),
            (".\\31", True, ""),
            ("[a='/*']", True, ""),
            ("[a='/b']", True, ""),
        ],
    ),
    (
        "a ~ b, c[*|d], [ e ], [f=g i], [h^=i], j:HOVER, k:nth-child(2)",
        [
            ("a ~ b", True, ""),
            ("c[*|d]", True, ""),
            ("[ e ]", True, ""),
            ("[f=g i]", True, ""),
            ("[h^=i]", True, ""),
            ("j:HOVER", True, ""),
            ("k:nth-child(2)", True, ""),
        ],
    ),
    ("a, b:", [("a, b:", False, "")]),
    ('[a="b,c"], d', [('[a="b,c"]', True, ""), ("d", True, "")]),
)

# A page on which soupsieve finds elements: by a selector, and by what the library prints of it.
PAGE = """<html lang="en"><body class="a"><p id="b" class="a b" a="b"><b class="k" a="b c">x</b>
<a href="#" a="" title="a-b"><b></b></a></p>
<div class="b" lang="en-GB" a="b-c"><p class="k a" title=""><i a="c"></i><b class="a" id="k"><p>
</p></b></p><b a="a"></b><i class="b a"></i></div></body></html>"""

# The pieces of random selectors for that page.
# fmt: off
SELECTOR_PIECES = (
    "a", "b", "p", "i", "div", "*", " ", " ", ">", " + ", "/**/", " /**/ ", ".a", ".b", ".k", "#b",
    "#k", "[a]", "[a=b]", "[a='b c']", "[a~=b]", "[a~='c']", "[a|=b]", "[a='']", "[title|='a']",
    "[a~='']", "[a~='b c']", "[id]", "[id=b]", ":first-child", ":lang(en)", ":lang('en')", "[ a ]",
    "[a=B i]", ":link", "~", ".\\61 ", ":not(.a)",
)
# fmt: on

FINDS = r"""
import json, sys
import bs4, soupsieve

work = json.load(sys.stdin)
page = bs4.BeautifulSoup(work["page"], "html5lib")

def found(selector):
    try:
        return [id(element) for element in soupsieve.select(selector, page)]
    except (soupsieve.SelectorSyntaxError, NotImplementedError):
        return None

json.dump([found(text) == found(printed) for text, printed in work["selectors"]], sys.stdout)
"""

THEIRS = r"""
import json, sys
import tinycss2

ENDS = ("eof-in-string", "eof-in-url")

def key(nodes):
    found = []
    for node in nodes:
        if node.type == "error":
            if node.kind not in ENDS:
                found.append("error " + node.kind)
        elif node.type in ("() block", "[] block", "{} block"):
            found.append([node.type, key(node.content)])
        elif node.type == "function":
            found.append([node.name, key(node.arguments)])
        elif node.type == "whitespace":
            found.append(" ")
        elif node.type != "comment":
            found.append(node.serialize())
    while found and found[-1] == " ":
        found.pop()
    while found and found[0] == " ":
        found.pop(0)
    return found

def faulty(nodes):
    for node in nodes:
        if node.type == "error" and node.kind not in ENDS:
            return True
        inside = node.content if node.type.endswith("block") else getattr(node, "arguments", None)
        if inside and faulty(inside):
            return True
    return False

def declarations(text):
    found = []
    for one in tinycss2.parse_declaration_list(text):
        if one.type != "declaration" or faulty(one.value):
            continue
        if any(node.type == "literal" and node.value == "!" for node in one.value):
            continue
        value = key(one.value)
        if value or one.name.startswith("--"):
            found.append([one.name, value, one.important])
    return found

def statements(text):
    found = []
    for one in tinycss2.parse_stylesheet(text, skip_comments=True, skip_whitespace=True):
        if one.type == "qualified-rule":
            found.append(["", key(one.prelude), key(one.content)])
        elif one.type == "at-rule":
            block = None if one.content is None else key(one.content)
            found.append(["@" + one.at_keyword, key(one.prelude), block])
    return found

def value(text):
    return key(tinycss2.parse_component_value_list(text))

def name(text):
    nodes = tinycss2.parse_component_value_list(text)
    if len(nodes) == 1 and nodes[0].type in ("ident", "at-keyword"):
        return ("@" if nodes[0].type == "at-keyword" else "") + nodes[0].value
    return "no name: " + text

def declaration(item):
    return [name(item[0]), value(item[1]), "important" in item[2]]

def statement(item):
    block = None if item[2] is None else value(item[2])
    return [name(item[0]) if item[0] else "", value(item[1]), block]

def names(text):
    return [[one[0]] for one in declarations(text)]

def decoded(item):
    return [item[0]]

GROUPS = ("media", "supports", "layer", "container", "document", "-moz-document")

def bare(nodes):
    found = list(nodes)
    for end in (-1, 0):
        while found and found[end].type in ("whitespace", "comment"):
            found.pop(end)
    return found

def rules_in(nodes, conditions):
    for one in nodes:
        if one.type == "qualified-rule":
            yield [conditions, key(one.prelude), key(one.content)]
        elif one.type == "at-rule" and one.content is not None and one.lower_at_keyword in GROUPS:
            prelude = tinycss2.serialize(bare(one.prelude))
            yield from rules_in(tinycss2.parse_rule_list(one.content), conditions + prelude + ",")

def rules(text):
    return list(rules_in(tinycss2.parse_stylesheet(text), ""))

def rule(item):
    return [item[0], value(item[1]), value(item[2])]

work = json.load(sys.stdin)
readers = {
    "declarations": (declarations, declaration),
    "names": (names, decoded),
    "statements": (statements, statement),
    "rules": (rules, rule),
}
read, one = readers[work["what"]]
theirs = [read(text) for text in work["texts"]]
ours = [[one(item) for item in found] for found in work["found"]]
json.dump([theirs, ours], sys.stdout)
"""


def replies_of(what: str, texts: Sequence[str]) -> List[str]:
    """What the program replies to each text."""
    words, joined = [program("tests_driver"), *what.split()], "\0".join(texts).encode()
    reply = subprocess.run(words, input=joined, stdout=subprocess.PIPE, check=True).stdout.decode()
    return reply.split("\0")[:-1]


def fields_of(what: str, texts: Sequence[str]) -> Iterator[List[Fields]]:
    """What the program prints for each text: its items, each of four fields."""
    replies = replies_of(what, texts)
    assert len(replies) == len(texts), (len(replies), len(texts))
    for one in replies:
        fields = one.split("\x01")[:-1]
        yield [tuple(fields[i : i + 4]) for i in range(0, len(fields), 4)]


def declared_in(what: str, texts: Sequence[str]) -> Iterator[List[Fields]]:
    """The declarations of each text, which is read as this: name, value and flags."""
    for items in fields_of(what, texts):
        yield [item[1:] for item in items if item[0] == "declaration"]


def declarations_of(texts: Sequence[str]) -> Iterator[List[Fields]]:
    """The declarations of each style attribute."""
    return declared_in("declarations", texts)


def block_declarations_of(texts: Sequence[str]) -> Iterator[List[Fields]]:
    """The declarations of each block."""
    return declared_in("block", texts)


def names_of(texts: Sequence[str]) -> Iterator[List[Fields]]:
    """The declarations of each text: name with its escapes decoded, value and flags."""
    for items in fields_of("names", texts):
        yield [item[1:] for item in items]


def first_declarations(texts: Sequence[str]) -> List[Optional[List[str]]]:
    """The declarations of the first rule of each sheet, if its selector is `a`."""
    rules = [next(iter(found), ("", "", "")) for found in rules_of(texts)]
    items = block_declarations_of([block for _, _, block in rules])
    return [
        [f"{name}:{value}{'!important' * ('important' in flags)}" for name, value, flags in own]
        if (where, prelude) == ("", "a")
        else None
        for (where, prelude, _), own in zip(rules, items)
    ]


def printed_of(texts: Sequence[str]) -> List[str]:
    """The declarations of each text as they are printed, with what closes their values."""
    return replies_of("printed", texts)


def statement(kind: str, name: str, prelude: str, block: str) -> Stated:
    """A statement as the tables have it."""
    if kind == "rule set":
        return ("", prelude, block)
    return ("@" + name, prelude, block if kind == "at-rule with block" else None)


def statements_of(texts: Sequence[str]) -> Iterator[List[Stated]]:
    """The statements of each text: name, prelude and block."""
    for items in fields_of("statements", texts):
        yield [statement(*item) for item in items if item[0] != "skipped"]


def rules_of(texts: Sequence[str]) -> Iterator[List[Declared]]:
    """The rule sets of each text: the preludes of their group rules, their preludes and their
    blocks."""
    for items in fields_of("rules", texts):
        yield [(conditions, prelude, block) for conditions, _, prelude, block in items]


def faults_of(texts: Sequence[str]) -> Iterator[List[str]]:
    """Why each rule set of each text is dropped."""
    for items in fields_of("rules", texts):
        yield [fault for _, fault, _, _ in items]


def selectors_of(texts: Sequence[str]) -> Iterator[List[Fields]]:
    """The selectors of each text's rule sets: text, what the library reads, pseudo-element, and why
    its rule set is dropped."""
    return fields_of("selectors", texts)


def one_blank(text: str) -> str:
    """A selector with one blank for several, since soupsieve refuses two before a combinator, and
    without comments; the blank that ends an escape stays."""

    def shortened(found: "re.Match[str]") -> str:
        return found[1] or re.sub(r"/\*.*?\*/", "", found[0])[:1]

    return re.sub(r"(\\[0-9a-f]+ )|(?: |/\*.*?\*/)+", shortened, text)


# What the program reads, by the word for it.
READERS: Dict[str, Callable[[Sequence[str]], Iterator[List[Any]]]] = {
    "declarations": declarations_of,
    "names": names_of,
    "statements": statements_of,
    "rules": rules_of,
}


def theirs(what: str, texts: Sequence[str], found: Sequence[Any]) -> Optional[Any]:
    """What tinycss2 reads of each text, and what was found, in the same form; None if it is missing."""
    return debian_answers(THEIRS, {"what": what, "texts": texts, "found": found}, "tinycss2")


def escaped_in_bad_url(text: str) -> bool:
    """Whether tinycss2 may misread a bad address: it takes the second of two backslashes before a
    parenthesis for an escape."""
    return "\\\\" in text and "url(" in text.lower()


def without_ends(found: Any) -> Any:
    """What tinycss2 reads, without the ends of strings and addresses: it has none where the end of
    the text closed one."""
    if isinstance(found, list):
        return list(map(without_ends, found))
    if isinstance(found, str) and found.startswith(('"', "url(")):
        return found.rstrip('"' if found[0] == '"' else ")")
    return found


def random_texts(pieces: Sequence[str], number: int, seed: int, starts: Sequence[str]) -> List[str]:
    """Random texts, the same in each run."""
    source = random.Random(seed)
    return [
        source.choice(starts)
        + "".join(source.choice(pieces) for _ in range(source.choice((3, 6, 12, 20))))
        for _ in range(number)
    ]


class Tables(Case):
    """What is read of the texts of the tables."""

    def check(self, table: Sequence[Tuple[str, Any]], read: Iterator[List[Any]]) -> None:
        """Compares what is read of each text of a table."""
        for (text, wanted), found in zip(table, read):
            with self.subTest(text=text):
                self.assertEqual(found, wanted)

    def test_blocks(self) -> None:
        self.check(BLOCKS_READ, block_declarations_of([text for text, _ in BLOCKS_READ]))

    def test_printed(self) -> None:
        """What is printed of declarations: as one list, and each with what closes its value."""
        for table, what in ((LISTS, "list"), (CLOSED, "printed")):
            for (text, wanted), found in zip(table, replies_of(what, [text for text, _ in table])):
                with self.subTest(text=text, what=what):
                    self.assertEqual(found, wanted)

    def test_order(self) -> None:
        """The order of the rules of a sheet, with a limit on their declarations that they keep and
        one that they do not."""
        for most, wanted in ((8, ORDER), (7, TOO_MANY)):
            with self.subTest(most=most):
                [items] = fields_of(f"order {most}", [SHEET])
                self.assertEqual([item[0] for item in items], wanted)

    def test_group_rules(self) -> None:
        """The rules of sheets with rules in style rules."""
        read = fields_of("order 99", [text for text, _ in IN_RULES])
        self.check(IN_RULES, ([(item[0], item[2]) for item in items] for items in read))

    def test_layers(self) -> None:
        """The rules of sheets with layers, in the order of the cascade."""
        read = fields_of("order 99", [text for text, _ in LAYERED])
        self.check(LAYERED, ([item[0] for item in items] for items in read))

    def test_statements(self) -> None:
        self.check(STATEMENTS, statements_of([text for text, _ in STATEMENTS]))

    def test_placed(self) -> None:
        """The declarations of each rule set of a sheet."""
        for (text, wanted), rules in zip(PLACED, rules_of([text for text, _ in PLACED])):
            found = block_declarations_of([block for _, _, block in rules])
            with self.subTest(text=text):
                self.assertEqual(
                    [(*rule[:2], own) for rule, own in zip(rules, found)],
                    [(where, prelude, own) for where, prelude, own in wanted],
                )

    def test_faults(self) -> None:
        read = faults_of([selectors + "{}" for selectors, _ in SELECTORS])
        self.check([(selectors, [fault]) for selectors, fault in SELECTORS], read)

    def test_selectors(self) -> None:
        read = selectors_of([selectors + "{}" for selectors, _ in READ])
        self.check(
            READ,
            ([(text, bool(shown), element) for text, shown, element, _ in items] for items in read),
        )


class Soupsieve(Case):
    def test_printed_selectors(self) -> None:
        """A selector finds what its printed text finds, where the library reads it."""
        texts = random_texts(SELECTOR_PIECES, count(4000), 3, ("",))
        read = (item for items in selectors_of([text + "{}" for text in texts]) for item in items)
        pairs = sorted({(one_blank(item[0]), item[1]) for item in read if item[1] and not item[2]})

        def soup(pairs: List[Any]) -> Optional[List[bool]]:
            work = {"page": PAGE, "selectors": pairs}
            return debian_answers(FINDS, work, "soupsieve", "bs4", "html5lib")

        def question(pair: Any, equal: bool) -> Iterator[Optional[str]]:
            yield None if equal else f"{pair[0]!r} finds others than {pair[1]!r}"

        missing = (
            "random selectors beside soupsieve: python3-soupsieve or python3-html5lib is missing"
        )
        self.against(soup, pairs, question, missing)


def kept(one: Any, answers: Any) -> Iterator[Optional[str]]:
    """Whether a browser keeps of a text what it keeps of what the program has of it."""
    first, second = ((each or "").rstrip("; ") for each in answers)
    yield row(one, second, first)


class Browser(Case):
    missing = "random blocks beside chromium, which is missing or does not answer"

    def test_style_attributes(self) -> None:
        """What a browser keeps of style attributes, and of what is printed of these. It keeps a
        custom property that is open at the end as it is written."""
        texts = random_texts(STYLE, 400, 5, ("", "color:", "--x:", "width:1px;color:"))
        texts = [
            text
            for text, found in zip(texts, declarations_of(texts))
            if not any(one[0].startswith("--") and "open" in one[2] for one in found)
        ]

        def question(one: Any, answers: Any) -> Iterator[Optional[str]]:
            yield row(one, *reversed(answers))

        printed = zip(texts, printed_of(texts))
        self.against(partial(browser_answers, STYLES), printed, question, self.missing)

    def test_group_rules(self) -> None:
        """Which declarations a browser keeps of a block with group rules in it, and in which order."""
        texts = random_texts(GROUPED, 3000, 11, ("a{", "a{color:red;", "a{p{", "a{@media all{"))
        texts = [text + "}d{color:red}" for text in texts]
        found = (
            [block for selector, _, block, _ in rules if selector == "a"]
            for rules in fields_of(f"order {10**6}", texts)
        )
        self.against(partial(browser_answers, STRETCHES), zip(texts, found), kept, self.missing)

    def test_blocks(self) -> None:
        """Which declarations a browser keeps of a block with rules in it."""
        texts = random_texts(BLOCK, 3000, 7, ("a{", "a{color:red;", "a{p{"))
        texts = [text + "}d{color:red}" for text in texts]
        found = zip(texts, first_declarations(texts))
        self.against(partial(browser_answers, BLOCKS), found, kept, self.missing)


class Tinycss2(Case):
    """What is read beside tinycss2. It misreads two backslashes in an url."""

    missing = "random texts and real sheets beside tinycss2: python3-tinycss2 is missing"

    def beside(self, what: str, texts: Sequence[str]) -> None:
        """Compares what is read of each text."""

        def judge(texts: List[str]) -> Optional[List[Any]]:
            found = theirs(what, texts, list(READERS[what](texts)))
            return found and list(zip(*found))

        def question(text: str, answers: Any) -> Iterator[Optional[str]]:
            wanted, ours = answers
            is_odd = wanted != ours and escaped_in_bad_url(text)
            yield LEFT_OUT if is_odd else row(f"{what} of {text[:200]!r}", ours, wanted)

        self.against(judge, texts, question, self.missing)

    def test_declarations(self) -> None:
        """Without braces: tinycss2 reads no rules among declarations."""
        texts = random_texts(BRACELESS, count(4000), 1, ("", "a:", "a:", "--x:", "a:b;c:"))
        self.beside("declarations", texts)

    def test_printed(self) -> None:
        """What tinycss2 reads of texts, and of what is printed of their declarations."""
        texts = random_texts(BRACELESS, count(4000), 1, ("", "a:", "a:", "--x:", "a:b;c:"))

        def judge(texts: List[str]) -> Optional[List[Any]]:
            both = [theirs("declarations", each, []) for each in (texts, printed_of(texts))]
            return None if None in both else list(zip(*(each[0] for each in both if each)))

        def question(text: str, answers: Any) -> Iterator[Optional[str]]:
            first, second = map(without_ends, answers)
            yield LEFT_OUT if escaped_in_bad_url(text) else row(f"of {text!r}", second, first)

        self.against(judge, texts, question, self.missing)

    def test_names(self) -> None:
        self.beside("names", random_texts(ESCAPES, count(4000), 4, ("", "a", "--")))

    def test_statements(self) -> None:
        self.beside("statements", random_texts(MORE, count(4000), 2, ("",)))

    def test_real_sheets(self) -> None:
        sheets = real_sheets(sheets_folder())
        for what in ("statements", "rules"):
            self.beside(what, sheets)
