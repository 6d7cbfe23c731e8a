"""What `minify` and `prettify` print beside a browser and tinycss2: random sheets have the same rules as
their printed texts, and these are printed unchanged.

The sheets are the same in each run. Each has rare pieces: nesting, layers, imports, conditions, custom
properties, `!important`, escapes, comments, descriptors, keyframes, what is broken, and an open end. Of
each rule the browser says its kind, its prelude, its declarations and the rules within. Two differences
are named: rules that have nothing may be missing, and where the browser keeps the text of a condition or
of a value, blanks and comments may be others. The browser is Debian's `chromium`, tinycss2 may be Debian's
alone; the library is built by `./build library`.
"""
from __future__ import annotations

import importlib.util
import os
import random
import re
from typing import Any, Callable, Dict, Iterator, List, Optional, Sequence

from tests.common import LEFT_OUT, Case, browser_answers, by_debian, count, package
from tests.sheets import bare_rules

package()
import simplecss  # noqa: E402

# fmt: off
GAPS = ("", "", "", " ", " ", "\n", "\t", "  ", "/**/", " /* x */ ", "/*;*/", "/*}*/", "\r\n", "\f", "/*'*/ ")
BLANKS = (" ", " ", " ", "\n", "/**/ ", " /* x */", " /*{*/ ", "\t", "\r\n", "\f")
SIMPLE = (
    "a", "b", "*", ".c", "#d", "A", "a.c", "a#d.c", "[e]", "[ e ]", "[e=f]", "[e = 'f g']", '[e~="f"]',
    "[e|=f]", "[e^='f' i]", "[e$=f s]", "[*|e]", "[|e*='\\'']", "*|*", "*|a", "|b", ":hover", "a:HOVER",
    ":first-child", ":nth-child(2n+1)", ":nth-child( 2n + 1 )", ":nth-child(-n+ 3)", ":nth-child(odd)",
    ":nth-child(+n)", ":nth-last-child( even of a , .c )", ":nth-of-type(n)", ":not(.c)", ":not( a , #d )",
    ":is(a,b)", ":is()", ":where( .c > a )", ":has( > a )", ":has(+ b,~ .c)", ":lang(en)",
    ":lang( 'de' , en )", ":dir( ltr )", ":root", ":empty", "\\61", ".\\31 x", ".a\\:b", "#\\#", ".\xe9",
    ".\\e9 a", ".--x", "._", ".-\\31 ", "a\\\n", ".a\\ b", "::before", ":before", "a::after:hover",
    "::part( x y )", "::slotted( .c )", "::highlight(x)", ":host( .c )", ":state(x)", "::-webkit-x",
    "::selection", "::cue( b )", "p/**/.c", ":is(a,1)", ".c\\", "::view-transition-group( * )", "a/**/b",
)
WITHIN = ("&", "& b", ".c &", "&.c", "&:hover", "a&", "& > &", "> a", "+ .c", "~ b", "& + &", ":is(&, a)", "&&")
WRONG = ("a..b", "1", "a >", "> > a", "&%", "a ! b", "", ":foo", "::foo()", "[a", "a|", "#1", "x y|z", ":not(")
COMBINATORS = (" ", " ", ">", " > ", "+", " + ", "~", "/**/>/**/", " ~\n", "/**/ ", " /**/", "/**/ /**/")
VALUES = {
    "color": (
        "red", "RED", "#FFF", "#abcdef", "rgb(1,2,3)", "rgb( 1 2 3 / .5 )", "hsl(1deg 2% 3%)", "r\\65 d",
        "color-mix( in srgb , red 10% , blue )", "var(--x)", "var( --x , 1 )", "var(--x,)", "currentcolor",
        "light-dark(red,blue)", "rgb(from red r g b)", "rgb(1e1 , 1.0, +3)",
    ),
    "margin": (
        "1px", "1px 2px", "1px -2px", "1px/**/2px", "1px/**/-2px", "calc(1px + 2px)", "calc( 1px - 2px ) 0",
        "calc(1px+2px)", "calc((1px + 2px) * 3)", "calc(2 * (1px + -1px))", "0 auto", "-.5em +1.50em", "1E1px",
        "min( 1px , 2em )", "clamp(1px,2vw,3px)", "0 0 0 0", "calc(1px + var( --x ))", "var(--x)var(--y)",
        "1px\\9", "1px 2", "1e-1px", "00.10px", "calc(-1 * var(--x, 1px))", "1p\\78", "env( x , 1px )",
    ),
    "content": (
        "'a'", '"a"', "'a' 'b'", "'a''b'", "'\\61 b'", "'\\a'", "'a\\\nb'", "'\"'", '"\\""', "'/* x */'",
        "attr( a )", "attr(a px,1)", "counter( x )", "counters(x,'.')", "url( a )", "url( 'a' )",
        "url(a\\)b)", "'a\nb'", "'a", "'\\", "'a' / 'b'", "'  a  '", "'}'", "';'", "'\\'' attr(a)", "url(a b)",
        "'\xe9\U0001f600'", "'\\1f600 '", "open-quote", "url(;)", "url(})", "url(/*a*/)", "''",
    ),
    "background": (
        "red", "url(a) , url( 'b' )", "url(a)no-repeat", "linear-gradient( to right , red , #00f 10% )",
        "url(data:image/png;base64,AA==)", "RED URL(a)", "none,red", "0/cover url(a)", "0 / 1px red",
        "conic-gradient(from .25turn at 0 0,red,blue)",
    ),
    "font": ("12px/1.5 serif", "12px / 1.5 'A B' , serif", "bold 1em a b", "italic  12px\tx", "1px a\\ b"),
    "transform": ("rotate(1deg)translate( 1px , 2px )", "none", "matrix(1,0,0,1,0,0)", "scale(.5) skew(1deg)"),
    "grid-template-areas": ("'a b' 'c d'", "'a  b''c d'", "none"),
    "grid-template-columns": ("[a] 1fr [b]", "[a b]1fr", "repeat( 2 , [a] 1fr )", "minmax(1px,1fr)"),
    "transition": ("all .5s cubic-bezier(.1,.2,.3,1)", "color 1s , margin 2s ease-in"),
    "aspect-ratio": ("1/2", "1 / 2", "auto 1/2", "1"),
    "animation": ("x 1s", "1s 'x'", "x 1s , y 2s steps( 2 , end )"),
    "width": ("1px", "50%", "50.0%", "+1px", "1PX", "calc(50% - 1px)", "calc(1px*2)", "calc( 1px*-2 )", "1 px"),
    "font-family": ("a, b", "'a b',serif", "a  b", "\\61  b", "a/**/b", '"a\\"b"', "-a, --b"),
    "quotes": ("'a' 'b'", "none", "'<' '>'"),
    "filter": ("drop-shadow( 1px 2px #000 )", "url(#a)", "blur(1px)brightness(50%)"),
    "clip-path": ("path('M0 0  L1 1')", "polygon( 0 0 , 1px 1px )", "inset(1px round 2px / 3px)"),
    "z-index": ("1", "-1", "+1", "1.0", "-0"), "line-height": ("1", "1.", "0.50", "1.5e0"),
}
CUSTOM = (
    "", " ", "1", "a  b", "{}", "{ a : b }", "{a;b}", "( ; )", "[ x ]", "'s'", "url( a )", "/**/", "/* x */ 1",
    "1 /* x */", "a/**/b", "a /**/ b", "}", ";", "!x", "a!important", "\\61", "a\\;b", "a\\ b", "1px+2px", "<!-- x -->",
    "-->", "'x\n'", "url(a b)", "(", ")", "#1", "@x", "@x{}", "var( --y )", "var(--y,{})", ": ;", "1/**/2",
    "{x:y;z}", "U+1-2", "a,b , c", "& x", "\xe9",
)
NAMES = ("--x", "--y", "--X", "--\\78", "--", "--1", "---", "--\xe9", "--x\\:", "-\\-x")
IMPORTANT = ("!important", " ! important ", "!IMPORTANT", "!/**/important", "! \\69mportant", "!imp ortant")
BROKEN = (
    "foo", "foo:", ":foo;", "color", "color:;", "color red;", "*zoom:1;", "color:red!;", "color:redd;", "!x;",
    "1:2;", "a b:c;", "{}", "{a:b}", "[;]", "(;)", "color:red]", "width:1px}", "color:(;)", "@foo;", "@foo{}",
    "@foo x{y:z}", "@foo{;}", "-->", "<!--", "a{", "color:url(a b);", "content:'a\n;", ";", ";;", "\\;", "@;",
    "@media;", "x:{};", "color:{red};", "a:b{c:d}", "color:red{}", "/* x */", "--x", "--x{}", "--x:hover{}",
    "_a:b;", "$a:b;", "color:\\;",
)
MEDIA = (
    "all", "print", "screen", "screen and (width>1px)", "( min-width : 3px ) and (max-width: 4px)", "not all",
    "not print", "only screen", "(width)", "screen,print", "screen , (1px<width<=2px)", "(width > 1px)",
    "", "foo", "(aspect-ratio:1/2)", "(width>=calc(1px + 2px))", "not (width)", "(width) or (height)", "1",
    "\\73 creen", "SCREEN", "(foo)", "(hover:hover)and (width)", "((width) or (hover))", ",", "(a:'b')",
    "(resolution>=2.0dppx)", "(-webkit-min-device-pixel-ratio:1.5)",
)
SUPPORTS = (
    "(color:red)", "( color : red )", "not (color:red)", "(a:b) or (color:red)", "selector( a > b )",
    "((color:red) and (margin:1px))", "(--x:{})", "(--x: )", "(foo)", "font-tech( color-COLRv1 )", "x", "",
    "(color:red!important)", "(content:'a  b')", "(width:calc(1px+2px))", "selector(:is( a , b ))",
    "not ((color:red) or (x:y))", "at-rule(@media)", "(color:red)and (x:y)",
)
CONTAINERS = (
    "(width>1px)", "x (width)", "style( --x : 1 )", "x", "not (width)", "x not (height > 1em)",
    "scroll-state(stuck: top)", "style(--x:'a')", "(inline-size >= 30.0em) and style(--y)",
)
LAYERS = ("x", "x.y", "y", "", "x , y", "X", "\\78", "1", "x y", "x . y")
IMPORTS = (
    "'x'", "url(x)", "url( 'x' )", "'x' print", "'x' layer", "'x' layer(a.b) supports(color:red) print",
    "url(x)layer( a )print,screen", "'x' supports( not (a:b) )", "x", "'x' supports((color:red)and (a:b))",
    "url(a b)", "'x'layer", "'x' screen and (width>1px)", '"x\\"y"', "url(\\61)", "'x' supports(--x: { })",
)
SCOPES = ("", "(a)", "(a) to (b)", "( .c , b ) to ( > a )", "to (b)", "(&) to (:scope > b)", "(")
PAGES = ("", ":first", "x", "x:left", ":left , :right", "x y", ":foo")
KEYS = ("from", "to", "50%", "0%,100%", "FROM , to", "12.5%", "a", "", "+50%", "entry 0%", "200%", "5e1%")
FRAMES = ("x", "'x'", "x y", "\\78", "none", "--x", "'none'", "")
FACES = (
    "font-family:x;", "font-family : 'x y' ;", "src:url( x ) , local( 'y' );", "src:url(x)format('woff2');",
    "unicode-range:U+26,u+0-7f;", "unicode-range: U+4?? , U+0025-00FF ;", "font-weight:100 900;",
    "font-display : swap;", "src:url(x)tech( variations ),url(y);", "unicode-range:U+A-B/**/,u+1e3;",
    "unicode-range:u+e;", "font-style:oblique 1deg 2deg;", "size-adjust:90%;", "foo:bar;",
)
OTHERS = (
    "@property --x{syntax : '*' ; inherits: false}",
    "@property --y{syntax:'<length>';inherits:true;initial-value: 1px }",
    "@counter-style x{system : fixed ; symbols:'a' 'b' ; suffix: ' '}", "@namespace 'x';", "@namespace a url( x );",
    "@counter-style y{system:extends decimal;range:1 infinite,2 3;negative:'(' ')'}", "@charset 'utf-8';",
    "@font-feature-values x , y{@styleset{a:1;b : 2 3}@swash{ c : 1 }}", "@view-transition{navigation : auto}",
    "@font-palette-values --x{font-family : x;base-palette:1;override-colors:0 red, 1 #fff}", "@foo;", "@foo x;",
    "@position-try --x{margin : 1px;left: anchor( --x right )}", "@foo{a{b:c}}", "@foo x , y{z}", "@layer x;",
    "@layer x , y.z;", "@layer;", "@layer x{", "@media{", "<!-- a{color:red} -->", "}", "{}", "a,{color:red}",
    "@function --f( --x ){result : var( --x )}", "@font-face;", "@keyframes;", "@supports;", "@page;", "a", "",
    "@document url(x){a{b:c}}", "@-webkit-keyframes x{from{top : 0}}", "@MEDIA all{a{color:red}}", ";", "-->",
    "@m\\65 dia all{a{color:red}}", "@import 'y';", "@charset \"utf-8\";", "/* x */", "<!--", "a;b{color:red}",
    "a[;b{color:red}", "1{color:red}", "a{color:red}}b{color:red}", "@page x{@top-left{content : 'a'}margin:1px}",
    "@container{a{}}", "@starting-style x{a{}}", "@layer x;;", "'a'{b:c}", "a'\n{b:c}", "url(a b){c:d}",
)
# fmt: on

# What the browser has of texts. The sheets that are imported are not read. A shorthand whose value has
# `var()` sets none of its longhands yet.
PAGE = """
<!DOCTYPE html><meta charset=utf-8>
<meta http-equiv=Content-Security-Policy content="default-src 'unsafe-inline'">
<script id=input type="application/json">%s</script>
<script>
const PARTS = [
    "selectorText", "conditionText", "name", "keyText", "start", "end", "href", "layerName", "supportsText",
];
const input = JSON.parse(document.getElementById("input").textContent);
function declared(style) {
    const shorthands = input.names.filter(name => style.getPropertyValue(name).includes("var("));
    const every = [...style, ...shorthands];
    const one = name => [name, [style.getPropertyValue(name), style.getPropertyPriority(name)]];
    return Object.fromEntries(every.map(one));
}
function shown(rule) {
    const found = {kind: rule.constructor.name};
    for (const part of PARTS) if (rule[part] != null) found[part] = rule[part];
    if (rule.media) found.media = rule.media.mediaText;
    if (rule.style) found.style = declared(rule.style);
    if (rule.cssRules) found.rules = [...rule.cssRules].map(shown);
    if (!rule.style && !rule.cssRules && !rule.href) found.text = rule.cssText;
    return found;
}
function read(text) {
    const made = document.createElement("style");
    made.textContent = text;
    document.head.append(made);
    const found = [...made.sheet.cssRules].map(shown);
    made.remove();
    return found;
}
const answer = input.sheets.map(texts => texts.map(read));
const escaped = c => "\\\\u" + c.charCodeAt(0).toString(16).padStart(4, "0");
const printed = JSON.stringify(answer).replace(/[^ -~]/g, escaped);
document.documentElement.textContent = "ANS" + "WER" + printed + "END";
</script>
"""

# The kinds of rules that say nothing without declarations and rules.
NESTED = "CSSNestedDeclarations"
GROUPS = (
    "CSSMediaRule",
    "CSSSupportsRule",
    "CSSContainerRule",
    "CSSScopeRule",
    "CSSStartingStyleRule",
)
EMPTY = (NESTED, "CSSStyleRule", *GROUPS)
# Where the browser keeps a text as it is: of a rule, and in values.
KEPT = ("conditionText", "supportsText", "media")
SUBSTITUTED = ("var(", "attr(", "env(")
# After and before what no blank parts anything.
OPENING, CLOSING = "([{,:<>=;", ")]},;<>="
# A string or an escaped character, blanks and comments, and another character.
PIECE = re.compile(
    r"""("(?:\\.|[^"\\])*"?|'(?:\\.|[^'\\])*'?|\\.)|((?:/\*.*?(?:\*/|\Z)|\s)+)|.""", re.DOTALL
)

# A rule that the browser has, and its declarations: the value and the importance of each property.
Rule = Dict[str, Any]
Style = Dict[str, List[str]]


class Source(random.Random):
    """Random sheets, the same in each run."""

    def gap(self) -> str:
        return self.choice(GAPS)

    def some(self, rows: Sequence[str]) -> str:
        """One of these, among gaps."""
        return self.gap() + self.choice(rows) + self.gap()

    def selectors(self, depth: int) -> str:
        """A list of selectors, some of which are wrong."""
        parts = []
        for _ in range(self.choice((1, 1, 1, 2, 3))):
            part = self.choice(WITHIN if depth > 0 and self.random() < 0.5 else SIMPLE)
            while self.random() < 0.3:
                part += self.choice(COMBINATORS) + self.choice(SIMPLE)
            parts.append(self.choice(WRONG) if self.random() < 0.03 else part)
        return ",".join(self.gap() + part + self.gap() for part in parts)

    def declaration(self) -> str:
        """A declaration, some of which are broken."""
        kind = self.random()
        if kind < 0.1:
            return self.some(BROKEN)
        if kind < 0.3:
            name, value = self.choice(NAMES), self.choice(CUSTOM)
        else:
            name = self.choice(tuple(VALUES))
            value = self.choice(VALUES[name])
            if self.random() < 0.1:
                name = self.choice((name.upper(), f"\\{ord(name[0]):x} {name[1:]}"))
        important = self.choice(IMPORTANT) if self.random() < 0.15 else ""
        end = ";" if self.random() < 0.95 else ""
        return f"{self.gap()}{name}{self.gap()}:{self.gap()}{value}{important}{self.gap()}{end}"

    def group(self) -> str:
        """What is before the block of a rule around others."""
        name, rows = self.choice(
            (
                ("@media", MEDIA),
                ("@media", MEDIA),
                ("@supports", SUPPORTS),
                ("@layer", LAYERS),
                ("@container", CONTAINERS),
                ("@scope", SCOPES),
                ("@starting-style", ("",)),
            )
        )
        return name + self.choice(BLANKS) + self.some(rows)

    def descriptors(self) -> str:
        """A rule with descriptors or keyframes."""
        kind = self.random()
        if kind < 0.4:
            inner = "".join(self.some(FACES) for _ in range(self.randrange(4)))
            return f"@font-face{self.gap()}{{{inner}}}"
        if kind < 0.8:
            frames = [
                f"{self.some(KEYS)}{{{self.block(9)}}}{self.gap()}"
                for _ in range(self.randrange(4))
            ]
            return f"@keyframes{self.choice(BLANKS)}{self.some(FRAMES)}{{{''.join(frames)}}}"
        return f"@page{self.choice(BLANKS)}{self.some(PAGES)}{{{self.block(9)}}}"

    def block(self, depth: int) -> str:
        """The inside of a block with declarations, and with rules unless it is too deep."""
        items = []
        for _ in range(self.choice((0, 1, 1, 2, 2, 3, 4))):
            is_rule = depth < 4 and self.random() < 0.25
            items.append(self.rule(depth) if is_rule else self.declaration())
        return self.gap().join(items)

    def rule(self, depth: int) -> str:
        """A rule, which is in so many others that have declarations."""
        kind = self.random()
        if kind < 0.6:
            return f"{self.selectors(depth)}{{{self.block(depth + 1)}}}"
        if kind < 0.8:
            inner = self.block(depth + 1) if depth > 0 else self.rules(depth)
            return f"{self.group()}{{{inner}}}"
        return self.descriptors() if kind < 0.9 else self.choice(OTHERS)

    def rules(self, depth: int) -> str:
        return "".join(self.rule(depth) + self.gap() for _ in range(self.randrange(4)))

    def sheet(self) -> str:
        """A sheet, of which some have an open end."""
        text = self.gap()
        while self.random() < 0.2:
            text += f"@import{self.gap()}{self.some(IMPORTS)}{self.choice((';', ';', ';', '{}'))}"
        text += "".join(self.rule(0) + self.gap() for _ in range(self.randrange(1, 5)))
        return text[: self.randrange(len(text) + 1)] if self.random() < 0.15 else text


class Flat(Source):
    """Random sheets without nested rules, as older grammars have them."""

    def block(self, depth: int) -> str:
        return super().block(9)

    def declaration(self) -> str:
        """A declaration without braces, except in comments."""
        found = super().declaration()
        bare = found.replace("/*}*/", "")
        return "" if "{" in bare or "}" in bare else found


def bare(text: str, closing: str = CLOSING) -> str:
    """A text without comments, and with the blanks that part something as one space."""
    bits = [" " if found[2] else found[0] for found in PIECE.finditer(text)]
    around = zip(["(", *bits], bits, [*bits[1:], ")"])
    return "".join(
        bit
        for before, bit, after in around
        if bit != " " or before not in OPENING and after not in closing
    )


def joined(first: Style, second: Style) -> Style:
    """The declarations of two blocks in one."""
    won = {name: each for name, each in second.items() if each[1] or not first.get(name, each)[1]}
    return {**first, **won}


def compared(rule: Rule) -> Rule:
    """A rule without what says nothing in it: declarations after such a rule are those before."""
    found = {name: bare(each) if name in KEPT else each for name, each in rule.items()}
    found["style"] = {
        name: [
            bare(value, CLOSING + ":") if any(it in value for it in SUBSTITUTED) else value,
            priority,
        ]
        for name, (value, priority) in rule.get("style", {}).items()
    }
    found["rules"] = []
    for each in compared_all(rule.get("rules", ())):
        last = found["rules"][-1] if found["rules"] else found
        if each["kind"] == NESTED and (last is found or last["kind"] == NESTED):
            last["style"] = joined(last["style"], each["style"])
        else:
            found["rules"].append(each)
    return found


def compared_all(rules: Sequence[Rule]) -> List[Rule]:
    """Rules without those that say nothing."""
    every = map(compared, rules)
    return [it for it in every if it["kind"] not in EMPTY or it["style"] or it["rules"]]


def words(text: str) -> List[str]:
    """The tokens of a text without those between them."""
    return [it.text for it in simplecss.tokens(text) if it.kind not in ("whitespace", "comment")]


def shown(selector: str) -> List[str]:
    """A selector as it is printed, or its tokens if it goes with an outer one."""
    try:
        return [str(simplecss.Selector(selector))]
    except simplecss.SelectorError:
        return words(selector)


def declared(text: str) -> List[Any]:
    """The declarations that the package reads, by what they are in."""
    found: Dict[str, List[Any]] = {}
    for rule in simplecss.StyleSheet(text, limit=None).rules:
        # The package has names as they are written, of which `@m\\65 dia` has an escape.
        conditions = [
            (each.name.replace("\\65 ", "e"), words(each.prelude)) for each in rule.conditions
        ]
        parents = list(map(words, rule.parents))
        place = f"{conditions} {parents} {shown(rule.selector)} {words(rule.pseudo_element or '')}"
        found.setdefault(place, []).extend(
            (each.name, words(each.value), each.important) for each in rule.declarations
        )
    return [each for each in found.items() if each[1]]


class Printed(Case):
    """Random sheets and their printed texts."""

    def setUp(self) -> None:
        source = Source(int(os.environ.get("SEED", 76)))
        self.texts = [source.sheet() for _ in range(count(2_000))]
        self.layouts = (simplecss.minify, simplecss.prettify)

    def question(
        self, read: Callable[[str], Any], is_left_out: Callable[[str], bool] = lambda shown: False
    ) -> Callable[[str, Any], Iterator[Optional[str]]]:
        """Asks whether what is read of each printed text is what is read of the sheet."""

        def rows(text: str, due: Any) -> Iterator[Optional[str]]:
            for printed in [layout(text) for layout in self.layouts]:
                found = read(printed)
                if is_left_out(f"{due}{found}"):
                    yield LEFT_OUT
                else:
                    yield None if found == due else f"{text!r}: {due}, but {found} of {printed!r}"

        return rows

    def test_browser(self) -> None:
        """The browser has the same rules of both texts."""

        def browser(texts: List[str]) -> Optional[List[Any]]:
            rows = [[text, *(layout(text) for layout in self.layouts)] for text in texts]
            return browser_answers(PAGE, {"sheets": rows, "names": list(VALUES)})

        def question(text: str, answers: Any) -> Iterator[Optional[str]]:
            due, *printed = map(compared_all, answers)
            for rules in printed:
                yield None if rules == due else f"{text!r}: {due}, but {rules}"

        self.against(browser, self.texts, question, "rules of printed sheets: no browser answers")

    def test_tinycss2(self) -> None:
        """tinycss2 reads the same rules of both texts, but for blanks, where no rule is nested. A text
        that it takes for one with a rule in a value is left out, at most one in a hundred."""
        if not importlib.util.find_spec("tinycss2"):
            return by_debian(self, "tinycss2", "rules of printed sheets beside tinycss2")
        source = Flat(77)
        texts = [source.sheet() for _ in self.texts]
        question = self.question(bare_rules, lambda shown: "{" in shown)
        left_out = self.against(lambda asked: list(map(bare_rules, asked)), texts, question)
        self.assertLessEqual(left_out, 0.01 * len(self.layouts) * len(texts))

    def test_package(self) -> None:
        """The package reads the same declarations of both texts."""
        self.against(lambda texts: list(map(declared, texts)), self.texts, self.question(declared))

    def test_again(self) -> None:
        """A printed text is printed as it is, and most texts are printed otherwise."""
        for layout in self.layouts:
            printed = [layout(text) for text in self.texts]
            self.sweep(
                len(printed), [f"{it!r}: {layout(it)!r}" for it in printed if layout(it) != it]
            )
            changed = sum(map(str.__ne__, printed, self.texts))
            self.assertGreater(changed, 0.7 * len(self.texts), layout.__name__)

    def test_lengths(self) -> None:
        """A short text is never longer."""
        printed = map(simplecss.minify, self.texts)
        longer = [text for text, it in zip(self.texts, printed) if len(it) > len(text)]
        self.sweep(len(self.texts), longer)
