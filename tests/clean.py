"""Texts of strangers, cleaned, beside a browser: what it requests, what it reads, and what changes outside of
the scope, before and after.

The browser is Debian's `chromium`, the texts are cleaned by the C library. Requests are counted by a server on this
machine.
Each threat is an input of which the browser requests a url, or which reaches out of its place otherwise; the
table says which it requests. Random style attributes and sheets are of rare pieces; the browser's own object
model says what of them is within the policy, and has to be kept.
"""
from __future__ import annotations

import ctypes
import http.server
import itertools
import os
import random
import re
import threading
from typing import Any, Dict, Iterable, List, NamedTuple, Optional, Sequence, Set, Tuple

from tests.common import TOP, Case, browser_answers, count, library_path, row
from tests.library_calls import (
    DONE,
    NO_LIMIT,
    PolicyArrays,
    call,
    lines_of,
    listed_policy,
    numbers_call,
    policy_of,
)

PAGE = """<!DOCTYPE html><html class=host style="--host:5px"><meta charset=utf-8>
<style>@layer host{p{color:#010203}}@keyframes k{from{opacity:.5}}:root{--hc:#040506}
.host{color:var(--hc)}*{transition:none!important}</style>
<body class=host><p id=h class=host>x</p><a href=x class=host>l</a>
<div class=wrap><p>before</p><div class=mail id=mail><p class=x>in <a href=y>a</a> <b>b <c-c>c</c-c></b></p>
<div><p>q</p><a>z</a></div><input value=abc></div><p class=x>after</p><a b="}">x</a></div>
<div id=slot></div><script>const input = %s;</script><script>SCRIPT</script>"""
# What the C library is asked for: to clean a text of a form, and whether one is clean.
SHEET, STYLE, IS_CLEAN, URLS = 0, 1, 2, 6
# The policy of the tests, besides the pseudo-classes and the words of media queries for mails.
PROPERTIES = (b"color", b"background", b"background-color", b"width", b"font-size")
FUNCTIONS = (b"rgb", b"rgba", b"hsl", b"hsla", b"calc", b"var")

# What a policy has where urls are answered.
URL_PROPERTIES = (
    *(b"background", b"content", b"cursor", b"list-style", b"list-style-image", b"mask", b"border"),
    *(b"border-image", b"font-family", b"shape-outside"),
)
URL_FUNCTIONS = (
    *(b"url", b"src", b"image", b"image-set", b"-webkit-image-set", b"-webkit-cross-fade", b"type"),
    *(b"var", b"attr", b"if", b"linear-gradient"),
)

# Pieces of style attributes: what is rare, and what goes on after it.
# fmt: off
PIECES = (
    'color:red', 'color: RED', 'background:url(http://evil/1)', "background:url('http://evil/2')",
    'posi\\74ion:fixed', 'position:fixed', 'position/**/:fixed', 'width:expression(1)',
    '--a:url(http://evil/3)', 'background:var(--a)', 'background:u\\72l(http://evil/4)',
    "background:image-set('http://evil/5' 1x)", 'color:red;}position:fixed', '{', '}', '(', ')',
    '[', ']', "'", '"', '/*', '*/', '\\', '\n', ';', ':', '!important', 'url(',
    "@import 'http://evil/6';", '</style>', '<!--', '-->', '&:hover{position:fixed}',
    '@media screen{position:fixed}', 'color', '\x00',
    'background:-webkit-image-set(url(http://evil/7) 1x)', "background:src('http://evil/8')",
    'COLOR:blue', 'background:URL(http://evil/9)', 'width:10px', 'width : calc( 1px + 2px )',
    'font-size:12px/**/', 'font-size:1/**/2px', 'color:rgb(1,2,3)', 'color:r\\67 b(4,5,6)',
    'background:red', 'background:linear-gradient(red,blue)', 'co\\6cor:green',
    'color:green!IMPORTANT', 'color:green ! important', 'color:blue !ie', '*color:red',
    '_color:red', 'color:red\\9', 'width:1px\\', 'filter:url(#x)', 'background:element(#a)',
    'background:cross-fade(url(http://evil/a),red)', 'background:paint(x)',
    'color:attr(data-x type(<color>))', 'width:attr(data-w px)', 'content:url(http://evil/b)',
    'cursor:url(http://evil/c),auto', '-webkit-mask:url(http://evil/d)',
    'behavior:url(http://evil/e)', '-moz-binding:url(http://evil/f)',
    'background:if(style(--x:1):url(http://evil/g);else:red)', '\x0c', '\r', '\t', '\xe9',
    '\u2028', 'width:10PX', 'color:#fff', 'color:#12', 'font-size:1e3px', 'width:+.5em',
    'color:currentColor', 'background:no-repeat', 'background:url( http://evil/h )',
    'background:url("http://evil/i', 'background-color:transparent', 'width:-1px', 'x{', '\\}',
    '\\{', '\\;', '%', '@', '$', '~', '|', '||', 'width:1px}', 'width:var(--a,url(http://evil/j))',
    'width:env(x)', 'font-family:url(http://evil/k)',
)
# fmt: on

# Declarations with urls, each with `$` for one of its own, and what may carry one to another.
# fmt: off
URL_PIECES = (
    'background:url($)', "background:url('$')", 'background:URL( "$" )', 'background:u\\72l($)',
    "background:url('$'),url($)", "background:image-set('$' 1x, url($) 2x)",
    "background:image-set('$' type('image/png'))", "background:-webkit-image-set('$' 1x)",
    "background:image-set(var(--a) 1x)", "background:src('$')", "background:src(var(--a))",
    "background:image('$')", '--a:url($)', "--a:'$'", '--b:image-set(var(--a) 1x)',
    'background:var(--a)', 'background:var(--b)', 'background:var(--q-a)', 'background:var(--none,url($))',
    "background:url(var(--a))", "content:'$'", "content:url($)", "content:image-set('$' 1x)",
    "content:'a' image-set(attr(data-u) 1x)", "content:attr(data-u type(<image>))",
    "background:image-set(attr(data-u) 1x)", "background:attr(data-u type(<url>))",
    "cursor:url('$'),auto", 'list-style:url($)', 'list-style-image:url("$")', 'mask:url($)',
    'border:1px solid;border-image:url($) 1', 'background:-webkit-cross-fade(url($),url($),50%)',
    "background:url('$", 'background:url($', "background:url('\\$')", 'background:url("$"x)',
    "background:url($)!important", "--a:1;background:if(style(--a:1):url($);else:none)",
    "background:linear-gradient(red,blue),url($)", "font-family:'$'", 'shape-outside:url($)',
)
# fmt: on

# Preludes of rules, and what is none.
# fmt: off
SELECTORS = (
    'a', 'a, b', '*', 'body', 'html > p', ':root', 'a:hover', '.x\\:y', 'a:is(b, c)', '&', '& a',
    'a{', '}', 'a::before', "a[b='}']", '\\', 'a,', '@media screen', '@media (a', '@layer x',
    '@supports (color:red)', "@import 'http://evil/i';", '@font-face', '@keyframes k', '/*', '*/',
    '<!--', '-->', '</style>', 'a b > c', 'svg|a', "@namespace svg 'u';", '@scope (a)',
    '@container (width>1px)', ':not(', '::slotted(a)', ':host', "@charset 'x';", '\x00a', '@page',
    '~ p', '+ p', '> p', 'p ~ p', 'p + p', 'a:not(.x)', ':is(body,html)', '*:not(.mail)',
    'a:has(~ p)', 'a:nth-child(2n+1 of p)', ':nth-child(2n + 1)', '[class]', '[style*=c]',
    'p.host', '#h', '@media (max-width:9999px)', '@media screen and (min-width:1px),print',
    '@media not all', '@media screen{p', '@MEDIA all', '@property --x', '@counter-style k',
    '@layer a,b;', '@position-try --k', '@view-transition', '@starting-style', '::view-transition',
    'a||b', 'a >>> b', 'a /deep/ b', '::-webkit-scrollbar', '::part(x)', '::selection',
    'a:where(body *)', '[a="</style>"]', '[a="\\"]', '[b=\'"\']', '.\xe9', '-->a', 'a--',
    'p:first-child', '|a', '*|a', 'p:lang(en)', ':scope', ':scope p', ':scope ~ p', 'div:target',
    'html body > p', ':root p, BODY a', 'body.x p', ':host > *', 'body + p', 'body>', 'html>body b',
    'a@b', 'a;b', 'a!b', '(a)', 'a[b', 'a]', '.a\\:b .c\\/d', '.w-1\\/2', 'a\\,b', '.a\\{b',
    '.\\31 0', '.\\2c x', '\\62 ody p', '.\\a', '.a\\3c b', '\\26  p', 'a\\20 b',
)
# fmt: on

# Declarations in rules, and what is none.
# fmt: off
DECLARATIONS = (
    'color:red', 'background:url(http://evil/1)', 'position:fixed', 'posi\\74ion:fixed',
    '--a:url(http://evil/3)', '--host:evil', 'background:var(--a)',
    'background:u\\72l(http://evil/4)', '{', '}', '(', '[', "'", '"', '\n', ';', '!important',
    '&:hover{position:fixed;color:red}', 'b{color:red}', '@media print{color:blue;position:fixed}',
    'width:1px', '}*{position:fixed', "background:src('http://evil/8')", '/*', '*/', '\\',
    'color:blue!important', 'font-size:9px', 'background:red', 'background-color:#123',
    'width:calc(1px + 2px)', 'animation:k 1s', "content:'x'", 'color:red}p{color:green',
    'width:2px;;', '~p{color:red}', '@layer x{*{color:red}}',
)
# fmt: on

# At-rules, what is in them, and which of them a policy may list.
# fmt: off
AT_RULES = (
    '@media screen', '@media (min-width:1px)', '@media (width>1px)', '@MEDIA all',
    '@supports (display:grid)', '@supports (color:red) and (not (float:none))', '@supports selector(a)',
    '@supports (color:rgb(0 0 0))', '@supports (background:url(http://evil/1))', "@supports (content:'x')",
    '@supports (width:50%) or (color:#fff)', '@supports (--a:b)', '@SUPPORTS (color:red)',
    '@container (min-width:1px)', '@container host (min-width:1px)', '@container style(--host:1)',
    '@container not (orientation:landscape)', '@layer host', '@layer', '@layer a,host;', '@layer a.b',
    '@layer h\\6fst', '@LAYER b', '@layer\tc ', '@layer 1a', '@keyframes k', '@keyframes "k"',
    '@KEYFRAMES k', '@-webkit-keyframes k', '@keyframes k-2', '@keyframes k l', '@font-face',
    '@counter-style k', '@scope (a)', '@property --x', '@page', '@starting-style', '@\\6c ayer d', '',
)
IN_AT_RULES = (
    'p{color:red}', 'a, b > a{color:green}', 'body{color:blue}', '~ p{color:red}', 'from{color:red}',
    'to{color:green}', '0%, 50.5%{color:blue}', '20%{position:fixed}', 'entry 0%{color:red}',
    'p{position:fixed}', '@media print{p{color:red}}', '@layer host{p{color:red}}', 'a{color:red;b{color:blue}}',
    '}', '/*', "'", 'color:red;', '150%{color:red}', 'FROM{color:red}', ':root a{color:red}',
)
LISTED_AT_RULES = (b"@supports", b"@container", b"@layer", b"@keyframes")
# fmt: on

# Each threat: its name, where it is, the text, with `$` for a url of its own, and whether the browser
# requests it.
THREATS = (
    ("url", "style", "background:url($)", True),
    ("url quoted", "style", "background:url('$')", True),
    ("url escaped name", "style", "background:u\\72l($)", True),
    ("url upper", "style", "background:URL($)", True),
    ("url in font", "style", "list-style:url($)", True),
    ("image-set string", "style", "background:image-set('$' 1x)", True),
    ("-webkit-image-set", "style", "background:-webkit-image-set(url($) 1x)", True),
    ("src()", "style", "background:src('$')", False),
    ("cross-fade", "style", "background:-webkit-cross-fade(url($),url($),50%)", True),
    ("custom property", "style", "--x:url($);background:var(--x)", True),
    ("var fallback", "style", "background:var(--none,url($))", True),
    ("cursor", "style", "cursor:url($),auto", True),
    ("content", "style", "content:url($)", True),
    ("border-image", "style", "border:1px solid;border-image:url($) 1", True),
    ("mask", "style", "mask:url($)", True),
    ("filter", "style", "filter:url($#x)", False),
    ("shape-outside", "style", "float:left;shape-outside:url($)", True),
    ("offset-path", "style", "offset-path:url($#p)", False),
    ("if()", "style", "--x:1;background:if(style(--x:1):url($);else:none)", True),
    ("attr() typed", "style", "background:attr(data-u type(<image>))", False),
    ("expression", "style", "width:expression(alert(1))", False),
    ("-moz-binding", "style", "-moz-binding:url($)", False),
    ("behavior", "style", "behavior:url($)", False),
    ("overlay", "style", "position:fixed;inset:0;z-index:99999", False),
    ("overlay escaped", "style", "posi\\74ion:fixed", False),
    ("overlay by margin", "style", "margin-top:-9999px", False),
    ("overlay by size", "style", "width:99999px;height:99999px", False),
    ("hide all", "style", "font-size:0;color:transparent", False),
    ("unbalanced )", "style", "color:red);position:fixed", False),
    ("unbalanced }", "style", "color:red}body{display:none}", False),
    ("open string", "style", "font-family:'x;color:red", False),
    ("open comment", "style", "color:red;/* ", False),
    ("bad string", "style", "font-family:'a\n;color:red", False),
    ("lone backslash", "style", "color:red\\", False),
    ("end of style", "style", "font-family:'</style><script>alert(1)</script>'", False),
    ("end of attribute", "style", 'font-family:"x" onclick=alert(1)', False),
    ("html comment", "style", "font-family:--> x <!--", False),
    ("NUL", "style", "color:r\x00ed", False),
    ("token leak", "style", "--brand:red", False),
    ("host token", "style", "color:var(--brand)", False),
    ("all", "style", "all:initial", False),
    ("animation clash", "style", "animation:host 1s", False),
    ("counter clash", "style", "counter-reset:page", False),
    ("important", "style", "color:red!important", False),
    ("unicode name", "style", "\u217dolor:red", False),
    ("\\9 hack", "style", "color:red\\9", False),
    ("* hack", "style", "*color:red", False),
    ("@import", "sheet", "@import '$';p{color:red}", True),
    ("@import url", "sheet", "@import url($);", True),
    ("@font-face", "sheet", "@font-face{font-family:x;src:url($)}p{font-family:x}", True),
    ("@namespace", "sheet", "@namespace url($);p{color:red}", False),
    ("exfiltrate", "sheet", "input[value^='a']{background:url($)}", True),
    ("exfiltrate without url", "sheet", "input[value^='a']{color:red}", False),
    ("body, html", "sheet", "html,body{background:red}", False),
    (":root token", "sheet", ":root{--brand:red;color:blue}", False),
    (":host", "sheet", ":host{color:red}", False),
    ("&", "sheet", "&{color:red} & + p{color:red}", False),
    ("sibling", "sheet", "~ p{color:red} + p{color:red}", False),
    ("sibling in list", "sheet", "a, ~ p{color:red}", False),
    ("nested &", "sheet", "p{color:red;body &{color:blue} :root &{color:blue}}", False),
    ("nested ~", "sheet", "p{~ *{color:blue}}", False),
    ("unbalanced", "sheet", "p{color:red}}body{color:blue}", False),
    ("open rule", "sheet", "p{color:red;", False),
    ("end of style", "sheet", "p{color:red}</style><script>alert(1)</script>", False),
    ("in a selector", "sheet", "[a='</style>']{color:red}", False),
    ("comment", "sheet", "/* </style> */p{color:red}", False),
    ("escaped selector", "sheet", "\\62 ody{color:red}", False),
    (":is", "sheet", ":is(body){color:red}", False),
    (":has out", "sheet", "p:has(~ a){color:red}", False),
    (":not all", "sheet", ":not(.x){color:red}", False),
    ("@layer", "sheet", "@layer a,b;@layer a{p{color:red}}", False),
    ("@property", "sheet", "@property --brand{syntax:'*';inherits:true;initial-value:red}", False),
    ("@keyframes", "sheet", "@keyframes host{from{opacity:0}}", False),
    ("@counter-style", "sheet", "@counter-style decimal{system:fixed;symbols:'x'}", False),
    ("@page", "sheet", "@page{margin:0}", False),
    ("@scope", "sheet", "@scope (body){:scope{color:red}}", False),
    ("@container", "sheet", "@container style(--x:1){p{color:red}}", False),
    ("@view-transition", "sheet", "@view-transition{navigation:auto}", False),
    ("@charset", "sheet", "@charset 'utf-7';p{color:red}", False),
    ("@media", "sheet", "@media (max-width:600px){p{color:red;position:fixed}}", False),
    ("@media exfiltrates", "sheet", "@media (min-width:500px){p{background:url($)}}", True),
    ("@supports", "sheet", "@supports (background:url($)){p{color:red}}", False),
    ("scroll bar", "sheet", "::-webkit-scrollbar{background:url($)}", True),
    ("::part", "sheet", "::part(x){color:red}", False),
    ("view transitions", "sheet", "::view-transition{display:none}", False),
    ("declaration then rule", "sheet", "color:red;p{color:blue}", False),
)
# More threats: more brackets than are read.
DEEP = ("64 brackets", "sheet", "a" + ":not(" * 70 + "b" + ")" * 70 + "{color:red}", False)


class Names(NamedTuple):
    """What a policy of the tests has of names, and whether rules may be for the scope itself."""

    properties: Sequence[bytes]
    pseudos: Sequence[bytes]
    media: Sequence[bytes]
    itself: bool = False

    def arrays(self) -> PolicyArrays:
        """The policy, for the library."""
        lists = self.properties, FUNCTIONS, (), self.pseudos, self.media
        return policy_of(b".mail", *lists, itself=int(self.itself))

    def said(self) -> Dict[str, Any]:
        """The policy, for the browser."""
        lists = {"properties": self.properties, "pseudos": self.pseudos, "media": self.media}
        words = {name: [each.decode() for each in all_of] for name, all_of in lists.items()}
        return {**words, "itself": self.itself}


class Made(NamedTuple):
    """What is kept of a text, and the pieces that are dropped: two offsets and a reason."""

    text: str
    dropped: List[Tuple[int, int, str]]


class Cleaner:
    """The C library, with the policy of the tests and that for mails."""

    def __init__(self) -> None:
        self.library = ctypes.CDLL(library_path())
        lines = lines_of(self.library, "mail")
        self.reasons = [each.decode() for each in lines["reasons"]]
        self.mail = listed_policy(self.library, b".mail", "mail")
        self.names = Names(PROPERTIES, lines["pseudos"], lines["media"])
        self.tests = self.names.arrays()

    def bytes_of(self, name: str, *arguments: Any) -> bytes:
        """What a call writes."""
        _, _, length, _ = call(self.library, name, arguments, 0)
        status, out, length, _ = call(self.library, name, arguments, length)
        assert status == DONE, status
        return out[:length]

    def made(self, text: str, form: int, policy: PolicyArrays) -> Made:
        """What is made of a text of a form."""
        arguments = (text.encode("utf-8"), policy, form)
        kept = self.bytes_of("simplecss_clean", *arguments).decode("utf-8")
        _, length, _ = numbers_call(self.library, "simplecss_dropped", arguments, 0, NO_LIMIT)
        _, _, found = numbers_call(self.library, "simplecss_dropped", arguments, length, NO_LIMIT)
        rows = zip(*[iter(found[:length])] * 3)
        return Made(kept, [(start, end, self.reasons[why]) for start, end, why in rows])

    def is_clean(self, text: str, form: int) -> bool:
        """Whether a text of a form is clean, by the policy of the tests."""
        arguments = (text.encode("utf-8"), self.tests, IS_CLEAN + form)
        return self.bytes_of("simplecss_clean", *arguments) == b"true"


def ask(kind: str, work: Sequence[Any], base: str = "") -> Optional[List[Any]]:
    """What the browser says of texts, in this kind of question."""
    with open(os.path.join(TOP, "tests", "clean.js"), encoding="utf-8") as file:
        script = file.read().replace("%", "%%")
    page = PAGE.replace("SCRIPT", script)
    return browser_answers(page, {"kind": kind, "work": list(work), "base": base})


class Server:
    """A server on this machine that notes which paths are requested."""

    def __init__(self) -> None:
        noted: Set[str] = set()

        class Handler(http.server.BaseHTTPRequestHandler):
            """Answers nothing."""

            def do_GET(self) -> None:
                """Notes the path."""
                noted.add(self.path)
                self.send_response(404)
                self.end_headers()

            def log_message(self, *words: object) -> None:
                """Prints nothing."""

        self.requested = noted
        self.server = http.server.ThreadingHTTPServer(("127.0.0.1", 0), Handler)
        self.base = f"http://127.0.0.1:{self.server.server_port}/"
        threading.Thread(target=self.server.serve_forever, daemon=True).start()

    def paths(self, work: Sequence[Tuple[str, str]]) -> Optional[Set[str]]:
        """The paths that the browser requests for texts, each with its form."""
        self.requested.clear()
        if ask("threats", work, self.base) is None:
            return None
        return {path for path in self.requested if "favicon" not in path}

    def close(self) -> None:
        """Ends the server."""
        self.server.shutdown()
        self.server.server_close()


def random_styles(number: int) -> List[str]:
    """Random style attributes."""
    chance = random.Random(92)
    ends = ("", ";", ";", " ")
    return [
        "".join(chance.choice(PIECES) + chance.choice(ends) for _ in range(chance.randint(1, 7)))
        for _ in range(number)
    ]


def random_urls(number: int, base: str) -> List[Tuple[str, str]]:
    """Random style attributes and rules with urls, each with its form."""
    chance = random.Random(95)
    made = []
    for index in range(number):
        pieces = ";".join(chance.choice(URL_PIECES) for _ in range(chance.randint(1, 4)))
        parts = pieces.split("$")
        urls = [f"{base}{index}-{at}" for at in range(len(parts) - 1)]
        text = "".join(
            itertools.chain.from_iterable(itertools.zip_longest(parts, urls, fillvalue=""))
        )
        made.append(
            ("style", text) if index % 4 else ("sheet", f"p:nth-child({index + 4}){{{text}}}")
        )
    return made


def random_rule(chance: random.Random) -> str:
    """A random rule, which may be none."""
    inner = (
        chance.choice(DECLARATIONS) + chance.choice((";", "")) for _ in range(chance.randint(0, 4))
    )
    opened = chance.choice(SELECTORS) + chance.choice(("{", " {", "", " "))
    return opened + "".join(inner) + chance.choice(("}", "", ""))


def random_sheets(number: int) -> List[str]:
    """Random sheets."""
    chance = random.Random(93)
    return [
        "".join(random_rule(chance) for _ in range(chance.randint(1, 4))) for _ in range(number)
    ]


def random_at_rules(number: int) -> List[str]:
    """Random sheets of at-rules."""
    chance = random.Random(97)

    def one() -> str:
        """An at-rule, which may be none."""
        inner = "".join(chance.choice(IN_AT_RULES) for _ in range(chance.randint(0, 3)))
        return f"{chance.choice(AT_RULES)}{{{inner}}}"

    return ["".join(one() for _ in range(chance.randint(1, 3))) for _ in range(number)]


def random_names(number: int, usual: Names) -> List[Names]:
    """Random policies, of some names of the usual one."""
    chance = random.Random(94)

    def some(names: Sequence[bytes]) -> List[bytes]:
        """Most of the names."""
        return [name for name in names if chance.random() < 0.8]

    return [
        Names(some(usual.properties), some(usual.pseudos), some(usual.media), chance.random() < 0.5)
        for _ in range(number)
    ]


def is_refused(text: str) -> bool:
    """Whether the text may have what the policy refuses and the browser's object model hides: a comment, a string, a
    namespace, or U+0000."""
    return bool(re.search(r"['\"\0|]|/\*", text))


def of_style(case: Tuple[str, str], said: Dict[str, Any]) -> Iterable[Optional[str]]:
    """A row for each question about a style attribute and what is kept of it."""
    raw, clean = case
    due = {"bad": False, "framed": True, "closed": True, "more": []}
    for name, value in due.items():
        yield row(f"{raw!r} -> {clean!r}, {name}", said[name], value)
    if not is_refused(raw):
        yield row(f"{raw!r} -> {clean!r}, lost", said["lost"], [])


def of_sheet(case: Tuple[str, str], said: Dict[str, Any]) -> Iterable[Optional[str]]:
    """A row for each question about a sheet and what is kept of it."""
    raw, clean = case
    yield row(f"{raw!r} -> {clean!r}, outside of the policy", said["bad"], [])
    yield row(f"{raw!r} -> {clean!r}, in the page", said["after"], {"framed": True, "same": True})
    if not is_refused(raw):
        yield row(f"{raw!r} -> {clean!r}, lost", said["lost"], [])
        yield row(f"{raw!r} -> {clean!r}, added", said["more"], [])


def of_at_rules(case: Tuple[str, str], said: Dict[str, Any]) -> Iterable[Optional[str]]:
    """A row for each question about a sheet of at-rules and what is kept of it."""
    raw, clean = case
    yield row(f"{raw!r} -> {clean!r}, in the page", said["after"], {"framed": True, "same": True})
    yield row(f"{raw!r} -> {clean!r}, others", [said["others"], said["long"]], [[], 0])
    if not is_refused(raw) and "\\" not in raw:
        yield row(f"{raw!r} -> {clean!r}, at-rules", said["made"], said["wanted"])


def without(text: str, pieces: Sequence[Tuple[int, int, str]]) -> str:
    """A text with a space in place of the pieces, of which one may be in another."""
    encoded = text.encode("utf-8")
    left, at = [], 0
    for start, end, _ in sorted(pieces):
        left.append(encoded[at:start])
        at = max(at, end)
    return b" ".join([*left, encoded[at:]]).decode("utf-8")


class Clean(Case):
    """Texts, cleaned."""

    cleaner: Cleaner

    @classmethod
    def setUpClass(cls) -> None:
        cls.cleaner = Cleaner()

    def made(self, form: int, texts: Sequence[str]) -> List[Made]:
        """What is made of texts by the policy of the tests."""
        return [self.cleaner.made(text, form, self.cleaner.tests) for text in texts]

    def test_threats(self) -> None:
        """No url of a threat is requested once it is cleaned, and those of the table are before."""
        server = Server()
        self.addCleanup(server.close)
        threats = [*THREATS, DEEP]
        forms = [form for _, form, _, _ in threats]
        texts = [
            text.replace("$", f"{server.base}u{number}")
            for number, (_, _, text, _) in enumerate(threats)
        ]
        raw = server.paths(list(zip(forms, texts)))
        cleaned = [
            self.cleaner.made(text, STYLE if form == "style" else SHEET, self.cleaner.mail).text
            for form, text in zip(forms, texts)
        ]
        after = server.paths(list(zip(forms, cleaned)))
        if raw is None or after is None:
            self.skipTest("no browser answers")
        self.assertEqual(after, set(), "requested of what is cleaned")
        for number, (name, _, _, is_requested) in enumerate(threats):
            with self.subTest(threat=name):
                self.assertEqual(
                    f"/u{number}" in raw, is_requested, f"{name} is requested as it is"
                )

    def test_urls(self) -> None:
        """Of random style attributes and rules, whose urls are answered at random, the browser requests what was
        answered, and nothing else."""
        server = Server()
        self.addCleanup(server.close)
        raw = random_urls(count(300), server.base)
        chance, answered, made = random.Random(96), set(), []
        for form, text in raw:
            urls = self.cleaner.bytes_of(
                "simplecss_clean", text.encode("utf-8"), self.cleaner.tests, URLS
            )
            answers = {}
            for url in urls.split(b"\0")[:-1]:
                if url.startswith(server.base.encode()) and chance.random() < 0.6:
                    answers[url] = url + chance.choice((b"", b"/other", b"/(%20')"))
            answered |= {answer.decode()[len(server.base) - 1 :] for answer in answers.values()}
            lists = URL_PROPERTIES, URL_FUNCTIONS, (b"content", b"font-family"), (), ()
            policy = policy_of(b"#mail", *lists, prefix=b"q-", urls=list(answers.items()))
            kept = self.cleaner.made(text, STYLE if form == "style" else SHEET, policy).text
            again = "simplecss_clean", kept.encode("utf-8"), policy
            form_asked = IS_CLEAN + (STYLE if form == "style" else SHEET)
            self.assertEqual(self.cleaner.bytes_of(*again, form_asked), b"true", kept)
            made.append((form, kept))
        before, after = server.paths(raw[:300]), set()
        if before is None:
            self.skipTest("no browser answers")
        for at in range(0, len(made), 1000):
            found = server.paths(made[at : at + 1000])
            if found is None:
                self.skipTest("no browser answers")
            after |= found
        self.assertEqual(after - answered, set(), "requested, and not answered")
        self.assertGreater(len(after), len(answered) // 4, "nothing to judge")
        self.assertTrue(before - answered, "nothing to judge")

    def test_styles(self) -> None:
        """Random style attributes: nothing outside of the policy, nothing ended, nothing lost."""
        raw = random_styles(count(3000))
        clean = [each.text for each in self.made(STYLE, raw)]
        self.assertEqual([each.text for each in self.made(STYLE, clean)], clean, "cleaned again")
        unclean = [text for text in clean if not self.cleaner.is_clean(text, STYLE)]
        self.assertEqual(unclean, [], "cleaned, and not clean")
        said = self.cleaner.names.said()
        answers = ask("style", [(*each, said) for each in zip(raw, clean)])
        self.against(lambda asked: answers, list(zip(raw, clean)), of_style)
        for name, least in (("wasBad", 5), ("wasFramed", 15), ("wasClosed", 5)):
            is_broken = [one[name] == (name == "wasBad") for one in answers or []]
            few = len(is_broken) // least // 4
            self.assertGreater(sum(is_broken), few, f"{name}: nothing to judge")

    def test_stored(self) -> None:
        """Random style attributes that are clean as they are: nothing of them is dropped, and the browser finds
        nothing outside of the policy. Those that have something outside of it are not clean."""
        raw = random_styles(count(3000))
        found = [self.cleaner.is_clean(text, STYLE) for text in raw]
        for text, is_clean, one in zip(raw, found, self.made(STYLE, raw)):
            if is_clean:
                self.assertEqual(one.dropped, [], text)
        self.assertGreater(sum(found), len(raw) // 40, "nothing to judge")
        said_of = self.cleaner.names.said()
        answers = ask("style", [(text, text, said_of) for text in raw])
        if answers is None:
            self.skipTest("no browser answers")
        wrong = [
            text
            for text, is_clean, said in zip(raw, found, answers)
            if is_clean and (said["bad"] or not said["framed"] or not said["closed"])
        ]
        self.assertEqual(wrong, [])

    def sheets(self, raw: Sequence[str], policies: Sequence[Names]) -> List[Any]:
        """What the browser says of sheets, each by its policy: nothing is outside of it and of the scope, and
        nothing that is within is lost."""
        made = [self.cleaner.made(text, SHEET, each.arrays()) for text, each in zip(raw, policies)]
        whole = [found for found in made if any(each[2] == "unclean" for each in found.dropped)]
        self.assertEqual(whole, [], "dropped whole, since what was kept was not clean")
        clean = [each.text for each in made]
        answers = ask("sheet", list(zip(raw, clean, (each.said() for each in policies))))
        self.against(lambda asked: answers, list(zip(raw, clean)), of_sheet)
        return answers or []

    def test_sheets(self) -> None:
        """Random sheets, by one policy."""
        raw = random_sheets(count(1200))
        answers = self.sheets(raw, [self.cleaner.names] * len(raw))
        clean = [each.text for each in self.made(SHEET, raw)]
        unclean = [text for text in clean if not self.cleaner.is_clean(text, SHEET)]
        self.assertEqual(unclean, [], "cleaned, and not clean")
        changed = [one for one in answers if not one["before"]["same"]]
        self.assertGreater(len(changed), len(answers) // 40, "nothing to judge")

    def test_policies(self) -> None:
        """Random sheets, each by a random policy."""
        raw = random_sheets(count(1200))
        policies = random_names(len(raw), self.cleaner.names)
        answers = self.sheets(raw, policies)
        kept = [one for one in answers if one["kept"]]
        self.assertGreater(len(kept), len(answers) // 40, "nothing to judge")

    def test_at_rules(self) -> None:
        """Random sheets of at-rules, each by a random policy: those that it lists are there, in order, with the prefix of
        their names, and no other."""
        raw, chance, made, said = random_at_rules(count(1000)), random.Random(98), [], []
        names, prefix = self.cleaner.names, b"q-"
        for text in raw:
            listed = [each for each in LISTED_AT_RULES if chance.random() < 0.7]
            media = (*names.media, *listed)
            policy = policy_of(b".mail", (b"color",), (), (), names.pseudos, media, prefix=prefix)
            kept = self.cleaner.made(text, SHEET, policy)
            self.assertNotIn("unclean", [each[2] for each in kept.dropped], text)
            again = self.cleaner.bytes_of(
                "simplecss_clean", kept.text.encode(), policy, IS_CLEAN + SHEET
            )
            self.assertEqual(again, b"true", kept.text)
            made.append(kept.text)
            at = [each.decode() for each in listed]
            said.append({**names.said(), "at": at, "prefix": prefix.decode()})
        answers = ask("atRules", list(zip(raw, made, said)))
        self.against(lambda asked: answers, list(zip(raw, made)), of_at_rules)
        kept_some = [one for one in answers or [] if one["made"] != "[]"]
        self.assertGreater(len(kept_some), len(answers or []) // 8, "nothing to judge")

    def test_dropped(self) -> None:
        """A text without the pieces that are dropped has the rest of it, and nothing is dropped."""
        for form, texts in (
            (STYLE, random_styles(count(1000))),
            (SHEET, random_sheets(count(1000))),
        ):
            found = self.made(form, texts)
            left = [without(text, each.dropped) for text, each in zip(texts, found)]
            for text, one, other in zip(texts, found, self.made(form, left)):
                with self.subTest(text=text):
                    self.assertEqual(other.text, one.text)
