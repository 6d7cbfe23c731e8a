"""Media queries and conditions of `@supports` beside a browser: the media queries of web-platform-tests
with what Chromium says of them, random lists of queries on devices of three kinds, random conditions,
and the names of the properties that browsers know.

Texts have escapes, comments, stray brackets and words where none belong, the same in each run. What a
device is, the browser says of itself. The named differences (`docs/DIFFERENCES.md`) are not tried:
functions but `calc()`, a quotient by zero, 65 parentheses, further units and features, values within
1/64 of a pixel, and values that a known property does not have. The browser is Debian's `chromium`; the
library is built by `./build library`.
"""
from __future__ import annotations

import json
import os
import random
import re
import shutil
import subprocess
from typing import Any, Callable, Dict, Iterator, List, NamedTuple, Optional, Sequence

from tests.common import TOP, Case, browser_answers, count, in_turns, package, read, row

package()
import simplecss  # noqa: E402
from simplecss._device import HOLDS, property_names, says  # noqa: E402

# fmt: off
LENGTHS = ("width", "height", "device-width", "device-height")
RATIOS = ("aspect-ratio", "device-aspect-ratio")
INTEGERS = ("color", "color-index", "monochrome")
# Numbers whose names have bounds within, and what is 0 or 1: with a colon alone.
OLD = ("-webkit-min-device-pixel-ratio", "-webkit-max-device-pixel-ratio", "-webkit-device-pixel-ratio")
SWITCHES = ("grid", "-webkit-transform-3d")
RANGED = ("width", "width", "width", *LENGTHS, "resolution", "resolution", *RATIOS, *INTEGERS, OLD[2])
WORDS = {
    "orientation": ("portrait", "landscape"), "prefers-color-scheme": ("light", "dark"),
    "prefers-reduced-motion": ("no-preference", "reduce"), "hover": ("none", "hover"),
    "any-hover": ("none", "hover"), "pointer": ("none", "coarse", "fine"),
    "any-pointer": ("none", "coarse", "fine"), "forced-colors": ("none", "active"),
    "prefers-contrast": ("no-preference", "more", "less", "custom", "high"),
    "prefers-reduced-transparency": ("no-preference", "reduce"),
    "color-gamut": ("srgb", "p3", "rec2020"), "dynamic-range": ("standard", "high"),
    "update": ("none", "slow", "fast"), "scripting": ("none", "initial-only", "enabled"),
    "overflow-block": ("none", "scroll", "paged", "optional-paged"), "overflow-inline": ("none", "scroll"),
    "display-mode": ("browser", "minimal-ui", "standalone", "fullscreen", "tabbed"),
    "device-posture": ("continuous", "folded"),
}
NO_FEATURES = ("foo", "-foo", "--foo", "and", "not", "or", "only", "\\66 oo", "\xe9", "-", "1", "min-foo")
PREFIXES = ("min-", "max-", "min-", "max-", "", "Min-", "mi\\6e-", "min-max-")
NUMBERS = (
    "0", "1", "-1", "+1", "1280", "1280.0", "400", "2000", ".5", "1280.5", "8", "80", "1279", "1281",
    "8.0", "+.5", "-0", "2", "192", "96", "1.5", "00001280", "500", "31.25", "1.28e3", "4E2", "2e-1",
    "+1e+1", "-3e0", "1e", "1e+", "1.e2",
)
UNITS = (
    "px", "px", "px", "em", "vw", "vh", "vmin", "VMAX", "vi", "vb", "rem", "cm", "mm", "in", "pt", "pc", "Q", "PX", "q", "", "dppx", "x", "dpi",
    "dpcm", "foo", "%", "p\\78 ", "s",
)
RESOLUTIONS = ("dppx", "x", "dpi", "dpcm", "px", "", "DPPX")
# What calculations are of, and what is between.
FACTORS = ("2", "4", ".5", "1e1", "-2", "+2", "3", "1")
OPERATORS = (" + ", " - ", " * ", "*", "/", " / ", " +  ", "/**/ - /**/", "\n+\t")
ODD_OPERATORS = ("+", "-", " +", "+ ", " ", ",", "/**/+/**/", " % ", " - - ", "")
NO_VALUES = (
    "foo", "1px 2px", "", "(1px)", "1px,2px", '"a"', "#a", "url(a)", "[a]", "1px 2/2", "f(", "calc()",
    "calc(1px,1px)", "calc(1%", "calc (1px)", "calc(1px 1px)", "(calc(1px))", "calc(1%)", "calc(a)", "!", "1px;",
    "a:b", "infinite", "<", "{}", "\\",
)
SIGNS = ("<", "<=", ">", ">=")
ODD_SIGNS = (*SIGNS, "=", "< =", "==", "=<", ":", "<!--")
BLANKS = ("", "", "", " ", "/**/", " /*)*/ ", "\r\n", "\f")
PARTED = (" ", " ", " ", " ", " ", " ", "  ", "\n", "/**/", " /* x */ ", "\t", "/**/ ", "")
JUNK = (
    "", "foo bar", "1px", '"a\nb"', "{}", "[", ")", "(", "a)", "]", ";", "!", "width:", ":1", "<", "(foo",
    "url(a b", "url(a)", "'x", "\\", "{)}", "/*", "<!--", "-->", "@a", "#", "width width", "not",
    "not width", "and", "width and", "(width) and", "not(width)", "a,b", "(width), (width)", '"a',
    "(width))(", "\0", "-->width",
)
FUNCTIONS = ("foo(", "not(", "and(", "selector(", "foo\\28 (", "-(", "1(", "url(", "F(", "-->(")
ARGUMENTS = ("", "width", "(width)", "a)", '"', "1px")
QUERIES = (
    "", " ", "/**/", "foo", "1", "!", "not", "only", "and", "or", "layer", "not layer", "only only",
    "not not screen", "screen screen", "screen and", "and (width)", "screen or (width)", "{}", "(", ")",
    ";", "all;", "screen;(width)", '"', "not only screen", "only (width)", "\\73 creen", "scr\\65 en",
    "\\6e ot screen", "all and", "all/**/and/**/(width)", "-->", "print-", "not print, ", "-",
)
TYPES = ("screen", "print", "all", "tv", "foo", "screen", "screen", "speech")
# Declarations that a browser has, or whose properties it has not, and what is no declaration.
DECLARATIONS = (
    "color:red", "COLOR : r\\65 d", "foo:bar", "--x:", "--x:a", "--x:(a)", "color:red!important",
    "width:calc(1px + 2em)", "display:grid", "color/**/:/**/red", "display :flex", "-webkit-foo:1",
    "background:url(a)", "colo\\72:red", "color:var(--a)", "src:url(a)", "-moz-appearance:none",
    "color:", "color", "1:2", "color=red", "color red", "-:1", "color : ", "--:a",
)
BROKEN_DECLARATIONS = ('color:"a\nb"', "background:url(a b)", "width:(]", "--x:(a])")
SUPPORTED = (
    "selector(a)", "selector(a > b)", "selector(a,b)", "selector()", "selector(a", "sel\\65 ctor(b)",
    "SELECTOR(a::before)", "foo(x)", "foo()", 'foo("a\n")', "not(color:red)", "and(x)", "url(a)",
    "selector(])", "selector( /**/ a /**/ )", "selector(a b", "selector(a {)", "selector(:not(a))",
    "selector(a:nth-child(2n))", "selector(a::foo())", "selector(1)", "font-tech(variations)", "font-tech(color-svg)",
    "FONT-tech( c\\6f lor-cbdt/**/)", "font-tech(palettes palettes)", "font-tech()", "font-tech(woff)", 'font-tech("palettes")',
    "font-format(woff2)", "font-format( Woff )", "font-format(svg)", "font-format(woff,woff2)", "at-rule(@media)",
    "at-rule( @l\\61 yer )", "at-rule(layer)", "at-rule(@ page)", "at-rule(@page a)", "at-rule(@foo)",
    "at-rule(@swash/**/)", "at-rule(@@page)", "at-rule()", "at-rule(@page", "at-rule(@top-right-corner)", "at-rule(@-webkit-keyframes)",
)
# The devices of the browser, by what it is told.
BROWSERS = (
    ("--window-size=1280,800",),
    (
        "--window-size=600,900", "--force-device-scale-factor=2", "--force-prefers-reduced-motion",
        "--force-color-profile=display-p3-d65",
        "--blink-settings=primaryHoverType=1,availableHoverTypes=2,primaryPointerType=2,"
        "availablePointerTypes=6,preferredContrast=1,preferredColorScheme=0,"
        "prefersReducedTransparency=true,inForcedColors=true",
    ),
    (
        "--window-size=900,700", "--screen-info={1600x1200}", "--force-color-profile=hdr10",
        "--blink-settings=primaryHoverType=2,availableHoverTypes=2,primaryPointerType=4,"
        "availablePointerTypes=4,preferredContrast=3",
    ),
)
# The table of media queries, and what is answered otherwise, by words in the query.
TABLE = "tests/media_queries.txt"
OTHERWISE = ("scan", "sign(")
# fmt: on
PAGE = """<!DOCTYPE html><meta charset=utf-8><script id=input type="application/json">%s</script><body><script>
const [media, supports] = JSON.parse(document.getElementById("input").textContent);
const is = text => matchMedia(text).matches, word = (name, ...words) => words.find(word => is(`(${name}: ${word})`));
const hyphens = name => name.replace(/[A-Z]/g, c => "-" + c.toLowerCase());
const names = [];
for (const key in document.body.style) {
    const name = hyphens(key);
    names.push(/^webkit-/.test(name) ? "-" + name : name);
}
const answer = {
    device: {
        width: innerWidth, height: innerHeight, resolution: devicePixelRatio,
        dark: is("(prefers-color-scheme: dark)"), reduced_motion: is("(prefers-reduced-motion: reduce)"),
        hover: is("(hover)"), pointer: word("pointer", "none", "coarse", "fine"),
        device_width: screen.width, device_height: screen.height,
        color: [...Array(64).keys()].find(bits => is(`(color: ${bits})`)),
        color_gamut: word("color-gamut", "rec2020", "p3", "srgb"), high_dynamic_range: is("(dynamic-range: high)"),
        contrast: word("prefers-contrast", "no-preference", "more", "less", "custom"),
        forced_colors: is("(forced-colors)"), reduced_transparency: is("(prefers-reduced-transparency)"),
        any_hover: is("(any-hover)"),
        any_pointer: ["none", "coarse", "fine"].filter(word => is(`(any-pointer: ${word})`)).join(" "),
    },
    media: media.map(is),
    supports: supports.map(text => CSS.supports(text)),
    names: names.filter(name => CSS.supports(name, "inherit")),
};
const text = JSON.stringify(answer).replace(/[\\u007f-\\uffff]/g, c => "\\\\u" + c.charCodeAt(0).toString(16).padStart(4, "0"));
document.body.textContent = "ANSWER" + text + "END";
</script>"""


class Asked(NamedTuple):
    """What a condition asks: in parentheses, by functions, and what is neither."""

    leaf: Callable[[], str]
    functions: Sequence[str]
    junk: Sequence[str]


class Source(random.Random):
    """Random conditions, the same in each run."""

    def gap(self) -> str:
        return self.choice(BLANKS)

    def parted(self) -> str:
        """What is between two words, or mostly so."""
        return self.choice(PARTED)

    def name(self, word: str) -> str:
        """The word, in any case, or with an escape."""
        found = self.random()
        if found < 0.85:
            return word
        if found < 0.93:
            return "".join(c.upper() if self.random() < 0.5 else c for c in word)
        at = self.randrange(len(word))
        forms = [f"\\{ord(word[at]):x} ", f"\\{ord(word[at]):06x}", f"\\{ord(word[at]):X}\t"]
        if word[at] not in "abcdef":
            forms.append("\\" + word[at])
        return word[:at] + self.choice(forms) + word[at + 1 :]

    def keyword(self, word: str) -> str:
        return self.name(word) if self.random() < 0.97 else word + "x"

    # ---- features

    def value(self, feature: str) -> str:
        """A value of a feature, or what is none."""
        if self.random() < 0.1:
            return self.choice(NO_VALUES)
        if feature in WORDS:
            return self.name(self.choice(WORDS[feature]))
        if feature in RATIOS:
            gap = self.gap() + "/" + self.gap()
            others = [self.choice(NUMBERS) for _ in range(self.choice((0, 1, 1, 1, 2)))]
            return gap.join([self.amount(lambda: self.choice(NUMBERS)), *others])
        if feature in INTEGERS:
            return self.amount(
                lambda: self.choice(("8", "0", "1", "-1", "+8", "7", "10", "8.0", "08", "1e1"))
            )
        if feature in SWITCHES:
            return self.choice(
                ("0", "1", "-0", "+1", "01", "a", "calc(1 - 0)", "calc(0 * 1)", "calc(a)")
            )
        if feature in OLD:
            return self.amount(lambda: self.choice(NUMBERS) + self.choice(("", "", "", "x")))
        if feature == "resolution":
            return self.amount(lambda: self.choice(NUMBERS) + self.choice(RESOLUTIONS))
        return self.amount(self.length, self.united)

    def length(self) -> str:
        return self.choice(NUMBERS) + (self.choice(UNITS) if self.random() < 0.5 else "px")

    def united(self) -> str:
        """A length with a unit: a browser takes a number near zero that is computed for one."""
        return self.choice(NUMBERS) + self.choice([unit for unit in UNITS if unit])

    def amount(self, one: Callable[[], str], within: Optional[Callable[[], str]] = None) -> str:
        """An amount, or a calculation with such."""
        return one() if self.random() < 0.8 else self.calculation(2, within or one)

    def calculation(self, depth: int, one: Callable[[], str]) -> str:
        name = self.name("calc") if depth == 2 or self.random() < 0.3 else ""
        text = self.operand(depth - 1, one)
        for _ in range(self.choice((0, 1, 1, 2))):
            sign = self.choice(OPERATORS if self.random() < 0.95 else ODD_OPERATORS)
            is_factor = "/" in sign.replace("/**/", "") or "*" in sign and self.random() < 0.9
            text += sign + (self.choice(FACTORS) if is_factor else self.operand(depth - 1, one))
        return f"{name}({self.gap()}{text}{self.gap()})"

    def operand(self, depth: int, one: Callable[[], str]) -> str:
        """A part of a calculation."""
        form = self.random()
        if depth and form < 0.3:
            return self.calculation(depth, one)
        return self.choice(FACTORS) if form < 0.4 and one != self.united else one()

    def sign(self) -> str:
        return self.choice(ODD_SIGNS if self.random() < 0.2 else SIGNS)

    def spaced(self, *parts: str) -> str:
        """The parts, with blanks between them."""
        return "".join(part + self.gap() for part in parts[:-1]) + parts[-1]

    def feature(self) -> str:
        """What is asked in parentheses, which may be left open."""
        return self.closed_feature() + ("" if self.random() < 0.97 else " (")

    def closed_feature(self) -> str:
        form = self.random()
        feature = self.choice(RANGED if self.random() < 0.6 else tuple(WORDS))
        if self.random() < 0.06:
            feature = self.choice(NO_FEATURES)
        if self.random() < 0.08:
            feature = self.choice(OLD + SWITCHES)
            return self.spaced(self.name(feature), ":", self.value(feature))
        if form < 0.15:
            return self.name(feature)
        if form < 0.55:
            has_prefix = self.random() < (0.8 if feature in RANGED else 0.05)
            prefix = self.choice(PREFIXES) if has_prefix else ""
            return self.spaced(self.name(prefix + feature), ":", self.value(feature))
        if form < 0.72:
            return self.spaced(self.name(feature), self.sign(), self.value(feature))
        if form < 0.85:
            return self.spaced(self.value(feature), self.sign(), self.name(feature))
        way = self.choice("<>")
        other = way if self.random() < 0.85 else self.choice("<>=")
        first, second = way + self.choice(("", "=")), other + self.choice(("", "="))
        name = self.name(feature)
        return self.spaced(self.value(feature), first, name, second, self.value(feature))

    def declaration(self) -> str:
        """What `@supports` asks in parentheses."""
        form = self.random()
        if form < 0.4:
            return self.choice(DECLARATIONS[:3])
        return self.choice(DECLARATIONS if form < 0.95 else BROKEN_DECLARATIONS)

    # ---- conditions

    def parens(self, depth: int, asked: Asked) -> str:
        """Something in parentheses, or a function."""
        form = self.random()
        if form < 0.1:
            return f"({self.choice(asked.junk)})"
        if form < 0.2:
            return self.choice(asked.functions)
        if depth and form < 0.5:
            inside, end = self.condition(depth - 1, asked), self.closing()
        else:
            inside, end = asked.leaf(), ")"
        return f"({self.gap()}{inside}{self.gap()}{end}"

    def closing(self) -> str:
        return ")" if self.random() < 0.95 else ""

    def condition(self, depth: int, asked: Asked) -> str:
        """A condition, or one with a mistake."""
        if self.random() < 0.25:
            return self.keyword("not") + self.parted() + self.parens(depth, asked)
        text = self.parens(depth, asked)
        usual = self.choice(("and", "or"))
        for _ in range(self.choice((0, 0, 1, 1, 2, 3))):
            word = usual if self.random() < 0.95 else self.choice(("and", "or", "not"))
            text += self.parted() + self.keyword(word) + self.parted()
            text += "not " * (self.random() < 0.04) + self.parens(depth, asked)
        return text

    def media_condition(self) -> str:
        functions = [name + inside + ")" for name in FUNCTIONS for inside in ARGUMENTS]
        return self.condition(self.choice((0, 1, 2, 3)), Asked(self.feature, functions, JUNK))

    def query(self) -> str:
        """A query, or what is none."""
        form = self.random()
        if form < 0.06:
            return self.choice(QUERIES)
        if form < 0.5:
            return self.media_condition()
        front = self.keyword(self.choice(("not", "only"))) + self.parted()
        text = (front if self.random() < 0.4 else "") + self.name(self.choice(TYPES))
        if self.random() < 0.75:
            word = "and" if self.random() < 0.95 else "or"
            text += self.parted() + self.keyword(word) + self.parted() + self.media_condition()
        return text

    def media(self) -> str:
        """A list of queries."""
        comma = self.gap() + "," + self.gap()
        queries = (self.query() for _ in range(self.choice((1, 1, 1, 1, 2, 2, 3))))
        return self.gap() + comma.join(queries) + self.gap()

    def supports(self) -> str:
        """A condition of `@supports`, with no parenthesis closed that is not open: `CSS.supports`
        also tries the text in parentheses."""
        asked = Asked(self.declaration, SUPPORTED, [text for text in JUNK if ")" not in text])
        text = self.gap() + self.condition(self.choice((0, 1, 2, 3)), asked) + self.gap()
        return text + (self.choice(("x", ";", ",", "{}")) if self.random() < 0.05 else "")


def version_found() -> str:
    """The version of the browser, or nothing."""
    browser = shutil.which("chromium") or shutil.which("chromium-browser")
    if not browser:
        return ""
    shown = subprocess.run([browser, "--version"], capture_output=True, check=False).stdout
    number = re.search(rb"Chromium (\d+)\.", shown)
    return number[1].decode() if number else ""


# Names of drafts and of other browsers, which Chromium does not read, and the pseudo-elements that CSS 2
# writes with one colon.
OTHERS = {
    "pseudo-classes": (
        "blank buffering first has-slotted heading left local-link muted nth-col nth-last-col paused"
        " playing right seeking stalled target-within volume-locked"
    ).split(),
    "pseudo-elements": (
        "clear-icon color-swatch cue-region field-component field-text footnote-call"
        " footnote-marker nth-fragment placeholder-icon reveal-icon slider-fill slider-thumb"
        " slider-track step-control step-down step-up"
    ).split(),
}
SHORT = ("after", "before", "first-letter", "first-line")


def names_of(kind: str) -> List[str]:
    """The names of a kind that `lint` knows."""
    with open(os.path.join(TOP, "crates/css_lint/src/data.rt"), encoding="utf-8") as file:
        text = file.read()
    name = kind.upper().replace("-", "_")
    found = re.search(rf'pub const {name}: &str = "([^"]*)"', text)
    return found[1].replace("\\\n", "").split() if found else []


def version_of_names() -> str:
    """The version of the browser whose names the package has."""
    path = os.path.join(TOP, "python/src/simplecss/properties.txt")
    with open(path, encoding="utf-8") as file:
        found: str = re.findall(r"Chromium (\d+)", file.read())[0]
    return found


class Conditions(Case):
    def compare(self, name: str, texts: Sequence[str], options: Sequence[str] = ()) -> None:
        """Compares what the library says of conditions with a browser's answers. `@supports` asks nothing
        of the device."""
        device: Dict[str, Any] = {}

        def browser(texts: List[str]) -> Optional[List[bool]]:
            work = {"media": [], "supports": [], name: texts}
            found = browser_answers(PAGE, [work["media"], work["supports"]], options)
            if found is None:
                return None
            device.update(found["device"] if name == "media" else {})
            # As many hold as would show a library that always says no.
            self.assertGreater(sum(found[name]), len(texts) // 20)
            return list(found[name])

        def question(text: str, answer: bool) -> Iterator[Optional[str]]:
            on = simplecss.Device(**device)
            holds = says(simplecss.Condition(name, text), on) == HOLDS
            yield row(f"{json.dumps(text)} on {on}", holds, answer)

        self.against(in_turns(browser), texts, question)

    def test_table(self) -> None:
        """What Chromium says of the media queries of web-platform-tests, on each of its devices."""
        lines = read(TABLE).splitlines()
        devices = [json.loads(line[2:]) for line in lines if line.startswith("# {")]
        rows = [line.split(" ", 1) for line in lines if not line.startswith("#")]
        failures = [
            f"{text} on {device}: {found}"
            for answers, text in rows
            for answer, device in zip(answers, devices)
            for found in [
                says(simplecss.Condition("media", json.loads(text)), simplecss.Device(**device))
            ]
            if (found == HOLDS) != (answer == "1")
        ]
        expected = [line for line in failures if any(word in line for word in OTHERWISE)]
        self.assertTrue(all(any(word in line for line in expected) for word in OTHERWISE))
        self.sweep(len(rows) * len(devices), [line for line in failures if line not in expected])

    def test_media(self) -> None:
        source = Source("media")
        for options in BROWSERS:
            self.compare("media", [source.media() for _ in range(count(2_000))], options)

    def test_supports(self) -> None:
        source = Source("supports")
        self.compare("supports", [source.supports() for _ in range(count(2_000))])

    def browser(self, supports: Sequence[str]) -> Any:
        """What the browser says of itself, and of conditions."""
        if version_found() != version_of_names():
            self.skipTest(f"names of browsers are those of Chromium {version_of_names()}")
        found = browser_answers(PAGE, [[], supports])
        self.assertIsNotNone(found, "the browser does not answer")
        return found

    def test_names_in_selectors(self) -> None:
        """The browser reads the pseudo-classes and pseudo-elements that it is said to read, alone or
        with one of some arguments, and not the others."""
        arguments = ("", "(a)", "(1n)", "(ltr)", "(*)", "(select)", "(left)")
        for kind, colons in (("pseudo-classes", ":"), ("pseudo-elements", "::")):
            others = OTHERS[kind]
            known = [
                each
                for each in names_of(kind)
                if each not in others and (each not in SHORT or colons == "::")
            ]
            texts = [
                f"selector({colons}{name}{each})"
                for name in (*known, *others)
                for each in arguments
            ]
            answers = self.browser(texts)["supports"]
            size = len(arguments)
            read = [any(answers[at : at + size]) for at in range(0, len(answers), size)]
            self.assertEqual(read, [True] * len(known) + [False] * len(others))

    def test_property_names(self) -> None:
        self.assertEqual(sorted(property_names()), sorted(set(self.browser([])["names"])))

    def test_names_of_lint(self) -> None:
        """Those that `lint` knows are in the order of the alphabet, and the properties of Chromium are
        among them."""
        kinds = "properties descriptors at-rules media-features pseudo-classes pseudo-elements"
        for kind in (*kinds.split(), "functions", "math-functions", "units", "types"):
            names = names_of(kind)
            self.assertEqual(names, sorted(set(names)), kind)
        self.assertLessEqual(set(property_names()), set(names_of("properties")))
