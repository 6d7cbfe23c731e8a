"""References `var()`, shorthands and what is inherited beside a browser: the computed values of random sets
of custom properties, and the longhands that each shorthand sets.

The browser is Debian's `chromium`; the library is that of the Python package, and tokens are compared by
`tinycss2`. Comments and blanks are not compared. What differs on purpose
(`docs/DIFFERENCES.md`) is not tried: functions whose names begin with two hyphens. Of properties in circles
a browser may answer otherwise than the standard: then the library's answer is one of the two.
"""
from __future__ import annotations

import importlib.util
import random
from typing import Any, Callable, Dict, Iterator, List, Optional, Sequence, Set, Tuple, Union

from tests.common import Case, browser_answers, by_debian, count, package, row

NAMES = ("--a", "--b", "--c", "--d", "--e", "--A", "--x1", "--é")
RESULT = "--result"
SHOWN = (*NAMES, RESULT)
TOKENS = (
    'x|y-1|-|1|2px|.5|+3|-4|1e3|5%|#h|#|@k|@|+|.|/|<|||=|*|~|>|$|"s"|\'t u\'|url(q)|url( "z" )'
    '|:|"\\""|é|50|e5|calc|foo|initial'
).split("|")
BROKEN = (
    *("var(--a", "var()", "var(a)", "var(--)", "var(--a,!)", "var(--a b)", "var(--a,var(x))", "x)"),
    *("url(a b)", "[var(--b]", "var(--a,(!))", "{!}", "var(-a)", "var(--1)", "x!y"),
)
# Rules that register `--a`, or do not.
_SAYS = 'syntax:"*";inherits:false;initial-value:1'
RULES = (
    *(f"@property --a{{{_SAYS}}}", f"@property --a b{{{_SAYS}}}", f"@property --{{{_SAYS}}}"),
    *(
        f"@property /**/--a/**/{{{_SAYS}}}",
        f"@property --\\61{{{_SAYS}}}",
        f"@property a{{{_SAYS}}}",
    ),
    *(
        f"@PROPERTY --a{{{_SAYS.upper()}}}",
        f"@pr\\6fperty --a{{{_SAYS}}}",
        f"@property --a{{{_SAYS}",
    ),
    *(f"@property --a{{{_SAYS}!important}}", f"@media screen{{@property --a{{{_SAYS}}}}}"),
    *(
        f"div{{@property --a{{{_SAYS}}}}}",
        "@property --a;",
        '@property --a{syntax:"*;inherits:true',
    ),
    '@property --a{syntax:" * ";inherits:false}div{--a:2}div div{--a:unset}',
    '@property --a{syntax:"";inherits:false;initial-value:1}',
    '@property --a{syntax:"*"!important;inherits:false;initial-value:1}',
    "@property --a{syntax:*;inherits:false;initial-value:1}",
    '@property --a{syntax:"*";inherits:false;initial-value:initial}',
    '@property --a{syntax:"*";inherits:false;initial-value:var(--b,1)}',
    '@property --a{syntax:"*";inherits:false true;initial-value:1}',
    '@property --a{syntax:"*" "x";inherits:false;initial-value:1}',
    '@property --a{syntax:"*";inherits:false;initial-value:[1',
)
GROUPS = ("@layer a", "@media screen", "@media print", "@supports (nothing: y)")
PAGE = """
<!DOCTYPE html><meta charset=utf-8><body><script id=input type="application/json">%s</script>
<script>
const input = JSON.parse(document.getElementById("input").textContent);
function styled(set, above) {
    const element = document.createElement("div");
    element.setAttribute("style", set.map(([name, value]) => name + ":" + value).join(";"));
    above.append(element);
    return element;
}
function computed(set) {
    const element = styled(set, document.body);
    const style = getComputedStyle(element);
    const found = input.names.map(name => style.getPropertyValue(name));
    element.remove();
    return found;
}
function registered([sheet, upper, lower]) {
    const style = document.createElement("style");
    style.textContent = sheet;
    document.head.append(style);
    const above = styled(upper, document.body), element = styled(lower, above);
    const found = [above, element].map(each =>
        input.names.map(name => getComputedStyle(each).getPropertyValue(name)));
    above.remove();
    style.remove();
    return found;
}
function longhands(name) {
    const style = document.createElement("div").style;
    style.cssText = name + ": inherit";
    return [...style];
}
const answers = {sets: input.sets.map(computed), shorthands: input.shorthands.map(longhands),
    registered: input.registered.map(registered)};
document.documentElement.textContent = "ANSWER" + JSON.stringify(answers) + "END";
</script>
"""

# Values of which each property takes some.
LOGICAL_VALUES = (
    ("7px", "9px"),
    ("red", "blue"),
    ("dotted", "dashed"),
    ("scroll", "hidden"),
    ("contain", "none"),
    ("squircle", "bevel"),
    ("7px 7px", "9px 9px"),
    ("auto 7px", "auto 9px"),
)
# The pairs of names of which each sets what both do, and the one that is declared later.
LOGICAL = """
<!DOCTYPE html><meta charset=utf-8><body><script id=input type="application/json">%s</script><div id=made></div>
<script>
const input = JSON.parse(document.getElementById("input").textContent);
const made = document.getElementById("made");
const read = text => {
    made.setAttribute("style", "position: absolute; border: 3px solid black; overflow: clip; " + text);
    const style = getComputedStyle(made);
    return Object.fromEntries(input.names.map(name => [name, style.getPropertyValue(name)]));
};
const first = read(""), found = [];
for (const name of input.names) {
    const values = input.values.find(([value]) => CSS.supports(name, value) && read(`${name}: ${value}`)[name] !== first[name]);
    if (!values) continue;
    const [one, other] = values;
    const set = read(`${name}: ${one}`), again = read(`${name}: ${other}`);
    const those = input.names.filter(each => each !== name && set[each] === set[name] && again[each] === again[name]);
    for (const each of those) {
        const mine = read(`${each}: ${one}; ${name}: ${other}`), theirs = read(`${name}: ${one}; ${each}: ${other}`);
        const isSame = [mine, theirs].every(all => all[name] === again[name] && all[each] === again[name]);
        if (isSame) found.push([name, each]);
    }
}
document.documentElement.textContent = "ANSWER" + JSON.stringify(found) + "END";
</script>
"""

Pair = Tuple[str, str]
# A value: tokens, and references by name with a fallback or none.
Part = Union[str, Tuple[str, Optional["Value"]]]
Value = List[Part]


class Source:
    """Random sets of custom properties, the same in each run."""

    def __init__(self, seed: int) -> None:
        self._random = random.Random(seed)
        self._read: Sequence[str] = ()

    def _spelled(self, name: str) -> str:
        """Returns a name, now and then with an escape."""
        if self._random.random() < 0.06:
            return "\\-" + name[1:]
        if self._random.random() < 0.06:
            return f"{name[:2]}\\{ord(name[2]):x} {name[3:]}"
        return name

    def _gap(self) -> str:
        return self._random.choice([*[""] * 6, " ", "/**/", "  ", "/*x*/ "])

    def _reference(self, depth: int) -> str:
        function = self._random.choice([*["var"] * 12, "VAR", "v\\61 r", "\\76 ar", "vaR"])
        name = self._spelled(self._random.choice([*self._read, "--u", "--v", "--w"]))
        inside = self._gap() + name + self._gap()
        if self._random.random() < 0.5:
            inside += "," + self._gap()
            inside += self._text(depth - 1) if self._random.random() < 0.9 else ""
        return f"{function}({inside})"

    def _part(self, depth: int) -> str:
        chance = self._random.random()
        if chance < 0.45 and depth > 0:
            return self._reference(depth)
        if chance < 0.57 and depth > 0:
            ends = self._random.choice(["()", "[]", "{}", ("f(", ")"), ("calc(", ")")])
            return ends[0] + self._text(depth - 1) + ends[1]
        return "/*c*/" if chance < 0.62 else self._random.choice(TOKENS)

    def _text(self, depth: int) -> str:
        parts = self._random.choice([0, 1, 1, 1, 2, 2, 3, 4])
        gaps = ("", "", " ", " ", "  ", "/**/")
        return "".join(self._part(depth) + self._random.choice(gaps) for _ in range(parts))

    def set(self) -> List[Pair]:
        """Returns some properties, of which each reads later ones, and one that reads some or all."""
        names = self._random.sample(NAMES, self._random.choice([1, 2, 3, 3, 4, 5, 6]))
        found = []
        for number, name in enumerate(names):
            self._read = names[number + 1 :]
            found.append((name, self._value(0.06)))
        self._read = names
        every = " ".join(f"[var({name},NO)]" for name in names)
        found.append((RESULT, every if self._random.random() < 0.3 else self._value(0.03)))
        self._random.shuffle(found)
        return found

    def circles(self) -> Dict[str, Value]:
        """Returns properties that read one another, many of them in circles, with fallbacks or not."""
        names = self._random.sample(NAMES[:5], self._random.choice([1, 2, 2, 3, 3, 4, 5]))
        return {name: self._parts(names, 2) for name in names}

    def _parts(self, names: Sequence[str], depth: int) -> Value:
        found: Value = []
        for _ in range(self._random.choice([1, 1, 2, 2, 3])):
            fallback: Optional[Value] = None
            if self._random.random() < 0.5:
                is_deep = depth > 0 and self._random.random() < 0.5
                fallback = (
                    self._parts(names, depth - 1) if is_deep else [self._random.choice("pqr")]
                )
            reference = (self._random.choice([*names, "--u"]), fallback)
            found.append(reference if self._random.random() < 0.75 else self._random.choice("xyz"))
        return found

    def registered(self) -> Tuple[str, List[Pair], List[Pair]]:
        """Returns a sheet that registers some properties, and what an element and one in it declare. Values
        of those that are registered as numbers are numbers."""
        rules = "".join(self._rule(name) for name in self._random.sample(NAMES[:5], 3))
        if self._random.random() < 0.3:
            # One in a layer would not be the one that counts.
            rules += self._rule(self._random.choice(NAMES[:5]), GROUPS[1:])
        declared = [
            [(name, self._numbered()) for name in self._random.sample(NAMES[:5], count)]
            for count in self._random.choices([0, 1, 2, 3, 4], k=2)
        ]
        for each in declared:
            inside = " ".join(f"[var({name},NO)]" for name in NAMES[:5])
            each.append((RESULT, inside))
        return rules, declared[0], declared[1]

    def _rule(self, name: str, groups: Sequence[str] = GROUPS) -> str:
        pick = self._random.choice
        says = [
            pick(["syntax:'*'", 'syntax: "<number>"', 'Syntax:"<number>"', "syntax: '\\2a'"]),
            f"inherits: {pick(['true', 'false', 'TRUE', 'false'])}",
            f"initial-value:{pick('1234')}",
        ]
        if self._random.random() < 0.25:
            says.remove(pick(says))
        if self._random.random() < 0.15:
            says.insert(
                0, pick(["inherits: maybe", "syntax: number", "initial-value: var(--a)", "x: y"])
            )
        self._random.shuffle(says)
        rule = f"@property {name} {{ {'; '.join(says)} }}"
        group = pick([*[""] * 6, *groups])
        return f"{group} {{ {rule} }}" if group else rule

    def _numbered(self) -> str:
        """Returns a number, a keyword, or a reference that comes to one of these or to nothing."""
        pick, chance = self._random.choice, self._random.random()
        plain = pick([*"56789", "initial", "inherit", "unset", *"05"])
        if chance < 0.35:
            return str(plain)
        name = pick([*NAMES[:5], *NAMES[:5], "--u"])
        return f"var({name})" if chance < 0.75 else f"var({name},{plain})"

    def _value(self, chance: float) -> str:
        if self._random.random() < chance:
            return self._random.choice(BROKEN)
        return self._text(self._random.choice([0, 1, 1, 2, 3]))


def written(value: Value) -> str:
    """Returns a value as a text."""
    return " ".join(
        each if isinstance(each, str) else f"var({each[0]}{with_comma(each[1])})" for each in value
    )


def with_comma(fallback: Optional[Value]) -> str:
    return "" if fallback is None else f",{written(fallback)}"


def read_by(value: Value) -> Iterator[str]:
    """Yields the names that a value refers to, also in fallbacks."""
    for each in value:
        if not isinstance(each, str):
            yield each[0]
            yield from read_by(each[1] or [])


def led_to(values: Dict[str, Value], name: str) -> Set[str]:
    """Returns the properties that one leads to by references, also in fallbacks that are not needed."""
    found: Set[str] = set()
    left = [name]
    while left:
        new = set(read_by(values[left.pop()])) & values.keys() - found
        found |= new
        left += new
    return found


def substituted(value: Value, known: Dict[str, Optional[str]]) -> Optional[str]:
    """Returns what a value comes to, by the values of those that it refers to, or `None`."""
    texts: List[Optional[str]] = []
    for each in value:
        if isinstance(each, str):
            texts.append(each)
        elif known.get(each[0]) is not None:
            texts.append(known[each[0]])
        else:
            texts.append(None if each[1] is None else substituted(each[1], known))
    return None if None in texts else " ".join(filter(None, texts))


def by_the_standard(values: Dict[str, Value]) -> Dict[str, Optional[str]]:
    """Returns the computed values by the standard's graph, in which each property of a circle is
    invalid (CSS Custom Properties for Cascading Variables 1, section 2.3)."""
    reach = {name: led_to(values, name) for name in values}
    known: Dict[str, Optional[str]] = {}
    # One that leads to fewer comes first.
    for name in sorted(values, key=lambda each: len(reach[each])):
        known[name] = None if name in reach[name] else substituted(values[name], known)
    return known


def flat(tokens: Sequence[Any]) -> List[Any]:
    """Returns tokens, and those in them, as what compares."""
    found: List[Any] = []
    for token in tokens:
        if token.type in ("comment", "whitespace"):
            continue
        inner = getattr(token, "content", getattr(token, "arguments", None))
        name = getattr(token, "name", None)
        if inner is None:
            value = getattr(token, "representation", getattr(token, "value", None))
            found.append((token.type, value))
        else:
            found.append((token.type, name, flat(inner)))
    return found


def browser(kind: str) -> Callable[[List[Any]], Optional[List[Any]]]:
    """What asks a browser of inputs of a kind."""

    def answers(inputs: List[Any]) -> Optional[List[Any]]:
        none: Dict[str, List[Any]] = {"sets": [], "shorthands": [], "registered": []}
        found = browser_answers(PAGE, {**none, "names": SHOWN, kind: inputs})
        return None if found is None else list(found[kind])

    return answers


class Values(Case):
    """Values beside a browser."""

    def setUp(self) -> None:
        package()
        self.resolving = importlib.import_module("simplecss._resolving")
        self.simplecss = importlib.import_module("simplecss")
        self.tokens_of = importlib.import_module("simplecss._tokens")

    def computed(self, pairs: Sequence[Pair]) -> Dict[str, Optional[str]]:
        """Returns the computed values of a set, by the names without escapes."""
        text = ";".join(f"{name}:{value}" for name, value in pairs)
        declared = {
            each.name: each.value
            for each in self.simplecss.declarations(text)
            if self.simplecss.has_valid_references(each.value)
        }
        values = self.resolving.computed(list(declared.items()))
        return dict(zip(map(self.tokens_of.decoded, declared), values))

    def tokens(self, value: Optional[str]) -> List[Any]:
        parse = importlib.import_module("tinycss2").parse_component_value_list
        return flat(parse(value or ""))

    def test_sets(self) -> None:
        """The computed values of sets are a browser's, as tinycss2 reads their tokens."""
        if not importlib.util.find_spec("tinycss2"):
            return by_debian(self, "tinycss2", "values beside a browser")

        def question(pairs: List[Pair], values: Any) -> Iterator[Optional[str]]:
            computed = self.computed(pairs)
            found = [self.tokens(computed.get(name)) for name in SHOWN]
            yield row(pairs, found, list(map(self.tokens, values)))

        source = Source(7)
        self.against(browser("sets"), [source.set() for _ in range(count(1000))], question)

    def test_circles(self) -> None:
        """Where a browser and the standard agree, the library says the same, and else one of the two."""
        if not importlib.util.find_spec("tinycss2"):
            return by_debian(self, "tinycss2", "circles beside a browser")
        source = Source(8)
        sets = [source.circles() for _ in range(count(1000))]
        differing: List[bool] = []

        def judge(sets: List[Dict[str, Value]]) -> Optional[List[Any]]:
            return browser("sets")([[(it, written(each[it])) for it in each] for each in sets])

        def question(values: Dict[str, Value], shown: Any) -> Iterator[Optional[str]]:
            found = self.computed([(name, written(value)) for name, value in values.items()])
            told, due = dict(zip(SHOWN, shown)), by_the_standard(values)
            wrong = []
            for name in values:
                both = [self.tokens(told[name]), self.tokens(due[name])]
                differing.append(both[0] != both[1])
                wrong += (
                    [] if self.tokens(found[name]) in both else [(name, found[name], told[name])]
                )
            yield row(values, wrong, [])

        self.against(judge, sets, question)
        # They differ on one in a hundred.
        self.assertLess(sum(differing), 1 + len(sets) / 10)

    def values(self, sheet: str, upper: List[Pair], lower: List[Pair]) -> List[Dict[str, str]]:
        """Returns the values of an element and of one in it, by the names without escapes."""
        styles = [";".join(f"{name}:{value}" for name, value in each) for each in (upper, lower)]
        tree = self.simplecss.Tree.from_html(
            "<!DOCTYPE html>" + "".join(f'<div style="{each}">' for each in styles)
        )
        found = self.simplecss.StyleSheet(sheet).styles(tree, specified=True, resolved=True)
        return [{each.name: each.value for each in those} for those in found[-2:]]

    def test_registered(self) -> None:
        """What `@property` says, in a browser too."""
        if not importlib.util.find_spec("tinycss2"):
            return by_debian(self, "tinycss2", "registered properties beside a browser")
        source = Source(9)
        shown_by: List[Pair] = [(RESULT, "[var(--a,NO)]")]
        asked = [(rule, shown_by, shown_by) for rule in RULES]
        asked += [source.registered() for _ in range(count(1000))]

        def question(one: Any, shown: Any) -> Iterator[Optional[str]]:
            found = [self.tokens(each.get(RESULT)) for each in self.values(*one)]
            # The names that are not declared are in the value of this one.
            yield row(one, found, [self.tokens(values[SHOWN.index(RESULT)]) for values in shown])

        self.against(browser("registered"), asked, question)

    def test_counterparts(self) -> None:
        """Of two names the one that is declared later sets what both do, and no other names do so in a browser."""
        from simplecss._properties import names_setting

        names = self.simplecss.longhands("all")
        found = browser_answers(LOGICAL, {"names": names, "values": LOGICAL_VALUES})
        if found is None:
            self.skipTest("no browser answers")
        mine = {
            (name, other)
            for name in names
            for other in names_setting(name)
            if other != name and not self.simplecss.longhands(other)
        }
        self.assertEqual(mine, set(map(tuple, found)))
        self.assertGreater(len(mine), 100)

    def test_shorthands(self) -> None:
        """Each shorthand sets what it does in a browser, and each longhand is in its shorthands."""
        names = sorted(
            {
                name
                for each in self.simplecss.longhands("all")
                for name in self.simplecss.shorthands(each)
            }
        )
        names.remove("all")

        def question(name: str, found: Any) -> Iterator[Optional[str]]:
            yield row(name, sorted(self.simplecss.longhands(name)), sorted(found)) or row(
                name, [it for it in found if name not in self.simplecss.shorthands(it)], []
            )

        self.against(browser("shorthands"), names, question)
