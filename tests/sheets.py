"""What the Python package reads of real style sheets beside tinycss2: the pairs of a selector and a
declaration, contents of `@media` and other group rules included, and pseudo-elements apart. And
what docs/DIFFERENCES.md shows of the modern grammar.

The library is built by `./build library`. tinycss2 may be Debian's alone: then /usr/bin/python3
runs these tests.
"""
from __future__ import annotations

import importlib.util
import random
import re
from collections import Counter
from typing import Any, Dict, Iterator, List, Optional, Sequence, Tuple

from tests.common import Case, by_debian, count, package, read, real_sheets, sheets_folder

package()
import simplecss  # noqa: E402

GROUPS = ("media", "supports", "layer", "container", "document", "-moz-document")
# The pseudo-elements that one colon may precede.
OLD = ("before", "after", "first-line", "first-letter")

# A selector, and the name, the value and the importance of a declaration.
Pair = Tuple[str, str, str, bool]


def plain(nodes: Sequence[Any]) -> str:
    """Returns the text of component values, with one space for each blank and without comments."""
    import tinycss2

    text: str = tinycss2.serialize([node for node in nodes if node.type != "comment"])
    return " ".join(text.split())


def is_faulty(nodes: Sequence[Any]) -> bool:
    """Whether component values have an error in them."""
    for node in nodes:
        inside = getattr(node, "content", None) or getattr(node, "arguments", None)
        if node.type == "error" or isinstance(inside, list) and is_faulty(inside):
            return True
    return False


def is_literal(node: Any, text: str) -> bool:
    """Whether a component value is this character."""
    return node is not None and node.type == "literal" and bool(node.value == text)


def cut(nodes: Sequence[Any]) -> List[List[Any]]:
    """Returns component values cut at the commas among them, without comments."""
    parts: List[List[Any]] = [[]]
    for node in nodes:
        if is_literal(node, ","):
            parts.append([])
        elif node.type != "comment":
            parts[-1].append(node)
    return parts


def has_element(nodes: Sequence[Any]) -> bool:
    """Whether a selector has a pseudo-element."""
    for first, second in zip(nodes, nodes[1:]):
        if is_literal(first, ":"):
            if is_literal(second, ":") or second.type == "ident" and second.lower_value in OLD:
                return True
    return False


def rules_in(nodes: Sequence[Any]) -> Iterator[Any]:
    """Yields the rule sets of statements, also those in group rules."""
    import tinycss2

    for node in nodes:
        if node.type == "qualified-rule":
            yield node
        elif (
            node.type == "at-rule" and node.content is not None and node.lower_at_keyword in GROUPS
        ):
            yield from rules_in(tinycss2.parse_rule_list(node.content))


def declared(nodes: Sequence[Any]) -> Iterator[Tuple[str, str, bool]]:
    """Yields the declarations of a block: name, value and importance."""
    import tinycss2

    for one in tinycss2.parse_declaration_list(nodes, skip_comments=True, skip_whitespace=True):
        if (
            one.type != "declaration"
            or is_faulty(one.value)
            or any(is_literal(node, "!") for node in one.value)
        ):
            continue
        name = one.name if one.name.startswith("--") else one.lower_name
        value = plain(one.value)
        if value or name.startswith("--"):
            yield name, value, one.important


def printed(selector: str, known: Dict[str, Optional[str]]) -> Optional[str]:
    """Returns a selector as the library prints it, or `None` if it does not read it. What is known
    is kept."""
    if selector not in known:
        try:
            known[selector] = str(simplecss.Selector(selector))
        except simplecss.SelectorError:
            known[selector] = None
    return known[selector]


def their_pairs(text: str, known: Dict[str, Optional[str]]) -> Tuple[Counter[Pair], int]:
    """Returns the pairs of tinycss2 whose selectors the library reads, and how many have others."""
    import tinycss2

    found: Counter[Pair] = Counter()
    others = 0
    for rule in rules_in(tinycss2.parse_stylesheet(text, skip_comments=True, skip_whitespace=True)):
        declarations = list(declared(rule.content))
        for selector in cut(rule.prelude):
            if has_element(selector):
                continue
            read = printed(plain(selector), known)
            if read is None:
                others += len(declarations)
            else:
                found.update((read, *each) for each in declarations)
    return found, others


def our_pairs(text: str, known: Dict[str, Optional[str]]) -> Counter[Pair]:
    """Returns the pairs of the package, but for rules in style rules, which tinycss2 does not read."""
    import tinycss2

    found: Counter[Pair] = Counter()
    values: Dict[str, str] = {}
    for rule in simplecss.StyleSheet(text, limit=None).rules:
        selector = printed(plain(tinycss2.parse_component_value_list(rule.selector)), known)
        is_left_out = rule.pseudo_element is not None or rule.parents
        for name, value, important in () if is_left_out else rule.declarations:
            if value not in values:
                values[value] = plain(tinycss2.parse_component_value_list(value))
            found[(selector or "", name, values[value], important)] += 1
    return found


def bare_rules(text: str) -> List[Tuple[str, List[Tuple[str, str, bool]]]]:
    """Returns what is before the block of each rule of tinycss2 that has declarations, and these, all without
    blanks."""
    import tinycss2

    rules = rules_in(tinycss2.parse_stylesheet(text, skip_comments=True, skip_whitespace=True))
    found = [(bare(plain(rule.prelude)), list(declared(rule.content))) for rule in rules]
    return [
        (head, [(name, bare(value), important) for name, value, important in items])
        for head, items in found
        if items
    ]


def bare(text: str) -> str:
    """Returns a text without blanks."""
    return "".join(text.split())


class Sheets(Case):
    def test_printed(self) -> None:
        """tinycss2 reads the same rules of printed sheets, but for blanks."""
        if not importlib.util.find_spec("tinycss2"):
            return by_debian(self, "tinycss2", "printed sheets beside tinycss2")
        texts = real_sheets(sheets_folder())
        random.Random(2).shuffle(texts)
        for text in texts[: count(100)]:
            rules = bare_rules(text)
            for printed in (simplecss.minify(text), simplecss.prettify(text)):
                with self.subTest(text=text[:100]):
                    self.assertEqual(bare_rules(printed), rules)

    def test_real_sheets(self) -> None:
        """Each pair of tinycss2 whose selector the library reads is one of the package, but for one
        in a thousand, and none else."""
        if not importlib.util.find_spec("tinycss2"):
            return by_debian(self, "tinycss2", "real sheets beside tinycss2, by the Python package")
        texts = real_sheets(sheets_folder())
        random.Random(1).shuffle(texts)
        known: Dict[str, Optional[str]] = {}
        pairs = others = 0
        missing: Counter[Pair] = Counter()
        added: Counter[Pair] = Counter()
        texts = texts[: count(150)]
        for text in texts:
            theirs, other = their_pairs(text, known)
            ours = our_pairs(text, known)
            pairs += sum(theirs.values())
            others += other
            missing += theirs - ours
            added += ours - theirs
        lost = sum(missing.values())
        print(
            f"{len(texts)} sheets: {pairs} pairs of tinycss2, {lost} of them missing; {others} have"
            " other selectors"
        )
        with self.subTest("missing"):
            self.assertLessEqual(lost * 1000, pairs, "\n".join(f"{pair}"[:200] for pair in missing))
        with self.subTest("added"):
            self.assertEqual(list(added)[:10], [])


class Differences(Case):
    def test_modern_grammar(self) -> None:
        """What docs/DIFFERENCES.md shows of modern grammar: what is kept of a text, nothing, or
        `unsupported`."""
        text = read("docs", "DIFFERENCES.md")
        rows = re.findall(r"^\| `([^`]+)` \| [^|]* \|([^|]*)\| [^|]* \|$", text, re.MULTILINE)
        for text, shown in rows:
            with self.subTest(text=text):
                sheet = simplecss.StyleSheet(text)
                lines = re.findall(r"`([^`]+)`", shown)
                if lines or shown.strip() == "nothing":
                    self.assertEqual(str(sheet).splitlines(), lines)
                else:
                    self.assertEqual(list(sheet.skipped), [])
                    self.assertEqual(shown.strip(), "unsupported" if sheet.unsupported else "")
        self.assertGreater(len(rows), 15)
