"""How many instructions the calls of the C library take on trees of n and of 4n elements, and for n and 4n
declarations: where the tree is the library's own, no element can count how often it is tested. The
instructions are those that valgrind counts.
"""
from __future__ import annotations

import os
import re
import shutil
import tempfile
from typing import Callable, Dict, List, Tuple

from tests.common import TOP, Case, answer, library_path

# How many elements or declarations there are, and how many more times that.
SIZE, TIMES = 500, 4
# The most that the instructions grow: sorting takes n log n, for which 4 becomes 4.9 at this size.
GROWTH = 5.0

# The call, the shape of the tree, and the selector or the style sheet.
Question = Tuple[str, str, str]
ON_ELEMENTS: List[Question] = [
    # Marks: one pass of the tree for each list, whatever the elements are in.
    *(("select", shape, ":has(zz)") for shape in ("chain", "siblings", "names")),
    ("select", "chain", ":has(> b)"),
    ("select", "siblings", ":has(+ a)"),
    ("select", "siblings", ":nth-child(2n of a)"),
    ("select", "siblings", ":nth-last-child(1 of b)"),
    # Counts of siblings and of their names.
    ("select", "names", ":first-of-type"),
    ("select", "siblings", ":nth-last-of-type(3)"),
    # Walks, in which elements are opened and closed.
    *(("matches", shape, "top > a{x:y} b a{x:y} zz a{x:y}") for shape in ("chain", "siblings")),
    # What wins, also of rules in rules.
    *(
        ("winners", shape, "a{x:y;z:y} b{x:y} a, b{& + &{x:y}} *{x:revert-layer}")
        for shape in ("chain", "siblings")
    ),
]
# Sheets for two elements, by how many declarations they have.
ON_DECLARATIONS: Dict[str, Callable[[int], str]] = {
    "of one property": lambda count: "a{" + "x:y;" * count + "}",
    "of many properties": lambda count: "a{" + "".join(f"x{n}:y;" for n in range(count)) + "}",
    "in rules": lambda count: "a{x:y}" * count,
    "in rules that roll back": lambda count: "a{x:y}" * count + "a{x:revert-layer}" * count,
    "in layers": lambda count: "".join(f"@layer l{n % 50}{{a{{x:y}}}}" for n in range(count)),
}


class Steps(Case):
    """Instructions at n and at 4n."""

    def setUp(self) -> None:
        if not shutil.which("valgrind") or not shutil.which("gcc"):
            self.skipTest("instructions at n and 4n: valgrind or gcc is missing")
        folder = tempfile.TemporaryDirectory()
        self.addCleanup(folder.cleanup)
        self.program = os.path.join(folder.name, "steps")
        source = os.path.join(TOP, "tests", "steps.c")
        words = ["gcc", "-O1", "-Wall", "-Werror", f"-I{TOP}/include", source, library_path()]
        made = answer([*words, "-o", self.program])
        self.assertEqual(made.status, 0, made.err)

    def steps(self, call: str, shape: str, elements: int, text: str) -> int:
        """The instructions of a call, with those that start the program."""
        words = ["valgrind", "--tool=callgrind", "--callgrind-out-file=/dev/null", self.program]
        environment = {**os.environ, "LD_LIBRARY_PATH": os.path.dirname(library_path())}
        got = answer([*words, call, shape, str(elements), text], env=environment)
        self.assertEqual(got.status, 0, got.err[-500:])
        return int(re.findall(r"Collected : (\d+)", got.err)[0])

    def grows(self, least: int, once: int, more: int) -> None:
        """The steps beyond the least grow as the size, or as n log n."""
        self.assertLess((more - least) / (once - least), GROWTH)

    def test_elements(self) -> None:
        for call, shape, text in ON_ELEMENTS:
            with self.subTest(call=call, shape=shape, text=text):
                sizes = (2, SIZE, SIZE * TIMES)
                self.grows(*(self.steps(call, shape, size, text) for size in sizes))

    def test_declarations(self) -> None:
        for name, sheet in ON_DECLARATIONS.items():
            with self.subTest(declarations=name):
                sizes = (1, SIZE, SIZE * TIMES)
                self.grows(*(self.steps("winners", "chain", 2, sheet(size)) for size in sizes))
