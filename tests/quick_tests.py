"""The script `tests/quick.py`: what it says of itself and of what is missing, and that the copy in which
it tests the package has all that these tests read. What it runs else is run by other subjects.
"""
from __future__ import annotations

import os
import sys
import tempfile

from tests import quick
from tests.common import TOP, Answer, Case, answer, library_path

# The tests of the package that read other files of the checkout: of its documents, its examples, its
# mails, its header and its tables of rows.
READING = (
    "Guide.test_answers",
    "Examples.test_inlined",
    "test_what_is_compared_of_usual_sheets_is_not",
    "Versions.test_of_the_header",
    "Cases.test_pages",
)


class Quick(Case):
    def ran(self, *words: str) -> Answer:
        """What the script prints where there is neither `rt` nor `cargo`."""
        with tempfile.TemporaryDirectory() as empty:
            script = os.path.join(TOP, "tests", "quick.py")
            return answer([sys.executable, script, *words], env={**os.environ, "PATH": empty})

    def test_help(self) -> None:
        """Each part is named, and an unknown one is refused."""
        shown, refused = self.ran("--help"), self.ran("all")
        self.assertEqual((shown.status, shown.err), (0, ""))
        self.assertEqual((refused.status, refused.out, refused.err), (2, "", shown.out))
        for part in quick.PARTS:
            with self.subTest(part=part):
                self.assertIn(f"{part}", shown.out.split("these: ")[1].split("\n")[0])

    def test_missing(self) -> None:
        """A line for each part that needs what is missing."""
        lines = [
            "left out: package: there is no cargo",
            "left out: command: there is no rt",
            "left out: crates: there is no rt",
            "0 passed, 0 failed",
        ]
        found = self.ran("package", "command", "crates")
        self.assertEqual((found.status, found.out.splitlines(), found.err), (0, lines, ""))

    def test_copy(self) -> None:
        """The tests of the package that read other files of the checkout find them in the copy."""
        with tempfile.TemporaryDirectory() as folder:
            words = [word for name in READING for word in ("-k", name)]
            found = quick.package_over(library_path(), folder, *words)
        self.assertEqual((found.passed, found.failed), (len(READING), 0), "\n".join(found.lines))
