"""Wrong bodies: that each edit of `crates/*/mutants` and `crates/*/must-fail` is one of a function
that is there, and that the prover refuses those of two crates, which the date of the last commit
chooses. `tools/mutants.py CRATE..` tries those of other crates.
"""
from __future__ import annotations

import concurrent.futures
import importlib.util
import os
import shutil
import sys
import tempfile
from collections.abc import Sequence
from pathlib import Path
from typing import Any
from unittest import mock

from tests.common import TOP, Case

CRATES = Path(TOP, "crates")


def load_tool() -> Any:
    """The tool as a module."""
    spec = importlib.util.spec_from_file_location("mutants_tool", Path(TOP, "tools/mutants.py"))
    assert spec and spec.loader
    tool = importlib.util.module_from_spec(spec)
    sys.modules[spec.name] = tool
    spec.loader.exec_module(tool)
    return tool


TOOL = load_tool()
# A crate with a function, two that call one another, and methods of a type and of a trait.
SOURCE = """/// One.
fn one(x: usize) -> usize
    ensures { result ≡ x }
{
    x
}

impl<'a> Page<'a> {
    #[cycle(both)]
    pub fn even(&self) -> bool {
        self.odd()
    }

    /// Odd.
    #[cycle(both)]
    fn odd(&self) -> bool {
        !self.even()
    }
}

impl<'a> Show for Page<'a> {
    fn show(&self) -> usize {
        one(1)
    }
}

impl From<Global> for Page<'_> {
    fn from(global: Global) -> Self {
        Page::of(global)
    }
}
"""
EDITS = {
    "one": ("    x", "    x + 1"),
    "again": ("    x", "    0"),
    "even": ("        self.odd()", "        true"),
    "odd": ("        !self.even()", "        false"),
    "show": ("        one(1)", "        one(2)"),
    "from": ("        Page::of(global)", "        Page::new()"),
}
REFUSED = (
    "no proof: expected answers in ./proofs/one/Answers.antt; `search` did not prove `returns`"
)


class Edits(Case):
    """The edits of the repository."""

    def test_edits(self) -> None:
        """Each has its text once in a function that is there, and changes it."""
        files = [*CRATES.glob("*/mutants/*"), *CRATES.glob("*/must-fail/*")]
        self.assertGreater(len(files), 100)
        for path in files:
            with self.subTest(edit=str(path.relative_to(CRATES))):
                self.assertEqual(path.suffix, ".edit")
                folder = path.parent.parent
                edit = TOOL.read_edit(path)
                TOOL.apply(edit, folder, {})
                texts = {file: (folder / file).read_text("utf-8") for file, _, _ in edit.pairs}
                self.assertTrue(TOOL.functions_of(edit, texts))

    def test_of_day(self) -> None:
        """The prover refuses those of two crates. The gate has proved the libraries below them."""
        if not shutil.which("rt"):
            self.skipTest("wrong bodies: there is no toolchain")
        crates = TOOL.crates_of_day(TOOL.crates_with_edits())
        with concurrent.futures.ThreadPoolExecutor(max_workers=len(crates)) as pool:
            for rows in pool.map(lambda crate: list(TOOL.try_crate(crate)), crates):
                for name, outcome in rows:
                    if outcome.startswith("not tried") and "PROGRAMS" not in os.environ:
                        self.skipTest(f"wrong bodies: {outcome}")
                    with self.subTest(edit=name):
                        self.assertEqual(outcome, TOOL.REFUSED)


class FakeBench:
    """A crate whose check says what is told of each function."""

    name = "made"

    def __init__(self, folder: Path, told: dict[str, str]) -> None:
        self.folder, self.crate, self.told = folder, self, told
        self.texts: list[str] = []

    def check(self, texts: dict[str, str], functions: Sequence[Any]) -> str:
        """What the prover says."""
        self.texts.append(texts["src/page.rt"])
        lines = [f"fn made::page::{name}: {said}" for name, said in self.told.items()]
        return "\n".join([*lines, f"only={len(functions)} proved=0"])


class Tool(Case):
    """What the tool tries together, and what it makes of what the prover says."""

    def setUp(self) -> None:
        folder = tempfile.TemporaryDirectory()
        self.addCleanup(folder.cleanup)
        self.folder = Path(folder.name, "made")
        (self.folder / "src").mkdir(parents=True)
        (self.folder / "mutants").mkdir()
        (self.folder / "src/page.rt").write_text(SOURCE, "utf-8")

    def edits(self, *names: str) -> list[Any]:
        """The edits of these names."""
        for name in names:
            old, new = EDITS[name]
            text = f"file: src/page.rt\nold: {old}\nnew: {new}\n"
            (self.folder / f"mutants/{name}.edit").write_text(text, "utf-8")
        return [TOOL.read_edit(self.folder / f"mutants/{name}.edit") for name in names]

    def outcomes(self, told: dict[str, str], *names: str) -> dict[str, str]:
        """What one check tells of edits."""
        self.bench = FakeBench(self.folder, told)
        found = TOOL.try_round(self.bench, self.edits(*names))
        return {edit.path.stem: outcome for edit, outcome in found.items()}

    def test_functions(self) -> None:
        """Which function an edit changes."""
        for name, only, proof in [
            ("one", "page::one", "page::one"),
            ("even", "Page::even", "cycle page both"),
            ("odd", "Page::odd", "cycle page both"),
            ("show", "PageShow::show", r"(?:\w+::)*PageShow::show"),
            ("from", "page", r"(?:\w+::)*PageFrom\w*::from"),
        ]:
            with self.subTest(edit=name):
                [edit] = self.edits(name)
                [found] = TOOL.functions_of(edit, {"src/page.rt": SOURCE})
                self.assertEqual((found.only, found.proof), (only, proof))

    def test_together(self) -> None:
        """One check has one edit for each proof: two edits of a function, or of two that call one
        another, are tried one after another."""
        told = {"one": REFUSED, "Page::even": REFUSED, "PageShow::show": REFUSED}
        told["PageFromGlobal::from"] = REFUSED
        found = self.outcomes(told, "one", "again", "even", "odd", "show", "from")
        self.assertEqual(found, dict.fromkeys(("one", "even", "show", "from"), TOOL.REFUSED))
        [text] = self.bench.texts
        for name, (old, new) in EDITS.items():
            self.assertEqual(new in text, name in found, name)

    def test_outcomes(self) -> None:
        """A function that is proved lets the mistake through; one that only calls another that is
        not proved is tried again; one that the prover does not name was not tried."""
        calls = "it calls `made::page::one`, which is not proved"
        for said, outcome in [
            (REFUSED, "refused"),
            (f"{REFUSED}; {calls}", "refused"),
            ("not proved", "refused"),
            ("proved", "PROVED"),
            (f"no proof: expected answers in ./proofs/show/Answers.antt; {calls}", None),
            (f"no proof: {calls}", None),
            (f"not proved; {calls}", None),
            ("could not tell", "the prover could not tell"),
        ]:
            with self.subTest(said=said):
                found = self.outcomes({"one": REFUSED, "PageShow::show": said}, "one", "show")
                self.assertEqual((found.get("show") or "").startswith(outcome or ""), True, found)
                self.assertEqual("show" in found, outcome is not None)
        self.assertIn("not name", self.outcomes({}, "one")["one"])

    def test_faults(self) -> None:
        """An edit that cannot be made or compiled is a fault, and no refusal."""
        [edit] = self.edits("one")
        (self.folder / "src/page.rt").write_text(SOURCE.replace("    x\n", "    y\n"), "utf-8")
        found = TOOL.try_round(FakeBench(self.folder, {}), [edit])
        self.assertIn("0 times", found[edit])
        (self.folder / "src/page.rt").write_text(SOURCE, "utf-8")
        said = "src/page.rt:5:5: error[unknown-name]: no `y`"
        edits = self.edits("one", "show")
        with mock.patch.object(FakeBench, "check", return_value=said):
            self.assertEqual(list(TOOL.try_round(FakeBench(self.folder, {}), edits)), edits[:1])

    def test_follow(self) -> None:
        """An edit goes where its text went, to another file or crate; not where it stands twice."""
        crates = self.folder.parent
        one, show, even = self.edits("one", "show", "even")
        (self.folder / "src/page.rt").write_text("fn other()\n{\n        one(1)\n}\n", "utf-8")
        (crates / "new/src/reading").mkdir(parents=True)
        (crates / "new/src/reading/page.rt").write_text("fn one()\n{\n    x\n}\n", "utf-8")
        with mock.patch.object(TOOL, "CRATES", crates), mock.patch("builtins.print") as said:
            self.assertEqual(TOOL.follow_all(), 1)
        moved = crates / "new/mutants/one.edit"
        self.assertEqual(TOOL.read_edit(moved).pairs, (("src/reading/page.rt", *one.pairs[0][1:]),))
        self.assertTrue(show.path.exists() and even.path.exists() and not one.path.exists())
        lines = [call.args[0] for call in said.call_args_list]
        wanted = ["made/mutants/even.edit: 0 files have", "made/mutants/one.edit: new/mutants/one"]
        self.assertEqual([line[:36] for line in lines], [line[:36] for line in wanted])

    def test_days(self) -> None:
        """Each crate has its day."""
        crates = [str(it) for it in range(5)]
        days = {TOOL.of_day(crates, day)[at] for day in range(5) for at in (0, 1)}
        self.assertEqual(days, set(crates))
        self.assertEqual(TOOL.of_day(crates[:1], 7), ["0"])
