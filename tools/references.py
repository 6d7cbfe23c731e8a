#!/usr/bin/env python3
"""Writes the table of the named character references of HTML, from Python's `html.entities`.

  tools/references.py           writes it into crates/css_html
  tools/references.py --check   whether what is there is what would be written

The table is two files with the same texts: one is of the code, the other of the definitions. The
prover compares them.
"""

from __future__ import annotations

import html.entities
import itertools
import sys
from collections.abc import Iterator
from pathlib import Path

CRATE = Path(__file__).resolve().parent.parent / "crates" / "css_html"
CODE = CRATE / "src" / "reference_names.rt"
DEFINITION = CRATE / "specs" / "ReferenceNames.antt"
WIDTH = 84


def rows() -> Iterator[tuple[str, str]]:
    """Each first letter, with the row of a name: the rest of the name, and its characters."""
    for name, characters in sorted(html.entities.html5.items()):
        numbers = "+".join(f"{ord(character):X}" for character in characters)
        yield name[0], f"{name[1:]} {numbers} "


def lines_of(texts: list[str]) -> list[str]:
    """The texts one after another, as lines that are not too long."""
    lines = [""]
    for text in texts:
        if len(lines[-1]) + len(text) > WIDTH:
            lines.append("")
        lines[-1] += text
    return lines


def tables() -> list[tuple[str, list[str]]]:
    """Each first letter, and the lines of its rows."""
    groups = itertools.groupby(rows(), key=lambda row: row[0])
    return [(letter, lines_of([letter, *(text for _, text in group)])) for letter, group in groups]


def code() -> str:
    """The table in Rattle."""
    parts = [
        """\
//! The named character references of HTML (HTML Standard, section 13.5). Written by
//! `tools/references.py`.
ghost use Rattle.std.specs.Prelude.{◌≡◌, map};
ghost use Rattle.css_html.specs.ReferenceNames.{names, rows_in as rows_in_table};

/// The rows of the names, by their first letters: a letter and its rows. A row is the rest of a name,
/// a space, the hexadecimal numbers of its characters with `+` between, and a space.
"""
    ]
    parts.append(f"const NAMES: [&[u8]; {len(tables())}] = [\n")
    for letter, lines in tables():
        text = "\\\n        ".join(lines)
        parts.append(f'    b"{text}",\n')
    parts.append(
        """\
];

/// Returns the rows of this letter in a table.
#[tactic(auto, unfolding(crate::specs::ReferenceNames::rows_in))]
fn rows_in<'a>(table: &[&'a [u8]], letter: u8) -> &'a [u8]
    ensures { result.now ≡ rows_in_table letter (map (λ one. one.now) table.now) }
{
    let mut left = table;
    'letters: while let [one, more @ ..] = left {
        match *one {
            [first, rows @ ..] if *first == letter => return rows,
            _ => {}
        }
        left = more;
    }
    &[]
}

/// Returns the rows of the names that begin with this letter.
pub(crate) fn rows_of(letter: u8) -> &'static [u8]
    ensures { result.now ≡ rows_in_table letter names }
{
    rows_in(&NAMES, letter)
}
"""
    )
    return "".join(parts)


def definition() -> str:
    """The table as a definition."""
    parts = [
        """\
-- The named character references of HTML (HTML Standard, section 13.5). Written by
-- `tools/references.py`.
use Rattle.std.specs.Prelude.{ℕ, ◌==◌, if◌then◌else◌, List, [], ◌∷◌, ◌++◌, codes}

-- The rows of the names, by their first letters: a letter and its rows. A row is the rest of a name, a
-- space, the hexadecimal numbers of its characters with `+` between, and a space.
unfoldable pub names : List (List ℕ)
names =
    """
    ]
    for _, lines in tables():
        text = "\n    ++ (".join(f'codes "{line}"' for line in lines) + ")" * (len(lines) - 1)
        parts.append(f"({text})\n    ∷ ")
    parts.append(
        """\
[]

-- what follows the letter in the first text that begins with it
unfoldable pub rows_in : ℕ → List (List ℕ) → List ℕ
rows_in letter [] = []
rows_in letter ([] ∷ more) = rows_in letter more
rows_in letter ((b ∷ rows) ∷ more) = if b == letter then rows else rows_in letter more
"""
    )
    return "".join(parts)


def main() -> int:
    """Writes both files, or compares them."""
    texts = {CODE: code(), DEFINITION: definition()}
    if sys.argv[1:] == ["--check"]:
        return int(any(path.read_text("utf-8") != text for path, text in texts.items()))
    for path, text in texts.items():
        path.write_text(text, "utf-8")
    return 0


if __name__ == "__main__":
    sys.exit(main())
