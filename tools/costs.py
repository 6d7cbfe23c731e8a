#!/usr/bin/env python3
"""What the proofs of the repository cost: the functions of each crate, since proofs cost by the
function, and the longest path: crates of which each waits for the one before, however many
processors there are.

  tools/costs.py                    the functions of each crate, and the longest path
  tools/costs.py LOG..              the same with the processor seconds of each crate
  tools/costs.py --watch LOG [PID]  writes the seconds to a log while a run goes on: of all provers
                                    until it is interrupted, or of those below a process until that ends

A LOG is what `--watch` writes, or what `rt ci` prints, whose counts of functions are those that were
proved. `tests/all.py` leaves the former in `out/costs.log`. A crate that is checked more than once, for
its tests or its edits, has the seconds of each kind.
"""

from __future__ import annotations

import collections
import os
import re
import sys
import time
from collections.abc import Iterator
from pathlib import Path

TOP = Path(__file__).resolve().parent.parent
CRATES = TOP / "crates"
HEAD = re.compile(r"^ *(?:pub(?:\([a-z]+\))? )?(?:const )?(?:extern \"C\" )?fn \w+", re.MULTILINE)
# A process of the prover, by the words that it was started with.
PROVER = re.compile(r"\brattle (build|check) (?:.* )?--crate-name (\w+)(.*)")
# A line of such a log, and a line of `rt ci` after a check of a crate.
WATCHED = re.compile(r"^(\d+) ([\d.]+) (\w+) (proof|tests|check)$", re.MULTILINE)
PROVED = re.compile(r"^logic=proved functions=(\d+)", re.MULTILINE)
# How many seconds are between two looks at the processes.
PAUSE = 2.0


def read_uses() -> dict[str, list[str]]:
    """What each crate uses of the repository, by crates.txt."""
    rows = [line.partition(":") for line in (TOP / "crates.txt").read_text().splitlines()]
    uses = {
        left.split()[0]: right.split() for left, colon, right in rows if colon and left[0] != "#"
    }
    return {name: [it for it in below if it in uses] for name, below in uses.items()}


def count_functions(crate: str) -> int:
    """How many functions the sources of a crate have."""
    sources = (CRATES / crate / "src").rglob("*.rt")
    return sum(len(HEAD.findall(source.read_text(encoding="utf-8"))) for source in sources)


def below(crate: str, uses: dict[str, list[str]]) -> set[str]:
    """The crates that a crate uses, however far below."""
    found: set[str] = set()
    left = list(uses[crate])
    while left:
        name = left.pop()
        if name not in found:
            found.add(name)
            left += uses[name]
    return found


def path_to(crate: str, uses: dict[str, list[str]], counts: dict[str, int]) -> list[str]:
    """The path of crates to this one that has the most functions."""
    paths = [path_to(name, uses, counts) for name in uses[crate]]
    none: list[str] = []
    longest = max(paths, key=lambda path: sum(counts[name] for name in path), default=none)
    return [*longest, crate]


def kind_of(command: str, more: str) -> str:
    """What a process of the prover does with a crate."""
    if "--test" in more.split():
        return "tests"
    return "proof" if command == "build" else "check"


def processes() -> Iterator[tuple[int, int, float, str]]:
    """The processes that run: the number of each and of its parent, its processor seconds, and its
    words."""
    tick = os.sysconf("SC_CLK_TCK")
    for number in filter(str.isdigit, os.listdir("/proc")):
        try:
            words = Path("/proc", number, "cmdline").read_bytes().decode(errors="replace")
            fields = Path("/proc", number, "stat").read_text().rpartition(")")[2].split()
        except OSError:
            continue
        # The times of the process and of the children that it has waited for.
        seconds = sum(map(int, fields[11:15])) / tick
        yield int(number), int(fields[1]), seconds, words.replace("\0", " ").strip()


def is_below(number: int, top: int, parents: dict[int, int]) -> bool:
    """Whether a process is below another, or that is 0."""
    while number and number != top:
        number = parents.get(number, 0)
    return number == top


def watch(log: Path, top: int) -> None:
    """Writes what the processes of the prover below a process have used, again and again, until that
    ends."""
    with open(log, "a", encoding="utf-8") as file:
        while True:
            every = list(processes())
            parents = {number: parent for number, parent, _, _ in every}
            for number, _, seconds, words in every:
                found = PROVER.search(words)
                if found and is_below(number, top, parents):
                    kind = kind_of(found[1], found[3])
                    file.write(f"{number} {seconds:.1f} {found[2]} {kind}\n")
            file.flush()
            if top and top not in parents:
                return
            time.sleep(PAUSE)


def seconds_of(log: str) -> dict[tuple[str, str], float]:
    """The processor seconds of each crate and kind of check, by a log."""
    last: dict[tuple[str, str, str], float] = {}
    for number, seconds, crate, kind in WATCHED.findall(log):
        last[number, crate, kind] = max(float(seconds), last.get((number, crate, kind), 0.0))
    found: dict[tuple[str, str], float] = collections.defaultdict(float)
    for (_, crate, kind), value in last.items():
        found[crate, kind] += value
    return found


def proved_in(log: str) -> dict[str, int]:
    """How many functions were proved of each crate, by what `rt ci` prints."""
    found: dict[str, int] = collections.Counter()
    for crate, text in zip(*[iter(re.split(r"^== (\w+)$", log, flags=re.MULTILINE)[1:])] * 2):
        found[crate] += sum(map(int, PROVED.findall(text)))
    return {crate: number for crate, number in found.items() if number}


def show(seconds: dict[tuple[str, str], float], proved: dict[str, int]) -> None:
    """Prints the functions and the seconds of each crate, and then the longest path."""
    uses = read_uses()
    counts = {crate: proved.get(crate) or count_functions(crate) for crate in uses}
    for crate in sorted(counts, key=lambda name: -counts[name]):
        of_crate = [
            (kind, value) for (name, kind), value in sorted(seconds.items()) if name == crate
        ]
        costs = [
            f"{kind} {value:.0f} s, {value / max(1, counts[crate]):.1f} s each"
            for kind, value in of_crate
        ]
        print("; ".join([f"{crate}: {counts[crate]} functions", *costs]))
    total = sum(counts.values())
    paths = [path_to(crate, uses, counts) for crate in uses]
    longest = max(paths, key=lambda path: sum(counts[name] for name in path))
    number = sum(counts[name] for name in longest)
    spent = sum(seconds.values()) / 60
    print(f"all: {total} functions in {len(counts)} crates; {spent:.0f} processor minutes")
    for crate in ("cssq_cli", "simplecss_c"):
        crates = below(crate, uses) | {crate}
        print(f"{crate}: {sum(counts[name] for name in crates)} functions in {len(crates)} crates")
    print(f"longest path: {number} functions, {100 * number // total} in 100: {' '.join(longest)}")


def main(words: list[str]) -> int:
    """Prints the costs, or writes a log."""
    if words[:1] == ["--watch"] and len(words) in (2, 3):
        try:
            watch(Path(words[1]), int(words[2]) if len(words) == 3 else 0)
        except KeyboardInterrupt:
            return 0
    if any(word.startswith("-") for word in words):
        print(__doc__)
        return 0 if words[0] in ("-h", "--help") else 2
    logs = [Path(word).read_text(encoding="utf-8", errors="replace") for word in words]
    show(
        seconds_of("".join(logs)),
        {crate: number for log in logs for crate, number in proved_in(log).items()},
    )
    return 0


if __name__ == "__main__":
    sys.exit(main(sys.argv[1:]))
