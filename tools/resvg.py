#!/usr/bin/env python3
"""Runs the tests of resvg 0.45.1, which draws SVG, with the erased crate in place of `simplecss`.

  tools/resvg.py DIR    fetches, compiles and runs in DIR

It is run by hand. The sources of resvg, and of the crates that it uses, come from Debian's archive; cargo itself is
offline. Of a crate the version of trixie is taken, or else sid's. It needs apt-get, dpkg-deb and tar, and a recent Rust.
What is fetched is kept in DIR for the next run. The status is 0 if every test passes.
"""
from __future__ import annotations

import os
import re
import shutil
import subprocess
import sys
from pathlib import Path
from typing import List, Sequence, Set

TOP = Path(__file__).resolve().parent.parent
sys.path.insert(0, str(TOP))

from tests.judges_tests import apt_get

VERSION = "0.45.1"
SUITES = ("trixie", "sid")
ARCHIVE = """Types: deb deb-src
URIs: http://deb.debian.org/debian
Suites: {suite}
Components: main
Architectures: amd64
Signed-By: /usr/share/keyrings/debian-archive-keyring.gpg
"""
# What is changed in the manifests of resvg: its members without tests, and a version that Debian does not have.
CHANGED = {
    "Cargo.toml": {'    "crates/c-api",\n': "", '    "crates/usvg/codegen",\n': ""},
    "crates/usvg/Cargo.toml": {
        'rustybuzz = { version = "0.20.1"': 'rustybuzz = { version = "0.18"'
    },
}
PATCHED = '\n[patch.crates-io]\nsimplecss = {{ path = "{path}" }}\n'
CONFIG = '[source.crates-io]\nreplace-with = "debian"\n[source.debian]\ndirectory = "{path}"\n'
# What cargo says of a crate that is not there, and of one that is there in other versions.
MISSING = re.compile(r"(?:no matching package named|searched package name:) `([\w-]+)`()")
OTHER = re.compile(r'failed to select a version for the requirement `([\w-]+) = "([^"]*)"')
RESULT = re.compile(r"^test result: \w+\. (\d+) passed; (\d+) failed; (\d+) ignored", re.MULTILINE)


def unpack(package: Path, to: Path) -> None:
    """Unpacks a package of Debian into a folder."""
    subprocess.run(["dpkg-deb", "-x", str(package), str(to)], check=True)


class Room:
    """A folder for what is fetched and compiled."""

    def __init__(self, folder: Path) -> None:
        self.folder = folder.resolve()
        self.source, self.crates = self.folder / f"resvg-{VERSION}", self.folder / "crates"
        for name in ("crates", "fetched", "home"):
            (self.folder / name).mkdir(parents=True, exist_ok=True)

    def fetch(self, suite: str, *words: str) -> List[Path]:
        """Fetches files of a suite, and returns which are new."""
        lists, fetched = self.folder / f"apt-{suite}", self.folder / "fetched"
        if not lists.is_dir():
            for name in ("lists/partial", "cache/archives/partial"):
                (lists / name).mkdir(parents=True)
            (lists / "archive.sources").write_text(ARCHIVE.format(suite=suite), encoding="ascii")
            if not apt_get(["update"], str(lists), str(lists)):
                shutil.rmtree(lists)
                sys.exit(f"tools/resvg.py: the lists of {suite} could not be fetched")
        before = set(fetched.iterdir())
        return (
            list(set(fetched.iterdir()) - before)
            if apt_get(words, str(lists), str(fetched))
            else []
        )

    def take_source(self) -> None:
        """Unpacks the source of resvg, whose manifests take the erased crate."""
        shutil.rmtree(self.source, ignore_errors=True)
        name = f"resvg_{VERSION}.orig.tar.gz"
        if not (self.folder / "fetched" / name).exists():
            self.fetch(SUITES[0], "source", "--download-only", "--tar-only", f"resvg={VERSION}-1")
        self.source.mkdir()
        words = ["tar", "-xf", str(self.folder / "fetched" / name), "--strip-components=1"]
        subprocess.run([*words, "-C", str(self.source)], check=True)
        (self.source / "Cargo.lock").unlink()
        for path, changes in CHANGED.items():
            text = (self.source / path).read_text(encoding="utf-8")
            for old, new in changes.items():
                assert old in text, f"{path} has no {old}"
                text = text.replace(old, new)
            (self.source / path).write_text(text, encoding="utf-8")
        with (self.source / "Cargo.toml").open("a", encoding="utf-8") as file:
            file.write(PATCHED.format(path=self.folder / "simplecss"))

    def take_crate(self, name: str, version: str, tried: Set[str]) -> None:
        """Puts a crate where cargo looks for it: the first package of Debian that was not tried yet."""
        package = f"librust-{name.replace('_', '-')}"
        for suite in SUITES:
            for each in (f"{package}-dev", f"{package}-{version}-dev" if version else ""):
                if each and f"{suite}/{each}" not in tried:
                    tried.add(f"{suite}/{each}")
                    for path in self.fetch(suite, "download", each):
                        unpack(path, self.crates)
                        print(path.name, flush=True)
                        return
        sys.exit(f"tools/resvg.py: Debian has no crate {name} {version} that fits")

    def cargo(self, *words: str) -> "subprocess.CompletedProcess[str]":
        """Runs cargo on resvg, with the crates of Debian."""
        environment = {**os.environ, "CARGO_HOME": str(self.folder / "home")}
        environment.setdefault("RUSTUP_HOME", os.path.expanduser("~/.rustup"))
        command = ["cargo", *words, "--offline"]
        return subprocess.run(
            command, cwd=self.source, env=environment, capture_output=True, text=True, check=False
        )

    def resolve(self) -> None:
        """Fetches the crates that resvg uses, each as cargo misses it."""
        path = self.crates / "usr/share/cargo/registry"
        path.mkdir(parents=True, exist_ok=True)
        (self.folder / "home/config.toml").write_text(CONFIG.format(path=path), encoding="utf-8")
        for path in (self.folder / "fetched").glob("*.deb"):
            unpack(path, self.crates)
        tried: Set[str] = set()
        while True:
            said = self.cargo("generate-lockfile").stderr
            found = MISSING.search(said) or OTHER.search(said)
            if not found:
                break
            name, version = found[1], re.sub(r"\A[^0-9]*(0\.\d+|\d+).*", r"\1", found[2] or "")
            self.take_crate(name, version, tried)
        if not (self.source / "Cargo.lock").exists():
            sys.exit(f"tools/resvg.py: cargo generate-lockfile: {said[-1500:]}")
        # No other crate of this name is there to be taken.
        assert not list(path.glob("simplecss-*"))


def main(words: Sequence[str]) -> int:
    """Returns the status."""
    if len(words) != 1 or words[0].startswith("-"):
        print(__doc__)
        return int(words != ["--help"]) * 2
    room = Room(Path(words[0]))
    erase = [sys.executable, str(TOP / "tools/erase.py"), str(room.folder / "simplecss")]
    shutil.rmtree(room.folder / "simplecss", ignore_errors=True)
    subprocess.run(erase, check=True)
    room.take_source()
    room.resolve()
    status = 0
    for package in ("usvg", "resvg"):
        done = room.cargo("test", "--release", "-p", package)
        counts = [tuple(map(int, it)) for it in RESULT.findall(done.stdout)]
        passed, failed, ignored = (sum(each) for each in zip(*counts)) if counts else (0, 0, 0)
        print(f"{package}: {passed} passed, {failed} failed, {ignored} ignored", flush=True)
        if done.returncode or not passed:
            print(done.stdout[-3000:], done.stderr[-3000:])
            status = 1
    return status


if __name__ == "__main__":
    sys.exit(main(sys.argv[1:]))
