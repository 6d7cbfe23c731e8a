#!/usr/bin/env python3
"""Checks packages as the registries would that they are meant for, and says what is missing.

    publish.py --dry-run [DIR]    the packages in DIR, by default out/release. Without a folder, and
                                  without that one, those that cargo makes of the erased sources are
                                  made first, in out/publish

Nothing is sent. Where cargo, npm, twine, dpkg-deb or pkg-config are missing their own checks are left
out, with a line. The status is 1 if anything is missing.
"""

from __future__ import annotations

import base64
import csv
import hashlib
import io
import json
import os
import re
import shutil
import subprocess
import sys
import tarfile
import tempfile
import zipfile
from email.message import Message
from email.parser import Parser
from pathlib import Path
from typing import Dict, Iterator, List, Sequence, Set

TOP = Path(__file__).resolve().parent.parent
sys.path.insert(0, str(TOP))

from tools import metadata

LICENCES = {"LICENSE-APACHE", "LICENSE-MIT"}
# Where Debian keeps the crates of others, from which cargo takes them without its registry.
CRATES = Path("/usr/share/cargo/registry")
# What crates.io allows: bytes, keywords and categories.
MOST_BYTES, MOST_WORDS = 10 << 20, 5
# Folders and files that no package has.
STRAY = re.compile(r"(^|/)(__pycache__|\.git|build|target|node_modules|tests?)(/|$)|\.pyc$|~$")
PLACEHOLDER = re.compile(
    r"https?://[\w.-]*\b(?:example|invalid|localhost)\b|@[\w.-]*\b(?:example|invalid)\b|\bTODO\b|\bFIXME\b"
)
# What cargo warns of while there is no place.
NO_PLACE = "manifest has no documentation, homepage or repository"
PLACE = "the place is missing: `authors` and `[project.urls]` with `Repository` in python/pyproject.toml"


class Missing(List[str]):
    """What packages lack, a line each."""

    def __init__(self, has_tools: bool = True) -> None:
        """Without tools, what these check is left out."""
        super().__init__()
        self.has_tools, self.has_no_place = has_tools, False
        self.left_out: Set[str] = set()

    def unless(self, holds: object, line: str) -> None:
        """Adds a line, unless something holds."""
        if not holds:
            self.append(line)

    def wants(self, tool: str, what: str) -> bool:
        """Whether a tool is there. One that is not is named, with what was left out."""
        if self.has_tools and shutil.which(tool):
            return True
        self.left_out.add(f"left out: {what}: there is no {tool}")
        return False

    def ran(self, words: Sequence[object], what: str, cwd: Path = TOP, **more: str) -> str:
        """Returns what a tool prints, which ends with status 0."""
        done = subprocess.run(
            list(map(str, words)),
            cwd=cwd,
            env={**os.environ, **more},
            stdin=subprocess.DEVNULL,
            stdout=subprocess.PIPE,
            stderr=subprocess.STDOUT,
            text=True,
            check=False,
        )
        self.unless(not done.returncode, f"{what}: {words[0]}: {done.stdout.strip()[-600:]}")
        return done.stdout


class Package:
    """A package that was made: its name, and its files by their paths from its own folder."""

    def __init__(self, path: Path, files: Dict[str, bytes], missing: Missing) -> None:
        self.path, self.name, self.files, self.missing = path, path.name, files, missing
        self.project = metadata.read_metadata()

    def unless(self, holds: object, line: str) -> None:
        """Adds a line on this package, unless something holds."""
        self.missing.unless(holds, f"{self.name}: {line}")

    def text(self, name: str) -> str:
        """Returns a file of it, or nothing."""
        self.unless(name in self.files, f"{name} is missing")
        return self.files.get(name, b"").decode("utf-8", "replace")

    def has_files(self, names: Sequence[str]) -> None:
        """Its files have these names, and none is a stray one or has a placeholder."""
        for name in names:
            self.unless(any(name == it for it in self.files), f"{name} is missing")
        for name in filter(STRAY.search, self.files):
            self.unless(False, f"{name} is packed")

    def has_licences(self, folder: str = "") -> None:
        """It has both licences in a folder of it."""
        self.has_files([folder + it for it in sorted(LICENCES)])

    def has_no_placeholder(self, text: str, where: str) -> None:
        """A text that states what it is names no place that there is not."""
        found = PLACEHOLDER.search(text)
        self.unless(not found, f"{where} has a placeholder: {found and found[0]}")

    def has_place(self, author: object, url: object) -> None:
        """It names an author and the repository, if the project has them."""
        if not (self.project.authors and self.project.repository):
            self.missing.has_no_place = True
        self.unless(author or not self.project.authors, "it does not name the author")
        self.unless(url or not self.project.repository, "it does not name the repository")


def unpacked(path: Path) -> Dict[str, bytes]:
    """Returns the files of a tar.gz without the folder that they are all in."""
    with tarfile.open(path) as packed:
        return {
            it.name.partition("/")[2]: file.read()
            for it in packed.getmembers()
            for file in [packed.extractfile(it) if it.isfile() else None]
            if file
        }


def files_in(path: Path) -> Dict[str, bytes]:
    """Returns the files of a package."""
    if path.suffix != ".whl":
        return unpacked(path)
    with zipfile.ZipFile(path) as packed:
        return {it: packed.read(it) for it in packed.namelist()}


def write_below(files: Dict[str, bytes], to: Path) -> Path:
    """Writes the files below a folder."""
    for name, data in files.items():
        path = to / name
        path.parent.mkdir(parents=True, exist_ok=True)
        path.write_bytes(data)
    return to


# ---- Python


def check_stated(package: Package, text: str) -> None:
    """Checks the metadata of a wheel or a source distribution."""
    stated, project = Parser().parsestr(text), package.project
    package.has_no_placeholder(text.partition("\n\n")[0], "the metadata")

    def every(field: str) -> List[str]:
        return [str(it) for it in stated.get_all(field, [])]

    due = (
        ("Name", ["simplecss"]),
        ("Version", [project.version]),
        ("Summary", [project.summary]),
        ("License-Expression", [project.licence]),
        ("License-File", sorted(LICENCES)),
        ("Requires-Python", [project.python]),
        ("Provides-Extra", list(project.extras)),
        ("Classifier", project.classifiers),
        ("Description-Content-Type", ["text/markdown"]),
    )
    for field, values in due:
        package.unless(every(field) == values, f"{field} is {every(field)}, and not {values}")
    kinds = {it.partition(" ::")[0] for it in every("Classifier")}
    for kind in ("Development Status", "Operating System", "Programming Language", "Typing"):
        package.unless(kind in kinds, f"no classifier says its {kind.lower()}")
    package.unless(len(str(stated.get_payload())) > 500, "the description is missing")
    has_author = every("Author") or every("Author-email")
    package.has_place(has_author, any(project.repository in it for it in every("Project-URL")))
    check_classifiers(package, every("Classifier"))


def check_classifiers(package: Package, classifiers: Sequence[str]) -> None:
    """Checks that the registry knows the classifiers, where Debian's list of them is there."""
    words = [
        "/usr/bin/python3",
        "-c",
        "from trove_classifiers import classifiers as it; print(*it, sep='\\n')",
    ]
    done = subprocess.run(words, capture_output=True, text=True, check=False)
    if done.returncode:
        line = "left out: whether PyPI knows the classifiers: there is no python3-trove-classifiers"
        package.missing.left_out.add(line)
    known = done.stdout.splitlines()
    for each in classifiers if known else ():
        package.unless(each in known, f"PyPI does not know the classifier {each}")


def check_by_twine(package: Package) -> None:
    """Checks what twine does, whose rules are the registry's."""
    if package.missing.wants("twine", "the check of twine"):
        shown = package.missing.ran(["twine", "check", "--strict", package.path], package.name)
        package.unless("PASSED" in shown, f"twine: {shown.strip()[-300:]}")


def check_sdist(package: Package) -> None:
    """Checks the source distribution: with the sources that cargo compiles, on any system."""
    package.has_licences()
    sources = ("Cargo.toml", "simplecss.h", "src/lib.rs")
    package.has_files(
        ["pyproject.toml", "setup.py", "README.md", *(f"erased/{it}" for it in sources)]
    )
    package.has_files(["src/simplecss/py.typed", "src/simplecss/__init__.py"])
    package.unless(
        not [it for it in package.files if it.endswith((".so", ".dylib", ".dll"))],
        "it has a compiled library",
    )
    check_stated(package, package.text("PKG-INFO"))
    check_by_twine(package)


def check_wheel(package: Package) -> None:
    """Checks a wheel: its record, its metadata, and that its tags hold."""
    info = f"simplecss-{package.project.version}.dist-info/"
    package.has_licences(info + "licenses/")
    package.has_files(["simplecss/py.typed", "simplecss/libsimplecss.so"])
    check_stated(package, package.text(info + "METADATA"))
    check_record(package, package.text(info + "RECORD"))
    for name, call in package.project.scripts.items():
        stated = package.text(info + "entry_points.txt")
        package.unless(f"{name} = {call}\n" in stated, f"the command {name} is missing")
    check_tags(package, package.text(info + "WHEEL"))
    check_by_twine(package)


def check_record(package: Package, text: str) -> None:
    """Checks the sums of the files."""
    rows = {row[0]: row[1:] for row in csv.reader(io.StringIO(text))}
    package.unless(set(rows) == set(package.files), "RECORD does not name each file")
    for name, data in package.files.items():
        total = base64.urlsafe_b64encode(hashlib.sha256(data).digest()).rstrip(b"=").decode()
        wanted = [f"sha256={total}", str(len(data))]
        if not name.endswith("/RECORD"):
            package.unless(rows.get(name) == wanted, f"RECORD has another sum of {name}")


def check_tags(package: Package, text: str) -> None:
    """Checks that the wheel is for every Python 3, and runs wherever a tag says."""
    tags = re.findall(r"(?m)^Tag: (.*)", text)
    package.unless(tags, "it has no tags")
    imported = {
        (int(it[0]), int(it[1]))
        for it in re.findall(
            rb"\0GLIBC_(\d+)\.(\d+)(?=[\0.])", package.files.get("simplecss/libsimplecss.so", b"")
        )
    }
    newest = max(imported, default=(0, 0))
    for tag in tags:
        package.unless(tag.startswith("py3-none-"), f"{tag} is not for every Python 3")
        many = re.match(r"py3-none-manylinux_(\d+)_(\d+)_", tag)
        old = re.match(r"py3-none-manylinux(1|2010|2014)_", tag)
        allowed = (int(many[1]), int(many[2])) if many else None
        allowed = {"1": (2, 5), "2010": (2, 12), "2014": (2, 17)}[old[1]] if old else allowed
        if allowed:
            package.unless(newest <= allowed, f"{tag}: it imports names of glibc {newest}")
        elif "-musllinux_" in tag:
            package.unless(not imported, f"{tag}: it imports names of glibc")
        else:
            package.unless(False, f"PyPI takes no wheel with the tag {tag}")


# ---- Rust


def check_crate(package: Package) -> None:
    """Checks a crate: what crates.io and docs.rs read, and that cargo packs it without a warning."""
    package.has_licences()
    package.has_files(["README.md", "src/lib.rs"])
    text, project = package.text("Cargo.toml"), package.project
    package.has_no_placeholder(text, "Cargo.toml")
    tables = metadata.tables_of(text)
    stated = tables.get("package", {})
    due = {"license": f'"{project.licence}"', "readme": '"README.md"'}
    for field, value in due.items():
        package.unless(stated.get(field) == value, f"{field} is {stated.get(field)}")
    for field in ("description", "rust-version", "edition"):
        package.unless(metadata.strings(stated.get(field, "")), f"Cargo.toml has no {field}")
    for field in ("keywords", "categories"):
        count = len(metadata.strings(stated.get(field, "")))
        package.unless(0 < count <= MOST_WORDS, f"it has {count} {field}")
    on_docs = tables.get("package.metadata.docs.rs", {})
    package.unless(on_docs.get("all-features") == "true", "docs.rs would not show each feature")
    package.unless(package.path.stat().st_size < MOST_BYTES, "it is too long for crates.io")
    package.has_place("authors" in stated, project.repository in stated.get("repository", ""))
    is_own = stated.get("name") == f'"{project.crate}"'
    if is_own:
        package.unless("homepage" not in stated, "its homepage is that of another crate")
        package.unless(tables.get("lib", {}).get("name") == '"simplecss"', "it has another library")
    check_by_cargo(package)


def check_by_cargo(package: Package) -> None:
    """Checks that cargo packs the crate, and documents each item of it, without a warning."""
    if not package.missing.wants("cargo", "the checks of cargo"):
        return
    with tempfile.TemporaryDirectory() as name:
        room = Path(name)
        crate, home = write_below(package.files, room / "crate"), room / "home"
        home.mkdir()
        if CRATES.is_dir():
            lines = ("[source.crates-io]", 'replace-with = "debian"', "[source.debian]")
            (home / "config.toml").write_text("\n".join([*lines, f'directory = "{CRATES}"', ""]))
        more = {"CARGO_HOME": str(home), "CARGO_TARGET_DIR": str(room / "target")}
        more["RUSTUP_HOME"] = os.environ.get("RUSTUP_HOME") or str(Path.home() / ".rustup")
        offline = ["--offline"] if CRATES.is_dir() else []
        words = ["cargo", "package", "--allow-dirty", "--no-verify", *offline]
        shown = package.missing.ran(words, package.name, crate, **more)
        # Of what is erased all is reached by names that the crate exports.
        top = crate / "src/lib.rs"
        top.write_text(top.read_text().replace("missing_docs, ", ""))
        more["RUSTDOCFLAGS"] = "-D missing_docs -D rustdoc::broken-intra-doc-links"
        words = ["cargo", "doc", "--no-deps", "--all-features", *offline]
        shown += package.missing.ran(words, package.name, crate, **more)
        for line in re.findall(r"(?m)^warning: (.*)", shown):
            if line == NO_PLACE:
                package.missing.has_no_place = True
            else:
                package.unless(False, f"cargo: {line}")


# ---- JavaScript


def targets_of(exported: object) -> Iterator[str]:
    """Yields the files that a value of `exports` names."""
    if isinstance(exported, str):
        yield exported.removeprefix("./")
    elif isinstance(exported, dict):
        for each in exported.values():
            yield from targets_of(each)


def has_types(exported: object) -> bool:
    """Whether each entry for programs has types of its kind before it: `.d.cts` for `require`."""
    if not isinstance(exported, dict):
        return True
    kinds = {".mjs": ".d.ts", ".cjs": ".d.cts"}
    entry, types = exported.get("default"), exported.get("types", "")
    has_own = True
    if isinstance(entry, str):
        keys = list(exported)
        is_first = "types" in keys and keys.index("types") < keys.index("default")
        has_own = is_first and types.endswith(kinds.get(Path(entry).suffix, "?"))
    return has_own and all(map(has_types, exported.values()))


def check_npm(package: Package) -> None:
    """Checks the package for npm: its fields, that what it names is there, and what npm packs."""
    stated, project = json.loads(package.text("package.json") or "{}"), package.project
    package.has_licences()
    package.has_files(["README.md", "second.wasm", "simplecss.wasm"])
    package.has_no_placeholder(json.dumps(stated), "package.json")
    due = {"name": "simplecss", "version": project.version, "license": project.licence}
    for field, value in due.items():
        package.unless(stated.get(field) == value, f"{field} is {stated.get(field)}")
    for field in ("description", "keywords", "files", "sideEffects", "exports", "engines"):
        package.unless(stated.get(field), f"package.json has no {field}")
    exports = stated.get("exports", {})
    named = [*targets_of(exports), *targets_of(stated.get("bin", {}))]
    named += [str(stated.get(it, "")).removeprefix("./") for it in ("main", "module", "types")]
    package.has_files(sorted(set(named)))
    package.unless(has_types(exports), "an entry has no types of its own kind")
    conditions = json.dumps(exports)
    package.unless(
        '"require"' in conditions and '"import"' in conditions, "it has one kind of module alone"
    )
    for path in targets_of(stated.get("bin", {})):
        package.unless(package.files.get(path, b"").startswith(b"#!"), f"{path} is no program")
    package.has_place(stated.get("author"), stated.get("repository"))
    check_by_npm(package)


def check_by_npm(package: Package) -> None:
    """Checks that npm packs the files that are there, and no others."""
    if not package.missing.wants("npm", "the check of npm"):
        return
    with tempfile.TemporaryDirectory() as name:
        folder = write_below(package.files, Path(name))
        (folder / "playground.html").write_text("")
        words = ["npm", "pack", "--dry-run", "--json", "--offline", "--loglevel=error"]
        shown = package.missing.ran(words, package.name, folder, HOME=name)
    if shown.lstrip().startswith("["):
        packed = {str(it["path"]) for it in json.loads(shown)[0]["files"]}
        for each in sorted(packed ^ set(package.files)):
            package.unless(
                False, f"{each} is {'packed' if each in packed else 'not packed'} by npm"
            )


# ---- C


def check_prefix(package: Package) -> None:
    """Checks a tarball of the C library: its name in the shared one, and what pkg-config and CMake
    read."""
    soname = re.findall(r'(?m)^SONAME = "(.*)"', (TOP / "build").read_text())[0]
    library = package.files.get(f"lib/{soname}", b"")
    package.unless(b"\0" + soname.encode() + b"\0" in library, f"lib/{soname} has another SONAME")
    cmake = [f"lib/cmake/simplecss/simplecss-config{it}.cmake" for it in ("", "-version")]
    headers = ["include/simplecss.h", "include/simplecss.hpp"]
    package.has_files([*headers, "lib/libsimplecss.a", *cmake])
    stated = package.text("lib/pkgconfig/simplecss.pc")
    package.unless(f"Version: {package.project.version}\n" in stated, ".pc has another version")
    package.has_place(True, "URL: " in stated)
    notices = b"".join(data for name, data in package.files.items() if name.endswith("/copyright"))
    package.unless(
        b"Apache License" in notices and b"MIT License" in notices, "the licences are missing"
    )
    if package.missing.wants("pkg-config", "the check of pkg-config"):
        with tempfile.TemporaryDirectory() as name:
            path = write_below(package.files, Path(name)) / "lib/pkgconfig/simplecss.pc"
            package.missing.ran(["pkg-config", "--validate", path], package.name)


def check_deb(path: Path, missing: Missing) -> None:
    """Checks the fields of a Debian package."""
    if not missing.wants("dpkg-deb", "the check of the Debian packages"):
        return
    package = Package(path, {}, missing)
    stated: Message = Parser().parsestr(missing.ran(["dpkg-deb", "-f", path], path.name))
    for field in ("Package", "Version", "Architecture", "Section", "Priority", "Description"):
        package.unless(stated[field], f"{field} is missing")
    package.has_no_placeholder(str(stated), "the control file")
    package.has_place(stated["Maintainer"], stated["Homepage"])
    listed = missing.ran(["dpkg-deb", "-c", path], path.name)
    package.unless(re.search(r"share/doc/[\w-]+/copyright\n", listed), "the licences are missing")


# ---- all


def check(folder: Path) -> Missing:
    """Checks all packages in a folder."""
    missing = Missing()
    kinds = (
        ("*.crate", check_crate, 2),
        ("simplecss-*.whl", check_wheel, 1),
        ("simplecss-*.tar.gz", check_sdist, 1),
        ("simplecss-*.tgz", check_npm, 1),
        ("*-linux-*.tar.gz", check_prefix, 1),
    )
    for pattern, checked, count in kinds:
        found = sorted(folder.glob(pattern))
        missing.unless(len(found) >= count, f"{pattern}: {len(found)} packages, and not {count}")
        for path in found:
            checked(Package(path, files_in(path), missing))
    for path in sorted(folder.glob("*.deb")):
        check_deb(path, missing)
    return missing


def made() -> Path:
    """Returns the folder of what `./build release` made, or else makes what cargo does."""
    released, erased = TOP / "out/release", TOP / "out/publish"
    if released.is_dir():
        return released
    print("out/release is missing: these are packages of the erased sources, with nothing proved")
    words = [sys.executable, str(TOP / "tools/release.py"), "--erased", str(erased)]
    if subprocess.run(words, cwd=TOP, check=False).returncode:
        sys.exit("tools/publish.py: tools/release.py failed")
    return erased


def main(words: Sequence[str]) -> int:
    """Prints what is missing, and returns the status."""
    if words[:1] != ["--dry-run"] or len(words) > 2:
        sys.exit("usage: tools/publish.py --dry-run [DIR]: nothing is ever sent")
    missing = check(Path(words[1]) if words[1:] else made())
    for line in sorted(missing.left_out):
        print(line)
    lines = [*missing, *([PLACE] if missing.has_no_place else [])]
    for line in lines:
        print(line)
    print("nothing is missing" if not lines else f"{len(lines)} missing")
    return 1 if lines else 0


if __name__ == "__main__":
    sys.exit(main(sys.argv[1:]))
