#!/usr/bin/env python3
"""Makes what people without the toolchain install, from what ./build release has proved: Rust
crates, wheels, source distribution, tarball, Debian package, npm package, one page, and their sums.

    release.py KIT [DIR]    KIT is the toolchain's folder; without DIR it writes to out/release
    release.py --npm DIR    the npm package and the page, without the toolchain and not proved:
                            cargo compiles the module from the erased sources
    release.py --c DIR      so the C library: DIR/lib with what pkg-config and CMake read, DIR/include
    release.py --erased DIR    all that cargo makes of the erased sources, without the toolchain

The bytes are the same from two checkouts of one commit: names are sorted, and times are the
commit's. What cannot be made, since a tool is missing, is named, and the status is 1.
"""

from __future__ import annotations

import base64
import email.utils
import gzip
import hashlib
import io
import json
import os
import platform
import re
import shutil
import subprocess
import sys
import tarfile
import tempfile
import time
import zipfile
from collections import Counter
from pathlib import Path
from typing import Callable, Dict, List, NamedTuple, Optional, Sequence, Tuple

TOP = Path(__file__).resolve().parent.parent
sys.path.insert(0, str(TOP))

from tools import metadata, webassembly

PARTS = TOP / "release"
BUILT = TOP / "crates/cssq_cli/out/rlib/build"
LICENCES = sorted(TOP.glob("LICENSE-*"))
# The library imports six functions of the C library and no version of them: it loads with any.
X86_TAGS = ("manylinux_2_5_x86_64", "manylinux1_x86_64", "musllinux_1_1_x86_64")
ARM_TAGS = ("manylinux_2_17_aarch64", "musllinux_1_1_aarch64")
# Of a shared library: what the linker may, it writes before anything runs, and then never again; and
# no stack runs.
HARDENED = ("-Wl,-z,relro", "-Wl,-z,now", "-Wl,-z,noexecstack")
# As the toolchain compiles its modules.
# fmt: off
FLAGS = [
    "-O3", "-ffunction-sections", "-fdata-sections", "--no-default-config", "-mllvm",
    "-sink-common-insts=false", "-mllvm", "-disable-machine-licm", "-mllvm",
    "-disable-postra-machine-licm",
]
# fmt: on
# What is loaded over a network is compiled to be small.
SMALL = ["-Oz", *FLAGS[1:]]

# What the Debian packages are.
OF_PROGRAM = """proved library of style sheets and selectors, command line
 The program cssq prints selectors, style sheets, which rules match the elements
 of a page or a tree, and which declarations win."""
OF_LIBRARY = """proved library of style sheets and selectors
 It reads style sheets and selectors of modern CSS, matches the elements of a
 tree, and has no state."""
OF_CALLERS = """proved library of style sheets and selectors, header
 The header and the static library, for programs in C and C++, with an example."""
# The modules of the npm package that its page has in it, each after those that it uses; the first
# two have the WebAssembly modules.
MODULES = (
    "bytes",
    "second_bytes",
    "library",
    "taken",
    "properties",
    "reading",
    "nested",
    "resolving",
    "tokens",
    "comments",
    "printing",
    "device",
    "html",
    "tree",
    "winners",
    "explaining",
    "unused",
    "sheet",
    "lint",
    "clean",
    "edit",
    "inline",
)
# The names of the properties that browsers know.
PROPERTIES = TOP / "python/src/simplecss/properties.txt"
# The calls that are in the second WebAssembly module: those for texts that no page is asked about.
SECOND = (
    "clean",
    "dropped",
    "edit",
    "html_edit",
    "inline",
    "lint",
    "property",
    "valid_value",
    "values",
)
FEATURES = (
    "--enable-bulk-memory",
    "--enable-sign-ext",
    "--enable-mutable-globals",
    "--enable-nontrapping-float-to-int",
    "--enable-multivalue",
)
# A WebAssembly module as a text. Each letter stands for one of the bytes that are most of them, but
# for the last two, which with the letter after them stand for another byte: so compression finds in
# the text what it finds in the module.
BYTES = """// A WebAssembly module, as a text.
const letters = %s, single = %d, length = %d;
const order = %s;
const text = '%s';

/** Returns the module. */
function %s() {
  const places = new Uint8Array(128), found = new Uint8Array(length);
  [...letters].forEach((letter, place) => { places[letter.charCodeAt(0)] = place; });
  for (let at = 0, to = 0; at < text.length; at += 1, to += 1) {
    let place = places[text.charCodeAt(at)];
    if (place >= single) place += (place - single) * (letters.length - 1) + places[text.charCodeAt(at += 1)];
    found[to] = order[place];
  }
  return found;
}

export default %s;
"""
# A comment of JavaScript on lines of its own.
COMMENT = re.compile(r"(?m)^[ \t]*(?:/\*\*(?:[^*]|\*(?!/))*\*/|//.*)\n")
LETTERS = "".join(chr(it) for it in range(32, 127) if chr(it) not in "'\\<")
SINGLE = len(LETTERS) - 2


class Missing(Exception):
    """A tool that the system lacks."""


class Failed(SystemExit):
    """A program that failed."""


class File(NamedTuple):
    """A file of an archive, or a link to another one."""

    name: str
    data: bytes
    mode: int = 0o644
    link: str = ""


def run(*words: object, cwd: Path = TOP) -> bytes:
    """Runs a program, and returns what it prints."""
    done = subprocess.run(
        list(map(str, words)), cwd=cwd, stdin=subprocess.DEVNULL, capture_output=True, check=False
    )
    if done.returncode:
        said = (done.stdout + done.stderr).decode()[-2000:]
        raise Failed(f"tools/release.py: {words[0]} failed: {said}")
    return done.stdout


def need(name: str) -> str:
    """Returns the path of a tool of the system."""
    found = shutil.which(name)
    if not found:
        raise Missing(name)
    return found


def commit_time() -> int:
    """Returns the time of the commit, or the one that the environment has."""
    given = os.environ.get("SOURCE_DATE_EPOCH")
    if not given and not shutil.which("git"):
        sys.exit(
            "tools/release.py: the time of the commit is not known: there is no git, and no"
            " SOURCE_DATE_EPOCH"
        )
    return int(given or run("git", "-c", f"safe.directory={TOP}", "log", "-1", "--format=%ct"))


def found_in(path: Path, pattern: str) -> str:
    """Returns the part of a file that a pattern finds once."""
    [found] = re.findall(pattern, path.read_text(encoding="utf-8"))
    return str(found)


def read_soname() -> str:
    """Returns the name by which programs load the library, which `build` states."""
    return found_in(TOP / "build", r'SONAME = "(.*)"')


def replaced(text: str, values: Dict[str, str]) -> str:
    """Returns a text with the values of names."""
    for name, value in values.items():
        text = text.replace(name, value)
    return text


def of_installed(page: str) -> str:
    """Returns the page on the program for those who have it installed, without what it says of a
    checkout."""
    page = replaced(page, {"./cssq": "cssq"})
    page = re.sub(r"(?m)^The script `cssq` .*\n(?:.+\n)*\n", "", page)
    return re.sub(r"(?m)^\| 127, other \|.*\n", "", page)


def copyright_of_package() -> str:
    """Returns the copyright file of a Debian package, in the form that programs read."""
    mit = (TOP / "LICENSE-MIT").read_text(encoding="utf-8")
    [owner] = re.findall(r"Copyright \(c\) (.*)", mit)
    terms = mit[mit.index("Permission is") :].strip().splitlines()
    return (
        "Format: https://www.debian.org/doc/packaging-manuals/copyright-format/1.0/\n\n"
        f"Files: *\nCopyright: {owner}\nLicense: Apache-2.0 or MIT\n\n"
        "License: Apache-2.0\n On Debian systems it is in /usr/share/common-licenses/Apache-2.0.\n\n"
        f"License: MIT\n{''.join(f' {line or chr(46)}{chr(10)}' for line in terms)}"
    )


class Release:
    """What is made, and where."""

    def __init__(self, kit: Path, to: Path, room: Path) -> None:
        self.kit, self.to, self.room = kit, to, room
        self.tools = kit / "toolchain/bin"
        self.project, self.when, self.soname = (
            metadata.read_metadata(),
            commit_time(),
            read_soname(),
        )
        self.version = self.project.version

    def shared(self, *words: object) -> None:
        """Links a shared library of these words: with no names but those of the calls."""
        fixed = ["-shared", "-nostdlib", "-fuse-ld=lld", "-Wl,-s", f"-Wl,-soname,{self.soname}"]
        run(self.tools / "clang", *fixed, *HARDENED, *words)

    # ---- archives

    def tarred(self, files: List[File], prefix: str = "") -> bytes:
        """Returns the bytes of a tar.gz of the files, with the folders above them."""
        raw, made = io.BytesIO(), set()
        with tarfile.open(fileobj=raw, mode="w", format=tarfile.USTAR_FORMAT) as tar:
            for file in sorted(files):
                parts = (prefix + file.name).split("/")
                for depth in range(1, len(parts)):
                    folder = "/".join(parts[:depth])
                    if folder not in made and folder != ".":
                        made.add(folder)
                        tar.addfile(self.stated(folder, tarfile.DIRTYPE, 0o755))
                kind = tarfile.SYMTYPE if file.link else tarfile.REGTYPE
                info = self.stated(prefix + file.name, kind, 0o777 if file.link else file.mode)
                info.size, info.linkname = len(file.data), file.link
                tar.addfile(info, io.BytesIO(file.data))
        return self.packed(raw.getvalue())

    def stated(self, name: str, kind: bytes, mode: int) -> tarfile.TarInfo:
        """Returns the entry of a file or a folder."""
        info = tarfile.TarInfo(name)
        info.type, info.mode, info.mtime, info.uname, info.gname = (
            kind,
            mode,
            self.when,
            "root",
            "root",
        )
        return info

    def packed(self, data: bytes) -> bytes:
        """Returns the bytes of a .gz."""
        return gzip.compress(data, 9, mtime=self.when)

    def write(self, name: str, data: bytes) -> None:
        """Writes an artifact."""
        (self.to / name).write_bytes(data)
        print(f"{name}: {len(data)} bytes")

    # ---- Rust

    def make_crates(self) -> None:
        """Writes the erased crate in place of that of others, and the same under a name of its own."""
        for name, options in (
            ("simplecss-0.2.2", ()),
            (f"{self.project.crate}-{self.version}", ("--publish",)),
        ):
            folder = self.room / name
            run(sys.executable, TOP / "tools/erase.py", *options, folder)
            self.write(f"{name}.crate", self.tarred(files_of(folder), f"{name}/"))

    # ---- the library for other machines

    def module_for(self, triple: str) -> Path:
        """Returns the proved library's module for another machine, as text."""
        text = run(
            self.tools / "clang",
            "-S",
            "-emit-llvm",
            "-x",
            "ir",
            BUILT / "simplecss_c.bc",
            "-o",
            "-",
        ).decode()
        text = re.sub(r"(?m)^target datalayout.*\n", "", text)
        text = re.sub(r"(?m)^target triple.*", f'target triple = "{triple}"', text)
        text = re.sub(
            r' *"(probe-stack|stack-probe-size|target-cpu|target-features|tune-cpu)"="[^"]*"',
            "",
            text,
        )
        path = self.room / f"{triple}.ll"
        path.write_text(text)
        return path

    def library_for_arm(self) -> bytes:
        """Returns the shared library for aarch64."""
        triple, made = "aarch64-unknown-linux-gnu", self.room / "aarch64.so"
        words = [self.tools / "clang", f"--target={triple}", *FLAGS, "-fPIC"]
        objects = []
        for source in (self.module_for(triple), PARTS / "c/heap.ll"):
            objects.append(self.room / (source.stem + ".o"))
            run(*words, "-c", "-x", "ir", source, "-o", objects[-1])
        objects.append(self.division(f"--target={triple}"))
        self.shared(f"--target={triple}", "-Wl,--gc-sections", "-o", made, *objects)
        return made.read_bytes()

    # ---- Python

    def make_wheels(self) -> None:
        """Writes the wheels."""
        self.make_wheel(X86_TAGS, self.library())
        self.make_wheel(ARM_TAGS, self.library_for_arm())

    def library(self) -> bytes:
        """Returns the shared library for x86-64."""
        made = self.room / "x86.so"
        whole = ("-Wl,--whole-archive", BUILT / "simplecss_c.a", "-Wl,--no-whole-archive")
        self.shared("-o", made, *whole, self.division(), self.kit / "c/liblibc_c.a")
        return made.read_bytes()

    def division(self, *words: str) -> Path:
        """Returns an object with the divisions that the compiler calls, compiled with these words."""
        made = self.room / "division.o"
        fixed = [*FLAGS, "-fPIC", "-ffreestanding", "-fno-builtin", "-c"]
        run(self.tools / "clang", *words, *fixed, PARTS / "c/division.c", "-o", made)
        return made

    def make_wheel(self, tags: Tuple[str, ...], library: bytes) -> None:
        """Writes a wheel with this library."""
        info = f"simplecss-{self.version}.dist-info/"
        package = TOP / "python/src/simplecss"
        files = {
            it.relative_to(package.parent).as_posix(): it.read_bytes()
            for it in (
                *package.rglob("*.py"),
                *package.glob("*.css"),
                package / "py.typed",
                PROPERTIES,
            )
        }
        files["simplecss/libsimplecss.so"] = library
        files.update({f"{info}licenses/{it.name}": it.read_bytes() for it in LICENCES})
        files[info + "METADATA"] = self.metadata().encode()
        scripts = "".join(f"{name} = {call}\n" for name, call in self.project.scripts.items())
        files[info + "entry_points.txt"] = f"[console_scripts]\n{scripts}".encode()
        lines = ["Wheel-Version: 1.0", "Generator: tools/release.py", "Root-Is-Purelib: false"]
        files[info + "WHEEL"] = "".join(
            f"{it}\n" for it in (*lines, *(f"Tag: py3-none-{it}" for it in tags))
        ).encode()
        rows = [
            f"{name},sha256={digest_of(data)},{len(data)}" for name, data in sorted(files.items())
        ]
        files[info + "RECORD"] = ("\n".join([*rows, info + "RECORD,,"]) + "\n").encode()
        out = io.BytesIO()
        with zipfile.ZipFile(out, "w", zipfile.ZIP_DEFLATED, compresslevel=9) as packed:
            for name, data in sorted(files.items()):
                item = zipfile.ZipInfo(name, time.gmtime(max(self.when, 315532800))[:6])
                item.compress_type, item.external_attr = zipfile.ZIP_DEFLATED, 0o100644 << 16
                packed.writestr(item, data)
        self.write(f"simplecss-{self.version}-py3-none-{'.'.join(tags)}.whl", out.getvalue())

    def metadata(self) -> str:
        """Returns the metadata of a wheel or a source distribution."""
        stated = self.project
        lines = [
            "Metadata-Version: 2.4",
            "Name: simplecss",
            f"Version: {self.version}",
            f"Summary: {stated.summary}",
            f"Keywords: {','.join(stated.keywords)}",
            *(f"Author-email: {it}" if it.email else f"Author: {it.name}" for it in stated.authors),
            f"License-Expression: {stated.licence}",
            *(f"License-File: {it.name}" for it in LICENCES),
            *(f"Project-URL: {label}, {url}" for label, url in stated.urls.items()),
            *(f"Classifier: {it}" for it in stated.classifiers),
            f"Requires-Python: {stated.python}",
            *(f"Provides-Extra: {it}" for it in stated.extras),
            *(
                f'Requires-Dist: {it} ; extra == "{extra}"'
                for extra, names in stated.extras.items()
                for it in names
            ),
            "Description-Content-Type: text/markdown",
        ]
        return "\n".join(lines) + "\n\n" + (TOP / "python/README.md").read_text()

    def make_sdist(self) -> None:
        """Writes the source distribution, which cargo compiles on any system."""
        name = f"simplecss-{self.version}"
        words = ["setup.py", "-q", "sdist", "--formats=gztar", "--dist-dir", self.room / "sdist"]
        run(packer(), *words, cwd=TOP / "python")
        with tarfile.open(self.room / f"sdist/{name}.tar.gz") as packed:
            packed.extractall(self.room)
        (self.room / name / "PKG-INFO").write_text(self.metadata(), encoding="utf-8")
        self.write(f"{name}.tar.gz", self.tarred(files_of(self.room / name), f"{name}/"))

    # ---- the program

    def program(self) -> bytes:
        """Returns the program, linked with the C library, so that it starts on any distribution and
        at any address."""
        made = self.room / "cssq"
        parts = [BUILT / "cssq_cli.o", self.kit / "c/libos_c.a", self.kit / "c/liblibc_c.a"]
        words = [need("gcc"), "-static-pie", "-s", *HARDENED, "-o", made, *parts]
        done = subprocess.run(list(map(str, words)), capture_output=True, text=True, check=False)
        if done.returncode:
            raise Missing("gcc with a static C library (libc6-dev)")
        return made.read_bytes()

    def manual(self, name: str, summary: str, usage: str, text: str) -> bytes:
        """Returns a page of the manual, packed."""
        day = time.strftime("%Y-%m-%d", time.gmtime(self.when))
        first, _, rest = text.partition("\n\n")
        shown = rest.replace("\\", "\\e").replace("-", "\\-").replace("\n.", "\n\\&.")
        page = (
            f'.TH {name.upper()} 1 "{day}" "cssq {self.version}"\n.SH NAME\n'
            f"{name} \\- {summary}\n.SH SYNOPSIS\n.B {name}\n{usage}\n"
            f".SH DESCRIPTION\n{first}\n.PP\n.nf\n{shown}.fi\n"
        )
        return self.packed(page.encode())

    def manual_of_program(self) -> bytes:
        """Returns the page on cssq: what `cssq --help` says."""
        source = TOP / "crates/cssq_cli/src/help.rt"
        text = found_in(source, r'(?s)const HELP: &str = "\\\n(.*?)";').replace("\\\\", "\\")
        summary = "CSS 2.1 selectors, style sheets and matching"
        return self.manual("cssq", summary, "[command operand..]", text)

    def of_program(self) -> List[File]:
        """Returns the files of the program below a prefix."""
        page = (TOP / "docs/PROGRAM.md").read_text(encoding="utf-8")
        return [
            File("bin/cssq", self.program(), 0o755),
            File("share/bash-completion/completions/cssq", (PARTS / "pack/cssq.bash").read_bytes()),
            File("share/doc/cssq/PROGRAM.md", of_installed(page).encode()),
            File("share/man/man1/cssq.1.gz", self.manual_of_program()),
        ]

    def of_library(self, lib: str) -> List[File]:
        """Returns the shared library in this folder below a prefix."""
        return [File(f"{lib}/{self.soname}", self.library())]

    def archive(self) -> bytes:
        """Returns the static library."""
        return (TOP / "out/libsimplecss.a").read_bytes()

    def for_callers(self, lib: str, doc: str) -> List[File]:
        """Returns what programs over the library are compiled with, in these folders below a
        prefix."""
        up = "/".join([".."] * len(lib.split("/")))
        stated = replaced(
            found_in(TOP / "build", r'(?s)PKG_CONFIG = """(.*?)"""'),
            {"Version:": f"URL: {self.project.repository}\nVersion:"} if self.project.urls else {},
        ).format(
            lib="${pcfiledir}/..", include=f"${{pcfiledir}}/../{up}/include", version=self.version
        )
        values = {
            "@INCLUDE@": f"../../{up}/include",
            "@SONAME@": self.soname,
            "@VERSION@": self.version,
        }
        return [
            *(
                File(f"include/{it.name}", it.read_bytes())
                for it in sorted((TOP / "include").glob("simplecss.h*"))
            ),
            File(f"{lib}/libsimplecss.a", self.archive()),
            File(f"{lib}/libsimplecss.so", b"", link=self.soname),
            File(f"{lib}/pkgconfig/simplecss.pc", stated.encode()),
            *(
                File(f"{lib}/cmake/simplecss/{it.name}", replaced(it.read_text(), values).encode())
                for it in (PARTS / "c").glob("*.cmake")
            ),
            File(f"share/doc/{doc}/C.md", (TOP / "docs/C.md").read_bytes()),
            File(f"share/doc/{doc}/examples/page.c", (TOP / "examples/c/page.c").read_bytes()),
        ]

    def make_tarball(self) -> None:
        """Writes the tarball of the program and the library."""
        texts = [
            File("share/doc/cssq/changelog.gz", self.packed((TOP / "CHANGELOG.md").read_bytes())),
            File("share/doc/cssq/copyright", b"\n".join(it.read_bytes() for it in LICENCES)),
        ]
        files = [*self.of_program(), *self.of_library("lib"), *texts]
        files += self.for_callers("lib", "simplecss")
        name = f"cssq-{self.version}"
        self.write(f"{name}-linux-x86_64.tar.gz", self.tarred(files, f"{name}/"))

    # ---- Debian

    def make_packages(self) -> None:
        """Writes the Debian packages: the program, the library, and what its callers need."""
        number, lib = self.soname.rpartition(".")[2], "lib/x86_64-linux-gnu"
        library = f"libsimplecss{number}"
        self.make_package(
            "cssq",
            {"Section": "web", "Description": OF_PROGRAM},
            self.of_program(),
            alone="bin/cssq",
        )
        self.make_package(
            library,
            {"Multi-Arch": "same", "Section": "libs", "Description": OF_LIBRARY},
            self.of_library(lib),
            {
                "shlibs": f"libsimplecss {number} {library} (>= {self.version})\n",
                "triggers": "activate-noawait ldconfig\n",
            },
            # It takes memory from whatever C library the program has.
            f"{lib}/{self.soname}",
        )
        depends = {"Depends": f"{library} (= {self.version})", "Multi-Arch": "same"}
        self.make_package(
            "libsimplecss-dev",
            {**depends, "Section": "libdevel", "Description": OF_CALLERS},
            self.for_callers(lib, "libsimplecss-dev"),
        )

    def make_package(
        self,
        name: str,
        fields: Dict[str, str],
        files: List[File],
        control: Optional[Dict[str, str]] = None,
        alone: str = "",
    ) -> None:
        """Writes a Debian package of files below `/usr`, of which one may need no other library."""
        files = [*files, File(f"share/doc/{name}/copyright", copyright_of_package().encode())]
        for author in self.project.authors[:1]:
            log = f"simplecss ({self.version}) unstable; urgency=medium\n\n  * A release.\n\n"
            log += f" -- {author}  {email.utils.formatdate(self.when)}\n"
            files.append(File(f"share/doc/{name}/changelog.gz", self.packed(log.encode())))
            fields = {"Maintainer": str(author), **fields}
        if self.project.repository:
            fields = {"Homepage": self.project.repository, **fields}
        if alone:
            line = f"{name}: shared-library-lacks-prerequisites [usr/{alone}]\n"
            files.append(File(f"share/lintian/overrides/{name}", line.encode()))
        stated = {
            "Package": name,
            "Source": "simplecss",
            "Version": self.version,
            "Architecture": "amd64",
            "Installed-Size": str(sum(len(it.data) + 1023 for it in files) // 1024),
            "Priority": "optional",
            **fields,
        }
        sums = "".join(
            f"{hashlib.md5(it.data).hexdigest()}  usr/{it.name}\n"
            for it in sorted(files)
            if not it.link
        )
        texts = {
            "control": "".join(f"{key}: {value}\n" for key, value in stated.items()),
            "md5sums": sums,
            **(control or {}),
        }
        inner = [File(f"./{key}", text.encode()) for key, text in texts.items()]
        members = (
            ("debian-binary", b"2.0\n"),
            ("control.tar.gz", self.tarred(inner)),
            ("data.tar.gz", self.tarred([it._replace(name=f"./usr/{it.name}") for it in files])),
        )
        self.write(
            f"{name}_{self.version}_amd64.deb",
            b"!<arch>\n" + b"".join(self.member(*it) for it in members),
        )

    def member(self, name: str, data: bytes) -> bytes:
        """Returns a member of the Debian package."""
        head = f"{name:<16}{self.when:<12}0     0     100644  {len(data):<10}`\n".encode()
        return head + data + b"\n" * (len(data) % 2)

    # ---- JavaScript

    def make_npm(self) -> None:
        """Writes the npm package, and the page with all in it."""
        files = npm_files(*self.webassembly())
        self.write(f"simplecss-{self.version}.tgz", self.tarred(files, "package/"))
        self.write("playground.html", playground(files))

    def webassembly(self) -> Tuple[bytes, bytes]:
        """Returns the library as two modules of WebAssembly with one memory of 32 bits, which every
        engine runs."""
        optimizer, triple = need("wasm-opt"), "wasm64-unknown-unknown"
        clang, linker = self.tools / "clang", self.room / "wasm-ld"
        words = [clang, f"--target={triple}", "-mcpu=lime1", "-mbulk-memory", "--no-default-config"]
        run(
            *words, *SMALL, "-c", "-x", "ir", self.module_for(triple), "-o", self.room / "library.o"
        )
        run(
            *words,
            "-O2",
            "-ffreestanding",
            "-fno-builtin",
            "-nostdlib",
            "-c",
            PARTS / "wasm/runtime.c",
            "-o",
            self.room / "runtime.o",
        )
        # The toolchain's linker is every linker, by its name.
        linker.unlink(missing_ok=True)
        linker.symlink_to(clang)
        objects = self.room / "library.o", self.room / "runtime.o"
        whole, later = linked((linker, "-mwasm64"), objects, (), self.room)
        whole.write_bytes(webassembly.without_table(whole.read_bytes()))
        lowered = self.room / "lowered.wasm"
        lower = ("--enable-memory64", *FEATURES, "--memory64-lowering", "--debuginfo")
        run(optimizer, whole, *lower, "-o", lowered)
        return parted(lowered, ("simplecss_high",), later, self.room)


def calls_of_header() -> List[str]:
    """Returns the names of the calls of the C library."""
    header = (TOP / "include/simplecss.h").read_text()
    return re.findall(r"(?m)^(?:uint32_t|void) (simplecss_\w+)\(", header)


def calls_of_first() -> List[str]:
    """Returns the names of the calls that the first WebAssembly module has."""
    second = {f"simplecss_{it}" for it in SECOND}
    return [it for it in calls_of_header() if it not in second]


def linked(
    linker: Sequence[object], objects: Sequence[Path], others: Sequence[str], room: Path
) -> Tuple[Path, List[range]]:
    """Returns the module of objects with all calls and other exports, and the addresses of the data that only the calls of
    the second module use: the linker leaves it out without these."""
    maps = []
    for name, calls in (("first", calls_of_first()), ("whole", calls_of_header())):
        exports = [f"--export={it}" for it in (*calls, *others)]
        options = ["--no-entry", "--stack-first", "-z", "stack-size=1048576", "--gc-sections"]
        listed = room / f"{name}.map"
        run(*linker, *options, *exports, f"-Map={listed}", "-o", room / f"{name}.wasm", *objects)
        maps.append(listed.read_text())
    return room / "whole.wasm", webassembly.data_left_out(maps[1], maps[0])


def parted(
    whole: Path, others: Sequence[str], later: Sequence[range], room: Path
) -> Tuple[bytes, bytes]:
    """Returns a module whose functions have names as two that share its memory. The second one has
    what only its calls use, with the data at these addresses, and is loaded when one of them is called. `others`
    are exported beside the calls and what passes texts."""
    optimizer, splitter, trimmer = map(need, ("wasm-opt", "wasm-split", "wasm-metadce"))
    kept = [*calls_of_first(), "simplecss_take", "simplecss_reset", *others, "memory"]
    graph, trimmed = room / "graph.json", room / "trimmed.wasm"
    nodes = [{"name": it, "export": it, "root": True} for it in kept]
    graph.write_text(json.dumps(nodes))
    run(trimmer, whole, *FEATURES, "--graph-file", graph, "--debuginfo", "-o", trimmed)
    names = room / "names"
    run(optimizer, trimmed, *FEATURES, f"--symbolmap={names}", "-o", room / "unused.wasm")
    listed = [it.partition(":")[2] for it in names.read_text().splitlines()]
    names.write_text("\n".join(listed))
    parts = room / "first.wasm", room / "second.wasm"
    to = ("-o1", parts[0], "-o2", parts[1], "--export-prefix=%")
    run(splitter, whole, *FEATURES, f"--keep-funcs=@{names}", *to)
    first, data = webassembly.without_data(parts[0].read_bytes(), later)
    parts[0].write_bytes(first)
    for part in parts:
        small = ("--strip-debug", "--strip-producers", "-Oz")
        run(optimizer, part, *FEATURES, *small, "-o", part)
    return parts[0].read_bytes(), webassembly.with_data(parts[1].read_bytes(), data)


def module_as_text(module: bytes, name: str) -> bytes:
    """Returns the module of JavaScript whose function of this name returns a WebAssembly module."""
    counted = Counter(module)
    order = sorted(range(256), key=lambda it: (-counted[it], it))
    rest = [left + right for left in LETTERS[SINGLE:] for right in LETTERS]
    letters = dict(zip(order, [*LETTERS[:SINGLE], *rest]))
    text = "".join(map(letters.__getitem__, module))
    words = (json.dumps(LETTERS), SINGLE, len(module), json.dumps(order), text, name, name)
    return (BYTES % words).encode()


def npm_files(first: bytes, second: bytes) -> List[File]:
    """Returns the files of the npm package with these modules."""
    parts, modes = PARTS / "npm", {"cli.mjs": 0o755}
    files = [
        *(
            File(it.name, without_comments(it.read_text()).encode(), modes.get(it.name, 0o644))
            for it in parts.glob("*.mjs")
        ),
        *(File(it.name, it.read_bytes()) for it in parts.iterdir() if it.suffix in (".ts", ".md")),
        File("package.json", manifest(parts / "package.json").encode()),
        File("simplecss.wasm", first),
        File("second.wasm", second),
        File("bytes.mjs", module_as_text(first, "bytes")),
        File("second_bytes.mjs", module_as_text(second, "secondBytes")),
        File("properties.mjs", module_of(PROPERTIES.read_text()).encode()),
        File("index.d.cts", (parts / "index.d.ts").read_bytes()),
        *(File(it.name, it.read_bytes()) for it in LICENCES),
    ]
    return [*files, File("index.cjs", required_module(files).encode())]


def without_comments(module: str) -> str:
    """Returns a module of JavaScript without its comments, which have lines of their own: its types have those for its callers."""
    return COMMENT.sub("", module)


def manifest(path: Path) -> str:
    """Returns the manifest of the npm package, with what python/pyproject.toml states."""
    stated, fields = metadata.read_metadata(), json.loads(path.read_text())
    fields.update(version=stated.version, license=stated.licence, keywords=stated.keywords)
    if stated.repository:
        fields["repository"] = {"type": "git", "url": stated.repository}
    if stated.authors:
        fields["author"] = str(stated.authors[0])
    return json.dumps(fields, indent=2) + "\n"


def required_module(files: List[File]) -> str:
    """Returns the module that `require` of node loads: all in one, but for the WebAssembly modules,
    which it reads from the files beside it when they are called."""
    by_name = {it.name: it.data.decode() for it in files if it.name.endswith(".mjs")}
    stated = by_name["first.mjs"] + by_name["second.mjs"]
    listed = re.findall(r"(?m)^export \{ (.*) \} from", stated)
    names = ", ".join(sorted(name for each in listed for name in each.split(", ")))
    code = "".join(scoped(by_name[f"{it}.mjs"]) for it in MODULES if not it.endswith("bytes"))
    return (
        f"'use strict';\n{code}"
        "const read = name => require('node:fs').readFileSync(require('node:path').join(__dirname, name));\n"
        "provide({ first: () => read('simplecss.wasm'), second: () => read('second.wasm') });\n"
        f"Object.defineProperty(exports, '__esModule', {{ value: true }});\n"
        f"Object.assign(exports, {{ {names} }}, {{ default: {{ {names} }} }});\n"
    )


def scoped(module: str) -> str:
    """Returns a module as a function that is called at once, so that names of its own may be in other
    modules, too. What it exports is declared for those after it."""
    exported = r"(?m)^export (?:default |(?:async )?(?:function\*? |class |const ))"
    names = re.findall(exported + r"(\w+)", module)
    body = re.sub(r"(?m)^import .*\n|^export (default .*\n)?", "", module)
    listed = ", ".join(names)
    return f"const {{ {listed} }} = (() => {{\n{body}return {{ {listed} }};\n}})();\n"


def playground(files: List[File]) -> bytes:
    """Returns the page with the modules of the npm package in it."""
    by_name = {it.name: it.data for it in files}
    code = "".join(scoped(by_name[f"{it}.mjs"].decode()) for it in MODULES)
    code += "provide({ first: bytes, second: secondBytes });\n"
    page = (PARTS / "npm/playground.html").read_text().replace("// THE LIBRARY\n", code)
    return page.encode()


def erased_modules(room: Path) -> Tuple[bytes, bytes]:
    """Returns the library that cargo makes of the erased sources for WebAssembly, as two modules."""
    need("wasm-split")
    crate, target = room / "crate", "wasm32-unknown-unknown"
    run(sys.executable, TOP / "tools/erase.py", "--c", crate)
    words = ["--release", "--offline", "--features", "bits32", "--target", target]
    words += ["--target-dir", str(room), "--config", "profile.release.strip=false"]
    command = [need("cargo"), "build", *words]
    done = subprocess.run(command, cwd=crate, capture_output=True, text=True, check=False)
    if "E0463" in done.stderr:
        raise Missing(f"{target} among the targets of Rust (rustup target add {target})")
    if done.returncode:
        sys.exit(f"tools/release.py: cargo failed: {done.stderr[-2000:]}")
    return parted(*erased_linked(room / target / "release", room), room)


def erased_linked(made: Path, room: Path) -> Tuple[Path, Sequence[str], Sequence[range]]:
    """Returns the module that cargo has made, what it exports beside the calls, and the addresses of the data that only the
    calls of the second module use: none without a linker that reads what the compiler writes."""
    others, linker = ("simplecss_is_erased",), shutil.which("wasm-ld")
    if linker:
        exports = (*others, "simplecss_take", "simplecss_reset")
        try:
            whole, later = linked((linker,), [made / "libsimplecss.a"], exports, room)
            return whole, others, later
        except Failed:
            pass
    return made / "simplecss.wasm", others, ()


class Erased(Release):
    """What cargo makes of the erased sources, with nothing proved."""

    def __init__(self, to: Path, room: Path) -> None:
        super().__init__(Path(), to, room)
        self.built: Optional[Path] = None

    def folder(self) -> Path:
        """Returns where cargo has built the C library, whose shared one has its name in it."""
        if self.built is None:
            crate, target = self.room / "c", self.room / "target"
            run(sys.executable, TOP / "tools/erase.py", "--c", crate)
            words = ["rustc", "--release", "--offline", "--lib", "--target-dir", target]
            words += ["--config", "profile.release.strip=true", "--"]
            named = f"link-arg=-Wl,-soname,{self.soname}"
            run(need("cargo"), *words, "-C", named, cwd=crate)
            self.built = target / "release"
        return self.built

    def library(self) -> bytes:
        """Returns the shared library."""
        return (self.folder() / "libsimplecss.so").read_bytes()

    def archive(self) -> bytes:
        """Returns the static library."""
        return (self.folder() / "libsimplecss.a").read_bytes()

    def make_wheels(self) -> None:
        """Writes a wheel for this machine: it runs where the C library is as new as what it
        imports of it."""
        library = self.library()
        major, minor = needed_glibc(library)
        self.make_wheel((f"manylinux_{major}_{minor}_{platform.machine()}",), library)

    def of_prefix(self) -> List[File]:
        """Returns the C library with what its callers need, below a prefix."""
        texts = [
            File("share/doc/simplecss/copyright", b"\n".join(it.read_bytes() for it in LICENCES))
        ]
        return [*self.of_library("lib"), *self.for_callers("lib", "simplecss"), *texts]

    def make_tarball(self) -> None:
        """Writes the tarball of the C library."""
        name = f"libsimplecss-{self.version}"
        machine = platform.machine()
        self.write(f"{name}-linux-{machine}.tar.gz", self.tarred(self.of_prefix(), f"{name}/"))

    def webassembly(self) -> Tuple[bytes, bytes]:
        """Returns the library as WebAssembly."""
        return erased_modules(self.room)

    def make(self) -> Dict[str, str]:
        """Writes all, and returns what was not made and the tool that it needs."""
        return made_by(
            (self.make_crates, "the Rust crates"),
            (self.make_wheels, "the wheel"),
            (self.make_sdist, "the source distribution"),
            (self.make_tarball, "the tarball"),
            (self.make_npm, "the npm package and the page"),
        )


def needed_glibc(library: bytes) -> Tuple[int, int]:
    """Returns the newest version of glibc of which a library imports a name."""
    found = re.findall(rb"\0GLIBC_(\d+)\.(\d+)(?=[\0.])", library)
    return max((int(major), int(minor)) for major, minor in found)


def packer() -> str:
    """Returns a Python that has what makes packages of Python."""
    for python in (sys.executable, "/usr/bin/python3"):
        words = [python, "-c", "import setuptools, wheel"]
        if shutil.which(python) and not subprocess.run(words, capture_output=True).returncode:
            return python
    raise Missing("Python with setuptools and wheel")


def files_of(folder: Path) -> List[File]:
    """Returns the files in a folder, by their paths from it."""
    return [
        File(it.relative_to(folder).as_posix(), it.read_bytes())
        for it in folder.rglob("*")
        if it.is_file()
    ]


def write_files(files: List[File], to: Path) -> None:
    """Writes files and links below a folder."""
    for file in files:
        path = to / file.name
        path.parent.mkdir(parents=True, exist_ok=True)
        path.unlink(missing_ok=True)
        if file.link:
            path.symlink_to(file.link)
        else:
            path.write_bytes(file.data)
            path.chmod(file.mode)


def make_erased_npm(to: Path) -> None:
    """Writes the npm package with a module that is not proved into a folder, and the page."""
    with tempfile.TemporaryDirectory() as room:
        files = npm_files(*erased_modules(Path(room)))
    write_files([*files, File("playground.html", playground(files))], to)


def make_erased_c(to: Path) -> None:
    """Writes the C library that cargo makes below a prefix, with what its callers need."""
    with tempfile.TemporaryDirectory() as room:
        write_files(Erased(to, Path(room)).of_prefix(), to)


def make_erased(to: Path) -> None:
    """Writes all that cargo makes into a folder."""
    shutil.rmtree(to, ignore_errors=True)
    to.mkdir(parents=True)
    with tempfile.TemporaryDirectory() as room:
        missing = Erased(to, Path(room)).make()
    for what, tool in missing.items():
        print(f"tools/release.py: {what}: not made, since there is no {tool}", file=sys.stderr)


def module_of(lines: str) -> str:
    """Returns the module with the names of properties, by their file."""
    front, names = [it for it in lines.splitlines() if it[0] == "#"], re.findall(
        "(?m)^[^#].*", lines
    )
    words = "".join(f"//{it[1:]}\n" for it in front)
    return f"{words}export const properties = {json.dumps(names)};\n"


def digest_of(data: bytes) -> str:
    """Returns the sum of a file, as a wheel's record has it."""
    return base64.urlsafe_b64encode(hashlib.sha256(data).digest()).rstrip(b"=").decode()


def made_by(*makers: Tuple[Callable[[], None], str]) -> Dict[str, str]:
    """Calls all, and returns what was not made and the tool that it needs."""
    missing: Dict[str, str] = {}
    for make, what in makers:
        try:
            make()
        except Missing as lacking:
            missing[what] = str(lacking)
    return missing


def main(kit: str, to: Path) -> int:
    """Makes all, and returns the status."""
    shutil.rmtree(to, ignore_errors=True)
    to.mkdir(parents=True)
    with tempfile.TemporaryDirectory() as room:
        release = Release(Path(kit), to, Path(room))
        missing = made_by(
            (release.make_crates, "the Rust crates"),
            (release.make_wheels, "the wheels"),
            (release.make_sdist, "the source distribution"),
            (release.make_tarball, "the tarball"),
            (release.make_packages, "the Debian packages"),
            (release.make_npm, "the npm package and the page"),
        )
    sums = "".join(
        f"{hashlib.sha256(it.read_bytes()).hexdigest()}  {it.name}\n" for it in sorted(to.iterdir())
    )
    (to / "SHA256SUMS").write_text(sums)
    for what, tool in missing.items():
        print(f"tools/release.py: {what}: not made, since there is no {tool}", file=sys.stderr)
    return 1 if missing else 0


WITHOUT = {"--npm": make_erased_npm, "--c": make_erased_c, "--erased": make_erased}

if __name__ == "__main__":
    if len(sys.argv) not in (2, 3) or sys.argv[1] in WITHOUT and not sys.argv[2:]:
        sys.exit("usage: tools/release.py KIT [DIR] | --npm DIR | --c DIR | --erased DIR")
    if sys.argv[1] in WITHOUT:
        try:
            WITHOUT[sys.argv[1]](Path(sys.argv[2]))
        except Missing as lacking:
            sys.exit(f"tools/release.py: there is no {lacking}")
        sys.exit(0)
    sys.exit(main(sys.argv[1], Path(sys.argv[2]) if sys.argv[2:] else TOP / "out/release"))
