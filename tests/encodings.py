"""Pages in bytes, beside a browser: which encoding they are in, by their first bytes, and the texts of random bytes
in each encoding.

The browser is Debian's `chromium`. The library is built by `./build library`. The bytes are the same in each run
of a seed, which `SEED` in the environment sets; `COUNT` says how many texts there are.
"""
from __future__ import annotations

import base64
import os
import random
import re
import tempfile
from encodings.aliases import aliases
from typing import List, Optional, Tuple

from tests.common import TOP, Case, browser_answers, count, package, read

package()
from simplecss import Tree  # noqa: E402
from simplecss._encoding import page_encoding  # noqa: E402

LABELS = (
    "utf-8 ibm866 iso-8859-2 iso-8859-3 iso-8859-4 iso-8859-5 iso-8859-6 iso-8859-7 iso-8859-8 iso-8859-10"
    " iso-8859-13 iso-8859-14 iso-8859-15 iso-8859-16 koi8-r windows-874 windows-1250 windows-1251"
    " windows-1252 windows-1253 windows-1254 windows-1255 windows-1256 windows-1257 windows-1258 gbk big5"
    " euc-jp shift_jis euc-kr utf-16le utf-16be"
).split()
SCRIPT = """<!DOCTYPE html><meta charset=utf-8><script id=input type="application/json">%s</script><script>
const answers = JSON.parse(document.getElementById("input").textContent).map(([label, text]) => {
    const bytes = Uint8Array.from(atob(text), each => each.charCodeAt(0));
    return [...new TextDecoder(label).decode(bytes)].map(each => each.codePointAt(0));
});
document.documentElement.textContent = "ANS" + "WER" + JSON.stringify(answers) + "END";
</script>"""
# A page whose frames are files, which asks each what its encoding is. Its own is that of a frame that names none.
FRAMES = """<!DOCTYPE html><meta charset=%s><body><script id=input type="application/json">%%s</script><script>
const found = [], names = JSON.parse(document.getElementById("input").textContent);
const frame = document.body.appendChild(document.createElement("iframe"));
frame.sandbox = "allow-same-origin";
frame.onload = () => {
    const name = frame.contentDocument.URL;
    if (name !== "about:blank") found.push(frame.contentDocument.characterSet);
    if (found.length < names.length) frame.src = "file://" + names[found.length];
    else document.documentElement.textContent = "ANS" + "WER" + JSON.stringify(found) + "END";
};
frame.src = "file://" + names[0];
</script>"""
OWN = "windows-1254"
# The front of each text: what is after it is in a `pre`, of which the first newline is no text.
FRONT = b"<!DOCTYPE html><body>"
# Where Python's tables have other characters for pairs than those of browsers.
PAIRED = frozenset(("gbk", "big5", "euc-jp", "shift_jis", "euc-kr"))
UNKNOWN = 0xFFFD


def random_bytes(chosen: random.Random, label: str) -> bytes:
    """Returns bytes without markup: in encodings of several bytes those that may begin or end none."""
    if label in PAIRED:
        # Leads before bytes of ASCII, and bytes that are no leads.
        parts = [b"\xff", b"\xff\xff", b"\xfe ", b"\x81\x20", b"ab", b"\xfe\xff!", b"\xff\xa1 "]
        return b"".join(chosen.choices(parts, k=8))
    if label.startswith("utf-16"):
        return bytes(chosen.choices(b"\xd8\xdc\x41\xff\x20", k=chosen.randrange(9)))
    plain = [each for each in range(256) if each not in b"\0\r<&\x0c"]
    return bytes(chosen.choices(plain, k=16))


# Heads, by what is in them.
HEADS = [
    # Marks of the order of bytes, which are before all else.
    b"\xef\xbb\xbf<meta charset=koi8-r>",
    b"\xff\xfe<\0p\0>\0",
    b"\xfe\xff\0<\0p\0>",
    b"\xef\xbb<meta charset=koi8-r>",
    # A declaration in UTF-16, and one of XML, before which a `meta` counts.
    b"<\0?\0x\0m\0l\0 \0?\0>\0",
    b"\0<\0?\0x\0m\0l\0 \0?\0>",
    b"<?xml version='1.0' encoding='koi8-r'?><p>",
    b"<?xml version='1.0' encoding='koi8-r'?><meta charset=sjis>",
    b'<?xml encoding = "utf-16"?>',
    b"<?xml encoding='koi8-r><p a='>",
    b"<?xml encoding='koi8-r'",
    b"<?xmlencoding='koi8-r'>",
    b" <?xml encoding='koi8-r'?>",
    b"<?xml x='encoding' encoding='koi8-r'?>",
    b"<?xml ENCODING='koi8-r'?>",
    b"<?xml encoding=koi8-r?>",
    b"<?xml?><p encoding='koi8-r'>",
    # What a `meta` says.
    b"<meta charset=koi8-r>",
    b"<META CHARSET=KOI8-R>",
    b"<meta charset=' \tkoi8-r\n'>",
    b"<meta/charset=koi8-r/>",
    b"<meta charset = 'koi8-r' >",
    b"<meta charset=koi8-r",
    b"<meta charset='koi8-r>",
    b"<metax charset=koi8-r>",
    b"<meta charset=none><meta charset=koi8-r>",
    b"<meta charset=''><meta charset=koi8-r>",
    b"<meta charset=utf-16>",
    b"<meta charset=utf-16be>",
    b"<meta charset=unicode>",
    b"<meta charset=x-user-defined>",
    b"<meta charset=iso-2022-kr>",
    b"<meta charset=utf-7>",
    b"<meta charset=ascii>",
    b"<meta charset=gb2312>",
    b"<meta http-equiv=content-type content='text/html; charset=koi8-r'>",
    b"<meta content='text/html; charset=koi8-r' http-equiv=Content-Type>",
    b"<meta content='text/html; charset=koi8-r'>",
    b"<meta http-equiv=refresh content='text/html; charset=koi8-r'>",
    b"<meta http-equiv=' content-type' content='text/html; charset=koi8-r'>",
    b"<meta http-equiv=content-type content='charset charset = koi8-r;x'>",
    b"<meta http-equiv=content-type content='charset=\"koi8-r\"'>",
    b"<meta http-equiv=content-type content='charset=\"koi8-r'>",
    b"<meta http-equiv=content-type content='xCharSet=koi8-r x'>",
    b"<meta http-equiv=content-type content='charset=none;charset=koi8-r'>",
    b"<meta http-equiv=content-type content='charset=utf-16le'>",
    b"<meta http-equiv=content-type content='charset=koi8-r' charset=sjis>",
    b"<meta charset=sjis http-equiv=content-type content='charset=koi8-r'>",
    b"<meta charset=none http-equiv=content-type content='charset=koi8-r'>",
    b"<meta http-equiv=content-type content='charset='>",
    b"<meta =charset=koi8-r><meta a=b>",
    # What is no `meta`, and what is passed over.
    b"<!-- <meta charset=koi8-r> --><meta charset=sjis>",
    b"<!-- <meta charset=koi8-r>",
    b"<!--><meta charset=koi8-r>",
    b"<!---><meta charset=koi8-r>",
    b"<!-- --!><meta charset=koi8-r>-->",
    b"<!doctype html><meta charset=koi8-r>",
    b"<!x <meta charset=koi8-r>",
    b"<?x <meta charset=koi8-r>?><meta charset=sjis>",
    b"</<meta charset=koi8-r>>",
    b"<p title='<meta charset=koi8-r>'>",
    b"<p title=\"'\" a='<meta charset=koi8-r>'><meta charset=sjis>",
    b"</p title='<meta charset=koi8-r>'>",
    b"<a<meta charset=koi8-r>",
    b"< meta charset=koi8-r>",
    b"<<meta charset=koi8-r>",
    b"x<meta charset=koi8-r>",
    b"<p><meta charset=koi8-r>",
    b"<body><meta charset=koi8-r>",
    b"<style>a{}</style><meta charset=koi8-r>",
    b"<meta name=a><link rel=x href=y><meta charset=koi8-r>",
    # The end of what is looked at.
    b" " * 1003 + b"<meta charset=koi8-r>",
    b"<p>" + b" " * 1024 + b"<meta charset=koi8-r>",
    b"<!--" + b" " * 1024 + b"--><p><meta charset=koi8-r>",
]
PARTS = (
    b"<meta charset=koi8-r>",
    b"<meta charset='sjis' ",
    b"<meta http-equiv=content-type content='text/html; charset=koi8-r'>",
    b"<meta ",
    b"<meta/",
    b"<META\n",
    b"<p ",
    b"</p>",
    b"<!-- ",
    b"-->",
    b"<!doctype html>",
    b"<?x",
    b">",
    b">",
    b"charset=",
    b"charset=koi8-r ",
    b"content='text/html;charset=sjis' ",
    b"charset = ",
    b"content='text/html; charset=",
    b"content=charset=",
    b"http-equiv=content-type ",
    b"http-equiv='Content-Type' ",
    b"koi8-r",
    b"'sjis'",
    b'"big5"',
    b"none",
    b"utf-16",
    b"'",
    b'"',
    b" ",
    b";",
    b"/",
    b"=",
    b"a=b ",
)
# Where the browser differs from the standard, with what each finds: of attributes of one name the last counts.
DIFFERENT = (
    (b"<meta charset=koi8-r charset=sjis>", "koi8-r", "shift_jis"),
    (b"<meta charset=none charset=sjis>", OWN, "shift_jis"),
)
# Of attributes that name an encoding two of one name, perhaps in one tag.
AGAIN = re.compile(rb"<meta[^>]*(charset|http-equiv|content)\b[^>]*\1", re.IGNORECASE)
# The table of labels, and the labels of a row of it.
ROWS = re.compile(r"const LABELS.*?\];", re.DOTALL)
ROW = re.compile(r'b"([^"]*)"')
TABLE = os.path.join(TOP, "crates", "html_encodings", "src", "encoding.rt")
NAMES = """<!DOCTYPE html><meta charset=utf-8><script id=input type="application/json">%s</script><script>
const nameOf = label => { try { return new TextDecoder(label).encoding; } catch { return null; } };
const answers = JSON.parse(document.getElementById("input").textContent).map(nameOf);
document.documentElement.textContent = "ANS" + "WER" + JSON.stringify(answers) + "END";
</script>"""


def random_head(chosen: random.Random) -> bytes:
    """Returns a head of random parts, which often begins a `meta`."""
    front = chosen.choice((b"", b"<meta ", b"<meta charset=", b"<meta http-equiv=content-type "))
    return front + b"".join(chosen.choices(PARTS, k=chosen.randrange(2, 9))) + b">"


def characters_of(folder: str, heads: List[bytes]) -> Optional[List[str]]:
    """Returns the encodings that a browser finds, in lower case."""
    names = []
    for number, head in enumerate(heads):
        names.append(os.path.join(folder, f"{number}.html"))
        with open(names[-1], "wb") as file:
            file.write(head)
    found = browser_answers(FRAMES % OWN, names, ["--allow-file-access-from-files"])
    return found and [each.lower() for each in found]


class Encodings(Case):
    def test_heads(self) -> None:
        """Each page is in the encoding that a browser finds. One that names none is in the browser's default."""
        chosen = random.Random(int(os.environ.get("SEED", "1")))
        heads = HEADS + [random_head(chosen) for _ in range(count(300))]
        heads = [each for each in heads if not AGAIN.search(each)] + [row[0] for row in DIFFERENT]
        differs = {head: (standard, browser) for head, standard, browser in DIFFERENT}
        with tempfile.TemporaryDirectory() as folder:
            answers = characters_of(folder, heads)
        if answers is None:
            self.skipTest("there is no browser")
        for head, answer in zip(heads, answers):
            found = page_encoding(head)
            name = OWN if found.source == "default" else found.name.lower()
            with self.subTest(head=head):
                self.assertEqual((name, answer), differs.get(head, (answer, answer)))

    def test_labels(self) -> None:
        """Each label of the table is one of a browser, for the same encoding, and no name of Python's codecs is one here
        that is none there. The labels of "replacement" are none for a decoder."""
        rows = ROW.findall(ROWS.findall(read(TABLE))[0])
        table = [label for row in rows for label in row.replace("\\\n", "").split()]
        self.assertEqual(len(table), 228)
        others = {each.replace("_", by) for each in aliases for by in ("_", "-", "")}
        labels = sorted({*table, *others, *aliases.values()})
        answers = browser_answers(NAMES, labels)
        if answers is None:
            self.skipTest("there is no browser")
        for label, answer in zip(labels, answers):
            found = page_encoding(b"", f" {label.upper()}\n")
            name = found.name.lower() if found.source == "label" else None
            with self.subTest(label=label):
                self.assertEqual(None if name == "replacement" else name, answer)
                self.assertEqual(label in table, name is not None)

    def test_texts(self) -> None:
        """Each has the text that a browser decodes, with U+FFFD for the same bytes."""
        chosen = random.Random(int(os.environ.get("SEED", "1")))
        work: List[Tuple[str, bytes]] = [
            (label, random_bytes(chosen, label)) for label in LABELS for _ in range(count(40))
        ]
        encoded = [(label, base64.b64encode(data).decode()) for label, data in work]
        answers = browser_answers(SCRIPT, encoded)
        if answers is None:
            self.skipTest("there is no browser")
        for (label, data), answer in zip(work, answers):
            front = FRONT.decode().encode(label) if label.startswith("utf-16") else FRONT
            with self.subTest(label=label, data=data):
                tree = Tree.from_html(front + data, encoding=label)
                self.assertEqual(tree[0].text.lstrip(), decoded(answer).lstrip())


def decoded(codes: List[int]) -> str:
    """Returns the text of characters."""
    return "".join(map(chr, codes))
