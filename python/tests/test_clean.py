"""Style sheets and style attributes from strangers, cleaned: what is kept, what is said of the rest, policies, the
hooks of bleach and nh3, and the command. What the library keeps of random texts is judged by a browser elsewhere.

    python3 -m unittest discover python/tests
"""

import io
import json
import os
import sys
import tempfile
import unittest
from contextlib import redirect_stderr, redirect_stdout
from unittest import mock

sys.path.insert(0, os.path.join(os.path.dirname(os.path.abspath(__file__)), "..", "src"))

import simplecss  # noqa: E402
from simplecss import __main__ as command  # noqa: E402
from simplecss import Policy  # noqa: E402

SHEET = "p, a:hover { color: red; position: fixed }\n@import 'x';\n  b { background: url(y) }"
KEPT = ".mail p, .mail a:hover {color: red;}\n"


def run(*words, given=""):
    """Runs the command line on a standard input. Returns its status, and what it writes."""
    output, errors = io.StringIO(), io.StringIO()
    stdin = mock.Mock(buffer=io.BytesIO(given.encode()))
    with redirect_stdout(output), redirect_stderr(errors), mock.patch("sys.stdin", stdin):
        status = command.main(["clean", *words])
    return status, output.getvalue(), errors.getvalue()


class Texts(unittest.TestCase):
    def test_sheet(self) -> None:
        found = simplecss.clean(SHEET, scope=".mail")
        self.assertEqual((found.text, str(found)), (KEPT, KEPT))
        rows = [(each.row, each.column, each.reason, each.text) for each in found.dropped]
        due = [
            (1, 26, "property", "position: fixed"),
            (2, 1, "at-rule", "@import 'x';"),
            (3, 7, "url", "background: url(y)"),
            (3, 3, "empty", "b { background: url(y) }"),
        ]
        self.assertEqual(rows, due)
        for each in found.dropped:
            self.assertEqual(SHEET[each.start : each.end], each.text)

    def test_style(self) -> None:
        text = "color: red; top: 0; background: u\\72l(x); width: calc(1px + 2px); --é: 1; ä: 2"
        found = simplecss.clean_style(text)
        self.assertEqual(found.text, "color: red; width: calc(1px + 2px);")
        reasons = ["property", "byte", "property", "property"]
        self.assertEqual([each.reason for each in found.dropped], reasons)
        self.assertEqual(
            [text[each.start : each.end] for each in found.dropped][2:],
            ["--é: 1", "ä: 2"],
        )
        self.assertEqual(simplecss.clean_style(found.text).text, found.text)

    def test_urls(self) -> None:
        """Each url is asked for once, in order; the policy has the answers, and other urls are refused."""
        asked = []

        def url(text):
            asked.append(text)
            return {"a b": "a%20b", "c.png": "c.png", "d": 'd"), url("e'}.get(text)

        text = (
            "background: url( 'a b' ); background: url(c\\.png); background: url(x); content: 'y';"
        )
        text += "background: url(d); background: image-set('c.png'); background: URL(c.png) url(x)"
        kept = 'background: url( "a%20b" ); background: url("c.png");'
        self.assertEqual(simplecss.clean_style(text, url=url).text, kept)
        self.assertEqual(asked, ["a b", "c.png", "x", "d"])
        self.assertEqual(simplecss.CSSSanitizer(url=url).sanitize_css(text), kept)
        found = simplecss.clean(f"p {{ {text} }}", scope=".mail", url=url)
        self.assertEqual(found.text, f".mail p {{{kept}}}\n")
        reasons = ["url", "property", "string", "function", "url"]
        self.assertEqual([each.reason for each in found.dropped], reasons)
        many = "".join(f"background:url({number});" for number in range(1100))
        self.assertEqual(simplecss.clean_style(many, url=str).text.count("url"), 1024)

    def test_urls_beside(self) -> None:
        """No function that could bring a string is beside one that loads it; any other is beside a url."""
        own = Policy(["background"], functions=["rgb", "var", "image-set", "type"])
        for text, due in (
            ("rgb(0 0 0) url(a)", 'rgb(0 0 0) url("a")'),
            (
                "image-set('a' type('b') 1x, url(c))",
                'image-set("a" type("b") 1x, url("c"))',
            ),
            ("image-set(var(--a) 1x)", None),
            ("image-set('a') rgb(0 0 0)", None),
        ):
            kept = f"background: {due};" if due else ""
            self.assertEqual(
                simplecss.clean_style(f"background: {text}", policy=own, url=str).text,
                kept,
            )

    def test_urls_stored(self) -> None:
        """What is stored is clean if each of its urls is its own answer."""
        text = 'background: url("a")'
        for url, due in (
            (str, True),
            (lambda asked: "b", False),
            (lambda asked: None, False),
            (None, False),
        ):
            self.assertIs(simplecss.is_clean_style(text, url=url), due)
        self.assertTrue(simplecss.is_clean(f".m p {{{text}}}", scope=".m", url=str))
        self.assertFalse(simplecss.is_clean_style("background: url(a)", url=str))

    def test_prefix(self) -> None:
        """Names get the prefix, and a sheet is clean with it alone."""
        mail = Policy.of("mail")
        policy = mail.changed(add=["animation-name"], functions=["VAR"], prefix="q-")
        sheet = "#a.b[id=c]:not(.d) > i { --x: 1px; --X: --y; animation-name: spin, NONE; width: var(--x, .5px) }"
        kept = ".m #q-a.q-b[id=c]:not(.q-d) > i {--q-x: 1px; --q-X: --q-y; animation-name: q-spin, NONE;"
        kept += " width: var(--q-x, .5px);}\n"
        self.assertEqual(simplecss.clean(sheet, scope=".m", policy=policy).text, kept)
        self.assertTrue(simplecss.is_clean(kept, scope=".m", policy=policy))
        for part in ("#q-a", ".q-b", "q-d", "--q-x:", "--q-y", "q-spin", "(--q-x"):
            bare = kept.replace(part, part.replace("q-", ""), 1)
            self.assertFalse(simplecss.is_clean(bare, scope=".m", policy=policy), bare)
        self.assertEqual(simplecss.clean_style("--x: red; color: --x").text, "color: --x;")

    def test_at_rules(self) -> None:
        """At-rules that are listed are kept; their names get the prefix, and without one they are dropped."""
        listed = ["@supports", "@container", "@layer", "@KEYFRAMES"]
        policy = Policy(["color"], media=["screen", "min-width", *listed], prefix="q-")
        plain = policy.changed(prefix="")
        inner, under = "{ p { color: red } }", " {\n.m p {color: red;}\n}\n"
        for text, due, due_plain in (
            ("@media screen", "@media screen", True),
            ("@SUPPORTS (display: grid)", "@supports (display: grid)", True),
            ("@container (min-width: 9px)", "@container (min-width: 9px)", True),
            ("@layer host", "@layer q-host", False),
            ("@supports selector(a)", None, False),
            ("@supports (content: 'a')", None, False),
            ("@container host (min-width: 9px)", None, False),
            ("@layer", None, False),
            ("@layer a.b", None, False),
            ("@layer h\\6fst", None, False),
            ("@font-face", None, False),
            ("@starting-style", None, False),
        ):
            with self.subTest(text=text):
                found = simplecss.clean(text + inner, scope=".m", policy=policy).text
                self.assertEqual(found, due + under if due else "")
                self.assertTrue(simplecss.is_clean(found, scope=".m", policy=policy))
                found = simplecss.clean(text + inner, scope=".m", policy=plain).text
                self.assertEqual(found, due + under if due and due_plain else "")
                unlisted = Policy(["color"], media=["screen"], prefix="q-")
                found = simplecss.clean(text + inner, scope=".m", policy=unlisted).text
                self.assertEqual(found, due + under if text == "@media screen" else "")

    def test_keyframes(self) -> None:
        """Of keyframes the frames are kept, and no other rule."""
        policy = Policy(["color"], media=["@keyframes"], prefix="q-")
        text = (
            "@keyframes k { from { color: red } 50%, to { color: blue; top: 0 } p { color: red } }"
        )
        found = simplecss.clean(text, scope=".m", policy=policy)
        kept = "@keyframes q-k {\nfrom {color: red;}\n50%, to {color: blue;}\n}\n"
        self.assertEqual(found.text, kept)
        self.assertEqual([each.reason for each in found.dropped], ["property", "selector"])
        self.assertTrue(simplecss.is_clean(kept, scope=".m", policy=policy))
        for text in (
            kept.replace("q-k", "k"),
            kept.replace("from", ".m p"),
            kept.replace("keyframes", "media"),
            "from {color: red;}",
        ):
            with self.subTest(text=text):
                self.assertFalse(simplecss.is_clean(text, scope=".m", policy=policy))

    def test_limits(self) -> None:
        """A value has nothing but numbers and words of the limit of its property."""
        mail = Policy.of("mail")
        policy = mail.changed(
            add=["Position"],
            limits={"MARGIN": (-8, 96.5, "Auto"), "position": "static relative"},
        )
        text = "margin: 1in AUTO; margin: 97px; margin: calc(1px); position: fixed"
        text += "; position: RELATIVE"
        found = simplecss.clean_style(text, policy=policy)
        self.assertEqual(found.text, "margin: 1in AUTO; position: RELATIVE;")
        self.assertEqual([each.reason for each in found.dropped], ["beyond"] * 3)
        self.assertTrue(simplecss.is_clean_style(found.text, policy=policy))
        self.assertFalse(simplecss.is_clean_style(text, policy=policy))
        sheet = "p { margin: -8px } p { margin: -8.01px }"
        self.assertEqual(
            simplecss.clean(sheet, scope=".m", policy=policy).text,
            ".m p {margin: -8px;}\n",
        )
        self.assertEqual(set(mail.limits) - set(mail.properties), set())
        text = "margin-top: -1px; text-indent: 0"
        self.assertEqual(simplecss.clean_style(text).text, "text-indent: 0;")

    def test_escapes(self) -> None:
        """Escapes of selectors stay, or are written by number, and are decoded where names are compared."""
        for text, due in (
            (r".sm\:p-4", r".m .sm\:p-4"),
            (r".\31 0, #\2c b", r".m .\31 0, .m #\2c b"),
            (r"\62 ody > p", ".m > p"),
            (r".a\{b", r".m .a\7b b"),
            (r".\@md\:x .\>", r".m .\40 md\:x .\3e "),
            (r"[a='\'']", r".m [a='\27 ']"),
            (r".\é\z", r".m .é\7a "),
            (".a\\\n", None),
            (r":\68 over", r".m :\68 over"),
            (r":t\61rget", None),
        ):
            kept = f"{due} {{color: red;}}\n" if due else ""
            found = simplecss.clean(f"{text} {{ color: red }}", scope=".m").text
            self.assertEqual(found, kept)
            self.assertTrue(simplecss.is_clean(found, scope=".m"))

    def test_escapes_of_declarations(self) -> None:
        """Escapes of declarations are decoded, where the token is the same without them."""
        for text, due in (
            (r"c\6f lor: r\65 d", "color: red;"),
            (
                r"color: \72gb(1, 2, 3); color: #\66 ff",
                "color: rgb(1, 2, 3); color: #fff;",
            ),
            (r'font-family: "\5b8b\4f53", \e9 t', 'font-family: "宋体", ét;'),
            ("font-family: 'a\\\nb'", 'font-family: "ab";'),
            # These need them, or are written with a byte that is not.
            (r"font-family: 'a\"b'", ""),
            (r"font-family: a\20 b; font-family: \31 a; width: 1\70 x", ""),
            (r"font-family: '\3c /style>'; color: red\9", ""),
        ):
            found = simplecss.clean_style(text).text
            self.assertEqual(found, due)
            self.assertTrue(simplecss.is_clean_style(found))
            self.assertEqual(simplecss.clean_style(found).text, found)
        policy = simplecss.Policy.of("mail").changed(
            prefix="m-", functions=["var"], add=["animation-name"]
        )
        text = r"--\61 b: v\61r(--\62); animation-name: h\6fst, n\6fne; background: u\72l(\61)"
        due = 'animation-name: m-host, none; background: url("/a");'
        found = simplecss.clean_style(text, policy=policy, url={"a": "/a"}.get).text
        self.assertEqual(found, "--m-ab: var(--m-b); " + due)

    def test_is_clean(self) -> None:
        for text, due in (
            (KEPT, True),
            ("", True),
            (SHEET, False),
            ("p { color: red }", False),
        ):
            self.assertIs(simplecss.is_clean(text, scope=".mail"), due, text)
        self.assertFalse(simplecss.is_clean(KEPT, scope=".other"))
        for text, due in (
            ("color: red", True),
            ("color: red; top: 0", False),
            ("color: red; /* x */", False),
        ):
            self.assertIs(simplecss.is_clean_style(text), due, text)

    def test_policies(self) -> None:
        text = "color: red !important; padding: 0; font: 1px 'x'; top: 0"
        self.assertEqual(
            simplecss.clean_style(text, policy="comment").text,
            "color: red!important; font: 1px 'x';",
        )
        mail = Policy.of("mail")
        self.assertIn("padding", mail.properties)
        wider = mail.changed(add=["Top"], remove=["font"], important=False)
        self.assertEqual(simplecss.clean_style(text, policy=wider).text, "padding: 0; top: 0;")
        short = mail.changed(longest=10)
        self.assertEqual(
            [each.reason for each in simplecss.clean_style(text, policy=short).dropped],
            ["limit"],
        )
        own = Policy(["color"], functions=["rgb"], pseudos=["hover"], media=["print"])
        sheet = "a:hover { color: rgb(1, 2, 3) } a:active { color: red } @media print { b { color: hsl(1, 2%, 3%) } }"
        self.assertEqual(
            simplecss.clean(sheet, scope="#x", policy=own).text,
            "#x a:hover {color: rgb(1, 2, 3);}\n",
        )
        endless = Policy(["color"], longest=None)
        self.assertEqual(
            len(simplecss.clean_style("color:a;" * 99_999, policy=endless).text),
            99_999 * 10 - 1,
        )

    def test_wrong_arguments(self) -> None:
        for scope in ("", "a > b", ".a, .b", ".a:hover", "a b", "*", ".a{"):
            for call in (simplecss.clean, simplecss.is_clean):
                with self.assertRaisesRegex(ValueError, "a scope is"):
                    call("p { color: red }", scope=scope)
        with self.assertRaisesRegex(ValueError, "a policy is"):
            simplecss.clean_style("", policy="any")
        with self.assertRaises(ValueError):
            simplecss.clean("mail.css", scope=".a")
        for call in (
            lambda: simplecss.clean_style(b""),
            lambda: simplecss.clean("", scope=None),
            lambda: Policy("color"),
            lambda: Policy(["color"], longest="1"),
        ):
            with self.assertRaises(TypeError):
                call()

    def test_hooks(self) -> None:
        """bleach asks an object with `sanitize_css`, and nh3 a function of an element, an attribute and its value."""
        sanitizer = simplecss.CSSSanitizer("comment")
        self.assertEqual(sanitizer.sanitize_css("color: red; padding: 0"), "color: red;")
        self.assertEqual(sanitizer("p", "style", "color: red; padding: 0"), "color: red;")
        self.assertEqual(sanitizer("p", "title", "padding: 0"), "padding: 0")
        self.assertIsNone(sanitizer("p", "style", "padding: 0"))


class CommandLine(unittest.TestCase):
    def test_sheet(self) -> None:
        self.assertEqual(run("--scope", ".mail", "-", given=SHEET), (0, KEPT, ""))
        status, output, errors = run("--scope", ".mail", "--report", "-", given=SHEET)
        self.assertEqual((status, output), (0, KEPT))
        self.assertIn("simplecss: -:2:1: '@import 'x';' is dropped: at-rule\n", errors)
        status, output, _ = run("--scope", ".mail", "--json", "-", given=SHEET)
        line = json.loads(output)
        self.assertEqual((line["css"], line["dropped"][1]["reason"]), (KEPT, "at-rule"))

    def test_style(self) -> None:
        self.assertEqual(run("--style", "-", given="color: red; top: 0"), (0, "color: red;", ""))
        words = "--style", "--policy", "comment", "-"
        self.assertEqual(run(*words, given="color: red; padding: 0"), (0, "color: red;", ""))

    def test_policy(self) -> None:
        """What the words change of a policy: properties, limits and a prefix."""
        words = (
            "--policy",
            "comment",
            "--add",
            "top",
            "--add",
            "z-index",
            "--remove",
            "COLOR",
        )
        words += "--limit", "z-index=0,10", "--prefix", "q-"
        text = "top: 0; z-index: 9; z-index: 11; color: red; --a: b"
        due = "top: 0; z-index: 9; --q-a: b;"
        self.assertEqual(run(*words, "--style", "-", given=text), (0, due, ""))
        self.assertEqual(run(*words, "--style", "--check", "-", given=due), (0, "", ""))
        kept = f".m .q-a {{{due}}}\n"
        self.assertEqual(run(*words, "--scope", ".m", "-", given=f".a {{{text}}}"), (0, kept, ""))

    def test_at_rules(self) -> None:
        words = "--scope", ".m", "--at-rule", "layer", "--prefix", "q-", "-"
        layer = "@layer q-a {\n.m p {color: red;}\n}\n"
        text = "@layer a { p { color: red } } @supports (a: b) { p { color: red } }"
        self.assertEqual(run(*words, given=text), (0, layer, ""))
        self.assertEqual(run(*words, "--check", given=layer), (0, "", ""))
        self.assertEqual(run(*words[:-2], "", "-", "--check", given=layer), (1, "", ""))

    def test_check(self) -> None:
        self.assertEqual(run("--scope", ".mail", "--check", "-", given=KEPT), (0, "", ""))
        self.assertEqual(run("--scope", ".mail", "--check", "-", given=SHEET), (1, "", ""))
        self.assertEqual(run("--style", "--check", "-", given="top: 0"), (1, "", ""))

    def test_files(self) -> None:
        with tempfile.TemporaryDirectory() as folder:
            names = [os.path.join(folder, each) for each in ("a.css", "b.css")]
            for name in names:
                with open(name, "w", encoding="utf-8") as file:
                    file.write(SHEET)
            made = os.path.join(folder, "made")
            self.assertEqual(run("--scope", ".mail", "-o", made, *names), (0, "", ""))
            with open(os.path.join(made, "b.css"), encoding="utf-8") as file:
                self.assertEqual(file.read(), KEPT)
            self.assertEqual(run("--scope", ".mail", "--check", *names)[0], 1)

    def test_wrong_words(self) -> None:
        self.assertEqual(run("--scope", "a > b", "-", given="p{}")[0], 2)
        for words in (
            ["-"],
            ["--scope", ".a", "--style", "-"],
            ["--policy", "x", "--style", "-"],
        ):
            with self.assertRaises(SystemExit), redirect_stderr(io.StringIO()):
                command.main(["clean", *words])


if __name__ == "__main__":
    unittest.main()
