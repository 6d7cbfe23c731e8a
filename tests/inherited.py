"""Which properties are inherited: the library says it of each longhand as the browser does that is found.

An element whose parent has a value that is not the initial one has that value with `unset` if the property is
inherited, and the initial one if not.
"""
from __future__ import annotations

import unittest

from tests.common import Case, browser_answers, package, row

package()
import simplecss

# How many longhands may have no value here that is not their initial one.
MOST_LEFT_OUT = 40
# Values, of which each property takes one at least that is not its initial one.
VALUES = (
    *(
        "1px",
        "2",
        "3px 4px",
        "0.5",
        "10%",
        "red",
        "none",
        "auto",
        "normal",
        "hidden",
        "visible",
        "all",
    ),
    *(
        "center",
        "start",
        "end",
        "right",
        "bottom",
        "left",
        "both",
        "block",
        "contain",
        "cover",
        "solid",
    ),
    *(
        "dotted",
        "bold",
        "italic",
        "uppercase",
        "underline",
        "x",
        "--x",
        "'x'",
        "url(x)",
        "2s",
        "linear",
    ),
    *(
        "1 2",
        "span 2",
        "fixed",
        "absolute",
        "relative",
        "alternate",
        "reverse",
        "infinite",
        "rotate(1deg)",
    ),
    *(
        "blur(1px)",
        "rtl",
        "vertical-rl",
        "mixed",
        "sideways",
        "upright",
        "isolate",
        "plaintext",
        "break-all",
    ),
    *(
        "break-word",
        "anywhere",
        "nowrap",
        "pre",
        "smooth",
        "stable",
        "thin",
        "scroll",
        "local",
        "mandatory",
    ),
    *(
        "x mandatory",
        "evenodd",
        "round",
        "bevel",
        "stroke",
        "markers",
        "non-scaling-stroke",
        "geometricprecision",
    ),
    *(
        "optimizespeed",
        "crisp-edges",
        "pixelated",
        "multiply",
        "luminance",
        "alpha",
        "linearrgb",
        "text-top",
    ),
    *(
        "super",
        "middle",
        "circle(1px)",
        "inset(1px)",
        "path('M0 0L1 1')",
        "1 / 2",
        "2 3 4",
        "strict",
        "paint",
    ),
    *(
        "row",
        "column",
        "column-reverse",
        "wrap",
        "dense",
        "avoid",
        "page",
        "always",
        "balance",
        "manual",
    ),
    *(
        "justify",
        "last baseline",
        "inter-word",
        "loose",
        "each-line",
        "1em hanging",
        "hanging",
        "first",
        "2 2",
    ),
    *(
        "small-caps",
        "oldstyle-nums",
        "ordinal",
        "sub",
        "ruby",
        "jis78",
        "'smcp'",
        "'wght' 2",
        "condensed",
        "50%",
    ),
    *(
        "force-end",
        "allow-end",
        "under",
        "over",
        "filled dot",
        "open",
        "wavy",
        "from-font",
        "below",
        "ink",
    ),
    *(
        "dark",
        "only light",
        "exact",
        "economy",
        "preserve-3d",
        "flat",
        "crosshair",
        "text",
        "grab",
        "pan-x",
    ),
    *(
        "separate",
        "collapse",
        "hide",
        "show",
        "inside",
        "outside",
        "square",
        "decimal",
        "1px solid red",
        "3px 4px 5px",
    ),
    *(
        "from-image",
        "2dppx",
        "match-parent",
        "trim-start",
        "trim-both",
        "cap alphabetic",
        "ideographic",
        "central",
    ),
    *(
        "size",
        "inline-size",
        "x inline-size",
        "no-drop",
        "user",
        "element",
        "non-standard",
        "add",
        "exclude",
        "below",
    ),
    *(
        "slice",
        "clone",
        "border-box",
        "content-box",
        "padding-box",
        "fill-box",
        "view-box",
        "fill",
        "no-repeat",
        "space",
    ),
    *(
        "discard",
        "preserve",
        "a 1",
        "1px 2px 3px red",
        "inset 0 0 1px red",
        "allow-discrete",
        "numeric-only",
    ),
    *(
        "allow-keywords",
        "view()",
        "scroll()",
        "x 1s",
        "opacity",
        "10px 20px",
        "repeat-x",
        "no-common-ligatures",
    ),
    *(
        "cjk-ideographic",
        "digits",
        "spell-out",
        "auto 1",
        "1px auto",
        "flex",
        "grid",
        "table",
        "top",
        "after",
        "before",
    ),
    *(
        "line-through",
        "skip",
        "edges",
        "compact",
        "read-only",
        "disabled",
        "fast",
        "bottom right",
        "most-width",
        "y",
    ),
)
INHERITED = """
<!DOCTYPE html><meta charset=utf-8><body><div hidden><p><i></i></p><b></b></div>
<script id=input type="application/json">%s</script>
<script>
const values = JSON.parse(document.getElementById("input").textContent), found = [];
const [parent, child, other] = ["p", "i", "b"].map(name => document.querySelector(name));
const of = (element, name) => getComputedStyle(element).getPropertyValue(name);
for (const name of getComputedStyle(document.body)) {
    if (name.startsWith("--")) continue;
    for (const each of [child, other]) each.style.setProperty(name, each === child ? "unset" : "initial");
    for (const value of values) {
        parent.style.cssText = "";
        parent.style.setProperty(name, value);
        if (parent.style.cssText && of(parent, name) !== of(other, name)) {
            found.push([name, of(child, name) === of(parent, name)]);
            break;
        }
    }
    for (const each of [parent, child, other]) each.style.cssText = "";
}
document.documentElement.textContent = "ANS" + "WER" + JSON.stringify([found, [...getComputedStyle(child)].length]) + "END";
</script>
"""


class Inherited(Case):
    def test_longhands(self) -> None:
        answer = browser_answers(INHERITED, list(VALUES))
        if answer is None:
            self.skipTest("which properties are inherited: no browser answers")
        found, count = answer
        self.assertGreater(sum(it for _, it in found), 100)
        self.assertLess(count - len(found), MOST_LEFT_OUT)
        rows = [row(name, simplecss.is_inherited(name), due) for name, due in found]
        self.sweep(len(rows), [each for each in rows if each is not None])


if __name__ == "__main__":
    unittest.main()
