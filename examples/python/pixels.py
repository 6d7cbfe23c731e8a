"""Writes a style sheet with each length in em as pixels: `python3 pixels.py SHEET [PIXELS]`."""

import sys
from pathlib import Path

import simplecss


def in_pixels(css: str, pixels: float) -> str:
    """Returns a sheet with lengths in pixels in place of those in em."""
    return "".join(
        f"{float(token.number) * pixels:g}px"
        if token.kind == "dimension" and token.unit.lower() == "em"
        else token.text
        for token in simplecss.tokens(css)
    )


if __name__ == "__main__":
    print(in_pixels(Path(sys.argv[1]).read_text(), float([*sys.argv, "16"][2])), end="")
