"""Says of each mail in folders what a client that reads no `style` element does not show, and which
mails are cut: `python3 check_mails.py FOLDER..`. The status is 1 if there is one."""

import sys
from pathlib import Path
from typing import Iterator, List

import simplecss

# Gmail cuts what is longer.
MOST = 102 * 1024


def problems(file: Path) -> Iterator[str]:
    """Yields what is wrong with a mail."""
    report: List[simplecss.NotWritten] = []
    try:
        text = simplecss.inline(file.read_bytes(), at=file, folder=file.parent, report=report)
    except ValueError as error:
        yield str(error)
        return
    if len(text) > MOST:
        yield f"{len(text)} bytes are more than {MOST}"
    for each in report:
        yield f"`{each.text}` stays: {each.reason}"


def main(folders: List[str]) -> int:
    """Prints the problems of all mails. Returns the status."""
    count = 0
    for folder in folders:
        for file in sorted(Path(folder).glob("**/*.html")):
            for problem in problems(file):
                print(f"{file}: {problem}")
                count += 1
    return 1 if count else 0


if __name__ == "__main__":
    sys.exit(main(sys.argv[1:]))
