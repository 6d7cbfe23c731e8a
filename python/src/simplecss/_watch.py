"""Files that are watched, so that a command runs again when one of them changes."""

from __future__ import annotations

import hashlib
import os
import time
from typing import Callable, Dict, Iterable, Tuple

# How many seconds there are between two looks at the files.
_PAUSE = 0.3


class Watch:
    """What files contain. What a command writes into one of them is no change if it is the same."""

    def __init__(self) -> None:
        self._known: Dict[str, Tuple[Tuple[int, int], str]] = {}

    def contents(self, names: Iterable[str]) -> Dict[str, str]:
        """Returns a sum of what each of the files contains. One that cannot be read has none."""
        return {name: self._sum(name) for name in names}

    def _sum(self, name: str) -> str:
        try:
            status = os.stat(name)
            stamp = (status.st_mtime_ns, status.st_size)
            if name not in self._known or self._known[name][0] != stamp:
                with open(name, "rb") as file:
                    total = hashlib.sha256(file.read()).hexdigest()
                self._known[name] = (stamp, total)
            return self._known[name][1]
        except OSError:
            return ""


def repeat(run: Callable[[], object], names: Callable[[], Iterable[str]]) -> None:
    """Runs at once and after each change of the files, whose names are asked for each time, and never
    returns."""
    watch = Watch()
    while True:
        before = watch.contents(names())
        run()
        while watch.contents(names()) == before:
            time.sleep(_PAUSE)
