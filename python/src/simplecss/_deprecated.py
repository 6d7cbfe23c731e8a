"""Names of an earlier version, which still work."""

from __future__ import annotations

import sys
import warnings


def warn_of_old(old: str, new: str) -> None:
    """Warns of an old name, at the line outside of this package that uses it."""
    depth = 1
    while sys._getframe(depth).f_globals.get("__package__") == __package__:
        depth += 1
    warnings.warn(f"{old} is now {new}", DeprecationWarning, stacklevel=depth + 1)
