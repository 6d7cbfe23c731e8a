"""Files that are written whole or not at all."""

from __future__ import annotations

import errno
import os
import stat
from typing import Optional, Set, Union

Path = Union[str, "os.PathLike[str]"]

# The files beside others that are being written and have not taken their places yet.
_begun: Set[str] = set()


def write_file(path: Path, data: bytes) -> None:
    """Writes a file, which has its old content until all of the new one is stored: that is written beside
    it, and takes its place, its mode and, where that is allowed, its owner. Of a symbolic link the file is
    written that it leads to. What is no file, such as a pipe, is written to. Raises `OSError`, and then a
    file is as it was."""
    old = _status_of(path)
    real = os.path.realpath(path)
    if old is not None and not _is_file_at(old, real):
        with open(path, "wb") as stream:
            stream.write(data)
        return
    if old is not None and not os.access(real, os.W_OK):
        raise PermissionError(errno.EACCES, os.strerror(errno.EACCES), real)
    beside = os.path.join(os.path.dirname(real), f".simplecss-{os.urandom(8).hex()}")
    _begun.add(beside)
    try:
        _store(beside, data, old)
        os.replace(beside, real)
    except BaseException:
        _remove(beside)
        raise
    finally:
        _begun.discard(beside)


def abandon() -> None:
    """Removes what is being written, before the program ends at once."""
    for each in list(_begun):
        _remove(each)


def _status_of(path: Path) -> Optional[os.stat_result]:
    """Returns the status of what is at a path, if something is."""
    try:
        return os.stat(path)
    except FileNotFoundError:
        return None


def _is_file_at(status: os.stat_result, path: str) -> bool:
    """Whether a status is that of a file, which is at a path."""
    found = _status_of(path) if stat.S_ISREG(status.st_mode) else None
    return found is not None and os.path.samestat(status, found)


def _store(path: str, data: bytes, old: Optional[os.stat_result]) -> None:
    """Makes a file with the mode and the owner of another one, and stores it on the disk."""
    with open(path, "xb") as file:
        file.write(data)
        file.flush()
        os.fsync(file.fileno())
    if old is not None:
        _own(path, old)
        os.chmod(path, stat.S_IMODE(old.st_mode))


def _own(path: str, old: os.stat_result) -> None:
    """Gives a file the owner of another one, if the system allows that."""
    try:
        if hasattr(os, "chown"):
            os.chown(path, old.st_uid, old.st_gid)
    except OSError:
        pass


def _remove(path: str) -> None:
    try:
        os.unlink(path)
    except OSError:
        pass
