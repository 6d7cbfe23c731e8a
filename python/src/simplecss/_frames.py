"""Messages with their lengths before them, as the Language Server Protocol has them: lines of a head, of
which `Content-Length` says how many bytes are after the empty line."""

from __future__ import annotations

import json
import re
from typing import Any, Callable, Optional

# How many bytes a message and its head have at most, and how many are read at once.
MOST = 1 << 24
_MOST_HEAD = 1 << 12
_CHUNK = 1 << 16
_END = b"\r\n\r\n"
_LENGTH = re.compile(rb"(?i)content-length[ \t]*:[ \t]*([0-9]{1,15})[ \t]*")
_FIELD = re.compile(rb"[!-9;-~]+[ \t]*:[^\r\n]*")


class FrameError(Exception):
    """What comes is no message. With `is_last` it is not known where the next one begins."""

    def __init__(self, reason: str, is_last: bool) -> None:
        super().__init__(reason)
        self.is_last = is_last


class Frames:
    """The messages that are read from a stream. No more is kept than one of them, and what came with it."""

    def __init__(self, read: Callable[[int], bytes]) -> None:
        """Takes what reads at most so many bytes, as soon as there are some, and none at the end."""
        self._read = read
        self._came = bytearray()
        # How many bytes of a message are left that is too long.
        self._skipped = 0

    @property
    def has_more(self) -> bool:
        """Whether something of the next message came."""
        return bool(self._came)

    def next(self) -> Optional[bytes]:
        """Returns the next message, or `None` at the end."""
        self._skip()
        head = self._head()
        if head is None:
            return None
        length = _length_of(head)
        if length > MOST:
            self._skipped = length
            raise FrameError(f"a message has more than {MOST} bytes", False)
        while len(self._came) < length:
            self._expect_more()
        return self._taken(length)

    def _more(self) -> bool:
        """Reads on. Returns whether something came."""
        data = self._read(_CHUNK)
        self._came += data
        return bool(data)

    def _expect_more(self) -> None:
        if not self._more():
            raise FrameError("the input ends in a message", True)

    def _taken(self, length: int) -> bytes:
        """Takes so many bytes of what came."""
        found = bytes(self._came[:length])
        del self._came[:length]
        return found

    def _skip(self) -> None:
        """Leaves out the rest of a message that is too long."""
        while self._skipped:
            if not self._came:
                self._expect_more()
            self._skipped -= len(self._taken(min(self._skipped, len(self._came))))

    def _head(self) -> Optional[bytes]:
        """Returns the lines of the next head, or `None` at the end."""
        if not self._came and not self._more():
            return None
        while True:
            end = self._came.find(_END, 0, _MOST_HEAD)
            if end >= 0:
                return self._taken(end + len(_END))[:end]
            if len(self._came) >= _MOST_HEAD:
                raise FrameError(f"a head has more than {_MOST_HEAD} bytes", True)
            self._expect_more()


def _length_of(head: bytes) -> int:
    """Returns the length that a head says."""
    lines = head.split(b"\r\n")
    if not all(map(_FIELD.fullmatch, lines)):
        raise FrameError("a line of a head is not `name: value`", True)
    found = [match for match in map(_LENGTH.fullmatch, lines) if match]
    if len(found) != 1:
        raise FrameError("a head has one `Content-Length`, which is a number", True)
    return int(found[0][1])


def framed(message: Any) -> bytes:
    """Returns a message with its head."""
    data = json.dumps(message, separators=(",", ":")).encode("ascii")
    return b"Content-Length: %d\r\n\r\n%s" % (len(data), data)
