"""What is done with the bytes of modules of WebAssembly."""

from __future__ import annotations

import re
from collections import Counter
from typing import Iterator, List, NamedTuple, Sequence, Tuple

# The numbers of sections.
TABLE, ELEMENTS, CODE, DATA = 4, 9, 10, 11
# A piece of data in a linker's map: its address, its size, and its name after the object that it is of.
_PIECE = re.compile(r"(?m)^ *([0-9a-f]+) +[0-9a-f]+ +([0-9a-f]+) .*:\((\.(?:ro)?data\.[^)]*)\)$")
# What is before the address of a segment of the one memory, which has 32 bits, and after it.
_BEFORE, _AFTER = b"\x00\x41", b"\x0b"


class Section(NamedTuple):
    """A section of a module: its number, what is in it, and all of it with both."""

    kind: int
    inner: bytes
    whole: bytes


class Segment(NamedTuple):
    """Data that is in the memory from an address on."""

    start: int
    data: bytes

    @property
    def end(self) -> int:
        return self.start + len(self.data)


def read_number(data: bytes, at: int, is_signed: bool = False) -> Tuple[int, int]:
    """Returns the number at an offset, and the offset after it."""
    value = shift = 0
    while True:
        byte = data[at]
        value |= (byte & 127) << shift
        at, shift = at + 1, shift + 7
        if byte < 128:
            return value - (1 << shift if is_signed and byte & 64 else 0), at


def number(value: int, is_signed: bool = False) -> bytes:
    """Returns a number that is not negative as modules have it."""
    out = bytearray()
    while value > (63 if is_signed else 127):
        out.append(value & 127 | 128)
        value >>= 7
    return bytes([*out, value])


def sections(module: bytes) -> Iterator[Section]:
    """Yields the sections of a module."""
    at = 8
    while at < len(module):
        size, inner = read_number(module, at + 1)
        end = inner + size
        yield Section(module[at], module[inner:end], module[at:end])
        at = end


def without_table(module: bytes) -> bytes:
    """Returns a module without its table, which has no elements: many engines refuse a table of
    64 bits."""
    every = list(sections(module))
    if any(each.kind == ELEMENTS for each in every):
        raise ValueError("the module has elements of a table, which it would call")
    return module[:8] + b"".join(each.whole for each in every if each.kind != TABLE)


# ---- data that is loaded later


def data_left_out(whole: str, part: str) -> List[range]:
    """Returns the addresses of the data that a module has, by its map, and that is left out where the same objects
    are linked with fewer exports: from these no code reaches it. Data whose name is of several pieces is kept.
    """
    pieces = sorted((int(at, 16), int(size, 16), name) for at, size, name in _PIECE.findall(whole))
    counted = Counter(name for _, _, name in pieces)
    kept = {name for _, _, name in _PIECE.findall(part)}
    found: List[range] = []
    is_before = False
    for start, size, name in pieces:
        is_left = name not in kept and counted[name] == 1
        if is_left and is_before:
            found[-1] = range(found[-1].start, start + size)
        elif is_left:
            found.append(range(start, start + size))
        is_before = is_left
    return found


def _segments(inner: bytes) -> Iterator[Segment]:
    """Yields the segments of a section of data."""
    count, at = read_number(inner, 0)
    for _ in range(count):
        if inner[at : at + 2] != _BEFORE:
            raise ValueError("a segment has no address of 32 bits")
        start, at = read_number(inner, at + 2, True)
        size, at = read_number(inner, at + 1)
        yield Segment(start, inner[at : at + size])
        at += size


def _section_of(segments: Sequence[Segment]) -> bytes:
    """Returns the section of data with these segments."""
    parts = [number(len(segments))]
    for start, data in segments:
        parts += _BEFORE, number(start, True), _AFTER, number(len(data)), data
    inner = b"".join(parts)
    return bytes([DATA]) + number(len(inner)) + inner


def without_data(module: bytes, addresses: Sequence[range]) -> Tuple[bytes, List[Segment]]:
    """Returns a module with zeros at these addresses, and the data that was there."""
    parts, taken = [module[:8]], []
    for section in sections(module):
        if section.kind != DATA:
            parts.append(section.whole)
            continue
        kept = []
        for segment in _segments(section.inner):
            data = bytearray(segment.data)
            for each in addresses:
                start, end = max(each.start, segment.start), min(each.stop, segment.end)
                if start < end:
                    within = slice(start - segment.start, end - segment.start)
                    taken.append(Segment(start, bytes(data[within])))
                    data[within] = bytes(end - start)
            kept.append(Segment(segment.start, bytes(data)))
        parts.append(_section_of(kept))
    return b"".join(parts), taken


def with_data(module: bytes, segments: Sequence[Segment]) -> bytes:
    """Returns a module, which has no data, with this."""
    parts = [module[:8]]
    for section in sections(module):
        if section.kind == DATA:
            raise ValueError("the module has data")
        parts.append(section.whole)
        if section.kind == CODE and segments:
            parts.append(_section_of(segments))
    return b"".join(parts)
