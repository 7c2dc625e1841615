"""The bytes of a file that is looked at.

All of a short file is in memory. Of a long one the large contents that no rule looks into, as code
and debug information, are not: they are read from the file where they are asked for.
"""

from __future__ import annotations

import bisect
import mmap
from collections.abc import Iterable, Iterator
from typing import Optional

from elfmap._sources import LONGEST, Source
from elfmap._words import (
    DYNAMIC_SECTION,
    DYNSYM,
    GROUP,
    HASH,
    NOBITS,
    NOTE_SECTION,
    NULL,
    REL,
    RELA,
    STRTAB,
    SYMTAB,
    SYMTAB_SHNDX,
    Words,
)

# The types of sections that rules look into.
_LOOKED_INTO = {
    *(SYMTAB, DYNSYM, SYMTAB_SHNDX, STRTAB, RELA, REL),
    *(HASH, DYNAMIC_SECTION, NOTE_SECTION, GROUP),
}
_NORESERVE = getattr(mmap, "MAP_NORESERVE", 0x4000)
# Of a file of so many bytes all are read. A content that is left out has so many at least.
_SHORT = 1 << 22
_LARGE = 1 << 18
_PIECE = 1 << 16
Extents = list[tuple[int, int]]


class Memory:
    """The bytes of a file, as slices, and in memory at an address."""

    def __init__(self, source: Source) -> None:
        self._source = source
        self._size = min(len(source), LONGEST)
        self.room = _room(self._size)
        self.view = memoryview(self.room)[: self._size]
        # Bytes that are not in memory, where zeros are.
        self._holes = _holes(source, self._size)
        at = 0
        for start, end in [*self._holes, (self._size, self._size)]:
            source.read_into(self.view[at:start], at)
            at = end

    def __len__(self) -> int:
        return self._size

    def __getitem__(self, place: slice) -> bytes:
        start, end, _ = place.indices(self._size)
        has_hole = start < end and self._hole_in(start, end) is not None
        return self._source[start:end] if has_hole else self.room[start:end]

    def _hole_in(self, start: int, end: int) -> Optional[int]:
        """The first hole that has one of these bytes, by its position."""
        position = bisect.bisect_right(self._holes, (start, self._size))
        if position and self._holes[position - 1][1] > start:
            return position - 1
        is_there = position < len(self._holes) and self._holes[position][0] < end
        return position if is_there else None

    def need(self, start: int, end: int) -> None:
        """Reads what of these bytes is not in memory yet: so they are also in `room`."""
        while (position := self._hole_in(start, end)) is not None:
            first, last = self._holes.pop(position)
            self._source.read_into(self.view[first:last], first)

    def is_zeros(self, start: int, end: int) -> bool:
        pieces = (self[at : min(at + _PIECE, end)] for at in range(start, end, _PIECE))
        return all(it.count(0) == len(it) for it in pieces)

    def copy(self) -> mmap.mmap:
        """A copy of what is in memory, as long as the file, which can be written."""
        room = _room(self._size)
        at = 0
        for start, end in [*self._holes, (self._size, self._size)]:
            room[at:start] = self.room[at:start]
            at = end
        return room


def _room(size: int) -> mmap.mmap:
    """Memory of zeros, of which only what is written takes pages."""
    flags = mmap.MAP_PRIVATE | mmap.MAP_ANONYMOUS | _NORESERVE
    return mmap.mmap(-1, max(size, 1), flags=flags)


def _holes(source: Source, size: int) -> Extents:
    """The large contents of a long file that no rule looks into, without what is also another part
    of the file."""
    if size < _SHORT:
        return []
    words = Words(source)
    table = words.number(32, 8)
    needed = [(0, 64), (words.table, words.table + 64 * words.count)]
    needed.append((table, table + 56 * words.segments))
    large = []
    for _, _, kind, _, _, start, length, *_ in words.headers():
        end = min(start + length, size)
        if kind in _LOOKED_INTO:
            needed.append((start, end))
        elif kind not in (NULL, NOBITS) and end - start >= _LARGE:
            large.append((start, end))
    return list(_without(_merged(large), _merged(needed)))


def _merged(extents: Extents) -> Extents:
    """The bytes of all, in ascending order, without overlaps."""
    found: Extents = []
    for start, end in sorted(extents):
        if found and start <= found[-1][1]:
            found[-1] = found[-1][0], max(end, found[-1][1])
        elif start < end:
            found.append((start, end))
    return found


def _without(large: Iterable[tuple[int, int]], needed: Extents) -> Iterator[tuple[int, int]]:
    """What of the large ones is long and in none of those that are needed."""
    for start, end in large:
        at = start
        first = max(bisect.bisect_left(needed, (start, 0)) - 1, 0)
        for begin, last in needed[first:]:
            if begin >= end:
                break
            if last > at:
                if begin - at >= _LARGE:
                    yield at, begin
                at = last
        if end - at >= _LARGE:
            yield at, end
