"""The entries of large tables, many at a time: a list of numbers for each field, of what the calls
for many entries return."""

from __future__ import annotations

import ctypes
import mmap
from collections.abc import Iterable
from typing import Any, NamedTuple, Optional

from elfmap import _declared
from elfmap._words import LONGEST_LETTER, LONGEST_NAME, printable

# So many entries are read at once: each may have a long name.
AT_ONCE = 1024


class Strings(NamedTuple):
    """Where a string table begins and ends."""

    start: int
    end: int


class Symbols(NamedTuple):
    """Symbols that follow one another: the position of the first one, and their fields."""

    first: int
    st_name: list[int]
    st_value: list[int]
    st_size: list[int]
    section: list[int]
    st_shndx: list[int]
    st_info: list[int]
    st_other: list[int]


class Relocations(NamedTuple):
    """The same of relocations."""

    first: int
    r_offset: list[int]
    r_addend: list[int]
    symbol: list[int]
    relocation_type: list[int]


# The letter of a number of so many bytes.
_LETTERS = {1: "B", 2: "H", 4: "I", 8: "Q"}


class Room:
    """Room for many structs of a kind, of which each field is read at once."""

    def __init__(self, kind: type[ctypes.Structure]) -> None:
        self._kind = kind
        self._size = ctypes.sizeof(kind)
        memory = bytearray(self._size * AT_ONCE)
        self.structs = (kind * AT_ONCE).from_buffer(memory)
        self._bytes: Any = memoryview(memory)
        self._signed = {name for name, it, *_ in kind._fields_ if it is ctypes.c_int64}

    def column(self, name: str, count: int) -> list[int]:
        """A field of the first ones."""
        field = getattr(self._kind, name)
        step = self._size // field.size
        first = field.offset // field.size
        numbers = self._bytes.cast("q" if name in self._signed else _LETTERS[field.size])
        found: list[int] = numbers[first : step * count : step].tolist()
        return found


def string_at(room: mmap.mmap, strings: Strings, offset: int) -> bytes:
    """The string at an offset of a string table, or so many bytes of it: strings may share bytes,
    so that a short file has many long ones."""
    at = strings.start + offset
    last = min(at + LONGEST_NAME, strings.end, len(room))
    if at >= last:
        return b""
    close = room.find(b"\0", at, last)
    return room[at : last if close < 0 else close]


def strings_at(room: mmap.mmap, strings: Strings, offsets: Iterable[int]) -> list[bytes]:
    """The strings at these offsets, as `string_at` has each."""
    start, end = strings
    end = min(end, len(room))
    find = room.find
    found = []
    for it in offsets:
        at = start + it
        close = find(b"\0", at, at + LONGEST_NAME) if at < end else -1
        # One that isn't closed there is cut.
        is_closed = 0 <= close <= end
        found.append(room[at:close] if is_closed else string_at(room, strings, it))
    return found


def all_printable(names: list[bytes], most: Optional[int] = None) -> list[str]:
    """The names in letters that can be printed, or so many of each. Most tables have no others:
    their names are tested together."""
    if most is not None:
        # No more of a name is shown.
        names = [it[: LONGEST_LETTER * (most + 1)] for it in names]
    text = b"\0".join(names).decode("utf-8", "surrogateescape")
    is_plain = "\\" not in text and text.replace("\0", "").isprintable()
    found = text.split("\0") if is_plain else []
    if len(found) != len(names):
        return [printable(it, most) for it in names]
    if most is not None and max(map(len, found), default=0) > most:
        return [it if len(it) <= most else printable(own, most) for it, own in zip(found, names)]
    return found
