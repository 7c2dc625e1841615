"""Where an ELF file comes from, by what it says of itself: its machine, what made it, its build id.

A file with a finding breaks rules. What is not where it should be is left out here.
"""

from __future__ import annotations

import struct
from collections.abc import Iterator
from itertools import chain, islice
from typing import NamedTuple

from elfmap._names import MACHINES
from elfmap._words import NOBITS, SEGMENT, Words, printable
from elfmap.constants import PT, SHT

_NOTE = SHT.NOTE.value
_NOTE_SEGMENT = PT.NOTE.value
_COMMENT = b".comment"
_BUILD_ID = 3
_GNU = b"GNU\0"
# So many producers of a file are listed, and so many bytes are read for them, or for notes.
_MOST_PRODUCERS = 16
_MOST_BYTES = 1 << 14
_LONGEST_ID = 64
# Any number of sections may share their bytes.
_MOST_NOTES = 64


class Origin(NamedTuple):
    """The machine, as `X86_64` or its number; the strings of `.comment`, as compilers and linkers
    write them; and the build id in hexadecimal, or nothing."""

    machine: str = ""
    producers: tuple[str, ...] = ()
    build_id: str = ""


def origin_of(words: Words) -> Origin:
    """The origin of a file in words, as far as it has one."""
    machine = MACHINES.get(words.machine, str(words.machine))
    return Origin(machine, tuple(_producers(words)), next(_build_ids(words), ""))


def _producers(words: Words) -> list[str]:
    """The strings of the first section `.comment`, each once, in their order."""
    for _, name, kind, _, _, start, size, *_ in words.headers():
        if kind != NOBITS and words.name(words.names, name, len(_COMMENT) + 1) == _COMMENT:
            content = words.data[start : start + min(size, _MOST_BYTES)]
            every = dict.fromkeys(printable(it) for it in content.split(b"\0") if it)
            return list(every)[:_MOST_PRODUCERS]
    return []


def _build_ids(words: Words) -> Iterator[str]:
    every = chain(_note_sections(words), _note_segments(words))
    for start, size in islice(every, _MOST_NOTES):
        yield from _ids_in(words, words.data[start : start + min(size, _MOST_BYTES)])


def _note_sections(words: Words) -> Iterator[tuple[int, int]]:
    for _, _, kind, _, _, start, size, *_ in words.headers():
        if kind == _NOTE:
            yield start, size


def _note_segments(words: Words) -> Iterator[tuple[int, int]]:
    table = words.number(32, 8)
    for begin in range(table, table + 56 * words.segments, 56):
        kind, start, size = (
            words.number(begin + at, width)
            for at, width in (SEGMENT[it] for it in ("p_type", "p_offset", "p_filesz"))
        )
        if kind == _NOTE_SEGMENT:
            yield start, size


def _ids_in(words: Words, notes: bytes) -> Iterator[str]:
    """The build ids among notes: each has three numbers, a name, and what it says, filled to 4."""
    numbers = struct.Struct(f"{words.order}3I")
    at = 0
    while at + 12 <= len(notes):
        name_size, size, kind = numbers.unpack_from(notes, at)
        start = at + 12 + name_size + -name_size % 4
        if notes[at + 12 : at + 12 + name_size] == _GNU and kind == _BUILD_ID:
            found = notes[start : start + min(size, _LONGEST_ID)]
            if found:
                yield found.hex()
        at = start + size + -size % 4
