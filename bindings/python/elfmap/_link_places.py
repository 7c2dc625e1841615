"""What a broken rule of the link is about, as the library finds it: a record of a file, its name,
and the first definition of a name. Nothing of it is worked out here."""

from __future__ import annotations

import ctypes
from collections.abc import Sequence
from typing import Optional

from elfmap import _declared, _library

# The rules by what they are about.
OF_SECTIONS = range(3, 6)
OF_SYMBOLS = range(6, 10)
OF_RELOCATIONS = range(12, 17)
TWO_DEFINITIONS = 8
NO_ENTRY = 10
Site = tuple[int, int, int, int]


def link_place(contents: Sequence[memoryview], site: Site) -> Optional[_declared.LinkPlace]:
    """What a rule of the link is about, by the rule, the file, the index and the entry; None if
    that is no record. Raises MemoryError if there is no memory for it."""
    if site[0] >> 16 or any(it >> 64 for it in site):
        return None
    place = _declared.LinkPlace()
    files = _library.files_of(contents)
    status = _library.library().elfmap_link_place(files, len(files), *site, place)
    if status != _declared.DONE:
        raise MemoryError
    return place if place.record.len else None


def symbol_of(content: memoryview, rule: int, place: _declared.LinkPlace) -> Optional[bytes]:
    """The name of the symbol that a rule is about in this file; None if there is none."""
    name = place.name
    is_named = rule in OF_SYMBOLS or name.len or rule in OF_RELOCATIONS and _refers(content, place)
    return bytes(content[name.start : name.start + name.len]) if is_named else None


def _refers(content: memoryview, place: _declared.LinkPlace) -> bool:
    """Whether a relocation refers to a symbol."""
    file = _declared.File()
    table = _declared.Table()
    entry = _declared.Relocation()
    words = _library.address_of(content), len(content)
    calls = _library.library()
    calls.elfmap_file(*words, file)
    calls.elfmap_table(file, *words, place.section, table)
    return bool(calls.elfmap_relocation(table, *words, place.entry, entry) and entry.symbol)


def record_at(content: memoryview, at: int) -> Optional[tuple[int, int]]:
    """The first owner of an offset, by its number, and which of its records has it."""
    file = _declared.File()
    place = _declared.Place()
    owner = ctypes.c_uint64()
    words = _library.address_of(content), len(content)
    calls = _library.library()
    if not calls.elfmap_file(*words, file) or not calls.elfmap_owner(file, *words, at, 0, owner):
        return None
    is_record = calls.elfmap_place(file, *words, at, owner, place)
    return (owner.value, place.entry) if is_record else None
