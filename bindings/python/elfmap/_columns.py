"""The numbers of a whole table, field by field: no entry takes a call of its own."""

import array
import ctypes
from collections.abc import Callable
from typing import TYPE_CHECKING, Any, NamedTuple

from elfmap import _declared
from elfmap.constants import SHT

if TYPE_CHECKING:
    Column = array.array[int]
else:
    Column = array.array

# So many entries are read by one call.
_AT_ONCE = 1 << 14
# The types of fields, as letters of the module array.
_LETTERS: dict[object, str] = {
    ctypes.c_uint8: "B",
    ctypes.c_uint16: "H",
    ctypes.c_uint32: "I",
    ctypes.c_uint64: "Q",
    ctypes.c_int64: "q",
}


class Rows(NamedTuple):
    """How the entries of a table are read: the call, what it makes of an entry, and the fields of
    that which are columns."""

    call: str
    record: type[ctypes.Structure]
    fields: tuple[str, ...]


_SYMBOLS = Rows(
    "elfmap_symbols",
    _declared.Symbol,
    ("st_name", "st_info", "st_other", "st_shndx", "st_value", "st_size"),
)
_RELOCATIONS = Rows(
    "elfmap_relocations",
    _declared.Relocation,
    ("r_offset", "r_addend", "symbol", "relocation_type"),
)
# By the type of the section.
ROWS = {
    SHT.SYMTAB.value: _SYMBOLS,
    SHT.DYNSYM.value: _SYMBOLS,
    SHT.RELA.value: _RELOCATIONS,
    SHT.REL.value: _RELOCATIONS,
    SHT.DYNAMIC.value: Rows("elfmap_dynamics", _declared.Dynamic, ("d_tag", "d_un")),
}


def columns(rows: Rows, count: int, fill: Callable[[int, Any, int], object]) -> dict[str, Column]:
    """Each field by its name, and its numbers in so many entries: `fill` reads those from an index
    on into a buffer, and is told how many."""
    types = {name: kind for name, kind, *_ in rows.record._fields_}
    found = {name: array.array(_LETTERS[types[name]]) for name in rows.fields}
    size = ctypes.sizeof(rows.record)
    buffer = (rows.record * min(count, _AT_ONCE))()
    for first in range(0, count, _AT_ONCE):
        some = min(count - first, _AT_ONCE)
        fill(first, buffer, some)
        view = memoryview(bytes(buffer))[: some * size]
        for name, column in found.items():
            at = getattr(rows.record, name).offset
            width = column.itemsize
            column.frombytes(view.cast(column.typecode)[at // width :: size // width].tobytes())
    return found


def without_names(table: _declared.Table) -> _declared.Table:
    """A copy of a table whose symbols have no names, which take time; and each of them has a word,
    because none is looked at, and one without a word would end the entries."""
    bare = _declared.Table.from_buffer_copy(table)
    bare.strings.len = 0
    bare.linked = table.content
    return bare
