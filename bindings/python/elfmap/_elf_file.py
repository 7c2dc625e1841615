"""Writes ELF-64 files: after what a file has, sections, their names, and their headers.

The layouts are those of the gABI, chapter 4. The caller ensures that the numbers fit their
fields.
"""

from __future__ import annotations

import struct
from collections.abc import Iterable, Sequence
from typing import NamedTuple, Optional, Union

from elfmap.constants import EI_DATA, ELFDATA2MSB, SHN, SHT, STB

# The index of the section of a symbol whose value is absolute.
ABSOLUTE = -1
HEADER_SIZE = 64
SECTION_SIZE = 64
SYMBOL_SIZE = 24
# From this index on a number that has two bytes can't hold that of a section.
RESERVED = 0xFF00
# A value is stored modulo this number, as ld stores it.
_END = 2**64
# The offset of a content is no multiple of more, whatever its alignment in memory is.
_MOST_ALIGNED = 4096


class Row(NamedTuple):
    """A section to write: its name, the fields of its header, and its content.

    A content of None is not written: the section has `size` bytes, which are in the file at
    `offset`, or in no file.
    """

    name: bytes
    kind: int
    content: Optional[Union[bytes, bytearray]] = None
    flags: int = 0
    address: int = 0
    offset: int = 0
    size: int = 0
    link: int = 0
    info: int = 0
    align: int = 1
    entsize: int = 0


class Symbol(NamedTuple):
    """A symbol to write. `section` is the index of its section, 0 if it is undefined, or
    ABSOLUTE."""

    name: bytes
    info: int
    section: int
    value: int
    size: int = 0
    other: int = 0


class Strings:
    """A string table: a zero byte, and then each name once."""

    def __init__(self) -> None:
        self.content = bytearray(1)
        self._offsets = {b"": 0}

    def add(self, name: bytes) -> int:
        """The offset of a name, which is written where it is not there."""
        end = len(self.content)
        offset = self._offsets.setdefault(name, end)
        if offset == end:
            self.content += name + b"\0"
        return offset


def is_big_endian(ident: bytes) -> bool:
    """Whether numbers have their most significant byte first, by the `e_ident` of a file."""
    return ident[EI_DATA] == ELFDATA2MSB


def order_of(is_big: bool) -> str:
    """The byte order, as the module struct has it."""
    return ">" if is_big else "<"


def object_head(is_big: bool, machine: int, flags: int) -> bytes:
    """The ELF header of a relocatable file, without its fields on sections."""
    layout = f"{order_of(is_big)}16sHHIQQQIHHHHHH"
    ident = b"\x7fELF\2" + bytes([1 + is_big, 1])
    return struct.pack(layout, ident, 1, machine, 1, 0, 0, 0, flags, HEADER_SIZE, *bytes(5))


def symbol_rows(symbols: Sequence[Symbol], first: int, is_big: bool) -> list[Row]:
    """The symbol table, its index table if it needs one, and its string table; `first` is the index
    of the symbol table. Local symbols come first."""
    has_far = any(it.section >= RESERVED for it in symbols)
    strings = Strings()
    packed = struct.Struct(f"{order_of(is_big)}IBBHQQ")
    content = bytearray(SYMBOL_SIZE)
    for it in symbols:
        section = _short_index(it.section)
        fields = it.info, it.other, section, it.value % _END, it.size
        content += packed.pack(strings.add(it.name), *fields)
    info = 1 + sum(it.info >> 4 == STB.LOCAL for it in symbols)
    link = first + 1 + has_far
    table = bytes(content)
    rows = [Row(b".symtab", SHT.SYMTAB, table, link=link, info=info, align=8, entsize=SYMBOL_SIZE)]
    if has_far:
        words = [it.section if it.section >= RESERVED else 0 for it in symbols]
        index = struct.pack(f"{order_of(is_big)}{len(words) + 1}I", 0, *words)
        rows.append(Row(b".symtab_shndx", SHT.SYMTAB_SHNDX, index, link=first, align=4, entsize=4))
    return [*rows, Row(b".strtab", SHT.STRTAB, bytes(strings.content))]


def _short_index(section: int) -> int:
    """What `st_shndx` is for a section."""
    if section == ABSOLUTE:
        return SHN.ABS
    return section if section < RESERVED else SHN.XINDEX


def with_sections(head: bytes, rows: Iterable[Row], is_big: bool) -> bytearray:
    """The bytes of a file, after them the contents of these sections and their names, and then the
    section headers. `head` begins with an ELF header, whose fields on sections are set."""
    order = order_of(is_big)
    every = [*rows, Row(b".shstrtab", SHT.STRTAB)]
    names = Strings()
    offsets = [names.add(it.name) for it in every]
    every[-1] = every[-1]._replace(content=bytes(names.content))
    data = bytearray(head)
    # A file may have very many: each is put behind those before it, and these are not copied.
    headers = bytearray(_first_header(len(every) + 1, order))
    for name, row in zip(offsets, every):
        offset, size = _placed(data, row)
        places = row.flags, row.address, offset, size, row.link, row.info, row.align, row.entsize
        headers += struct.pack(f"{order}IIQQQQIIQQ", name, row.kind, *places)
    data += bytes(-len(data) % 8)
    _set_fields(data, len(data), len(every) + 1, order)
    data += headers
    return data


def _first_header(count: int, order: str) -> bytes:
    """Section header 0, which has the numbers that the ELF header can't hold."""
    size = count if count >= RESERVED else 0
    names = count - 1 if count > RESERVED else 0
    return struct.pack(f"{order}32xQI20x", size, names)


def _placed(data: bytearray, row: Row) -> tuple[int, int]:
    """Writes the content of a section, and returns its offset and its size."""
    if row.content is None:
        return row.offset, row.size
    data += bytes(-len(data) % min(row.align, _MOST_ALIGNED))
    data += row.content
    return len(data) - len(row.content), len(row.content)


def _set_fields(data: bytearray, table: int, count: int, order: str) -> None:
    """Sets the fields of the ELF header on section headers, of which the last one is that of the
    section names."""
    short = count if count < RESERVED else 0
    names = count - 1 if count <= RESERVED else int(SHN.XINDEX)
    struct.pack_into(f"{order}Q", data, 40, table)
    struct.pack_into(f"{order}HHH", data, 58, SECTION_SIZE, short, names)
