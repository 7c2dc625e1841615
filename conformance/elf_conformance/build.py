"""ELF-64 files by their fields. A file is laid out as its parts are given: the header, the program
headers, the contents, the section headers. Every field may be given, also a wrong one."""

from collections.abc import Iterable
from typing import Literal

Order = Literal["little", "big"]
Layout = dict[str, tuple[int, int]]
ORDERS: tuple[Order, Order] = ("little", "big")
# The offset and the width of each field, in bytes.
HEADER: Layout = {
    "ei_class": (4, 1),
    "ei_data": (5, 1),
    "ei_version": (6, 1),
    "ei_osabi": (7, 1),
    "ei_abiversion": (8, 1),
    "e_type": (16, 2),
    "e_machine": (18, 2),
    "e_version": (20, 4),
    "e_entry": (24, 8),
    "e_phoff": (32, 8),
    "e_shoff": (40, 8),
    "e_flags": (48, 4),
    "e_ehsize": (52, 2),
    "e_phentsize": (54, 2),
    "e_phnum": (56, 2),
    "e_shentsize": (58, 2),
    "e_shnum": (60, 2),
    "e_shstrndx": (62, 2),
}
SECTION: Layout = {
    "sh_name": (0, 4),
    "sh_type": (4, 4),
    "sh_flags": (8, 8),
    "sh_addr": (16, 8),
    "sh_offset": (24, 8),
    "sh_size": (32, 8),
    "sh_link": (40, 4),
    "sh_info": (44, 4),
    "sh_addralign": (48, 8),
    "sh_entsize": (56, 8),
}
SEGMENT: Layout = {
    "p_type": (0, 4),
    "p_flags": (4, 4),
    "p_offset": (8, 8),
    "p_vaddr": (16, 8),
    "p_paddr": (24, 8),
    "p_filesz": (32, 8),
    "p_memsz": (40, 8),
    "p_align": (48, 8),
}
SYMBOL: Layout = {
    "st_name": (0, 4),
    "st_info": (4, 1),
    "st_other": (5, 1),
    "st_shndx": (6, 2),
    "st_value": (8, 8),
    "st_size": (16, 8),
}
NULL, PROGBITS, SYMTAB, STRTAB, RELA, HASH, DYNAMIC, NOTE, NOBITS, REL, SHLIB, DYNSYM = range(12)
GROUP = 17
SYMTAB_SHNDX = 18
WRITE = 1
ALLOC = 2
EXEC = 4
INFO_LINK = 0x40
IN_GROUP = 0x200
LOAD = 1
ABS = 0xFFF1
COMMON = 0xFFF2
XINDEX = 0xFFFF
GLOBAL = 0x10
WEAK = 0x20
# A machine of each byte order that most tools know: x86-64, and 64-bit PowerPC.
MACHINES = {"little": 62, "big": 21}


def number(order: Order, width: int, value: int) -> bytes:
    """A number in so many bytes."""
    modulus: int = 256**width
    return (value % modulus).to_bytes(width, order)


def record(order: Order, layout: Layout, **fields: int) -> bytes:
    """A record with these fields; the others are 0."""
    made = bytearray(max(at + width for at, width in layout.values()))
    for name, value in fields.items():
        at, width = layout[name]
        made[at : at + width] = number(order, width, value)
    return bytes(made)


def words(order: Order, *numbers: int) -> bytes:
    """Numbers of four bytes."""
    return b"".join(number(order, 4, it) for it in numbers)


def xwords(order: Order, *numbers: int) -> bytes:
    """Numbers of eight bytes."""
    return b"".join(number(order, 8, it) for it in numbers)


def strings(names: Iterable[bytes]) -> tuple[bytes, list[int]]:
    """A string table, and the offset of each name in it; an empty name is at 0."""
    table = b"\0"
    offsets: list[int] = []
    for it in names:
        offsets.append(len(table) if it else 0)
        table += it + b"\0" if it else b""
    return table, offsets


class Elf:
    """A file that is made: sections have their index from 1 on, in the order in which they come."""

    def __init__(self, order: Order = "little", **header: int) -> None:
        self.order: Order = order
        self.header = {"e_type": 1, "e_machine": MACHINES[order], **header}
        self.contents: list[bytes] = []
        self.fields: list[dict[str, int]] = []
        self.names: list[bytes] = []
        self.loads: list[dict[str, int]] = []
        # Fields of section header 0.
        self.first: dict[str, int] = {}
        # Sections have a name table, which comes last, unless the header has another.
        self.is_named = True

    def section(self, type: int, content: bytes = b"", name: bytes = b"", **fields: int) -> int:
        """Adds a section: its index. A field may be given; sh_offset and sh_size of one with
        content are set."""
        self.contents.append(content)
        self.names.append(name)
        self.fields.append({"sh_type": type, "sh_size": len(content), **fields})
        return len(self.fields)

    def nobits(self, size: int, name: bytes = b"", **fields: int) -> int:
        """Adds a section without bytes in the file."""
        return self.section(NOBITS, b"", name, **{"sh_size": size, **fields})

    def symbols(
        self, rows: Iterable[tuple[bytes, dict[str, int]]], type: int = SYMTAB, **fields: int
    ) -> int:
        """Adds a symbol table and its string table: the index of the first of the two. A row is a
        name and the fields of a symbol; symbol 0 is added. Local symbols come first."""
        rows = list(rows)
        table, offsets = strings(name for name, _ in rows)
        content = bytes(24)
        for at, (_, own) in zip(offsets, rows):
            content += record(self.order, SYMBOL, **{"st_name": at, **own})
        local = 1 + sum(own.get("st_info", 0) < GLOBAL for _, own in rows)
        shape = {"sh_entsize": 24, "sh_addralign": 8, "sh_info": local}
        names = (b".symtab", b".strtab") if type == SYMTAB else (b".dynsym", b".dynstr")
        index = len(self.fields) + 1
        given = {**shape, "sh_link": index + 1, **fields}
        self.section(type, content, names[0], **given)
        self.section(STRTAB, table, names[1], sh_addralign=1)
        return index

    def segment(self, type: int = LOAD, **fields: int) -> int:
        """Adds a program header: its index."""
        self.loads.append({"p_type": type, **fields})
        return len(self.loads) - 1

    def file(self) -> bytes:
        """The file. Each content begins at a multiple of its alignment, up to 16."""
        if self.fields and self.is_named and "e_shstrndx" not in self.header:
            index = len(self.fields) + 1
            table, offsets = strings([*self.names, b".shstrtab"])
            for fields, at in zip(self.fields, offsets):
                fields.setdefault("sh_name", at)
            self.section(STRTAB, table, b"", sh_name=offsets[-1], sh_addralign=1)
            self.header["e_shstrndx"] = index
        body = bytearray(64 + 56 * len(self.loads))
        for content, fields in zip(self.contents, self.fields):
            if fields["sh_type"] != NOBITS and content:
                align = fields.get("sh_addralign", 1)
                body += bytes(-len(body) % (align if 0 < align <= 16 else 1))
                fields.setdefault("sh_offset", len(body))
                body += content
            else:
                fields.setdefault("sh_offset", len(body))
        return self.with_tables(body)

    def with_tables(self, body: bytearray) -> bytes:
        """The file of this body, with its tables and its header."""
        header = dict(self.header)
        if self.fields:
            body += bytes(-len(body) % 8)
            header = {"e_shoff": len(body), "e_shentsize": 64, "e_shnum": len(self.fields) + 1} | (
                header
            )
            for fields in [self.first, *self.fields]:
                body += record(self.order, SECTION, **fields)
        if self.loads:
            header = {"e_phoff": 64, "e_phentsize": 56, "e_phnum": len(self.loads)} | header
            for k, fields in enumerate(self.loads):
                at = 64 + 56 * k
                body[at : at + 56] = record(self.order, SEGMENT, **fields)
        body[:64] = header_of(self.order, header)
        return bytes(body)


def header_of(order: Order, fields: dict[str, int]) -> bytes:
    """An ELF header: right, but for what these fields say."""
    data = {"little": 1, "big": 2}[order]
    right = {"ei_class": 2, "ei_data": data, "ei_version": 1, "e_version": 1, "e_ehsize": 64}
    made = record(order, HEADER, **{**right, **fields})
    return b"\x7fELF" + made[4:]


def order_of(file: bytes) -> Order:
    """The byte order of a file."""
    return "big" if file[5:6] == b"\2" else "little"


def field_of(file: bytes, name: str, index: int = 0) -> tuple[int, int]:
    """The offset and the width of a field: of the header, or of the section header or program
    header of this index."""
    if name in HEADER:
        return HEADER[name]
    table = ("e_shoff", SECTION, 64) if name in SECTION else ("e_phoff", SEGMENT, 56)
    where, layout, size = table
    at, width = layout[name]
    return read(file, *HEADER[where]) + size * index + at, width


def read(file: bytes, at: int, width: int) -> int:
    """The number at an offset of a file."""
    return int.from_bytes(file[at : at + width], order_of(file))


def value_of(file: bytes, name: str, index: int = 0) -> int:
    """The number in a field."""
    return read(file, *field_of(file, name, index))


def edited(file: bytes, name: str, value: int, index: int = 0) -> bytes:
    """A file with one field set."""
    at, width = field_of(file, name, index)
    return put(file, at, number(order_of(file), width, value))


def put(file: bytes, at: int, content: bytes) -> bytes:
    """A file with other bytes at an offset."""
    return file[:at] + content + file[at + len(content) :]


def inside(file: bytes, index: int, at: int, content: bytes) -> bytes:
    """A file with other bytes at an offset of the content of a section."""
    return put(file, value_of(file, "sh_offset", index) + at, content)
