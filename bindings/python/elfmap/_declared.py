"""What include/elfmap.h declares. Made by `tools/release tables` from it, not edited by hand."""

from ctypes import (
    POINTER,
    Structure,
    c_bool,
    c_int64,
    c_size_t,
    c_uint16,
    c_uint32,
    c_uint64,
    c_uint8,
    c_void_p,
)
from typing import Any

# The version of this header, a `uint64_t`: 1,000,000 MAJOR + 1,000 MINOR + PATCH, so 1000 is 0.1.0.
# Of versions with the same MAJOR the later one has all calls of the earlier one.
VERSION = 1000
# In place of a rule's number, in a `uint16_t`: the buffer has too few items. No rule has this
# number.
SHORT_ROOM = 0
# The ELF header.
HEADER = 0
# The section header table.
SECTION_HEADERS = 1
# The program header table.
PROGRAM_HEADERS = 2
# The content of section 0; that of section i is ELFMAP_CONTENTS + i.
CONTENTS = 3
# In place of an owner, in a `uint64_t`: the part is a gap, which belongs to nothing.
GAP = 2**64 - 1
# Nothing is refused.
DONE = 0
# File `file` breaks rule `rule`, lowest at the offset `at`, and no file before it breaks any.
REFUSED = 1
# The files do not link: rule `rule` of the link is broken, first at entry `at` of `index` of file
# `file`.
NOT_LINKED = 2
# The output would be longer than 2^30 bytes, or have 0xffff segments or more.
TOO_LONG = 3
# The buffer is too small: it has to be `length` bytes long.
SMALL_ROOM = 4
# Out of memory.
NO_MEMORY = 5
# Line `at` of the relocation rules is bad, and none before it; lines count from 1.
BAD_RULES = 6


class Fault(Structure):
    """The first of the rules 1 to 33 that a file breaks."""

    _fields_ = [("at", c_uint64), ("rule", c_uint16)]


class Extent(Structure):
    """The bytes at the offsets from `start` to below `start + len`; none if `len` is 0."""

    _fields_ = [("start", c_uint64), ("len", c_uint64)]


class Part(Structure):
    """The bytes at the offsets from `start` to below `start + len`, and what they belong to."""

    _fields_ = [("start", c_uint64), ("len", c_uint64), ("owner", c_uint64)]


class File(Structure):
    """What the accessors need of a file."""

    _fields_ = [
        ("e_phoff", c_uint64),
        ("e_shoff", c_uint64),
        ("sections", c_uint64),
        ("segments", c_uint64),
        ("name_table", c_uint64),
        ("ei_data", c_uint8),
    ]


class Place(Structure):
    """In which record of an owner a byte is, and in which field of it."""

    _fields_ = [("entry", c_uint64), ("record", Extent), ("field", Extent)]


class Header(Structure):
    """The ELF header, with its fields as the file has them."""

    _fields_ = [
        ("e_ident", c_uint8 * 16),
        ("e_type", c_uint16),
        ("e_machine", c_uint16),
        ("e_version", c_uint32),
        ("e_entry", c_uint64),
        ("e_phoff", c_uint64),
        ("e_shoff", c_uint64),
        ("e_flags", c_uint32),
        ("e_ehsize", c_uint16),
        ("e_phentsize", c_uint16),
        ("e_phnum", c_uint16),
        ("e_shentsize", c_uint16),
        ("e_shnum", c_uint16),
        ("e_shstrndx", c_uint16),
    ]


class Section(Structure):
    """A section header, with its fields as the file has them."""

    _fields_ = [
        ("sh_name", c_uint32),
        ("sh_type", c_uint32),
        ("sh_flags", c_uint64),
        ("sh_addr", c_uint64),
        ("sh_offset", c_uint64),
        ("sh_size", c_uint64),
        ("sh_link", c_uint32),
        ("sh_info", c_uint32),
        ("sh_addralign", c_uint64),
        ("sh_entsize", c_uint64),
    ]


class Segment(Structure):
    """A program header, with its fields as the file has them."""

    _fields_ = [
        ("p_type", c_uint32),
        ("p_flags", c_uint32),
        ("p_offset", c_uint64),
        ("p_vaddr", c_uint64),
        ("p_paddr", c_uint64),
        ("p_filesz", c_uint64),
        ("p_memsz", c_uint64),
        ("p_align", c_uint64),
    ]


class Table(Structure):
    """What the accessors of a table's entries need. If a part has no bytes, its `len` is 0."""

    _fields_ = [
        ("content", Extent),
        ("linked", Extent),
        ("strings", Extent),
        ("entries", c_uint64),
        ("sh_type", c_uint32),
        ("ei_data", c_uint8),
    ]


class Symbol(Structure):
    """An entry of a symbol table, with its name and its section."""

    _fields_ = [
        ("name", Extent),
        ("st_value", c_uint64),
        ("st_size", c_uint64),
        ("st_name", c_uint32),
        ("section", c_uint32),
        ("st_shndx", c_uint16),
        ("st_info", c_uint8),
        ("st_other", c_uint8),
    ]


class Relocation(Structure):
    """An entry of a relocation section."""

    _fields_ = [
        ("r_offset", c_uint64),
        ("r_addend", c_int64),
        ("symbol", c_uint32),
        ("relocation_type", c_uint32),
    ]


class Dynamic(Structure):
    """An entry of a dynamic array."""

    _fields_ = [("d_tag", c_int64), ("d_un", c_uint64)]


class Note(Structure):
    """A note of a note section."""

    _fields_ = [("name", Extent), ("desc", Extent), ("next", c_uint64), ("n_type", c_uint32)]


class Bytes(Structure):
    """A file of a link: its bytes in memory."""

    _fields_ = [("bytes", c_void_p), ("len", c_size_t)]


class Outcome(Structure):
    """What a call of an engine returns beside its status. Files, indexes and entries count from
    0."""

    _fields_ = [
        ("length", c_uint64),
        ("at", c_uint64),
        ("file", c_uint64),
        ("index", c_uint64),
        ("rule", c_uint16),
    ]


class Options(Structure):
    """Where a link places sections."""

    _fields_ = [("base", c_uint64), ("page", c_uint64), ("uses_rules", c_uint32)]


class LinkPlace(Structure):
    """What a broken rule of the link is about. A number that has no meaning is 0."""

    _fields_ = [
        ("section", c_uint64),
        ("entry", c_uint64),
        ("record", Extent),
        ("name", Extent),
        ("first_file", c_uint64),
        ("first_index", c_uint64),
    ]


# Of each call the type of its result, and after it those of its parameters.
CALLS: dict[str, list[Any]] = {
    "elfmap_version": [c_uint64],
    "elfmap_verdict": [c_bool, c_void_p, c_size_t, POINTER(Fault)],
    "elfmap_verdict_in": [c_bool, c_void_p, c_size_t, POINTER(Extent), c_size_t, POINTER(Fault)],
    "elfmap_parts": [
        c_bool,
        c_void_p,
        c_size_t,
        POINTER(Part),
        c_size_t,
        POINTER(c_uint64),
        POINTER(Fault),
    ],
    "elfmap_file": [c_bool, c_void_p, c_size_t, POINTER(File)],
    "elfmap_header": [c_bool, c_void_p, c_size_t, POINTER(Header)],
    "elfmap_section": [c_bool, POINTER(File), c_void_p, c_size_t, c_uint64, POINTER(Section)],
    "elfmap_sections": [
        c_uint64,
        POINTER(File),
        c_void_p,
        c_size_t,
        c_uint64,
        POINTER(Section),
        c_size_t,
    ],
    "elfmap_segment": [c_bool, POINTER(File), c_void_p, c_size_t, c_uint64, POINTER(Segment)],
    "elfmap_load": [c_bool, POINTER(File), c_void_p, c_size_t, c_uint64, POINTER(c_uint8)],
    "elfmap_name": [c_bool, POINTER(File), c_void_p, c_size_t, c_uint64, POINTER(Extent)],
    "elfmap_section_named": [
        c_bool,
        POINTER(File),
        c_void_p,
        c_size_t,
        c_void_p,
        c_size_t,
        POINTER(c_uint64),
    ],
    "elfmap_owner": [
        c_bool,
        POINTER(File),
        c_void_p,
        c_size_t,
        c_uint64,
        c_uint64,
        POINTER(c_uint64),
    ],
    "elfmap_place": [c_bool, POINTER(File), c_void_p, c_size_t, c_uint64, c_uint64, POINTER(Place)],
    "elfmap_table": [c_bool, POINTER(File), c_void_p, c_size_t, c_uint64, POINTER(Table)],
    "elfmap_symbol": [c_bool, POINTER(Table), c_void_p, c_size_t, c_uint64, POINTER(Symbol)],
    "elfmap_relocation": [
        c_bool,
        POINTER(Table),
        c_void_p,
        c_size_t,
        c_uint64,
        POINTER(Relocation),
    ],
    "elfmap_dynamic": [c_bool, POINTER(Table), c_void_p, c_size_t, c_uint64, POINTER(Dynamic)],
    "elfmap_word": [c_bool, POINTER(Table), c_void_p, c_size_t, c_uint64, POINTER(c_uint32)],
    "elfmap_symbols": [
        c_uint64,
        POINTER(Table),
        c_void_p,
        c_size_t,
        c_uint64,
        POINTER(Symbol),
        c_size_t,
    ],
    "elfmap_relocations": [
        c_uint64,
        POINTER(Table),
        c_void_p,
        c_size_t,
        c_uint64,
        POINTER(Relocation),
        c_size_t,
    ],
    "elfmap_dynamics": [
        c_uint64,
        POINTER(Table),
        c_void_p,
        c_size_t,
        c_uint64,
        POINTER(Dynamic),
        c_size_t,
    ],
    "elfmap_words": [c_uint64, POINTER(Table), c_void_p, c_size_t, c_uint64, c_void_p, c_size_t],
    "elfmap_string": [c_bool, POINTER(Table), c_void_p, c_size_t, c_uint64, POINTER(Extent)],
    "elfmap_note": [c_bool, POINTER(Table), c_void_p, c_size_t, c_uint64, POINTER(Note)],
    "elfmap_note_at": [c_bool, POINTER(Table), c_void_p, c_size_t, c_uint64, POINTER(Note)],
    "elfmap_find": [
        c_bool,
        POINTER(Table),
        c_void_p,
        c_size_t,
        c_void_p,
        c_size_t,
        POINTER(c_uint32),
    ],
    "elfmap_show": [c_uint32, c_void_p, c_size_t, c_void_p, c_size_t, POINTER(Outcome)],
    "elfmap_table_verdicts": [
        c_uint32,
        c_void_p,
        c_size_t,
        c_uint64,
        POINTER(Fault),
        c_size_t,
        POINTER(Outcome),
    ],
    "elfmap_rewrite": [c_uint32, c_void_p, c_size_t, c_void_p, c_size_t, POINTER(Outcome)],
    "elfmap_object_verdict": [c_uint32, c_void_p, c_size_t, POINTER(Outcome)],
    "elfmap_map": [
        c_uint32,
        POINTER(Bytes),
        c_size_t,
        POINTER(Options),
        c_void_p,
        c_size_t,
        c_void_p,
        c_size_t,
        POINTER(Outcome),
    ],
    "elfmap_link": [
        c_uint32,
        POINTER(Bytes),
        c_size_t,
        POINTER(Options),
        c_void_p,
        c_size_t,
        c_void_p,
        c_size_t,
        c_void_p,
        c_size_t,
        POINTER(Outcome),
    ],
    "elfmap_link_verdict": [
        c_uint32,
        POINTER(Bytes),
        c_size_t,
        POINTER(Options),
        c_void_p,
        c_size_t,
        c_void_p,
        c_size_t,
        POINTER(Outcome),
    ],
    "elfmap_link_place": [
        c_uint32,
        POINTER(Bytes),
        c_size_t,
        c_uint16,
        c_uint64,
        c_uint64,
        c_uint64,
        POINTER(LinkPlace),
    ],
}
