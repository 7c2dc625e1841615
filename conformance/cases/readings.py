"""Files that break no rule, and whose values are read: each table, with the values that are easy to
read wrongly."""

from elf_conformance.build import (
    ABS,
    ALLOC,
    COMMON,
    EXEC,
    GLOBAL,
    GROUP,
    IN_GROUP,
    INFO_LINK,
    LOAD,
    NOTE,
    PROGBITS,
    REL,
    RELA,
    WEAK,
    WRITE,
    Elf,
    Order,
    edited,
    words,
    xwords,
)
from elf_conformance.generated import hash_words

from .case import sound
from .shapes import BYTES, Library, a_note, dynamic, header_alone, named_section

TLS = 0x400
UNIQUE = 10


@sound("4-elf-header")
def header_of_different_numbers(order: Order) -> bytes:
    """A header alone: type, machine, entry point and flags have bytes that all differ."""
    file = header_alone(order)
    fields = {"e_type": 0xFE01, "e_machine": 0x1234, "e_entry": 0x1122334455667788}
    for name, value in {**fields, "e_flags": 0x99AABBCC, "ei_osabi": 9}.items():
        file = edited(file, name, value)
    return file


@sound("4-elf-header")
def tables_in_another_order(order: Order) -> bytes:
    """The section headers are right after the header, then the names, and at last the program
    headers, after gaps of other bytes."""
    it = Elf(order, e_type=2, e_shoff=64, e_shentsize=64, e_shnum=2, e_shstrndx=1)
    it.header |= {"e_phoff": 208, "e_phentsize": 56, "e_phnum": 1}
    made = Elf(order)
    made.is_named = False
    made.section(3, b"\0.n\0", b"", sh_name=1, sh_offset=196, sh_addralign=1)
    section_headers = made.file()[-128:]
    program = Elf(order)
    program.segment(LOAD, p_vaddr=0x400000, p_filesz=64, p_memsz=64, p_flags=4)
    return it.file() + section_headers + b"gap!" + b"\0.n\0" + b"GAP BYTE" + program.file()[64:]


@sound("4-sections")
def sections_of_each_type(order: Order) -> bytes:
    """Sections of the types of programs, of an operating system, of a processor and of a user, with
    all flags that the standard has."""
    it = Elf(order)
    for type, name in ((1, b".one"), (14, b".init_array"), (15, b".fini_array"), (16, b".pre")):
        it.section(type, BYTES, name, sh_flags=3, sh_addralign=8)
    for type in (0x60000042, 0x70000042, 0x80000042):
        it.section(type, BYTES, b".%x" % type, sh_addralign=1)
    merged = {"sh_flags": ALLOC | 0x30, "sh_entsize": 1}
    it.section(PROGBITS, b"a text\0", b".merged", sh_addralign=1, **merged)
    it.section(PROGBITS, BYTES, b".order", sh_flags=ALLOC | 0x80, sh_link=1, sh_addralign=1)
    it.section(PROGBITS, BYTES, b".code", sh_flags=ALLOC | EXEC, sh_addralign=1)
    it.nobits(16, b".tbss", sh_flags=WRITE | ALLOC | TLS, sh_addralign=8)
    it.section(PROGBITS, BYTES, b".info", sh_flags=INFO_LINK, sh_addralign=1, sh_info=2)
    return it.file()


@sound("4-sections")
def large_numbers(order: Order) -> bytes:
    """A section without bits whose address, size and entry size need 64 bits."""
    it = Elf(order)
    place = {"sh_addr": 0xFEDCBA9876543210, "sh_addralign": 16, "sh_entsize": 2**40}
    it.nobits(0x0123456789ABCDEF, b".bss", sh_flags=3, **place)
    return it.file()


@sound("4-sections")
def section_at_a_high_offset_of_no_bytes(order: Order) -> bytes:
    """An empty section at the offset 2^64 - 1."""
    it = Elf(order)
    it.section(PROGBITS, b"", b".empty", sh_offset=2**64 - 1)
    return it.file()


@sound("4-sections")
def three_hundred_sections(order: Order) -> bytes:
    """300 sections with a name for each, so that an index needs two bytes."""
    it = Elf(order)
    for k in range(298):
        it.section(PROGBITS, b"", b".s%d" % k, sh_addralign=1)
    return it.file()


@sound("4-string-table")
def names_that_share_bytes(order: Order) -> bytes:
    """Three sections whose names are the ends of one name, and one of an empty name."""
    it = Elf(order, e_shstrndx=5)
    for at in (1, 6, 10, 0):
        it.section(PROGBITS, BYTES, b"", sh_name=at, sh_addralign=1)
    it.section(3, b"\0some_names\0", b"", sh_name=6, sh_addralign=1)
    return it.file()


@sound("4-string-table")
def a_name_of_1000_bytes(order: Order) -> bytes:
    """A section name and a symbol name of 1000 bytes each."""
    it = Elf(order)
    it.section(PROGBITS, BYTES, b"." + b"n" * 999, sh_flags=3, sh_addralign=1)
    it.symbols([(b"s" * 1000, {"st_info": GLOBAL + 1, "st_shndx": 1})])
    return it.file()


@sound("4-symbol-table")
def symbols_of_each_binding(order: Order) -> bytes:
    """Local, global and weak symbols, and one of the binding GNU_UNIQUE; of each type; defined,
    undefined, absolute and common."""
    it = Elf(order)
    it.section(PROGBITS, bytes(16), b".data", sh_flags=3, sh_addralign=8)
    it.nobits(16, b".tbss", sh_flags=3 | TLS, sh_addralign=8)
    rows = [
        (b"file.c", {"st_info": 4, "st_shndx": ABS}),
        (b"", {"st_info": 3, "st_shndx": 1}),
        (b"local", {"st_info": 1, "st_shndx": 1, "st_value": 8, "st_size": 4}),
        (b"function", {"st_info": GLOBAL + 2, "st_shndx": 1, "st_size": 4}),
        (b"object", {"st_info": GLOBAL + 1, "st_shndx": 1, "st_value": 4, "st_size": 4}),
        (b"thread", {"st_info": GLOBAL + 6, "st_shndx": 2, "st_size": 16}),
        (b"common", {"st_info": GLOBAL + 1, "st_shndx": COMMON, "st_value": 16, "st_size": 64}),
        (b"undefined", {"st_info": GLOBAL}),
        (b"absolute", {"st_info": GLOBAL, "st_shndx": ABS, "st_value": 0x123456789ABCDEF0}),
        (b"weak", {"st_info": WEAK + 2, "st_shndx": 1, "st_value": 2}),
        (b"weak_undefined", {"st_info": WEAK}),
        (b"unique", {"st_info": 16 * UNIQUE + 1, "st_shndx": 1, "st_size": 8}),
    ]
    it.symbols(rows)
    return edited(it.file(), "ei_osabi", 3)


@sound("4-symbol-table")
def symbols_of_each_visibility(order: Order) -> bytes:
    """Symbols that are visible by default, internal, hidden and protected."""
    it = Elf(order)
    it.section(PROGBITS, bytes(16), b".data", sh_flags=3, sh_addralign=8)
    names = (b"default", b"internal", b"hidden", b"protected")
    rows = [
        (name, {"st_info": GLOBAL + 1, "st_shndx": 1, "st_other": k, "st_size": 4})
        for k, name in enumerate(names)
    ]
    it.symbols(rows)
    return it.file()


@sound("4-symbol-table")
def symbols_of_large_values(order: Order) -> bytes:
    """Symbols whose values and sizes are 2^32, 2^63 and 2^64 - 1."""
    it = Elf(order)
    rows = [
        (b"s%d" % k, {"st_info": GLOBAL + 1, "st_shndx": ABS, "st_value": value, "st_size": value})
        for k, value in enumerate((2**32, 2**63, 2**64 - 1, 99999, 100000))
    ]
    it.symbols(rows)
    return it.file()


@sound("4-symbol-table")
def two_symbols_of_one_name(order: Order) -> bytes:
    """Two local symbols and a global one have the same name."""
    it = Elf(order)
    it.section(PROGBITS, bytes(16), b".data", sh_flags=3, sh_addralign=8)
    rows = [
        (b"same", {"st_info": binding + 1, "st_shndx": 1, "st_value": 4 * k, "st_size": 4})
        for k, binding in enumerate((0, 0, GLOBAL))
    ]
    it.symbols(rows)
    return it.file()


def relocations(order: Order, type: int, entries: list[tuple[int, int, int, int]]) -> bytes:
    """An object with relocations of 64 bytes: place, symbol, type and addend."""
    it = Elf(order)
    it.section(PROGBITS, bytes(64), b".data", sh_flags=3, sh_addralign=8)
    names = (b"first", b"second", b"third")
    it.symbols([(name, {"st_info": GLOBAL}) for name in names])
    content = b""
    for place, symbol, kind, addend in entries:
        content += xwords(order, place, symbol * 2**32 + kind)
        content += xwords(order, addend) if type == RELA else b""
    size = 24 if type == RELA else 16
    name = b".rela.data" if type == RELA else b".rel.data"
    shape = {"sh_link": 2, "sh_info": 1, "sh_entsize": size, "sh_flags": INFO_LINK}
    it.section(type, content, name, sh_addralign=8, **shape)
    return it.file()


@sound("4-relocation")
def relocations_with_addends(order: Order) -> bytes:
    """Relocations with positive and negative addends, with a symbol and without, out of the order
    of their places."""
    rows = [
        (8, 1, 1, 0),
        (0, 2, 1, -4),
        (16, 3, 2, 2**63 - 1),
        (24, 0, 1, -(2**63)),
        (56, 1, 1, 9),
    ]
    return relocations(order, RELA, rows)


@sound("4-relocation")
def relocations_without_addends(order: Order) -> bytes:
    """Relocations of type REL."""
    return relocations(order, REL, [(0, 1, 1, 0), (8, 2, 2, 0), (16, 3, 1, 0)])


@sound("4-relocation")
def relocation_of_an_unknown_type(order: Order) -> bytes:
    """A relocation whose type is 2^32 - 1, and whose place is past its section."""
    return relocations(order, RELA, [(2**40, 1, 2**32 - 1, 1)])


@sound("4-section-groups")
def groups_of_both_kinds(order: Order) -> bytes:
    """A COMDAT group of two members, and a group that is none, of one; the second one is named by a
    local symbol."""
    it = Elf(order)
    for members in (words(order, 1, 3, 4), words(order, 0, 5)):
        it.section(GROUP, members, b".group", sh_link=6, sh_entsize=4, sh_addralign=4)
    for name in (b".text.f", b".data.f", b".text.g"):
        it.section(PROGBITS, BYTES, name, sh_flags=2 | IN_GROUP, sh_addralign=1)
    rows = [(b"g", {"st_shndx": 5}), (b"f", {"st_info": GLOBAL + 2, "st_shndx": 3})]
    it.symbols(rows)
    it.fields[0]["sh_info"] = 2
    it.fields[1]["sh_info"] = 1
    return it.file()


@sound("5-program-header")
def segments_of_each_type(order: Order) -> bytes:
    """Segments of each type that the standard has, of an operating system and of a processor."""
    it = Elf(order, e_type=3)
    size = 64 + 56 * 7
    it.segment(6, p_offset=64, p_vaddr=64, p_filesz=56 * 7, p_memsz=56 * 7, p_flags=4, p_align=8)
    it.segment(LOAD, p_filesz=size, p_memsz=size, p_flags=5, p_align=0x1000)
    it.segment(LOAD, p_offset=size, p_vaddr=0x1000 + size, p_memsz=64, p_flags=6, p_align=0x1000)
    it.segment(7, p_offset=size, p_vaddr=0x1000 + size, p_memsz=16, p_flags=4, p_align=8)
    it.segment(0x6474E551, p_flags=6, p_align=16)
    it.segment(0x60000042, p_offset=1, p_filesz=2, p_vaddr=1, p_paddr=4, p_memsz=5, p_align=8)
    it.segment(0x70000042, p_flags=7)
    return it.file()


@sound("5-program-header")
def segment_of_large_numbers(order: Order) -> bytes:
    """A loadable segment whose addresses differ and need 64 bits, and whose memory is 2^40
    bytes."""
    it = Elf(order, e_type=2)
    place = {"p_vaddr": 0xFEDCBA9876540000, "p_paddr": 0x1122334455667788}
    it.segment(LOAD, p_filesz=120, p_memsz=2**40, p_flags=0xF0000007, p_align=0x10000, **place)
    return it.file()


@sound("5-note-section")
def notes_of_all_paddings(order: Order) -> bytes:
    """Notes whose names and descriptors have from 0 to 5 bytes, and types that nobody uses."""
    it = Elf(order)
    content = b""
    for k in range(6):
        name = b"names"[:k] + b"\0" if k else b""
        content += a_note(order, name, bytes(range(1, k + 1)), 0x1000 + k)
    it.section(NOTE, content, b".note.all", sh_flags=ALLOC, sh_addralign=4)
    return it.file()


@sound("5-note-section")
def note_of_a_large_type(order: Order) -> bytes:
    """A note of type 2^32 - 1 that has no descriptor, in a section that is not loaded."""
    it = Elf(order)
    it.section(NOTE, a_note(order, b"owner\0", b"", 2**32 - 1), b".note", sh_addralign=4)
    return it.file()


@sound("5-dynamic-section")
def dynamic_array_of_many_tags(order: Order) -> bytes:
    """A dynamic array with names, numbers, and tags of an operating system and of a processor."""
    entries = (1, 3, 14, 3, 29, 1, 15, 1, 30, 2, 0x6FFFFFFB, 1, 0x6000000E, 2**64 - 1)
    return dynamic(order, *entries, 0x70000001, 0x0102030405060708)


@sound("5-hash-table")
def hash_table_of_many_symbols(order: Order) -> bytes:
    """A hash table of three buckets for eight symbols, of which two have one hash value."""
    names = [b"", b"main", b"f", b"a", b"puts", b"_init", b"very_long_name_of_a_symbol", b"x", b"y"]
    it = Library(order)
    it.symbols = [
        (name, {"st_info": GLOBAL + 2, "st_value": 16, "st_shndx": 4}) for name in names[1:]
    ]
    it.words = tuple(hash_words(names, 3))
    return it.file()


@sound("4-sections")
def gaps_between_the_parts(order: Order) -> bytes:
    """Bytes that are in no part of the file: zeros to align, and other bytes at the end."""
    return named_section(order, sh_addralign=16) + b"after the end"
