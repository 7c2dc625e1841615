"""The smallest files that the cases of rules begin with."""

from elf_conformance.build import (
    ALLOC,
    DYNAMIC,
    DYNSYM,
    GLOBAL,
    GROUP,
    HASH,
    IN_GROUP,
    LOAD,
    NOTE,
    PROGBITS,
    RELA,
    STRTAB,
    SYMTAB_SHNDX,
    Elf,
    Order,
    strings,
    value_of,
    words,
    xwords,
)

BYTES = bytes(range(1, 9))


def header_alone(order: Order) -> bytes:
    """A header of an object, and nothing else."""
    return Elf(order).file()


def one_section(order: Order, **fields: int) -> bytes:
    """An object with one section of eight bytes, .data, and the name table."""
    it = Elf(order)
    it.section(PROGBITS, BYTES, b".data", **fields)
    return it.file()


def unnamed_section(order: Order, **fields: int) -> bytes:
    """An object with one section of eight bytes, and without a name table."""
    it = Elf(order)
    it.is_named = False
    it.section(PROGBITS, BYTES, b"", **fields)
    return it.file()


def named_section(order: Order, **fields: int) -> bytes:
    """An object with a section of eight bytes, .data, and a name table."""
    it = Elf(order)
    it.section(PROGBITS, BYTES, b".data", **{"sh_flags": 3, "sh_addralign": 1, **fields})
    return it.file()


def one_segment(order: Order, **fields: int) -> bytes:
    """An executable of one loadable segment, which is the whole file, and no sections."""
    it = Elf(order, e_type=2)
    place = {"p_vaddr": 0x400000, "p_paddr": 0x400000, "p_flags": 5, "p_align": 0x1000}
    it.segment(LOAD, **{**place, "p_filesz": 120, "p_memsz": 120, **fields})
    return it.file()


def two_segments(order: Order, first: int, second: int) -> bytes:
    """An executable of two loadable segments, at these addresses, with the whole file in each."""
    it = Elf(order, e_type=2)
    for address in (first, second):
        it.segment(LOAD, p_vaddr=address, p_flags=5, p_align=0x1000, p_filesz=176, p_memsz=176)
    return it.file()


def symbols(order: Order, **fields: int) -> bytes:
    """An object with a symbol table, section 2: a local symbol and a global one in section 1."""
    it = Elf(order)
    it.section(PROGBITS, BYTES, b".data", sh_flags=3, sh_addralign=8)
    local = {"st_info": 1, "st_shndx": 1, "st_size": 4}
    other = {"st_info": GLOBAL + 1, "st_shndx": 1, "st_value": 4, "st_size": 4}
    it.symbols([(b"here", local), (b"there", other)], **fields)
    return it.file()


def data_last(order: Order) -> bytes:
    """An object whose names are in section 1: a symbol table of one symbol, section 2, its strings,
    relocations, section 4, and .data, the last section, in which the symbol is and to which the
    relocations apply."""
    names = b"\0.shstrtab\0.symtab\0.strtab\0.rela.data\0"
    it = Elf(order, e_shstrndx=1)
    it.section(STRTAB, names, sh_name=1, sh_addralign=1)
    table = it.symbols([(b"there", {"st_info": GLOBAL + 1, "st_shndx": 5})], sh_name=11)
    it.fields[-1]["sh_name"] = 19
    shape = {"sh_link": table, "sh_info": 5, "sh_entsize": 24, "sh_addralign": 8}
    it.section(RELA, an_entry(order), b"", sh_name=27, **shape)
    it.section(PROGBITS, BYTES, sh_name=32, sh_flags=3, sh_addralign=8)
    return it.file()


def indexed(order: Order, index_words: bytes, count: int = 1, **fields: int) -> bytes:
    """An object with a symbol table of one symbol, section 2, and index tables, from section 4
    on."""
    it = Elf(order)
    it.section(PROGBITS, BYTES, b".data", sh_flags=3, sh_addralign=8)
    it.symbols([(b"there", {"st_info": GLOBAL + 1, "st_shndx": 1, **fields})])
    for _ in range(count):
        shape = {"sh_link": 2, "sh_entsize": 4, "sh_addralign": 4}
        it.section(SYMTAB_SHNDX, index_words, b".symtab_shndx", **shape)
    return it.file()


def relocated(order: Order, entry: bytes, type: int = RELA, **fields: int) -> bytes:
    """An object with .data, section 1, a symbol table of two symbols, section 2, and relocations
    of .data, section 4."""
    it = Elf(order)
    it.section(PROGBITS, BYTES, b".data", sh_flags=3, sh_addralign=8)
    it.symbols([(b"there", {"st_info": GLOBAL})])
    size = 24 if type == RELA else 16
    shape = {"sh_link": 2, "sh_info": 1, "sh_entsize": size, "sh_addralign": 8}
    name = b".rela.data" if type == RELA else b".rel.data"
    it.section(type, entry, name, **{**shape, **fields})
    return it.file()


def an_entry(order: Order, symbol: int = 1, place: int = 0, type: int = 1) -> bytes:
    """A relocation with an addend."""
    return xwords(order, place, symbol * 2**32 + type, 0)


def grouped(
    order: Order, content: bytes, members: tuple[int, ...] = (2, 3), **fields: int
) -> bytes:
    """An object with a group, section 1, and sections 2 and 3, of which these say that they are its
    members; section 4 is the symbol table, of one symbol."""
    it = Elf(order)
    shape = {"sh_link": 4, "sh_info": 1, "sh_entsize": 4, "sh_addralign": 4}
    it.section(GROUP, content, b".group", **{**shape, **fields})
    for index, name in ((2, b".text.f"), (3, b".text.g")):
        flags = 6 | (IN_GROUP if index in members else 0)
        it.section(PROGBITS, BYTES, name, sh_flags=flags, sh_addralign=1)
    it.symbols([(b"f", {"st_info": GLOBAL + 2, "st_shndx": 2})])
    return it.file()


def noted(order: Order, content: bytes) -> bytes:
    """An object with a section of notes, section 1."""
    it = Elf(order)
    it.section(NOTE, content, b".note", sh_flags=ALLOC, sh_addralign=4)
    return it.file()


def a_note(order: Order, name: bytes, desc: bytes, type: int = 1) -> bytes:
    """A note with its padding."""
    head = words(order, len(name), len(desc), type)
    return head + name + bytes(-len(name) % 4) + desc + bytes(-len(desc) % 4)


class Library:
    """A library of one loadable segment, in which an address is the offset of the file: dynamic
    symbols, section 1, none and one of this name; their strings, section 2; a hash table of these
    words, section 3; and a dynamic array, section 4, of these entries, of those that the standard
    demands, of NULL, and of others."""

    def __init__(self, order: Order) -> None:
        self.order: Order = order
        self.name = b"a"
        self.words: tuple[int, ...] = (1, 2, 1, 0, 0)
        self.entries: tuple[int, ...] = ()
        self.after: tuple[int, ...] = (0, 0)
        self.symbols: list[tuple[bytes, dict[str, int]]] = []

    def made(self, at: list[int], length: int) -> bytes:
        """The file, whose sections are at these offsets, and that is so long."""
        it = Elf(self.order, e_type=3)
        row = {"st_info": GLOBAL + 1, "st_value": at[3], "st_size": 4, "st_shndx": 4}
        rows = self.symbols or [(self.name, row)]
        rows = [(name, {**own, "st_value": at[3]}) for name, own in rows]
        table, _ = strings([*(name for name, _ in rows), b"lib.so"])
        it.symbols(rows, DYNSYM, sh_flags=ALLOC, sh_addr=at[0])
        it.contents[1] = table
        it.fields[1] |= {"sh_size": len(table), "sh_flags": ALLOC, "sh_addr": at[1]}
        shape = {"sh_flags": ALLOC, "sh_link": 1, "sh_entsize": 4, "sh_addralign": 4}
        content = words(self.order, *self.words)
        it.section(HASH, content, b".hash", **{**shape, "sh_addr": at[2]})
        demanded = (4, at[2], 5, at[1], 6, at[0], 10, len(table), 11, 24)
        entries = xwords(self.order, *self.entries, *demanded, *self.after)
        shape = {"sh_flags": 3, "sh_link": 2, "sh_entsize": 16, "sh_addralign": 8}
        it.section(DYNAMIC, entries, b".dynamic", **{**shape, "sh_addr": at[3]})
        it.segment(LOAD, p_flags=6, p_filesz=length, p_memsz=length, p_align=0x1000)
        size = len(entries)
        own = {"p_offset": at[3], "p_vaddr": at[3], "p_paddr": at[3], "p_filesz": size}
        it.segment(2, p_flags=6, p_memsz=size, p_align=8, **own)
        return it.file()

    def file(self) -> bytes:
        """The file."""
        first = self.made([0] * 4, 0)
        return self.made([value_of(first, "sh_offset", i) for i in range(1, 5)], len(first))


def dynamic(order: Order, *entries: int, after: tuple[int, ...] = (0, 0)) -> bytes:
    """A library with these entries in its dynamic array, section 4, and others after those that
    the standard demands. The strings are `a` at 1, and `lib.so` at 3."""
    it = Library(order)
    it.entries = entries
    it.after = after
    return it.file()


def hashed(order: Order, *table: int, name: bytes = b"a") -> bytes:
    """A library with a hash table of these words, section 3, over a symbol of this name."""
    it = Library(order)
    it.words = table
    it.name = name
    return it.file()
