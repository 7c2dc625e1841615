"""The records of an ELF-64 file (System V ABI, generic part, chapters 4 and 5): the offset and the
width of each field, in bytes, and its name; and a file as what its bytes say at these places, each
read once. Nothing here tests a rule."""
from functools import cached_property

HEADER = {
    "e_type": (16, 2),
    "e_machine": (18, 2),
    "e_version": (20, 4),
    "e_entry": (24, 8),
    "e_phoff": (32, 8),
    "e_shoff": (40, 8),
    "e_flags": (48, 4),
    "e_ehsize": (52, 2),
    "e_phentsize": (54, 2),
    "e_phnum": (56, 2),
    "e_shentsize": (58, 2),
    "e_shnum": (60, 2),
    "e_shstrndx": (62, 2),
}
SECTION_HEADER = {
    "sh_name": (0, 4),
    "sh_type": (4, 4),
    "sh_flags": (8, 8),
    "sh_addr": (16, 8),
    "sh_offset": (24, 8),
    "sh_size": (32, 8),
    "sh_link": (40, 4),
    "sh_info": (44, 4),
    "sh_addralign": (48, 8),
    "sh_entsize": (56, 8),
}
PROGRAM_HEADER = {
    "p_type": (0, 4),
    "p_flags": (4, 4),
    "p_offset": (8, 8),
    "p_vaddr": (16, 8),
    "p_paddr": (24, 8),
    "p_filesz": (32, 8),
    "p_memsz": (40, 8),
    "p_align": (48, 8),
}
SYMBOL = {
    "st_name": (0, 4),
    "st_info": (4, 1),
    "st_other": (5, 1),
    "st_shndx": (6, 2),
    "st_value": (8, 8),
    "st_size": (16, 8),
}
RELOCATION = {"r_offset": (0, 8), "r_info": (8, 8), "r_addend": (16, 8)}
DYNAMIC = {"d_tag": (0, 8), "d_un": (8, 8)}

NULL = 0
SYMTAB = 2
STRTAB = 3
RELA = 4
HASH = 5
DYNAMIC_SECTION = 6
NOTE = 7
NOBITS = 8
REL = 9
SHLIB = 10
DYNSYM = 11
GROUP = 17
SYMTAB_SHNDX = 18
LOAD = 1
LORESERVE = 0xFF00
XINDEX = 0xFFFF
PN_XNUM = 0xFFFF


class Record:
    """A record at an offset of a file: each field is read where it stands, when it is first asked
    for, and `at` returns where that is."""

    def __init__(self, file, offset, layout):
        self.file = file
        self.offset = offset
        self.layout = layout

    def __getattr__(self, field):
        place, width = self.layout[field]
        value = self.__dict__[field] = self.file.number(self.offset + place, width)
        return value

    def at(self, field):
        return self.offset + self.layout[field][0]


class File:
    """The bytes of a file, and its records."""

    def __init__(self, content):
        self.bytes = content
        self.len = len(content)
        # The data encoding: 1 is least significant byte first.
        self.order = "big" if content[5:6] == b"\2" else "little"
        self.header = Record(self, 0, HEADER)
        self.known = {}

    def number(self, offset, width):
        return int.from_bytes(self.bytes[offset : offset + width], self.order)

    def section(self, i):
        if i not in self.known:
            self.known[i] = Record(self, self.header.e_shoff + 64 * i, SECTION_HEADER)
        return self.known[i]

    def segment(self, j):
        return Record(self, self.header.e_phoff + 56 * j, PROGRAM_HEADER)

    @cached_property
    def section_count(self):
        """`e_shnum`, or where that is 0 the size of section header 0; 0 without a section header
        table."""
        if self.header.e_shoff == 0:
            return 0
        return self.header.e_shnum or self.section(0).sh_size

    @cached_property
    def segment_count(self):
        """`e_phnum`, or where that is 0xffff the info of section header 0."""
        if self.header.e_phnum == PN_XNUM and self.header.e_shoff != 0:
            return self.section(0).sh_info
        return self.header.e_phnum

    @property
    def name_table(self):
        """The index of the section that has the names of sections: `e_shstrndx`, or where that is
        0xffff the link of section header 0."""
        if self.header.e_shstrndx == XINDEX and self.header.e_shoff != 0:
            return self.section(0).sh_link
        return self.header.e_shstrndx

    @cached_property
    def all_sections(self):
        return [(i, self.section(i)) for i in range(self.section_count)]

    def sections(self):
        """Each section header, with its index."""
        return self.all_sections

    def segments(self):
        return [self.segment(j) for j in range(self.segment_count)]

    def content(self, i):
        """The bytes of a section."""
        it = self.section(i)
        return self.bytes[it.sh_offset : it.sh_offset + it.sh_size]

    def entries(self, i, layout, size):
        """The entries of the table in a section, each as a record."""
        it = self.section(i)
        return [Record(self, it.sh_offset + size * k, layout) for k in range(it.sh_size // size)]

    def words(self, i):
        """The 32-bit words in a section, and where each stands."""
        it = self.section(i)
        return [
            (it.sh_offset + 4 * k, self.number(it.sh_offset + 4 * k, 4))
            for k in range(it.sh_size // 4)
        ]


def first_broken(rules, *of):
    """The number of the first of these rules that is broken, and the lowest offset where it is;
    None where all are kept."""
    for number, rule in rules:
        broken = list(rule(*of))
        if broken:
            return number, min(broken)
    return None
