"""The constants of the gABI (System V ABI, generic part, chapters 4 and 5), by their names there.

A field is an int, since a file may have any number in it: `section.sh_type == SHT.PROGBITS`.
Numbers that processors and systems add are not here, but for those of machines.
"""

from enum import IntEnum, IntFlag

# The byte of `e_ident` with the byte order, and the order with the most significant byte first.
EI_DATA = 5
ELFDATA2MSB = 2
# From this type on sections are those of processors.
SHT_LOPROC = 0x7000_0000
# The flag of a group of which a link keeps one.
GRP_COMDAT = 1
# The compression of a section, by zlib.
ELFCOMPRESS_ZLIB = 1
# No constant of the gABI: the length of the longest file that is accepted (rule 1).
LONGEST_FILE = 2**30


class ET(IntEnum):
    """The type of a file, `e_type`."""

    NONE = 0
    REL = 1
    EXEC = 2
    DYN = 3
    CORE = 4


class EM(IntEnum):
    """The machine of a file, `e_machine`: those that have files of 64 bits."""

    NONE = 0
    MIPS = 8
    PARISC = 15
    PPC64 = 21
    S390 = 22
    SPARCV9 = 43
    IA_64 = 50
    X86_64 = 62
    AARCH64 = 183
    RISCV = 243
    BPF = 247
    LOONGARCH = 258


class SHN(IntEnum):
    """The indices of sections, `st_shndx`, that are of no section."""

    UNDEF = 0
    ABS = 0xFFF1
    COMMON = 0xFFF2
    XINDEX = 0xFFFF


class SHT(IntEnum):
    """The type of a section, `sh_type`."""

    NULL = 0
    PROGBITS = 1
    SYMTAB = 2
    STRTAB = 3
    RELA = 4
    HASH = 5
    DYNAMIC = 6
    NOTE = 7
    NOBITS = 8
    REL = 9
    SHLIB = 10
    DYNSYM = 11
    INIT_ARRAY = 14
    FINI_ARRAY = 15
    PREINIT_ARRAY = 16
    GROUP = 17
    SYMTAB_SHNDX = 18
    RELR = 19


class SHF(IntFlag):
    """The flags of a section, `sh_flags`."""

    WRITE = 0x1
    ALLOC = 0x2
    EXECINSTR = 0x4
    MERGE = 0x10
    STRINGS = 0x20
    INFO_LINK = 0x40
    LINK_ORDER = 0x80
    OS_NONCONFORMING = 0x100
    GROUP = 0x200
    TLS = 0x400
    COMPRESSED = 0x800


class STB(IntEnum):
    """The binding of a symbol, the upper half of `st_info`."""

    LOCAL = 0
    GLOBAL = 1
    WEAK = 2


class STT(IntEnum):
    """The type of a symbol, the lower half of `st_info`."""

    NOTYPE = 0
    OBJECT = 1
    FUNC = 2
    SECTION = 3
    FILE = 4
    COMMON = 5
    TLS = 6


class STV(IntEnum):
    """The visibility of a symbol, the two lowest bits of `st_other`."""

    DEFAULT = 0
    INTERNAL = 1
    HIDDEN = 2
    PROTECTED = 3


class PT(IntEnum):
    """The type of a segment, `p_type`."""

    NULL = 0
    LOAD = 1
    DYNAMIC = 2
    INTERP = 3
    NOTE = 4
    SHLIB = 5
    PHDR = 6
    TLS = 7


class PF(IntFlag):
    """The permissions of a segment, `p_flags`."""

    X = 1
    W = 2
    R = 4


class DT(IntEnum):
    """The tag of an entry of a dynamic array, `d_tag`."""

    NULL = 0
    NEEDED = 1
    PLTRELSZ = 2
    PLTGOT = 3
    HASH = 4
    STRTAB = 5
    SYMTAB = 6
    RELA = 7
    RELASZ = 8
    RELAENT = 9
    STRSZ = 10
    SYMENT = 11
    INIT = 12
    FINI = 13
    SONAME = 14
    RPATH = 15
    SYMBOLIC = 16
    REL = 17
    RELSZ = 18
    RELENT = 19
    PLTREL = 20
    DEBUG = 21
    TEXTREL = 22
    JMPREL = 23
    BIND_NOW = 24
    INIT_ARRAY = 25
    FINI_ARRAY = 26
    INIT_ARRAYSZ = 27
    FINI_ARRAYSZ = 28
    RUNPATH = 29
    FLAGS = 30
    PREINIT_ARRAY = 32
    PREINIT_ARRAYSZ = 33
    SYMTAB_SHNDX = 34
    RELRSZ = 35
    RELR = 36
    RELRENT = 37
