"""The numbers of names that tools print."""

SECTION_TYPES = {
    "NULL": 0,
    "PROGBITS": 1,
    "SYMTAB": 2,
    "STRTAB": 3,
    "RELA": 4,
    "HASH": 5,
    "DYNAMIC": 6,
    "NOTE": 7,
    "NOBITS": 8,
    "REL": 9,
    "SHLIB": 10,
    "DYNSYM": 11,
    "INIT_ARRAY": 14,
    "FINI_ARRAY": 15,
    "PREINIT_ARRAY": 16,
    "GROUP": 17,
    "SYMTAB SECTION INDICES": 18,
    "SYMTAB SECTION INDICIES": 18,
    "SYMTAB_SHNDX": 18,
}
SEGMENT_TYPES = {
    "NULL": 0,
    "LOAD": 1,
    "DYNAMIC": 2,
    "INTERP": 3,
    "NOTE": 4,
    "SHLIB": 5,
    "PHDR": 6,
    "TLS": 7,
    "GNU_EH_FRAME": 0x6474E550,
    "GNU_STACK": 0x6474E551,
    "GNU_RELRO": 0x6474E552,
}
BINDINGS = {"LOCAL": 0, "GLOBAL": 1, "WEAK": 2}
SYMBOL_TYPES = {
    "NOTYPE": 0,
    "OBJECT": 1,
    "FUNC": 2,
    "SECTION": 3,
    "FILE": 4,
    "COMMON": 5,
    "TLS": 6,
}
VISIBILITIES = {"DEFAULT": 0, "INTERNAL": 1, "HIDDEN": 2, "PROTECTED": 3}
INDEXES = {"UND": 0, "UNDEF": 0, "ABS": 0xFFF1, "COM": 0xFFF2, "COMMON": 0xFFF2}
FLAGS = {
    "W": 1,
    "A": 2,
    "X": 4,
    "M": 0x10,
    "S": 0x20,
    "I": 0x40,
    "L": 0x80,
    "O": 0x100,
    "G": 0x200,
    "T": 0x400,
    "C": 0x800,
}
FILE_TYPES = {"NONE": 0, "REL": 1, "EXEC": 2, "DYN": 3, "CORE": 4}


def known(found: dict[str, int | str | None]) -> dict[str, int | str]:
    """The fields that have a value: what a tool prints in words that are not known is left out."""
    return {name: it for name, it in found.items() if it is not None}


def flags(letters: str) -> int | None:
    """The flags of a section by the letters of readelf."""
    if any(it not in FLAGS for it in letters):
        return None
    return sum(FLAGS[it] for it in letters)


def by_name(names: dict[str, int], word: str) -> int | None:
    """The number of a name, or a number that is printed in the place of one."""
    if word in names:
        return names[word]
    return int(word) if word.isdecimal() else None
