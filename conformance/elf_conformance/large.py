"""Files that are too large for the archive: each is made by its name. Extended numbering has its
borders here, and so has the length of a file."""

from collections.abc import Callable, Iterator
from typing import NamedTuple

from .build import (
    GLOBAL,
    HEADER,
    NOTE,
    PROGBITS,
    SECTION,
    SEGMENT,
    STRTAB,
    SYMBOL,
    SYMTAB,
    SYMTAB_SHNDX,
    XINDEX,
    Elf,
    Order,
    header_of,
    record,
    strings,
    words,
)

RESERVED = 0xFF00
PN_XNUM = 0xFFFF
Maker = Callable[[Order], bytes]


class Large(NamedTuple):
    """A file that is made: its set, the sentence for people, the function, the rule that it is
    about and whether it breaks it."""

    set: str
    folder: str
    about: str
    make: Maker
    rule: int = 0
    breaks: bool = False
    # How long the file is, if zeros are after what the function makes.
    length: int = 0


MADE: dict[str, Large] = {}


def made(
    set: str, folder: str, rule: int = 0, breaks: bool = False, length: int = 0
) -> Callable[[Maker], Maker]:
    """Adds a function of this name, whose first line is the sentence."""

    def add(function: Maker) -> Maker:
        about = " ".join((function.__doc__ or "").split())
        name = function.__name__.replace("_", "-")
        MADE[name] = Large(set, folder, about, function, rule, breaks, length)
        return function

    return add


# ---- extended numbering


def many_sections(order: Order, count: int, names: int, **fields: int) -> bytes:
    """So many section headers: that of index 0, empty sections of bytes, and at the index `names` a
    name table of two names; the fields are those of the header and of section header 0."""
    table = b"\0.e\0.names\0"
    header = {"e_type": 1, "e_machine": 62 if order == "little" else 21, "e_shoff": 80}
    own = {key: it for key, it in fields.items() if key in HEADER}
    first = {key: it for key, it in fields.items() if key in SECTION}
    plain = record(order, SECTION, sh_name=1, sh_type=PROGBITS, sh_offset=64, sh_addralign=1)
    of_names = {"sh_name": 4, "sh_type": STRTAB, "sh_offset": 64, "sh_size": len(table)}
    named = record(order, SECTION, sh_addralign=1, **of_names)
    body = header_of(order, {**header, "e_shentsize": 64, **own}) + table.ljust(16, b"\0")
    return (
        body
        + record(order, SECTION, **first)
        + plain * (names - 1)
        + named
        + (plain * (count - names - 1))
    )


@made("extended", "4-elf-header")
def sections_0xfeff(order: Order) -> bytes:
    """65,279 sections, the most that `e_shnum` can count; the name table is the last one."""
    return many_sections(order, RESERVED - 1, RESERVED - 2, e_shnum=0xFEFF, e_shstrndx=0xFEFE)


@made("extended", "4-elf-header")
def sections_0xff00(order: Order) -> bytes:
    """65,280 sections: the count is in section header 0. The name table is section 1."""
    return many_sections(order, RESERVED, 1, e_shnum=0, sh_size=RESERVED, e_shstrndx=1)


@made("extended", "4-elf-header")
def name_table_0xff00(order: Order) -> bytes:
    """65,281 sections, and the name table is the last one: count and index are in section header
    0."""
    fields = {"e_shnum": 0, "sh_size": RESERVED + 1, "e_shstrndx": XINDEX, "sh_link": RESERVED}
    return many_sections(order, RESERVED + 1, RESERVED, **fields)


@made("extended", "4-elf-header", 11, True)
def sections_0xff00_in_the_header(order: Order) -> bytes:
    """65,280 sections, and `e_shnum` is 0xff00."""
    return many_sections(order, RESERVED, 1, e_shnum=RESERVED, e_shstrndx=1)


@made("extended", "4-elf-header", 14, True)
def sections_0xfeff_in_section_header_0(order: Order) -> bytes:
    """65,279 sections, and the count is in section header 0, though the header can hold it."""
    return many_sections(order, RESERVED - 1, 1, e_shnum=0, sh_size=0xFEFF, e_shstrndx=1)


@made("extended", "4-elf-header", 16, True)
def name_table_0xff00_in_the_header(order: Order) -> bytes:
    """65,281 sections, and `e_shstrndx` is 0xff00, a reserved index."""
    fields = {"e_shnum": 0, "sh_size": RESERVED + 1, "e_shstrndx": RESERVED}
    return many_sections(order, RESERVED + 1, RESERVED, **fields)


def far_symbols(order: Order, words_of_index: tuple[int, ...], escape: int) -> bytes:
    """An object of 65,286 sections: a symbol table with a symbol in section 0xff01, one in section
    1 and an absolute one, its index table, and strings."""
    table, offsets = strings([b"far", b"near", b"absolute"])
    places = (escape, 1, 0xFFF1)
    symbols = bytes(24)
    for offset, place in zip(offsets, places):
        symbols += record(order, SYMBOL, st_name=offset, st_info=GLOBAL + 1, st_shndx=place)
    content = symbols + words(order, *words_of_index) + table
    it = Elf(order)
    body = bytearray(64) + content
    body += bytes(-len(body) % 8)
    plain = record(order, SECTION, sh_type=PROGBITS, sh_offset=64, sh_addralign=1)
    at = [64, 64 + 96, 64 + 96 + 16]
    shapes = [
        {"sh_type": SYMTAB, "sh_size": 96, "sh_link": 4, "sh_info": 1, "sh_entsize": 24},
        {"sh_type": SYMTAB_SHNDX, "sh_size": 16, "sh_link": 2, "sh_entsize": 4},
        {"sh_type": STRTAB, "sh_size": len(table)},
    ]
    count = RESERVED + 6
    headers = record(order, SECTION, sh_size=count) + plain
    for offset, shape in zip(at, shapes):
        headers += record(order, SECTION, sh_offset=offset, **shape)
    headers += plain * (count - 5)
    body[:64] = header_of(
        order, {**it.header, "e_shoff": len(body), "e_shentsize": 64, "e_shnum": 0, "e_shstrndx": 4}
    )
    return bytes(body) + headers


@made("extended", "4-symbol-table")
def symbol_in_section_0xff01(order: Order) -> bytes:
    """A symbol in section 65,281: `st_shndx` is 0xffff, and the index is in the index table."""
    return far_symbols(order, (0, RESERVED + 1, 0, 0), XINDEX)


@made("extended", "4-symbol-table")
def symbol_in_a_section_of_a_reserved_number(order: Order) -> bytes:
    """`st_shndx` is 0xff01, a reserved index, in a file that has a section of this index: the
    symbol is not in it."""
    return far_symbols(order, (0, 0, 0, 0), RESERVED + 1)


@made("extended", "4-symbol-table", 52, True)
def index_word_past_the_sections(order: Order) -> bytes:
    """The index of a symbol's section in the index table is the number of sections."""
    return far_symbols(order, (0, RESERVED + 6, 0, 0), XINDEX)


def many_segments(order: Order, count: int, phnum: int, info: int) -> bytes:
    """So many program headers, of type NULL but for the last one, a name table, and section header
    0 with this info."""
    fields = {"e_type": 2, "e_machine": 62 if order == "little" else 21, "e_phoff": 64}
    sizes = {"e_phentsize": 56, "e_phnum": phnum, "e_shentsize": 64, "e_shnum": 2}
    end = 64 + 56 * count
    names = b"\0.shstrtab\0"
    header = header_of(order, {**fields, **sizes, "e_shoff": end + 16, "e_shstrndx": 1})
    table = record(order, SEGMENT, p_type=0) * (count - 1)
    last = record(order, SEGMENT, p_type=0x60000042, p_flags=4)
    shape = {"sh_offset": end, "sh_size": len(names), "sh_addralign": 1}
    named = record(order, SECTION, sh_name=1, sh_type=STRTAB, **shape)
    first = record(order, SECTION, sh_info=info)
    return header + table + last + names.ljust(16, b"\0") + first + named


@made("extended", "5-program-header")
def segments_0xfffe(order: Order) -> bytes:
    """65,534 program headers, the most that `e_phnum` can count."""
    return many_segments(order, PN_XNUM - 1, PN_XNUM - 1, 0)


@made("extended", "5-program-header")
def segments_0xffff(order: Order) -> bytes:
    """65,535 program headers: the count is in section header 0."""
    return many_segments(order, PN_XNUM, PN_XNUM, PN_XNUM)


@made("extended", "5-program-header", 20, True)
def segments_0xfffe_in_section_header_0(order: Order) -> bytes:
    """65,534 program headers, and the count is in section header 0, though the header can hold
    it."""
    return many_segments(order, PN_XNUM - 1, PN_XNUM, PN_XNUM - 1)


# ---- files that take time or memory


def over_one_name(order: Order, count: int, length: int, is_tails: bool) -> bytes:
    """An object of so many symbols whose names are one name of this length, or its ends."""
    it = Elf(order)
    symbols = bytes(24)
    for k in range(count):
        place = 1 + (k % length if is_tails else 0)
        symbols += record(order, SYMBOL, st_name=place, st_info=GLOBAL + 1, st_shndx=0xFFF1)
    shape = {"sh_link": 2, "sh_info": 1, "sh_entsize": 24, "sh_addralign": 8}
    it.section(SYMTAB, symbols, b".symtab", **shape)
    it.section(STRTAB, b"\0" + b"n" * length + b"\0", b".strtab", sh_addralign=1)
    return it.file()


@made("hostile", "hostile")
def symbols_of_one_long_name(order: Order) -> bytes:
    """1,000 symbols of one name of 30,000 bytes: their names together have 30 MB."""
    return over_one_name(order, 1000, 30000, False)


@made("hostile", "hostile")
def symbols_of_the_ends_of_one_name(order: Order) -> bytes:
    """1,000 symbols whose names are the ends of one name of 30,000 bytes."""
    return over_one_name(order, 1000, 30000, True)


@made("hostile", "hostile")
def sections_of_one_long_name(order: Order) -> bytes:
    """1,000 sections of one name of 30,000 bytes."""
    table = b"\0" + b"n" * 30000 + b"\0"
    it = Elf(order, e_shstrndx=1)
    it.section(STRTAB, table, b"", sh_name=1, sh_addralign=1)
    for _ in range(1000):
        it.section(PROGBITS, b"", b"", sh_name=1, sh_addralign=1)
    return it.file()


@made("hostile", "hostile")
def many_notes(order: Order) -> bytes:
    """5,000 notes of 12 bytes."""
    it = Elf(order)
    it.section(NOTE, words(order, 0, 0, 1) * 5000, b".note", sh_addralign=4)
    return it.file()


@made("hostile", "hostile")
def sections_that_link_in_a_circle(order: Order) -> bytes:
    """2,000 sections of bytes, of which each links to the next, and the last to the first."""
    it = Elf(order)
    for k in range(2000):
        it.section(PROGBITS, b"", b".s", sh_link=1 + (k + 1) % 2000, sh_flags=0x82, sh_addralign=1)
    return it.file()


@made("huge", "4-elf-header", 1, True, 2**30 + 1)
def file_of_a_byte_more_than_2_to_30(order: Order) -> bytes:
    """A header, and zeros up to 2^30 + 1 bytes."""
    return Elf(order).file()


@made("huge", "4-elf-header", 1, False, 2**30)
def file_of_2_to_30_bytes(order: Order) -> bytes:
    """A header, and zeros up to 2^30 bytes."""
    return Elf(order).file()


def all_made() -> Iterator[tuple[str, Large, Order]]:
    """All of them, in both byte orders: the name, how it is made, and the order."""
    for name, it in MADE.items():
        for order in ("little", "big"):
            yield f"{name}-{'le' if order == 'little' else 'be'}", it, order  # type: ignore[misc]


def content_of(name: str) -> bytes:
    """The file of a name, without the zeros at its end."""
    own = MADE[name[:-3]]
    return own.make("big" if name.endswith("-be") else "little")


def put_made(name: str, path: str) -> None:
    """Writes the file of a name; zeros at its end take no place on the disk."""
    with open(path, "wb") as it:
        it.write(content_of(name))
        it.truncate(max(it.tell(), MADE[name[:-3]].length))
