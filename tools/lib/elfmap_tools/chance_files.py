"""Sound files by a source of chance, made by their fields and laid out by the reference
implementation. The same seed makes the same files."""

import random
from typing import Any

from .reference import (
    ABS,
    ALLOC,
    COMMON,
    DYNAMIC,
    DYNAMIC_SECTION,
    DYNSYM,
    GROUP,
    HASH,
    INFO_LINK,
    IN_GROUP,
    LOAD,
    NOBITS,
    NOTE,
    PROGBITS,
    PROGRAM_HEADER,
    REL,
    RELA,
    STRTAB,
    SYMBOL,
    SYMTAB_SHNDX,
    UNDEF,
    WRITE,
    edited,
    elf_hash,
    group,
    laid,
    number_words,
    object_of,
    record,
    relocations,
    section,
    symbol,
    text,
    with_index_table,
)

Chance = random.Random
SECTION_NAMES = (b".text", b".data", b".bss", b".text.f", b".rodata", b"", b"a b", b"#", b"-")
SYMBOL_NAMES = (b"main", b"callee", b"x", b"y", b"once", b"a", b"\xff")
ALIGNMENTS = (0, 1, 1, 2, 4, 8, 16, 64)
GLOBAL = 1
WEAK = 2


def plain_section(chance: Chance) -> Any:
    """A section of bytes or without."""
    align = chance.choice(ALIGNMENTS)
    is_without = chance.randrange(4) == 0
    size = chance.choice((0, 1, 4, 6, 8, 24, 33))
    name = chance.choice(SECTION_NAMES)
    flags = chance.choice((0, 2, 3, 6, 6, 0x30))
    addr = max(1, align) * chance.choice((0, 0, 1, 5))
    entsize = chance.choice((0, 0, 1, 8))
    info = chance.choice((0, 0, 7))
    body = size if is_without else bytes(chance.randrange(256) for _ in range(size))
    kind = NOBITS if is_without else PROGBITS
    made = section(name, kind, body, flags, align, entsize, None, info)
    made.addr = addr
    return made


def a_symbol(chance: Chance, binding: int, sections: list[int]) -> Any:
    """A symbol that may be in one of the sections of these positions."""
    kind = chance.randrange(6)
    place = chance.choice(sections) if sections and kind < 3 else None
    reserved = UNDEF if place is not None or kind != 3 else ABS
    if place is None and kind == 4 and binding == GLOBAL:
        reserved = COMMON
    value = chance.choice((1, 2, 8)) if reserved == COMMON else chance.choice((0, 0, 1, 4, 0x1000))
    name = chance.choice(SYMBOL_NAMES)
    info = 16 * binding + chance.choice((0, 0, 1, 2))
    other = chance.choice((0, 0, 2))
    return symbol(name, place, info, value, chance.choice((0, 1, 8)), reserved, other)


def add_relocations(chance: Chance, o: Any) -> None:
    """A section of relocations of one that has bytes."""
    targets: list[int] = []
    for position, it in enumerate(o.sections):
        if it.type not in (NOBITS, REL, RELA, GROUP) and len(it.body) >= 4:
            targets.append(position)
    if not targets or not o.symbols:
        return
    target = chance.choice(targets)
    kind = chance.choice((RELA, RELA, REL))
    entries: list[tuple[int, int, int, int]] = []
    at = 0
    while at + 4 <= len(o.sections[target].body) and len(entries) < 4:
        addend = chance.choice((0, 4, 2**64 - 4)) if kind == RELA else 0
        of_symbol = chance.randrange(len(o.symbols) + 1)
        entries.append((at, of_symbol, chance.choice((1, 2, 2, 3)), addend))
        at += chance.choice((4, 4, 8))
    name = b".rel" + o.sections[target].name
    entsize = 24 if kind == RELA else 16
    o.sections.append(section(name, kind, entries, 0, 8, entsize, info=target))


def add_group(chance: Chance, o: Any) -> None:
    """A group of plain sections that are in none, before all others, so that it comes before its
    members."""
    is_plain = [it.type not in (REL, RELA, GROUP) and not it.flags & IN_GROUP for it in o.sections]
    members = [p for p in range(len(o.sections)) if is_plain[p] and chance.randrange(2)]
    if not o.symbols:
        return
    for it in o.sections:
        it.info += it.type in (REL, RELA)
        if it.type == GROUP:
            it.body = it.body[0], [p + 1 for p in it.body[1]]
    for it in o.symbols:
        it.section = None if it.section is None else it.section + 1
    for p in members:
        o.sections[p].flags |= IN_GROUP
    signature = chance.randrange(len(o.symbols)) + 1
    o.sections.insert(0, group([p + 1 for p in members], signature, chance.choice((1, 1, 0))))


def an_object(chance: Chance, order: str | None = None) -> Any:
    """An object of a few sections and symbols."""
    order = order or chance.choice(("little", "big"))
    osabi = chance.choice((0, 0, 3))
    sections = [plain_section(chance) for _ in range(chance.randrange(5))]
    o = object_of(sections, [], order, osabi)
    places = list(range(len(o.sections)))
    count = chance.randrange(6)
    local = chance.randrange(count + 1)
    for k in range(count):
        binding = 0 if k < local else chance.choice((GLOBAL, GLOBAL, WEAK))
        o.symbols.append(a_symbol(chance, binding, places))
    if places and chance.randrange(4) == 0:
        it = o.sections[chance.choice(places)]
        it.flags |= INFO_LINK
        it.info = chance.choice(places)
    for _ in range(chance.randrange(3)):
        add_relocations(chance, o)
    # A group moves all positions, which what names them by its info can't follow.
    if not any(it.flags & INFO_LINK for it in o.sections):
        for _ in range(chance.choice((0, 0, 0, 1, 2))):
            add_group(chance, o)
    return o


def an_object_file(chance: Chance, order: str | None = None) -> bytes:
    """The file of an object, every fourth time with an index table, which its symbols don't
    need."""
    o = an_object(chance, order)
    return laid(o) if chance.randrange(4) else with_index_table(o)


def full_object() -> bytes:
    """The file of an object with a section of each kind: a group and its member, bytes, a section
    without bits, notes, relocations with addends and without, and an index table; and symbols that
    are local, global, weak, common and undefined."""
    symbols = [
        symbol(b"", 1, 3),
        symbol(b"local", 3, 1, 2, 4),
        symbol(b"f", 1, 0x22, 0, 6),
        symbol(b"main", 2, 0x12),
        symbol(b"common", None, 0x11, 8, 16, COMMON),
        symbol(b"zero", None, 0x20),
        symbol(b"nine", None, 0x10, 9, 0, ABS),
    ]
    sections = [
        group([1, 5], 3),
        text(b"\xe8\0\0\0\0\xc3", 0x206, b".text.f", 16),
        text(bytes(33), align=4),
        section(b".data", PROGBITS, bytes(range(24)), WRITE | ALLOC, 8),
        section(b".bss", NOBITS, 100, WRITE | ALLOC, 32),
        relocations([(1, 4, 2, 2**64 - 4)], 1, b".rela.text.f", IN_GROUP | INFO_LINK),
        section(b".rel.data", REL, [(0, 2, 1, 0), (8, 5, 1, 0)], INFO_LINK, 8, 16, info=3),
        section(b".note", NOTE, number_words("little", 4, 5, 1) + b"own\0" + bytes(8), ALLOC, 4),
    ]
    return with_index_table(object_of(sections, symbols))


def hash_content(order: str, names: list[bytes], bucket_count: int) -> bytes:
    """A hash table of these names, of which the first is symbol 0."""
    buckets = [0] * bucket_count
    chains = [0] * len(names)
    for k, name in list(enumerate(names))[1:]:
        bucket = elf_hash(name) % bucket_count
        buckets[bucket], chains[k] = k, buckets[bucket]
    return number_words(order, bucket_count, len(names), *buckets, *chains)


def note_content(chance: Chance, order: str) -> bytes:
    """A few notes."""
    content = b""
    for _ in range(chance.randrange(3)):
        name = chance.choice((b"", b"GNU\0", b"x\0"))
        descriptor = bytes(chance.randrange(10))
        content += number_words(order, len(name), len(descriptor), chance.randrange(4))
        content += name + bytes(-len(name) % 4) + descriptor + bytes(-len(descriptor) % 4)
    return content


def string_table(names: list[bytes]) -> tuple[bytes, list[int]]:
    """A string table of these names, of which the first is empty, and where each is in it."""
    strings = b"\0"
    places = [0]
    for name in names[1:]:
        places.append(len(strings))
        strings += name + b"\0"
    return strings, places


def add_tables(chance: Chance, o: Any) -> None:
    """Tables of what is loaded: dynamic symbols with their names, a hash table of them, a dynamic
    array, and notes."""
    names = [b"", *chance.sample(SYMBOL_NAMES, chance.randrange(4))]
    strings, places = string_table(names)
    symbols = bytes(24)
    for it in places[1:]:
        symbols += record(o.order, SYMBOL, st_name=it, st_info=0x12, st_value=16)
    dynamic = b""
    for tag, number in ((1, places[-1]), (5, 0x1000), (0, 0), (14, 99)):
        dynamic += record(o.order, DYNAMIC, d_tag=tag, d_un=number)
    first = len(o.sections)
    of_symbols = first + 1
    o.sections.append(section(b".dynstr", STRTAB, strings, ALLOC))
    o.sections.append(section(b".dynsym", DYNSYM, symbols, ALLOC, 1, 24, first, 1))
    if chance.randrange(2):
        indexes = bytes(4 * len(names))
        o.sections.append(section(b".dynsym_shndx", SYMTAB_SHNDX, indexes, ALLOC, 1, 4, of_symbols))
    hashes = hash_content(o.order, names, chance.choice((1, 2, 3)))
    o.sections.append(section(b".hash", HASH, hashes, ALLOC, 1, 4, of_symbols))
    o.sections.append(section(b".dynamic", DYNAMIC_SECTION, dynamic, ALLOC, 1, 16, first))
    o.sections.append(section(b".note", NOTE, note_content(chance, o.order), ALLOC))


def segments(chance: Chance, order: str, count: int, length: int) -> bytes:
    """So many program headers, of the beginning of a file of this length."""
    table = b""
    for k in range(count):
        size = chance.choice((0, 64, length))
        kind = chance.choice((LOAD, LOAD, 4))
        memory = size + chance.choice((0, 16))
        align = chance.choice((0, 1, 0x1000))
        place = {"p_flags": 5, "p_vaddr": 0x400000 + 0x10000 * k}
        sizes = {"p_filesz": size, "p_memsz": memory, "p_align": align}
        table += record(order, PROGRAM_HEADER, p_type=kind, **place, **sizes)
    return table


def a_file(chance: Chance, order: str | None = None) -> bytes:
    """An object, or a file of another type with segments."""
    o = an_object(chance, order)
    if chance.randrange(2):
        add_tables(chance, o)
    file = laid(o)
    if chance.randrange(2) == 0:
        return file
    count = chance.randrange(1, 4)
    table = segments(chance, o.order, count, len(file))
    header = [
        ("e_type", chance.choice((2, 3))),
        ("e_entry", 0x400040),
        ("e_phoff", len(file)),
        ("e_phentsize", 56),
        ("e_phnum", count),
    ]
    return edited(file, *header) + table
