"""Files with a few fields changed, by a source of chance, so that the same seed makes the same
files."""

import re
from collections.abc import Iterator
from typing import Any

from .chance_files import Chance
from .reference import (
    DYNAMIC,
    DYNAMIC_SECTION,
    DYNSYM,
    ENTRY_SIZE,
    GROUP,
    HASH,
    NOTE,
    REL,
    RELA,
    RELOCATION,
    STRTAB,
    SYMBOL,
    SYMTAB,
    SYMTAB_SHNDX,
    File,
)
from .tree import read_text

# Places of the file header, by their widths, and of the headers of sections and segments.
HEADER_PLACES = [(at, 2) for at in (16, 18, 52, 54, 56, 58, 60, 62)]
HEADER_PLACES += [(20, 4), (24, 8), (32, 8), (40, 8)]
SECTION_PLACES = [(at, 4) for at in (0, 4, 40, 44)]
SECTION_PLACES += [(at, 8) for at in (8, 16, 24, 32, 48, 56)]
SEGMENT_PLACES = [(at, 4) for at in (0, 4)]
SEGMENT_PLACES += [(at, 8) for at in range(8, 56, 8)]
# Numbers at borders.
BORDERS = [0, 1, 2, 3, 8, 24, 64, 0xFF00, 0xFFFE, 0xFFFF]


def content_places(header: Any) -> Iterator[tuple[int, int]]:
    """The places at the beginning of the content of a section, of each width."""
    for width in (1, 2, 4, 8):
        for at in range(0, min(header.sh_size, 192), width):
            yield header.sh_offset + at, width


def fields(f: Any, types: tuple[int, ...]) -> list[tuple[int, int]]:
    """The places of fields: of all headers, and at the beginnings of contents; or of the contents
    of sections of some types alone."""
    places = HEADER_PLACES[:]
    wanted: list[tuple[int, int]] = []
    for _, it in f.sections():
        places += [(it.offset + at, width) for at, width in SECTION_PLACES]
        content = list(content_places(it))
        places += content
        if it.sh_type in types:
            wanted += content
    for it in f.segments():
        places += [(it.offset + at, width) for at, width in SEGMENT_PLACES]
    return [(at, size) for at, size in wanted or places if at + size <= f.len]


def value(chance: Chance, size: int, length: int, old: int) -> int:
    """A number that stands at a border, or near to the old one or to the file's length."""
    most = 256**size
    near = [*BORDERS, most // 2, most - 1]
    near += [old + 1, old - 1, old + 8, old * 2]
    near += [length, length - 1]
    near += [chance.randrange(most), chance.randrange(length)]
    return int(chance.choice(near) % most)


def fuzzed(file: bytes, chance: Chance, types: tuple[int, ...] = ()) -> bytes:
    """A file with one to eight changes; in the contents of sections of some types alone, where
    types are given."""
    f = File(file)
    new = bytearray(file)
    places = fields(f, types)
    for _ in range(chance.choice((1, 1, 1, 2, 3, 8))):
        kind = 0 if types else chance.randrange(10)
        if kind < 7:
            at, size = chance.choice(places)
            if at + size <= len(new):
                old = int.from_bytes(new[at : at + size], f.order)
                new[at : at + size] = value(chance, size, len(new), old).to_bytes(size, f.order)
        elif kind == 7 and new:
            new[chance.randrange(len(new))] = chance.randrange(256)
        elif kind == 8:
            del new[chance.randrange(len(new) + 1) :]
        elif new:
            size = chance.randrange(1, 65)
            start = chance.randrange(len(new))
            to = chance.randrange(len(new))
            new[to : to + size] = new[start : start + size]
    return bytes(new)


# ---- fields of which a rule speaks

# A field of a file: its name, its offset and its width.
Field = tuple[str, int, int]
IDENTIFICATION = {
    "magic 0": (0, 1),
    "magic 3": (3, 1),
    "class": (4, 1),
    "data": (5, 1),
    "version": (6, 1),
}
ENTRIES = {
    SYMTAB: SYMBOL,
    DYNSYM: SYMBOL,
    RELA: RELOCATION,
    REL: RELOCATION,
    DYNAMIC_SECTION: DYNAMIC,
}
WORDS = {GROUP: "group word", HASH: "hash word", SYMTAB_SHNDX: "index word", NOTE: "note word"}
# The fields that a rule speaks of, by its number, and the one value that breaks it, where there is
# one.
SPOKEN_OF: dict[int, str] = {}
for rule, spoken in re.findall(r"^(\d+): (.*)", read_text("cases/rules.fields"), re.M):
    SPOKEN_OF[int(rule)] = spoken


def record_fields(it: Any, before: str = "") -> list[Field]:
    """The fields of a record, with these words before their names."""
    return [(before + name, it.offset + at, width) for name, (at, width) in it.layout.items()]


def entry_fields(f: Any, i: int) -> Iterator[Field]:
    """The fields of the entries of a table."""
    kind = f.section(i).sh_type
    for entry in f.entries(i, ENTRIES[kind], ENTRY_SIZE[kind]):
        for it in record_fields(entry):
            if kind != REL or it[0] != "r_addend":
                yield it


def content_fields(f: Any, i: int) -> list[Field]:
    """The fields of the content of a section."""
    it = f.section(i)
    if it.sh_type in ENTRIES:
        return list(entry_fields(f, i))
    begin = it.sh_offset
    end = it.sh_offset + it.sh_size
    found: list[Field] = []
    if it.sh_type in WORDS:
        found += [(WORDS[it.sh_type], at, 4) for at, _ in f.words(i)]
    if it.sh_type == NOTE:
        found += [("note byte", at, 1) for at in range(begin, end)]
    if it.sh_type == STRTAB and end > begin:
        found += [("string end", begin, 1), ("string end", end - 1, 1)]
    return found


def all_fields(f: Any) -> list[Field]:
    """The fields of a file."""
    found = [(name, at, width) for name, (at, width) in IDENTIFICATION.items()]
    found += record_fields(f.header)
    for i, it in f.sections():
        found += record_fields(it, "0 " if i == 0 else "")
        found += content_fields(f, i)
    for it in f.segments():
        found += record_fields(it)
    return found


def changed_field(chance: Chance, file: bytes, of_rule: int) -> bytes | None:
    """A sound file with one field changed of which a rule speaks: to a number at a border, to that
    of another field of its name, or to a small one; None where the file has no such field."""
    names, _, fixed = SPOKEN_OF[of_rule].partition("=")
    f: Any = File(file)
    found = [it for it in all_fields(f) if it[0] in names.split(", ")]
    if not found:
        return None
    name, at, width = chance.choice(found)
    _, other, _ = chance.choice([it for it in found if it[0] == name])
    if fixed:
        new = int(fixed)
    else:
        old = int.from_bytes(file[at : at + width], f.order)
        another = int.from_bytes(file[other : other + width], f.order)
        new = chance.choice((value(chance, width, len(file), old), another, chance.randrange(20)))
    return file[:at] + new.to_bytes(width, f.order) + file[at + width :]
