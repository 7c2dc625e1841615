"""The file of symbols and sections of a linked program, and its flat image.

The file is the program that the proved library writes, with the same bytes at the same
offsets, and after them what the program has not: the sections that are not loaded, symbols,
names, and section headers.
"""

from __future__ import annotations

from collections.abc import Iterator, Sequence
from typing import Optional

import elfmap
from elfmap._debug_relocations import Program, relocated
from elfmap._debug_sections import EXCLUDE, DebugSection, debug_inputs, laid_out
from elfmap._elf_file import (
    ABSOLUTE,
    HEADER_SIZE,
    Row,
    Symbol,
    is_big_endian,
    symbol_rows,
    with_sections,
)
from elfmap._map_lines import LinkMap, Output
from elfmap._link_values import Names, Object, Site, Values
from elfmap._rule_files import read_rules
from elfmap.constants import LONGEST_FILE, SHF, SHN, SHT, STB, STT

_COMMONS = b"COMMON"
# The types that an output section has if all of its members have them.
_KEPT_TYPES = (SHT.NOTE, SHT.INIT_ARRAY, SHT.FINI_ARRAY, SHT.PREINIT_ARRAY)
# What a flag says of an input section alone.
_DROPPED_FLAGS = SHF.INFO_LINK | SHF.LINK_ORDER | SHF.GROUP | SHF.COMPRESSED | EXCLUDE
_STRING_FLAGS = SHF.MERGE | SHF.STRINGS
# Zeros are written so many at a time.
_STEP = 1 << 20


class Link:
    """A link of objects by the proved library: the executable, the link map, and the objects.

    Raises what `elfmap.link` does, and LongNames.
    """

    def __init__(
        self, contents: Sequence[bytes], rules: bytes, *, base: int, page: int, entry: bytes
    ) -> None:
        self.program = elfmap.link(contents, rules, base=base, page=page, entry=entry)
        names = Names()
        self.objects = [Object(it, names) for it in contents]
        # All names are in its lines.
        self.map = LinkMap(elfmap.map(contents, base=base, page=page))
        self.rules = rules
        self.is_big = is_big_endian(elfmap.parse(self.program).header.e_ident)


def flat_image(program: bytes) -> Iterator[bytes]:
    """The bytes that a program loads from its file, from the lowest address on, with zeros between
    them.

    Raises TooLong if they are more than 2^30.
    """
    loaded = [it for it in elfmap.parse(program).segments if it.p_filesz]
    ends = [it.p_vaddr + it.p_filesz for it in loaded]
    start = loaded[0].p_vaddr if loaded else 0
    if loaded and ends[-1] - start > LONGEST_FILE:
        raise elfmap.TooLong()
    return _pieces([(it.p_vaddr - start, it.content or b"") for it in loaded])


def _pieces(placed: Sequence[tuple[int, bytes]]) -> Iterator[bytes]:
    at = 0
    for start, content in placed:
        for zeros in range(at, start, _STEP):
            yield bytes(min(_STEP, start - zeros))
        yield content
        at = start + len(content)


def symbol_file(link: Link, with_debug: bool = True) -> bytes:
    """The file of symbols and sections of a link; without those that are not loaded if it is asked
    for.

    Raises TooLong if it is longer than 2^30 bytes; NotRead or NotRelocated if a section that is
    not loaded can't be read or relocated.
    """
    rows = _loaded_rows(link)
    values = Values(link.objects, link.map)
    for index, output in enumerate(link.map.outputs, 1):
        for it in output.members:
            values.sites[it.file, it.section] = Site(index, it.address)
    if with_debug:
        rows += _debug_rows(link, values, len(rows) + 1)
    symbols = [*_locals(link, values), *_globals(link, values)]
    rows += symbol_rows(symbols, len(rows) + 1, link.is_big)
    return _accepted(link, rows)


def _accepted(link: Link, rows: list[Row]) -> bytes:
    """The file with these sections. Notes that break a rule when they are joined are bytes."""
    data = with_sections(link.program, rows, link.is_big)
    if len(data) > LONGEST_FILE:
        raise elfmap.TooLong()
    refused = [section for section, *_ in elfmap.refused_tables(data)]
    refused = [it for it in refused if rows[it - 1].kind == SHT.NOTE]
    if refused:
        plain = {it - 1: rows[it - 1]._replace(kind=SHT.PROGBITS) for it in refused}
        every = [plain.get(at, it) for at, it in enumerate(rows)]
        data = with_sections(link.program, every, link.is_big)
    return bytes(data)


# ---- Sections


def _loaded_rows(link: Link) -> list[Row]:
    """The sections of the program that are loaded, and that of the commons."""
    segments = iter(elfmap.parse(link.program).segments)
    rows = []
    end = HEADER_SIZE
    for output in link.map.outputs:
        segment = next(segments) if output.length else None
        if segment and output.has_bits:
            end = segment.p_offset
        rows.append(_loaded_row(link, output, end))
        end += output.length if output.has_bits else 0
    if link.map.commons:
        rows.append(_commons_row(link, end))
    return rows


def _loaded_row(link: Link, output: Output, offset: int) -> Row:
    """A section of the program, whose bytes are in the file at an offset."""
    members = [
        link.objects[it.file].sections[link.objects[it.file].kept[it.section]]
        for it in output.members
    ]
    sizes = {it.sh_entsize for it in members}
    entsize = sizes.pop() if len(sizes) == 1 else 0
    dropped = _DROPPED_FLAGS if entsize else _DROPPED_FLAGS | _STRING_FLAGS
    types = {it.sh_type for it in members}
    kind = types.pop() if len(types) == 1 else int(SHT.PROGBITS)
    if not output.has_bits:
        kind = SHT.NOBITS
    elif kind not in _KEPT_TYPES:
        kind = SHT.PROGBITS
    return Row(
        output.name,
        kind,
        flags=output.flags & ~dropped,
        address=output.address,
        offset=offset,
        size=output.length,
        align=max(it.sh_addralign or 1 for it in members),
        entsize=entsize,
    )


def _commons_row(link: Link, offset: int) -> Row:
    first = link.map.commons[0]
    last = link.map.commons[-1]
    names = {it.name for it in link.map.commons}
    aligns = [
        symbol.st_value
        for it in link.objects
        for symbol in it.symbols
        if symbol.st_shndx == SHN.COMMON and symbol.name in names
    ]
    return Row(
        _COMMONS,
        SHT.NOBITS,
        flags=SHF.WRITE | SHF.ALLOC,
        address=first.address,
        offset=offset,
        size=last.address + last.size - first.address,
        align=max(aligns),
    )


def _debug_rows(link: Link, values: Values, first: int) -> list[Row]:
    """The sections that are not loaded, of which the first one gets an index; they become sites."""
    discarded = link.map.discarded
    sections = laid_out(link.objects, debug_inputs(link.objects, discarded))
    for index, section in enumerate(sections, first):
        for member in section.members:
            it = member.input
            position = link.objects[it.file].positions[it.section]
            values.sites[it.file, position] = Site(index, member.offset)
    rules = read_rules(link.rules.decode("ascii"))
    program = Program(values, link.rules, rules, discarded)
    contents = relocated(link.objects, sections, program)
    return [_debug_row(it, content) for it, content in zip(sections, contents)]


def _debug_row(it: DebugSection, content: bytearray) -> Row:
    fields = dict(flags=it.flags, align=it.align, entsize=it.entsize)
    return Row(it.name, SHT.PROGBITS, content, **fields)


# ---- Symbols


def _locals(link: Link, values: Values) -> Iterator[Symbol]:
    """The local symbols of all objects, as ld writes them: with the names of source files, and
    without those of sections."""
    for file, own in enumerate(link.objects):
        for it in own.symbols[1:]:
            if it.binding != STB.LOCAL or it.symbol_type == STT.SECTION:
                continue
            if it.symbol_type == STT.FILE:
                yield Symbol(it.name, it.st_info, ABSOLUTE, 0, other=it.st_other)
                continue
            site = values.site(file, it)
            if site and not _is_temporary(own, it):
                yield _defined(it, site, site.address)


def _is_temporary(own: Object, it: elfmap.Symbol) -> bool:
    """Whether ld drops a local symbol: a label that the compiler made for a string."""
    section: Optional[elfmap.Section] = None
    if it.st_shndx != SHN.ABS:
        section = own.sections[it.section]
    return it.name.startswith(b".L") and section is not None and bool(section.sh_flags & SHF.MERGE)


def _globals(link: Link, values: Values) -> Iterator[Symbol]:
    """A symbol for each name that is not local; as in ld's files, one without definition has
    none."""
    commons = {it.name: it.size for it in link.map.commons}
    for name, bound in link.map.names.items():
        file, it = values.definition(name)
        if name in commons and bound.value is not None:
            section = len(link.map.outputs) + 1
            info = STB.GLOBAL << 4 | STT.OBJECT
            yield Symbol(name, info, section, bound.value, commons[name], it.st_other)
        else:
            site = values.site(file, it)
            if site:
                yield _defined(it, site, site.address if bound.value is None else bound.value)


def _defined(it: elfmap.Symbol, site: Site, value: int) -> Symbol:
    return Symbol(it.name, it.st_info, site.section, value, it.st_size, it.st_other)
