"""The records of any bytes, as far as they lie in them: no file is refused here."""

from __future__ import annotations

import array
import ctypes
import struct
from collections.abc import Iterator
from typing import Any, Optional

import elfmap
from elfmap import _columns, _declared, _library
from elfmap._view_memory import Memory
from elfmap._view_tables import AT_ONCE, Relocations, Room, Strings, Symbols, string_at
from elfmap.constants import EI_DATA, SHN, SHT

_SECTION = struct.Struct("=2I4Q2I2Q")
_SECTION_SIZE = 64
_SYMBOLS = (SHT.SYMTAB, SHT.DYNSYM)
_RELOCATIONS = (SHT.RELA, SHT.REL)
_ALL_TABLES = (
    *(SHT.SYMTAB, SHT.DYNSYM, SHT.RELA, SHT.REL, SHT.DYNAMIC),
    *(SHT.NOTE, SHT.GROUP, SHT.SYMTAB_SHNDX, SHT.HASH),
)
_WORDS = (SHT.GROUP, SHT.SYMTAB_SHNDX, SHT.HASH)
_WORD_SIZE = 4
# No entry of a table of these kinds is shorter.
_SYMBOL_SIZE = 24
_SHORTEST_ENTRY = 16
# Tags whose value is the offset of a string: NEEDED, SONAME, RPATH and RUNPATH.
_WITH_STRING = (1, 14, 15, 29)


class Image(elfmap.File):
    """The records of any bytes, as far as they lie in them: no file is refused."""

    def __init__(self, memory: Memory) -> None:
        self._memory = memory
        # Of each section that was asked for the table in it, and where its strings are.
        self._known: dict[int, Optional[_declared.Table]] = {}
        self._strings: dict[int, Strings] = {}
        super().__init__(memory.view)

    def _validate(self) -> None:
        """The faults of a file are found by themselves."""

    def _filled(self, kind: type, name: str, index: Optional[int] = None) -> Any:
        """The struct that a call fills in. Where the file has not what it says, it is one of zeros,
        or of what the header alone says."""
        try:
            return super()._filled(kind, name, index)
        except RuntimeError:
            if index is not None:
                raise
        return self._of_header() if kind is _declared.File else kind()

    def _of_header(self) -> _declared.File:
        """What the header says of the two tables, where section header 0 does not lie in the
        file."""
        it = self._filled(_declared.Header, "elfmap_header")
        own = _declared.File(e_phoff=it.e_phoff, e_shoff=it.e_shoff, ei_data=it.e_ident[EI_DATA])
        own.sections = it.e_shnum
        own.name_table = it.e_shstrndx
        # Section header 0 would have a count that does not fit.
        own.segments = 0 if it.e_phnum == SHN.XINDEX else it.e_phnum
        return own

    @property
    def counts(self) -> tuple[int, int]:
        """How many section headers and program headers there should be."""
        return self._numbers.sections, self._numbers.segments

    # ---- Sections and segments

    def records_of_sections(self) -> list[elfmap.Section]:
        """The sections whose headers lie in the file, each with so much of its name."""
        count = min(self._numbers.sections, len(self._memory) // _SECTION_SIZE)
        room = bytearray(_SECTION_SIZE * count)
        structs = (_declared.Section * count).from_buffer(room) if count else ()
        there = self._count("elfmap_sections", 0, structs, count, of=self._numbers) if count else 0
        rows = list(_SECTION.iter_unpack(memoryview(room)[: _SECTION_SIZE * there]))
        names = self._names_among(rows)
        found = []
        for row in rows:
            name = string_at(self._memory.room, names, row[0]) if row[1] else b""
            found.append(elfmap.Section._make((*row, name, None)))
        return found

    def _names_among(self, rows: list[tuple[int, ...]]) -> Strings:
        """Where the names of sections are; nowhere if the file has none."""
        index = self._numbers.name_table
        if not 0 < index < len(rows) or rows[index][1] in (SHT.NULL, SHT.NOBITS):
            return Strings(0, 0)
        start, size = rows[index][4:6]
        self._memory.need(start, start + size)
        return Strings(start, start + size)

    def segment(self, index: int) -> Optional[elfmap.Segment]:
        """A segment whose header lies in the file."""
        it = _declared.Segment()
        if not self._call("elfmap_segment", index, it, of=(self._numbers,)):
            return None
        return elfmap.Segment._make([*elfmap._values(it), None])

    # ---- Tables

    def _table(self, section: int, types: tuple[int, ...]) -> Optional[_declared.Table]:
        """The table in a section of one of these types. To find one takes a pass over all section
        headers."""
        if section not in self._known:
            self._known[section] = super()._table(section, _ALL_TABLES)
        found = self._known[section]
        return found if found and found.sh_type in types else None

    def _count(self, name: str, first: int, structs: Any, count: int, of: Any) -> int:
        """How many structs a call fills in."""
        call = getattr(_library.library(), name)
        found: int = call(of, self._address, len(self._view), first, structs, count)
        return found

    def symbol_count(self, section: int) -> int:
        table = self._table(section, _SYMBOLS)
        return int(table.entries) if table else 0

    def strings_of(self, section: int) -> Strings:
        """Where the strings of the table in a section are."""
        if section not in self._strings:
            table = self._table(section, _ALL_TABLES)
            place = table.strings if table else _declared.Extent()
            self._memory.need(place.start, place.start + place.len)
            self._strings[section] = Strings(place.start, place.start + place.len)
        return self._strings[section]

    def symbol_blocks(self, section: int) -> Iterator[Symbols]:
        """The symbols of a table that lie in the file, many at a time."""
        table = self._table(section, _SYMBOLS)
        if not table:
            return
        # Names are read where they are shown: a symbol may have a very long one.
        own = _declared.Table.from_buffer_copy(table)
        own.strings.len = 0
        room = Room(_declared.Symbol)
        first = 0
        end = min(table.entries, len(self._memory) // _SYMBOL_SIZE)
        while first < end:
            wanted = min(end - first, AT_ONCE)
            count = self._count("elfmap_symbols", first, room.structs, wanted, own)
            if count:
                columns = (room.column(it, count) for it in Symbols._fields[1:])
                yield Symbols(first, *columns)
            # After a symbol whose section is not in the file, which ends the call, others follow.
            first += count + (count < wanted)

    def symbol(self, section: int, index: int) -> Optional[elfmap.Symbol]:
        """A symbol, with so much of its name; None where it does not lie in the file."""
        table = self._table(section, _SYMBOLS)
        if not table:
            return None
        own = _declared.Table.from_buffer_copy(table)
        own.strings.len = 0
        it = _declared.Symbol()
        if not self._call("elfmap_symbol", index, it, of=(own,)):
            return None
        strings = self.strings_of(section)
        name = string_at(self._memory.room, strings, it.st_name)
        return elfmap.Symbol(name, *elfmap._values(it)[1:])

    def relocation_count(self, section: int) -> int:
        table = self._table(section, _RELOCATIONS)
        return int(table.entries) if table else 0

    def relocation_blocks(self, section: int) -> Iterator[Relocations]:
        """The relocations of a table that lie in the file, many at a time."""
        table = self._table(section, _RELOCATIONS)
        room = Room(_declared.Relocation)
        end = min(table.entries, len(self._memory) // _SHORTEST_ENTRY) if table else 0
        for first in range(0, end, AT_ONCE):
            wanted = min(end - first, AT_ONCE)
            count = self._count("elfmap_relocations", first, room.structs, wanted, table)
            if not count:
                break
            columns = (room.column(it, count) for it in Relocations._fields[1:])
            yield Relocations(first, *columns)

    def words(self, section: int) -> _columns.Column:
        """The words of a group, an index table or a hash table that lie in the file."""
        table = self._table(section, _WORDS)
        count = min(table.entries, len(self._memory) // _WORD_SIZE) if table else 0
        found = array.array("I", bytes(_WORD_SIZE * count))
        there = self._count("elfmap_words", 0, found.buffer_info()[0], count, table) if count else 0
        return found[:there]

    def entries_of_dynamic(self, section: int) -> Iterator[elfmap.Dynamic]:
        """The entries of a dynamic array before the first DT_NULL, with the strings of those that
        have one."""
        table = self._table(section, (SHT.DYNAMIC,))
        strings = self.strings_of(section)
        room = Room(_declared.Dynamic)
        end = min(table.entries, len(self._memory) // _SHORTEST_ENTRY) if table else 0
        for first in range(0, end, AT_ONCE):
            wanted = min(end - first, AT_ONCE)
            count = self._count("elfmap_dynamics", first, room.structs, wanted, table)
            for tag, value in zip(room.column("d_tag", count), room.column("d_un", count)):
                has_string = tag in _WITH_STRING
                string = string_at(self._memory.room, strings, value) if has_string else b""
                yield elfmap.Dynamic(tag, value, string)
