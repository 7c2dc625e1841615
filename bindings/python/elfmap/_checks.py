"""The verdicts on a file: those of images, of tables, of objects, and of a link of the file alone.

Of a file that is longer than a few pages not all bytes are read. The rules of images look
at the header, at the two tables of headers, and at the first and the last byte of the
section name string table; those of tables and objects, and those of the link that need no
other file, also at the contents of sections that hold tables. The verdict does not depend
on any other byte.

So that memory is bounded by the largest table, and not by all of them, tables of many bytes
are checked some at a time: all other tables have another type meanwhile. A table's verdict
depends on those alone that it links to, and on index tables of its symbols.

Known deviations are put right in a copy, which is checked like the file (_deviations.py).
"""

from __future__ import annotations

import ctypes
import struct
from collections import Counter
from collections.abc import Iterator
from typing import NamedTuple, Optional

from elfmap import _declared, _library
from elfmap._deviations import (
    DEBUG_SEGMENTS,
    SEGMENT_PAST_END,
    Mending,
    Reading,
    Rows,
    debug_copy,
)
from elfmap._link_places import OF_SECTIONS
from elfmap._link_words import OF_ONE_FILE, field_of
from elfmap._sources import LONGEST, Room, Source, Unreadable
from elfmap._words import DYNSYM, SYMTAB, SYMTAB_SHNDX, Words
from elfmap.constants import SHT

# The types of sections that the rules of tables look into. A string table and an index table have
# no lines of their own.
_SHOWN_TYPES = {
    *(SHT.SYMTAB, SHT.RELA, SHT.HASH, SHT.DYNAMIC, SHT.NOTE, SHT.REL, SHT.DYNSYM, SHT.GROUP),
}
_TABLE_TYPES = _SHOWN_TYPES | {SHT.STRTAB, SHT.SYMTAB_SHNDX}
_PROGBITS = SHT.PROGBITS.value
# Tables of so many bytes are checked at once; a larger one by itself.
_MOST_AT_ONCE = 1 << 24
# How much room there is for each file. What is above the most is given back after one.
_LEAST_EXTENTS = 256
_MOST_EXTENTS = 1 << 16
_LEAST_VERDICTS = 256
_MOST_VERDICTS = 1 << 16
TOO_LONG_AS_OBJECT = 0


class Fault(NamedTuple):
    """A rule broken at an offset: of the table in a section, or of the file; or a rule of the link,
    with the index of its own section or symbol."""

    rule: int
    at: int
    table: Optional[int] = None
    is_of_link: bool = False
    reading: Optional[Reading] = None
    own: int = 0


class Table(NamedTuple):
    """A section: its index, and what its header says of its table."""

    section: int
    kind: int
    start: int
    size: int
    link: int


class Batch(NamedTuple):
    """Tables that are shown at once, with all that their rules look at, and those besides."""

    shown: list[Table]
    needed: list[Table]
    others: list[Table]
    sections: list[Table]


def batch_of(sections: list[Table]) -> Batch:
    """All tables of a file."""
    tables = [it for it in sections if it.kind in _TABLE_TYPES]
    return Batch([it for it in tables if it.kind in _SHOWN_TYPES], tables, [], sections)


def batches(whole: Batch, most: int) -> Iterator[Batch]:
    """All tables, in batches of so many bytes, or of as many as the largest one needs."""
    if sum(it.size for it in whole.shown) <= most:
        yield whole
        return
    needs = _Needs(whole)
    limit = max(most, *(it.size for it in whole.shown))
    shown: list[Table] = []
    size = 0
    for it in whole.shown:
        if shown and size + it.size > limit:
            yield needs.batch(shown)
            shown = []
            size = 0
        shown.append(it)
        size += it.size
    yield needs.batch(shown)


class _Needs:
    """What the rules of a table look at beside it."""

    def __init__(self, whole: Batch) -> None:
        self._whole = whole
        self._index_tables: dict[int, list[int]] = {}
        for it in whole.needed:
            if it.kind == SYMTAB_SHNDX:
                self._index_tables.setdefault(it.link, []).append(it.section)

    def batch(self, shown: list[Table]) -> Batch:
        """These tables, those that they link to and so on, and the index tables of symbols."""
        sections = self._whole.sections
        found = set[int]()
        waiting = [it.section for it in shown]
        while waiting:
            index = waiting.pop()
            if index < len(sections) and index not in found:
                found.add(index)
                waiting += [sections[index].link, *self._index_tables.get(index, ())]
        needed = [it for it in self._whole.needed if it.section in found]
        # A string table keeps its type: it may be that of section names.
        others = [it for it in self._whole.shown if it.section not in found]
        return Batch(shown, needed, others, sections)


class Checks:
    """Checks one file after another, in the same memory."""

    def __init__(
        self,
        tables: bool,
        objects: bool,
        is_strict: bool = True,
        debug_files: bool = False,
        are_named: bool = False,
    ) -> None:
        self._tables = tables
        self._objects = objects
        self._is_strict = is_strict
        self._debug_files = debug_files
        # Whether other files name all files as their debug files.
        self._are_named = are_named
        self._library = _library.library()
        self._room = Room()
        self._extents = (_declared.Extent * _LEAST_EXTENTS)()
        self._verdicts = (_declared.Fault * (_LEAST_VERDICTS if tables else 0))()
        # Whether the memory has other bytes than the file.
        self._is_changed = False
        # What known deviations the last file has, by their names.
        self.known = Counter[str]()

    def faults(self, source: Source) -> list[Fault]:
        """What the file breaks: of the image the first rule, or else of each table."""
        self.known = Counter()
        refused, judged = self._image_fault(source)
        if refused or not (self._tables or self._objects):
            return [refused] if refused else []
        whole = batch_of(self._sections(len(judged)))
        found = self._table_faults(judged, whole) if self._tables else []
        if not self._objects:
            return found
        # The commands for objects know no deviations.
        self._is_changed |= judged is not source
        size = len(source)
        self._read_batch(source, size, whole)
        fault = self._object_fault(size) or self._link_fault(size)
        if fault and fault not in (it._replace(table=None, reading=None) for it in found):
            found.append(fault)
        return found

    def parts(self, source: Source) -> tuple[list[_declared.Part], Optional[Fault]]:
        """What each byte of the file belongs to; or the rule of images that it breaks."""
        size = min(len(source), LONGEST)
        self._load(source, size)
        count = ctypes.c_uint64()
        fault = _declared.Fault()
        wanted = _LEAST_EXTENTS
        while True:
            room = (_declared.Part * wanted)()
            if self._library.elfmap_parts(self._room.address, size, room, wanted, count, fault):
                return room[: count.value], None
            if fault.rule != _declared.SHORT_ROOM:
                return [], Fault(fault.rule, fault.at)
            wanted = fault.at

    # ---- What is read

    def _load(self, source: Source, size: int) -> None:
        """Reads what the rules of images look at."""
        self._room.take(size)
        front = self._room.view[: min(size, Room.FRONT)]
        source.read_into(front, 0)
        if len(front) < size < LONGEST:
            self._read_headers(source, size)

    def _read(self, source: Source, size: int, start: int, length: int) -> None:
        """Reads a part of the file, as far as it lies in it and is not there already."""
        start, end = max(start, Room.FRONT), min(start + length, size)
        if start < end:
            source.read_into(self._room.view[start:end], start)

    def _read_headers(self, source: Source, size: int) -> None:
        header = _declared.Header()
        file = _declared.File()
        name_table = _declared.Section()
        bytes_ = self._room.address, size
        self._library.elfmap_header(*bytes_, header)
        if header.e_shoff:
            self._read(source, size, header.e_shoff, 64 * max(header.e_shnum, 1))
        if not self._library.elfmap_file(*bytes_, file):
            return
        if file.sections > header.e_shnum:
            self._read(source, size, file.e_shoff, 64 * file.sections)
        self._read(source, size, file.e_phoff, 56 * file.segments)
        if self._library.elfmap_section(file, *bytes_, file.name_table, name_table):
            for at in (name_table.sh_offset, name_table.sh_offset + name_table.sh_size - 1):
                self._read(source, size, at, 1)

    def _sections(self, size: int) -> list[Table]:
        """The section headers that the rules of tables look at."""
        rows = _library.section_headers(self._file(size), self._room.address, size)
        return [Table(index, it[1], *it[4:7]) for index, it in enumerate(rows)]

    def _file(self, size: int) -> _declared.File:
        file = _declared.File()
        self._library.elfmap_file(self._room.address, size, file)
        return file

    def _read_batch(self, source: Source, size: int, batch: Batch) -> None:
        """Reads the contents of tables, and gives all other tables another type."""
        if batch.others or self._is_changed:
            self._load(source, size)
        self._is_changed = bool(batch.others)
        file = self._file(size)
        word = struct.Struct(f"{_order(file)}I")
        for it in batch.others:
            word.pack_into(self._room.view, file.e_shoff + 64 * it.section + 4, _PROGBITS)
        for it in batch.needed:
            self._read(source, size, it.start, it.size)

    # ---- The verdicts

    def _image_fault(self, source: Source) -> tuple[Optional[Fault], Source]:
        """The rule of images that the file breaks, and what its tables are read from: the file, or
        a copy."""
        size = min(len(source), LONGEST)
        self._is_changed = False
        self._load(source, size)
        refused = self._image(size)
        is_known = self._debug_files and refused and refused.rule == SEGMENT_PAST_END
        copy = debug_copy(source, self._are_named) if is_known else None
        if not copy:
            return refused, source
        self._load(copy, len(copy))
        refused = self._image(len(copy))
        if refused:
            reading = Reading(copy, refused.at, (DEBUG_SEGMENTS,))
            return refused._replace(reading=reading), source
        self.known[DEBUG_SEGMENTS.name] += 1
        return None, copy

    def _image(self, size: int) -> Optional[Fault]:
        if len(self._extents) > _MOST_EXTENTS:
            self._extents = (_declared.Extent * _LEAST_EXTENTS)()
        fault = _declared.Fault()
        verdict = self._library.elfmap_verdict_in
        while not verdict(self._room.address, size, self._extents, len(self._extents), fault):
            if fault.rule != _declared.SHORT_ROOM:
                return Fault(fault.rule, fault.at)
            self._extents = (_declared.Extent * fault.at)()
        return None

    def _table_faults(self, source: Source, whole: Batch) -> list[Fault]:
        """The faults of tables, each once: the first table of those that share it."""
        groups: dict[tuple[int, int], list[int]] = {}
        readings: dict[int, Reading] = {}
        for batch in batches(whole, _MOST_AT_ONCE):
            self._read_batch(source, len(source), batch)
            rows = self._rows(len(source), batch)
            if rows and not self._is_strict:
                mending = self._mended(source, batch, rows)
                rows = mending.left()
                readings.update(mending.readings())
                self.known.update(mending.known())
            for section, fault in rows.items():
                groups.setdefault(fault, []).append(section)
        if not groups:
            return []
        words = Words(source)
        owners = [(rule, at, _owner(words, it)) for (rule, at), it in groups.items()]
        return [Fault(*it, reading=readings.get(it[2])) for it in owners]

    def _rows(self, size: int, batch: Batch) -> Rows:
        return {it: (rule, at) for it, rule, at in self._refused(size, batch)}

    def _mended(self, source: Source, batch: Batch, rows: Rows) -> Mending:
        """What is left of the rows once known deviations are put right, one after another."""
        mending = Mending(source, rows)
        while mending.mend():
            self._is_changed = True
            self._read_batch(mending.copy, len(mending.copy), batch)
            mending.judge(self._rows(len(mending.copy), batch))
            self._is_changed = True
        return mending

    def _refused(self, size: int, batch: Batch) -> Iterator[tuple[int, int, int]]:
        """The shown tables that break a rule: a section, the rule and the offset."""
        outcome = _declared.Outcome()
        if len(self._verdicts) > _MOST_VERDICTS:
            self._verdicts = (_declared.Fault * _LEAST_VERDICTS)()
        count = len(batch.sections)
        if count > len(self._verdicts):
            self._verdicts = (_declared.Fault * count)()
        room = self._verdicts, len(self._verdicts)
        call = self._library.elfmap_table_verdicts
        if call(self._room.address, size, 0, *room, outcome) != _declared.DONE:
            raise Unreadable("there is no memory for its tables")
        for it in batch.shown:
            fault = self._verdicts[it.section]
            if fault.rule:
                yield it.section, fault.rule, fault.at

    def _object_fault(self, size: int) -> Optional[Fault]:
        """Why the file is read as no object, by the verdict of `elfmap rewrite`."""
        outcome = _declared.Outcome()
        status = self._library.elfmap_object_verdict(self._room.address, size, outcome)
        if status == _declared.REFUSED:
            return Fault(outcome.rule, outcome.at)
        if status == _declared.TOO_LONG:
            return Fault(TOO_LONG_AS_OBJECT, 0)
        if status == _declared.NO_MEMORY:
            raise Unreadable("there is no memory for its tables")
        return None

    def _link_fault(self, size: int) -> Optional[Fault]:
        """Which rule of the link the object breaks by itself, by the verdict of `elfmap link`.

        The rules before these are kept by any one file with these options. Those after
        them depend on other files: a name that is undefined here may be defined there.
        """
        outcome = _declared.Outcome()
        file = (_declared.Bytes * 1)(_declared.Bytes(self._room.address, size))
        options = _declared.Options(0, 1, 0)
        entry = rules = _library.nowhere, 0
        status = self._library.elfmap_link_verdict(file, 1, options, *entry, *rules, outcome)
        if status == _declared.NO_MEMORY:
            raise Unreadable("there is no memory for its tables")
        if status != _declared.NOT_LINKED or outcome.rule not in OF_ONE_FILE:
            return None
        place = _declared.LinkPlace()
        site = outcome.rule, 0, outcome.index, outcome.at
        if self._library.elfmap_link_place(file, 1, *site, place) == _declared.NO_MEMORY:
            raise Unreadable("there is no memory for its tables")
        at = place.record.start + field_of(outcome.rule)
        own = place.section if outcome.rule in OF_SECTIONS else place.entry
        return Fault(outcome.rule, at, is_of_link=True, own=own)


def _order(file: _declared.File) -> str:
    return ">" if file.ei_data == 2 else "<"


def _owner(words: Words, tables: list[int]) -> int:
    """Of the tables with the same fault the one that has it: the symbol table, if any."""
    for it in tables:
        if words.section(it, "sh_type") in (SYMTAB, DYNSYM):
            return it
    return tables[0]
