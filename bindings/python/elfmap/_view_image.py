"""A file as the viewer sees it, sound or not: its records, its faults, and what is where."""

from __future__ import annotations

import bisect
import heapq
import itertools
from collections.abc import Iterator
from functools import cached_property
from typing import NamedTuple, Optional

import elfmap
from elfmap._archives import Content
from elfmap._kinds import TYPES, colour_of_flags, colour_of_type
from elfmap._view_faults import Faults, Marks
from elfmap._view_memory import Memory
from elfmap._view_records import Image
from elfmap._view_tables import Symbols, all_printable, strings_at
from elfmap._words import Words, printable
from elfmap.constants import PT, SHF, SHN, SHT, STT

# So many letters of a name are on a screen.
MOST_LETTERS = 200
_LEAST_SIZE = 64
_MAGIC = b"\x7fELF\2"
_HEADER_SIZE = 64
_SECTION_SIZE = 64
_SEGMENT_SIZE = 56
_GAP = "gap"
_LORESERVE = 0xFF00
_XINDEX = 0xFFFF
# Symbols that name no place: of files, and of sections, which have a name by themselves.
_NO_PLACES = (STT.FILE, STT.SECTION, STT.TLS)


class Extent(NamedTuple):
    """Bytes of a part of a file, or of a gap: from where to where, what it is called, of which
    section it is, and what it holds."""

    start: int
    end: int
    owner: str
    section: Optional[int]
    name: str
    holds: str
    kind: str

    @property
    def size(self) -> int:
        return self.end - self.start


class Symbol(NamedTuple):
    """A symbol and where it is: its table, and its position there."""

    table: int
    position: int
    it: elfmap.Symbol


class View:
    """A file that is looked at."""

    def __init__(self, content: Content) -> None:
        self.path = content.path
        self.data = Memory(content.source)
        self.faults = Faults(self.data)
        self.words = Words(self.data, MOST_LETTERS)
        self.image = Image(self.data)
        self.marks = Marks(self.words, self.faults)

    @property
    def size(self) -> int:
        return len(self.data)

    @property
    def has_header(self) -> bool:
        """Whether it has a header of class 64, whose fields are where they should be."""
        return len(self.data) >= _LEAST_SIZE and self.data[:5] == _MAGIC

    @property
    def machine(self) -> int:
        return self.words.machine

    # ---- Sections and segments

    @cached_property
    def sections(self) -> list[elfmap.Section]:
        """Those whose headers lie in the file, without their contents."""
        return self.image.records_of_sections() if self.has_header else []

    @cached_property
    def segments(self) -> list[elfmap.Segment]:
        """Those whose headers lie in the file, without their contents."""
        most = min(self.image.counts[1], len(self.data) // _SEGMENT_SIZE) if self.has_header else 0
        found = []
        for index in range(most):
            it = self.image.segment(index)
            if it is None:
                break
            found.append(it)
        return found

    @property
    def missing(self) -> tuple[int, int]:
        """How many section headers and program headers do not lie in the file."""
        if not self.has_header:
            return 0, 0
        counts = self.image.counts
        return counts[0] - len(self.sections), counts[1] - len(self.segments)

    def section_name(self, index: int) -> str:
        """The name of a section, or its index where it has none."""
        names = self._section_names
        return names[index] if 0 <= index < len(names) else f"section {index}"

    @cached_property
    def _section_names(self) -> list[str]:
        names = all_printable([it.name for it in self.sections], MOST_LETTERS)
        return [name or f"section {index}" for index, name in enumerate(names)]

    def section_of(self, word: str) -> Optional[int]:
        """The section of this name, or else of this index."""
        for index, it in enumerate(self.sections):
            if index and word in (printable(it.name), it.name.decode("utf-8", "surrogateescape")):
                return index
        is_index = word.isdecimal() and len(word) < 9 and int(word) < len(self.sections)
        return int(word) if is_index else None

    def tables(self, *kinds: int) -> list[int]:
        """The sections of these types."""
        return [index for index, it in enumerate(self.sections) if it.sh_type in kinds]

    # ---- Symbols

    def names_of(self, table: int, symbols: Symbols) -> list[bytes]:
        """The names of symbols of a table, or so much of each."""
        strings = self.image.strings_of(table)
        return strings_at(self.data.room, strings, symbols.st_name)

    def symbols(self, table: int) -> Iterator[Symbol]:
        """The symbols of a table that lie in the file."""
        for some in self.image.symbol_blocks(table):
            columns = some.st_value, some.st_size, some.st_name, some.section
            others = some.st_shndx, some.st_info, some.st_other
            rows = zip(self.names_of(table, some), *columns, *others)
            for position, row in enumerate(rows, some.first):
                yield Symbol(table, position, elfmap.Symbol._make(row))

    def is_in_section(self, it: elfmap.Symbol) -> bool:
        """Whether a symbol is defined in a section that is there."""
        return self.has_section(it.section, it.st_shndx)

    def has_section(self, section: int, st_shndx: int) -> bool:
        """The same, by the index of the section, and that in the symbol."""
        return 0 < section < len(self.sections) and not _is_reserved(st_shndx)

    def symbol(self, table: int, index: int) -> Optional[elfmap.Symbol]:
        return self.image.symbol(table, index)

    def symbol_name(self, it: elfmap.Symbol) -> str:
        """The name of a symbol; a symbol of a section may have that of its section."""
        if not it.name and it.symbol_type == STT.SECTION:
            return self.section_name(it.section)
        return printable(it.name, MOST_LETTERS)

    @cached_property
    def symbol_tables(self) -> list[int]:
        """The tables with all symbols, or else those of the dynamic ones."""
        return self.tables(SHT.SYMTAB) or self.tables(SHT.DYNSYM)

    def nearest(self, section: int, value: int) -> Optional[tuple[Symbol, int]]:
        """The last symbol of a section at or before a value, if it has the value or says no size;
        and how far the value is behind it."""
        best = -1, -1, -1
        for table in self.symbol_tables:
            for some in self.image.symbol_blocks(table):
                rows = zip(some.st_value, some.st_size, some.section)
                for position, (start, size, own) in enumerate(rows, some.first):
                    if start <= value and (value - start < size or not size) and own == section:
                        k = position - some.first
                        is_reserved = _is_reserved(some.st_shndx[k])
                        if not is_reserved and some.st_info[k] & 15 not in _NO_PLACES:
                            best = max(best, (start, table, position))
        start, table, position = best
        it = self.symbol(table, position) if start >= 0 else None
        return (Symbol(table, position, it), value - start) if it else None

    def largest_symbols(self, most: int) -> list[Symbol]:
        """The largest symbols that are in a section, and of equal ones the first; the largest
        first."""
        best: list[tuple[int, int, int]] = []
        least = 0
        for table in self.symbol_tables:
            for some in self.image.symbol_blocks(table):
                for k, size in enumerate(some.st_size):
                    if size > least and self.has_section(some.section[k], some.st_shndx[k]):
                        heapq.heappush(best, (size, -table, -some.first - k))
                        if len(best) > most:
                            heapq.heappop(best)
                            least = best[0][0]
        places = [(-table, -position) for _, table, position in sorted(best, reverse=True)]
        found = ((*place, self.symbol(*place)) for place in places)
        return [Symbol(table, position, it) for table, position, it in found if it]

    # ---- Parts

    def content_end(self, it: elfmap.Section) -> int:
        """Where the content of a section ends, also after the end of the file."""
        has_none = it.sh_type in (SHT.NULL, SHT.NOBITS)
        return it.sh_offset + (0 if has_none else it.sh_size)

    def holds(self, it: elfmap.Section) -> tuple[str, str]:
        """What a section holds, in words, and its kind."""
        if it.sh_type in TYPES:
            return TYPES[it.sh_type], colour_of_type(it.sh_type)
        kind = colour_of_flags(it.sh_flags)
        return kind, kind

    @cached_property
    def parts(self) -> list[Extent]:
        """The headers, and the contents that have a byte, in ascending order. In a file that is not
        sound they may overlap, or pass the end."""
        table = "header and tables"
        found = [Extent(0, min(_HEADER_SIZE, self.size), "header", None, "ELF header", "", table)]
        if not self.has_header:
            return found
        sections, segments = self.image.counts
        for name, start, size in (
            ("section headers", self.words.table, _SECTION_SIZE * sections),
            ("program headers", self.words.number(32, 8), _SEGMENT_SIZE * segments),
        ):
            if start and size:
                found.append(Extent(start, start + size, name, None, name, "", table))
        for index, it in enumerate(self.sections):
            end = self.content_end(it)
            if end > it.sh_offset:
                words, kind = self.holds(it)
                name = self.section_name(index)
                found.append(Extent(it.sh_offset, end, "section", index, name, words, kind))
        return sorted(found, key=lambda it: (it.start, it.end))

    @cached_property
    def with_gaps(self) -> list[Extent]:
        """These parts, and the bytes of the file that are in none of them."""
        found = []
        at = 0
        for it in self.parts:
            if it.start > at and at < self.size:
                found.append(self._gap(at, min(it.start, self.size)))
            found.append(it)
            at = max(at, it.end)
        if at < self.size:
            found.append(self._gap(at, self.size))
        return found

    def _gap(self, start: int, end: int) -> Extent:
        words = "zeros" if self.data.is_zeros(start, end) else "not only zeros"
        return Extent(start, end, _GAP, None, "", words, _GAP)

    @cached_property
    def lanes(self) -> list[list[Extent]]:
        """The parts side by side: each is in the first lane that is free where it begins."""
        found: list[list[Extent]] = []
        free: list[int] = []
        busy: list[tuple[int, int]] = []
        for it in self.parts:
            while busy and busy[0][0] <= it.start:
                heapq.heappush(free, heapq.heappop(busy)[1])
            if free:
                lane = heapq.heappop(free)
            else:
                lane = len(found)
                found.append([])
            found[lane].append(it)
            heapq.heappush(busy, (it.end, lane))
        return found

    # ---- Memory

    def loads(self) -> list[int]:
        """The loadable segments."""
        return [index for index, it in enumerate(self.segments) if it.p_type == PT.LOAD]

    @cached_property
    def _loaded(self) -> list[tuple[int, int]]:
        """The addresses of the sections that are loaded, and their indices."""
        every = enumerate(self.sections)
        return sorted((it.sh_addr, k) for k, it in every if it.sh_flags & SHF.ALLOC and it.sh_type)

    def sections_in(self, segment: elfmap.Segment, most: int) -> list[int]:
        """The sections that a segment has in memory, in their order: all, or one more than so
        many."""
        base = segment.p_vaddr
        size = segment.p_memsz
        first = bisect.bisect_left(self._loaded, (base, 0))
        found: list[int] = []
        for address, index in itertools.islice(self._loaded, first, None):
            if address > base + size or not size or len(found) > most:
                break
            it = self.sections[index]
            if address + it.sh_size <= base + size and _may_have(segment, it):
                found.append(index)
        return sorted(found)

    def section_at(self, address: int) -> Optional[int]:
        """The section that has an address in memory."""
        for index, it in enumerate(self.sections):
            if it.sh_flags & SHF.ALLOC and it.sh_addr <= address < it.sh_addr + it.sh_size:
                return index
        return None

    def offset_of(self, address: int) -> Optional[int]:
        """Where the byte of an address is in the file, by its loadable segments."""
        for index in self.loads():
            it = self.segments[index]
            if it.p_vaddr <= address < it.p_vaddr + it.p_filesz:
                return it.p_offset + address - it.p_vaddr
        return None


def _may_have(segment: elfmap.Segment, section: elfmap.Section) -> bool:
    """Whether a segment has a section at its addresses. A thread-local section without bytes takes
    no place in any other segment than that of type PT_TLS, which has no other sections."""
    is_local = bool(section.sh_flags & SHF.TLS)
    if segment.p_type == PT.TLS:
        return is_local
    return not is_local or section.sh_type != SHT.NOBITS


def _is_reserved(st_shndx: int) -> bool:
    """Whether it is the index of no section, as of an absolute symbol."""
    return _LORESERVE <= st_shndx < _XINDEX


def defined_words(view: View, it: elfmap.Symbol) -> str:
    """Where a symbol is defined, in a word or the name of a section."""
    return place_words(view, it.st_shndx, it.section)


_PLACES = {int(SHN.UNDEF): "undefined", int(SHN.ABS): "absolute", int(SHN.COMMON): "common"}


def place_words(view: View, st_shndx: int, section: int) -> str:
    """The same, by the index in the symbol, and that of its section."""
    if st_shndx in _PLACES:
        return _PLACES[st_shndx]
    return hex(st_shndx) if _is_reserved(st_shndx) else view.section_name(section)
