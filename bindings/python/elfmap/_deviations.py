"""Known deviations: what real toolchains write against the rules, because the supplement of a
processor or long practice allows it.

What deviates is put right in a copy in memory, and the proved checker judges the copy. So the
deviation is known if, and only if, the file is accepted once that is put right: all other rules
are tested too. Each deviation is a function that puts one table right, or says that its
condition does not hold. docs/MANUAL.md has the conditions in words.
"""

from __future__ import annotations

import array
import struct
import sys
from bisect import bisect_right, insort
from collections.abc import Callable, Iterator, Sequence
from typing import NamedTuple, Optional

from elfmap._columns import Column
from elfmap._sources import LONGEST, Source
from elfmap._words import (
    ENTRY_SIZES,
    HASH,
    NOBITS,
    NOTE_SECTION,
    NULL,
    REL,
    RELA,
    SECTION,
    SEGMENT,
    STRTAB,
    SYMTAB,
    Told,
    Words,
    explain,
)
from elfmap.constants import EM, SHF, STB

SEGMENT_PAST_END = 25
_WRONG_ENTRY_SIZE = 42
_WRONG_LINK = 44
_WRONG_RELOCATION_SYMBOL = 54
_OF_NOTES = (59, 60, 61, 62)
_SYMBOL_OFF_CHAIN = 69
_EXECUTABLES = (2, 3)
_MIPS = EM.MIPS.value
_S390 = 22
_SPARC_V9 = 43
_ALPHA = 0x9026
_LOCAL = STB.LOCAL.value
# STT_SPARC_REGISTER: a symbol for a global register, which no chain needs.
_SPARC_REGISTER = 13
_ALLOC = SHF.ALLOC.value
_EXECINSTR = SHF.EXECINSTR.value
# Where the bytes of `r_info` are in a little-endian file for MIPS: in the order of the generic ABI
# the type, its further types, the special symbol, and then the symbol.
_MIPS_ORDER = (7, 6, 5, 4, 0, 1, 2, 3)
# A larger table is not put right, nor one for whose file more bytes of names are hashed: it is
# reported.
_MOST_BYTES = 1 << 26
_MOST_HASHED = 1 << 20
# No more section headers are counted in the header of the file.
_RESERVED_COUNT = 0xFF00


class Header(NamedTuple):
    """A section header."""

    sh_name: int
    sh_type: int
    sh_flags: int
    sh_addr: int
    sh_offset: int
    sh_size: int
    sh_link: int
    sh_info: int
    sh_addralign: int
    sh_entsize: int


_HEADER = "2I4Q2I2Q"


class Mended(Source):
    """A copy of a file in which some bytes are put right, and which may be longer. Only those bytes
    are held; all others are read from the file."""

    def __init__(self, source: Source) -> None:
        super().__init__(source.handle, source.start, len(source))
        self._source = source
        self._length = len(source)
        # Bytes that are put right, by where they begin. None of them overlap.
        self._pieces: dict[int, bytearray] = {}
        self._starts: list[int] = []
        # Of a table whose bytes have moved: from where in the copy to where in the file.
        self._places: dict[int, Callable[[int], int]] = {}
        self._no_symbols = 0
        self._shown: Optional[_MendedWords] = None
        # By a string table and an offset in it.
        self._hashes: dict[tuple[int, int], int] = {}
        self._left_to_hash = _MOST_HASHED
        self.words = Words(self)
        self.table = self.words.table
        self.count = self.words.count

    # ---- Its bytes

    def __getitem__(self, place: slice) -> bytes:
        start, end, _ = place.indices(self._size)
        found = self._source[start : min(end, self._length)]
        if end <= self._length and next(self._pieces_in(start, end), None) is None:
            return found
        content = bytearray(found.ljust(max(end - start, 0), b"\0"))
        self._put(memoryview(content), start)
        return bytes(content)

    def read_into(self, room: memoryview, at: int) -> None:
        count = min(max(self._length - at, 0), len(room))
        self._source.read_into(room[:count], at)
        room[count:] = bytes(len(room) - count)
        self._put(room, at)

    def _pieces_in(self, start: int, end: int) -> Iterator[tuple[int, bytearray]]:
        """Those that have bytes from here to there."""
        index = max(bisect_right(self._starts, start) - 1, 0)
        while index < len(self._starts) and self._starts[index] < end:
            first = self._starts[index]
            if first + len(self._pieces[first]) > start:
                yield first, self._pieces[first]
            index += 1

    def _put(self, room: memoryview, at: int) -> None:
        end = at + len(room)
        for first, piece in self._pieces_in(at, end):
            own = slice(max(at - first, 0), min(end - first, len(piece)))
            room[first + own.start - at : first + own.stop - at] = piece[own]

    def write(self, at: int, content: bytes) -> None:
        """Puts bytes in place of those that are there: within such a piece, or beside all."""
        if not content:
            return
        for first, piece in self._pieces_in(at, at + len(content)):
            piece[at - first : at - first + len(content)] = content
            return
        insort(self._starts, at)
        self._pieces[at] = bytearray(content)
        self._size = max(self._size, at + len(content))

    def extend(self, size: int) -> None:
        """Makes it longer, by zeros."""
        self._size = max(self._size, size)

    # ---- Its sections

    def section(self, index: int) -> Header:
        at = self.words.table + 64 * index
        return Header._make(struct.unpack(self.words.order + _HEADER, self[at : at + 64]))

    def content(self, it: Header) -> Optional[bytes]:
        """The content of a table, if it is not too large."""
        is_small = it.sh_size <= _MOST_BYTES
        return self[it.sh_offset : it.sh_offset + it.sh_size] if is_small else None

    def numbers(self, kind: str, content: bytes) -> Column:
        """Bytes as numbers of a type of the module array."""
        return self._ordered(array.array(kind, content))

    def bytes_of(self, numbers: Column) -> bytes:
        return self._ordered(numbers[:]).tobytes()

    def _ordered(self, numbers: Column) -> Column:
        if (self.words.order == ">") != (sys.byteorder == "big"):
            numbers.byteswap()
        return numbers

    def number(self, value: int, width: int) -> bytes:
        return value.to_bytes(width, "big" if self.words.order == ">" else "little")

    def set_field(self, index: int, field: str, value: int) -> None:
        at, width = SECTION[field]
        self.write(self.words.table + 64 * index + at, self.number(value, width))

    def move(self, index: int, place: Callable[[int], int]) -> None:
        """Notes where in the file the content of a section is."""
        self._places[index] = place

    def place(self, index: int, at: int) -> int:
        """Where in the file it is what a rule of a table finds at an offset of the copy."""
        if self._holds(index, at):
            return self._places[index](at) if index in self._places else at
        moved = self.words.table
        is_header = moved <= at < moved + 64 * self.words.count
        return at - moved + self.table if is_header else at

    def _holds(self, index: int, at: int) -> bool:
        start, end = self.words.content(index)
        return start <= at < end

    def told(self, file: Words, rule: int, at: int, index: Optional[int], most: int) -> Told:
        """Why a rule is broken at an offset of the copy. What is put right is described as it is
        in the copy, and all else as it is in the file."""
        if index is None:
            return explain(Words(self, most), rule, at)
        if not self._holds(index, at):
            return explain(file, rule, self.place(index, at), index)
        # One for all findings: it remembers what it has seen of other sections.
        if self._shown is None:
            self._shown = _MendedWords(self, file, most)
        return explain(self._shown, rule, at, index)

    def hashes(self, strings: int, names: list[int]) -> Optional[list[int]]:
        """The hashes of names of a string table; None if all names of the file are too long."""
        for at in names:
            if (strings, at) not in self._hashes:
                name = self._name(strings, at)
                self._left_to_hash -= len(name)
                if self._left_to_hash < 0:
                    return None
                self._hashes[strings, at] = _hashed(name)
        return [self._hashes[strings, at] for at in names]

    def _name(self, strings: int, at: int) -> bytes:
        """A name, or more of it than may be hashed: tables share long names, so no more is read."""
        most = 256
        name = self.words.name(strings, at, most)
        while len(name) == most <= self._left_to_hash:
            most *= 16
            name = self.words.name(strings, at, most)
        return name

    def symbol_table(self) -> int:
        """A symbol table of symbol 0 alone, which the copy gets at its end, with its string table
        and all section headers; 0 if there is no room."""
        it = self.words
        count = it.count
        if self._no_symbols or count + 2 >= _RESERVED_COUNT:
            return self._no_symbols
        begin = len(self)
        end = begin + 64 * (count + 2)
        if end + 25 >= LONGEST:
            return 0
        header = struct.Struct(it.order + _HEADER)
        symbols = header.pack(0, SYMTAB, 0, 0, end, 24, count + 1, 1, 0, 24)
        strings = header.pack(0, STRTAB, 0, 0, end + 24, 1, 0, 0, 0, 0)
        headers = self[it.table : it.table + 64 * count]
        self.write(begin, headers + symbols + strings + bytes(25))
        self.write(40, self.number(begin, 8))
        self.write(60, self.number(count + 2, 2))
        self.words = Words(self)
        self._no_symbols = count
        return count


class _MendedWords(Words):
    """A copy in words, which has the places of contents from the file."""

    def __init__(self, copy: Mended, file: Words, most: int) -> None:
        super().__init__(copy, most)
        self._file = file

    def shown_content(self, index: int) -> tuple[int, int]:
        return self._file.content(index)


# ---- One function for each: it puts a table right, or returns that this is not the deviation


def _mips_relocation_info(copy: Mended, index: int) -> bool:
    """The supplement for MIPS orders the bytes of `r_info` in little-endian files by fields: the
    symbol, a special symbol, and three types."""
    it = copy.section(index)
    content = copy.content(it)
    if copy.words.machine != _MIPS or copy.words.order == ">" or content is None:
        return False
    size = ENTRY_SIZES[it.sh_type]
    mended = bytearray(content)
    for to, origin in enumerate(_MIPS_ORDER, 8):
        mended[to::size] = content[8 + origin :: size]
    copy.write(it.sh_offset, mended)
    return True


def _notes_of_8(copy: Mended, index: int) -> bool:
    """Notes with the alignment 8 have descriptors and ends that are multiples of 8."""
    it = copy.section(index)
    content = copy.content(it)
    if it.sh_addralign != 8 or content is None:
        return False
    sizes = struct.Struct(f"{copy.words.order}2I")
    packed = bytearray()
    # Where each note begins in the copy, and where in the content.
    starts: list[tuple[int, int]] = []
    at = 0
    while at < len(content):
        name, size = sizes.unpack(content[at : at + 8].ljust(8, b"\0"))
        begin = at + (12 + name + 7) // 8 * 8
        end = begin + (size + 7) // 8 * 8
        if len(content) < end:
            return False
        starts.append((len(packed), at))
        packed += content[at : at + 12 + name] + bytes(-name % 4)
        packed += content[begin : begin + size] + bytes(-size % 4)
        at = end
    copy.write(it.sh_offset, packed)
    copy.set_field(index, "sh_size", len(packed))

    def place(at: int) -> int:
        begin, origin = starts[bisect_right(starts, (at - it.sh_offset, it.sh_size)) - 1]
        return at - begin + origin

    copy.move(index, place)
    return True


def _hash_of_8_bytes(copy: Mended, index: int) -> bool:
    """The supplements for s390x and Alpha have hash tables of words of 8 bytes."""
    it = copy.section(index)
    content = copy.content(it)
    is_known = copy.words.machine in (_S390, _ALPHA) and it.sh_type == HASH
    if not is_known or it.sh_entsize != 8 or it.sh_size % 8 or content is None:
        return False
    words = copy.numbers("Q", content)
    if max(words, default=0) >> 32:
        return False
    copy.write(it.sh_offset, copy.bytes_of(array.array("I", words)))
    copy.set_field(index, "sh_size", 4 * len(words))
    copy.set_field(index, "sh_entsize", 4)
    copy.move(index, lambda at: it.sh_offset + (at - it.sh_offset) // 4 * 8)
    return True


def _hash_without_locals(copy: Mended, index: int) -> bool:
    """A hash table serves names that other files refer to. So no chain needs the LOCAL symbols, nor
    registers of SPARC V9. Those that are on no chain, and have the chain word 0, are put at the
    front of the chains of their names."""
    it = copy.section(index)
    table = copy.section(it.sh_link)
    content = copy.content(it)
    symbols = copy.content(table)
    if content is None or symbols is None:
        return False
    words = copy.numbers("I", content)
    kinds = symbols[4::24]
    left = [at for at in _off_chains(words) if _may_be_left_out(copy.words.machine, kinds[at])]
    name = struct.Struct(f"{copy.words.order}I")
    names = [name.unpack_from(symbols, 24 * at)[0] for at in left]
    hashes = copy.hashes(table.sh_link, names)
    if not left or hashes is None:
        return False
    for symbol, value in zip(left, hashes):
        bucket = 2 + value % words[0]
        words[2 + words[0] + symbol] = words[bucket]
        words[bucket] = symbol
    copy.write(it.sh_offset, copy.bytes_of(words))
    return True


def _off_chains(words: Sequence[int]) -> list[int]:
    """The symbols from 1 on that are on no chain of a hash table, and whose own word is 0."""
    chains = words[2 + words[0] :]
    is_seen = bytearray(len(chains))
    for symbol in words[2 : 2 + words[0]]:
        while symbol and not is_seen[symbol]:
            is_seen[symbol] = 1
            symbol = chains[symbol]
    return [it for it in range(1, len(chains)) if not is_seen[it] and not chains[it]]


def _may_be_left_out(machine: int, info: int) -> bool:
    is_register = machine == _SPARC_V9 and info & 15 == _SPARC_REGISTER
    return info >> 4 == _LOCAL or is_register


def _hashed(name: bytes) -> int:
    """The hash of a name (gABI, chapter 5, "Hash Table")."""
    value = 0
    for byte in name:
        value = (16 * value + byte) & 0xFFFFFFFF
        top = value & 0xF0000000
        value = (value ^ top >> 24) & ~top
    return value


def _relocations_without_symbols(copy: Mended, index: int) -> bool:
    """A static program without a symbol table has relocations of symbol 0 alone, as IRELATIVE. They
    are linked to a symbol table that has no other symbol."""
    it = copy.section(index)
    content = copy.content(it)
    is_known = it.sh_type in (RELA, REL) and copy.words.number(16, 2) in _EXECUTABLES
    if not is_known or it.sh_link or it.sh_info >= copy.count or content is None:
        return False
    # The symbol is the upper half of `r_info`, or the first one.
    is_first = copy.words.order == ">" or copy.words.machine == _MIPS
    places = range(8, 12) if is_first else range(12, 16)
    if any(any(content[at :: ENTRY_SIZES[it.sh_type]]) for at in places):
        return False
    link = copy.symbol_table()
    if link:
        copy.set_field(index, "sh_link", link)
    return link > 0


def debug_copy(source: Source, is_named: bool = False) -> Optional[Mended]:
    """A file of debug information, made as long as its segments want; or None. Whether another file
    names it as its debug file."""
    words = Words(source)
    size = max(_segment_ends(words), default=0)
    if not is_debug_file(words, is_named) or size >= LONGEST:
        return None
    copy = Mended(source)
    copy.extend(size)
    return copy


def is_debug_file(words: Words, is_named: bool = False) -> bool:
    """Whether it is a file as `eu-strip -f` writes it. It has the program headers of the program,
    whose code and data are left out: all sections in memory are of type NOBITS or NOTE, and one of
    them is code, unless another file names it as its debug file."""
    rows = [(kind, flags) for _, _, kind, flags, *_ in words.headers() if flags & _ALLOC]
    has_code = is_named or any(kind == NOBITS and flags & _EXECINSTR for kind, flags in rows)
    return has_code and all(kind in (NOBITS, NOTE_SECTION) for kind, _ in rows)


def _segment_ends(words: Words) -> Iterator[int]:
    """Where in the file the segments end that have a type and bytes there."""
    table = words.number(32, 8)
    for start in range(table, table + 56 * words.segments, 56):
        kind, begin, size = (
            words.number(start + at, width)
            for at, width in (SEGMENT[it] for it in ("p_type", "p_offset", "p_filesz"))
        )
        if kind != NULL and size:
            yield begin + size


class Deviation(NamedTuple):
    """A known deviation: its name, how it is read, the rules that report it, and what puts a table
    right that has it. What is of no table has a copy of its own."""

    name: str
    words: str
    rules: tuple[int, ...]
    mend: Optional[Callable[[Mended, int], bool]] = None


DEBUG_SEGMENTS = Deviation(
    "debug-segments",
    "the segments of a file of debug information may pass its end",
    (SEGMENT_PAST_END,),
)
DEVIATIONS = (
    Deviation(
        "mips-relocation-info",
        "`r_info` is read as the processor supplement for MIPS orders it",
        (_WRONG_RELOCATION_SYMBOL,),
        _mips_relocation_info,
    ),
    Deviation(
        "notes-of-8",
        "the notes are read with padding to multiples of 8",
        _OF_NOTES,
        _notes_of_8,
    ),
    Deviation(
        "hash-without-locals",
        "LOCAL symbols may be on no chain",
        (_SYMBOL_OFF_CHAIN,),
        _hash_without_locals,
    ),
    Deviation(
        "hash-of-8-bytes",
        "the table is read in words of 8 bytes",
        (_WRONG_ENTRY_SIZE,),
        _hash_of_8_bytes,
    ),
    Deviation(
        "relocations-without-symbols",
        "the relocations are of no symbol",
        (_WRONG_LINK,),
        _relocations_without_symbols,
    ),
    DEBUG_SEGMENTS,
)
# The rule that the table in a section breaks, and where.
Rows = dict[int, tuple[int, int]]


class Reading(NamedTuple):
    """A copy in which a table, or the file, is put right; where it breaks a rule there all the
    same, and how it is read."""

    copy: Mended
    at: int
    deviations: tuple[Deviation, ...]

    def told(self, file: Words, rule: int, table: Optional[int], most: int) -> Told:
        """Why it breaks the rule."""
        told = self.copy.told(file, rule, self.at, table, most)
        words = (f"{it.words} (known deviation {it.name})" for it in self.deviations)
        return told._replace(message="; ".join((told.message, *words)))


class Mending:
    """Tables that break rules, and a copy in which known deviations are put right, until each table
    breaks no rule, or one that no deviation of it puts right."""

    def __init__(self, source: Source, rows: Rows) -> None:
        self.copy = Mended(source)
        self._rows = dict(rows)
        self._waiting = list(rows)
        self._done: dict[int, list[Deviation]] = {}

    def mend(self) -> bool:
        """Puts right what it can in the tables that are waiting: whether the copy changed."""
        self._waiting = [it for it in self._waiting if self._mend(it)]
        return bool(self._waiting)

    def _mend(self, section: int) -> bool:
        rule, _ = self._rows[section]
        before = self._done.get(section, [])
        for it in DEVIATIONS:
            is_new = rule in it.rules and it not in before
            if is_new and it.mend and it.mend(self.copy, section):
                self._done[section] = [*before, it]
                return True
        return False

    def judge(self, rows: Rows) -> None:
        """Takes what the tables of the copy break."""
        for it in self._waiting:
            self._rows.pop(it)
            if it in rows:
                self._rows[it] = rows[it]
        self._waiting = [it for it in self._waiting if it in rows]

    def left(self) -> Rows:
        """What the tables break, with offsets of the file."""
        found = {}
        for section, (rule, at) in self._rows.items():
            # Only what is put right is read in the copy.
            place = self.copy.place(section, at) if section in self._done else at
            found[section] = rule, place
        return found

    def readings(self) -> Iterator[tuple[int, Reading]]:
        """How the tables are read that break a rule all the same."""
        for section, done in self._done.items():
            if section in self._rows:
                yield section, Reading(self.copy, self._rows[section][1], tuple(done))

    def known(self) -> Iterator[str]:
        """The names of the deviations of tables that break no other rule."""
        for section, done in self._done.items():
            if section not in self._rows:
                yield from (it.name for it in done)
