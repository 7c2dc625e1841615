"""What is at an offset of a file, in words; and why a rule is broken there.

Nothing of the file has to be sound: a number that isn't there is 0, a name that isn't
there is empty. The bytes are asked for by slices, so a file need not be in memory.
"""

from __future__ import annotations

import bisect
import ctypes
import itertools
import re
import struct
from collections.abc import Collection, Iterable, Iterator
from functools import cached_property
from typing import NamedTuple, Optional, Protocol

from elfmap import _declared
from elfmap._names import relocation_type, section_type
from elfmap._rules import RULES
from elfmap.constants import SHN, SHT


class Bytes(Protocol):
    def __len__(self) -> int:
        ...

    def __getitem__(self, place: slice) -> bytes:
        ...


# The offset and the width of each field of a record.
Layout = dict[str, tuple[int, int]]


def _layout(record: type[ctypes.Structure]) -> Layout:
    """That of a struct of include/elfmap.h that has the fields where the file has them."""
    fields = [(it[0], getattr(record, it[0])) for it in record._fields_]
    return {name: (field.offset, field.size) for name, field in fields}


SECTION = _layout(_declared.Section)
SEGMENT = _layout(_declared.Segment)
HEADER: Layout = {
    "the magic number": (0, 4),
    "the class in e_ident": (4, 1),
    "the data encoding in e_ident": (5, 1),
    "the version in e_ident": (6, 1),
    "the rest of e_ident": (7, 9),
    **{name: at for name, at in _layout(_declared.Header).items() if name != "e_ident"},
}
SYMBOL: Layout = {
    "st_name": (0, 4),
    "st_info": (4, 1),
    "st_other": (5, 1),
    "st_shndx": (6, 2),
    "st_value": (8, 8),
    "st_size": (16, 8),
}
DYNAMIC = _layout(_declared.Dynamic)
NOTE: Layout = {"namesz": (0, 4), "descsz": (4, 4), "type": (8, 4)}
_IN_HEX = "flags addr off align entry value st_info r_info filesz memsz shndx".split()

NULL = SHT.NULL.value
SYMTAB = SHT.SYMTAB.value
STRTAB = SHT.STRTAB.value
RELA = SHT.RELA.value
HASH = SHT.HASH.value
DYNAMIC_SECTION = SHT.DYNAMIC.value
NOTE_SECTION = SHT.NOTE.value
NOBITS = SHT.NOBITS.value
REL = SHT.REL.value
DYNSYM = SHT.DYNSYM.value
GROUP = SHT.GROUP.value
SYMTAB_SHNDX = SHT.SYMTAB_SHNDX.value
XINDEX = SHN.XINDEX.value
ENTRY_SIZES = {
    SYMTAB: 24,
    DYNSYM: 24,
    RELA: 24,
    REL: 16,
    DYNAMIC_SECTION: 16,
    GROUP: 4,
    SYMTAB_SHNDX: 4,
    HASH: 4,
}
# The rules whose offset is in a section header: those of images, of tables and of objects.
_OF_SECTION_HEADERS = {
    *(13, 14, 17, 20, 22, 23, 24, 30, 32),
    *(40, 42, 43, 44, 46, 49, 50, 53, 55, 57, 63, 65),
    *(72, 73, 74, 76, 78, 79),
}
# Where a rule's offset is. Any other rule's may be in each of these.
PARTS = {
    "header": {*range(3, 13), 15, 16, 18, 19, 21, 70, 71},
    "section": _OF_SECTION_HEADERS,
    "segment": {25, 26, 27, 28, 29},
    "content": {31, 41, 47, 48, 51, 52, 54, 56, 58, 59, 60, 61, 62, 64, 66, 67, 68, 69, 75, 77},
}
KINDS = tuple(PARTS)
SHARED_BYTE = 33
# So many parts that share a byte are named.
MOST_OWNERS = 16
_HEADERS_AT_ONCE = 1024
# So many letters of a name are in a sentence of a text, and so many bytes of it in JSON: names may
# share bytes, so that a short file has many long ones. A letter has at most so many bytes.
MOST_LETTERS = 200
LONGEST_NAME = 4096
LONGEST_LETTER = 4
# What is escaped in a path: a backslash, and bytes, of which none is a letter of ASCII that can be
# printed.
_ESCAPED_BYTE = re.compile(rb"\\(?:\\|x([01][0-9a-f]|7f|[89a-f][0-9a-f]))")
# By the names of so many sections, and so many bytes of each, it is seen who made a file.
_MOST_FIRST = 64
_FIRST_LETTERS = 16
# Notes have no index: more than these are not counted.
_MOST_NOTES = 100_000


class Place(NamedTuple):
    """What holds an offset: of which kind it is, of which section, and in words."""

    kind: str
    section: Optional[int]
    words: str


class Words:
    """A file's bytes, and what they are in words, with so many letters of each name."""

    def __init__(self, data: Bytes, most: int = MOST_LETTERS) -> None:
        self.data = data
        self._most = most
        self.order = ">" if data[5:6] == b"\2" else "<"
        self.table = self.number(40, 8)
        self.machine = self.number(18, 2)
        counted = self.number(60, 2) or self.number(self.table + 32, 8)
        self.count = min(counted, len(data) // 64) if self.table else 0
        names = self.number(62, 2)
        self.names = self.section(0, "sh_link") if names == XINDEX else names
        segments = self.number(56, 2)
        if segments == XINDEX:
            segments = self.section(0, "sh_info")
        self.segments = min(segments, len(data) // 56)
        self._index_tables: Optional[dict[int, int]] = None
        # Where string tables are, of which names were asked for.
        self._strings: dict[int, tuple[int, int]] = {}

    def number(self, at: int, width: int) -> int:
        found = self.data[at : at + width].ljust(width, b"\0") if 0 <= at < len(self.data) else b""
        return int.from_bytes(found, "big" if self.order == ">" else "little")

    def section(self, index: int, field: str) -> int:
        """A field of a section header, 0 where there is no such section."""
        at, width = SECTION[field]
        return self.number(self.table + 64 * index + at, width) if index < self.count else 0

    def content(self, index: int) -> tuple[int, int]:
        """Where the content of a section begins and ends, if it has bytes in the file."""
        start = self.section(index, "sh_offset")
        kind = self.section(index, "sh_type")
        return start, start + (0 if kind in (NULL, NOBITS) else self.section(index, "sh_size"))

    def headers(self) -> Iterator[tuple[int, ...]]:
        """All section headers: their index, and then their fields."""
        record = struct.Struct(f"{self.order}2I4Q2I2Q")
        for first in range(0, self.count, _HEADERS_AT_ONCE):
            start = self.table + 64 * first
            block = self.data[start : start + 64 * min(_HEADERS_AT_ONCE, self.count - first)]
            whole = block[: len(block) // 64 * 64]
            for index, fields in enumerate(record.iter_unpack(whole), first):
                yield (index, *fields)

    def holding(self, at: int, near: Iterable[int] = ()) -> list[int]:
        """The sections whose content has an offset; those nearby are looked at first."""
        found = [it for it in dict.fromkeys(near) if self._holds(it, at)]
        position = 0 if found else bisect.bisect_left(self._contents, (at + 1,))
        while position and self._ends[position - 1] > at:
            position -= 1
            _, end, index = self._contents[position]
            found += [index] if end > at else []
        return sorted(found)

    def _holds(self, index: int, at: int) -> bool:
        start, end = self.content(index)
        return start <= at < end

    @cached_property
    def _contents(self) -> list[tuple[int, ...]]:
        """Where the contents of sections begin and end, and their indexes, in ascending order."""
        found = []
        for index, _, kind, _, _, start, size, *_ in self.headers():
            if index and size and kind not in (NULL, NOBITS):
                found.append((start, start + size, index))
        return sorted(found)

    @cached_property
    def _content_of(self) -> dict[int, tuple[int, int]]:
        """Where the content of a section begins and ends, by its index."""
        return {index: (start, end) for start, end, index in self._contents}

    @cached_property
    def _ends(self) -> list[int]:
        """The highest end of a content and all before it: where they overlap it may be that of an
        earlier one."""
        return list(itertools.accumulate((end for _, end, _ in self._contents), max))

    def index_table(self, symbols: int) -> int:
        """The first index table of a symbol table, 0 where there is none."""
        if self._index_tables is None:
            self._index_tables = {}
            for index, _, kind, _, _, _, _, link, *_ in self.headers():
                if kind == SYMTAB_SHNDX:
                    self._index_tables.setdefault(link, index)
        return self._index_tables.get(symbols, 0)

    def related(self, index: int) -> list[int]:
        """The sections that hold what the rules of a table look at."""
        links = [index, self.section(index, "sh_link")]
        symbols = [it for it in links if self.section(it, "sh_type") in (SYMTAB, DYNSYM)]
        links.append(self.section(links[1], "sh_link"))
        return [it for it in (*links, *map(self.index_table, symbols)) if it]

    def name(self, table: int, at: int, most: int = LONGEST_NAME) -> bytes:
        """The name at an offset of a string table, or so many bytes of it."""
        if table not in self._strings:
            self._strings[table] = self.content(table)
        start, end = self._strings[table]
        first = start + at
        if not 0 < table < self.count or first >= end:
            return b""
        return self.data[first : min(end, first + most)].partition(b"\0")[0]

    def string(self, table: int, at: int) -> str:
        """That name in a sentence, in letters that can be printed."""
        most = min(LONGEST_NAME, LONGEST_LETTER * (self._most + 1))
        return printable(self.name(table, at, most), self._most)

    def section_string(self, index: int) -> str:
        """The name of a section in a sentence."""
        return self.string(self.names, self.section(index, "sh_name"))

    def section_name(self, index: int) -> str:
        """The name of a section in JSON, or what it is called without one."""
        name = self.name(self.names, self.section(index, "sh_name"))
        return printable(name) or f"section {index}"

    @cached_property
    def first_names(self) -> list[bytes]:
        """The names of the first sections, and of each its first letters."""
        first = itertools.islice(self.headers(), _MOST_FIRST)
        return [self.name(self.names, it[1], _FIRST_LETTERS) for it in first]

    def symbol(self, table: int, index: int, field: str) -> int:
        """A field of a symbol, 0 where there is none."""
        at, width = SYMBOL[field]
        begins = self._symbol_at(table, index)
        return 0 if begins is None else self.number(begins + at, width)

    def _symbol_at(self, table: int, index: int) -> Optional[int]:
        """Where a symbol begins; None where there is none."""
        start, end = self.content(table)
        begins = start + 24 * index
        return begins if begins + 24 <= end else None

    def symbol_section(self, table: int, index: int) -> int:
        """The section that a symbol is defined in, or its reserved index."""
        own = self.symbol(table, index, "st_shndx")
        words = self.index_table(table) if own == XINDEX else 0
        return self.number(self.content(words)[0] + 4 * index, 4) if words else own

    # ---- in words

    def section_words(self, index: int) -> str:
        if index >= self.count:
            return f"section {index}, which isn't there"
        return f"section {index} {self.section_string(index) or '(no name)'}"

    def typed_words(self, index: int) -> str:
        if index >= self.count:
            return self.section_words(index)
        kind = section_type(self.section(index, "sh_type"), self.machine)
        return f"{self.section_words(index)} of type {kind}"

    def symbol_name(self, table: int, index: int) -> str:
        name = self.string(self.section(table, "sh_link"), self.symbol(table, index, "st_name"))
        if not name and self.symbol(table, index, "st_info") & 15 == 3:
            return f"of section {self.section_string(self.symbol_section(table, index))}"
        return name or "(no name)"

    def symbol_words(self, table: int, index: int) -> str:
        if self._symbol_at(table, index) is None:
            return f"symbol {index}, which isn't there"
        return f"symbol {index} {self.symbol_name(table, index)}"

    def field_words(self, record: Layout, start: int, at: int) -> str:
        """The field of a record that holds an offset, and its value."""
        for name, (begins, width) in record.items():
            if begins <= at - start < begins + width:
                return f"{name}, which is {self._value_words(name, start + begins, width)}"
        return "no field"

    def _value_words(self, field: str, at: int, width: int) -> str:
        # A field without a name of the standard has bytes, and no number.
        if field.startswith("the "):
            return self.data[at : at + width].hex(" ")
        value = self.number(at, width)
        is_hex = any(it in field for it in _IN_HEX) and value > 9
        return hex(value) if is_hex else str(value)

    def header_words(self, index: int) -> str:
        """What a section header is about: its section, and those that it names."""
        kind, link, info = (self.section(index, it) for it in ("sh_type", "sh_link", "sh_info"))
        words = ["section header 0"]
        if index:
            words = [f"the section header of {self.typed_words(index)}"]
        if link and kind != NULL:
            words.append(f"its link is {self.typed_words(link)}")
        if info and kind in (REL, RELA):
            words.append(f"it relocates {self.section_words(info)}")
        if kind == GROUP:
            words.append(f"signed by {self.symbol_words(link, info)}")
        return "; ".join(words)

    def shown_content(self, index: int) -> tuple[int, int]:
        """The same, as words have it."""
        return self.content(index)

    def content_words(self, index: int, at: int) -> str:
        start, end = self.shown_content(index)
        place = f"the content of {self.section_words(index)} [{start:#x}, {end:#x})"
        return f"{place}: {entry_words(self, index, at)}"

    def places(
        self,
        at: int,
        near: Iterable[int] = (),
        kinds: Collection[str] = KINDS,
        most: Optional[int] = None,
    ) -> Iterator[Place]:
        """All of these kinds that holds an offset. The contents after so many are without words."""
        if at < 64 and "header" in kinds:
            yield Place("header", None, f"the header: {self.field_words(HEADER, 0, at)}")
        if self.table <= at < self.table + 64 * self.count and "section" in kinds:
            index = (at - self.table) // 64
            field = self.field_words(SECTION, self.table + 64 * index, at)
            yield Place("section", index, f"{self.header_words(index)}: {field}")
        table = self.number(32, 8)
        if table and table <= at < table + 56 * self.segments and "segment" in kinds:
            index = (at - table) // 56
            field = self.field_words(SEGMENT, table + 56 * index, at)
            yield Place("segment", None, f"program header {index}: {field}")
        for count, index in enumerate(self.holding(at, near) if "content" in kinds else ()):
            has_words = most is None or count < most
            yield Place("content", index, self.content_words(index, at) if has_words else "")

    def tables_with(self, at: int) -> list[tuple[str, int, int]]:
        """Those of the header and the two tables that have a byte, and from where to where each
        is."""
        table = self.number(32, 8)
        parts = [
            ("the ELF header", 0, 64),
            ("the section header table", self.table, self.table + 64 * self.count),
            ("the program header table", table, table + 56 * self.segments if table else 0),
        ]
        return [it for it in parts if it[1] <= at < it[2]]

    def owners(self, at: int) -> Iterator[tuple[Optional[int], str, int, int]]:
        """The parts that a byte belongs to: of which section, or else in words, and from where to
        where."""
        for words, start, end in self.tables_with(at):
            yield None, words, start, end
        for index in self.holding(at):
            yield index, "", *self._content_of[index]


def printable(name: bytes, most: Optional[int] = None) -> str:
    """A name in letters that can be printed, or its first ones, and … for the rest. A byte that is
    no UTF-8 is a letter too. A backslash is written twice: so two names differ in print too."""
    letters = name.decode("utf-8", "surrogateescape")
    # Letters are cut, and then escaped: no escape is cut in two.
    front = letters[:most]
    if "\\" in front or not front.isprintable():
        escapes = {ord(it): _escape(it) for it in set(front) if it == "\\" or not it.isprintable()}
        front = front.translate(escapes)
    return front if most is None or len(letters) <= most else f"{front}…"


def _escape(letter: str) -> str:
    code = ord(letter)
    # As the decoder writes a byte that is no UTF-8.
    if 0xDC80 <= code <= 0xDCFF:
        return f"\\x{code & 0xFF:02x}"
    # The letter U+0080 is not the byte 0x80.
    return f"\\u{code:04x}" if 0x80 <= code <= 0xFF else ascii(letter)[1:-1]


def one_line(path: bytes) -> bytes:
    """A path in letters that can be printed. Of any other letter, and of what is no UTF-8, each
    byte is escaped as `\\xNN`, and a backslash is written twice."""
    return visible(path.replace(b"\\", b"\\\\"))


def visible(words: bytes) -> bytes:
    """Words in letters that can be printed, as a path is escaped, but with each backslash as it is:
    the names in them may be escaped already."""
    letters = words.decode("utf-8", "surrogateescape")
    return words if letters.isprintable() else "".join(map(_in_bytes, letters)).encode("utf-8")


def original_path(line: bytes) -> bytes:
    """The path that `one_line` makes this of."""
    return _ESCAPED_BYTE.sub(lambda it: bytes([int(it[1], 16)]) if it[1] else b"\\", line)


def _in_bytes(letter: str) -> str:
    if letter.isprintable():
        return letter
    return "".join(f"\\x{it:02x}" for it in letter.encode("utf-8", "surrogateescape"))


def entry_words(file: Words, index: int, at: int) -> str:
    """The entry of the table in a section that holds an offset."""
    kind = file.section(index, "sh_type")
    start, end = file.content(index)
    size = ENTRY_SIZES.get(kind, 1)
    position = (at - start) // size
    begins = start + position * size
    if kind in (SYMTAB, DYNSYM):
        return _symbol_entry(file, index, position, at)
    if kind in (RELA, REL):
        return f"relocation {position}, {_relocation_entry(file, index, begins)}"
    if kind == DYNAMIC_SECTION:
        field = file.field_words(DYNAMIC, begins, at)
        return f"entry {position}, of tag {file.number(begins, 8)}: {field}"
    if kind == NOTE_SECTION:
        return _note_words(file, start, end, at)
    if kind in (GROUP, SYMTAB_SHNDX, HASH):
        return _word_entry(file, index, position, file.number(begins, 4))
    return f"byte {position}" + "".join(f": {it:#04x}" for it in file.data[at : at + 1])


def _symbol_entry(file: Words, index: int, position: int, at: int) -> str:
    own = file.symbol(index, position, "st_shndx")
    is_defined = 0 < own < 0xFF00 or own == XINDEX and file.index_table(index) > 0
    section = file.symbol_section(index, position)
    defined = f", defined in {file.section_words(section)}" if is_defined else ""
    field = file.field_words(SYMBOL, file.content(index)[0] + 24 * position, at)
    return f"{file.symbol_words(index, position)}{defined}: {field}"


def _relocation_entry(file: Words, index: int, begins: int) -> str:
    """What an entry of a section of relocations relocates, and how."""
    info = file.number(begins + 8, 8)
    symbol = file.symbol_words(file.section(index, "sh_link"), info >> 32)
    target = file.section_words(file.section(index, "sh_info"))
    kind = relocation_type(info & 0xFFFFFFFF, file.machine)
    return f"of {symbol}, at {file.number(begins, 8):#x} of {target}, of type {kind}"


def _word_entry(file: Words, index: int, position: int, value: int) -> str:
    """A word of a group, an index table or a hash table."""
    kind = file.section(index, "sh_type")
    link = file.section(index, "sh_link")
    if kind == GROUP:
        signature = file.symbol_words(link, file.section(index, "sh_info"))
        word = f"the member {file.section_words(value)}" if position else f"the flags, {value},"
        return f"{word} of the group that {signature} signs"
    if kind == SYMTAB_SHNDX:
        return f"the word of {file.symbol_words(link, position)}: {value}"
    buckets = file.number(file.content(index)[0], 4)
    if position < 2:
        return f"the number of {('buckets', 'chain words')[position]}, {value}"
    if position < 2 + buckets:
        return f"bucket {position - 2}, which begins with {file.symbol_words(link, value)}"
    return f"the chain word of {file.symbol_words(link, position - 2 - buckets)}: {value}"


def _note_words(file: Words, start: int, end: int, at: int) -> str:
    """The part of a note that holds an offset, in a section of notes."""
    for position in range(_MOST_NOTES):
        name, desc = (file.number(start + it, 4) for it in (0, 4))
        after = start + 12 + (name + 3) // 4 * 4
        if at < start + 12:
            return f"note {position}: {file.field_words(NOTE, start, at)}"
        if at < after + (desc + 3) // 4 * 4:
            return f"note {position}: {'its name' if at < after else 'its descriptor'}"
        start = after + (desc + 3) // 4 * 4
        if start >= end:
            return "after the last note"
    return f"a note after the first {_MOST_NOTES}"


def reason(rule: int, rules: dict[int, tuple[str, str, str]] = RULES) -> str:
    """What a rule refuses, of files if no other rules are given, without the words that begin each
    sentence."""
    return rules[rule][1].partition(" because ")[2]


class Limit(NamedTuple):
    """What can't be written because it is too long, though it breaks no rule: the name, the
    sentence and the advice, as a rule has them."""

    name: str
    sentence: str
    advice: str

    @property
    def message(self) -> str:
        """What a finding says."""
        return f"{self.sentence}; {self.advice}"


OBJECT_TOO_LONG = Limit(
    "OBJECT_TOO_LONG",
    "the canonical layout of its object would be longer than 2^30 bytes",
    "split the file",
)


class Told(NamedTuple):
    """Why a rule is broken, and the sections that this is about."""

    message: str
    sections: list[int]


def explain(file: Words, rule: int, at: int, table: Optional[int] = None) -> Told:
    """Why a rule is broken at an offset, of an image or of the table in a section."""
    if rule == SHARED_BYTE:
        return _shared_byte(file, at)
    found = found_at(file, rule, at, table)
    indexes = [it.section for it in found if it.section]
    words = [it.words for it in found]
    if table is not None and table not in indexes:
        indexes.insert(0, table)
        words.insert(0, f"the table in {file.typed_words(table)}")
    return Told(f"{'; '.join(words)}; {reason(rule)}; {RULES[rule][2]}", indexes)


def found_at(
    file: Words, rule: int, at: int, table: Optional[int] = None, most: Optional[int] = None
) -> list[Place]:
    """What holds the offset, and of it that which the rule looks at. The contents after so many are
    without words."""
    if at >= len(file.data):
        return [Place("end", None, f"the file ends there, with {len(file.data)} bytes")]
    near = file.related(table) if table is not None else []
    wanted = [kind for kind, rules in PARTS.items() if rule in rules]
    for kinds in (wanted, KINDS):
        found = list(file.places(at, near, kinds, most))
        if found:
            return found
    return [Place("gap", None, "in no part of the file")]


def _shared_byte(file: Words, at: int) -> Told:
    """Both owners of a byte, or all of them."""
    owners = list(file.owners(at))
    sections = [index for index, *_ in owners if index is not None]
    parts: list[str] = []
    for index, words, start, end in owners[:MOST_OWNERS]:
        name = words if index is None else file.section_string(index) or f"section {index}"
        lead = "" if index is None else "the content of " if index == sections[0] else "of "
        parts.append(f"{lead}{name} [{start:#x}, {end:#x})")
    more = len(owners) - len(parts)
    *before, last = [*parts, f"of {more} more"] if more else parts or ["no part"]
    told = f"{', '.join(before)} and {last}" if before else last
    return Told(f"{told} share byte {at:#x}; {RULES[SHARED_BYTE][2]}", sections[:MOST_OWNERS])
