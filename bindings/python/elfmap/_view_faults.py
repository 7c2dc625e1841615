"""All that a file breaks, as far as it can be found, and which of its values depend on that.

The library returns the first rule that a file breaks. To find the next one, what broke it is left
out of a copy, or put right there, and the copy is validated. A table is judged in that copy too,
unless it depends on what was left out.
"""

from __future__ import annotations

import bisect
import struct
from collections.abc import Iterable
from functools import cached_property
from typing import NamedTuple, Optional

import elfmap
from elfmap._view_memory import Memory
from elfmap._words import (
    GROUP,
    HEADER,
    PARTS,
    REL,
    RELA,
    SECTION,
    SEGMENT,
    SHARED_BYTE,
    XINDEX,
    Layout,
    Words,
)

# After a value that breaks a rule, and after one that depends on such a value.
BROKEN = "!"
DOUBTFUL = "?"
# So many faults of a file are looked for: fewer in a file of very many sections.
MOST_FAULTS = 64
_LEAST_FAULTS = 4
_MOST_HEADERS = 1 << 17
# Names are left out of a copy one by one.
_MOST_NAMES = 1 << 16
_LOAD_OUT_OF_ORDER = 29
# What as a whole may depend on a fault.
SECTIONS = "sections"
SEGMENTS = "segments"
NAMES = "names"
ALL = "all"
# What depends on the value that a rule is about, if that is more than the record that has it.
_SCOPES = {
    **dict.fromkeys((1, 2, 3, 4, 5, 6, 7), ALL),
    **dict.fromkeys((9, 10, 11, 12, 14, 15), SECTIONS),
    **dict.fromkeys((16, 17, 30, 31), NAMES),
    **dict.fromkeys((18, 19, 20, 21), SEGMENTS),
}
# Fields of the same record that a rule compares with the one that it names.
_COMPARED = {
    23: ("sh_addralign",),
    24: ("sh_size",),
    25: ("p_filesz",),
    26: ("p_memsz",),
    28: ("p_vaddr", "p_align"),
}
# Where the content of a section is.
_OF_PLACE = ("sh_offset", "sh_size")
# The letter of a number of so many bytes.
_LETTERS = {1: "B", 2: "H", 4: "I", 8: "Q"}
# Fields of the ELF header that have one right value: where they are, how wide, and the value.
_RIGHT = {6: (6, 1, 1), 7: (20, 4, 1), 8: (52, 2, 64)}


class Fault(NamedTuple):
    """A rule broken at an offset: of the table in a section, or of the file."""

    rule: int
    at: int
    table: Optional[int] = None


def _verdict(data: memoryview) -> Optional[Fault]:
    try:
        elfmap.parse(data).close()
    except elfmap.Refused as refused:
        return Fault(refused.rule, refused.offset)
    return None


def field_at(layout: Layout, within: int) -> str:
    """The field of a record that has a byte."""
    found = (name for name, (at, width) in layout.items() if at <= within < at + width)
    return next(found, "")


class _Mender:
    """A copy of a file, of which one fault after another is put right or left out."""

    def __init__(self, data: Memory) -> None:
        self.copy = data.copy()
        self.view = memoryview(self.copy)[: len(data)]
        self._has_changed = False
        # The sections that are left out, and what is left out as a whole.
        self.left_out: set[int] = set()
        self.lost: set[str] = set()
        self._words = Words(self.copy)

    def mend(self, fault: Fault) -> bool:
        """Whether the copy no longer has this fault."""
        self._words = Words(self.copy)
        self._has_changed = False
        return self._changes(fault) and self._has_changed

    def _changes(self, fault: Fault) -> bool:
        """Whether there is a way to put it right, which is tried."""
        rule = fault.rule
        at = fault.at
        if rule in _RIGHT:
            return self._put(*_RIGHT[rule])
        if rule == 9:
            return self._put(60, 2, 0) and self._put(62, 2, 0)
        if rule in (10, 12, 15):
            return self._drop_sections()
        if rule in (13, 14, 17, 20):
            return self._first_header(rule, at)
        if rule in (18, 19, 21):
            return self._drop_segments()
        if rule in (16, 30, 31):
            return self._drop_names()
        if rule in (22, 23, 24):
            return self._leave_out((at - self._words.table) // 64)
        if rule in PARTS["segment"]:
            start = self._words.number(32, 8)
            return self._put(start + (at - start) // 56 * 56, 4, 0)
        if rule == 32:
            return self._put(at, 4, 0)
        return rule == SHARED_BYTE and self._share(at)

    def _put(self, at: int, width: int, value: int) -> bool:
        content = struct.pack(f"{self._words.order}{_LETTERS[width]}", value)
        if at + width > len(self.view):
            return False
        self._has_changed |= self.copy[at : at + width] != content
        self.copy[at : at + width] = content
        return True

    def _first_header(self, rule: int, at: int) -> bool:
        """Section header 0 has a number that belongs to the ELF header, or lacks one."""
        words = self._words
        if rule == 14 and not words.number(60, 2):
            return self._drop_sections()
        if rule == 17 and words.number(62, 2) == XINDEX:
            return self._drop_names()
        if rule == 20 and words.number(56, 2) == XINDEX:
            return self._drop_segments()
        start, width = SECTION[field_at(SECTION, at - words.table)]
        return self._put(words.table + start, width, 0)

    def _drop_sections(self) -> bool:
        self.lost.add(SECTIONS)
        for at, width in ((40, 8), (60, 2), (62, 2)):
            self._put(at, width, 0)
        return True

    def _drop_segments(self) -> bool:
        self.lost.add(SEGMENTS)
        if self._words.number(56, 2) == XINDEX and self._words.table:
            self._put(self._words.table + SECTION["sh_info"][0], 4, 0)
        return self._put(32, 8, 0) and self._put(56, 2, 0)

    def _drop_names(self) -> bool:
        """Leaves out the name table, and all that is an offset in it."""
        words = self._words
        self.lost.add(NAMES)
        if words.count > _MOST_NAMES:
            return False
        if words.number(62, 2) == XINDEX:
            self._put(words.table + SECTION["sh_link"][0], 4, 0)
        self._put(62, 2, 0)
        for index in range(1, words.count):
            self._put(words.table + 64 * index, 4, 0)
        return True

    def _leave_out(self, index: int) -> bool:
        self.left_out.add(index)
        self._put(self._words.table + 64 * index + SECTION["sh_type"][0], 4, 0)
        return self._drop_names() if index == self._words.names else True

    def _share(self, at: int) -> bool:
        """Of those that share a byte the last section is left out, or else a table."""
        sections = self._words.holding(at)
        if sections:
            return self._leave_out(sections[-1])
        tables = [words for words, *_ in self._words.tables_with(at)]
        has_segments = any(words.startswith("the program") for words in tables)
        return self._drop_segments() if has_segments else self._drop_sections()


class Faults:
    """What a file breaks: of its image, and of its tables if these can be judged."""

    def __init__(self, data: Memory) -> None:
        self.of_image: list[Fault] = []
        self.of_tables: list[Fault] = []
        # The tables that could not be judged.
        self.untested: set[int] = set()
        # Whether all rules were tested, but for what depends on a fault.
        self.is_complete = True
        self.lost: set[str] = set()
        self.left_out: set[int] = set()
        self._find(data)

    @property
    def is_sound(self) -> bool:
        return not self.of_image

    @property
    def every(self) -> list[Fault]:
        return [*self.of_image, *self.of_tables]

    @cached_property
    def by_table(self) -> dict[int, Fault]:
        """Those of tables, by their sections."""
        return {it.table: it for it in self.of_tables if it.table is not None}

    def _find(self, data: Memory) -> None:
        fault = _verdict(data.view)
        if not fault:
            self._judge(data.view, data)
            return
        mender = _Mender(data)
        count = max(Words(data).count, 1)
        for _ in range(min(MOST_FAULTS, max(_MOST_HEADERS // count, _LEAST_FAULTS))):
            if not fault:
                break
            self._add(fault)
            if not mender.mend(fault):
                break
            fault = _verdict(mender.view)
        self.is_complete = fault is None
        self.lost = mender.lost
        self.left_out = mender.left_out
        if self.is_complete and SECTIONS not in self.lost:
            self._judge(mender.view, data)

    def _add(self, fault: Fault) -> None:
        """Keeps a fault, if it is one of the file and not of the copy alone."""
        rules = {it.rule for it in self.of_image}
        # The segment before it may be one that is left out.
        if fault.rule != _LOAD_OUT_OF_ORDER or fault.rule not in rules:
            self.of_image.append(fault)

    def _judge(self, copy: memoryview, data: Memory) -> None:
        try:
            found = elfmap.refused_tables(copy)
        except elfmap.Refused:
            return
        words = Words(data)
        self.untested = self._depending(words)
        every = (Fault(rule, at, table) for table, rule, at in found)
        self.of_tables = [it for it in every if it.table not in self.untested]

    def _depending(self, words: Words) -> set[int]:
        """The sections that are left out, and the tables that depend on one of them."""
        found = set(self.left_out)
        for index, _, kind, _, _, _, _, _, info, *_ in words.headers() if found else ():
            needs = {*words.related(index), *([info] if kind in (REL, RELA, GROUP) else [])}
            if needs & self.left_out:
                found.add(index)
        return found


class Marks:
    """The mark of each value of a file: BROKEN, DOUBTFUL, or none."""

    def __init__(self, words: Words, faults: Faults) -> None:
        self._words = words
        self._broken: set[tuple[str, int, str]] = set()
        self._doubtful: set[tuple[str, int, str]] = set()
        self._offsets: list[int] = []
        self._shared: set[int] = set()
        self._scopes = set(faults.lost)
        if not faults.is_complete:
            self._scopes.add(ALL)
        self._tables = {*faults.by_table} | faults.untested
        for it in faults.every:
            self._scopes |= {_SCOPES[it.rule]} if it.rule in _SCOPES else set()
            self._place(it)
        self._offsets.sort()

    def _place(self, fault: Fault) -> None:
        """Marks the field that has the offset of a fault, and those that it is compared with."""
        rule = fault.rule
        at = fault.at
        words = self._words
        self._offsets.append(at)
        if rule == SHARED_BYTE:
            self._share(at)
        elif rule in PARTS["header"]:
            self._broken.add(("header", 0, field_at(HEADER, at)))
        elif rule in PARTS["segment"]:
            index, within = divmod(at - words.number(32, 8), 56)
            self._fields("segment", index, field_at(SEGMENT, within), rule)
        elif rule not in PARTS["content"] and 0 <= at - words.table < 64 * words.count:
            index, within = divmod(at - words.table, 64)
            self._fields("section", index, field_at(SECTION, within), rule)

    def _fields(self, kind: str, index: int, field: str, rule: int) -> None:
        self._broken.add((kind, index, field))
        self._doubtful |= {(kind, index, it) for it in _COMPARED.get(rule, ())}

    def _share(self, at: int) -> None:
        """Each part that has a shared byte is at a wrong place, or too long."""
        self._shared.update(self._words.holding(at))
        for words, *_ in self._words.tables_with(at):
            if words != "the ELF header":
                field = "e_shoff" if words.startswith("the section") else "e_phoff"
                self._broken.add(("header", 0, field))
                self._scopes.add(SECTIONS if field == "e_shoff" else SEGMENTS)

    def _mark(self, kind: str, index: int, field: str, scopes: Iterable[str]) -> str:
        is_shared = kind == "section" and field in _OF_PLACE and index in self._shared
        if is_shared or (kind, index, field) in self._broken:
            return BROKEN
        is_doubtful = (kind, index, field) in self._doubtful or self._scopes & {ALL, *scopes}
        return DOUBTFUL if is_doubtful else ""

    @property
    def has_any(self) -> bool:
        return bool(self._offsets)

    def header(self, field: str) -> str:
        return self._mark("header", 0, field, ())

    @property
    def of_sections(self) -> str:
        """That of which sections there are."""
        return DOUBTFUL if self._scopes & {ALL, SECTIONS} else ""

    @property
    def of_segments(self) -> str:
        """That of which segments there are."""
        return DOUBTFUL if self._scopes & {ALL, SEGMENTS} else ""

    def section(self, index: int, field: str) -> str:
        return self._mark("section", index, field, (SECTIONS,))

    def segment(self, index: int, field: str) -> str:
        return self._mark("segment", index, field, (SEGMENTS,))

    def name(self, index: int) -> str:
        """That of a section's name, which is BROKEN if its offset is."""
        return self._mark("section", index, "sh_name", (SECTIONS, NAMES))

    def content(self, index: int) -> str:
        """That of what a section holds."""
        fields = ("sh_type", "sh_offset", "sh_size", "sh_link", "sh_entsize", "sh_info")
        marks = any(self.section(index, it) for it in fields)
        return DOUBTFUL if marks or index in self._tables or index in self._shared else ""

    def entry(self, index: int, start: int, size: int) -> str:
        """That of an entry of the table in a section, at this place of the file."""
        return BROKEN if self.broken_in(start, start + size) else self.content(index)

    def broken_in(self, start: int, end: int) -> list[int]:
        """The offsets from one to below another at which a rule is broken."""
        first = bisect.bisect_left(self._offsets, start)
        return self._offsets[first : bisect.bisect_left(self._offsets, end)]

    @property
    def of_all(self) -> str:
        """That of what depends on several parts of the file."""
        return DOUBTFUL if self._offsets else ""
