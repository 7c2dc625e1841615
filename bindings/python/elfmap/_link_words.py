"""What a rule of the link is about, in words.

A line of `elfmap map` names a file, a section or symbol in it, and an entry, by their
positions in the object that the file denotes. A finding of elfmap-lint has an offset
instead, and is of a rule that needs no other file.
"""

from __future__ import annotations

import os
from collections.abc import Iterator, Sequence
from functools import cached_property
from typing import Optional

from elfmap import _declared
from elfmap._link_places import (
    NO_ENTRY,
    OF_RELOCATIONS,
    OF_SECTIONS,
    OF_SYMBOLS,
    TWO_DEFINITIONS,
    link_place,
    record_at,
)
from elfmap._names import machine_words
from elfmap._rules import LINK_RULES
from elfmap._sources import LONGEST
from elfmap._words import (
    LONGEST_NAME,
    NULL,
    SECTION,
    SYMTAB,
    Limit,
    Told,
    Words,
    entry_words,
    printable,
    reason,
)

_BYTES_AT_ONCE = 1 << 20
# Rules by their numbers.
MISMATCH = 2
EMPTY_SIGNATURE = 5
_BAD_COMMON = 7
UNDEFINED_NAME = 9
# The rules by what their positions are of.
OF_OPTIONS = (1, NO_ENTRY, 11)
# The rules that a file keeps or breaks whatever the options and the other files are.
OF_ONE_FILE = range(3, 8)
# What is said of a program that is too long: no rule has a number for it.
EXECUTABLE_TOO_LONG = Limit(
    "EXECUTABLE_TOO_LONG",
    "the executable would be longer than 2^30 bytes, or have more than 65,534 segments",
    "choose a smaller page, or link fewer files",
)


class Linked:
    """A file of a link: its path as it is and as it is printed, its bytes in words, and what is
    looked up in it."""

    def __init__(self, path: str, words: Words) -> None:
        self.file = os.fsencode(path)
        self.path = printable(self.file)
        self.words = words

    @cached_property
    def symbols(self) -> int:
        """The symbol table, 0 where there is none."""
        return next((index for index, _, kind, *_ in self.words.headers() if kind == SYMTAB), 0)

    @cached_property
    def kept(self) -> list[int]:
        """The sections that are sections of the object too, in order."""
        words = self.words
        strings = words.section(self.symbols, "sh_link") if self.symbols else 0
        index_table = words.index_table(self.symbols) if self.symbols else 0
        others = {0, self.symbols, strings, index_table, words.names}
        return [it for it, _, kind, *_ in words.headers() if kind != NULL and it not in others]

    def section(self, position: int) -> int:
        """The index of the section at a position; the count where there is none."""
        return self.kept[position] if position < len(self.kept) else self.words.count

    @cached_property
    def content(self) -> memoryview:
        """All its bytes; none of a file that is too long to be an object."""
        data = self.words.data
        return memoryview(data[: len(data)] if len(data) <= LONGEST else b"")

    def found(self, rule: int, index: int, entry: int = 0) -> Optional[_declared.LinkPlace]:
        """The section, the symbol or the relocation that a rule is about, by its position."""
        return link_place([self.content], (rule, 0, index, entry))

    def place(self, rule: int, index: int, entry: int) -> int:
        """Where in the file a rule of a section, a symbol or a relocation is broken: the field of
        the section header, or the entry; -1 if that is not there."""
        found = self.found(rule, index, entry)
        return int(found.record.start) + field_of(rule) if found else -1

    def index_at(self, rule: int, at: int) -> int:
        """The index of the section or symbol at such an offset; the count where there is none."""
        owner, index = record_at(self.content, at) or (-1, 0)
        if rule in OF_SECTIONS:
            return index if owner == _declared.SECTION_HEADERS else self.words.count
        start, end = self.words.content(self.symbols)
        return index if owner == _declared.CONTENTS + self.symbols else end - start

    def position_at(self, rule: int, at: int) -> tuple[int, int]:
        """The position of the section or symbol at such an offset, or of the section of relocations
        and of the entry in it; the first number is too large if there is none."""
        if rule in OF_SECTIONS:
            index = self.index_at(rule, at)
            return self.kept.index(index) if index in self.kept else len(self.kept), 0
        if rule not in OF_RELOCATIONS:
            return self.index_at(rule, at) - 1, 0
        owner, entry = record_at(self.content, at) or (-1, 0)
        section = owner - _declared.CONTENTS
        return (self.kept.index(section), entry) if section in self.kept else (len(self.kept), 0)

    def raw_name(self, position: int, most: int = LONGEST_NAME) -> bytes:
        """The name of the symbol at a position, or so many bytes of it."""
        offset = self.words.symbol(self.symbols, position + 1, "st_name")
        return self.words.name(self._strings, offset, most)

    @cached_property
    def _strings(self) -> int:
        return self.words.section(self.symbols, "sh_link")

    def default_version(self, name: bytes) -> str:
        """The name of a default version of a name, as foo@@V1 of foo and of foo@V1; empty if the
        file has none."""
        base, _, version = name.partition(b"@")
        ending = version + b"\0" if version else b""
        found = next(self._places_of(b"\0%s@@%s" % (base, ending)), None)
        return "" if found is None else self.words.string(self._strings, found + 1)

    def _places_of(self, wanted: bytes) -> Iterator[int]:
        """Where bytes are in the string table."""
        start, end = self.words.content(self._strings)
        for at in range(start, min(end, len(self.words.data)), _BYTES_AT_ONCE):
            block = self.words.data[at : min(at + _BYTES_AT_ONCE + len(wanted) - 1, end)]
            found = block.find(wanted)
            while found >= 0:
                yield at - start + found
                found = block.find(wanted, found + 1)

    # ---- in words

    def symbol_name(self, position: int) -> str:
        return self.words.symbol_name(self.symbols, position + 1)

    def machine_words(self) -> str:
        order = "big" if self.words.order == ">" else "little"
        machine = machine_words(self.words.machine)
        flags = self.words.number(48, 4)
        return f"{self.path} has order {order}, machine {machine}, flags {flags:#x}"

    def own_words(self, rule: int, index: int) -> str:
        """The section or symbol of this index, and what of it a rule looks at that needs no other
        file."""
        if rule in OF_SECTIONS:
            return self._section_words(rule, index)
        return self._symbol_words(rule, index)

    def _section_words(self, rule: int, index: int) -> str:
        words = self.words
        section = words.section_words(index)
        if rule == EMPTY_SIGNATURE:
            table, symbol = (words.section(index, it) for it in ("sh_link", "sh_info"))
            return f"{section}: signed by {words.symbol_words(table, symbol)}"
        return f"{section}: sh_flags, which is {words.section(index, 'sh_flags'):#x}"

    def _symbol_words(self, rule: int, index: int) -> str:
        words = self.words
        info, value = (words.symbol(self.symbols, index, it) for it in ("st_info", "st_value"))
        more = f"st_value {value}" if rule == _BAD_COMMON else f"type {info & 15}"
        return f"{words.symbol_words(self.symbols, index)}: binding {info >> 4}, {more}"

    def undefined_words(self, position: int) -> str:
        symbol = self.words.symbol_words(self.symbols, position + 1)
        return f"undefined name {self.symbol_name(position)}, needed by {self.path} (its {symbol})"

    def relocation(self, position: int, entry: int) -> int:
        """Where an entry of a section of relocations is; -1 where it isn't."""
        return self.place(OF_RELOCATIONS[0], position, entry)

    def relocation_words(self, position: int, entry: int) -> str:
        index = self.section(position)
        at = self.relocation(position, entry)
        own = f"relocation {entry}, which isn't there"
        if at >= 0:
            own = entry_words(self.words, index, at)
        return f"{self.path}, {self.words.section_words(index)}: {own}"


def field_of(rule: int) -> int:
    """Where in a section header the field is that a rule looks at; 0 of another rule."""
    if rule not in OF_SECTIONS:
        return 0
    return SECTION["sh_info" if rule == EMPTY_SIGNATURE else "sh_flags"][0]


def explain_alone(file: Linked, rule: int, index: int) -> Told:
    """Why a file breaks a rule of the link by itself, by the index of its section or symbol."""
    section = index if rule in OF_SECTIONS else file.symbols
    message = f"{file.own_words(rule, index)}; {reason(rule, LINK_RULES)}; {LINK_RULES[rule][2]}"
    return Told(message, [section])


def link_words(files: Sequence[Linked], rule: int, file: int, index: int, entry: int) -> str:
    """What a rule of the link is about."""
    if rule in OF_OPTIONS or file >= len(files):
        return "by the options and all files together, at no one place"
    it = files[file]
    if rule == MISMATCH:
        return f"{it.machine_words()}; {files[0].machine_words()}"
    if rule in OF_ONE_FILE:
        own = it.section(index) if rule in OF_SECTIONS else index + 1
        return f"{it.path}, {it.own_words(rule, own)}"
    if rule == TWO_DEFINITIONS:
        return _two_definitions(files, file, index)
    if rule == UNDEFINED_NAME:
        return it.undefined_words(index)
    return it.relocation_words(index, entry)


def _two_definitions(files: Sequence[Linked], file: int, index: int) -> str:
    """Both definitions of a name, of which the given one is the second."""
    own = files[file]
    found = link_place([it.content for it in files], (TWO_DEFINITIONS, file, index, 0))
    first = (found.first_file, found.first_index) if found else (file, index)
    before = "an earlier file has it"
    if first < (file, index) and files[first[0]].raw_name(first[1]) == own.raw_name(index):
        before = f"{files[first[0]].path} has it at symbol {first[1] + 1}"
    second = f"the second one at symbol {index + 1} of {own.path}"
    return f"two definitions of {own.symbol_name(index)}, {second}; {before}"
