"""Bytes of a file: in hexadecimal, or as the strings of a section."""

from __future__ import annotations

import re
from collections.abc import Iterator
from typing import Optional

from elfmap._commands import number_of
from elfmap._findings import BadWord
from elfmap._view_image import View
from elfmap._view_names import letters_of
from elfmap._view_screen import Cell, Column, Screen
from elfmap._words import found_at, printable

_LINE = 16
_LENGTH = 256
_PARTS = {"header": "ELF header"}
_RANGE = re.compile(r"([0-9a-fx]+)(?:\+([0-9a-fx]+))?")


def extent_of(view: View, word: str) -> tuple[int, int]:
    """Where the bytes are that a word names: a part, a section, or an offset and a length."""
    for it in view.parts:
        if it.section is None and word in (it.name, it.name.replace(" ", "-"), it.owner):
            return it.start, it.end
    section = view.section_of(word) if number_of(word) is None else None
    if section is not None:
        it_ = view.sections[section]
        return it_.sh_offset, view.content_end(it_)
    found = _RANGE.fullmatch(word)
    start = number_of(found[1]) if found else None
    length = number_of(found[2]) if found and found[2] else _LENGTH
    if start is None or length is None:
        raise BadWord(f"there is no part, section or offset {printable(word.encode(), 200)}")
    return start, start + length


def hex_lines(view: View, screen: Screen, word: str) -> Iterator[str]:
    """Bytes in hexadecimal and as letters, 16 a line; a byte that breaks a rule is marked."""
    start, end = extent_of(view, word)
    yield from screen.title(f"BYTES [{start:#x}, {end:#x})")
    for at in range(start, min(end, view.size), _LINE):
        line = view.data[at : min(at + _LINE, end, view.size)]
        codes = " ".join(f"{it:02x}" for it in line)
        letters = "".join(chr(it) if 0x20 <= it < 0x7F else "." for it in line)
        marked = view.marks.broken_in(at, at + len(line))
        more = "".join(f"  ! at {it:#x}" for it in marked)
        words = f"  {at:08x}  {codes:<{3 * _LINE}} {letters:<{_LINE}}{more}".rstrip()
        yield screen.paint(words, "red") if marked else words
    if end > view.size:
        yield from screen.text(f"  the file ends at {view.size:#x}", "  ", "red")
    if start < view.size:
        for it in found_at(view.words, 0, start):
            yield from screen.text(f"  {start:#x}: {it.words}{view.marks.of_all}", "    ", "dim")


def string_lines(view: View, screen: Screen, word: str, most: Optional[int]) -> Iterator[str]:
    """The strings of a section, each with its offset there."""
    index = view.section_of(word)
    if index is None:
        raise BadWord(f"there is no section {printable(word.encode('utf-8', 'replace'), 200)}")
    it = view.sections[index]
    content = view.data[it.sh_offset : view.content_end(it)]
    yield from screen.title(f"STRINGS of {view.section_name(index)}")
    mark = view.marks.content(index)
    rows = ((Cell(f"{at:#x}"), Cell(printable(own, most), mark)) for at, own in letters_of(content))
    yield from screen.table((Column("at", 0, True), Column("string")), rows)
