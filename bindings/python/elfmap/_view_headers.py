"""The header, the sections, the segments and the parts of a file, as tables."""

from __future__ import annotations

from collections.abc import Callable, Iterator, Sequence
from typing import Any

from elfmap._names import machine_words, section_type
from elfmap._view_faults import BROKEN
from elfmap._view_filters import Filters
from elfmap._view_image import Extent, View
from elfmap._view_names import (
    FILES,
    SECTION_KEY,
    SECTION_LETTERS,
    SEGMENT_LETTERS,
    flags_words,
    segment_type,
)
from elfmap._view_screen import Cell, Column, Screen
from elfmap._words import HEADER
from elfmap.constants import PT

# What rows are sorted by, for each order.
Keys = dict[str, Callable[[int], Any]]
# So many names of sections are in a row, and so many segments in a summary.
_MOST_NAMES = 64
_MOST_LOADS = 16
_IN_HEX = ("e_entry", "e_phoff", "e_shoff", "e_flags")
_SECTION_COLUMNS = (
    Column("#", 0, True),
    Column("type", 1),
    Column("flags", 3),
    Column("address", 5, True),
    Column("offset", 0, True),
    Column("size", 0, True),
    Column("link", 7, True),
    Column("info", 8, True),
    Column("align", 9, True),
    Column("entry", 10, True),
    Column("name"),
)
_SEGMENT_COLUMNS = (
    Column("#", 0, True),
    Column("type"),
    Column("flags", 2),
    Column("offset", 0, True),
    Column("in file", 0, True),
    Column("address", 1, True),
    Column("in memory", 3, True),
    Column("align", 8, True),
    Column("sections", 9),
)
_PART_COLUMNS = (
    Column("from", 0, True),
    Column("to", 2, True),
    Column("bytes", 0, True),
    Column("section", 3, True),
    Column("holds", 4),
    Column("part"),
)


def header_lines(view: View, screen: Screen) -> Iterator[str]:
    """Each field of the ELF header."""
    yield from screen.title("HEADER")
    marks = view.marks
    rows = []
    for name, (at, width) in HEADER.items():
        if name.startswith("the "):
            words = view.data[at : at + width].hex(" ")
        else:
            value = view.words.number(at, width)
            words = _field_words(view, name, value)
        rows.append((Cell(f"{at:#x}"), Cell(name), Cell(words, marks.header(name))))
    columns = Column("at", 1, True), Column("field"), Column("value")
    yield from screen.table(columns, rows)


def _field_words(view: View, name: str, value: int) -> str:
    if name == "e_type":
        return f"{value} ({FILES[value]})" if value in FILES else str(value)
    if name == "e_machine":
        return machine_words(value)
    if name == "e_shnum" and not value and view.image.counts[0]:
        return f"0: section header 0 has the count, {view.image.counts[0]}"
    return f"{value:#x}" if name in _IN_HEX else str(value)


# ---- Sections


def section_lines(view: View, screen: Screen, filters: Filters, most: int = 0) -> Iterator[str]:
    """A table of sections; of a summary so many of them."""
    count = len(view.sections)
    yield from screen.title(f"SECTIONS ({count}{view.marks.of_sections})")
    chosen = [it for it in range(count) if filters.takes_section(view, it)]
    keys: Keys = {
        "size": lambda it: -view.sections[it].sh_size,
        "name": view.section_name,
        "address": lambda it: view.sections[it].sh_addr,
    }
    if filters.sort:
        chosen.sort(key=keys[filters.sort])
    shown = chosen[:most] if 0 < most < len(chosen) else chosen
    rows = (_section_row(view, it) for it in shown)
    yield from screen.table(_SECTION_COLUMNS, rows)
    if len(shown) < len(chosen):
        yield f"  … {len(chosen) - len(shown)} more: --sections"
    elif not most:
        yield from screen.text(f"  {SECTION_KEY}", "  ", "dim")
    yield from _past_end(view, screen, _ends_of_sections(view), most, "--sections")
    if view.missing[0]:
        words = f"  {view.missing[0]} section headers pass the end of the file"
        yield from screen.text(words, "  ", "red")


def _section_row(view: View, index: int) -> Sequence[Cell]:
    it = view.sections[index]
    kind = section_type(it.sh_type, view.machine)
    words = {
        "sh_type": kind,
        "sh_flags": flags_words(it.sh_flags, SECTION_LETTERS),
        "sh_addr": f"{it.sh_addr:#x}",
        "sh_offset": f"{it.sh_offset:#x}",
        "sh_size": f"{it.sh_size:,}",
        "sh_link": str(it.sh_link),
        "sh_info": str(it.sh_info),
        "sh_addralign": str(it.sh_addralign),
        "sh_entsize": str(it.sh_entsize),
    }
    cells = [Cell(word, view.marks.section(index, field)) for field, word in words.items()]
    name = view.section_name(index) if it.sh_type else ""
    mark = view.marks.name(index)
    # A name that is none depends on nothing, but its offset may break a rule.
    return Cell(str(index)), *cells, Cell(name, mark if name or mark == BROKEN else "")


def _ends_of_sections(view: View) -> Iterator[tuple[str, int, int]]:
    for index, it in enumerate(view.sections):
        yield view.section_name(index), it.sh_offset, view.content_end(it)


def _ends_of_segments(view: View) -> Iterator[tuple[str, int, int]]:
    for index, it in enumerate(view.segments):
        if it.p_type != PT.NULL:
            yield f"segment {index}", it.p_offset, it.p_offset + it.p_filesz


def _past_end(
    view: View, screen: Screen, places: Iterator[tuple[str, int, int]], most: int, option: str
) -> Iterator[str]:
    """What passes the end of the file, in words; of a summary so much."""
    found = [it for it in places if it[1] < it[2] and it[2] > view.size]
    shown = found[:most] if most else found
    for name, start, end in shown:
        place = f"  {name} [{start:#x}, {end:#x})"
        more = f"passes the end of the file, {view.size:#x}, by {end - view.size:,} bytes"
        yield from screen.text(f"{place} {more}", "  ", "red")
    if len(shown) < len(found):
        yield f"  … {len(found) - len(shown)} more: {option}"


# ---- Segments


def segment_lines(view: View, screen: Screen, filters: Filters, most: int = 0) -> Iterator[str]:
    """A table of segments, each with its sections; of a summary so many of them."""
    count = len(view.segments)
    yield from screen.title(f"SEGMENTS ({count}{view.marks.of_segments})")
    chosen = list(range(count))
    keys: Keys = {
        "size": lambda it: -view.segments[it].p_memsz,
        "address": lambda it: view.segments[it].p_vaddr,
        "name": lambda it: segment_type(view.segments[it].p_type),
    }
    if filters.sort:
        chosen.sort(key=keys[filters.sort])
    shown = chosen[:most] if 0 < most < count else chosen
    yield from screen.table(_SEGMENT_COLUMNS, (_segment_row(view, it) for it in shown))
    if len(shown) < count:
        yield f"  … {count - len(shown)} more: --segments"
    yield from _past_end(view, screen, _ends_of_segments(view), most, "--segments")
    if view.missing[1]:
        words = f"  {view.missing[1]} program headers pass the end of the file"
        yield from screen.text(words, "  ", "red")


def _segment_row(view: View, index: int) -> Sequence[Cell]:
    it = view.segments[index]
    words = {
        "p_type": segment_type(it.p_type),
        "p_flags": flags_words(it.p_flags, SEGMENT_LETTERS),
        "p_offset": f"{it.p_offset:#x}",
        "p_filesz": f"{it.p_filesz:,}",
        "p_vaddr": f"{it.p_vaddr:#x}",
        "p_memsz": f"{it.p_memsz:,}",
        "p_align": f"{it.p_align:#x}",
    }
    cells = [Cell(word, view.marks.segment(index, field)) for field, word in words.items()]
    names = _names_in(view, index)
    return Cell(str(index)), *cells, Cell(names, view.marks.of_all if names else "")


def _names_in(view: View, segment: int) -> str:
    """The names of the sections that a segment has in memory, or of the first of them."""
    found = view.sections_in(view.segments[segment], _MOST_NAMES)
    more = " …" if len(found) > _MOST_NAMES else ""
    return " ".join(map(view.section_name, found[:_MOST_NAMES])) + more


def load_lines(view: View, screen: Screen) -> Iterator[str]:
    """What is at which addresses once the file is loaded."""
    loads = view.loads()
    if not loads:
        return
    yield from screen.title("LOADED")
    rows = []
    for index in loads[:_MOST_LOADS]:
        it = view.segments[index]
        mark = view.marks.segment(index, "p_vaddr") or view.marks.segment(index, "p_memsz")
        end = it.p_vaddr + it.p_memsz
        zeros = f"{it.p_memsz - it.p_filesz:,}" if it.p_memsz > it.p_filesz else ""
        names = _names_in(view, index)
        row = Cell(f"{it.p_vaddr:#x}", mark), Cell(f"{end:#x}", mark)
        flags = Cell(flags_words(it.p_flags, SEGMENT_LETTERS), view.marks.segment(index, "p_flags"))
        file = Cell(f"{it.p_offset:#x}", view.marks.segment(index, "p_offset"))
        mark = view.marks.of_all
        of_names = Cell(names, mark if names else "")
        rows.append((*row, flags, file, Cell(zeros, mark if zeros else ""), of_names))
    columns = (
        Column("from", 0, True),
        Column("to", 0, True),
        Column("flags"),
        Column("offset", 2, True),
        Column("zeros after it", 3, True),
        Column("sections"),
    )
    yield from screen.table(columns, rows)
    if len(loads) > _MOST_LOADS:
        yield f"  … {len(loads) - _MOST_LOADS} more: --segments"


# ---- Parts


def part_lines(view: View, screen: Screen, filters: Filters) -> Iterator[str]:
    """What each byte of the file belongs to; in a file that is not sound, it may be several."""
    chosen = [it for it in view.with_gaps if filters.takes_part(it)]
    if filters.sort == "size":
        chosen.sort(key=lambda it: -it.size)
    elif filters.sort == "name":
        chosen.sort(key=lambda it: it.name)
    yield from screen.title(f"PARTS ({len(view.with_gaps)}{view.marks.of_all})")
    yield from screen.table(_PART_COLUMNS, (_part_row(view, it) for it in chosen))


def _part_row(view: View, it: Extent) -> Sequence[Cell]:
    mark = view.marks.of_all
    if it.section is not None:
        own = (view.marks.section(it.section, field) for field in ("sh_offset", "sh_size"))
        mark = max(own, key="?!".find) or ""
    past = " (past the end)" if it.end > view.size else ""
    section = "" if it.section is None else str(it.section)
    return (
        Cell(f"{it.start:#x}", mark),
        Cell(f"{it.end:#x}", mark),
        Cell(f"{it.size:,}", mark),
        Cell(section),
        Cell(it.holds, mark if it.holds else ""),
        Cell(
            (it.name or it.owner) + past, "" if it.section is None else view.marks.name(it.section)
        ),
    )
