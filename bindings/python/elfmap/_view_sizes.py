"""How many bytes of a file each section, segment and symbol has, and each gap.

In each table a byte of the file is counted once, so that the numbers add up to the file. A byte of
several parts, as a file that is not sound may have, is counted for the one that begins first.
"""

from __future__ import annotations

from collections.abc import Iterable, Iterator, Sequence
from typing import NamedTuple

from elfmap._view_demangle import Demangler
from elfmap._view_image import Extent, View
from elfmap._view_names import SEGMENT_LETTERS, flags_words
from elfmap._view_screen import Cell, Column, Screen
from elfmap.constants import ET, SHF, SHT, STT

_MOST_ROWS = 30
_NO_SYMBOL = "[no symbol]"
_NO_PLACES = (STT.FILE, STT.SECTION)


class Size(NamedTuple):
    """Bytes of a name: in the file, and in memory once it is loaded."""

    name: str
    file: int
    memory: int


def pieces(view: View) -> Iterator[Extent]:
    """The file cut into its parts and gaps: each byte is in one of them."""
    at = 0
    for it in view.with_gaps:
        start = max(it.start, at)
        end = min(it.end, view.size)
        if start < end:
            yield it._replace(start=start, end=end)
            at = end


def _added(sizes: Iterable[Size]) -> list[Size]:
    """Sizes of the same name together, the largest first."""
    found: dict[str, Size] = {}
    for it in sizes:
        own = found.get(it.name, Size(it.name, 0, 0))
        found[it.name] = Size(it.name, own.file + it.file, own.memory + it.memory)
    return sorted(found.values(), key=lambda it: (-it.file, -it.memory, it.name))


def by_section(view: View) -> list[Size]:
    """Those of sections, headers and gaps. Sections of the same name are counted together."""
    sizes = []
    for it in pieces(view):
        name = "[gaps]" if it.kind == "gap" else it.name if it.section else f"[{it.name}]"
        sizes.append(Size(name, it.size, 0))
    for index, section in enumerate(view.sections):
        if section.sh_flags & SHF.ALLOC and section.sh_type != SHT.NULL:
            sizes.append(Size(view.section_name(index), 0, section.sh_size))
    return _added(sizes)


def by_segment(view: View) -> list[Size]:
    """Those of loadable segments, and the bytes that are in none."""
    sizes = []
    at = loaded = 0
    order = sorted(view.loads(), key=lambda it: view.segments[it].p_offset)
    for index in order:
        it = view.segments[index]
        start = max(it.p_offset, at)
        end = min(it.p_offset + it.p_filesz, view.size)
        own = max(end - start, 0)
        at = max(at, end)
        loaded += own
        name = f"LOAD {index} {flags_words(it.p_flags, SEGMENT_LETTERS)}"
        sizes.append(Size(name, own, it.p_memsz))
    return [*_added(sizes), Size("[not loaded]", view.size - loaded, 0)]


def by_symbol(view: View) -> list[Size]:
    """Those of symbols, and of sections the bytes that no symbol has."""
    places = _places(view)
    sizes = []
    for it in pieces(view):
        if it.section is None:
            sizes.append(Size("[gaps]" if it.kind == "gap" else f"[{it.name}]", it.size, 0))
            continue
        section = view.sections[it.section]
        is_loaded = bool(section.sh_flags & SHF.ALLOC)
        first = it.start - section.sh_offset
        rest = it.size
        for name, size in _cut(places.get(it.section, ()), first, first + it.size):
            sizes.append(Size(name, size, size if is_loaded else 0))
            rest -= size
        sizes.append(Size(f"[{it.name}]", rest, rest if is_loaded else 0))
    for index, section in enumerate(view.sections):
        if section.sh_type == SHT.NOBITS and section.sh_flags & SHF.ALLOC:
            rest = section.sh_size
            for name, size in _cut(places.get(index, ()), 0, section.sh_size):
                sizes.append(Size(name, 0, size))
                rest -= size
            sizes.append(Size(f"[{view.section_name(index)}]", 0, rest))
    return [it for it in _added(sizes) if it.file or it.memory]


Place = tuple[int, int, str]


def _places(view: View) -> dict[int, list[Place]]:
    """Of each section the symbols in it: where they begin and end, and their names."""
    is_relocatable = view.words.number(16, 2) == ET.REL
    found: dict[int, list[Place]] = {}
    for table in view.symbol_tables:
        for symbol in view.symbols(table):
            it = symbol.it
            has_bytes = view.is_in_section(it) and it.st_size
            if not has_bytes or it.symbol_type in _NO_PLACES:
                continue
            base = 0 if is_relocatable else view.sections[it.section].sh_addr
            start = it.st_value - base
            place = start, start + it.st_size, view.symbol_name(it)
            found.setdefault(it.section, []).append(place)
    return {section: sorted(own, key=lambda it: (it[0], -it[1])) for section, own in found.items()}


def _cut(places: Iterable[Place], first: int, last: int) -> Iterator[tuple[str, int]]:
    """The bytes of symbols between two offsets, each byte once."""
    at = first
    for begins, ends, name in places:
        start = max(begins, at)
        end = min(ends, last)
        if start < end:
            yield name, end - start
            at = end


def size_lines(view: View, screen: Screen, demangler: Demangler) -> Iterator[str]:
    """All three tables, each with its total."""
    for title, sizes in (
        ("SIZES BY SECTION", by_section(view)),
        ("SIZES BY SEGMENT", by_segment(view) if view.segments else []),
        ("SIZES BY SYMBOL", by_symbol(view) if view.symbol_tables else []),
    ):
        if sizes:
            yield from _size_table(view, screen, title, sizes, demangler)


def _size_table(
    view: View, screen: Screen, title: str, sizes: Sequence[Size], demangler: Demangler
) -> Iterator[str]:
    yield from screen.title(title)
    mark = view.marks.of_all
    shown = list(sizes[:_MOST_ROWS])
    others = sizes[_MOST_ROWS:]
    demangler.learn(it.name for it in shown)
    if others:
        name = f"[{len(others)} more]"
        shown.append(Size(name, sum(it.file for it in others), sum(it.memory for it in others)))
    rows = [_size_row(view, it, mark, demangler) for it in shown]
    total = Size("total", sum(it.file for it in sizes), sum(it.memory for it in sizes))
    rows.append(_size_row(view, total, mark, demangler))
    columns = (
        Column("in file", 0, True),
        Column("share", 2, True),
        Column("in memory", 1, True),
        Column("name"),
    )
    yield from screen.table(columns, rows)


def _size_row(view: View, it: Size, mark: str, demangler: Demangler) -> Sequence[Cell]:
    share = f"{100 * it.file / max(view.size, 1):.1f} %"
    # The total is that of the file, whatever is in it.
    own = "" if it.name == "total" else mark
    memory = Cell(f"{it.memory:,}", mark)
    return Cell(f"{it.file:,}", own), Cell(share, own), memory, Cell(demangler.name(it.name), own)


# ---- The differences of two files


def diff_lines(one: View, other: View, screen: Screen, demangler: Demangler) -> Iterator[str]:
    """By how many bytes the second file is longer, by section and by symbol."""
    for title, before, after in (
        ("CHANGES BY SECTION", by_section(one), by_section(other)),
        ("CHANGES BY SYMBOL", by_symbol(one), by_symbol(other)),
    ):
        yield from screen.title(title)
        rows = changes(before, after)
        demangler.learn(it.name for it in rows)
        mark = one.marks.of_all or other.marks.of_all
        cells = [_change_row(it, mark, demangler) for it in rows]
        file = sum(it.file for it in rows)
        total = Size("total", file, sum(it.memory for it in rows))
        cells.append(_change_row(total, mark, demangler))
        columns = Column("in file", 0, True), Column("in memory", 0, True), Column("name")
        yield from screen.table(columns, cells)


def changes(before: Iterable[Size], after: Iterable[Size]) -> list[Size]:
    """What of each name is more or less; the largest change first."""
    less = [Size(it.name, -it.file, -it.memory) for it in before]
    every = (it for it in _added([*less, *after]) if it.file or it.memory)
    return sorted(every, key=lambda it: (-abs(it.file), -abs(it.memory), it.name))


def _change_row(it: Size, mark: str, demangler: Demangler) -> Sequence[Cell]:
    own = "" if it.name == "total" else mark
    style = "red" if it.file > 0 else "green" if it.file < 0 else ""
    numbers = [Cell(f"{number:+,}", own, style) for number in (it.file, it.memory)]
    return *numbers, Cell(demangler.name(it.name), own)
