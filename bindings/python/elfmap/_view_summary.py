"""A file on one screen: what is wrong with it, what it is, and what is in it."""

from __future__ import annotations

import heapq
import os
from collections.abc import Iterator

from elfmap._names import machine_words
from elfmap._origin import origin_of
from elfmap._view_bar import bar_lines
from elfmap._view_demangle import Demangler
from elfmap._view_faults import Fault
from elfmap._view_filters import Filters
from elfmap._view_headers import load_lines, section_lines, segment_lines
from elfmap._view_image import MOST_LETTERS, Symbol, View
from elfmap._view_names import FILES, rule_words
from elfmap._view_screen import LEGEND, Cell, Column, Screen, cut
from elfmap._words import explain, found_at, one_line
from elfmap.constants import ET, SHT

_MOST_SECTIONS = 16
_MOST_SEGMENTS = 8
_MOST_LARGEST = 5
_MOST_FINDINGS = 3
_MOST_PLACES = 4
_FIRST_BYTES = 64


def fault_lines(view: View, screen: Screen, most: int = 0) -> Iterator[str]:
    """What the file breaks, in words, with the likely causes: of each rule the first fault, and
    where the others are; of a summary so many of these."""
    faults = view.faults.every
    if not faults:
        return
    # Of a sound file no cause is looked for.
    from elfmap._hints import hints

    for rule in dict.fromkeys(it.rule for it in faults):
        first, *others = (it for it in faults if it.rule == rule)
        told = explain(view.words, rule, first.at, first.table).message
        yield from screen.text(f"  ! {rule_words(rule)} at {first.at:#x}: {told}", "    ", "red")
        for words in hints(view.words, os.fsdecode(view.path), rule, first.at):
            yield from screen.text(f"    likely cause: {words}", "    ")
        # What broke a rule at an offset may have been left out, and another part breaks it there.
        others = list(dict.fromkeys(it for it in others if it != first))
        shown = others[:most] if most else others
        for it in shown:
            words = _also_words(view, it)
            yield from screen.text(f"    also at {it.at:#x}: {words}", "      ", "red")
        if len(shown) < len(others):
            yield f"    … {len(others) - len(shown)} more of this rule: --all"
    if not view.faults.is_complete:
        words = "    the rules after it are not tested: all values depend on what is wrong here"
        yield from screen.text(words, "    ", "yellow")


def _also_words(view: View, fault: Fault) -> str:
    """What is at another offset at which the same rule is broken."""
    places = found_at(view.words, fault.rule, fault.at, fault.table, _MOST_PLACES)
    more = f"; {len(places) - _MOST_PLACES} more" if len(places) > _MOST_PLACES else ""
    table = f"the table in {view.section_name(fault.table)}: " if fault.table is not None else ""
    return table + "; ".join(it.words for it in places[:_MOST_PLACES]) + more


def head_lines(view: View, screen: Screen, most: int = 0) -> Iterator[str]:
    """The name of the file, what is wrong with it, and what it is."""
    path = one_line(view.path).decode("utf-8", "surrogateescape")
    faults = view.faults
    tables = {it.table for it in faults.of_tables}
    verdict = Cell("sound: it keeps all rules of files and tables", "", "green")
    if faults.of_image:
        verdict = Cell(f"refused: {rule_words(faults.of_image[0].rule)}", "", "red")
    elif tables:
        words = "1 table breaks" if len(tables) == 1 else f"{len(tables)} tables break"
        verdict = Cell(f"the file keeps all rules of files; {words} a rule", "", "red")
    yield screen.paint(path, "bold")
    yield from screen.facts([("verdict", verdict)])
    yield from fault_lines(view, screen, most)
    if not view.has_header:
        yield from _first_bytes(view, screen)
        return
    yield from screen.facts(_facts(view))


def _first_bytes(view: View, screen: Screen) -> Iterator[str]:
    """How a file begins that is no ELF-64 file."""
    yield from screen.facts([("size", Cell(f"{view.size:,} bytes"))])
    for at in range(0, min(view.size, _FIRST_BYTES), 16):
        line = view.data[at : min(at + 16, _FIRST_BYTES)]
        letters = "".join(chr(it) if 0x20 <= it < 0x7F else "." for it in line)
        yield f"  {at:08x}  {line.hex(' '):<48} {letters}"


def _facts(view: View) -> Iterator[tuple[str, Cell]]:
    """What the file is: each fact by its name."""
    marks = view.marks
    words = view.words
    kind = words.number(16, 2)
    order = "big-endian" if words.order == ">" else "little-endian"
    name = FILES.get(kind, f"file of type {kind}")
    yield "kind", Cell(f"ELF-64 {name}", marks.header("e_type"))
    mark = marks.header("e_machine") or marks.header("the data encoding in e_ident")
    yield "machine", Cell(f"{machine_words(view.machine)}, {order}", mark)
    sections, segments = view.image.counts
    of_sections = marks.header("e_shnum") or marks.of_sections
    of_segments = marks.header("e_phnum") or marks.of_segments
    counts = f"{sections} section headers{of_sections}, {segments} program headers{of_segments}"
    yield "size", Cell(f"{view.size:,} bytes, {counts}", "", of_sections or of_segments)
    entry = words.number(24, 8)
    if entry or kind != ET.REL:
        mark = marks.header("e_entry")
        yield "entry", Cell(f"{entry:#x}{_entry_words(view, entry)}", mark or marks.of_all)
    origin = origin_of(words)
    if origin.build_id:
        yield "build id", Cell(origin.build_id, marks.of_all)
    if origin.producers:
        yield "made by", Cell(_producers(origin.producers), marks.of_all)


def _producers(producers: tuple[str, ...]) -> str:
    """The first of several, in a line."""
    more = f" and {len(producers) - 1} more" if len(producers) > 1 else ""
    return cut(producers[0], MOST_LETTERS) + more


def _entry_words(view: View, entry: int) -> str:
    """The section and the symbol at the entry point."""
    section = view.section_at(entry) if entry else None
    if section is None:
        return ""
    found = view.nearest(section, entry)
    symbol = ""
    if found:
        name = view.symbol_name(found[0].it)
        symbol = f", {name}" + (f" + {found[1]:#x}" if found[1] else "")
    return f" in {view.section_name(section)}{symbol}"


def summary_lines(
    view: View, screen: Screen, filters: Filters, demangler: Demangler
) -> Iterator[str]:
    """The whole summary of a file."""
    yield from head_lines(view, screen, _MOST_FINDINGS)
    if view.has_header:
        yield ""
        yield from bar_lines(view, screen)
        yield from section_lines(view, screen, filters, _MOST_SECTIONS)
        if view.segments or view.missing[1]:
            yield from segment_lines(view, screen, filters, _MOST_SEGMENTS)
            yield from load_lines(view, screen)
        yield from largest_lines(view, screen, demangler)
    yield from legend(view, screen)


def legend(view: View, screen: Screen) -> Iterator[str]:
    """What the marks mean, where there are any."""
    if view.marks.has_any and view.has_header:
        yield ""
        yield from screen.text(f"  {LEGEND}", "  ")


def largest_lines(view: View, screen: Screen, demangler: Demangler) -> Iterator[str]:
    """The largest sections and symbols."""
    sections = heapq.nlargest(
        _MOST_LARGEST,
        (it for it in range(len(view.sections)) if view.sections[it].sh_type != SHT.NULL),
        key=lambda it: (view.sections[it].sh_size, -it),
    )
    symbols = view.largest_symbols(_MOST_LARGEST)
    rows = [_largest_section(view, it) for it in sections if view.sections[it].sh_size]
    demangler.learn(view.symbol_name(it.it) for it in symbols)
    rows += [_largest_symbol(view, it, demangler) for it in symbols]
    if not rows:
        return
    yield from screen.title("LARGEST")
    columns = Column("bytes", 0, True), Column("of"), Column("what", 0, True), Column("name")
    yield from screen.table(columns, rows)


def _largest_section(view: View, index: int) -> tuple[Cell, ...]:
    it = view.sections[index]
    share = (
        f"{100 * it.sh_size / max(view.size, 1):.1f} %" if it.sh_type != SHT.NOBITS else "memory"
    )
    mark = view.marks.section(index, "sh_size")
    name = Cell(view.section_name(index), view.marks.name(index))
    return Cell(f"{it.sh_size:,}", mark), Cell("section"), Cell(share, mark), name


def _largest_symbol(view: View, symbol: Symbol, demangler: Demangler) -> tuple[Cell, ...]:
    mark = view.marks.content(symbol.table)
    size = Cell(f"{symbol.it.st_size:,}", mark)
    name = demangler.name(view.symbol_name(symbol.it))
    section = view.section_name(symbol.it.section)
    return size, Cell("symbol"), Cell(section, mark), Cell(name, mark)
