"""The entries of a file's tables: symbols, relocations, dynamic arrays, notes, groups and hash
tables."""

from __future__ import annotations

import itertools
from collections.abc import Callable, Iterator, Sequence
from typing import TypeVar

from elfmap._names import STRING_TAGS, relocation_types
from elfmap._view_demangle import Demangler
from elfmap._view_filters import Filters
from elfmap._view_image import MOST_LETTERS, Symbol, View, defined_words, place_words
from elfmap._view_names import (
    dynamic_tag,
    dynamic_value,
    note_owner,
    note_words,
    rule_words,
    symbol_binding,
    symbol_type,
    symbol_visibility,
)
from elfmap._view_screen import Cell, Column, Screen, Table
from elfmap._view_tables import AT_ONCE, Relocations, Symbols, all_printable
from elfmap._words import ENTRY_SIZES, printable
from elfmap.constants import GRP_COMDAT, SHT, STT

# Names are demangled so many at once.
_NAMES_AT_ONCE = AT_ONCE
_LONGEST_DESC = 32
_SYMBOL_COLUMNS = (
    Column("#", 4, True),
    Column("value", 0, True),
    Column("size", 0, True),
    Column("type", 2),
    Column("bind", 3),
    Column("visibility", 9),
    Column("section", 1),
    Column("name"),
)
_RELOCATION_COLUMNS = (
    Column("#", 4, True),
    Column("offset", 0, True),
    Column("type", 1),
    Column("addend", 2, True),
    Column("symbol"),
)


def _table_title(view: View, screen: Screen, title: str, index: int, more: str) -> Iterator[str]:
    """The title of a table in a section, and whether it is sound."""
    name = view.section_name(index) + view.marks.name(index)
    yield from screen.title(f"{title} of {name}{more}{view.marks.content(index)}")
    fault = view.faults.by_table.get(index)
    if fault:
        words = f"  {rule_words(fault.rule)} at {fault.at:#x}: see the findings"
        yield from screen.text(words, "  ", "red")
    if index in view.faults.untested:
        words = "  it is not tested: it depends on a section that breaks a rule"
        yield from screen.text(words, "  ", "yellow")


def _place(view: View, table: int, index: int) -> tuple[int, int]:
    """Where an entry of a table is in the file, and how long it is."""
    section = view.sections[table]
    size = ENTRY_SIZES.get(section.sh_type, 1)
    return section.sh_offset + size * index, size


# ---- Symbols


def symbol_lines(
    view: View, screen: Screen, filters: Filters, demangler: Demangler
) -> Iterator[str]:
    """All symbols of all symbol tables."""
    # A table of many entries without marks takes no cell for each value.
    is_plain = filters.takes_all_symbols and not demangler.is_wanted and not view.marks.has_any
    for table in view.tables(SHT.SYMTAB, SHT.DYNSYM):
        count = view.image.symbol_count(table)
        yield from _table_title(view, screen, "SYMBOLS", table, f" ({count})")
        if is_plain:
            laid_out = Table(screen, _SYMBOL_COLUMNS)
            for some in view.image.symbol_blocks(table):
                yield from laid_out.plain_lines(_symbol_columns(view, table, some))
        else:
            chosen = (it for it in view.symbols(table) if filters.takes_symbol(view, it))
            yield from symbol_table(view, screen, _sorted(view, chosen, filters), demangler)


def _symbol_columns(view: View, table: int, some: Symbols) -> list[list[str]]:
    """The words of each column, as `_symbol_row` has them."""
    count = len(some.st_name)
    names = all_printable(view.names_of(table, some), MOST_LETTERS)
    places = list(zip(some.st_shndx, some.section))
    if not all(names):
        infos = zip(names, some.st_info, some.section)
        names = [name or _name_without(view, info, section) for name, info, section in infos]
    return [
        list(map(str, range(some.first, some.first + count))),
        list(map(hex, some.st_value)),
        list(map("{:,}".format, some.st_size)),
        _named(some.st_info, lambda info: symbol_type(info & 15)),
        _named(some.st_info, lambda info: symbol_binding(info >> 4)),
        _named(some.st_other, symbol_visibility),
        _named(places, lambda place: place_words(view, *place)),
        names,
    ]


_Value = TypeVar("_Value")


def _named(values: Sequence[_Value], name: Callable[[_Value], str]) -> list[str]:
    """The name of each value; that of equal ones is made once."""
    names = {it: name(it) for it in set(values)}
    return [names[it] for it in values]


def _name_without(view: View, info: int, section: int) -> str:
    """How a symbol is called that has no name."""
    return view.section_name(section) if info & 15 == STT.SECTION else ""


def _sorted(view: View, symbols: Iterator[Symbol], filters: Filters) -> Iterator[Symbol]:
    if filters.sort == "size":
        return iter(sorted(symbols, key=lambda it: -it.it.st_size))
    if filters.sort == "address":
        return iter(sorted(symbols, key=lambda it: it.it.st_value))
    if filters.sort == "name":
        return iter(sorted(symbols, key=lambda it: view.symbol_name(it.it)))
    return symbols


def symbol_table(
    view: View, screen: Screen, symbols: Iterator[Symbol], demangler: Demangler
) -> Iterator[str]:
    yield from screen.table(_SYMBOL_COLUMNS, _symbol_rows(view, symbols, demangler))


def _symbol_rows(
    view: View, symbols: Iterator[Symbol], demangler: Demangler
) -> Iterator[Sequence[Cell]]:
    while some := list(itertools.islice(symbols, _NAMES_AT_ONCE)):
        demangler.learn(view.symbol_name(it.it) for it in some)
        for it in some:
            yield _symbol_row(view, it, demangler)


def _symbol_row(view: View, symbol: Symbol, demangler: Demangler) -> Sequence[Cell]:
    it = symbol.it
    mark = view.marks.entry(symbol.table, *_place(view, symbol.table, symbol.position))
    of_section = view.marks.name(it.section) if view.is_in_section(it) else ""
    name = demangler.name(view.symbol_name(it))
    return (
        Cell(str(symbol.position)),
        Cell(f"{it.st_value:#x}", mark),
        Cell(f"{it.st_size:,}", mark),
        Cell(symbol_type(it.symbol_type), mark),
        Cell(symbol_binding(it.binding), mark),
        Cell(symbol_visibility(it.st_other), mark),
        Cell(defined_words(view, it), mark or of_section),
        Cell(name, mark if name else ""),
    )


# ---- Relocations


def relocation_lines(
    view: View, screen: Screen, filters: Filters, demangler: Demangler
) -> Iterator[str]:
    """All relocations of all sections that have some."""
    is_plain = filters.name is None and not demangler.is_wanted and not view.marks.has_any
    for table in view.tables(SHT.RELA, SHT.REL):
        section = view.sections[table]
        target = section.sh_info
        is_shown = filters.takes_table(view, table) or filters.takes_table(view, target)
        if not is_shown:
            continue
        count = view.image.relocation_count(table)
        about = f", of {view.section_name(target)}" if target else ""
        yield from _table_title(view, screen, "RELOCATIONS", table, f"{about} ({count})")
        if is_plain:
            laid_out = Table(screen, _RELOCATION_COLUMNS)
            symbols = SymbolNames(view, section.sh_link)
            for some in view.image.relocation_blocks(table):
                yield from laid_out.plain_lines(_relocation_columns(view, symbols, some))
        else:
            rows = _relocation_rows(view, table, filters, demangler)
            yield from screen.table(_RELOCATION_COLUMNS, rows)


def _relocation_columns(view: View, symbols: SymbolNames, some: Relocations) -> list[list[str]]:
    """The words of each column, as `_relocation_rows` has them."""
    names = relocation_types(view.machine)
    return [
        list(map(str, range(some.first, some.first + len(some.r_offset)))),
        list(map(hex, some.r_offset)),
        _named(some.relocation_type, lambda kind: names.get(kind, str(kind))),
        list(map(hex, some.r_addend)),
        _named(some.symbol, symbols.of),
    ]


def _relocation_rows(
    view: View, table: int, filters: Filters, demangler: Demangler
) -> Iterator[Sequence[Cell]]:
    names = relocation_types(view.machine)
    symbols = SymbolNames(view, view.sections[table].sh_link)
    for some in view.image.relocation_blocks(table):
        rows = zip(some.r_offset, some.relocation_type, some.r_addend, map(symbols.of, some.symbol))
        named = [(index, *it) for index, it in enumerate(rows, some.first)]
        chosen = [it for it in named if filters.takes_name(it[-1])]
        demangler.learn(it[-1] for it in chosen)
        for index, offset, kind, addend, name in chosen:
            mark = view.marks.entry(table, *_place(view, table, index))
            yield (
                Cell(str(index)),
                Cell(f"{offset:#x}", mark),
                Cell(names.get(kind, str(kind)), mark),
                Cell(f"{addend:#x}", mark),
                Cell(demangler.name(name), mark if name else ""),
            )


class SymbolNames:
    """How the symbols are called that relocations name, each of which is read once."""

    def __init__(self, view: View, table: int) -> None:
        self._view = view
        self._table = table
        self._known: dict[int, str] = {}

    def of(self, index: int) -> str:
        if index not in self._known:
            self._known[index] = self._found(index)
        return self._known[index]

    def _found(self, index: int) -> str:
        found = self._view.symbol(self._table, index)
        name = self._view.symbol_name(found) if found else ""
        # A relocation of symbol 0 has none.
        if name or not index:
            return name
        return f"symbol {index}" if found else f"symbol {index}, which isn't there"


# ---- Others


def dynamic_lines(view: View, screen: Screen, filters: Filters) -> Iterator[str]:
    """The entries of dynamic arrays, before the first DT_NULL."""
    for table in view.tables(SHT.DYNAMIC):
        if not filters.takes_table(view, table):
            continue
        every = list(view.image.entries_of_dynamic(table))
        yield from _table_title(view, screen, "DYNAMIC ARRAY", table, f" ({len(every)})")
        rows = []
        for index, it in enumerate(every):
            mark = view.marks.entry(table, *_place(view, table, index))
            is_string = it.d_tag in STRING_TAGS
            words = printable(it.string, MOST_LETTERS) if is_string else ""
            value = Cell(dynamic_value(it.d_tag, it.d_un), mark)
            tag = Cell(dynamic_tag(it.d_tag), mark)
            rows.append((Cell(str(index)), tag, value, Cell(words, mark if words else "")))
        columns = Column("#", 1, True), Column("tag"), Column("value", 0, True), Column("string")
        yield from screen.table(columns, rows)


def note_lines(view: View, screen: Screen, filters: Filters) -> Iterator[str]:
    """The notes of note sections."""
    for table in view.tables(SHT.NOTE):
        if not filters.takes_table(view, table):
            continue
        yield from _table_title(view, screen, "NOTES", table, "")
        rows = []
        mark = view.marks.content(table)
        for it in view.image.notes(table):
            more = "…" if len(it.desc) > _LONGEST_DESC else ""
            desc = bytes(it.desc[:_LONGEST_DESC]).hex() + more
            words = note_words(it.name, it.n_type)
            cells = (note_owner(it.name), words, f"{len(it.desc):,}", desc)
            rows.append([Cell(word, mark) for word in cells])
        columns = Column("owner"), Column("type"), Column("bytes", 0, True), Column("descriptor")
        yield from screen.table(columns, rows)


def group_lines(view: View, screen: Screen, filters: Filters) -> Iterator[str]:
    """The groups of sections, and their members."""
    groups = [it for it in view.tables(SHT.GROUP) if filters.takes_table(view, it)]
    if not groups:
        return
    yield from screen.title(f"GROUPS ({len(groups)})")
    rows = []
    for table in groups:
        section = view.sections[table]
        found = view.symbol(section.sh_link, section.sh_info)
        signature = view.symbol_name(found) if found else f"symbol {section.sh_info}"
        words = view.image.words(table)
        flags = words[0] if words else 0
        members = " ".join(view.section_name(it) for it in words[1:])
        mark = view.marks.content(table)
        kind = "COMDAT" if flags == GRP_COMDAT else f"{flags:#x}"
        cells = (str(table), kind, signature, members)
        rows.append([Cell(word, mark if k else "") for k, word in enumerate(cells)])
    columns = Column("#", 0, True), Column("flags"), Column("signature"), Column("members")
    yield from screen.table(columns, rows)


def hash_lines(view: View, screen: Screen, filters: Filters) -> Iterator[str]:
    """How full the hash tables are."""
    tables = [it for it in view.tables(SHT.HASH) if filters.takes_table(view, it)]
    for table in tables:
        yield from _table_title(view, screen, "HASH TABLE", table, "")
        words = view.image.words(table)
        mark = view.marks.content(table)
        buckets, symbols = (words[0], words[1]) if len(words) >= 2 else (0, 0)
        lengths = _chains(words[2 : 2 + buckets], words[2 + buckets :])
        facts = [("buckets", Cell(f"{buckets:,}", mark)), ("symbols", Cell(f"{symbols:,}", mark))]
        used = sum(it > 0 for it in lengths)
        facts.append(("used", Cell(f"{used:,} of {buckets:,} buckets", mark)))
        facts.append(("longest", Cell(f"{max(lengths, default=0):,} symbols in a bucket", mark)))
        yield from screen.facts(facts)


def _chains(buckets: Sequence[int], chain: Sequence[int]) -> list[int]:
    """How many symbols are in each bucket; no more are counted than there are."""
    found = []
    left = len(chain)
    for at in buckets:
        length = 0
        while 0 < at < len(chain) and left:
            length += 1
            left -= 1
            at = chain[at]
        found.append(length)
    return found
