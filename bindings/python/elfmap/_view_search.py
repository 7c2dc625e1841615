"""What is at an address or an offset, and where a name is."""

from __future__ import annotations

import fnmatch
from collections.abc import Iterator

import elfmap
from elfmap._view_demangle import Demangler
from elfmap._view_image import View, defined_words
from elfmap._view_names import symbol_binding, symbol_type
from elfmap._view_screen import Screen
from elfmap._words import found_at, printable
from elfmap.constants import ET, SHN, SHT


def at_lines(view: View, screen: Screen, number: int, demangler: Demangler) -> Iterator[str]:
    """What is at a number, taken for an address and for an offset of the file."""
    yield from screen.title(f"AT {number:#x}")
    mark = view.marks.of_all
    section = view.section_at(number)
    offset = view.offset_of(number)
    if section is not None or offset is not None:
        yield from screen.text(
            f"  address {number:#x}: {_address_words(view, number, demangler)}{mark}"
        )
    else:
        yield from screen.text(f"  address {number:#x}: not loaded{mark}")
    for it in found_at(view.words, 0, number):
        yield from screen.text(f"  offset {number:#x}: {it.words}{mark}", "    ")
        if it.kind == "content" and it.section is not None and it.section < len(view.sections):
            words = symbol_words(view, it.section, number, demangler)
            yield from (screen.text(f"    {words}{mark}", "    ") if words else ())


def _address_words(view: View, address: int, demangler: Demangler) -> str:
    """The section, the symbol and the offset of an address."""
    found = []
    section = view.section_at(address)
    if section is not None:
        own = view.sections[section]
        found.append(f"{view.section_name(section)} + {address - own.sh_addr:#x}")
        found += [it for it in [nearest_words(view, section, address, demangler)] if it]
    offset = view.offset_of(address)
    found.append("no byte of the file" if offset is None else f"offset {offset:#x} of the file")
    return ", ".join(found)


def symbol_words(view: View, section: int, offset: int, demangler: Demangler) -> str:
    """The symbol that has a byte of the content of a section."""
    own = view.sections[section]
    is_relocatable = view.words.number(16, 2) == ET.REL
    base = 0 if is_relocatable else own.sh_addr
    return nearest_words(view, section, base + offset - own.sh_offset, demangler)


def nearest_words(view: View, section: int, value: int, demangler: Demangler) -> str:
    found = view.nearest(section, value)
    if not found:
        return ""
    symbol, behind = found
    name = view.symbol_name(symbol.it)
    demangler.learn([name])
    return f"symbol {demangler.name(name)}" + (f" + {behind:#x}" if behind else "")


def find_lines(view: View, name: str, demangler: Demangler) -> Iterator[str]:
    """Where a name is: as that of a section or of a symbol."""
    for index, section in enumerate(view.sections):
        if section.name and _fits(printable(section.name), name):
            mark = view.marks.name(index)
            fields = (view.marks.section(index, it) for it in ("sh_offset", "sh_size"))
            more = next((it for it in fields if it), "")
            place = f"[{section.sh_offset:#x}, {view.content_end(section):#x})"
            yield f"section {view.section_name(index)}{mark} {place}{more}"
    for table in view.tables(SHT.SYMTAB, SHT.DYNSYM):
        every = (it.it for it in view.symbols(table) if it.it.name)
        found = [it for it in every if _fits(view.symbol_name(it), name)]
        demangler.learn(map(view.symbol_name, found))
        yield from (_symbol_line(view, table, it, demangler) for it in found)


def _symbol_line(view: View, table: int, it: elfmap.Symbol, demangler: Demangler) -> str:
    """A symbol: its name, its table, and where it is defined."""
    mark = view.marks.content(table)
    own = demangler.name(view.symbol_name(it)) + mark
    kind = f"{symbol_binding(it.binding)} {symbol_type(it.symbol_type)}"
    words = f"symbol {own} in {view.section_name(table)}: {kind}"
    if it.st_shndx == SHN.UNDEF:
        return f"{words}, undefined"
    return f"{words}, {defined_words(view, it)} {it.st_value:#x}, {it.st_size:,} bytes{mark}"


def _fits(own: str, name: str) -> bool:
    return own == name or fnmatch.fnmatchcase(own, name)
