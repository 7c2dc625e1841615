"""Which section of a linked program a symbol lies in, and which value it has: by the lines of
`elfmap map`."""

from __future__ import annotations

from collections.abc import Iterable, Iterator, Sequence
from typing import NamedTuple, Optional, TypeVar

import elfmap
from elfmap._elf_file import ABSOLUTE, is_big_endian
from elfmap._link_words import Linked
from elfmap._map_lines import LinkMap, Place
from elfmap._words import Words
from elfmap.constants import GRP_COMDAT, SHN, SHT, STB

# A link map may have each name as hexadecimal digits, and is in memory several times.
_MOST_OF_NAMES = 1 << 28
_Named = TypeVar("_Named", elfmap.Section, elfmap.Symbol)


class LongNames(ValueError):
    """The names of all sections and symbols of a link have too many bytes."""


class Names:
    """Counts the bytes of the names of a link. Names may share bytes, so that a short file has many
    long ones."""

    def __init__(self, most: int = _MOST_OF_NAMES) -> None:
        self._left = most

    def counted(self, records: Iterable[_Named]) -> Iterator[_Named]:
        """The records, as long as their names are not too long. Raises LongNames if they are."""
        for it in records:
            self._left -= len(it.name)
            if self._left < 0:
                raise LongNames()
            yield it


class Object:
    """An object of a link, which the link has accepted.

    `kept` has the indexes of the sections that the lines of a link map count, in order, and
    `positions` the position among them by the index. `relocating` has the relocation sections of
    a section.
    """

    def __init__(self, data: bytes, names: Names) -> None:
        self.file = elfmap.parse(data)
        header = self.file.header
        self.is_big = is_big_endian(header.e_ident)
        self.machine = header.e_machine
        self.flags = header.e_flags
        self.sections = list(names.counted(self.file.sections))
        linked = Linked("", Words(data))
        self.table = linked.symbols
        self.symbols = list(names.counted(self.file.symbols(self.table)))
        self.kept = linked.kept
        self.positions = {index: position for position, index in enumerate(self.kept)}
        self.relocating: dict[int, list[int]] = {}
        for index in self.kept:
            if self.sections[index].sh_type in (SHT.RELA, SHT.REL):
                self.relocating.setdefault(self.sections[index].sh_info, []).append(index)

    def groups(self) -> Iterator[tuple[bytes, tuple[int, ...]]]:
        """The COMDAT groups: of each its signature, and the indexes of its sections."""
        for index, section in enumerate(self.sections):
            words = self.file.words(index) if section.sh_type == SHT.GROUP else ()
            if words and words[0] == GRP_COMDAT:
                yield self.symbols[section.sh_info].name, tuple(words[1:])


class Site(NamedTuple):
    """Where something is in the linked program: the index of its section there, and its address, or
    for a section that is not loaded its offset."""

    section: int
    address: int


class Values:
    """The symbols of objects, as a link has placed them.

    `sites` has each section that is in the program, by the positions in the link map.
    """

    def __init__(self, objects: Sequence[Object], link_map: LinkMap) -> None:
        self._objects = objects
        self._map = link_map
        self._twins = dict(_twins(objects, link_map.discarded))
        self._definitions = self._defined()
        self.sites: dict[Place, Site] = {}

    def _defined(self) -> dict[bytes, tuple[int, elfmap.Symbol]]:
        """The definition that each name is bound to: its file and the symbol. For a common name it
        is the first of its symbols, and for one without definition the first that names it."""
        found: dict[bytes, tuple[int, elfmap.Symbol]] = {}
        ranks: dict[bytes, int] = {}
        for file, it in enumerate(self._objects):
            for symbol in it.symbols[1:]:
                if symbol.binding == STB.LOCAL:
                    continue
                rank = self._rank(file, symbol)
                if rank > ranks.get(symbol.name, -1):
                    ranks[symbol.name] = rank
                    found[symbol.name] = file, symbol
        return found

    def _rank(self, file: int, symbol: elfmap.Symbol) -> int:
        """Which of two symbols of a name the link chooses: the higher one, and of equals the
        first."""
        if symbol.st_shndx == SHN.COMMON:
            return 2
        is_there = symbol.st_shndx != SHN.UNDEF and not self._is_discarded(file, symbol)
        if not is_there:
            return 0
        return 3 if symbol.binding == STB.GLOBAL else 1

    def _is_discarded(self, file: int, symbol: elfmap.Symbol) -> bool:
        return self._place(file, symbol) in self._map.discarded

    def _place(self, file: int, symbol: elfmap.Symbol) -> Place:
        """The position of the section of a symbol; -1 if it lies in none."""
        return file, self._objects[file].positions.get(symbol.section, -1)

    def definition(self, name: bytes) -> tuple[int, elfmap.Symbol]:
        """The file and the symbol that a name which is not local is bound to."""
        return self._definitions[name]

    def site(self, file: int, symbol: elfmap.Symbol) -> Optional[Site]:
        """Where a definition lies: its section, and its own value in the program. None if it is in
        a section that the program has not, or nowhere."""
        if symbol.st_shndx == SHN.ABS:
            return Site(ABSOLUTE, symbol.st_value)
        if symbol.st_shndx in (SHN.UNDEF, SHN.COMMON):
            return None
        site = self.sites.get(self._place(file, symbol))
        return site and Site(site.section, site.address + symbol.st_value)

    def value(self, file: int, index: int) -> Optional[int]:
        """The value of a symbol, by its index, for a relocation in a section that is not loaded.
        None if it has none.

        A section that was discarded is read as the one that was kept in its place, if there
        is one of the same name and size: ld does so for debug information.
        """
        symbol = self._objects[file].symbols[index]
        if not index:
            return 0
        if symbol.binding != STB.LOCAL:
            value = self._map.names[symbol.name].value
            return value if value is not None else self._value_of(*self.definition(symbol.name))
        return self._value_of(file, symbol)

    def _value_of(self, file: int, symbol: elfmap.Symbol) -> Optional[int]:
        site = self.site(file, symbol)
        if site is None and symbol.st_shndx not in (SHN.UNDEF, SHN.COMMON):
            twin = self.sites.get(self._twins.get(self._place(file, symbol), (-1, -1)))
            return twin and twin.address + symbol.st_value
        return site and site.address


def _twins(objects: Sequence[Object], discarded: set[Place]) -> Iterator[tuple[Place, Place]]:
    """Of each discarded section that has one, the section of its name and size in the group of its
    signature that was kept."""
    kept: dict[tuple[bytes, bytes, int], Place] = {}
    for file, it in enumerate(objects):
        for signature, members in it.groups():
            for index in members:
                place = file, it.positions[index]
                section = it.sections[index]
                key = signature, section.name, section.sh_size
                if place not in discarded:
                    kept.setdefault(key, place)
                elif key in kept:
                    yield place, kept[key]
