"""The relocations of the sections that are not loaded, by the proved library.

Objects are made here that have these sections as loaded ones, and no others; and each symbol that
a relocation names is an absolute one with the value that it has in the program. In the link map of
such an object the bytes of its sections are relocated.
"""

from __future__ import annotations

import struct
from collections.abc import Iterable, Iterator, Sequence
from itertools import chain, groupby
from typing import NamedTuple, Optional

import elfmap
from elfmap._columns import Column
from elfmap._debug_sections import DebugSection, Member, NotRelocated, made_object
from elfmap._elf_file import ABSOLUTE, Row, Symbol, order_of, symbol_rows
from elfmap._link_values import Object, Values
from elfmap._map_lines import LinkMap, Place
from elfmap._rule_files import Rules
from elfmap.constants import LONGEST_FILE, SHF, SHT

# What a relocation stores whose symbol is in no section of the program. In a list of ranges a pair
# of zeros would end the list.
_NOWHERE = 0
_NOWHERE_IN_LISTS = 1
_LISTS = (b".debug_ranges", b".debug_loc")
_FIELDS = ("r_offset", "symbol", "relocation_type", "r_addend")
# The forms of rules whose fields depend on where they are.
_RELATIVE = ("pc",)
# Sections of so many bytes are linked at once. The text of a link map is twice as long.
_AT_ONCE = 1 << 26


class Program(NamedTuple):
    """What relocations need of a program: the values of symbols, the text of the rules, these
    rules, and the sections that are discarded."""

    values: Values
    text: bytes
    rules: Rules
    discarded: set[Place]

    @property
    def relative_kinds(self) -> set[int]:
        """The kinds of relocations whose fields depend on where they are."""
        return {kind for kind, it in self.rules.items() if it.form in _RELATIVE}


class _Part(NamedTuple):
    """A section that relocations change: the sections that these are in, how many bytes all of it
    has, and whether a field of it depends on where the section is."""

    member: Member
    relocating: list[int]
    size: int
    is_relative: bool


class _Owner:
    """An object whose sections are relocated, and what its relocations need of the program."""

    def __init__(self, file: int, own: Object, program: Program) -> None:
        self.file = file
        self.own = own
        self._program = program
        # The values of symbols, and the columns of relocation sections, by their indexes.
        self._values: dict[int, Optional[int]] = {}
        self._columns: dict[int, dict[str, Column]] = {}

    def part(self, member: Member) -> _Part:
        relocating = [
            index
            for index in self.own.relocating.get(member.input.section, [])
            if (self.file, self.own.positions[index]) not in self._program.discarded
        ]
        columns = (self.columns(index) for index in relocating)
        kinds = set(chain.from_iterable(it["relocation_type"] for it in columns))
        size = sum(self.own.sections[index].sh_size for index in relocating)
        is_relative = not kinds.isdisjoint(self._program.relative_kinds)
        return _Part(member, relocating, size + len(member.input.content), is_relative)

    def columns(self, index: int) -> dict[str, Column]:
        """The fields of the relocations in a section."""
        if index not in self._columns:
            self._columns[index] = self.own.file.columns(index)
        return self._columns[index]

    def value(self, symbol: int) -> Optional[int]:
        """The value of a symbol in the program; None if it has none there."""
        if symbol not in self._values:
            self._values[symbol] = self._program.values.value(self.file, symbol)
        return self._values[symbol]

    def set_field(self, content: bytearray, offset: int, kind: int, number: int) -> None:
        """Sets the field of a relocation, if its kind has one that lies in the content."""
        rule = self._program.rules.get(kind)
        if rule and rule.changes_bytes and offset + rule.width <= len(content):
            field = number.to_bytes(rule.width, "big" if self.own.is_big else "little")
            content[offset : offset + rule.width] = field


class _Alone:
    """An object with sections of another one, what relocates them, and symbols that have the values
    of the program.

    `origins` has the index of each of its sections in the object that it is made of.
    """

    def __init__(self, owner: _Owner, parts: Sequence[_Part]) -> None:
        self._owner = owner
        self._own = owner.own
        self._parts = parts
        # The index of each symbol, by its value.
        self._symbols = {0: 0}
        self.origins = [it.member.input.section for it in parts]
        self.origins += (index for it in parts for index in it.relocating)

    def written(self) -> bytearray:
        """The object as a file."""
        rows = []
        table = len(self.origins) + 1
        relocations = []
        for target, part in enumerate(self._parts, 1):
            content = bytearray(part.member.input.content)
            some = [self._relocations(it, part, content) for it in part.relocating]
            relocations += [it._replace(link=table, info=target) for it in some]
            rows.append(Row(b"", SHT.PROGBITS, content, flags=SHF.ALLOC))
        symbols = [Symbol(b"", 0, ABSOLUTE, value) for value in self._symbols if value]
        return made_object(
            self._own, [*rows, *relocations, *symbol_rows(symbols, table, self._own.is_big)]
        )

    def _relocations(self, index: int, part: _Part, content: bytearray) -> Row:
        """The relocations of a section, by symbols of this object. A field whose addend is in the
        content is set there if its symbol is nowhere."""
        section = self._own.sections[index]
        has_addends = section.sh_type == SHT.RELA
        nowhere = _NOWHERE_IN_LISTS if part.member.input.name in _LISTS else _NOWHERE
        packed = struct.Struct(f"{order_of(self._own.is_big)}QQ{'q' if has_addends else ''}")
        columns = self._owner.columns(index)
        entries = bytearray()
        for offset, symbol, kind, addend in zip(*(columns[it] for it in _FIELDS)):
            value = self._owner.value(symbol)
            if value is None:
                value = 0
                addend = nowhere
                if not has_addends:
                    self._owner.set_field(content, offset, kind, nowhere)
            info = self._symbol(value) << 32 | kind
            entries += packed.pack(offset, info, *([addend] if has_addends else []))
        return Row(b"", int(section.sh_type), entries, align=8, entsize=packed.size)

    def _symbol(self, value: int) -> int:
        """The index of the symbol of a value."""
        return self._symbols.setdefault(value, len(self._symbols))


def relocated(
    objects: Sequence[Object], sections: Sequence[DebugSection], program: Program
) -> list[bytearray]:
    """The bytes of the output sections that are not loaded.

    A field depends on other objects by the values of symbols alone. So each object is linked by
    itself, and a section whose fields are relative to its place is linked alone, at its offset.
    Each section and each relocation is in one link.

    Raises NotRelocated with the positions in the objects, or TooLong.
    """
    if sum(it.length for it in sections) > LONGEST_FILE:
        raise elfmap.TooLong()
    contents = [bytearray(it.length) for it in sections]
    members = [it for section in sections for it in section.members]
    unchanged = ((it, it.input.content) for it in members)
    for it, content in chain(unchanged, _changed(objects, members, program)):
        contents[it.output][it.offset : it.offset + len(content)] = content
    return contents


def _file_of(it: Member) -> int:
    return it.input.file


def _changed(
    objects: Sequence[Object], members: Iterable[Member], program: Program
) -> Iterator[tuple[Member, bytes]]:
    """The sections that relocations change, and their bytes."""
    for file, some in groupby(sorted(members, key=_file_of), _file_of):
        yield from _changed_in(_Owner(file, objects[file], program), some, program.text)


def _changed_in(
    owner: _Owner, members: Iterable[Member], rules: bytes
) -> Iterator[tuple[Member, bytes]]:
    """Those of one object."""
    parts = (owner.part(it) for it in members)
    for some in _links(it for it in parts if it.relocating):
        yield from zip((it.member for it in some), _linked(owner, some, rules))


def _links(parts: Iterable[_Part]) -> Iterator[list[_Part]]:
    """The sections that are linked together: not too many bytes at once, and one that depends on
    where it is alone."""
    some: list[_Part] = []
    room = _AT_ONCE
    for it in parts:
        if it.is_relative:
            yield [it]
            continue
        if some and it.size > room:
            yield some
            some = []
            room = _AT_ONCE
        some.append(it)
        room -= it.size
    if some:
        yield some


def _linked(owner: _Owner, parts: Sequence[_Part], rules: bytes) -> list[bytes]:
    """The bytes of sections that are linked together, from the offset of the first one on if they
    depend on it."""
    made = _Alone(owner, parts)
    base = parts[0].member.offset if parts[0].is_relative else 0
    try:
        text = elfmap.map([made.written()], rules, base=base, page=1)
    except elfmap.NotLinked as fault:
        position = owner.own.positions[made.origins[fault.index]]
        raise NotRelocated(fault.rule, owner.file, position, fault.entry) from None
    except elfmap.Refused:
        # With its relocations and symbols a section may be longer than a file can be.
        raise elfmap.TooLong() from None
    found = LinkMap(text).bytes
    return [found[0, position] for position in range(len(parts))]
