"""Where a link that keeps all rules may make another program than ld.

Which sections are live, where they are and what names are bound to is what the link map says.
Symbols and relocations are read by the library. What is known here besides are conventions of
GNU and of the supplements of processors, which the link does not interpret.
"""

from __future__ import annotations

import re
from collections import Counter
from collections.abc import Collection, Iterator, Sequence
from functools import cached_property
from itertools import chain
from typing import NamedTuple, Optional

import elfmap
from elfmap._columns import Column
from elfmap._link_hints import (
    ARRAY_NOT_SORTED,
    CODE_FOR_LTO,
    DIVIDED_SECTION,
    EXECUTABLE_STACK,
    FIELD_CHANGED_OTHERWISE,
    FIELD_UNCHANGED,
    GAP_IN_CODE,
    INDIRECT_FUNCTION,
    NAME_OF_LINKER,
    VERSIONED_NAME,
    kind_words,
    slim_symbol,
)
from elfmap._link_words import Linked
from elfmap._linker_names import LinkerName, linker_name, names_of_version
from elfmap._map_lines import LinkMap, Member, Output
from elfmap._rule_files import Rules, changes_no_bytes, file_with
from elfmap._words import (
    ENTRY_SIZES,
    MOST_LETTERS,
    REL,
    RELA,
    SECTION,
    XINDEX,
    entry_words,
    printable,
)
from elfmap.constants import SHF, STB

_GNU_IFUNC = 10
# The values of EI_OSABI whose types of symbols are those of GNU: none, GNU and FreeBSD.
_LIKE_GNU = (0, 3, 9)
_LOCAL = STB.LOCAL.value
_EXECINSTR = SHF.EXECINSTR.value
_STACK = b".note.GNU-stack"
_INIT = b".init_array"
_FINI = b".fini_array"
# The sections that ld sorts into an array of constructors or destructors, and the names at the ends
# of these arrays.
_SORTED = re.compile(rb"\.(?:(init_array|ctors)|(?:fini_array|dtors))(?:\..*)?", re.S)
_ENDS_OF_ARRAYS = {
    b"__init_array_start": _INIT,
    b"__init_array_end": _INIT,
    b"__fini_array_start": _FINI,
    b"__fini_array_end": _FINI,
}
# Functions of which each file has a part that runs into the next one; and the machines for which ld
# fills a gap in code with instructions that do nothing.
_IN_PARTS = (b".init", b".fini")
_FILLED = (22, 43, 50, 62, 183, 36902)


class Warned(NamedTuple):
    """A warning: its number, the file and the offset that it is about, in words, which sections
    these are of, and what to do, if that is more than its advice."""

    number: int
    file: int
    at: int
    words: str
    sections: tuple[int, ...]
    advice: str = ""


def _array_of(section: bytes) -> bytes:
    """The array that ld sorts a section of another name into; empty if it sorts it into none."""
    found = _SORTED.fullmatch(section)
    if not found or section in (_INIT, _FINI):
        return b""
    return _INIT if found[1] else _FINI


class _Object:
    """An object of a link: its sections that are live, and the relocations that are applied."""

    def __init__(self, position: int, linked: Linked, content: bytes, link: LinkMap) -> None:
        self.position = position
        self.linked = linked
        self.words = linked.words
        self._file = elfmap.parse(content)
        # The addresses of live sections by their indexes.
        self.live: dict[int, int] = {}
        self._discarded = set()
        for number, index in enumerate(linked.kept):
            address = link.addresses.get((position, number))
            if address is not None:
                self.live[index] = address
            if (position, number) in link.discarded:
                self._discarded.add(index)

    @cached_property
    def names(self) -> dict[int, bytes]:
        """The names of its live sections."""
        words = self.words
        every = ((index, words.section(index, "sh_name")) for index in self.live)
        return {index: words.name(words.names, name) for index, name in every}

    @cached_property
    def relocations(self) -> list[tuple[int, Column, Column]]:
        """The sections of relocations that are applied: of each the types of its entries, and their
        symbols."""
        found = []
        for index, _, kind, _, _, _, _, _, target, *_ in self.words.headers():
            if kind in (REL, RELA) and target in self.live and index not in self._discarded:
                columns = self._file.columns(index)
                found.append((index, columns["relocation_type"], columns["symbol"]))
        return found

    @cached_property
    def infos(self) -> Sequence[int]:
        """The `st_info` of each symbol."""
        return self._file.columns(self.linked.symbols).get("st_info", ())

    def is_local(self, index: int) -> bool:
        return self.infos[index] >> 4 == _LOCAL

    def uses(self, rules: Rules) -> bytes:
        """For each symbol whether a field has its value."""
        changing = {kind for kind, rule in rules.items() if rule.changes_bytes}
        found = bytearray(len(self.infos))
        for _, kinds, symbols in self.relocations:
            for kind, symbol in zip(kinds, symbols):
                if kind in changing:
                    found[symbol] = 1
        return bytes(found)

    def indirect_functions(self) -> Iterator[int]:
        """The symbols that are indirect functions of GNU, and defined in a live section."""
        if self.words.number(7, 1) in _LIKE_GNU:
            for index, info in enumerate(self.infos):
                if info & 15 == _GNU_IFUNC and self.value(index) is not None:
                    yield index

    def symbol(self, index: int) -> elfmap.Symbol:
        return self._file.symbols(self.linked.symbols)[index]

    def value(self, index: int) -> Optional[int]:
        """The value of a definition in a live section; None if it is none."""
        it = self.symbol(index)
        address = self.live.get(it.section)
        return None if address is None else address + it.st_value

    def name(self, index: int) -> bytes:
        """The name of a symbol, or its first bytes."""
        return self.linked.raw_name(index - 1)

    def symbols_in_arrays(self) -> dict[int, bytes]:
        """The symbols in sections that ld sorts into an array, and that array."""
        arrays = {index: _array_of(name) for index, name in self.names.items() if _array_of(name)}
        table = self.linked.symbols
        columns = self._file.columns(table) if arrays else {}
        found = {}
        for index, own in enumerate(columns.get("st_shndx", ())):
            section = self.words.symbol_section(table, index) if own == XINDEX else own
            if section in arrays:
                found[index] = arrays[section]
        return found

    def warned(self, number: int, index: int, words: str, advice: str = "") -> Warned:
        """A warning that is about a symbol."""
        table = self.linked.symbols
        at = self.words.content(table)[0] + ENTRY_SIZES[2] * index
        lead = self.words.symbol_words(table, index)
        return Warned(number, self.position, at, f"{lead}{words}", (table,), advice)


def lto_warnings(files: Sequence[Linked]) -> Iterator[Warned]:
    """Objects without code: also of files that do not link."""
    for position, it in enumerate(files):
        index = slim_symbol(it)
        if index:
            at = it.words.content(it.symbols)[0] + ENTRY_SIZES[2] * index
            words = it.words.symbol_words(it.symbols, index)
            yield Warned(CODE_FOR_LTO, position, at, words, (it.symbols,))


class Warnings:
    """The warnings of a link by its map and its rules; and the name of its entry point."""

    def __init__(
        self,
        files: Sequence[Linked],
        contents: Sequence[bytes],
        link: LinkMap,
        rules: Rules,
        entry: Optional[bytes],
    ) -> None:
        both = enumerate(zip(files, contents))
        self._objects = [_Object(position, *it, link) for position, it in both]
        self._link = link
        self._rules = rules
        self._entry = entry
        # The symbols of each object that fields refer to.
        self._uses = [it.uses(rules) for it in self._objects]

    def all(self) -> Iterator[Warned]:
        yield from self._indirect_functions()
        yield from self._names_of_linker()
        yield from self._versions()
        yield from self._divided_sections()
        yield from self._arrays()
        yield from self._gaps()
        for it in self._objects:
            yield from self._changes(it)
            yield from _stacks(it)

    def _used(self, it: _Object) -> Iterator[int]:
        return (index for index, is_used in enumerate(self._uses[it.position]) if is_used)

    def _uses_of(self, names: Collection[bytes]) -> Iterator[tuple[_Object, int]]:
        """The symbols of these names, none of them local, that fields refer to."""
        for it in self._objects if names else ():
            for index in self._used(it):
                if not it.is_local(index) and it.name(index) in names:
                    yield it, index

    # ---- Symbols

    def _indirect_functions(self) -> Iterator[Warned]:
        found = [(it, index) for it in self._objects for index in it.indirect_functions()]
        users = self._users({it.name(index) for it, index in found}) if found else {}
        for it, index in found:
            user = self._user(it, index, users)
            if user:
                words = f", of type {_GNU_IFUNC} (GNU_IFUNC), to which {user} refers"
                yield it.warned(INDIRECT_FUNCTION, index, words)

    def _users(self, wanted: set[bytes]) -> dict[bytes, str]:
        """For each of the names that a field refers to the first file that has the field."""
        found: dict[bytes, str] = {}
        for it, index in self._uses_of(wanted):
            found.setdefault(it.name(index), it.linked.path)
        if self._entry is not None:
            found.setdefault(self._entry, "the entry point")
        return found

    def _user(self, it: _Object, index: int, users: dict[bytes, str]) -> str:
        """Who refers to a definition; empty if nobody does, or if its name is bound to another
        one."""
        if it.is_local(index):
            return it.linked.path if self._uses[it.position][index] else ""
        name = it.name(index)
        bound = self._link.names.get(name)
        is_bound = bound is not None and bound.value == it.value(index)
        return users.get(name, "") if is_bound else ""

    def _names_of_linker(self) -> Iterator[Warned]:
        sections = {name for it in self._objects for name in it.names.values()}
        wanted: dict[bytes, LinkerName] = {}
        machine = self._objects[0].words.machine
        for name, bound in self._link.names.items():
            known = linker_name(name, machine) if bound.binding == "zero" else None
            if known and known.is_defined(sections):
                wanted[name] = known
        for it, index in self._uses_of(wanted):
            known = wanted[it.name(index)]
            advice = known.advice(it.linked.symbol_name(index - 1))
            words = f", which ld defines as {known.words}"
            yield it.warned(NAME_OF_LINKER, index, words, advice)

    def _versions(self) -> Iterator[Warned]:
        """The names that nobody defines, and of which there is a default version."""
        zeros = {name for name, it in self._link.names.items() if it.binding == "zero"}
        wanted = {
            name: f", which ld defines as {printable(version, MOST_LETTERS)}"
            for version in self._link.names.keys() - zeros
            for name in names_of_version(version)
            if name in zeros
        }
        for it, index in self._uses_of(wanted):
            yield it.warned(VERSIONED_NAME, index, wanted[it.name(index)])

    # ---- Relocations

    def _changes(self, it: _Object) -> Iterator[Warned]:
        """The kinds of relocations whose rule is not that of rules/, each at its first entry."""
        first: dict[int, tuple[int, int]] = {}
        counts = Counter[int]()
        for section, kinds, _ in it.relocations:
            ruled = Counter(kind for kind in kinds if kind in self._rules)
            for kind in ruled:
                first.setdefault(kind, (section, kinds.index(kind)))
            counts.update(ruled)
        for kind, (section, entry) in sorted(first.items(), key=lambda pair: pair[1]):
            number = self._wrong(it, kind)
            if number:
                yield self._warned_entry(it, number, kind, section, entry, counts[kind] - 1)

    def _wrong(self, it: _Object, kind: int) -> int:
        """Which warning the rule of a kind gets; 0 if it gets none."""
        rule = self._rules[kind]
        machine = it.words.machine
        if changes_no_bytes(machine, kind):
            return FIELD_CHANGED_OTHERWISE if rule.changes_bytes else 0
        if not rule.changes_bytes:
            return FIELD_UNCHANGED
        known = file_with(machine, it.words.order, kind)
        right = known.rules[kind] if known else rule
        is_right = (rule.form, rule.width) == (right.form, right.width)
        return 0 if is_right else FIELD_CHANGED_OTHERWISE

    def _warned_entry(
        self, it: _Object, number: int, kind: int, section: int, entry: int, others: int
    ) -> Warned:
        words = it.words
        at = words.content(section)[0] + ENTRY_SIZES[words.section(section, "sh_type")] * entry
        lead = f"{words.section_words(section)}: {entry_words(words, section, at)}"
        more = f", and {others} more of this type" if others else ""
        own = f"its rule is `{self._rules[kind].line(kind)}`"
        target = words.section(section, "sh_info")
        advice = kind_words(words.machine, words.order, kind)
        return Warned(number, it.position, at, f"{lead}{more}; {own}", (section, target), advice)

    # ---- Sections

    def _divided_sections(self) -> Iterator[Warned]:
        """The ends of a section that ld makes as one, and elfmap as several: by their flags."""
        flags: dict[tuple[bytes, bool], list[int]] = {}
        for output in self._link.outputs:
            if output.length:
                # ld too makes a section of its own of those without bits.
                flags.setdefault((output.name, output.has_bits), []).append(output.flags)
        divided = {name: every for (name, _), every in flags.items() if len(every) > 1}
        wanted = dict(self._ends_of(divided)) if divided else {}
        for it, index in self._uses_of(wanted):
            yield it.warned(DIVIDED_SECTION, index, wanted[it.name(index)])

    def _ends_of(self, divided: dict[bytes, list[int]]) -> Iterator[tuple[bytes, str]]:
        """The names that objects define as ends of these sections, and in words what they are."""
        machine = self._objects[0].words.machine
        for name, bound in self._link.names.items():
            known = linker_name(name, machine) if bound.binding != "zero" else None
            every = divided.get(known.section) if known else None
            if known and every:
                words = " and ".join(map(hex, every))
                yield name, f", {known.words}, which is {len(every)} sections, of flags {words}"

    def _gaps(self) -> Iterator[Warned]:
        """The parts of functions that begin after a gap."""
        is_filled = self._objects[0].words.machine in _FILLED
        outputs = (it for it in self._link.outputs if is_filled and it.name in _IN_PARTS)
        for before, part in chain.from_iterable(map(_neighbours, outputs)):
            if part.address > before.address + before.size:
                it = self._objects[part.file]
                words = it.words
                index = it.linked.section(part.section)
                at = words.table + 64 * index + SECTION["sh_addralign"][0]
                size = part.address - before.address - before.size
                own = f"{words.section_words(index)}, after a gap of {size:#x} bytes"
                yield Warned(GAP_IN_CODE, it.position, at, own, (index,))

    def _arrays(self) -> Iterator[Warned]:
        """The sections that ld sorts into an array to which a field refers."""
        found = [
            (it, index, _array_of(name))
            for it in self._objects
            for index, name in it.names.items()
            if _array_of(name)
        ]
        used = self._used_arrays() if found else set()
        for it, index, array in found:
            if array in used:
                at = it.words.table + 64 * index
                own = it.words.section_words(index)
                yield Warned(ARRAY_NOT_SORTED, it.position, at, own, (index,))

    def _used_arrays(self) -> set[bytes]:
        """The arrays to which a field refers: by a name of ld, or by a symbol in a section that ld
        sorts into one."""
        arrays = dict(_ENDS_OF_ARRAYS)
        found = set()
        for it in self._objects:
            for index, array in it.symbols_in_arrays().items():
                if not it.is_local(index):
                    arrays[it.name(index)] = array
                elif self._uses[it.position][index]:
                    found.add(array)
        return found.union(arrays[it.name(index)] for it, index in self._uses_of(arrays))


def _neighbours(output: Output) -> Iterator[tuple[Member, Member]]:
    """The members of an output section that have bytes, each with the one before it."""
    members = [it for it in output.members if it.size]
    return zip(members, members[1:])


def _stacks(it: _Object) -> Iterator[Warned]:
    """The section by which an object asks for an executable stack."""
    words = it.words
    for index, name, _, flags, *_ in words.headers():
        if flags & _EXECINSTR and words.name(words.names, name) == _STACK:
            at = words.table + 64 * index + SECTION["sh_flags"][0]
            own = f"{words.section_words(index)}: sh_flags, which is {flags:#x}"
            yield Warned(EXECUTABLE_STACK, it.position, at, own, (index,))
            return
