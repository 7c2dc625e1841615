"""What differs between two objects, or two programs, by names.

Objects are compared in canonical layout, as `elfmap rewrite` writes it: two files denote one
object exactly where these bytes are the same.
"""

from __future__ import annotations

from collections import Counter
from collections.abc import Callable, Hashable, Iterable, Iterator, Sequence
from itertools import zip_longest
from typing import NamedTuple, Optional, TypeVar, Union

from elfmap import File, Relocation, Section, Symbol, _Bytes as Bytes
from elfmap._names import (
    RESERVED_SECTIONS,
    SYMBOL_BINDINGS,
    SYMBOL_TYPES,
    machine_words,
    relocation_types,
    section_type,
)
from elfmap._strings_in import strings_at
from elfmap._words import LONGEST_LETTER, MOST_LETTERS, printable
from elfmap.constants import SHF, SHN, SHT, STT

_NULL = SHT.NULL.value
_SYMTAB = SHT.SYMTAB.value
_RELA = SHT.RELA.value
_NOBITS = SHT.NOBITS.value
_REL = SHT.REL.value
_GROUP = SHT.GROUP.value
_SYMTAB_SHNDX = SHT.SYMTAB_SHNDX.value
_ALLOC = SHF.ALLOC.value
_INFO_LINK = SHF.INFO_LINK.value
_IN_INDEX_TABLE = SHN.XINDEX.value
_STT_SECTION = STT.SECTION.value
_STEP = 1 << 16
# A longer name is not copied, and is compared by blocks of so many bytes.
_BLOCK = 256
# How the names of sections begin that have debug information, or say where it is.
_DEBUG_NAMES = (
    b".debug",
    b".zdebug",
    b".gnu.debuglto_.debug_",
    b".gnu.linkonce.wi.",
    b".gnu_debug",
    b".gdb_index",
    b".stab",
    b".line",
)
# It depends on debug information too.
_BUILD_ID = b".note.gnu.build-id"
Key = TypeVar("Key", bound=Hashable)


class Sides(NamedTuple):
    """How the two files are called."""

    first: str
    second: str

    def both(self, what: str, one: object, other: object) -> str:
        return f"{what} is {one} in {self.first}, and {other} in {self.second}"


class LongName:
    """A name in its string table: a file of 1 MB may have thousands that share bytes, of half a MB
    each. `Names` makes one of equal ones."""

    __slots__ = ("_table", "_start", "_end")

    def __init__(self, table: bytes, start: int, end: int) -> None:
        self._table = table
        self._start = start
        self._end = end

    def front(self, size: int) -> bytes:
        return self._table[self._start : min(self._start + size, self._end)]


Text = Union[bytes, LongName]


class OfSection(NamedTuple):
    """What a symbol of a section is called."""

    section: Text


class Signed(NamedTuple):
    """What a group is called: by its name, and by that of its signature."""

    name: Text
    signature: Union[Text, OfSection]


Name = Union[Text, OfSection, Signed]
# Of a section or a symbol its name, and how many of this name are before it.
Label = tuple[Name, int]
# Where something is: a section, none, or the reserved index of a symbol. Places and labels are
# compared, and not their words: long names are cut there.
Place = Union[Label, None, int]


class Names:
    """The names of string tables. Equal ones are one object.

    A long name is a front and, after it, whole blocks. Those from one block to the end of the name
    have a number, which is found by that block and the number of those after it. So names that
    share bytes share numbers, and no name is compared with another one.
    """

    def __init__(self) -> None:
        self._known: dict[Hashable, Text] = {}
        self._numbers: dict[tuple[int, bytes], int] = {}

    def of(self, table: bytes, offsets: Iterable[int]) -> dict[int, Text]:
        """The names at offsets of a table. In ascending order, so that the end of each is searched
        once."""
        names: dict[int, Text] = {}
        end = -1
        numbers = [0]
        for offset in sorted(set(offsets)):
            if offset > end:
                found = table.find(b"\0", offset)
                end = found if found >= 0 else len(table)
                numbers = [0]
            names[offset] = self._name(table, offset, end, numbers)
        return names

    def _name(self, table: bytes, start: int, end: int, numbers: list[int]) -> Text:
        if end - start <= _BLOCK:
            short = table[start:end]
            return self._known.setdefault(short, short)
        blocks = (end - start) // _BLOCK
        for k in range(len(numbers), blocks + 1):
            block = table[end - k * _BLOCK : end - (k - 1) * _BLOCK]
            numbers.append(self._numbers.setdefault((numbers[-1], block), len(self._numbers) + 1))
        front = table[start : end - blocks * _BLOCK]
        return self._known.setdefault((front, numbers[blocks]), LongName(table, start, end))


def name_words(name: Name) -> str:
    if isinstance(name, OfSection):
        return f"of section {name_words(name.section)}"
    if isinstance(name, Signed):
        return f"{name_words(name.name)} [{name_words(name.signature)}]"
    if isinstance(name, LongName):
        name = name.front(LONGEST_LETTER * (MOST_LETTERS + 1))
    return printable(name, MOST_LETTERS)


def label_words(label: Label) -> str:
    name, position = label
    words = name_words(name) or "(no name)"
    return f"{words} (number {position + 1} of this name)" if position else words


def place_words(place: Place) -> str:
    if isinstance(place, int):
        return RESERVED_SECTIONS.get(place, hex(place))
    return label_words(place) if place else "none"


def labelled(names: Iterable[Name]) -> list[Label]:
    seen: Counter[Name] = Counter()
    labels = []
    for name in names:
        labels.append((name, seen[name]))
        seen[name] += 1
    return labels


def sections_of(file: File, data: Bytes, names: Names) -> tuple[list[Section], list[Text]]:
    """All sections at once, without their names, and the names: the file is sound."""
    view = memoryview(data)
    found = []
    for row in file._section_headers():
        kind = row[1]
        start = row[4]
        size = row[5]
        content = None if kind in (_NULL, _NOBITS) else view[start : start + size]
        found.append(Section._make([*row, b"", content]))
    own = _names_of_sections(file.header.e_shstrndx, found)
    strings = bytes(found[own].content or b"") if own else b""
    at = names.of(strings, (it.sh_name for it in found))
    # In an entry of no section sh_name may be any number.
    return found, [b"" if it.sh_type == _NULL else at[it.sh_name] for it in found]


def _names_of_sections(field: int, sections: Sequence[Section]) -> int:
    """The section that has their names, by the field of the header."""
    return sections[0].sh_link if field == _IN_INDEX_TABLE else field


def first_difference(one: memoryview, other: memoryview) -> Optional[int]:
    """The first offset at which bytes differ, or at which one of them ends."""
    size = min(len(one), len(other))
    for at in range(0, size, _STEP):
        ours, theirs = (bytes(it[at : min(at + _STEP, size)]) for it in (one, other))
        if ours != theirs:
            return at + next(k for k, (a, b) in enumerate(zip(ours, theirs)) if a != b)
    return None if len(one) == len(other) else size


def has_debug_information(section: Section, name: Text) -> bool:
    """Whether a section has debug information, by its name and as it takes no memory; or relocates
    such a one."""
    front = name.front(_BLOCK) if isinstance(name, LongName) else name
    if section.sh_type in (_REL, _RELA):
        front = front.removeprefix(b".rela" if section.sh_type == _RELA else b".rel")
    return not section.sh_flags & _ALLOC and front.startswith(_DEBUG_NAMES)


def _is_reserved(st_shndx: int) -> bool:
    """Whether it is the index of no section, as SHN_UNDEF, SHN_ABS and SHN_COMMON are."""
    return st_shndx == 0 or 0xFF00 <= st_shndx < _IN_INDEX_TABLE


class Canonical:
    """An object by its canonical file."""

    def __init__(self, file: File, data: Bytes, names: Names, ignores_debug: bool = False) -> None:
        self.file = file
        self._ignores_debug = ignores_debug
        self.machine = file.header.e_machine
        self.sections, self._names = sections_of(file, data, names)
        self._table = self._first(_SYMTAB)
        self.symbols: Sequence[Symbol] = list(self._read_symbols()) if self._table else []
        strings = self._content(self.sections[self._table].sh_link) if self._table else b""
        at = names.of(strings, (it.st_name for it in self.symbols))
        own = [self._symbol_name(it, at[it.st_name]) for it in self.symbols]
        section_names = [self._section_name(k, own) for k in range(len(self.sections))]
        self.section_labels = labelled(section_names)
        self.symbol_labels = labelled(own)
        self._ignored = self._without_debug() if ignores_debug else set()

    def _without_debug(self) -> set[int]:
        """The sections of debug information, and the groups of such sections alone."""
        found = {
            k for k, it in enumerate(self.sections) if has_debug_information(it, self._names[k])
        }
        for k, it in enumerate(self.sections):
            members = [*self.file.words(k)[1:]] if it.sh_type == _GROUP else []
            if members and found.issuperset(members):
                found.add(k)
        return found

    def _first(self, kind: int) -> int:
        """The first section of a type, 0 where there is none."""
        return next((k for k, it in enumerate(self.sections) if it.sh_type == kind), 0)

    def _content(self, index: int) -> bytes:
        return bytes(self.sections[index].content or b"")

    def _read_symbols(self) -> Iterator[Symbol]:
        """All symbols at once, without their names: `elfmap rewrite` wrote the table, so that each
        of its fields is sound."""
        words = self.file.words(self._first(_SYMTAB_SHNDX))
        rows = zip(*self.file.columns(self._table).values())
        for k, (name, info, other, shndx, value, size) in enumerate(rows):
            section = words[k] if shndx == _IN_INDEX_TABLE else shndx
            yield Symbol(b"", value, size, name, section, shndx, info, other)

    def relocations(self, index: int) -> Iterator[Relocation]:
        """Those of a section, in the same way."""
        found = self.file.columns(index)
        return map(Relocation, *(found[it] for it in Relocation._fields))

    def place(self, it: Symbol) -> Place:
        """Where a symbol is defined."""
        return it.st_shndx if _is_reserved(it.st_shndx) else self.section(it.section)

    def section(self, index: int) -> Optional[Label]:
        return self.section_labels[index] if 0 < index < len(self.section_labels) else None

    def members(self, index: int) -> tuple[int, dict[Place, int]]:
        """Of a group its flags and its members."""
        flags, *members = self.file.words(index)
        return flags, {self.section(it): it for it in members if it not in self._ignored}

    def _section_name(self, index: int, symbols: Sequence[Union[Text, OfSection]]) -> Name:
        """The name, and of a group also that of its signature."""
        name = self._names[index]
        it = self.sections[index]
        return Signed(name, symbols[it.sh_info]) if it.sh_type == _GROUP else name

    def _symbol_name(self, it: Symbol, name: Text) -> Union[Text, OfSection]:
        """The name, or of a symbol of a section that section's."""
        if name or it.symbol_type != _STT_SECTION or it.section >= len(self.sections):
            return name
        return OfSection(self._names[it.section])

    def own_sections(self) -> dict[Label, int]:
        """The sections of the object. Its symbol table and its names are compared by names."""
        tables = {0, self._table, self.file.header.e_shstrndx, *self._ignored}
        if self._table:
            tables.add(self.sections[self._table].sh_link)
        if self.file.header.e_shstrndx == _IN_INDEX_TABLE:
            tables.add(self.sections[0].sh_link)
        own = {}
        for k, it in enumerate(self.sections):
            if it.sh_type not in (_NULL, _SYMTAB_SHNDX) and k not in tables:
                own[self.section_labels[k]] = k
        return own

    def own_symbols(self) -> dict[Label, int]:
        """The symbols of the object."""
        own = {}
        for k, it in enumerate(self.symbols):
            if _is_reserved(it.st_shndx) or it.section not in self._ignored:
                own[self.symbol_labels[k]] = k
        return own

    def _target(self, it: Relocation) -> Optional[Label]:
        """The symbol that a relocation refers to."""
        return self.symbol_labels[it.symbol] if it.symbol else None

    def relocation(self, it: Relocation) -> tuple[int, int, int, Optional[Label]]:
        """What is compared of a relocation, beside its section's target."""
        return it.relocation_type, it.r_offset, it.r_addend, self._target(it)

    def relocation_words(self, it: Relocation, target: int) -> str:
        label = self._target(it)
        name = label_words(label) if label else "no symbol"
        # A symbol of a section has that one's name, after the word "of".
        if label and isinstance(label[0], OfSection):
            name = name.removeprefix("of ")
        place = f"{it.r_offset:#x} of {place_words(self.section(target))}"
        known = relocation_types(self.machine).get(it.relocation_type)
        kind = known or f"type {it.relocation_type}"
        return f"{kind} at {place} to {name} {it.r_addend:+#x}"


class Comparison:
    """Two objects beside each other."""

    def __init__(self, sides: Sides, one: Bytes, other: Bytes, ignores_debug: bool = False) -> None:
        self._sides = sides
        names = Names()
        own = (Canonical(File(it), it, names, ignores_debug) for it in (one, other))
        self._one, self._other = own

    def differences(self) -> Iterator[str]:
        yield from header_differences(self._sides, self._one.file, self._other.file)
        yield from self._sections()
        yield from self._symbols()

    def order(self) -> Iterator[str]:
        """Where the same sections or symbols are in another order."""
        yield from self._order("sections", self._one.own_sections(), self._other.own_sections())
        yield from self._order("symbols", self._one.own_symbols(), self._other.own_symbols())

    def _order(self, what: str, one: Iterable[Label], other: Iterable[Label]) -> Iterator[str]:
        for pair in zip(one, other):
            if pair[0] != pair[1]:
                first = self._sides.both("the first one that differs", *map(label_words, pair))
                yield f"the order of {what}: {first}"
                return

    def _sections(self) -> Iterator[str]:
        one = self._one.own_sections()
        other = self._other.own_sections()
        yield from only_in(self._sides, "section", one, other, label_words)
        for label, index in one.items():
            if label in other:
                name = f"section {label_words(label)}"
                yield from (f"{name}: {it}" for it in self._section(index, other[label]))

    def _section(self, index: int, other_index: int) -> Iterator[str]:
        one = self._one.sections[index]
        other = self._other.sections[other_index]
        yield from section_fields(self._sides, one, other, self._one.machine)
        yield from self._named("sh_link", one.sh_link, other.sh_link)
        if one.sh_type != other.sh_type or one.content is None or other.content is None:
            return
        if one.sh_type in (_REL, _RELA):
            yield from self._named("its target", one.sh_info, other.sh_info)
            yield from self._relocations(index, other_index)
        elif one.sh_type == _GROUP:
            yield from self._group(index, other_index)
        else:
            yield from self._info(one, other)
            yield from content_difference(self._sides, one, other)

    def _info(self, one: Section, other: Section) -> Iterator[str]:
        if one.sh_flags & _INFO_LINK:
            yield from self._named("sh_info", one.sh_info, other.sh_info)
        elif one.sh_info != other.sh_info:
            yield self._sides.both("sh_info", one.sh_info, other.sh_info)

    def _named(self, what: str, index: int, other_index: int) -> Iterator[str]:
        """The sections that a field names by their indexes."""
        yield from self._places(what, self._one.section(index), self._other.section(other_index))

    def _places(self, what: str, one: Place, other: Place) -> Iterator[str]:
        if one != other:
            yield self._sides.both(what, place_words(one), place_words(other))

    def _group(self, index: int, other_index: int) -> Iterator[str]:
        flags, members = self._one.members(index)
        other_flags, other_members = self._other.members(other_index)
        yield from only_in(self._sides, "member flags", {flags: 0}, {other_flags: 0}, hex)
        yield from only_in(self._sides, "member", members, other_members, place_words)

    def _relocations(self, index: int, other_index: int) -> Iterator[str]:
        """The first entry that differs: the entries after it are often the same, moved."""
        ours = self._one.sections[index]
        theirs = self._other.sections[other_index]
        has_same_content = bytes(ours.content or b"") == bytes(theirs.content or b"")
        if has_same_content and self._one.symbol_labels == self._other.symbol_labels:
            return
        one = self._one.relocations(index)
        other = self._other.relocations(other_index)
        for position, (mine, other_one) in enumerate(zip_longest(one, other)):
            if mine and other_one:
                if self._one.relocation(mine) == self._other.relocation(other_one):
                    continue
            first = self._one.relocation_words(mine, ours.sh_info) if mine else ""
            second = self._other.relocation_words(other_one, theirs.sh_info) if other_one else ""
            yield self._relocation_difference(f"relocation {position}", first, second)
            return

    def _relocation_difference(self, what: str, first: str, second: str) -> str:
        """Two entries in words, of which one may be empty."""
        if first and second:
            return self._sides.both(what, first, second)
        side = self._sides.first if first else self._sides.second
        return f"{what} is only in {side}: {first or second}"

    def _symbols(self) -> Iterator[str]:
        one = self._one.own_symbols()
        other = self._other.own_symbols()
        yield from only_in(self._sides, "symbol", one, other, label_words)
        for label, index in one.items():
            position = other.get(label)
            if position is None:
                continue
            ours = self._one.symbols[index]
            theirs = self._other.symbols[position]
            if not self._is_same(ours, theirs):
                name = f"symbol {label_words(label)}"
                yield from (f"{name}: {it}" for it in self._symbol(ours, theirs))

    def _is_same(self, one: Symbol, other: Symbol) -> bool:
        """Of most symbols nothing differs, and nothing is put into words."""
        has_same_fields = one[1:3] == other[1:3] and one[6:] == other[6:]
        return has_same_fields and self._one.place(one) == self._other.place(other)

    def _symbol(self, one: Symbol, other: Symbol) -> Iterator[str]:
        for what, ours, theirs in (
            ("its value", hex(one.st_value), hex(other.st_value)),
            ("its size", one.st_size, other.st_size),
            ("its binding", binding_words(one), binding_words(other)),
            ("its type", type_words(one), type_words(other)),
            ("st_other", one.st_other, other.st_other),
        ):
            if ours != theirs:
                yield self._sides.both(what, ours, theirs)
        yield from self._places("its section", self._one.place(one), self._other.place(other))


def binding_words(it: Symbol) -> str:
    return SYMBOL_BINDINGS.get(it.binding, str(it.binding))


def type_words(it: Symbol) -> str:
    return SYMBOL_TYPES.get(it.symbol_type, str(it.symbol_type))


def only_in(
    sides: Sides, what: str, one: dict[Key, int], other: dict[Key, int], words: Callable[[Key], str]
) -> Iterator[str]:
    for side, own, theirs in ((sides.first, one, other), (sides.second, other, one)):
        yield from (f"{what} {words(it)} is only in {side}" for it in own if it not in theirs)


def header_differences(sides: Sides, one: File, other: File) -> Iterator[str]:
    ours = one.header
    theirs = other.header
    orders = {1: "little", 2: "big"}
    for what, first, second in (
        ("the byte order", orders.get(ours.e_ident[5]), orders.get(theirs.e_ident[5])),
        ("the OS ABI", ours.e_ident[7], theirs.e_ident[7]),
        ("the ABI version", ours.e_ident[8], theirs.e_ident[8]),
        ("e_type", ours.e_type, theirs.e_type),
        ("the machine", machine_words(ours.e_machine), machine_words(theirs.e_machine)),
        ("e_flags", hex(ours.e_flags), hex(theirs.e_flags)),
        ("e_entry", hex(ours.e_entry), hex(theirs.e_entry)),
    ):
        if first != second:
            yield sides.both(what, first, second)


def section_fields(sides: Sides, one: Section, other: Section, machine: int) -> Iterator[str]:
    for what, ours, theirs in (
        ("its type", section_type(one.sh_type, machine), section_type(other.sh_type, machine)),
        ("sh_flags", hex(one.sh_flags), hex(other.sh_flags)),
        ("its address", hex(one.sh_addr), hex(other.sh_addr)),
        ("its size", hex(one.sh_size), hex(other.sh_size)),
        ("its alignment", one.sh_addralign, other.sh_addralign),
        ("sh_entsize", one.sh_entsize, other.sh_entsize),
    ):
        if ours != theirs:
            yield sides.both(what, ours, theirs)


def content_difference(sides: Sides, one: Section, other: Section) -> Iterator[str]:
    """The first byte that differs, or the string that has it."""
    ours = one.content
    theirs = other.content
    if ours is None or theirs is None:
        return
    at = first_difference(ours, theirs)
    if at is None or at >= min(len(ours), len(theirs)):
        return
    strings = strings_at(ours, theirs, at, one.sh_flags & other.sh_flags, one.sh_entsize)
    if strings:
        what = f"offset {at:#x}: the string at {strings.start:#x}"
        yield sides.both(what, quoted(strings.one), quoted(strings.other))
    else:
        yield sides.both(f"offset {at:#x}", f"0x{ours[at]:02x}", f"0x{theirs[at]:02x}")


def quoted(string: bytes) -> str:
    return f'"{printable(string, MOST_LETTERS)}"'


def object_differences(
    sides: Sides, one: Bytes, other: Bytes, ignores_debug: bool = False
) -> Iterator[str]:
    """What differs between two objects in canonical layout: at least something, unless debug
    information is ignored."""
    comparison = Comparison(sides, one, other, ignores_debug)
    count = 0
    for it in comparison.differences():
        count += 1
        yield it
    if not count:
        for it in comparison.order():
            count += 1
            yield it
    if not count and not ignores_debug:
        at = first_difference(memoryview(one), memoryview(other))
        yield f"the canonical files differ at offset {at:#x}"


def image_differences(
    sides: Sides, one: Bytes, other: Bytes, ignores_debug: bool = False
) -> Iterator[str]:
    """What differs between two programs or libraries: at least something, unless debug information
    is ignored, and with it the build id and what is in no section."""
    ours = File(one)
    theirs = File(other)
    names = Names()
    own = _compared(sections_of(ours, one, names), ours, ignores_debug)
    others = _compared(sections_of(theirs, other, names), theirs, ignores_debug)
    found = list(header_differences(sides, ours, theirs))
    found += _section_differences(sides, ours.header.e_machine, own, others)
    found += _segment_differences(sides, ours, theirs)
    if ignores_debug:
        yield from found
        return
    at = first_difference(memoryview(one), memoryview(other))
    yield from found or [f"the files differ at offset {at:#x}, in no content of a section"]


Sections = tuple[list[Section], list[Text]]


def _compared(every: Sections, file: File, ignores_debug: bool) -> Sections:
    """The sections of a program that are compared, the first one as the table has it."""
    if not ignores_debug:
        return every
    names = _names_of_sections(file.header.e_shstrndx, every[0])
    kept = [
        (it, name)
        for k, (it, name) in enumerate(zip(*every))
        if not k or k != names and name != _BUILD_ID and not has_debug_information(it, name)
    ]
    return [it for it, _ in kept], [name for _, name in kept]


def _section_differences(
    sides: Sides, machine: int, one: Sections, other: Sections
) -> Iterator[str]:
    ours, own = one
    theirs, others = other
    first = {label: k for k, label in enumerate(labelled(own)) if k}
    second = {label: k for k, label in enumerate(labelled(others)) if k}
    yield from only_in(sides, "section", first, second, label_words)
    for label, index in first.items():
        if label not in second:
            continue
        section = ours[index]
        same = theirs[second[label]]
        found = list(section_fields(sides, section, same, machine))
        found += content_difference(sides, section, same)
        yield from (f"section {label_words(label)}: {it}" for it in found)


def _segment_differences(sides: Sides, one: File, other: File) -> Iterator[str]:
    if len(one.segments) != len(other.segments):
        yield sides.both("the number of program headers", len(one.segments), len(other.segments))
        return
    for index, (ours, theirs) in enumerate(zip(one.segments, other.segments)):
        # The last field is the content.
        for field in ours._fields[:-1]:
            value = getattr(ours, field)
            other_value = getattr(theirs, field)
            if value != other_value:
                what = f"program header {index}: {field}"
                yield sides.both(what, hex(value), hex(other_value))
