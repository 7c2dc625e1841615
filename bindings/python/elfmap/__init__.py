"""Whether an ELF-64 file is sound, and if not, which rule it breaks; and its records.

    >>> import elfmap
    >>> try:
    ...     elfmap.parse(b"no ELF file" * 6)
    ... except elfmap.Refused as refused:
    ...     print(refused.rule, refused.offset, refused.name)
    3 0 WRONG_MAGIC

What is called here is the library for C of elfmap, whose answers are proved for all
bytes. Fields have the names of the gABI (System V ABI, generic part, chapters 4 and 5).
"""

# Annotations are no strings: `help(elfmap)` shows them.
import array
import builtins
import contextlib
import ctypes
import mmap
import operator
import os
from collections.abc import Callable, Iterable, Iterator, Sequence
from typing import TYPE_CHECKING, Any, NamedTuple, Optional, TypeVar, Union

from elfmap import _columns, _declared, _library, _link_places, _rules

# They are names of this module too. In `__all__` they would make `help` ten times as long.
from elfmap.constants import (
    LONGEST_FILE as _LONGEST_FILE,
    DT as DT,
    EM as EM,
    ET as ET,
    PF as PF,
    PT as PT,
    SHF as SHF,
    SHN as SHN,
    SHT as SHT,
    STB as STB,
    STT as STT,
    STV as STV,
)

__all__ = [
    "BadRules",
    "Dynamic",
    "File",
    "Header",
    "Note",
    "NotLinked",
    "Part",
    "Refused",
    "Relocation",
    "Section",
    "Segment",
    "Summary",
    "Symbol",
    "TooLong",
    "__version__",
    "check",
    "link",
    "map",
    "open",
    "parse",
    "refused_tables",
    "rewrite",
    "show",
]
__version__ = "0.1.0"

# All that has its bytes in one piece, for a type checker by Python's buffer protocol.
if TYPE_CHECKING:
    from _typeshed import ReadableBuffer

    _Bytes = ReadableBuffer
else:
    _Bytes = Union[bytes, bytearray, memoryview, mmap.mmap, array.array]
_Text = Union[str, bytes]
_AnyPath = Union[str, bytes, os.PathLike[str], os.PathLike[bytes]]
_Record = TypeVar("_Record")

# How many extents the first buffer has: enough for a file with 61 sections.
_SMALL_ROOM = 64
_SYMBOLS = (SHT.SYMTAB, SHT.DYNSYM)
_RELOCATIONS = (SHT.RELA, SHT.REL)
_WORDS = (SHT.GROUP, SHT.SYMTAB_SHNDX, SHT.HASH)
_WORD_SIZE = 4
_OWNERS = ("header", "section headers", "program headers")
# ctypes would take this number for 0, and each one modulo it.
_END = 2**64
_UNKNOWN = ("UNKNOWN_RULE", "it is refused by a rule without a sentence", "")
# The longest file that keeps rule 1, and one byte more.
_LONGEST = _LONGEST_FILE + 1
# So much of a file is read at once whose length is not known.
_PIECE = 1 << 20
# So many bytes of a name are in a message.
_MOST_OF_NAME = 200


class Refused(ValueError):
    """Why a file is refused: the first rule that it breaks, and where.

    `rule` is the number of the rule, and `offset` the lowest one at which it is broken.
    `file` is the position of the file among those that were given, from 0.
    """

    def __init__(self, rule: int, offset: int, file: int = 0) -> None:
        super().__init__(rule, offset, file)
        self.rule = rule
        self.offset = offset
        self.file = file

    @property
    def name(self) -> str:
        """The name of the rule, as `SHARED_BYTE`."""
        return _rules.RULES.get(self.rule, _UNKNOWN)[0]

    @property
    def sentence(self) -> str:
        """What the rule refuses, in the words of docs/RULES.md."""
        return _rules.RULES.get(self.rule, _UNKNOWN)[1]

    def __str__(self) -> str:
        place = f"rule {self.rule} ({self.name}) at offset {self.offset}"
        return f"{place}: {self.sentence}"


class NotLinked(ValueError):
    """Why objects don't link: the first of the link's rules that is broken, and where.

    `file`, `index` and `entry` count from 0; docs/RULES.md says what for each `rule`.
    `symbol` is the name of the symbol that it is about: that of rules 6 to 9, that of the
    relocation of rules 12 to 16, and the entry point of rule 10. `offset` is where the section
    header, the symbol or the relocation is in the file. `first` is the `file` and the `index` of
    the first definition, of rule 8. Each is None if there is none.
    """

    def __init__(
        self,
        rule: int,
        file: int,
        index: int,
        entry: int,
        symbol: Optional[bytes] = None,
        offset: Optional[int] = None,
        first: Optional[tuple[int, int]] = None,
    ) -> None:
        super().__init__(rule, file, index, entry, symbol, offset, first)
        self.rule = rule
        self.file = file
        self.index = index
        self.entry = entry
        self.symbol = symbol
        self.offset = offset
        self.first = first

    @property
    def name(self) -> str:
        """The name of the rule, as `BAD_OPTIONS`."""
        return _rules.LINK_RULES.get(self.rule, _UNKNOWN)[0]

    @property
    def sentence(self) -> str:
        """What the rule refuses, in the words of docs/RULES.md."""
        return _rules.LINK_RULES.get(self.rule, _UNKNOWN)[1]

    def __str__(self) -> str:
        place = f"entry {self.entry} of {self.index} in file {self.file}"
        about = f", symbol {self.symbol[:_MOST_OF_NAME]!r}" if self.symbol else ""
        return f"rule {self.rule} ({self.name}) at {place}{about}: {self.sentence}"


class TooLong(ValueError):
    """What would be written is longer than 2^30 bytes, or has too many segments."""

    def __init__(self) -> None:
        super().__init__()

    def __str__(self) -> str:
        return "what would be written is too long"


class BadRules(ValueError):
    """This `line` of the relocation rules, from 1, is bad, and none before it."""

    def __init__(self, line: int) -> None:
        super().__init__(line)
        self.line = line

    def __str__(self) -> str:
        return f"line {self.line} of the rules is bad"


class Summary(NamedTuple):
    """What `elfmap check` says of a file that keeps all rules.

    It has `len` bytes, and so many section headers and program headers.
    """

    len: int
    sections: int
    segments: int


class Header(NamedTuple):
    """The ELF header, with its fields as the file has them."""

    e_ident: bytes
    e_type: int
    e_machine: int
    e_version: int
    e_entry: int
    e_phoff: int
    e_shoff: int
    e_flags: int
    e_ehsize: int
    e_phentsize: int
    e_phnum: int
    e_shentsize: int
    e_shnum: int
    e_shstrndx: int


class Section(NamedTuple):
    """A section: the fields of its header, its name, and its bytes in the file.

    `content` is None for SHT_NOBITS and SHT_NULL, which have none.
    """

    sh_name: int
    sh_type: int
    sh_flags: int
    sh_addr: int
    sh_offset: int
    sh_size: int
    sh_link: int
    sh_info: int
    sh_addralign: int
    sh_entsize: int
    name: bytes
    content: Optional[memoryview]

    def __reduce__(self) -> tuple[Any, ...]:
        return _with_contents, (type(self), *_without_views(self))


class Segment(NamedTuple):
    """A segment: the fields of its program header, and its bytes in the file.

    `content` is None for PT_NULL, which has none.
    """

    p_type: int
    p_flags: int
    p_offset: int
    p_vaddr: int
    p_paddr: int
    p_filesz: int
    p_memsz: int
    p_align: int
    content: Optional[memoryview]

    def __reduce__(self) -> tuple[Any, ...]:
        return _with_contents, (type(self), *_without_views(self))


class Symbol(NamedTuple):
    """A symbol, with its name.

    `section` is the index of its section, also where `st_shndx` can't hold it.
    """

    name: bytes
    st_value: int
    st_size: int
    st_name: int
    section: int
    st_shndx: int
    st_info: int
    st_other: int

    @property
    def binding(self) -> int:
        """0 is local, 1 global, 2 weak."""
        return self.st_info >> 4

    @property
    def symbol_type(self) -> int:
        """0 has no type, 1 is data, 2 a function, 3 a section, 4 a file."""
        return self.st_info & 15


class Relocation(NamedTuple):
    """A relocation; of a section of type SHT_REL `r_addend` is 0."""

    r_offset: int
    r_addend: int
    symbol: int
    relocation_type: int


class Dynamic(NamedTuple):
    """An entry of a dynamic array, and the string at the offset that it holds.

    The string says something for some tags alone, as 1 (DT_NEEDED).
    """

    d_tag: int
    d_un: int
    string: bytes


class Note(NamedTuple):
    """A note: whose it is, its type and its descriptor."""

    name: bytes
    n_type: int
    desc: memoryview

    def __reduce__(self) -> tuple[Any, ...]:
        return _with_contents, (type(self), *_without_views(self))


class Part(NamedTuple):
    """Bytes of a file that belong together.

    `owner` is "header", "section headers", "program headers", "gap", or the index of
    the section whose content they are.
    """

    start: int
    len: int
    owner: Union[str, int]


def _without_views(record: tuple[Any, ...]) -> tuple[list[Any], list[int]]:
    """The fields of a record with copies in place of views, which can't be pickled; and the
    positions of these."""
    views = [position for position, it in enumerate(record) if isinstance(it, memoryview)]
    return [bytes(it) if position in views else it for position, it in enumerate(record)], views


def _with_contents(kind: Any, fields: list[Any], views: list[int]) -> Any:
    """A record that was pickled: its contents are views again, of its own bytes."""
    values = [memoryview(it) if position in views else it for position, it in enumerate(fields)]
    return kind._make(values)


class _Read(Sequence[_Record]):
    """Records that are read when they are asked for. They are pickled as a list."""

    def __repr__(self) -> str:
        return f"<{len(self)} records>"

    def __reduce__(self) -> tuple[Any, ...]:
        return list, ([*self],)


class _Records(_Read[_Record]):
    """Records that are read by their index; of a broken table some can't be."""

    def __init__(self, count: int, read: Callable[[int], Optional[_Record]]) -> None:
        self._indices = range(count)
        self._read = read

    def __len__(self) -> int:
        return len(self._indices)

    def __getitem__(self, index: Any) -> Any:
        if isinstance(index, slice):
            return [*self._found(self._indices[index])]
        found = self._read(self._indices[index])
        if found is None:
            raise IndexError("the table has no entry of this index")
        return found

    def __iter__(self) -> Iterator[_Record]:
        return self._found(self._indices)

    def _found(self, indices: range) -> Iterator[_Record]:
        return (it for it in builtins.map(self._read, indices) if it is not None)


class _Notes(_Read[Note]):
    """Notes, each of which says where the next one begins: they are read as far as they are asked
    for."""

    def __init__(self, count: int, read: Callable[[int], Optional[tuple[Note, int]]]) -> None:
        self._indices = range(count)
        self._read = read
        # Where those begin that were passed.
        self._starts = [0]

    def __len__(self) -> int:
        return len(self._indices)

    def __getitem__(self, index: Any) -> Any:
        if isinstance(index, slice):
            return [self._at(it) for it in self._indices[index]]
        return self._at(self._indices[index])

    def _at(self, position: int) -> Note:
        while position >= len(self._starts):
            self._starts.append(self._found(self._starts[-1])[1])
        return self._found(self._starts[position])[0]

    def _found(self, start: int) -> tuple[Note, int]:
        found = self._read(start)
        if found is None:
            raise IndexError("the table has no entry of this index")
        return found

    def __iter__(self) -> Iterator[Note]:
        found = self._read(0)
        while found:
            yield found[0]
            found = self._read(found[1])


class File:
    """An ELF-64 file that breaks no rule, as `parse` and `open` make it.

    It borrows the bytes that it was made of: a bytearray keeps its length meanwhile, a
    mmap stays open. If the bytes change, its results are no longer true. `close`, or the
    end of a `with`, releases them. A pickle of it has its bytes, which are validated where
    it is loaded.
    """

    def __init__(self, data: _Bytes) -> None:
        self._view = _view_of(data)
        self._address = _library.address_of(self._view)
        try:
            self._validate()
        except BaseException:
            # The bytes are free again also while the error is looked at.
            self._view.release()
            raise
        self._numbers = self._filled(_declared.File, "elfmap_file")

    def close(self) -> None:
        """Releases the bytes. Contents that are still held keep them. What would read the bytes
        afterwards is a ValueError."""
        self._view.release()

    def __enter__(self) -> "File":
        return self

    def __exit__(self, *_: object) -> None:
        self.close()

    def __reduce__(self) -> tuple[Any, ...]:
        return type(self), (self._view.tobytes(),)

    @property
    def header(self) -> Header:
        """The ELF header."""
        e_ident, *fields = _values(self._filled(_declared.Header, "elfmap_header"))
        return Header(bytes(e_ident), *fields)

    @property
    def sections(self) -> Sequence[Section]:
        """All sections, in the order of their headers; the first has type SHT_NULL."""
        return _Records(self._numbers.sections, self._section)

    @property
    def segments(self) -> Sequence[Segment]:
        """All segments, in the order of their headers."""
        return _Records(self._numbers.segments, self._segment)

    @property
    def summary(self) -> Summary:
        """How many bytes, sections and segments it has."""
        return Summary(len(self._view), self._numbers.sections, self._numbers.segments)

    @property
    def parts(self) -> list[Part]:
        """What each byte belongs to: ascending parts, none of them empty."""
        count = ctypes.c_uint64()
        fault = _declared.Fault()
        wanted = 0
        for _ in range(2):
            room = (_declared.Part * wanted)()
            if self._call("elfmap_parts", room, wanted, count, fault):
                return [_part(it) for it in room[: count.value]]
            wanted = fault.at  # This suffices.
        raise RuntimeError("the bytes were written after they were parsed")

    def load(self, address: int) -> Optional[int]:
        """The byte that the loadable segments give an address; None where none does."""
        number = operator.index(address)
        byte = ctypes.c_uint8()
        of = (self._numbers,)
        is_there = 0 <= number < _END and self._call("elfmap_load", number, byte, of=of)
        return byte.value if is_there else None

    def symbols(self, section: int) -> Sequence[Symbol]:
        """The symbols of the symbol table in a section; none where it holds none.

        A file that breaks no rule of images may have a table that breaks rules of its
        own. Then the entries that lie in the file are returned, without symbols whose
        word in an index table is missing: to ask for one by its index is an IndexError.
        """
        return self._entries(section, _SYMBOLS, "elfmap_symbol", _declared.Symbol, self._symbol)

    def relocations(self, section: int) -> Sequence[Relocation]:
        """The relocations of a relocation section; none where it is none."""
        kind = _declared.Relocation
        return self._entries(section, _RELOCATIONS, "elfmap_relocation", kind, self._relocation)

    def dynamic(self, section: int) -> Sequence[Dynamic]:
        """The entries of the dynamic array in a section, before the first DT_NULL."""
        kind = _declared.Dynamic
        return self._entries(section, (SHT.DYNAMIC,), "elfmap_dynamic", kind, self._dynamic)

    def notes(self, section: int) -> Sequence[Note]:
        """The notes of a note section; none where it is none."""
        table = self._table(section, (SHT.NOTE,))
        note = _declared.Note()

        def read(start: int) -> Optional[tuple[Note, int]]:
            if not table or not self._call("elfmap_note_at", start, note, of=(table,)):
                return None
            name = self._at(note.name.start, note.name.len)
            desc = self._at(note.desc.start, note.desc.len)
            return Note(bytes(name), note.n_type, desc), note.next

        return _Notes(table.entries if table else 0, read)

    def words(self, section: int) -> _columns.Column:
        """The words of a section group, an index table or a hash table, an array; none where the
        section holds none.

        Those of a group are its flags, and then the indices of its members.
        """
        table = self._table(section, _WORDS)
        words = array.array("I", bytes(_WORD_SIZE * table.entries if table else 0))
        if table:
            self._call("elfmap_words", 0, *words.buffer_info(), of=(table,))
        return words

    def columns(self, section: int) -> dict[str, _columns.Column]:
        """The numbers of a symbol table, relocation section or dynamic array: an array for each
        field.

        Each array has as many numbers as `symbols`, `relocations` or `dynamic` has entries.
        numpy.asarray takes one without a copy. A section without such a table has no arrays. The
        fields are those of the records, without names and the `section` of a symbol.
        """
        table = self._table(section, tuple(_columns.ROWS))
        if not table:
            return {}
        rows = _columns.ROWS[table.sh_type]
        bare = _columns.without_names(table)

        def fill(first: int, buffer: Any, count: int) -> None:
            self._call(rows.call, first, buffer, count, of=(bare,))

        return _columns.columns(rows, table.entries, fill)

    def find(self, section: int, name: _Text) -> Optional[int]:
        """The index of the symbol of this name, by the hash table in a section."""
        words = _text(name, "a name")
        symbol = ctypes.c_uint32()
        table = self._table(section, (SHT.HASH,))
        if table and self._call("elfmap_find", *words, symbol, of=(table,)):
            return symbol.value
        return None

    def __repr__(self) -> str:
        try:
            return "<elfmap.File: {} bytes, {} sections, {} segments>".format(*self.summary)
        except ValueError:
            return "<elfmap.File: closed>"

    def _call(self, name: str, *words: Any, of: tuple[Any, ...] = ()) -> bool:
        # The length of a view that was released is an error, before its bytes are read.
        call = getattr(_library.library(), name)
        return bool(call(*of, self._address, len(self._view), *words))

    def _section_headers(self) -> Iterator[tuple[int, ...]]:
        """The fields of all section headers, without names and contents."""
        return _library.section_headers(self._numbers, self._address, len(self._view))

    def _validate(self) -> None:
        """Raises Refused where a rule is broken."""
        fault = _declared.Fault()
        wanted = _SMALL_ROOM
        for _ in range(2):
            room = (_declared.Extent * wanted)()
            if self._call("elfmap_verdict_in", room, wanted, fault):
                return
            if fault.rule != _declared.SHORT_ROOM:
                break
            wanted = fault.at  # This suffices.
        raise Refused(fault.rule, fault.at)

    def _filled(self, kind: type, name: str, index: Optional[int] = None) -> Any:
        """The struct that a call fills in."""
        it = kind()
        of, words = ((), (it,)) if index is None else ((self._numbers,), (index, it))
        if not self._call(name, *words, of=of):
            raise RuntimeError("the bytes were written after they were parsed")
        return it

    def _section(self, index: int) -> Section:
        fields = _values(self._filled(_declared.Section, "elfmap_section", index))
        it = self._filled(_declared.Extent, "elfmap_name", index)
        section = Section._make([*fields, bytes(self._at(it.start, it.len)), None])
        if section.sh_type in (SHT.NULL, SHT.NOBITS):
            return section
        return section._replace(content=self._at(section.sh_offset, section.sh_size))

    def _segment(self, index: int) -> Segment:
        fields = _values(self._filled(_declared.Segment, "elfmap_segment", index))
        segment = Segment._make([*fields, None])
        if segment.p_type == PT.NULL:
            return segment
        return segment._replace(content=self._at(segment.p_offset, segment.p_filesz))

    def _table(self, section: int, types: tuple[int, ...]) -> Optional[_declared.Table]:
        """The table in a section of one of these types."""
        index = operator.index(section)
        table = _declared.Table()
        of = (self._numbers,)
        is_there = 0 <= index < _END and self._call("elfmap_table", index, table, of=of)
        return table if is_there and table.sh_type in types else None

    def _entries(
        self,
        section: int,
        types: tuple[int, ...],
        call: str,
        kind: type,
        made: Callable[[Any, Any], _Record],
    ) -> Sequence[_Record]:
        table = self._table(section, types)

        def read(index: int) -> Optional[_Record]:
            it = kind()
            is_there = self._call(call, index, it, of=(table,))
            return made(table, it) if is_there else None

        return _Records(table.entries if table else 0, read)

    def _symbol(self, _: _declared.Table, it: _declared.Symbol) -> Symbol:
        return Symbol(bytes(self._at(it.name.start, it.name.len)), *_values(it)[1:])

    def _relocation(self, _: _declared.Table, it: _declared.Relocation) -> Relocation:
        return Relocation(*_values(it))

    def _dynamic(self, table: _declared.Table, it: _declared.Dynamic) -> Dynamic:
        place = _declared.Extent()
        self._call("elfmap_string", it.d_un, place, of=(table,))
        return Dynamic(it.d_tag, it.d_un, bytes(self._at(place.start, place.len)))

    def _at(self, start: int, size: int) -> memoryview:
        return self._view[start : start + size]


# A function called `_fields` would make the module a named tuple for `help`, which then shows all
# private names.
def _values(struct: ctypes.Structure) -> list[Any]:
    return [getattr(struct, name) for name, _ in struct._fields_]


def _part(it: _declared.Part) -> Part:
    owner = _OWNERS[it.owner] if it.owner < len(_OWNERS) else it.owner - len(_OWNERS)
    return Part(it.start, it.len, "gap" if it.owner == _declared.GAP else owner)


def parse(data: _Bytes) -> File:
    """Validates the bytes by all rules, in n log n steps, and copies none of them.

    Raises Refused with the first rule that they break, and the lowest offset at which
    they do. Takes any bytes in one piece: bytes, bytearray, memoryview, mmap, array. A path
    is a TypeError here and in all calls but `open`.
    """
    return File(data)


def open(path: _AnyPath) -> File:
    """Reads the file of this path into memory, and validates it as `parse` does.

    Raises OSError where it can't be read. Nothing is mapped: the file may change meanwhile.
    """
    return parse(_read(path))


def _read(path: _AnyPath) -> bytes:
    """The bytes of a file; of one that is longer than any that keeps the rules, the first ones."""
    with builtins.open(os.fspath(path), "rb") as it:
        # As many bytes of memory are taken as are asked for.
        size = os.fstat(it.fileno()).st_size
        pieces = [it.read(min(size, _LONGEST) or _PIECE)]
        while pieces[-1] and sum(len(piece) for piece in pieces) < _LONGEST:
            pieces.append(it.read(_PIECE))
    return b"".join(piece for piece in pieces if piece)


def check(data: _Bytes) -> Summary:
    """Counts bytes, sections and segments of a file; raises Refused as `parse` does."""
    return parse(data).summary


# ---- The engines


def show(data: _Bytes) -> str:
    """The lines of `elfmap show` on a file, also on one that is refused."""
    status, outcome, text = _said("elfmap_show", *_bytes_of(data))
    if status not in (_declared.DONE, _declared.REFUSED):
        raise _failure(status, outcome)
    return text.decode("ascii")


def refused_tables(data: _Bytes) -> list[tuple[int, int, int]]:
    """The tables of a file that break a rule: section, first rule broken, lowest offset.

    Raises Refused where the file itself breaks a rule. Takes no memory for the entries of
    tables, but for those of one group or hash table at a time. Names of more than 64 bytes of
    symbols in hash tables take memory too: a few bytes for each place where one begins.
    """
    address, size = _bytes_of(data)
    library = _library.library()
    numbers = _declared.File()
    library.elfmap_file(address, size, numbers)
    # Of a refused file no number need be true.
    verdicts = (_declared.Fault * min(numbers.sections, size // 64))()
    outcome = _declared.Outcome()
    status = library.elfmap_table_verdicts(address, size, 0, verdicts, len(verdicts), outcome)
    if status != _declared.DONE:
        raise _failure(status, outcome)
    return [(i, it.rule, it.at) for i, it in enumerate(verdicts) if it.rule]


def rewrite(data: _Bytes) -> bytes:
    """The object that a relocatable file denotes, as a file in canonical layout.

    Raises Refused, or TooLong where it is longer than 2^30 bytes.
    """
    return _done(*_said("elfmap_rewrite", *_bytes_of(data)))


def link(
    files: Iterable[_Bytes],
    rules: _Text,
    *,
    base: int = 0x400000,
    page: int = 0x1000,
    entry: _Text = b"_start",
) -> bytes:
    """The executable of these objects, by the relocation rules of a text.

    docs/RULE_FILES.md has the lines of rules. Raises BadRules, Refused, NotLinked or
    TooLong; and OverflowError where `base` or `page` is not from 0 to 2^64 - 1. The bytes
    of the files are not copied.
    """
    contents = _views_of(files)
    start = _text(entry, "entry")
    words = (*_linked(contents, base, page), *start, *_text(rules, "rules"))
    return _done(*_said("elfmap_link", *words), contents, start[0])


def map(
    files: Iterable[_Bytes],
    rules: Optional[_Text] = None,
    *,
    base: int = 0x400000,
    page: int = 0x1000,
) -> str:
    """The lines of `elfmap map` on these objects, and, with rules, their relocated bytes.

    Raises what `link` does.
    """
    contents = _views_of(files)
    text = _text(b"" if rules is None else rules, "rules")
    words = (*_linked(contents, base, page, rules is not None), *text)
    return _done(*_said("elfmap_map", *words), contents).decode("ascii")


def _view_of(data: _Bytes) -> memoryview:
    """The bytes that are in one piece, whatever numbers they are taken for."""
    if isinstance(data, (str, os.PathLike)):
        raise TypeError(
            "the bytes of a file are wanted, and no path: pass those of Path.read_bytes()"
        )
    if isinstance(data, (bytes, bytearray)) or _is_plain(data):
        return memoryview(data).toreadonly()
    # What is no bytes may be numbers of any kind. Most callers have bytes, and start without it.
    import pickle

    try:
        return pickle.PickleBuffer(data).raw().toreadonly()
    except BufferError:
        raise TypeError("bytes in one piece are wanted") from None


def _is_plain(data: object) -> bool:
    """Whether it is a view of bytes that follow one another."""
    return (
        isinstance(data, memoryview) and data.format == "B" and data.c_contiguous and data.ndim == 1
    )


def _bytes_of(data: _Bytes) -> tuple[Any, int]:
    view = _view_of(data)
    # The array holds the view as long as it is there itself.
    return _Borrowed(_library.address_of(view), view), len(view)


class _Borrowed(ctypes.c_void_p):
    """An address that keeps the view whose bytes are there."""

    def __init__(self, address: int, view: memoryview) -> None:
        super().__init__(address)
        self.view = view


def _text(words: _Text, what: str) -> tuple[bytes, int]:
    """The bytes of a name or a text, also of one that Python got by surrogateescape."""
    if not isinstance(words, (str, bytes)):
        raise TypeError(f"str or bytes are wanted for {what}, and no {type(words).__name__}")
    text = words.encode("utf-8", "surrogateescape") if isinstance(words, str) else words
    return text, len(text)


def _number(value: int, what: str) -> int:
    number = operator.index(value)
    if not 0 <= number < _END:
        raise OverflowError(f"a number from 0 to 2^64 - 1 is wanted for {what}")
    return number


def _linked(
    contents: list[memoryview], base: int, page: int, uses_rules: bool = True
) -> tuple[Any, ...]:
    options = _declared.Options(_number(base, "base"), _number(page, "page"), uses_rules)
    return _library.files_of(contents), len(contents), options


def _views_of(files: Iterable[_Bytes]) -> list[memoryview]:
    """The bytes of each file. Those of one file are no files: each of them would be taken for
    one."""
    if isinstance(files, (str, os.PathLike)) or _has_bytes(files):
        raise TypeError("the bytes of several files are wanted: pass [data] for those of one")
    return [_view_of(it) for it in files]


def _has_bytes(it: object) -> bool:
    try:
        memoryview(it)  # type: ignore[arg-type]
    except TypeError:
        return False
    return True


def _said(name: str, *words: Any) -> tuple[int, _declared.Outcome, bytes]:
    """All that an engine says, asked for twice: how long it is, and then for itself."""
    call = getattr(_library.library(), name)
    outcome = _declared.Outcome()
    room = ctypes.create_string_buffer(1)
    status = call(*words, room, 0, outcome)
    if status == _declared.SMALL_ROOM:
        room = ctypes.create_string_buffer(outcome.length)
        status = call(*words, room, outcome.length, outcome)
    return status, outcome, room.raw[: outcome.length]


def _done(
    status: int,
    outcome: _declared.Outcome,
    said: bytes,
    contents: Sequence[memoryview] = (),
    entry: bytes = b"",
) -> bytes:
    if status != _declared.DONE:
        raise _failure(status, outcome, contents, entry)
    return said


def _failure(
    status: int, outcome: _declared.Outcome, contents: Sequence[memoryview] = (), entry: bytes = b""
) -> Exception:
    """What a status says, with the numbers of its outcome, and the name of the symbol in these
    files."""
    if status == _declared.REFUSED:
        return Refused(outcome.rule, outcome.at, outcome.file)
    if status == _declared.NOT_LINKED:
        return _not_linked(outcome, contents, entry)
    if status == _declared.TOO_LONG:
        return TooLong()
    if status == _declared.BAD_RULES:
        return BadRules(outcome.at)
    return MemoryError()


def _not_linked(it: _declared.Outcome, contents: Sequence[memoryview], entry: bytes) -> NotLinked:
    """Why files don't link, and what that is about; without this if there is no memory for it."""
    site = it.rule, it.file, it.index, it.at
    if it.rule == _link_places.NO_ENTRY:
        return NotLinked(*site, entry)
    with contextlib.suppress(MemoryError):
        place = _link_places.link_place(contents, site)
        if place:
            symbol = _link_places.symbol_of(contents[it.file], it.rule, place)
            is_second = it.rule == _link_places.TWO_DEFINITIONS
            first = (place.first_file, place.first_index) if is_second else None
            return NotLinked(*site, symbol, place.record.start, first)
    return NotLinked(*site)
