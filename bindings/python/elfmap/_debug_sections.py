"""The sections of a link that are not loaded, as those of debug information: read, and laid out by
the proved library.

A link map has only sections that are loaded. So objects are made here that have the other
ones as loaded sections without bytes, and no others. In their map from address 0 on the place of a
section is its offset.
"""

from __future__ import annotations

import struct
import zlib
from collections.abc import Sequence
from itertools import chain
from typing import NamedTuple, Optional

import elfmap
from elfmap._elf_file import Row, object_head, order_of, with_sections
from elfmap._map_lines import LinkMap, Place
from elfmap._link_values import Object
from elfmap.constants import ELFCOMPRESS_ZLIB, LONGEST_FILE, SHF, SHT, SHT_LOPROC

# A flag of GNU: a link leaves the section out.
EXCLUDE = 0x8000_0000
_KEPT_FLAGS = SHF.MERGE | SHF.STRINGS
_NO_CONTENT = b".note.GNU-stack"
# How the name begins of a section that GNU compressed before the gABI had a flag for it.
_OLD_COMPRESSED = b".zdebug_"
_TOO_LONG_TOGETHER = (
    "with it the sections that are not loaded have more than 2^30 bytes, when they are decompressed"
)


class NotRelocated(elfmap.NotLinked):
    """Why sections that are not loaded can't be relocated by the rules."""


class NotRead(ValueError):
    """Why the content of a section can't be read."""

    def __init__(self, file: int, name: bytes, reason: str) -> None:
        super().__init__(file, name, reason)
        self.file = file
        self.name = name
        self.reason = reason


class Input(NamedTuple):
    """A section that is not loaded, with the bytes that it has when it is no longer compressed."""

    file: int
    section: int
    name: bytes
    content: bytes
    flags: int
    align: int
    entsize: int


class Member(NamedTuple):
    """A section in an output section: which one that is, and its offset there."""

    input: Input
    output: int
    offset: int


class DebugSection(NamedTuple):
    """An output section that is not loaded."""

    name: bytes
    length: int
    members: list[Member]

    @property
    def flags(self) -> int:
        """The flags that all members have, of those on their strings."""
        flags = int(_KEPT_FLAGS)
        for it in self.members:
            flags &= it.input.flags
        return flags if self.entsize else 0

    @property
    def align(self) -> int:
        return max(it.input.align for it in self.members)

    @property
    def entsize(self) -> int:
        """That of all members, or 0."""
        sizes = {it.input.entsize for it in self.members}
        return sizes.pop() if len(sizes) == 1 else 0


def debug_inputs(objects: Sequence[Object], discarded: set[Place]) -> list[list[Input]]:
    """Of each object the sections that are not loaded, and that a program has.

    Raises NotRead if one is compressed in a way that can't be read, or if all of them are longer
    than a file may be. Nothing is decompressed before it is known how long all of it is.
    """
    stored = [
        [
            _stored(file, index, own)
            for position, index in enumerate(own.kept)
            if _is_wanted(own.sections[index]) and (file, position) not in discarded
        ]
        for file, own in enumerate(objects)
    ]
    total = 0
    for it in chain.from_iterable(stored):
        total += it.size
        if total > LONGEST_FILE:
            raise NotRead(it.input.file, it.input.name, _TOO_LONG_TOGETHER)
    return [[_read(it) for it in some] for some in stored]


def _is_wanted(section: elfmap.Section) -> bool:
    """Whether a section has bytes for a program that are not loaded. What another type than
    SHT_PROGBITS has is not joined by a link, but for debug information, which has a type of its own
    for some processors."""
    if section.sh_flags & (SHF.ALLOC | EXCLUDE) or section.name == _NO_CONTENT:
        return False
    is_debug = section.name.startswith(b".debug_") and section.sh_type >= SHT_LOPROC
    return section.sh_size > 0 and (is_debug or section.sh_type == SHT.PROGBITS)


class _Stored(NamedTuple):
    """A section as its object has it: what it is without its bytes, these bytes, and, if they are
    compressed, how many it has when they are not."""

    input: Input
    content: memoryview
    inflated: Optional[int] = None

    @property
    def size(self) -> int:
        return len(self.content) if self.inflated is None else self.inflated


def _stored(file: int, index: int, own: Object) -> _Stored:
    section = own.sections[index]
    content = section.content or memoryview(b"")
    align = section.sh_addralign or 1
    it = Input(file, index, section.name, b"", section.sh_flags, align, section.sh_entsize)
    if section.sh_flags & SHF.COMPRESSED:
        return _compressed(it, content, own.is_big)
    if section.name.startswith(_OLD_COMPRESSED) and content[:4] == b"ZLIB":
        return _Stored(it, content[12:], int.from_bytes(content[4:12], "big"))
    return _Stored(it, content)


def _compressed(it: Input, content: memoryview, is_big: bool) -> _Stored:
    """A section with the header that the flag COMPRESSED says it has."""
    header = struct.Struct(f"{order_of(is_big)}I4xQQ")
    if len(content) < header.size:
        raise NotRead(it.file, it.name, "it is shorter than the header of a compressed section")
    kind, size, align = header.unpack_from(content)
    if kind != ELFCOMPRESS_ZLIB:
        raise NotRead(it.file, it.name, f"its compression, {kind}, is not known")
    if not align or align & (align - 1):
        raise NotRead(it.file, it.name, "its alignment is no power of two")
    return _Stored(it._replace(align=align), content[header.size :], size)


def _read(stored: _Stored) -> Input:
    it = stored.input
    if stored.inflated is None:
        return it._replace(content=bytes(stored.content))
    try:
        content = _inflated(stored.content, stored.inflated)
    except (zlib.error, ValueError) as fault:
        raise NotRead(it.file, it.name, f"it can't be decompressed: {fault}") from None
    is_old = not it.flags & SHF.COMPRESSED
    return it._replace(name=b"." + it.name[2:] if is_old else it.name, content=content)


def _inflated(content: memoryview, size: int) -> bytes:
    """What zlib compressed, which has so many bytes."""
    stream = zlib.decompressobj()
    # One byte more shows that there are too many, without taking memory for all of them.
    found = stream.decompress(content, size + 1)
    if len(found) > size:
        raise ValueError("it has more bytes than its header says")
    if not stream.eof:
        raise ValueError("its compressed bytes end too early")
    if len(found) < size:
        raise ValueError("it has fewer bytes than its header says")
    if stream.unused_data:
        raise ValueError("there are more bytes after the compressed ones")
    return found


def made_object(own: Object, rows: list[Row]) -> bytearray:
    """An object for the machine of another one, with these sections."""
    head = object_head(own.is_big, own.machine, own.flags)
    return with_sections(head, rows, own.is_big)


def laid_out(objects: Sequence[Object], inputs: Sequence[list[Input]]) -> list[DebugSection]:
    """The output sections that these sections are in, each from offset 0 on.

    Raises NotRelocated if one is longer than 2^64 - 1.
    """
    files = [made_object(own, [_sized(it) for it in some]) for own, some in zip(objects, inputs)]
    try:
        layout = LinkMap(elfmap.map(files, base=0, page=1))
    except elfmap.NotLinked as fault:
        raise NotRelocated(fault.rule, 0, 0, 0) from None
    return [
        DebugSection(
            output.name,
            output.length,
            [
                Member(inputs[it.file][it.section], index, it.address - output.address)
                for it in output.members
            ],
        )
        for index, output in enumerate(layout.outputs)
    ]


def _sized(it: Input) -> Row:
    """A loaded section as long as another one, whose bytes are not looked at."""
    return Row(it.name, SHT.NOBITS, flags=SHF.ALLOC, size=len(it.content), align=it.align)
