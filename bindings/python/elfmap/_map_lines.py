"""The lines of `elfmap map`, read: where a link places sections, commons and names."""

from __future__ import annotations

from collections.abc import Callable
from functools import cached_property
from typing import NamedTuple, Optional

# A section of an object: the position of its file, and that of the section in it.
Place = tuple[int, int]


class Member(NamedTuple):
    """An input section in an output section."""

    address: int
    size: int
    file: int
    section: int


class Output(NamedTuple):
    """An output section."""

    address: int
    length: int
    has_bits: bool
    flags: int
    name: bytes
    members: list[Member]


class Common(NamedTuple):
    """A common symbol that is allocated."""

    address: int
    size: int
    name: bytes


class Name(NamedTuple):
    """The value of a name that is not local, or None if its section has no address; and its
    binding: strong, common, weak or zero."""

    value: Optional[int]
    binding: str


class LinkMap:
    """The lines of `elfmap map`, with or without relocated bytes, by their first words."""

    def __init__(self, text: str) -> None:
        self.outputs: list[Output] = []
        self.commons: list[Common] = []
        self.discarded: set[Place] = set()
        self.names: dict[bytes, Name] = {}
        self.bytes: dict[Place, bytes] = {}
        readers: dict[str, Callable[..., None]] = {
            "output": self._output,
            "member": self._member,
            "common": self._common,
            "discarded": self._discarded,
            "name": self._name,
            "bytes": self._bytes,
        }
        for line in text.splitlines():
            kind, *words = line.split(" ")
            readers[kind](*words)

    @cached_property
    def addresses(self) -> dict[Place, int]:
        """The address of each section that is live."""
        members = (it for output in self.outputs for it in output.members)
        return {(it.file, it.section): it.address for it in members}

    def _output(self, address: str, length: str, bits: str, flags: str, name: str) -> None:
        numbers = int(address, 16), int(length, 16), bits == "bits", int(flags, 16)
        self.outputs.append(Output(*numbers, name_of(name), []))

    def _member(self, address: str, size: str, file: str, section: str) -> None:
        member = Member(int(address, 16), int(size, 16), int(file), int(section))
        self.outputs[-1].members.append(member)

    def _common(self, address: str, size: str, name: str) -> None:
        self.commons.append(Common(int(address, 16), int(size, 16), name_of(name)))

    def _discarded(self, file: str, section: str) -> None:
        self.discarded.add((int(file), int(section)))

    def _name(self, value: str, binding: str, name: str) -> None:
        self.names[name_of(name)] = Name(None if value == "-" else int(value, 16), binding)

    def _bytes(self, file: str, section: str, content: str) -> None:
        is_empty = content == "-"
        self.bytes[int(file), int(section)] = b"" if is_empty else bytes.fromhex(content)


def name_of(word: str) -> bytes:
    """The name that a word of a line is printed for."""
    if word.startswith("#"):
        return bytes.fromhex(word[1:])
    return b"" if word == "-" else word.encode("ascii")
