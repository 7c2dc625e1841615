"""How the viewer calls numbers of the format. Of one without a name it prints the number."""

from __future__ import annotations

from collections.abc import Iterator

from elfmap._names import (
    DYNAMIC_TAGS,
    SECTION_FLAGS,
    SEGMENT_FLAGS,
    SEGMENT_TYPES,
    SYMBOL_BINDINGS,
    SYMBOL_TYPES,
)
from elfmap._rules import RULES
from elfmap._words import printable
from elfmap.constants import DT, ET, STV

FILES: dict[int, str] = {
    ET.NONE: "file of no type",
    ET.REL: "relocatable file",
    ET.EXEC: "executable",
    ET.DYN: "shared object or position-independent executable",
    ET.CORE: "core file",
}
# As numbers, which are quicker than the members of an enum.
SECTION_LETTERS = {int(bit): letter for bit, letter in SECTION_FLAGS.items()}
SEGMENT_LETTERS = {int(bit): letter for bit, letter in SEGMENT_FLAGS.items()}
SECTION_KEY = (
    "W write, A alloc, X execute, M merge, S strings, I info link, L link order, O OS, G group, T"
    " TLS, C compressed"
)
_GNU_NOTES = {1: "ABI tag", 2: "hardware", 3: "build id", 4: "gold version", 5: "properties"}
_GNU = b"GNU"
# Tags whose value is a number, and no address.
_NUMBER_TAGS = {
    *(DT.PLTRELSZ, DT.RELASZ, DT.RELAENT, DT.STRSZ, DT.SYMENT, DT.RELSZ, DT.RELENT),
    *(DT.INIT_ARRAYSZ, DT.FINI_ARRAYSZ, DT.PREINIT_ARRAYSZ, DT.RELRSZ, DT.RELRENT),
    *(0x6FFFFFF9, 0x6FFFFFFA, 0x6FFFFFFD, 0x6FFFFFFF),
}


def _name(names: dict[int, str], number: int) -> str:
    # A tag of a dynamic array has a sign.
    return names.get(number) or hex(number % 2**64)


def flags_words(flags: int, letters: dict[int, str]) -> str:
    """The letters of flags; of the bits without one their number."""
    words = "".join(letter for bit, letter in letters.items() if flags & bit)
    rest = flags & ~sum(letters)
    return words + (f"+{rest:#x}" if rest else "") if words or rest else "-"


def segment_type(number: int) -> str:
    return _name(SEGMENT_TYPES, number)


def dynamic_tag(number: int) -> str:
    return _name(DYNAMIC_TAGS, number)


def dynamic_value(tag: int, value: int) -> str:
    return str(value) if tag in _NUMBER_TAGS else hex(value)


def symbol_type(number: int) -> str:
    return _name(SYMBOL_TYPES, number)


def symbol_binding(number: int) -> str:
    return _name(SYMBOL_BINDINGS, number)


def symbol_visibility(other: int) -> str:
    return STV(other & 3).name


def note_words(name: bytes, number: int) -> str:
    """What a note is, by its owner and its type."""
    known = _GNU_NOTES.get(number) if name.rstrip(b"\0") == _GNU else None
    return known or f"type {number:#x}"


def note_owner(name: bytes) -> str:
    """The owner of a note, without the zero byte that closes it."""
    return printable(name[:-1] if name.endswith(b"\0") else name, 40)


def letters_of(content: bytes) -> Iterator[tuple[int, bytes]]:
    """The strings of a string table, each with its offset."""
    at = 0
    for it in content.split(b"\0"):
        if it:
            yield at, it
        at += len(it) + 1


def rule_words(rule: int) -> str:
    """A rule by its name and its number."""
    return f"{RULES[rule][0]} ({rule})"
