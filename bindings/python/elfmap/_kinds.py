"""What a section holds, in words, and the kind by which it is drawn."""

from __future__ import annotations

# By its type; of type PROGBITS and its like, by its flags.
TYPES = {
    2: "symbols",
    3: "strings",
    4: "relocations",
    5: "hash table",
    6: "dynamic array",
    7: "notes",
    9: "relocations",
    11: "symbols",
    14: "addresses",
    15: "addresses",
    17: "group",
    18: "indexes",
}
_RELOCATION_TYPES = (4, 9)
_SYMBOL_TYPES = (2, 3, 5, 11, 18)
_WRITE = 1
_ALLOC = 2
_EXECINSTR = 4


def colour_of_type(kind: int) -> str:
    """The colour of a section of one of the types that say what it holds."""
    if kind in _RELOCATION_TYPES:
        return "relocations"
    if kind in _SYMBOL_TYPES:
        return "symbols and strings"
    return "other"


def colour_of_flags(flags: int) -> str:
    """The colour of a section of any other type, which says also what it holds."""
    if flags & _EXECINSTR:
        return "code"
    if flags & _WRITE:
        return "data"
    return "constants" if flags & _ALLOC else "other"
