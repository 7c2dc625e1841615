"""The names that ld defines by itself in a static link, and what to do without.

They are those that the scripts of GNU ld 2.40 assign or PROVIDE for the machines of rules/
(`ld --verbose`), `__ehdr_start`, and those of sections: `__start_x` and `__stop_x`, if x is an
identifier of C, and `.startof.x` and `.sizeof.x`. ld has them though no object defines them;
elfmap has not.

Not here are the names by which code finds a table that elfmap does not make, and that no script
has: `_GLOBAL_OFFSET_TABLE_`, `_PROCEDURE_LINKAGE_TABLE_`, `_DYNAMIC`, `_TLS_MODULE_BASE_`, `.TOC.`
and their like.
"""

from __future__ import annotations

import re
from collections.abc import Set
from typing import NamedTuple, Optional

from elfmap._words import MOST_LETTERS, printable
from elfmap.constants import EM

_MIPS = EM.MIPS.value
_IA64 = EM.IA_64.value
_AARCH64 = EM.AARCH64.value
_RISCV = EM.RISCV.value
# What of the program a name is the address of, for each machine.
_ADDRESSES = {
    b"__bss_start": "the beginning of .bss",
    b"__etext": "the end of the code",
    b"__executable_start": "the beginning of the program",
    b"_edata": "the end of the data",
    b"_end": "the end of the program",
    b"_etext": "the end of the code",
    b"edata": "the end of the data",
    b"end": "the end of the program",
    b"etext": "the end of the code",
}
# The same, of what no program of elfmap has.
_NOT_LOADED = {
    b"__ehdr_start": "the ELF header, which elfmap does not load",
    b"__tdata_start": "the beginning of .tdata, which elfmap does not link",
}
# The same as the first, for one machine alone.
_OF_MACHINES = {
    _MIPS: {
        b"_fbss": "the beginning of .bss",
        b"_fdata": "the beginning of .data",
        b"_ftext": "the beginning of .text",
        b"_gp": "the global pointer, 0x7ff0 after the end of .data",
    },
    _AARCH64: {
        b"__bss_end__": "the end of .bss",
        b"__bss_start__": "the beginning of .bss",
        b"__data_start": "the beginning of .data",
        b"__end__": "the end of the program",
        b"_bss_end__": "the end of .bss",
    },
    _RISCV: {
        b"__BSS_END__": "the end of .bss",
        b"__DATA_BEGIN__": "the beginning of .data",
        b"__SDATA_BEGIN__": "the beginning of .sdata",
        b"__global_pointer$": "the global pointer, 0x800 after the beginning of .sdata",
    },
}
_BY_MAP = "with the address that `elfmap map` shows"
_NO_ADDRESS = "with the value 0, for it has no address"
_ARRAY = re.compile(rb"__((?:preinit|init|fini)_array)_(start|end)")
# ld sorts the sections `.init_array.N` into an array, and those for older constructors too.
_ALSO_IN = {b".init_array": b".ctors", b".fini_array": b".dtors"}
# The relocations by which a program finds its indirect functions. Without such functions, of which
# there is a warning, they are an empty array.
_INDIRECT = re.compile(rb"__(rela?)_iplt_(start|end)")
_WITH_REL = (_MIPS, _IA64)
_SECTION = re.compile(rb"__(start|stop)_([A-Za-z_][A-Za-z0-9_]*)")
_ANY_SECTION = re.compile(rb"\.(startof|sizeof)\.(.+)", re.S)


class LinkerName(NamedTuple):
    """A name that ld defines: as the address of what; the section that it is an end or the size of,
    if it is one of a section; whether it is the end; and the value of an absolute symbol that does
    the same, if one does."""

    words: str
    section: bytes = b""
    is_end: bool = False
    value: str = ""

    def advice(self, name: str) -> str:
        """What to do so that an object defines the name."""
        if self.value:
            return f"define {name} in one more object as an absolute symbol, {self.value}"
        place = "after all others" if self.is_end else "before all others"
        section = f"a section {printable(self.section, MOST_LETTERS)} of the same flags"
        return f"define {name} as a label in {section}, in one more object {place}"

    def is_defined(self, sections: Set[bytes]) -> bool:
        """Whether ld defines it otherwise than as 0, or as an empty array, in a link of sections of
        these names."""
        own = self.section
        if not own or own in sections:
            return True
        older = _ALSO_IN.get(own)
        if older is None:
            return False
        numbered = own + b".", older + b"."
        return older in sections or any(it.startswith(numbered) for it in sections)


def linker_name(name: bytes, machine: int) -> Optional[LinkerName]:
    """What ld defines a name as, in a program for a machine; None if it does not."""
    words = _ADDRESSES.get(name) or _OF_MACHINES.get(machine, {}).get(name)
    if words:
        return LinkerName(words, value=_BY_MAP)
    if name in _NOT_LOADED:
        return LinkerName(_NOT_LOADED[name], value=_NO_ADDRESS)
    array = _ARRAY.fullmatch(name)
    if array:
        return _end_of(b"." + array[1], array[2] == b"end")
    indirect = _INDIRECT.fullmatch(name)
    if indirect:
        is_known = indirect[1] == b"rela" or machine in _WITH_REL
        return _of_indirect(b"." + indirect[1] + b".iplt", indirect[2]) if is_known else None
    section = _SECTION.fullmatch(name)
    if section:
        return _end_of(section[2], section[1] == b"stop")
    section = _ANY_SECTION.fullmatch(name)
    return _of_any(section[1], section[2]) if section else None


def names_of_version(name: bytes) -> tuple[bytes, ...]:
    """The names that ld binds to a default version too, if this is the name of one: to foo@@V1
    those of foo and foo@V1."""
    base, _, version = name.partition(b"@@")
    return (base, base + b"@" + version) if version else ()


def _end_of(section: bytes, is_end: bool) -> LinkerName:
    name = printable(section, MOST_LETTERS)
    return LinkerName(f"the {'end' if is_end else 'beginning'} of {name}", section, is_end)


def _of_indirect(section: bytes, side: bytes) -> LinkerName:
    end = "end" if side == b"end" else "beginning"
    words = f"the {end} of the relocations of indirect functions"
    return LinkerName(words, section, value="with the value 0, as its other end: there are none")


def _of_any(kind: bytes, section: bytes) -> LinkerName:
    if kind == b"startof":
        return _end_of(section, False)
    words = f"the size of {printable(section, MOST_LETTERS)}"
    return LinkerName(words, section, value="with the size that `elfmap map` shows")
