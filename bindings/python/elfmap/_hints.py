"""The likely cause of a refusal, where its place shows one, and the command that helps."""

from __future__ import annotations

import os
import re
import shlex
from collections.abc import Iterator
from typing import Optional

from elfmap._deviations import SEGMENT_PAST_END, is_debug_file
from elfmap._names import section_type
from elfmap._words import SECTION, SHARED_BYTE, Words, visible
from elfmap.constants import ET

TOO_SHORT = 2
WRONG_MAGIC = 3
WRONG_CLASS = 4
NOT_NULL = 13
_WRONG_LINK = 44
NOT_RELOCATABLE = 70
_KEPT_LINK = 78
_KEPT_INFO = 79
_OF_SECTION_TABLE = (12, NOT_NULL, 15)
# The machines whose compilers take -m32 and -m64: SPARC, 386, SPARC32PLUS, PPC, S390 and X86_64.
_OF_BOTH_CLASSES = (2, 3, 18, 20, 22, 62)
_ADDRSIG = "LLVM_ADDRSIG"
# What has another meaning within $'..'.
_QUOTED = re.compile(rb"[\\']")
# What other files begin with.
_MAGICS = {
    b"!<arch>\n": "it is an archive: elfmap-lint checks its members, and a link takes these (ar x)",
    b"!<thin>\n": "it is a thin archive: elfmap-lint checks its members, and a link takes these",
    b"BC\xc0\xde": "it is LLVM bitcode: compile without -flto",
    b"\xde\xc0\x17\x0b": "it is LLVM bitcode: compile without -flto",
    b"#!": "it is a script",
    b"MZ": "it is a program for Windows",
    b"\xcf\xfa\xed\xfe": "it is a Mach-O file",
    b"\x1f\x8b": "it is compressed by gzip: decompress it first",
    b"\xfd7zXZ": "it is compressed by xz: decompress it first",
    b"\x28\xb5\x2f\xfd": "it is compressed by zstd: decompress it first",
}
_FILES: dict[int, str] = {
    ET.NONE: "of no type",
    ET.EXEC: "an executable",
    ET.DYN: "a shared object or a position-independent executable",
    ET.CORE: "a core file",
}
_HEADER_SIZE = 64
# The first letters of a section's name that show who made a file that breaks a rule, and why it
# does: a section over the ELF header, and a link to a table that isn't there.
_PRODUCERS = {
    SHARED_BYTE: (
        b".guile.",
        "Guile made it, whose compiler gives a section to the ELF header and the program headers",
    ),
    _WRONG_LINK: (
        b"__u_boot_list",
        "U-Boot made it, whose linker script leaves out tables that others link to",
    ),
}


def hints(
    words: Words, path: str, rule: int, at: int, table: Optional[int] = None
) -> Iterator[str]:
    """Of a rule of files that is broken at an offset. The path is that for a command."""
    if rule in (TOO_SHORT, WRONG_MAGIC):
        yield from _foreign(words)
    elif rule == WRONG_CLASS and words.number(4, 1) == 1:
        if words.machine in _OF_BOTH_CLASSES:
            yield "it is a file of class 32, as -m32 makes it: compile it with -m64"
        else:
            yield "it is a file of class 32: compile it for a processor of 64 bits"
    elif rule in _OF_SECTION_TABLE:
        yield from _astray(words)
    elif rule == NOT_RELOCATABLE:
        kind = _FILES.get(words.number(16, 2), "of another type")
        yield f"the file is {kind}: an object is what cc -c writes"
    elif rule in (_KEPT_LINK, _KEPT_INFO):
        yield from _address_significance(words, path, at)
    yield from producers(words, rule, at)


def producers(words: Words, rule: int, at: int) -> Iterator[str]:
    """Who made a file that breaks a rule of files at an offset, where its sections show it."""
    if rule == SEGMENT_PAST_END and is_debug_file(words):
        yield "it is a file of debug information, which elfmap-lint accepts with --debug-files"
    if rule not in _PRODUCERS or rule == SHARED_BYTE and at >= _HEADER_SIZE:
        return
    start, hint = _PRODUCERS[rule]
    if any(it.startswith(start) for it in words.first_names):
        yield hint


def _foreign(words: Words) -> Iterator[str]:
    yield from (hint for magic, hint in _MAGICS.items() if words.data[: len(magic)] == magic)


def _astray(words: Words) -> Iterator[str]:
    """`e_shoff` leads elsewhere, or the file was cut short."""
    count = words.number(60, 2)
    size = len(words.data)
    fits = _table_at_end(words, count)
    end = words.table + 64 * max(count, 1)
    astray = f"e_shoff, which is {words.table:#x}, points astray"
    if fits:
        yield f"{astray}: a table of {count} section headers is at {fits:#x}"
    elif end > size:
        ends = f"its section header table ends at {end:#x}, and the file at {size:#x}"
        yield f"the file was cut short: {ends}"
    elif _fields_that_are_set(words) > 1:
        yield f"{astray}: what is there looks like no section header 0"


def _table_at_end(words: Words, count: int) -> int:
    """Where a table begins that ends with the file, as most writers place it; 0 if there is
    none."""
    start = (len(words.data) - 64 * count) // 8 * 8
    if count < 2 or start < 64 or start == words.table:
        return 0
    first = words.data[start : start + 64]
    second = words.data[start + 64 : start + 128]
    return start if not any(first) and any(second[4:8]) else 0


def _fields_that_are_set(words: Words) -> int:
    """How many fields of section header 0 are set that have to be 0."""
    may_be_set = ("sh_size", "sh_link", "sh_info")
    return sum(words.section(0, it) != 0 for it in SECTION if it not in may_be_set)


def _address_significance(words: Words, path: str, at: int) -> Iterator[str]:
    index = (at - words.table) // 64
    kind = section_type(words.section(index, "sh_type"))
    if kind == _ADDRSIG or words.section_name(index) == ".llvm_addrsig":
        strip = f"objcopy --remove-section=.llvm_addrsig {shell_word(os.fsencode(path))}"
        yield f"clang wrote .llvm_addrsig: compile with -fno-addrsig, or strip it: {strip}"


def shell_word(path: bytes) -> str:
    """A path as a word of a command for bash, zsh or ksh, in letters that can be printed."""
    if visible(path) == path:
        return shlex.quote(os.fsdecode(path))
    quoted = _QUOTED.sub(rb"\\\g<0>", path)
    return f"$'{visible(quoted).decode()}'"
