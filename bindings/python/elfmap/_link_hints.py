"""What made a file that a rule of the link refuses, where its place shows it, and the option
without which it is not made."""

from __future__ import annotations

import re
from collections.abc import Iterator, Sequence
from itertools import islice

from elfmap._hints import shell_word
from elfmap._link_words import EMPTY_SIGNATURE, UNDEFINED_NAME, Linked
from elfmap._linker_names import linker_name
from elfmap._names import machine_words, relocation_types
from elfmap._rule_files import changes_no_bytes, file_with, files_for
from elfmap.constants import SHF, STT

# Rules of the link by their numbers.
_TLS = 3
_LINK_ORDER = 4
_BAD_SYMBOL = 6
NO_RULE = 12
_UNPLACED = 13
# The warnings.
INDIRECT_FUNCTION = 1
NAME_OF_LINKER = 2
FIELD_UNCHANGED = 3
FIELD_CHANGED_OTHERWISE = 4
CODE_FOR_LTO = 5
ARRAY_NOT_SORTED = 6
EXECUTABLE_STACK = 7
DIVIDED_SECTION = 8
GAP_IN_CODE = 9
VERSIONED_NAME = 10
# Types and a binding of symbols, and the flag of a section in a group.
_OF_SECTION = STT.SECTION.value
_OF_THREAD = STT.TLS.value
_GNU_UNIQUE = 10
_IN_GROUP = SHF.GROUP.value
_LITTLE_MIPS = (8, "<")
_SYMBOLS_AT_ONCE = 1 << 12
_LTO_SECTION = b".gnu.lto_"
_LTO_SYMBOL = b"__gnu_lto_slim"
_LTO = "compile it without -flto, or with -ffat-lto-objects"
_THREADS = (
    "variables of threads are not linked, nor is `errno` of most C libraries, which is one: compile"
    " without __thread and thread_local, for a C library such as klibc"
)
_GOT = "a global offset table, which elfmap does not make"
_GOT_NAME = "_GLOBAL_OFFSET_TABLE_"
# The options without which compilers for a machine use such a table.
_WITHOUT_GOT = {
    21: "compilers for this machine find each address by it, so that no option avoids it",
    62: (
        "compile with -fno-pic, without -fno-plt, and with -mcmodel=small, kernel or large, as its"
        " addresses need"
    ),
}
_WITHOUT_GOT_ELSE = "compile with -fno-pic, and without -fno-plt"
# What relocation types by such tables have in their names, and those of threads. That of TOCSAVE is
# no field: it marks an instruction.
_OF_GOT = re.compile("GOT|PLTOFF|SOP_PUSH_GPREL|TOC(?!SAVE)")
_OF_THREADS = re.compile("TLS|TPOFF|DTP|TPREL")
_MEMORY = (
    "compilers call it by themselves, also with -ffreestanding: link an object that defines it"
)
_STACK = "the code checks its stack: compile it with -fno-stack-protector"
_PROFILED = "the code is compiled for a profiler: compile it without -pg"
# Names that compilers refer to by themselves, and the option without which they do not.
_NAMES = {
    "_Unwind_Resume": "the code unwinds its stack: compile it with -fno-exceptions",
    "__cxa_guard_acquire": (
        "a variable in a function is set at its first call: compile with -fno-threadsafe-statics"
    ),
    "__errno_location": "`errno` is one of a thread: compile for a C library such as klibc",
    "__fentry__": _PROFILED,
    "__gxx_personality_v0": "the code has exceptions of C++: compile it with -fno-exceptions",
    "__stack_chk_fail": _STACK,
    "__stack_chk_guard": _STACK,
    "__tls_get_addr": "the code has thread-local variables, which elfmap does not link",
    "_mcount": _PROFILED,
    "mcount": _PROFILED,
    **dict.fromkeys(("memcmp", "memcpy", "memmove", "memset"), _MEMORY),
}
# The beginnings of others.
_FAMILIES = {
    "__asan_": "the code checks itself: compile it without -fsanitize=address",
    "__cyg_profile_func_": "the code reports calls: compile it without -finstrument-functions",
    "__gcov_": "the code counts its calls: compile it without --coverage and -fprofile-generate",
    "__llvm_profile_": "the code counts its calls: compile it without -fprofile-generate",
    "__sanitizer_cov_": "the code reports its way: compile it without -fsanitize-coverage",
    "__tsan_": "the code checks itself: compile it without -fsanitize=thread",
    "__ubsan_handle_": "the code checks itself: compile it without -fsanitize=undefined",
    "llvm_gc": "the code counts its calls: compile it without --coverage",
}
_FORTIFIED = re.compile(r"__\w+_chk")


def link_hints(
    files: Sequence[Linked], rule: int, file: int, index: int, entry: int
) -> Iterator[str]:
    """Of a rule of the link that is broken by a section, a symbol or a relocation."""
    if file >= len(files):
        return
    it = files[file]
    if rule == _TLS:
        yield f"{_section_name(it, it.section(index))}: {_THREADS}"
    elif rule == _LINK_ORDER:
        yield from _placed_by_another(it, index)
    elif rule == EMPTY_SIGNATURE:
        yield from _unnamed_signature(it, index)
    elif rule == _BAD_SYMBOL:
        yield from _unusual_symbol(it, index)
    elif rule == UNDEFINED_NAME:
        yield from _undefined(files, it, index)
    elif rule == NO_RULE:
        yield from _unknown_relocation(it, index, entry)
    elif rule == _UNPLACED:
        yield from _into_a_group(it, index, entry)


def _section_name(file: Linked, index: int) -> str:
    return file.words.section_string(index) or f"section {index}"


def _placed_by_another(file: Linked, position: int) -> Iterator[str]:
    name = _section_name(file, file.section(position))
    if name == "__patchable_function_entries":
        yield f"{name} is by -fpatchable-function-entry: compile without that option"
    elif name.startswith("xray_"):
        yield f"{name} is by -fxray-instrument: compile without that option"


def _unnamed_signature(file: Linked, position: int) -> Iterator[str]:
    words = file.words
    group = file.section(position)
    table = words.section(group, "sh_link")
    symbol = words.section(group, "sh_info")
    if words.symbol(table, symbol, "st_info") & 15 != _OF_SECTION:
        return
    name = _section_name(file, words.symbol(table, symbol, "st_shndx"))
    if name == ".stapsdt.base":
        strip = "objcopy --remove-section=.note.stapsdt --remove-section=.stapsdt.base"
        yield (
            "probes of SystemTap (<sys/sdt.h>) have such a group: compile without them"
            f" (--disable-systemtap, --disable-dtrace), or strip it: {strip} {_path(file)}"
        )
    else:
        yield (
            "the assembler signs a group that has the name of a section with the symbol of that"
            f" section: give the group another name than {name}"
        )


def _path(file: Linked) -> str:
    return shell_word(file.file)


def _unusual_symbol(file: Linked, position: int) -> Iterator[str]:
    info = file.words.symbol(file.symbols, position + 1, "st_info")
    name = file.symbol_name(position)
    if info & 15 == _OF_THREAD:
        yield from _of_family(name) or [f"{name}: {_THREADS}"]
    elif info >> 4 == _GNU_UNIQUE:
        yield (
            f"{name} is GNU_UNIQUE, as g++ makes variables of inline"
            " functions and templates: compile with -fno-gnu-unique"
        )


def _of_family(name: str) -> list[str]:
    """What made code that refers to a name, by its beginning."""
    return [f"{name}: {it}" for start, it in _FAMILIES.items() if name.startswith(start)]


def _undefined(files: Sequence[Linked], file: Linked, position: int) -> Iterator[str]:
    name = file.symbol_name(position)
    if name == _GOT_NAME:
        options = _without_table(file.words.machine)
        yield f"{name}: the code is compiled for a global offset table: {options}"
    if name in _NAMES:
        yield f"{name}: {_NAMES[name]}"
    yield from _of_family(name)
    if _FORTIFIED.fullmatch(name):
        yield f"{name}: the code checks its buffers: compile it with -U_FORTIFY_SOURCE"
    of_linker = linker_name(file.raw_name(position), file.words.machine)
    if of_linker:
        advice = of_linker.advice(name)
        yield f"ld defines {name} as {of_linker.words}, and elfmap does not: {advice}"
    for it in files:
        version = it.default_version(file.raw_name(position))
        if version:
            lead = f"ld takes {version} of {it.path} for {name}, and elfmap does not"
            yield f"{lead}: compile that file without .symver"
        if slim_symbol(it):
            yield f"{it.path} has no code but that for LTO: {_LTO}"


def slim_symbol(file: Linked) -> int:
    """The symbol by which gcc marks an object whose code is for LTO alone; 0 if it has none."""
    words = file.words
    names = (words.name(words.names, it[1], len(_LTO_SECTION)) for it in words.headers())
    if _LTO_SECTION not in names:
        return 0
    start, end = words.content(file.symbols)
    # Such an object has no other symbols but those of its file.
    for position in islice(range((end - start) // 24 - 1), _SYMBOLS_AT_ONCE):
        if file.raw_name(position, len(_LTO_SYMBOL) + 1) == _LTO_SYMBOL:
            return position + 1
    return 0


def _unknown_relocation(file: Linked, index: int, entry: int) -> Iterator[str]:
    """A relocation by a table that elfmap does not make, one for which a rule can be, or one of
    which no rule can say anything."""
    at = file.relocation(index, entry)
    if at < 0:
        return
    number = file.words.number(at + 8, 8) & 0xFFFFFFFF
    machine = file.words.machine
    name = relocation_types(machine).get(number, "")
    kind = f"{number}, {name} of machine" if name else f"{number} of machine"
    own = f"the rule file has no line for type {kind} {machine_words(machine)}"
    yield f"{own}; {kind_words(machine, file.words.order, number)}"


def kind_words(machine: int, order: str, kind: int) -> str:
    """What an object needs that has relocations of a kind: another option of the compiler, or a
    line of rules; or why no line can be for it."""
    name = relocation_types(machine).get(kind, "")
    if _OF_THREADS.search(name):
        return _THREADS
    if _OF_GOT.search(name):
        return f"{name} is by {_GOT}: {_without_table(machine)}"
    line = line_in_rules(machine, order, kind)
    if line:
        call = f"{name} is a call, which needs no table here: " if "PLT32" in name else ""
        return f"{call}the rule file needs the line {line}"
    return _no_line_words(machine, order, kind)


def _without_table(machine: int) -> str:
    """The options without which code for a machine has no global offset table."""
    return _WITHOUT_GOT.get(machine, _WITHOUT_GOT_ELSE)


def line_in_rules(machine: int, order: str, kind: int) -> str:
    """The line of a kind, and the file of rules/ that has it; or an empty text."""
    found = file_with(machine, order, kind)
    return f"`{found.rules[kind].line(kind)}`, as in {found.path}" if found else ""


def _no_line_words(machine: int, order: str, kind: int) -> str:
    """Why no file of rules/ has a line for a kind."""
    if changes_no_bytes(machine, kind):
        return f"it needs the line `{kind} none 1 wrap`: the psABI defines that it changes nothing"
    fitting = files_for(machine, order)
    if fitting:
        return (
            f"{fitting[0].path}, which is for this machine, has no line for it either: no rule"
            " describes what is a part of an instruction, is shifted, or is made by the linker"
        )
    if (machine, order) == _LITTLE_MIPS:
        return "no rule can be for MIPS of this byte order: its types are elsewhere in r_info"
    return "none of the twelve files of rules/ is for this machine: its psABI defines the type"


def _into_a_group(file: Linked, index: int, entry: int) -> Iterator[str]:
    """A relocation of tables of frames, which refers to a function of a group that is dropped."""
    words = file.words
    target = words.section(file.section(index), "sh_info")
    name = words.section_string(target)
    at = file.relocation(index, entry)
    symbol = words.number(at + 8, 8) >> 32 if at >= 0 else 0
    flags = words.section(words.symbol_section(file.symbols, symbol), "sh_flags")
    if name == ".eh_frame" and flags & _IN_GROUP:
        yield (
            f"{name} refers to a function of a group that an earlier file has already:"
            " compile with -fno-asynchronous-unwind-tables, and C++ with -fno-exceptions too"
        )


def warning_advice(file: Linked, number: int, at: int) -> str:
    """What to do of a warning about the symbol or the relocation at an offset, if that shows more
    than the advice for all; or an empty text."""
    if number == NAME_OF_LINKER:
        position, _ = file.position_at(UNDEFINED_NAME, at)
        name = linker_name(file.raw_name(position), file.words.machine)
        return name.advice(file.symbol_name(position)) if name else ""
    if number in (FIELD_UNCHANGED, FIELD_CHANGED_OTHERWISE):
        start = file.relocation(*file.position_at(NO_RULE, at))
        kind = file.words.number(start + 8, 8) & 0xFFFFFFFF
        return kind_words(file.words.machine, file.words.order, kind) if start >= 0 else ""
    return ""
