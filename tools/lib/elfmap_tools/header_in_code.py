"""What include/elfmap.h declares, as the bindings have it: bindings/rust/src/raw/declared.rs,
bindings/python/elfmap/_declared.py for ctypes, and page/declared.js, which has the constants alone.
`tools/release tables` makes them."""

import re
import textwrap
from collections.abc import Iterator

from .header import HIGHEST, NUMBERS, Call, Constant, Struct, Type, class_name, of_library

COLUMNS = 100
MADE = "What include/elfmap.h declares. Made by `tools/release tables` from it, not edited by hand."
# What the crate for Rust has above its structs, and above those with pointers.
DERIVED = "#[derive(Clone, Copy, Debug, Default, PartialEq, Eq, Hash)]"
DERIVED_OF_POINTERS = DERIVED.replace("Default, ", "")
# The greatest number that differs from the next one in JavaScript.
MOST_WHOLE = 2**53 - 1
# The names of two records there: its `Section` and `Segment` have more than the record.
RECORDS = {"Section": "SectionHeader", "Segment": "ProgramHeader"}
# What the Python package has above its calls.
OF_CALLS = """\
# Of each call the type of its result, and after it those of its parameters.
CALLS: dict[str, list[Any]] = {"""


def sentence(words: str) -> str:
    """A comment as a sentence."""
    return f"{words[0].upper()}{words[1:].removesuffix('.')}."


def filled(text: str, begin: str) -> list[str]:
    """A text in lines that begin so."""
    return textwrap.wrap(
        text,
        COLUMNS,
        initial_indent=begin,
        subsequent_indent=begin,
        break_long_words=False,
        break_on_hyphens=False,
    )


def listed(head: str, parts: list[str], tail: str) -> Iterator[str]:
    """An indented list in one line, or if that is too long, in one for each part."""
    line = f"    {head}{', '.join(parts)}{tail}"
    if len(line) <= COLUMNS:
        yield line
    else:
        yield from (f"    {head}", *(f"        {it}," for it in parts), f"    {tail}")


# ---- Rust


def rust_name(name: str) -> str:
    """A type that is no pointer in Rust."""
    own = NUMBERS.get(name) or class_name(name)
    return RECORDS.get(own, own)


def rust_type(it: Type, is_slice: bool = False) -> str:
    """A type in Rust, where a pointer to one item is a reference."""
    own = rust_name(it.name)
    if it.is_pointer and is_slice:
        return f"*{'const' if it.is_const else 'mut'} {own}"
    if it.is_pointer:
        return f"&{own}" if it.is_const else f"&mut {own}"
    return f"[{own}; {it.length}]" if it.length else own


def rust_constant(it: Constant) -> Iterator[str]:
    """The lines of a constant."""
    kind = rust_name(it.type)
    yield from filled(sentence(it.words), "/// ")
    yield f"pub const {it.name}: {kind} = {f'{kind}::MAX' if it.value == HIGHEST else it.value};"


def rust_struct(struct: Struct) -> Iterator[str]:
    """The lines of a struct."""
    yield from filled(struct.words, "/// ")
    yield DERIVED_OF_POINTERS if struct.has_pointer() else DERIVED
    yield from ("#[repr(C)]", f"pub struct {rust_name(struct.tag)} {{")
    for it in struct.fields:
        yield from filled(sentence(it.words), "    /// ") if it.words else ()
        yield f"    pub {it.name}: {rust_type(it.type, is_slice=True)},"
    yield "}"


def rust_call(call: Call) -> Iterator[str]:
    """The lines of a call."""
    parts = [f"{it.name}: {rust_type(it.type, is_slice)}" for it, is_slice in call.with_slices()]
    yield from listed(f"pub fn {call.name}(", parts, f") -> {rust_name(call.result)};")


def rust() -> str:
    """What the crate for Rust has."""
    declared = of_library()
    calls = [line for it in declared.calls for line in rust_call(it)]
    parts = [
        f"//! {MADE}",
        "// The crate does not need all of it.\n#![allow(dead_code)]",
        *("\n".join(rust_constant(it)) for it in declared.constants),
        *("\n".join(rust_struct(it)) for it in declared.structs),
        "\n".join(['extern "C" {', *calls, "}"]),
    ]
    return "\n\n".join(parts) + "\n"


# ---- Python


def python_name(name: str) -> str:
    """A type that is no pointer in ctypes: `c_uint8` for `uint8_t`."""
    return "c_" + re.sub(r"(?<=\d)_t$", "", name) if name in NUMBERS else class_name(name)


def python_type(it: Type, is_slice: bool = False) -> str:
    """A type in ctypes, where many numbers are at an address."""
    own = python_name(it.name)
    if it.is_pointer:
        return "c_void_p" if is_slice and it.name in NUMBERS else f"POINTER({own})"
    return f"{own} * {it.length}" if it.length else own


def python_constant(it: Constant) -> Iterator[str]:
    """The lines of a constant."""
    yield from filled(sentence(it.words), "# ")
    yield f"{it.name} = {'2**64 - 1' if it.value == HIGHEST else it.value}"


def python_struct(struct: Struct) -> Iterator[str]:
    """The lines of a struct."""
    yield f"class {class_name(struct.tag)}(Structure):"
    yield from filled(f'"""{struct.words}"""', "    ")
    yield ""
    fields = [f'("{it.name}", {python_type(it.type, is_slice=True)})' for it in struct.fields]
    yield from listed("_fields_ = [", fields, "]")


def python_call(call: Call) -> Iterator[str]:
    """The lines of a call: the type of its result, and those of its parameters."""
    types = [python_type(it.type, is_slice) for it, is_slice in call.with_slices()]
    yield from listed(f'"{call.name}": [', [python_name(call.result), *types], "],")


def python() -> str:
    """What the Python package has."""
    declared = of_library()
    calls = [line for it in declared.calls for line in python_call(it)]
    parts = [
        "\n".join(line for it in declared.constants for line in python_constant(it)),
        *("\n".join(python_struct(it)) for it in declared.structs),
        "\n".join([OF_CALLS, *calls, "}"]),
    ]
    body = "\n\n\n".join(parts)
    names = sorted({"POINTER", "Structure", *re.findall(r"\bc_\w+", body)})
    imported = "".join(f"    {it},\n" for it in names)
    head = f'"""{MADE}"""\n\nfrom ctypes import (\n{imported})\nfrom typing import Any'
    return f"{head}\n\n{body}\n"


# ---- The page


def script_constant(it: Constant) -> Iterator[str]:
    """The lines of a constant. The page reads a number that is not whole there as a BigInt."""
    yield from filled(sentence(it.words), "    // ")
    yield f"    {it.name}: {it.value if it.value <= MOST_WHOLE else f'0x{it.value:x}n'},"


def script() -> str:
    """What the page has."""
    lines = [line for it in of_library().constants for line in script_constant(it)]
    return "\n".join([f'"use strict";\n// {MADE}\n\nconst ELFMAP = {{', *lines, "};"]) + "\n"
