"""The names and the numbers of the gABI in the page for a browser, page/names.js, which
`tools/release tables` makes of those of the Python package."""

import textwrap
from collections.abc import Iterator, Mapping
from enum import IntEnum

from elfmap import _names, constants

PATH = "page/names.js"
HEAD = """\
"use strict";
// The numbers of the gABI by their names there, and the names of numbers, with those that systems
// and processors add. Made by `tools/release tables` from constants.py and _names.py of
// bindings/python/elfmap, not edited by hand.
"""
# The kinds whose numbers the page's scripts name.
KINDS: dict[str, type[IntEnum]] = {
    "ET": constants.ET,
    "SHN": constants.SHN,
    "SHT": constants.SHT,
    "STB": constants.STB,
    "PT": constants.PT,
    "DT": constants.DT,
}
# The names of numbers, by the field that has them.
NAMES = {
    "e_type": _names.FILE_TYPES,
    "e_machine": _names.MACHINES,
    "sh_type": _names.SECTION_TYPES,
    "p_type": _names.SEGMENT_TYPES,
    "st_bind": _names.SYMBOL_BINDINGS,
    "st_type": _names.SYMBOL_TYPES,
    "st_shndx": _names.RESERVED_SECTIONS,
    "d_tag": _names.DYNAMIC_TAGS,
}


def object_of(pairs: Mapping[str, str], indent: str = "") -> str:
    """An object of a script, in lines of 140 columns, none of which ends in a pair."""
    inner = f"{indent}    "
    body = ", ".join(f"{key}:~{it}" for key, it in pairs.items())
    body = textwrap.fill(body, 139, initial_indent=inner, subsequent_indent=inner)
    return f"{{\n{body.replace('~', ' ')},\n{indent}}}"


def numbers(kind: type[IntEnum]) -> dict[str, str]:
    """The numbers of a kind by their names, as words of a script."""
    return {name: str(it.value) for name, it in kind.__members__.items()}


def named(names: Mapping[int, str]) -> dict[str, str]:
    """The names of numbers, as words of a script."""
    return {str(int(number)): f'"{name}"' for number, name in sorted(names.items())}


def lines() -> Iterator[str]:
    """The parts of the script."""
    yield HEAD
    for prefix, kind in KINDS.items():
        yield f"const {prefix} = {object_of(numbers(kind))};\n"
    yield "const NAMES = {"
    for field, names in NAMES.items():
        yield f"    {field}: {object_of(named(names), '    ')},"
    yield "};\n"
    yield "// Flags by their letters, as readelf has them."
    yield f"const SECTION_FLAGS = {object_of(named(_names.SECTION_FLAGS))};"
    yield f"const SEGMENT_FLAGS = {object_of(named(_names.SEGMENT_FLAGS))};\n"
    yield "// The tags of entries whose value is the offset of a string."
    yield f"const STRING_TAGS = [{', '.join(str(int(it)) for it in _names.STRING_TAGS)}];\n"


def script() -> str:
    """What the file has to be."""
    return "\n".join(lines())
