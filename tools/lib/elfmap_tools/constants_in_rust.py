"""The constants of the gABI in the crate for Rust, bindings/rust/src/constants.rs, which
`tools/release tables` makes of those of the Python package."""

import re
from collections.abc import Iterator
from enum import IntEnum, IntFlag
from typing import Union

from elfmap import constants

PATH = "bindings/rust/src/constants.rs"
HEAD = """\
//! The numbers of the gABI for tables and records, by their names there. Made by `tools/release
//! tables` from the Python package, bindings/python/elfmap/constants.py.
//!
//! Numbers that processors and systems add are not here, but for those of machines."""
# The field of a kind, in the comment on it.
FIELD = re.compile(r"`(\w+)`")
# The constants of one kind, and the types of the fields that hold them.
Kind = Union[type[IntEnum], type[IntFlag]]
TYPES: dict[str, tuple[Kind, str]] = {
    "ET": (constants.ET, "u16"),
    "EM": (constants.EM, "u16"),
    "SHN": (constants.SHN, "u16"),
    "SHT": (constants.SHT, "u32"),
    "SHF": (constants.SHF, "u64"),
    "STB": (constants.STB, "u8"),
    "STT": (constants.STT, "u8"),
    "STV": (constants.STV, "u8"),
    "PT": (constants.PT, "u32"),
    "PF": (constants.PF, "u32"),
    "DT": (constants.DT, "i64"),
}


def lines_of(prefix: str, kind: Kind, type_name: str) -> Iterator[str]:
    """The constants of a kind, each with the field that holds it."""
    (field,) = FIELD.findall(kind.__doc__ or "")
    is_flag = issubclass(kind, IntFlag)
    for name, value in kind.__members__.items():
        number = f"{value:#x}" if is_flag or prefix == "SHN" else f"{value:d}"
        yield f"/// A {'flag' if is_flag else 'value'} of `{field}`."
        yield f"pub const {prefix}_{name}: {type_name} = {number};"


def rust() -> str:
    """What the file has to be."""
    parts = [HEAD]
    for prefix, (kind, type_name) in TYPES.items():
        parts.append("\n".join(lines_of(prefix, kind, type_name)))
    return "\n\n".join(parts) + "\n"
