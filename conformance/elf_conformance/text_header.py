"""The header, of which `readelf -h` and `eu-readelf -h` print most in the same words."""

import re
from typing import Any

from .names import FILE_TYPES, known

Reading = dict[str, Any]
# The fields that both print alike.
SAME = {
    "entry": r"Entry point address: +(0x[0-9a-f]+|0)",
    "phoff": r"Start of program headers: +(\d+)",
    "shoff": r"Start of section headers: +(\d+)",
    "ehsize": r"Size of this header: +(\d+)",
    "shstrndx": r"Section header string table index: +(\d+)",
    "abiversion": r"ABI Version: +(\d+)",
}


def header(text: str, own: dict[str, str]) -> Reading:
    """The header in a text that has these fields of its own too, each by a pattern."""
    made: Reading = {}
    for name, pattern in {**SAME, **own}.items():
        found = re.search(pattern, text)
        if found:
            made[name] = int(found[1], 0)
    if found := re.search(r"^ +Type: +(\w+) \(", text, re.M):
        made |= known({"type": FILE_TYPES.get(found[1])})
    if found := re.search(r"^ +Data: +2's complement, (little|big) endian", text, re.M):
        made["order"] = found[1]
    return made
