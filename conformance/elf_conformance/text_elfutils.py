"""What `eu-readelf -h -S -l -s -r -g -n -d` of elfutils prints, as a reading."""

import re
from typing import Any

from .names import (
    BINDINGS,
    INDEXES,
    SECTION_TYPES,
    SEGMENT_TYPES,
    SYMBOL_TYPES,
    VISIBILITIES,
    flags,
    known,
)
from .text_header import header

Reading = dict[str, Any]
HEADER = {
    "phentsize": r"Size of program header entries: +(\d+)",
    "phnum": r"Number of program headers entries: +(\d+)",
    "shentsize": r"Size of section header entries: +(\d+)",
    "shnum": r"Number of section headers entries: +(\d+)",
}
SECTION = re.compile(
    r"^\[ *(\d+)\] (.*?) +([0-9a-f]{16}) ([0-9a-f]{8,}) ([0-9a-f]{8,}) +(-?\d+) "
    r"([A-Za-z]*) +(-?\d+) +(-?\d+) +(-?\d+)$",
    re.M,
)
SEGMENT = re.compile(
    r"^  (<[^>]+>: \S+|\S+) +0x([0-9a-f]+) 0x([0-9a-f]{16}) 0x([0-9a-f]{16}) "
    r"0x([0-9a-f]+) 0x([0-9a-f]+) (...) (?:0x)?([0-9a-f]+)$",
    re.M,
)
TABLE = re.compile(
    r"^Symbol table \[ *(\d+)\] '.*' contains \d+ entr(?:y|ies):\n.*\n +Num:.*\n"
    r"((?: +\d+: .*\n)*)",
    re.M,
)
SYMBOL = re.compile(
    r"^ +\d+: ([0-9a-f]{16}) +(\d+) (<[^>]+>: \S+|\S+) +(<[^>]+>: \S+|\S+) +(\S+) +"
    r"(?:XINDEX: )?(<[^>]+>: \S+|\S+) ?(.*)$"
)
RELOCATIONS = re.compile(
    r"^Relocation section \[ *(\d+)\] .*contains \d+ entr(?:y|ies):\n.*\n"
    r"((?:  0[x0-9a-f]{17} .*\n)*)",
    re.M,
)
GROUP = re.compile(
    r"^(COMDAT s|S)ection group \[ *(\d+)\] '.*' with signature '(.*)' contains \d+ "
    r"entr(?:y|ies):\n((?:  \[ *\d+\].*\n)*)",
    re.M,
)
NOTES = re.compile(r"^Note section \[ *(\d+)\] .*:\n  Owner.*\n((?:  .*\n)*)", re.M)
DYNAMIC = re.compile(
    r"^Dynamic segment contains \d+ entr(?:y|ies):\n Addr:.*Link to section: .*\n.*\n"
    r"((?:  .*\n)*)",
    re.M,
)


def sections(text: str) -> list[Reading]:
    """The section headers."""
    made: list[Reading] = []
    for it in SECTION.findall(text):
        words, unknown, _ = it[1].partition("<unknown>:")
        parts = words.strip().rsplit(maxsplit=1) if not unknown else [words.strip(), ""]
        name, type = ["", *parts][-2:]
        address, offset, size = (int(number, 16) for number in it[2:5])
        entsize, link, info, align = (int(number) for number in (it[5], *it[7:]))
        own = known({"type": SECTION_TYPES.get(type), "letter_flags": flags(it[6])})
        # It shows this word where there is no name table.
        own |= {} if name == "<corrupt>" else {"name": name}
        places = {"addr": address, "offset": offset, "size": size, "entsize": entsize}
        made.append({**own, **places, "link": link, "info": info, "addralign": align})
    return made


def segments(text: str) -> list[Reading]:
    """The program headers."""
    made: list[Reading] = []
    for it in SEGMENT.findall(text):
        offset, address, physical, size, memory = (int(number, 16) for number in it[1:6])
        own = known({"type": SEGMENT_TYPES.get(it[0])})
        places = {"offset": offset, "vaddr": address, "paddr": physical}
        sizes = {"filesz": size, "memsz": memory, "align": int(it[7], 16)}
        made.append({**own, **places, **sizes})
    return made


def symbol(line: str) -> Reading:
    """A symbol of a line."""
    it = SYMBOL.match(line)
    if not it:
        return {}
    value, size, kind, binding, visibility, place, name = it.groups()
    numbers: dict[str, int | str | None] = {"value": int(value, 16), "size": int(size)}
    numbers |= {"type": SYMBOL_TYPES.get(kind), "binding": BINDINGS.get(binding)}
    numbers |= {"visibility": VISIBILITIES.get(visibility)}
    if place.isdecimal():
        numbers["section"] = int(place)
    elif place in INDEXES:
        numbers["section"] = INDEXES[place]
    if kind != "SECTION":
        # A version is after the name.
        numbers["name"] = name.partition("@")[0]
    return known(numbers)


def relocations(text: str) -> Reading:
    """The places and addends of relocations, by the indexes of their sections."""
    made: Reading = {}
    for index, lines in RELOCATIONS.findall(text):
        rows: list[Reading] = []
        for line in lines.splitlines():
            row: Reading = {"offset": int(line.split()[0], 16)}
            if addend := re.search(r" ([+-]\d+) \S*$", line):
                row["addend"] = int(addend[1])
            rows.append(row)
        made[index] = rows
    return made


def groups(text: str) -> Reading:
    """The section groups."""
    made: Reading = {}
    for comdat, index, signature, lines in GROUP.findall(text):
        members = [int(it) for it in re.findall(r"^  \[ *(\d+)\]", lines, re.M)]
        flags_of_group = int(comdat.startswith("COMDAT"))
        made[index] = {"flags": flags_of_group, "signature": signature, "members": members}
    return made


def notes(text: str) -> Reading:
    """The owners and sizes of notes."""
    made: Reading = {}
    for index, lines in NOTES.findall(text):
        rows = re.findall(r"^  (\S*) +(\d+)  \S", lines, re.M)
        made[index] = [{"name": name, "size": int(size)} for name, size in rows]
    return made


def reading(text: str) -> Reading:
    """All that it prints."""
    own = sections(text.partition("\nSection Headers:")[2].partition("\n\n")[0])
    made: Reading = {"header": header(text, HEADER), "sections": own}
    own_segments = text.partition("\nProgram Headers:")[2].partition("\n\n")[0]
    made["segments"] = segments(own_segments)
    tables = TABLE.findall(text)
    made["symbols"] = {
        index: [symbol(line) for line in lines.splitlines()] for index, lines in tables
    }
    made["relocations"] = relocations(text)
    made["groups"] = groups(text)
    made["notes"] = notes(text)
    return made
